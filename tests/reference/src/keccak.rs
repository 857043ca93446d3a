//! Keccak-256: "the Keccak team's original with first padding byte 01, not FIPS 202's SHA3-256".
//! The constants are worked out from the Keccak team's definitions here, not copied, so that a
//! slip in a copied figure elsewhere shows as a difference.

/// Bytes that one block takes into the state: 1600 - 2 * 256 bits.
const RATE: usize = 136;

/// RC[i] has bit 2^j - 1 equal to rc(j + 7 i) for j = 0 to 6, all other bits zero.
const ROUND_CONSTANTS: [u64; 24] = {
    let mut constants = [0u64; 24];
    let mut round = 0;
    while round < 24 {
        let mut j = 0;
        while j < 7 {
            if rc(j + 7 * round) {
                constants[round] |= 1 << ((1 << j) - 1);
            }
            j += 1;
        }
        round += 1;
    }
    constants
};

/// rc(t) is the constant term of x^t modulo x^8 + x^6 + x^5 + x^4 + 1 over GF(2).
const fn rc(t: usize) -> bool {
    let mut power: u16 = 1;
    let mut i = 0;
    while i < t % 255 {
        power <<= 1;
        if power & 0x100 != 0 {
            power ^= 0x171;
        }
        i += 1;
    }
    power & 1 == 1
}

/// The rotation of lane (x, y), at x + 5 y: from (1, 0) on, lane number t of the walk
/// (x, y) -> (y, 2x + 3y) turns by (t + 1)(t + 2) / 2; lane (0, 0) doesn't turn.
const ROTATIONS: [u32; 25] = {
    let mut rotations = [0u32; 25];
    let (mut x, mut y) = (1, 0);
    let mut t = 0;
    while t < 24 {
        rotations[x + 5 * y] = ((t + 1) * (t + 2) / 2) % 64;
        let turned = (2 * x + 3 * y) % 5;
        x = y;
        y = turned;
        t += 1;
    }
    rotations
};

/// Keccak-f[1600] on lanes at x + 5 y.
fn permute(lanes: &mut [u64; 25]) {
    for constant in ROUND_CONSTANTS {
        // theta: each lane is added the parities of two columns
        let mut parity = [0u64; 5];
        for x in 0..5 {
            parity[x] = lanes[x] ^ lanes[x + 5] ^ lanes[x + 10] ^ lanes[x + 15] ^ lanes[x + 20];
        }
        for x in 0..5 {
            let added = parity[(x + 4) % 5] ^ parity[(x + 1) % 5].rotate_left(1);
            for y in 0..5 {
                lanes[x + 5 * y] ^= added;
            }
        }
        // rho and pi: each lane turns and moves to (y, 2x + 3y)
        let mut moved = [0u64; 25];
        for x in 0..5 {
            for y in 0..5 {
                moved[y + 5 * ((2 * x + 3 * y) % 5)] = lanes[x + 5 * y].rotate_left(ROTATIONS[x + 5 * y]);
            }
        }
        // chi: along each row
        for y in 0..5 {
            for x in 0..5 {
                lanes[x + 5 * y] =
                    moved[x + 5 * y] ^ (!moved[(x + 1) % 5 + 5 * y] & moved[(x + 2) % 5 + 5 * y]);
            }
        }
        // iota
        lanes[0] ^= constant;
    }
}

/// The sponge with 32 bytes of output; `padding` is the first padding byte.
fn sponge(message: &[u8], padding: u8) -> [u8; 32] {
    let mut padded = message.to_vec();
    padded.push(padding);
    padded.resize(padded.len().div_ceil(RATE) * RATE, 0);
    *padded.last_mut().unwrap() |= 0x80;
    let mut lanes = [0u64; 25];
    for block in padded.chunks(RATE) {
        for (lane, bytes) in lanes.iter_mut().zip(block.chunks(8)) {
            *lane ^= u64::from_le_bytes(bytes.try_into().unwrap());
        }
        permute(&mut lanes);
    }
    let mut digest = [0u8; 32];
    for (bytes, lane) in digest.chunks_mut(8).zip(lanes) {
        bytes.copy_from_slice(&lane.to_le_bytes());
    }
    digest
}

pub fn keccak256(message: &[u8]) -> [u8; 32] {
    sponge(message, 0x01)
}

/// SHA3-256: the same sponge with padding byte 06. Only for tests: its published digests check the
/// permutation and the blocks at many lengths.
pub fn sha3_256(message: &[u8]) -> [u8; 32] {
    sponge(message, 0x06)
}

#[cfg(test)]
mod tests {
    use super::*;

    /// The first and last figures as the Keccak team prints them.
    #[test]
    fn constants_as_published() {
        assert_eq!(ROUND_CONSTANTS[0], 0x0000_0000_0000_0001);
        assert_eq!(ROUND_CONSTANTS[1], 0x0000_0000_0000_8082);
        assert_eq!(ROUND_CONSTANTS[2], 0x8000_0000_0000_808a);
        assert_eq!(ROUND_CONSTANTS[22], 0x0000_0000_8000_0001);
        assert_eq!(ROUND_CONSTANTS[23], 0x8000_0000_8000_8008);
        let rows = [
            [0, 1, 62, 28, 27],
            [36, 44, 6, 55, 20],
            [3, 10, 43, 25, 39],
            [41, 45, 15, 21, 8],
            [18, 2, 61, 56, 14],
        ];
        assert_eq!(ROTATIONS, rows.concat()[..]);
    }
}
