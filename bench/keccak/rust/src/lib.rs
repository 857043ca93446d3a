//! RustCrypto's Keccak-256 behind the C signature that the benchmark calls.
use sha3::{Digest, Keccak256};

/// # Safety
/// `message` points to `len` readable bytes, `out` to 32 writable ones.
#[no_mangle]
pub unsafe extern "C" fn rustcrypto_keccak256(message: *const u8, len: usize, out: *mut u8) {
    let hash = Keccak256::digest(std::slice::from_raw_parts(message, len));
    std::ptr::copy_nonoverlapping(hash.as_ptr(), out, 32);
}
