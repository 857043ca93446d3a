//! A burst of datagrams (C-15): each is a call of its own, in order, on the bytes that the one before left.

use crate::calls::Call;
use crate::layout;
use crate::low;
use crate::table::Counters;
use crate::Number;

/// The lists of a burst: datagrams "end to end in one buffer with a list of lengths and a signer, endpoint and
/// clock pair for each". A signer has 64 bytes, an address 17: its length, and sixteen bytes.
#[derive(Clone, Debug, Default, PartialEq, Eq)]
pub struct Burst {
    pub buffer: Vec<u8>,
    pub lengths: Vec<usize>,
    pub signers: Vec<u8>,
    pub addresses: Vec<u8>,
    pub ports: Vec<u16>,
    pub millis: Vec<u64>,
    pub unix: Vec<u64>,
}

impl Burst {
    /// Adds a datagram call. A key that isn't 64 bytes has no form but zeros; of an address of more than
    /// sixteen bytes only the length is told.
    pub fn push(&mut self, call: &Call) {
        let Call::Datagram { now, unix, address, port, signer, datagram } = call else {
            panic!("a burst is of datagrams");
        };
        self.buffer.extend(datagram);
        self.lengths.push(datagram.len());
        self.signers.extend(if signer.len() == 64 { signer.clone() } else { vec![0; 64] });
        let mut packed = address.clone();
        packed.resize(16, 0);
        self.addresses.push(address.len().min(255) as u8);
        self.addresses.extend(packed);
        self.ports.push(*port);
        self.millis.push(*now);
        self.unix.push(*unix);
    }

    /// Not "if there are more than 32, the lengths don't sum to the buffer, or the lists, that of numbers too,
    /// differ in length".
    pub fn is_whole(&self, room: usize) -> bool {
        let count = self.lengths.len();
        let sum: u128 = self.lengths.iter().map(|length| *length as u128).sum();
        let lists = [self.ports.len(), self.millis.len(), self.unix.len(), room];
        count <= 32
            && sum == self.buffer.len() as u128
            && self.signers.len() == 64 * count
            && self.addresses.len() == 17 * count
            && lists.iter().all(|length| *length == count)
    }

    /// The datagrams of a whole burst as calls: "an all-zero signer key as the empty one".
    pub fn calls(&self) -> Vec<Call> {
        let mut rest = &self.buffer[..];
        let one = |(i, length): (usize, &usize)| {
            let (datagram, behind) = rest.split_at(*length);
            rest = behind;
            let signer = &self.signers[64 * i..][..64];
            let signer = if signer == [0; 64] { Vec::new() } else { signer.to_vec() };
            let (len, bytes) = (usize::from(self.addresses[17 * i]), &self.addresses[17 * i + 1..][..16]);
            let mut address = bytes[..len.min(16)].to_vec();
            address.resize(len, 0);
            let (now, unix, port) = (self.millis[i], self.unix[i], self.ports[i]);
            Call::Datagram { now, unix, address, port, signer, datagram: datagram.to_vec() }
        };
        self.lengths.iter().enumerate().map(one).collect()
    }

    /// "Table, tally and numbers are those of handing them over one at a time, in order"; "28, not counted in
    /// the tally, before anything is handled".
    pub fn run(&self, memory: &mut [u8], counters: &mut Counters, numbers: &mut [u8]) -> Number {
        self.run_each(numbers, |call| layout::run(memory, counters, call).number())
    }

    /// The same where `millis` are readings of a counter of 32 bits (C-20): each is widened by the table's clock at its turn.
    pub fn run_low(&self, memory: &mut [u8], counters: &mut Counters, numbers: &mut [u8]) -> Number {
        self.run_each(numbers, |call| {
            let Call::Datagram { now, .. } = call else { unreachable!() };
            low::run(memory, counters, call, *now as u32).number()
        })
    }

    fn run_each(&self, numbers: &mut [u8], mut run: impl FnMut(&Call) -> Number) -> Number {
        if !self.is_whole(numbers.len()) {
            return 28;
        }
        for (call, number) in self.calls().iter().zip(numbers) {
            *number = run(call);
        }
        0
    }
}
