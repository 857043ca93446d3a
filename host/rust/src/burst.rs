//! A burst: up to 32 datagrams that one call hands over.

use crate::{done, sys, Counters, MonotonicMillis, Number, Table, UnixSeconds};

/// The most datagrams of a burst.
pub const MOST: usize = 32;

/// The lists of a burst, which [`Burst::push`] keeps of one length: the datagrams end to end and their lengths;
/// for each a signer's key of 64 bytes, an address of 17 (its length, and sixteen bytes), a UDP port and the
/// two clocks.
#[derive(Clone, Debug, PartialEq, Eq)]
pub struct Burst<Clock = MonotonicMillis> {
    pub buffer: Vec<u8>,
    pub lengths: Vec<usize>,
    pub signers: Vec<u8>,
    pub addresses: Vec<u8>,
    pub ports: Vec<u16>,
    pub millis: Vec<Clock>,
    pub unix: Vec<UnixSeconds>,
}

impl<Clock> Default for Burst<Clock> {
    fn default() -> Burst<Clock> {
        Burst {
            buffer: Vec::new(),
            lengths: Vec::new(),
            signers: Vec::new(),
            addresses: Vec::new(),
            ports: Vec::new(),
            millis: Vec::new(),
            unix: Vec::new(),
        }
    }
}

impl<Clock> Burst<Clock> {
    /// A datagram came from `address` and `port`, signed with the key `signer`, which is empty where the
    /// signature recovers none. A key that isn't 64 bytes goes as the empty one, which is refused with 5 too;
    /// an address that isn't of 4 or 16 bytes is refused with 6.
    pub fn push(
        &mut self,
        clock: Clock,
        unix: UnixSeconds,
        address: &[u8],
        port: u16,
        signer: &[u8],
        datagram: &[u8],
    ) {
        self.buffer.extend_from_slice(datagram);
        self.lengths.push(datagram.len());
        self.signers.extend_from_slice(if signer.len() == 64 { signer } else { &[0; 64] });
        let mut packed = [0; 17];
        packed[0] = address.len().min(255) as u8;
        let kept = address.len().min(16);
        packed[1..=kept].copy_from_slice(&address[..kept]);
        self.addresses.extend_from_slice(&packed);
        self.ports.push(port);
        self.millis.push(clock);
        self.unix.push(unix);
    }

    pub fn len(&self) -> usize {
        self.lengths.len()
    }

    pub fn is_empty(&self) -> bool {
        self.lengths.is_empty()
    }

    /// Empties the lists and keeps their memory.
    pub fn clear(&mut self) {
        self.buffer.clear();
        self.lengths.clear();
        self.signers.clear();
        self.addresses.clear();
        self.ports.clear();
        self.millis.clear();
        self.unix.clear();
    }
}

impl Table {
    /// Hands over the datagrams of a burst one after the other; a refused one doesn't stop the rest. Each one's
    /// answer number is written to `numbers`, as many as datagrams, and counted. 28, with nothing handled,
    /// written or counted, if there are more than 32 or the lists don't fit together. Only the numbers are
    /// told: what an accepted packet asks of the host, [`Packet::read`](crate::Packet::read) and
    /// [`Table::head`] say.
    pub fn burst(
        &mut self,
        counters: &mut Counters,
        numbers: &mut [Number],
        burst: &Burst,
    ) -> Result<(), Number> {
        done(sys::burst(counters, &mut self.bytes, numbers, burst))
    }
}
