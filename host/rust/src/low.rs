//! A box that counts milliseconds in 32 bits: its counter rolls over after 49.7 days. Each call with a clock takes a reading of it, which is
//! widened by the table's clock.

use crate::{accepted, done, sys, Accepted, Burst, Counters, MonotonicMillis, Number, Table, UnixSeconds};

/// A reading of a box clock of 32 bits. It is no clock: only a table's makes one of it.
#[repr(transparent)]
#[derive(Clone, Copy, Debug, PartialEq, Eq)]
pub struct LowMillis(pub u32);

impl Table {
    /// The full clock of a reading: 1 where the table's header isn't sound; 2 where the reading is 2^31 or more past the table's clock, round the
    /// rollover, or the sum doesn't fit 64 bits.
    pub fn full_clock(&self, reading: LowMillis) -> Result<MonotonicMillis, Number> {
        let mut clock = MonotonicMillis(0);
        done(sys::full_clock(&self.bytes, reading, &mut clock))?;
        Ok(clock)
    }

    /// [`Table::datagram`] at a reading.
    #[allow(clippy::too_many_arguments)]
    pub fn datagram_low(
        &mut self,
        counters: &mut Counters,
        reading: LowMillis,
        unix: UnixSeconds,
        address: &[u8],
        port: u16,
        signer: &[u8],
        datagram: &[u8],
    ) -> Result<Accepted, Number> {
        accepted(sys::datagram_low(counters, &mut self.bytes, reading, unix, address, port, signer, datagram))
    }

    /// [`Table::ping_sent`] at a reading.
    #[allow(clippy::too_many_arguments)]
    pub fn ping_sent_low(
        &mut self,
        counters: &mut Counters,
        reading: LowMillis,
        key: &[u8],
        address: &[u8],
        udp: u16,
        tcp: u16,
        hash: &[u8],
    ) -> Result<(), Number> {
        done(sys::ping_sent_low(counters, &mut self.bytes, reading, key, address, udp, tcp, hash))
    }

    /// [`Table::sweep`] at a reading.
    pub fn sweep_low(&mut self, counters: &mut Counters, reading: LowMillis) -> Result<(), Number> {
        done(sys::sweep_low(counters, &mut self.bytes, reading))
    }

    /// [`Table::burst`] at readings: each is widened by the table's clock at its turn.
    pub fn burst_low(
        &mut self,
        counters: &mut Counters,
        numbers: &mut [Number],
        burst: &Burst<LowMillis>,
    ) -> Result<(), Number> {
        done(sys::burst_low(counters, &mut self.bytes, numbers, burst))
    }
}
