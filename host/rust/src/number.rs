//! Answer numbers.

use std::error::Error;
use std::fmt;

/// An answer number of document 01 or of a request, not 0 where it is an error. The lowest that applies is
/// given. Displayed as the number and its words: `15: the pong came too late`.
#[repr(transparent)]
#[derive(Clone, Copy, PartialEq, Eq, PartialOrd, Ord, Hash)]
pub struct Number(pub u8);

impl Number {
    pub const DONE: Number = Number(0);
    pub const UNSOUND: Number = Number(1);
    pub const CLOCK_BACK: Number = Number(2);
    pub const WRONG_LENGTH: Number = Number(3);
    pub const WRONG_HASH: Number = Number(4);
    pub const WRONG_KEY: Number = Number(5);
    pub const WRONG_ADDRESS: Number = Number(6);
    pub const OWN_KEY: Number = Number(7);
    pub const UNKNOWN_TYPE: Number = Number(8);
    pub const BROKEN_DATA: Number = Number(9);
    pub const WRONG_FIELD: Number = Number(10);
    pub const EXPIRED: Number = Number(11);
    pub const NOT_KEPT: Number = Number(12);
    pub const NOT_VERIFIED: Number = Number(13);
    pub const NOT_AWAITED: Number = Number(14);
    pub const LATE: Number = Number(15);
    pub const HELD_ELSEWHERE: Number = Number(16);
    pub const PING_OUT: Number = Number(17);
    pub const LINE_FULL: Number = Number(18);
    pub const SHORT_ROOM: Number = Number(19);
    pub const NOT_WRITABLE: Number = Number(20);
    pub const UNREADABLE: Number = Number(21);
    pub const NOT_ENODE: Number = Number(22);
    pub const NOT_WHOLE: Number = Number(28);

    const TEXTS: [(Number, &'static str); 24] = [
        (Number::DONE, "done"),
        (Number::UNSOUND, "the table's memory is damaged or of the wrong size"),
        (Number::CLOCK_BACK, "the box's clock went back"),
        (Number::WRONG_LENGTH, "the datagram is too short or too long"),
        (Number::WRONG_HASH, "the hash does not fit"),
        (Number::WRONG_KEY, "no key of 64 bytes"),
        (Number::WRONG_ADDRESS, "no address of 4 or 16 bytes"),
        (Number::OWN_KEY, "the node's own key"),
        (Number::UNKNOWN_TYPE, "a packet of unknown type"),
        (Number::BROKEN_DATA, "the packet's data is broken"),
        (Number::WRONG_FIELD, "a field is missing or wrong"),
        (Number::EXPIRED, "the packet has expired"),
        (Number::NOT_KEPT, "too near to the own node for a table of this size"),
        (Number::NOT_VERIFIED, "the sender has not proved its address"),
        (Number::NOT_AWAITED, "a pong that nobody asked for"),
        (Number::LATE, "the pong came too late"),
        (Number::HELD_ELSEWHERE, "the node is known at another address"),
        (Number::PING_OUT, "a ping to the node is still out"),
        (Number::LINE_FULL, "the waiting line is full"),
        (Number::SHORT_ROOM, "the room is too small"),
        (Number::NOT_WRITABLE, "the value can't be written"),
        (Number::UNREADABLE, "the log's line is not readable"),
        (Number::NOT_ENODE, "no enode line"),
        (Number::NOT_WHOLE, "the burst's lists don't fit together"),
    ];

    /// The number in words, as docs/NUMBERS.md has them.
    pub fn text(self) -> &'static str {
        Self::TEXTS.iter().find(|(number, _)| *number == self).map_or("no answer number", |(_, text)| text)
    }
}

impl fmt::Display for Number {
    fn fmt(&self, f: &mut fmt::Formatter) -> fmt::Result {
        write!(f, "{}: {}", self.0, self.text())
    }
}

impl fmt::Debug for Number {
    fn fmt(&self, f: &mut fmt::Formatter) -> fmt::Result {
        write!(f, "Number({self})")
    }
}

impl Error for Number {}
