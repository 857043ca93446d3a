//! Strict RLP, "Ethereum's published encoding".

/// What an item is.
#[derive(Clone, Copy, Debug, PartialEq, Eq)]
pub enum Kind {
    String,
    List,
}

/// One item as it stands in the bytes read.
#[derive(Clone, Copy, Debug)]
pub struct Item<'a> {
    pub kind: Kind,
    /// The string's bytes, or the list's items one after the other.
    pub payload: &'a [u8],
    /// Header and payload.
    pub whole: &'a [u8],
}

/// The item that `bytes` begin with, and the bytes after it. None if that item isn't whole or isn't
/// canonical: "Headers are shortest-form, else 9". The payload of a list isn't examined.
pub fn item(bytes: &[u8]) -> Option<(Item<'_>, &[u8])> {
    let first = *bytes.first()?;
    // a byte below 80 is its own encoding
    if first < 0x80 {
        let item = Item { kind: Kind::String, payload: &bytes[..1], whole: &bytes[..1] };
        return Some((item, &bytes[1..]));
    }
    let (kind, short) = match first {
        0x80..=0xbf => (Kind::String, first - 0x80),
        _ => (Kind::List, first - 0xc0),
    };
    let (header, length) = if short <= 55 {
        (1, u64::from(short))
    } else {
        // the header's low part past 55 counts the bytes of the length
        let digits = bytes.get(1..1 + usize::from(short - 55))?;
        let length = digits.iter().fold(0u64, |value, digit| value << 8 | u64::from(*digit));
        if digits[0] == 0 || length <= 55 {
            return None; // a shorter header would do
        }
        (1 + digits.len(), length)
    };
    let after = &bytes[header..];
    if length > after.len() as u64 {
        return None; // not whole
    }
    let (payload, rest) = after.split_at(length as usize);
    if kind == Kind::String && payload.len() == 1 && payload[0] < 0x80 {
        return None; // 81 7f: the byte alone would do
    }
    let whole = &bytes[..header + payload.len()];
    Some((Item { kind, payload, whole }, rest))
}

/// The items of a list's payload; None unless all are whole and canonical.
pub fn items(mut payload: &[u8]) -> Option<Vec<Item<'_>>> {
    let mut items = Vec::new();
    while !payload.is_empty() {
        let (item, rest) = item(payload)?;
        items.push(item);
        payload = rest;
    }
    Some(items)
}

/// The number that an integer item of at most `width` bytes says (width up to 8). "an integer with a
/// leading zero byte, a lone 00 included, is 10".
pub fn integer(item: &Item, width: usize) -> Option<u64> {
    if item.kind == Kind::List || item.payload.len() > width || item.payload.first() == Some(&0) {
        return None;
    }
    Some(item.payload.iter().fold(0, |value, byte| value << 8 | u64::from(*byte)))
}

/// The bytes of `value` without leading zeros; none for 0.
fn digits(value: u64) -> Vec<u8> {
    value.to_be_bytes().into_iter().skip_while(|byte| *byte == 0).collect()
}

fn header(base: u8, length: usize) -> Vec<u8> {
    if length <= 55 {
        return vec![base + length as u8];
    }
    let digits = digits(length as u64);
    let mut header = vec![base + 55 + digits.len() as u8];
    header.extend(digits);
    header
}

/// The encoding of a string.
pub fn write_string(bytes: &[u8]) -> Vec<u8> {
    if bytes.len() == 1 && bytes[0] < 0x80 {
        return bytes.to_vec();
    }
    let mut written = header(0x80, bytes.len());
    written.extend(bytes);
    written
}

/// The encoding of a number.
pub fn write_integer(value: u64) -> Vec<u8> {
    write_string(&digits(value))
}

/// The encoding of a list of items that are encoded already.
pub fn write_list(items: &[Vec<u8>]) -> Vec<u8> {
    let payload = items.concat();
    let mut written = header(0xc0, payload.len());
    written.extend(payload);
    written
}
