//! The functions of include/coghammer.h, and a safe function over each. The only file with unsafe code.
//!
//! What makes every call here sound: a slice passes as its pointer and length, so all that the callee may
//! read or write is lent for the length of the call; a `&mut` is distinct from every other argument by
//! Rust's own rule; no function keeps a pointer; and each is proved to end, not to panic, and to read and
//! write inside what it is lent, for any contents. An empty slice passes as a pointer that isn't null.
//! The clocks and the answer numbers pass as the numbers that they are.

use crate::{Burst, Counters, LowMillis, MonotonicMillis, Node, Number, UnixSeconds};

extern "C" {
    fn coghammer_init(table: *mut u8, table_len: usize, key: *const u8, key_len: usize, buckets: usize)
        -> u8;
    fn coghammer_datagram(
        counters: *mut Counters,
        table: *mut u8,
        table_len: usize,
        clock: MonotonicMillis,
        unix: UnixSeconds,
        address: *const u8,
        address_len: usize,
        port: u16,
        signer: *const u8,
        signer_len: usize,
        datagram: *const u8,
        datagram_len: usize,
    ) -> u32;
    fn coghammer_ping_sent(
        counters: *mut Counters,
        table: *mut u8,
        table_len: usize,
        clock: MonotonicMillis,
        key: *const u8,
        key_len: usize,
        address: *const u8,
        address_len: usize,
        udp: u16,
        tcp: u16,
        hash: *const u8,
        hash_len: usize,
    ) -> u8;
    fn coghammer_sweep(
        counters: *mut Counters,
        table: *mut u8,
        table_len: usize,
        clock: MonotonicMillis,
    ) -> u8;
    fn coghammer_closest(
        list: *mut Node,
        list_len: usize,
        table: *const u8,
        table_len: usize,
        target: *const u8,
        target_len: usize,
    ) -> u32;
    fn coghammer_burst(
        counters: *mut Counters,
        table: *mut u8,
        table_len: usize,
        numbers: *mut Number,
        numbers_len: usize,
        buffer: *const u8,
        buffer_len: usize,
        lengths: *const usize,
        lengths_len: usize,
        signers: *const u8,
        signers_len: usize,
        addresses: *const u8,
        addresses_len: usize,
        ports: *const u16,
        ports_len: usize,
        millis: *const MonotonicMillis,
        millis_len: usize,
        unix: *const UnixSeconds,
        unix_len: usize,
    ) -> u8;
    fn coghammer_datagram_low(
        counters: *mut Counters,
        table: *mut u8,
        table_len: usize,
        reading: LowMillis,
        unix: UnixSeconds,
        address: *const u8,
        address_len: usize,
        port: u16,
        signer: *const u8,
        signer_len: usize,
        datagram: *const u8,
        datagram_len: usize,
    ) -> u32;
    fn coghammer_ping_sent_low(
        counters: *mut Counters,
        table: *mut u8,
        table_len: usize,
        reading: LowMillis,
        key: *const u8,
        key_len: usize,
        address: *const u8,
        address_len: usize,
        udp: u16,
        tcp: u16,
        hash: *const u8,
        hash_len: usize,
    ) -> u8;
    fn coghammer_sweep_low(
        counters: *mut Counters,
        table: *mut u8,
        table_len: usize,
        reading: LowMillis,
    ) -> u8;
    fn coghammer_burst_low(
        counters: *mut Counters,
        table: *mut u8,
        table_len: usize,
        numbers: *mut Number,
        numbers_len: usize,
        buffer: *const u8,
        buffer_len: usize,
        lengths: *const usize,
        lengths_len: usize,
        signers: *const u8,
        signers_len: usize,
        addresses: *const u8,
        addresses_len: usize,
        ports: *const u16,
        ports_len: usize,
        readings: *const LowMillis,
        readings_len: usize,
        unix: *const UnixSeconds,
        unix_len: usize,
    ) -> u8;
    fn coghammer_full_clock(
        table: *const u8,
        table_len: usize,
        reading: LowMillis,
        clock: *mut MonotonicMillis,
    ) -> u8;
    fn coghammer_clear(counters: *mut Counters);
    fn coghammer_state(table: *const u8, table_len: usize, told: *mut [u64; 4]) -> u8;
    fn coghammer_print(
        buf: *mut u8,
        buf_len: usize,
        table: *const u8,
        table_len: usize,
        size: *mut [u64; 1],
    ) -> u8;
    fn coghammer_head(
        table: *const u8,
        table_len: usize,
        key: *const u8,
        key_len: usize,
        node: *mut Node,
        ping: *mut [u64; 2],
    ) -> u8;
    fn coghammer_find(
        table: *const u8,
        table_len: usize,
        key: *const u8,
        key_len: usize,
        node: *mut Node,
        told: *mut [u64; 3],
    ) -> u8;
    fn coghammer_packet(datagram: *const u8, datagram_len: usize, fields: *mut [u64; 20]) -> u8;
    fn coghammer_node_count(datagram: *const u8, datagram_len: usize, start: usize, len: usize) -> usize;
    fn coghammer_node_at(
        datagram: *const u8,
        datagram_len: usize,
        start: usize,
        len: usize,
        n: usize,
        node: *mut Node,
    );
    fn coghammer_write_ping(
        buf: *mut u8,
        buf_len: usize,
        from: *const u8,
        from_len: usize,
        from_udp: u16,
        from_tcp: u16,
        to: *const u8,
        to_len: usize,
        to_udp: u16,
        expiration: u64,
        has_enr_seq: bool,
        enr_seq: u64,
    ) -> u32;
    fn coghammer_write_pong(
        buf: *mut u8,
        buf_len: usize,
        to: *const u8,
        to_len: usize,
        to_udp: u16,
        ping_hash: *const u8,
        ping_hash_len: usize,
        expiration: u64,
        has_enr_seq: bool,
        enr_seq: u64,
    ) -> u32;
    fn coghammer_write_find_node(
        buf: *mut u8,
        buf_len: usize,
        target: *const u8,
        target_len: usize,
        expiration: u64,
    ) -> u32;
    fn coghammer_write_neighbors(
        buf: *mut u8,
        buf_len: usize,
        nodes: *const u8,
        nodes_len: usize,
        expiration: u64,
    ) -> u32;
    fn coghammer_reply_count(nodes: usize) -> usize;
    fn coghammer_reply_start(nodes: usize, k: usize) -> usize;
    fn coghammer_reply_len(nodes: usize, k: usize) -> usize;
    fn coghammer_write_enr_request(buf: *mut u8, buf_len: usize, expiration: u64) -> u32;
    fn coghammer_write_enr_response(
        buf: *mut u8,
        buf_len: usize,
        request_hash: *const u8,
        request_hash_len: usize,
        record: *const u8,
        record_len: usize,
    ) -> u32;
    fn coghammer_join(
        buf: *mut u8,
        buf_len: usize,
        signature: *const u8,
        signature_len: usize,
        body: *const u8,
        body_len: usize,
    ) -> u32;
    fn coghammer_keccak256(message: *const u8, message_len: usize, hash: *mut [u8; 32]);
    fn coghammer_read_enodes(
        list: *mut Node,
        list_len: usize,
        text: *const u8,
        text_len: usize,
        told: *mut [u64; 3],
    ) -> u8;
    fn coghammer_write_enodes(
        buf: *mut u8,
        buf_len: usize,
        nodes: *const Node,
        count: usize,
        size: &mut [u64; 1],
    ) -> u8;
}

// ---- the table's calls

pub fn init(table: &mut [u8], key: &[u8], buckets: usize) -> u8 {
    // SAFETY: two slices, the first lent for writing.
    unsafe { coghammer_init(table.as_mut_ptr(), table.len(), key.as_ptr(), key.len(), buckets) }
}

/// The calls with a clock, at a clock of 64 bits or at a reading of 32: what is passed is the same but for it.
macro_rules! calls {
    ($clock:ty: $datagram:ident $ping_sent:ident $sweep:ident $burst:ident
        by $c_datagram:ident $c_ping_sent:ident $c_sweep:ident $c_burst:ident) => {
        #[allow(clippy::too_many_arguments)]
        pub fn $datagram(
            counters: &mut Counters,
            table: &mut [u8],
            clock: $clock,
            unix: UnixSeconds,
            address: &[u8],
            port: u16,
            signer: &[u8],
            datagram: &[u8],
        ) -> u32 {
            // SAFETY: `Counters` has C's layout and is lent for writing, as the table is; the rest is read.
            unsafe {
                $c_datagram(
                    counters,
                    table.as_mut_ptr(),
                    table.len(),
                    clock,
                    unix,
                    address.as_ptr(),
                    address.len(),
                    port,
                    signer.as_ptr(),
                    signer.len(),
                    datagram.as_ptr(),
                    datagram.len(),
                )
            }
        }

        #[allow(clippy::too_many_arguments)]
        pub fn $ping_sent(
            counters: &mut Counters,
            table: &mut [u8],
            clock: $clock,
            key: &[u8],
            address: &[u8],
            udp: u16,
            tcp: u16,
            hash: &[u8],
        ) -> u8 {
            // SAFETY: as for a datagram.
            unsafe {
                $c_ping_sent(
                    counters,
                    table.as_mut_ptr(),
                    table.len(),
                    clock,
                    key.as_ptr(),
                    key.len(),
                    address.as_ptr(),
                    address.len(),
                    udp,
                    tcp,
                    hash.as_ptr(),
                    hash.len(),
                )
            }
        }

        pub fn $sweep(counters: &mut Counters, table: &mut [u8], clock: $clock) -> u8 {
            // SAFETY: counters and table are lent for writing.
            unsafe { $c_sweep(counters, table.as_mut_ptr(), table.len(), clock) }
        }

        pub fn $burst(
            counters: &mut Counters,
            table: &mut [u8],
            numbers: &mut [Number],
            burst: &Burst<$clock>,
        ) -> u8 {
            let Burst { buffer, lengths, signers, addresses, ports, millis, unix } = burst;
            // SAFETY: counters, table and numbers are lent for writing, the lists are read; each length counts
            // the elements of its own list, and the lists may be of any lengths.
            unsafe {
                $c_burst(
                    counters,
                    table.as_mut_ptr(),
                    table.len(),
                    numbers.as_mut_ptr(),
                    numbers.len(),
                    buffer.as_ptr(),
                    buffer.len(),
                    lengths.as_ptr(),
                    lengths.len(),
                    signers.as_ptr(),
                    signers.len(),
                    addresses.as_ptr(),
                    addresses.len(),
                    ports.as_ptr(),
                    ports.len(),
                    millis.as_ptr(),
                    millis.len(),
                    unix.as_ptr(),
                    unix.len(),
                )
            }
        }
    };
}

calls!(MonotonicMillis: datagram ping_sent sweep burst
    by coghammer_datagram coghammer_ping_sent coghammer_sweep coghammer_burst);
calls!(LowMillis: datagram_low ping_sent_low sweep_low burst_low
    by coghammer_datagram_low coghammer_ping_sent_low coghammer_sweep_low coghammer_burst_low);

pub fn full_clock(table: &[u8], reading: LowMillis, clock: &mut MonotonicMillis) -> u8 {
    // SAFETY: a slice that is read, a number that is lent for writing.
    unsafe { coghammer_full_clock(table.as_ptr(), table.len(), reading, clock) }
}

pub fn closest(list: &mut [Node], table: &[u8], target: &[u8]) -> u32 {
    // SAFETY: `Node` has C's layout and any bytes are a node; the length counts nodes.
    unsafe {
        coghammer_closest(
            list.as_mut_ptr(),
            list.len(),
            table.as_ptr(),
            table.len(),
            target.as_ptr(),
            target.len(),
        )
    }
}

pub fn clear(counters: &mut Counters) {
    // SAFETY: `Counters` has C's layout and is lent for writing.
    unsafe { coghammer_clear(counters) }
}

// ---- what a table tells

pub fn state(table: &[u8], told: &mut [u64; 4]) -> u8 {
    // SAFETY: a slice that is read, an array of the length declared.
    unsafe { coghammer_state(table.as_ptr(), table.len(), told) }
}

pub fn print(buf: &mut [u8], table: &[u8], size: &mut [u64; 1]) -> u8 {
    // SAFETY: the first slice is lent for writing, the second is read; an array of the length declared.
    unsafe { coghammer_print(buf.as_mut_ptr(), buf.len(), table.as_ptr(), table.len(), size) }
}

pub fn head(table: &[u8], key: &[u8], node: &mut Node, ping: &mut [u64; 2]) -> u8 {
    // SAFETY: two slices that are read; `Node` has C's layout and is lent for writing; an array of the
    // length declared.
    unsafe { coghammer_head(table.as_ptr(), table.len(), key.as_ptr(), key.len(), node, ping) }
}

pub fn find(table: &[u8], key: &[u8], node: &mut Node, told: &mut [u64; 3]) -> u8 {
    // SAFETY: as for `head`.
    unsafe { coghammer_find(table.as_ptr(), table.len(), key.as_ptr(), key.len(), node, told) }
}

// ---- packets read

pub fn packet(datagram: &[u8], fields: &mut [u64; 20]) -> u8 {
    // SAFETY: a slice that is read, an array of the length declared.
    unsafe { coghammer_packet(datagram.as_ptr(), datagram.len(), fields) }
}

pub fn node_count(datagram: &[u8], start: usize, len: usize) -> usize {
    // SAFETY: a slice that is read; start and length may be any numbers.
    unsafe { coghammer_node_count(datagram.as_ptr(), datagram.len(), start, len) }
}

pub fn node_at(datagram: &[u8], start: usize, len: usize, n: usize, node: &mut Node) {
    // SAFETY: as for `node_count`; `Node` has C's layout and is lent for writing.
    unsafe { coghammer_node_at(datagram.as_ptr(), datagram.len(), start, len, n, node) }
}

// ---- packets written

#[allow(clippy::too_many_arguments)]
pub fn write_ping(
    buf: &mut [u8],
    from: &[u8],
    from_udp: u16,
    from_tcp: u16,
    to: &[u8],
    to_udp: u16,
    expiration: u64,
    enr_seq: Option<u64>,
) -> u32 {
    // SAFETY: the first slice is lent for writing, the others are read.
    unsafe {
        coghammer_write_ping(
            buf.as_mut_ptr(),
            buf.len(),
            from.as_ptr(),
            from.len(),
            from_udp,
            from_tcp,
            to.as_ptr(),
            to.len(),
            to_udp,
            expiration,
            enr_seq.is_some(),
            enr_seq.unwrap_or(0),
        )
    }
}

pub fn write_pong(
    buf: &mut [u8],
    to: &[u8],
    to_udp: u16,
    ping_hash: &[u8],
    expiration: u64,
    enr_seq: Option<u64>,
) -> u32 {
    // SAFETY: as for `write_ping`.
    unsafe {
        coghammer_write_pong(
            buf.as_mut_ptr(),
            buf.len(),
            to.as_ptr(),
            to.len(),
            to_udp,
            ping_hash.as_ptr(),
            ping_hash.len(),
            expiration,
            enr_seq.is_some(),
            enr_seq.unwrap_or(0),
        )
    }
}

pub fn write_find_node(buf: &mut [u8], target: &[u8], expiration: u64) -> u32 {
    // SAFETY: as for `write_ping`.
    unsafe {
        coghammer_write_find_node(buf.as_mut_ptr(), buf.len(), target.as_ptr(), target.len(), expiration)
    }
}

pub fn write_neighbors(buf: &mut [u8], nodes: &[u8], expiration: u64) -> u32 {
    // SAFETY: as for `write_ping`; the nodes are bytes, of any number.
    unsafe { coghammer_write_neighbors(buf.as_mut_ptr(), buf.len(), nodes.as_ptr(), nodes.len(), expiration) }
}

pub fn reply_count(nodes: usize) -> usize {
    // SAFETY: numbers only.
    unsafe { coghammer_reply_count(nodes) }
}

pub fn reply_part(nodes: usize, k: usize) -> (usize, usize) {
    // SAFETY: numbers only.
    unsafe { (coghammer_reply_start(nodes, k), coghammer_reply_len(nodes, k)) }
}

pub fn write_enr_request(buf: &mut [u8], expiration: u64) -> u32 {
    // SAFETY: one slice that is lent for writing.
    unsafe { coghammer_write_enr_request(buf.as_mut_ptr(), buf.len(), expiration) }
}

pub fn write_enr_response(buf: &mut [u8], request_hash: &[u8], record: &[u8]) -> u32 {
    // SAFETY: as for `write_ping`.
    unsafe {
        coghammer_write_enr_response(
            buf.as_mut_ptr(),
            buf.len(),
            request_hash.as_ptr(),
            request_hash.len(),
            record.as_ptr(),
            record.len(),
        )
    }
}

pub fn join(buf: &mut [u8], signature: &[u8], body: &[u8]) -> u32 {
    // SAFETY: as for `write_ping`.
    unsafe {
        coghammer_join(
            buf.as_mut_ptr(),
            buf.len(),
            signature.as_ptr(),
            signature.len(),
            body.as_ptr(),
            body.len(),
        )
    }
}

pub fn keccak256(message: &[u8], hash: &mut [u8; 32]) {
    // SAFETY: a slice that is read, an array of the length declared.
    unsafe { coghammer_keccak256(message.as_ptr(), message.len(), hash) }
}

// ---- boot lists

pub fn read_enodes(list: &mut [Node], text: &[u8], told: &mut [u64; 3]) -> u8 {
    // SAFETY: `Node` has C's layout and any bytes are a node; the length counts nodes; a slice that is
    // read, an array of the length declared.
    unsafe { coghammer_read_enodes(list.as_mut_ptr(), list.len(), text.as_ptr(), text.len(), told) }
}

pub fn write_enodes(buf: &mut [u8], nodes: &[Node], size: &mut [u64; 1]) -> u8 {
    // SAFETY: the first slice is lent for writing; the second is read, and its length counts nodes; an
    // array of the length declared.
    unsafe { coghammer_write_enodes(buf.as_mut_ptr(), buf.len(), nodes.as_ptr(), nodes.len(), size) }
}
