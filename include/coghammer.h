// Coghammer: the discv4 discovery routine. Each function is exported by the crate capi, whose contracts state its complete outcome.
//
// A byte string or a list is a pointer and a length; the pointer must not be null, also where the length is 0. What a call is lent to write must not
// overlap anything else that it is lent; what is only read may. No call keeps a pointer, allocates, or fails otherwise than by its answer number.
//
// Threads. The library has no state of its own. One call at a time may use a table or its counters, a reading call beside a writing one included:
// take one lock around each call, and write the log's line under the same lock, or the log is not the order in which the calls were handled. A race on
// a table leaves bytes that no call wrote; the next call that meets them answers COGHAMMER_UNSOUND and touches nothing.
//
// Words. A bucket holds up to sixteen seats, in the order in which their nodes were last put at the tail: the first is the head. Behind them up to
// four nodes stand in its waiting line: those that were pinged and have not answered yet, and those that answered while there was no seat for them. Of the
// seats at most two have 4-byte addresses with the same first three bytes (a range).
//
// Forms. A key is the 64 bytes of a secp256k1 public key, x then y, big-endian, without the 04 in front. A signature is 65 bytes: r, s, and the recovery
// number 0 to 3. A hash is a Keccak-256, 32 bytes. An address is 4 or 16 bytes as they stand in an IP packet. Ports are numbers of the host: 30303, not
// htons(30303).
//
// A code is an answer number in the low byte and a value above it: COGHAMMER_NUMBER(code), COGHAMMER_VALUE(code).
#ifndef COGHAMMER_H
#define COGHAMMER_H

#include <stdbool.h>
#include <stddef.h>
#include <stdint.h>
#include <string.h>

#ifdef __cplusplus
extern "C" {
#endif

#define COGHAMMER_NUMBER(code) ((uint8_t)((code) & 0xff))
#define COGHAMMER_VALUE(code) ((uint32_t)(code) >> 8)

// The value of coghammer_closest is two: how many nodes the list received, and how many distances to the target were worked out.
#define COGHAMMER_COUNT(code) ((uint8_t)((code) >> 8 & 0xff))
#define COGHAMMER_DISTANCES(code) ((uint8_t)((code) >> 16 & 0xff))

// ---- answer numbers: the lowest that applies is given, and nothing lent has changed then but the counters

enum {
    COGHAMMER_DONE = 0,
    COGHAMMER_UNSOUND = 1,
    COGHAMMER_CLOCK_BACK = 2,
    COGHAMMER_WRONG_LENGTH = 3,
    COGHAMMER_WRONG_HASH = 4,
    COGHAMMER_WRONG_KEY = 5,
    COGHAMMER_WRONG_ADDRESS = 6,
    COGHAMMER_OWN_KEY = 7,
    COGHAMMER_UNKNOWN_TYPE = 8,
    COGHAMMER_BROKEN_DATA = 9,
    COGHAMMER_WRONG_FIELD = 10,
    COGHAMMER_EXPIRED = 11,
    COGHAMMER_NOT_KEPT = 12,
    COGHAMMER_NOT_VERIFIED = 13,
    COGHAMMER_NOT_AWAITED = 14,
    COGHAMMER_LATE = 15,
    COGHAMMER_HELD_ELSEWHERE = 16,
    COGHAMMER_PING_OUT = 17,
    COGHAMMER_LINE_FULL = 18,
    COGHAMMER_SHORT_ROOM = 19,
    COGHAMMER_NOT_WRITABLE = 20,
    COGHAMMER_UNREADABLE = 21, // of a log's line: no call here gives it
    COGHAMMER_NOT_ENODE = 22,
    COGHAMMER_NOT_WHOLE = 28
};

// An answer number in words, as docs/NUMBERS.md has them.
static inline const char *coghammer_text(uint8_t number) {
    switch (number) {
    case COGHAMMER_DONE: return "done";
    case COGHAMMER_UNSOUND: return "the table's memory is damaged or of the wrong size";
    case COGHAMMER_CLOCK_BACK: return "the box's clock went back";
    case COGHAMMER_WRONG_LENGTH: return "the datagram is too short or too long";
    case COGHAMMER_WRONG_HASH: return "the hash does not fit";
    case COGHAMMER_WRONG_KEY: return "no key of 64 bytes";
    case COGHAMMER_WRONG_ADDRESS: return "no address of 4 or 16 bytes";
    case COGHAMMER_OWN_KEY: return "the node's own key";
    case COGHAMMER_UNKNOWN_TYPE: return "a packet of unknown type";
    case COGHAMMER_BROKEN_DATA: return "the packet's data is broken";
    case COGHAMMER_WRONG_FIELD: return "a field is missing or wrong";
    case COGHAMMER_EXPIRED: return "the packet has expired";
    case COGHAMMER_NOT_KEPT: return "too near to the own node for a table of this size";
    case COGHAMMER_NOT_VERIFIED: return "the sender has not proved its address";
    case COGHAMMER_NOT_AWAITED: return "a pong that nobody asked for";
    case COGHAMMER_LATE: return "the pong came too late";
    case COGHAMMER_HELD_ELSEWHERE: return "the node is known at another address";
    case COGHAMMER_PING_OUT: return "a ping to the node is still out";
    case COGHAMMER_LINE_FULL: return "the waiting line is full";
    case COGHAMMER_SHORT_ROOM: return "the room is too small";
    case COGHAMMER_NOT_WRITABLE: return "the value can't be written";
    case COGHAMMER_UNREADABLE: return "the log's line is not readable";
    case COGHAMMER_NOT_ENODE: return "no enode line";
    case COGHAMMER_NOT_WHOLE: return "the burst's lists don't fit together";
    default: return "no answer number";
    }
}

// ---- sizes

enum {
    COGHAMMER_KEY_SIZE = 64,
    COGHAMMER_HASH_SIZE = 32,
    COGHAMMER_SIGNATURE_SIZE = 65,
    COGHAMMER_ADDRESS_MOST = 16,
    COGHAMMER_DATAGRAM_LEAST = 98,
    COGHAMMER_DATAGRAM_MOST = 1280,
    COGHAMMER_BODY_MOST = 1183,    // type and data; COGHAMMER_BODY_AT is where they stand in a datagram
    COGHAMMER_SIGNATURE_AT = 32,   // the datagram's own hash stands before it
    COGHAMMER_BODY_AT = 97,
    COGHAMMER_RECORD_MOST = 300,
    COGHAMMER_CLOSEST = 16,        // the most nodes of a closest list, and the least that one must have room for
    COGHAMMER_DISTANCES_MOST = 31, // the most distances that a closest call works out
    COGHAMMER_NEIGHBORS_MOST = 12, // the most nodes that a written Neighbors has
    COGHAMMER_BUCKETS_MOST = 256,
    COGHAMMER_SEATS_MOST = 16,     // of a bucket
    COGHAMMER_WAITING_MOST = 4,    // of a bucket
    COGHAMMER_COUNTS = 22,         // the numbers that are counted, 0 to 21
    COGHAMMER_PING_TIMEOUT = 500   // milliseconds
};

// ---- types

// The two clocks, each a type of its own, so that a swapped pair does not compile: monotonic milliseconds, which never go back, and Unix seconds.
typedef struct coghammer_millis {
    uint64_t millis;
} coghammer_millis;

typedef struct coghammer_unix {
    uint64_t seconds;
} coghammer_unix;

// The calls since clearing that gave each answer number, or 4,294,967,295 if more.
typedef struct coghammer_counters {
    uint32_t counts[COGHAMMER_COUNTS];
} coghammer_counters;

// The first len bytes of address, 4 or 16, are the IP address; the rest are zeros. The byte of padding before udp may hold anything after a call: compare
// the fields, not the bytes.
typedef struct coghammer_endpoint {
    uint8_t len;
    uint8_t address[COGHAMMER_ADDRESS_MOST];
    uint16_t udp;
    uint16_t tcp;
} coghammer_endpoint;

typedef struct coghammer_node {
    uint8_t key[COGHAMMER_KEY_SIZE];
    coghammer_endpoint endpoint;
} coghammer_node;

// ---- the table: memory of exactly COGHAMMER_TABLE_SIZE(buckets) bytes, 1 to 256 buckets

#define COGHAMMER_TABLE_SIZE(buckets) (512 + 2862 * (size_t)(buckets))

// Makes the memory a fresh table for the node with this key. The answer number: 0, or 1 or 5 and nothing is written. After a restart too: a table that
// was kept has the clock of before, and a clock that begins anew gets 2 from it.
uint8_t coghammer_init(uint8_t *table, size_t table_len, const uint8_t *key, size_t key_len, size_t buckets);

// A datagram came from this address and UDP port. signer: the key that its signature (at COGHAMMER_SIGNATURE_AT) recovers over the Keccak-256 of all that
// follows the signature, from COGHAMMER_BODY_AT to the end; or empty where it recovers none. Counted. Numbers: 0 to 15. The code's value is
// COGHAMMER_TYPE_OF(code), 0 where refused, and COGHAMMER_OUTCOME(code).
uint32_t coghammer_datagram(coghammer_counters *counters, uint8_t *table, size_t table_len, coghammer_millis clock, coghammer_unix unix_time, const uint8_t *address, size_t address_len, uint16_t port, const uint8_t *signer, size_t signer_len, const uint8_t *datagram, size_t datagram_len);

#define COGHAMMER_TYPE_OF(code) ((uint8_t)((code) >> 8 & 0xff))
#define COGHAMMER_OUTCOME(code) ((uint8_t)((code) >> 16 & 0xff))

// The types of packets.
enum {
    COGHAMMER_PING = 1,
    COGHAMMER_PONG = 2,
    COGHAMMER_FIND_NODE = 3,
    COGHAMMER_NEIGHBORS = 4,
    COGHAMMER_ENR_REQUEST = 5,
    COGHAMMER_ENR_RESPONSE = 6
};

// The outcomes: of a Ping, for which a pong is always due; of a Pong, what became of its sender. Of the others 0.
enum {
    COGHAMMER_NO_PING_DUE = 0,
    COGHAMMER_PING_DUE = 1,
    COGHAMMER_TAIL = 0,      // it had a seat, and is now at the tail
    COGHAMMER_SEATED = 1,    // it took a free seat
    COGHAMMER_WAITS = 2,     // all seats are taken: ping the head, if no ping is out to it (coghammer_head)
    COGHAMMER_RANGE_FULL = 3 // it waits because its range has two seats: nothing is due
};

// A ping goes out to the node with this key at this endpoint; hash: the first 32 bytes of the ping's datagram, which its pong names. Call it before the
// ping is sent, and send it only on 0. Counted. The answer number: 0, 1, 2, 4, 5, 6, 7, 12, 16, 17 or 18.
uint8_t coghammer_ping_sent(coghammer_counters *counters, uint8_t *table, size_t table_len, coghammer_millis clock, const uint8_t *key, size_t key_len, const uint8_t *address, size_t address_len, uint16_t udp, uint16_t tcp, const uint8_t *hash, size_t hash_len);

// Removes nodes that did not answer a ping in time and nodes of the waiting line whose proof has expired, and gives free seats to those that wait, up to two of a range. Only
// a sweep removes nodes. Counted. The answer number: 0, 1 or 2.
uint8_t coghammer_sweep(coghammer_counters *counters, uint8_t *table, size_t table_len, coghammer_millis clock);

// Up to 32 datagrams that came, end to end in buffer by lengths. For each a signer's key of 64 bytes, all zeros where the signature recovers none;
// an address of COGHAMMER_PACKED_ADDRESS bytes, its length and 16 bytes; a UDP port; millis and unix_times as clock and unix_time above. They are
// handed over one after the other, and a refused one doesn't stop the rest: each one's answer number is written to numbers, and counted. The
// answer number of the burst isn't counted: 0, or 28 and nothing is handled or written, where there are more than 32, the lengths don't sum to
// buffer_len, or the lists differ in length. Each length counts the elements of its list.
uint8_t coghammer_burst(coghammer_counters *counters, uint8_t *table, size_t table_len, uint8_t *numbers, size_t numbers_len, const uint8_t *buffer, size_t buffer_len, const size_t *lengths, size_t lengths_len, const uint8_t *signers, size_t signers_len, const uint8_t *addresses, size_t addresses_len, const uint16_t *ports, size_t ports_len, const coghammer_millis *millis, size_t millis_len, const coghammer_unix *unix_times, size_t unix_times_len);

#define COGHAMMER_BURST 32
#define COGHAMMER_PACKED_ADDRESS 17

// ---- a box that counts milliseconds in 32 bits, with a counter that rolls over after 49.7 days. Each call above has a form that takes a reading of that
// counter in place of the clock. The reading is widened by the table's clock, that of the last accepted call: its difference to the clock's low 32 bits, taken
// round the rollover, is added if it is below 2^31; else the reading counts as going back (2), as where the sum doesn't fit 64 bits. 1 goes first. So a call
// must be accepted at least every 24.8 days: sweep, which only 1 and 2 refuse. After a longer silence start counter and table anew, both from 0.

typedef struct coghammer_low_millis {
    uint32_t millis;
} coghammer_low_millis;

uint32_t coghammer_datagram_low(coghammer_counters *counters, uint8_t *table, size_t table_len, coghammer_low_millis reading, coghammer_unix unix_time, const uint8_t *address, size_t address_len, uint16_t port, const uint8_t *signer, size_t signer_len, const uint8_t *datagram, size_t datagram_len);
uint8_t coghammer_ping_sent_low(coghammer_counters *counters, uint8_t *table, size_t table_len, coghammer_low_millis reading, const uint8_t *key, size_t key_len, const uint8_t *address, size_t address_len, uint16_t udp, uint16_t tcp, const uint8_t *hash, size_t hash_len);
uint8_t coghammer_sweep_low(coghammer_counters *counters, uint8_t *table, size_t table_len, coghammer_low_millis reading);

// Each datagram's reading is widened by the table's clock at its turn.
uint8_t coghammer_burst_low(coghammer_counters *counters, uint8_t *table, size_t table_len, uint8_t *numbers, size_t numbers_len, const uint8_t *buffer, size_t buffer_len, const size_t *lengths, size_t lengths_len, const uint8_t *signers, size_t signers_len, const uint8_t *addresses, size_t addresses_len, const uint16_t *ports, size_t ports_len, const coghammer_low_millis *readings, size_t readings_len, const coghammer_unix *unix_times, size_t unix_times_len);

// The full clock of a reading, written to clock. The answer number: 0, or 1 (of the table's header alone) or 2 and nothing is written.
uint8_t coghammer_full_clock(const uint8_t *table, size_t table_len, coghammer_low_millis reading, coghammer_millis *clock);

// Clears the counters.
void coghammer_clear(coghammer_counters *counters);

// Writes the seated nodes nearest to the target (a key, also the own one), nearest first, to the front of a list of at least COGHAMMER_CLOSEST; the records
// after them stay. The code is of 0, with COGHAMMER_COUNT(code) nodes and COGHAMMER_DISTANCES(code) distances worked out, or of 1, 5 or 19. Buckets are taken
// nearest first until sixteen nodes are gathered, so the distances, one for each node seated in those taken, are at most COGHAMMER_DISTANCES_MOST.
uint32_t coghammer_closest(coghammer_node *list, size_t list_len, const uint8_t *table, size_t table_len, const uint8_t *target, size_t target_len);

// ---- what a table tells: it is lent to read. Where the answer number isn't 0, nothing is written

// The places of a table's state.
enum {
    COGHAMMER_STATE_CLOCK,
    COGHAMMER_STATE_BUCKETS,
    COGHAMMER_STATE_SEATS,   // entries
    COGHAMMER_STATE_WAITING, // replacements
    COGHAMMER_STATE
};

// The numbers of the printout's first row. The answer number: 0 or 1.
uint8_t coghammer_state(const uint8_t *table, size_t table_len, uint64_t told[COGHAMMER_STATE]);

// Room for the printout of a table of so many buckets, whatever it holds.
#define COGHAMMER_PRINTOUT_SIZE(buckets) (41 + 20 * 137 * (size_t)(buckets))

// Writes the printout of a table, as text with no 0 behind it, and tells its size. The answer number: 0; 1; or 19 where the room is under
// COGHAMMER_PRINTOUT_SIZE of the table's buckets.
uint8_t coghammer_print(uint8_t *buf, size_t buf_len, const uint8_t *table, size_t table_len, uint64_t size[1]);

// The places of a head's ping state.
enum {
    COGHAMMER_HEAD_PING_OUT,   // 1 if a ping is out to it
    COGHAMMER_HEAD_PING_SINCE, // since which millisecond, 0 if none is
    COGHAMMER_HEAD
};

// The first entry of the key's bucket, for the sender of a pong that waits for a seat, and its ping state; zeros where there is no entry. The answer number: 0,
// 1, 5, 7 or 12.
uint8_t coghammer_head(const uint8_t *table, size_t table_len, const uint8_t *key, size_t key_len, coghammer_node *node, uint64_t ping[COGHAMMER_HEAD]);

// The places of where a node is held.
enum {
    COGHAMMER_HELD_AS,       // COGHAMMER_NOT_HELD, COGHAMMER_HELD_SEAT or COGHAMMER_HELD_WAITING
    COGHAMMER_HELD_DISTANCE, // the logarithmic distance, 1 to 256
    COGHAMMER_HELD_PLACE,    // the place among its bucket's seats or its waiting line, counted from 1
    COGHAMMER_HELD
};

enum {
    COGHAMMER_NOT_HELD = 0,
    COGHAMMER_HELD_SEAT = 1,
    COGHAMMER_HELD_WAITING = 2
};

// The node with this key, and where it is held; zeros where it isn't. The answer number: 0, 1, 5, 7 or 12. Only the key's bucket is looked at.
uint8_t coghammer_find(const uint8_t *table, size_t table_len, const uint8_t *key, size_t key_len, coghammer_node *node, uint64_t told[COGHAMMER_HELD]);

// ---- packets read

// The places of `fields`. A byte string is where it starts in the datagram and its length. A field that the packet does not have is 0.
enum {
    COGHAMMER_FIELD_TYPE,
    COGHAMMER_FIELD_VERSION,
    COGHAMMER_FIELD_EXPIRATION,
    COGHAMMER_FIELD_HAS_ENR_SEQ,
    COGHAMMER_FIELD_ENR_SEQ,
    COGHAMMER_FIELD_FROM_START, // an unknown address has start 0 and length 0; its ports are told
    COGHAMMER_FIELD_FROM_LEN,
    COGHAMMER_FIELD_FROM_UDP,
    COGHAMMER_FIELD_FROM_TCP,
    COGHAMMER_FIELD_TO_START,
    COGHAMMER_FIELD_TO_LEN,
    COGHAMMER_FIELD_TO_UDP,
    COGHAMMER_FIELD_HASH_START, // ping-hash of a Pong, request-hash of an ENRResponse
    COGHAMMER_FIELD_HASH_LEN,
    COGHAMMER_FIELD_TARGET_START,
    COGHAMMER_FIELD_TARGET_LEN,
    COGHAMMER_FIELD_NODES_START, // see coghammer_node_count and coghammer_node_at
    COGHAMMER_FIELD_NODES_LEN,
    COGHAMMER_FIELD_RECORD_START, // the record with its header
    COGHAMMER_FIELD_RECORD_LEN,
    COGHAMMER_FIELDS
};

// The fields of a datagram's packet. The answer number: 0, or 8, 9 or 10 and nothing is written. Only type and data are looked at.
uint8_t coghammer_packet(const uint8_t *datagram, size_t datagram_len, uint64_t fields[COGHAMMER_FIELDS]);

// How many nodes a Neighbors lists, by the start and length of its nodes.
size_t coghammer_node_count(const uint8_t *datagram, size_t datagram_len, size_t start, size_t len);

// Node n of them, counted from 0; zeros where there is none.
void coghammer_node_at(const uint8_t *datagram, size_t datagram_len, size_t start, size_t len, size_t n, coghammer_node *node);

// ---- packets written: a body into buf; the code is of 0 and the body's size, or of 19 (room too short) or 20 (can't be written)

// A Ping: version 4; expiration: Unix seconds, as in all that follow. A from_len of 0 says that the address is unknown. enr_seq counts only where has_enr_seq.
uint32_t coghammer_write_ping(uint8_t *buf, size_t buf_len, const uint8_t *from, size_t from_len, uint16_t from_udp, uint16_t from_tcp, const uint8_t *to, size_t to_len, uint16_t to_udp, uint64_t expiration, bool has_enr_seq, uint64_t enr_seq);

// A Pong.
uint32_t coghammer_write_pong(uint8_t *buf, size_t buf_len, const uint8_t *to, size_t to_len, uint16_t to_udp, const uint8_t *ping_hash, size_t ping_hash_len, uint64_t expiration, bool has_enr_seq, uint64_t enr_seq);

// A FindNode.
uint32_t coghammer_write_find_node(uint8_t *buf, size_t buf_len, const uint8_t *target, size_t target_len, uint64_t expiration);

// A Neighbors of 0 to 12 nodes, packed by coghammer_pack_node one after the other; nodes_len is in bytes.
uint32_t coghammer_write_neighbors(uint8_t *buf, size_t buf_len, const uint8_t *nodes, size_t nodes_len, uint64_t expiration);

// A reply to a FindNode: how many Neighbors packets its nodes take (12 in each, and one packet of none), and of packet k, counted from 0, the first
// node and how many: 16 nodes are 12, then 4. Past the last packet a length of 0.
size_t coghammer_reply_count(size_t nodes);
size_t coghammer_reply_start(size_t nodes, size_t k);
size_t coghammer_reply_len(size_t nodes, size_t k);

// An ENRRequest.
uint32_t coghammer_write_enr_request(uint8_t *buf, size_t buf_len, uint64_t expiration);

// An ENRResponse; record is one whole RLP list of at most COGHAMMER_RECORD_MOST bytes.
uint32_t coghammer_write_enr_response(uint8_t *buf, size_t buf_len, const uint8_t *request_hash, size_t request_hash_len, const uint8_t *record, size_t record_len);

// The datagram of a signature, over the Keccak-256 of the body, and the body: hash, signature, body. The code is of 0 and the size, or of 19 or 20.
uint32_t coghammer_join(uint8_t *buf, size_t buf_len, const uint8_t *signature, size_t signature_len, const uint8_t *body, size_t body_len);

// The Keccak-256 of a message. The host signs that of a body.
void coghammer_keccak256(const uint8_t *message, size_t message_len, uint8_t hash[COGHAMMER_HASH_SIZE]);

// ---- boot lists: a node a line, `enode://`, 128 hex digits, `@`, a dotted IPv4 address, `:`, the TCP port, and `?discport=` and the UDP port if
// that differs; a line ends in 0A, which the last may lack on reading

// The places of `told`.
enum {
    COGHAMMER_TOLD_COUNT, // how many nodes were written
    COGHAMMER_TOLD_END,   // 0 at the text's end, or 22 for a line that doesn't fit, or 19 for one that fits when the list is full
    COGHAMMER_TOLD_LINE,  // the number of that line, counted from 1; 0 at the text's end
    COGHAMMER_TOLD
};

// Writes the nodes of a text's lines to the front of a list, up to the first line that ends the reading. The records after the count stay as they
// were. The answer number is always 0: told says how the reading ended.
uint8_t coghammer_read_enodes(coghammer_node *list, size_t list_len, const uint8_t *text, size_t text_len, uint64_t told[COGHAMMER_TOLD]);

// The most bytes of a line, with its 0A.
#define COGHAMMER_ENODE_LINE 174

// Writes the lines of so many nodes, and tells their size. The answer number is 0; 20 if one of the nodes has an address that isn't of 4 bytes; or 19.
// Nothing is written where it isn't 0, neither lines nor a size.
uint8_t coghammer_write_enodes(uint8_t *buf, size_t buf_len, const coghammer_node *nodes, size_t count, uint64_t size[1]);

// ---- packed nodes: address length 1, address 16, UDP port 2, TCP port 2, key 64; numbers big-endian

#define COGHAMMER_PACKED_NODE 85

static inline void coghammer_pack_node(uint8_t packed[COGHAMMER_PACKED_NODE], const coghammer_node *node) {
    packed[0] = node->endpoint.len;
    memcpy(packed + 1, node->endpoint.address, 16);
    packed[17] = (uint8_t)(node->endpoint.udp >> 8);
    packed[18] = (uint8_t)node->endpoint.udp;
    packed[19] = (uint8_t)(node->endpoint.tcp >> 8);
    packed[20] = (uint8_t)node->endpoint.tcp;
    memcpy(packed + 21, node->key, 64);
}

#ifdef __cplusplus
}
#endif

#endif
