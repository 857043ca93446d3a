// fuzz SECONDS [SEED]: drives the functions of include/coghammer.h with sound, mutated and random tables, with datagrams mutated from valid
// ones, by themselves and in bursts, by clocks and by readings of 32 bits, with boot lists, and with rooms of every size, for so long. The last line says how many calls were made; the exit status is not 0
// where a check failed.
//
// Every call is made twice, with its memory lent in two ways, and must answer the same and leave the same bytes. A block is lent on the heap
// in its exact size, where the sanitizer watches, or right before or right behind a page that may not be touched: the library itself is
// compiled without instrumentation, and a byte outside a block is noticed there all the same. For the same reason there is no coverage for
// libFuzzer to follow, and the inputs are made here with the rules in mind.
#include "coghammer.h"
#include <inttypes.h>
#include <stdio.h>
#include <stdlib.h>
#include <string.h>
#include <sys/mman.h>
#include <time.h>
#include <unistd.h>

enum {
    HEADER = 512, BUCKET = 2862, ENTRY = 143, MOST = COGHAMMER_TABLE_SIZE(257), LARGEST = 1280, LONGEST = 1400, PACKED = COGHAMMER_PACKED_NODE,
    PEERS = 48, ARGUMENTS = 10, MARGIN = 64, MARK = 0xa5
};

static uint64_t calls, reached[22], seed;

static void fail(const char *what) {
    printf("seed %" PRIu64 ", call %" PRIu64 ": %s\n", seed, calls, what);
    fflush(stdout);
    abort();
}

static void check(bool holds, const char *what) {
    if (!holds) fail(what);
}

// ---- random numbers (SplitMix64)

static uint64_t state;

static uint64_t any(void) {
    uint64_t z = state += 0x9e3779b97f4a7c15;
    z = (z ^ (z >> 30)) * 0xbf58476d1ce4e5b9;
    z = (z ^ (z >> 27)) * 0x94d049bb133111eb;
    return z ^ (z >> 31);
}
static size_t below(size_t n) { return any() % n; }
static bool chance(unsigned percent) { return below(100) < percent; }
static uint64_t any_size(void) { return any() >> below(64); }
static void fill(uint8_t *to, size_t len) {
    for (size_t i = 0; i < len; i++) to[i] = (uint8_t)any();
}

// ---- memory that is lent

// Pages between two that may not be touched; one for each argument.
static uint8_t *pages[ARGUMENTS];
static size_t room;

static void make_pages(void) {
    size_t page = (size_t)sysconf(_SC_PAGESIZE);
    room = (MOST + 2 * page) / page * page;
    for (int i = 0; i < ARGUMENTS; i++) {
        uint8_t *all = mmap(NULL, room + 2 * page, PROT_NONE, MAP_PRIVATE | MAP_ANONYMOUS, -1, 0);
        if (all == MAP_FAILED || mprotect(all + page, room, PROT_READ | PROT_WRITE)) fail("no memory");
        pages[i] = all + page;
    }
}

enum place { HEAP, BEFORE_PAGE, BEHIND_PAGE, PLACES };

// An argument: its bytes, and where they go to after the call if it is lent for writing.
typedef struct {
    const void *bytes;
    size_t len;
    void *after;
} lent;

static uint8_t *lend(const lent *a, int i, enum place place) {
    uint8_t *at = place == HEAP ? malloc(a->len) : place == BEHIND_PAGE ? pages[i] : pages[i] + room - a->len;
    if (!at) fail("no memory");
    memcpy(at, a->bytes, a->len);
    if (place == BEFORE_PAGE) memset(at - MARGIN, MARK, MARGIN);
    if (place == BEHIND_PAGE) memset(at + a->len, MARK, MARGIN);
    return at;
}

// Takes a block back into `kept`: what was lent for reading, and what lies beside it, is as it was. A second call must leave the same bytes.
static void take_back(const lent *a, uint8_t *at, enum place place, uint8_t *kept, bool second) {
    for (int i = 0; i < MARGIN; i++) {
        if (place == BEFORE_PAGE) check(at[i - MARGIN] == MARK, "a byte before a block was written");
        if (place == BEHIND_PAGE) check(at[a->len + (size_t)i] == MARK, "a byte behind a block was written");
    }
    if (!a->after) check(memcmp(a->bytes, at, a->len) == 0, "bytes that were lent for reading changed");
    if (second) check(memcmp(kept, at, a->len) == 0, "the same call left other bytes");
    memcpy(kept, at, a->len);
    if (place == HEAP) free(at);
}

typedef uint64_t function(uint8_t **p, const size_t *len, const uint64_t *n);

static uint64_t call(function *f, const lent *arguments, const uint64_t *numbers) {
    static uint8_t kept[ARGUMENTS][MOST];
    uint64_t answers[2];
    int count = 0;
    while (count < ARGUMENTS && arguments[count].bytes) count++;
    for (int turn = 0; turn < 2; turn++) {
        uint8_t *p[ARGUMENTS];
        size_t len[ARGUMENTS];
        enum place place[ARGUMENTS];
        for (int i = 0; i < count; i++) {
            place[i] = (enum place)below(PLACES);
            p[i] = lend(&arguments[i], i, place[i]);
            len[i] = arguments[i].len;
        }
        answers[turn] = f(p, len, numbers);
        calls++;
        for (int i = 0; i < count; i++) take_back(&arguments[i], p[i], place[i], kept[i], turn);
    }
    for (int i = 0; i < count; i++)
        if (arguments[i].after) memcpy(arguments[i].after, kept[i], arguments[i].len);
    check(answers[0] == answers[1], "the same call gave another answer");
    return answers[0];
}

// ---- the functions

// A node record has a byte between its fields, which is nobody's: a call that stores a record may change it.
static void settle(void *records, size_t len) {
    for (size_t at = offsetof(coghammer_node, endpoint) + offsetof(coghammer_endpoint, udp) - 1; at < len; at += sizeof(coghammer_node))
        ((uint8_t *)records)[at] = 0;
}

static uint64_t init(uint8_t **p, const size_t *len, const uint64_t *n) { return coghammer_init(p[0], len[0], p[1], len[1], n[0]); }
static uint64_t datagram(uint8_t **p, const size_t *len, const uint64_t *n) {
    return coghammer_datagram((coghammer_counters *)p[0], p[1], len[1], (coghammer_millis){n[0]}, (coghammer_unix){n[1]}, p[2], len[2], (uint16_t)n[2], p[3], len[3], p[4], len[4]);
}
static uint64_t burst(uint8_t **p, const size_t *len, const uint64_t *n) {
    (void)n;
    return coghammer_burst((coghammer_counters *)p[0], p[1], len[1], p[2], len[2], p[3], len[3], (size_t *)p[4], len[4] / sizeof(size_t), p[5], len[5],
                           p[6], len[6], (uint16_t *)p[7], len[7] / 2, (coghammer_millis *)p[8], len[8] / 8, (coghammer_unix *)p[9], len[9] / 8);
}
static uint64_t ping_sent(uint8_t **p, const size_t *len, const uint64_t *n) {
    return coghammer_ping_sent((coghammer_counters *)p[0], p[1], len[1], (coghammer_millis){n[0]}, p[2], len[2], p[3], len[3], (uint16_t)n[1], (uint16_t)n[2],
                               p[4], len[4]);
}
static uint64_t sweep(uint8_t **p, const size_t *len, const uint64_t *n) {
    return coghammer_sweep((coghammer_counters *)p[0], p[1], len[1], (coghammer_millis){n[0]});
}
static coghammer_low_millis low(uint64_t clock) { return (coghammer_low_millis){(uint32_t)clock}; }
static uint64_t datagram_low(uint8_t **p, const size_t *len, const uint64_t *n) {
    return coghammer_datagram_low((coghammer_counters *)p[0], p[1], len[1], low(n[0]), (coghammer_unix){n[1]}, p[2], len[2], (uint16_t)n[2], p[3], len[3], p[4], len[4]);
}
static uint64_t burst_low(uint8_t **p, const size_t *len, const uint64_t *n) {
    (void)n;
    return coghammer_burst_low((coghammer_counters *)p[0], p[1], len[1], p[2], len[2], p[3], len[3], (size_t *)p[4], len[4] / sizeof(size_t), p[5], len[5],
                               p[6], len[6], (uint16_t *)p[7], len[7] / 2, (coghammer_low_millis *)p[8], len[8] / 4, (coghammer_unix *)p[9], len[9] / 8);
}
static uint64_t ping_sent_low(uint8_t **p, const size_t *len, const uint64_t *n) {
    return coghammer_ping_sent_low((coghammer_counters *)p[0], p[1], len[1], low(n[0]), p[2], len[2], p[3], len[3], (uint16_t)n[1], (uint16_t)n[2], p[4], len[4]);
}
static uint64_t sweep_low(uint8_t **p, const size_t *len, const uint64_t *n) {
    return coghammer_sweep_low((coghammer_counters *)p[0], p[1], len[1], low(n[0]));
}
static uint64_t full_clock(uint8_t **p, const size_t *len, const uint64_t *n) {
    return coghammer_full_clock(p[0], len[0], low(n[0]), (coghammer_millis *)p[1]);
}
static uint64_t closest(uint8_t **p, const size_t *len, const uint64_t *n) {
    (void)n;
    uint32_t code = coghammer_closest((coghammer_node *)p[0], len[0] / sizeof(coghammer_node), p[1], len[1], p[2], len[2]);
    settle(p[0], len[0]);
    return code;
}
static uint64_t clear(uint8_t **p, const size_t *len, const uint64_t *n) {
    (void)len, (void)n;
    coghammer_clear((coghammer_counters *)p[0]);
    return 0;
}
static uint64_t head(uint8_t **p, const size_t *len, const uint64_t *n) {
    (void)n;
    uint8_t number = coghammer_head(p[0], len[0], p[1], len[1], (coghammer_node *)p[2], (uint64_t *)p[3]);
    settle(p[2], len[2]);
    return number;
}
static uint64_t find(uint8_t **p, const size_t *len, const uint64_t *n) {
    (void)n;
    uint8_t number = coghammer_find(p[0], len[0], p[1], len[1], (coghammer_node *)p[2], (uint64_t *)p[3]);
    settle(p[2], len[2]);
    return number;
}
static uint64_t table_state(uint8_t **p, const size_t *len, const uint64_t *n) {
    (void)n;
    return coghammer_state(p[0], len[0], (uint64_t *)p[1]);
}
static uint64_t print(uint8_t **p, const size_t *len, const uint64_t *n) {
    (void)n;
    return coghammer_print(p[0], len[0], p[1], len[1], (uint64_t *)p[2]);
}
static uint64_t packet(uint8_t **p, const size_t *len, const uint64_t *n) {
    (void)n;
    return coghammer_packet(p[0], len[0], (uint64_t *)p[1]);
}
static uint64_t node_count(uint8_t **p, const size_t *len, const uint64_t *n) { return coghammer_node_count(p[0], len[0], n[0], n[1]); }
static uint64_t node_at(uint8_t **p, const size_t *len, const uint64_t *n) {
    coghammer_node_at(p[0], len[0], n[0], n[1], n[2], (coghammer_node *)p[1]);
    settle(p[1], len[1]);
    return 0;
}
static uint64_t write_ping(uint8_t **p, const size_t *len, const uint64_t *n) {
    return coghammer_write_ping(p[0], len[0], p[1], len[1], (uint16_t)n[1], (uint16_t)n[2], p[2], len[2], (uint16_t)n[3], n[0], n[1] & 1, n[2]);
}
static uint64_t write_pong(uint8_t **p, const size_t *len, const uint64_t *n) {
    return coghammer_write_pong(p[0], len[0], p[1], len[1], (uint16_t)n[1], p[2], len[2], n[0], n[1] & 1, n[2]);
}
static uint64_t write_find_node(uint8_t **p, const size_t *len, const uint64_t *n) {
    return coghammer_write_find_node(p[0], len[0], p[1], len[1], n[0]);
}
static uint64_t write_neighbors(uint8_t **p, const size_t *len, const uint64_t *n) {
    return coghammer_write_neighbors(p[0], len[0], p[1], len[1], n[0]);
}
static uint64_t write_enr_request(uint8_t **p, const size_t *len, const uint64_t *n) { return coghammer_write_enr_request(p[0], len[0], n[0]); }
static uint64_t write_enr_response(uint8_t **p, const size_t *len, const uint64_t *n) {
    (void)n;
    return coghammer_write_enr_response(p[0], len[0], p[1], len[1], p[2], len[2]);
}
static uint64_t join(uint8_t **p, const size_t *len, const uint64_t *n) {
    (void)n;
    return coghammer_join(p[0], len[0], p[1], len[1], p[2], len[2]);
}
static uint64_t keccak256(uint8_t **p, const size_t *len, const uint64_t *n) {
    (void)n;
    coghammer_keccak256(p[0], len[0], p[1]);
    return 0;
}

// The byte of padding before the ports of a record that was written has no value: two calls may leave it different.
static uint64_t read_enodes(uint8_t **p, const size_t *len, const uint64_t *n) {
    (void)n;
    uint8_t number = coghammer_read_enodes((coghammer_node *)p[0], len[0] / sizeof(coghammer_node), p[1], len[1], (uint64_t *)p[2]);
    settle(p[0], len[0]);
    return number;
}
static uint64_t write_enodes(uint8_t **p, const size_t *len, const uint64_t *n) {
    (void)n;
    return coghammer_write_enodes(p[0], len[0], (coghammer_node *)p[1], len[1] / sizeof(coghammer_node), (uint64_t *)p[2]);
}

// ---- a table, and nodes around it

// Each byte string has one byte more, to be lent too long.
typedef struct {
    uint8_t key[65], address[17], hash[33];
    size_t len;
    uint16_t udp;
} peer;

static peer peers[PEERS];
static uint8_t own[65], table[MOST], next_table[MOST], any_table[MOST];
static size_t size;
static uint64_t now;
static const uint64_t unix_time = 1700000000;
static coghammer_counters counters, next_counters;

// A length that is right as a rule.
static size_t about(size_t len) { return chance(95) ? len : below(2) ? below(len + 1) : len + 1; }

static void fresh_table(void) {
    static const size_t counts[] = {1, 1, 1, 2, 3, 16, 16, 17, 256};
    size_t buckets = counts[below(9)];
    fill(own, 65);
    for (int i = 0; i < PEERS; i++) {
        fill((uint8_t *)&peers[i], sizeof peers[i]);
        peers[i].len = below(2) ? 4 : 16;
    }
    if (chance(50)) memcpy(peers[0].key, own, 65);
    size = COGHAMMER_TABLE_SIZE(buckets);
    now = chance(10) ? UINT64_MAX - below(100000) : any_size() >> 1;
    // refused as a rule if a length or the count is off
    size_t lent_size = chance(80) ? size : below(MOST), key = about(64), count = chance(90) ? buckets : any_size();
    fill(table, 1000);
    uint64_t number = call(init, (lent[6]){{table, lent_size, next_table}, {own, key, NULL}}, (uint64_t[]){count});
    check(number == 0 || number == 1 || number == 5, "init gave another number");
    if (number) check(memcmp(table, next_table, lent_size) == 0, "a refused init wrote");
    number = call(init, (lent[6]){{table, size, next_table}, {own, 64, NULL}}, (uint64_t[]){buckets});
    check(number == 0, "a fresh table was refused");
    memcpy(table, next_table, size);
}

// A counted call raises one count, and where it is refused changes nothing else.
static void counted(uint64_t code, const uint8_t *before, size_t len) {
    uint8_t number = COGHAMMER_NUMBER(code);
    check(number < 19, "a number that no counted call gives");
    for (int i = 0; i < 22; i++) {
        uint32_t wanted = counters.counts[i] + (i == number && counters.counts[i] != UINT32_MAX);
        check(next_counters.counts[i] == wanted, "the counters are wrong");
    }
    counters = next_counters;
    reached[number]++;
    if (number) check(COGHAMMER_VALUE(code) == 0 && memcmp(before, next_table, len) == 0, "a refused call wrote to the table");
}

static uint64_t later(void) {
    static const uint64_t steps[] = {0, 0, 1, 20, 499, 500, 501, 43200000, 43200001};
    uint64_t step = steps[chance(90) ? below(4) : below(9)];
    if (chance(2)) return now - (now > 0);
    return now > UINT64_MAX - step ? UINT64_MAX : now + step;
}

// ---- datagrams

static uint8_t body[LONGEST], wire[LONGEST + 1];
static size_t wire_len;

// A record, or something that isn't one.
static size_t any_record(uint8_t record[302]) {
    size_t inside = below(4) ? below(50) : below(300);
    size_t at = inside < 56 ? 1 : inside < 256 ? 2 : 3;
    fill(record, 302);
    record[0] = (uint8_t)(inside < 56 ? 0xc0 + inside : inside < 256 ? 0xf8 : 0xf9);
    if (at == 2) record[1] = (uint8_t)inside;
    if (at == 3) record[1] = (uint8_t)(inside >> 8), record[2] = (uint8_t)inside;
    size_t whole = at + inside;
    return chance(90) ? (whole < 302 ? whole : 302) : below(302);
}

static size_t any_nodes(uint8_t *nodes) {
    size_t count = below(18);
    fill(nodes, count * PACKED);
    for (size_t i = 0; i < count; i++) nodes[i * PACKED] = chance(97) ? (below(2) ? 4 : 16) : (uint8_t)any();
    return chance(95) ? count * PACKED : below(count * PACKED + 1);
}

// Writes a body of a type into a room; the code.
static uint64_t write_body(unsigned type, size_t space, uint64_t expiration, const peer *to) {
    static uint8_t nodes[18 * PACKED], record[302];
    lent buf = {body, space, body};
    uint64_t n[] = {expiration, any(), any_size(), any()};
    lent address = {to->address, about(to->len), NULL}, hash = {to->hash, about(32), NULL};
    switch (type) {
    case 1: return call(write_ping, (lent[6]){buf, {peers[below(PEERS)].address, chance(20) ? 0 : about(4), NULL}, address}, n);
    case 2: return call(write_pong, (lent[6]){buf, address, hash}, n);
    case 3: return call(write_find_node, (lent[6]){buf, {own, about(64), NULL}}, n);
    case 4: return call(write_neighbors, (lent[6]){buf, {nodes, any_nodes(nodes), NULL}}, n);
    case 5: return call(write_enr_request, (lent[6]){buf}, n);
    default: return call(write_enr_response, (lent[6]){buf, hash, {record, any_record(record), NULL}}, n);
    }
}

// The datagram of a body that was written; none where it wasn't.
static bool make_datagram(unsigned type, const peer *to) {
    uint8_t signature[66];
    fill(signature, 66);
    uint64_t expiration = chance(90) ? unix_time + below(3) : any_size();
    fill(body, LARGEST);
    uint64_t code = write_body(type, LARGEST, expiration, to);
    check(COGHAMMER_NUMBER(code) == 0 || COGHAMMER_NUMBER(code) == 20, "a writer gave another number in a large room");
    if (COGHAMMER_NUMBER(code)) return false;
    code = call(join, (lent[6]){{wire, LARGEST, wire}, {signature, about(65), NULL}, {body, COGHAMMER_VALUE(code), NULL}}, NULL);
    wire_len = COGHAMMER_VALUE(code);
    return COGHAMMER_NUMBER(code) == 0;
}

static void right_hash(void) {
    uint8_t hash[32];
    if (wire_len < 32) return;
    call(keccak256, (lent[6]){{wire + 32, wire_len - 32, NULL}, {hash, 32, hash}}, NULL);
    memcpy(wire, hash, 32);
}

// Changes bytes of the datagram, mostly behind the signature, and mostly mends the hash.
static void mutate_datagram(void) {
    static const uint8_t nasty[] = {0x00, 0x01, 0x7f, 0x80, 0x81, 0xa0, 0xb7, 0xb8, 0xb9, 0xbf, 0xc0, 0xc1, 0xf7, 0xf8, 0xf9, 0xff};
    for (size_t turns = below(4); turns; turns--) {
        if (wire_len == 0) break;
        size_t at = wire_len > 98 && chance(90) ? 97 + below(wire_len - 97) : below(wire_len);
        if (chance(50) && wire_len > 110) at = 98 + below(12);
        wire[at] = chance(60) ? nasty[below(16)] : (uint8_t)any();
    }
    if (chance(10)) wire_len = below(wire_len + 1);
    if (chance(5)) {
        size_t more = below(LONGEST - wire_len);
        fill(wire + wire_len, more);
        wire_len += more;
    }
    if (chance(85)) right_hash();
}

// The fields of any datagram: what they name lies inside it.
static void read_datagram(void) {
    uint64_t fields[COGHAMMER_FIELDS], before[COGHAMMER_FIELDS];
    fill((uint8_t *)before, sizeof before);
    memcpy(fields, before, sizeof fields);
    uint64_t number = call(packet, (lent[6]){{wire, wire_len, NULL}, {before, sizeof before, fields}}, NULL);
    check(number == 0 || (number >= 8 && number <= 10), "packet gave another number");
    if (number) {
        check(memcmp(fields, before, sizeof fields) == 0, "a refused packet wrote fields");
        return;
    }
    static const int spans[] = {COGHAMMER_FIELD_FROM_START, COGHAMMER_FIELD_TO_START, COGHAMMER_FIELD_HASH_START, COGHAMMER_FIELD_TARGET_START, COGHAMMER_FIELD_NODES_START,
                                COGHAMMER_FIELD_RECORD_START};
    for (int i = 0; i < 6; i++) check(fields[spans[i]] <= wire_len && fields[spans[i] + 1] <= wire_len - fields[spans[i]], "a field lies outside");
    check(fields[COGHAMMER_FIELD_TYPE] >= 1 && fields[COGHAMMER_FIELD_TYPE] <= 6, "a type that isn't there");
    uint64_t from = fields[COGHAMMER_FIELD_FROM_LEN], to = fields[COGHAMMER_FIELD_TO_LEN];
    if (fields[COGHAMMER_FIELD_TYPE] == 1) check(from == 4 || from == 16 || (from == 0 && fields[COGHAMMER_FIELD_FROM_START] == 0), "a `from` that can't be");
    if (fields[COGHAMMER_FIELD_TYPE] <= 2) check(to == 4 || to == 16, "a `to` that can't be");
    if (fields[COGHAMMER_FIELD_TYPE] != 4) return;
    uint64_t n[] = {fields[COGHAMMER_FIELD_NODES_START], fields[COGHAMMER_FIELD_NODES_LEN], 0};
    uint64_t count = call(node_count, (lent[6]){{wire, wire_len, NULL}}, n);
    if (wire_len <= LARGEST) check(count <= 15, "a Neighbors of more than 15 nodes");
    for (n[2] = 0; n[2] <= count; n[2]++) {
        coghammer_node node;
        fill((uint8_t *)&node, sizeof node);
        call(node_at, (lent[6]){{wire, wire_len, NULL}, {&node, sizeof node, &node}}, n);
        check(n[2] < count ? node.endpoint.len == 4 || node.endpoint.len == 16 : node.endpoint.len == 0, "a node that can't be");
    }
}

// Nodes by a start and a length that no packet gave.
static void any_span(void) {
    coghammer_node node;
    uint64_t n[] = {any_size(), any_size(), any_size()};
    if (chance(70)) n[0] = below(wire_len + 2), n[1] = below(wire_len + 2), n[2] = below(4);
    fill((uint8_t *)&node, sizeof node);
    call(node_count, (lent[6]){{wire, wire_len, NULL}}, n);
    call(node_at, (lent[6]){{wire, wire_len, NULL}, {&node, sizeof node, &node}}, n);
}

// Every room up to what a value needs.
static void rooms(unsigned type, const peer *to) {
    uint64_t start = state, expiration = any_size();
    uint64_t code = write_body(type, LARGEST, expiration, to);
    size_t needed = COGHAMMER_NUMBER(code) ? 8 : COGHAMMER_VALUE(code);
    for (size_t space = 0; space <= needed; space += 1 + below(1 + needed / 40)) {
        static uint8_t before[LARGEST];
        uint64_t kept = state;
        memset(body, 0x5a, LARGEST);
        memcpy(before, body, LARGEST);
        state = start; // the same value
        (void)any_size();
        uint64_t again = write_body(type, space, expiration, to);
        state = kept + space;
        if (COGHAMMER_NUMBER(code)) check(again == code, "a value that can't be written was");
        else if (space < needed) check(again == 19, "a room that is too short was taken");
        size_t written = COGHAMMER_NUMBER(again) ? 0 : needed;
        check(memcmp(body + written, before + written, LARGEST - written) == 0, "bytes past what is written changed");
    }
}

// ---- boot lists

enum { NODES = 40, TEXT = (NODES + 2) * COGHAMMER_ENODE_LINE };

static coghammer_node boot[NODES], boot_before[NODES], boot_after[NODES];
static uint8_t text[TEXT], text_before[TEXT];
static uint64_t ends[23]; // readings by how they ended

static size_t write_text(size_t space, size_t count) {
    uint64_t before = 77, size = 77;
    uint64_t number = call(write_enodes, (lent[6]){{text, space, text}, {boot, count * sizeof boot[0], NULL}, {&before, sizeof before, &size}}, NULL);
    bool writable = true;
    for (size_t i = 0; i < count; i++) writable &= boot[i].endpoint.len == 4;
    check(writable ? number == 0 || number == 19 : number == 20, "a list was written with another number");
    check(number == 0 || size == before, "a refused list has a size");
    check(number || size <= space, "a list is longer than its room");
    size_t written = number ? 0 : size;
    check(memcmp(text + written, text_before + written, TEXT - written) == 0, "bytes past the lines changed");
    return number ? SIZE_MAX : written;
}

// Reads a text into a list; how many records it wrote.
static size_t read_text(size_t len, size_t count) {
    uint64_t before[COGHAMMER_TOLD], told[COGHAMMER_TOLD];
    fill((uint8_t *)before, sizeof before);
    fill((uint8_t *)boot_before, sizeof boot_before);
    settle(boot_before, sizeof boot_before);
    uint64_t number = call(read_enodes, (lent[6]){{boot_before, count * sizeof boot[0], boot_after}, {text, len, NULL}, {before, sizeof before, told}}, NULL);
    size_t found = told[COGHAMMER_TOLD_COUNT];
    uint64_t end = told[COGHAMMER_TOLD_END];
    check(number == 0, "a reading was refused");
    check(end == 0 || end == 19 || end == 22, "a reading ended with another number");
    check(found <= count && (end != 19 || found == count), "a reading counted wrong");
    check(told[COGHAMMER_TOLD_LINE] == (end ? found + 1 : 0), "a reading ended at another line");
    check(memcmp(boot_before + found, boot_after + found, (count - found) * sizeof boot[0]) == 0, "records after the count changed");
    for (size_t i = 0; i < found; i++) check(boot_after[i].endpoint.len == 4, "a node that no line says");
    ends[end]++;
    return end ? SIZE_MAX : found;
}

// A node has a byte that no field names, so that fields are compared. Behind the four bytes of its address are zeros.
static bool is_read_back(const coghammer_node *written, const coghammer_node *read) {
    static const uint8_t zeros[12];
    const coghammer_endpoint *a = &written->endpoint, *b = &read->endpoint;
    bool key = memcmp(written->key, read->key, 64) == 0, address = memcmp(a->address, b->address, 4) == 0 && memcmp(b->address + 4, zeros, 12) == 0;
    return key && address && a->udp == b->udp && a->tcp == b->tcp;
}

// A list is written in rooms about its size, its text read back, and read again with some bytes changed.
static void boot_list(void) {
    static const uint8_t nasty[] = "0123456789abfgAFG.:?@=/ \n\n\n\r\t";
    size_t count = below(NODES + 1);
    fill((uint8_t *)boot, sizeof boot);
    for (size_t i = 0; i < NODES; i++) {
        boot[i].endpoint.len = 4;
        if (chance(90)) memset(boot[i].endpoint.address + 4, 0, 12);
        if (chance(60)) boot[i].endpoint.udp = boot[i].endpoint.tcp;
    }
    if (chance(10) && count) boot[below(count)].endpoint.len = (uint8_t)any();
    fill(text_before, TEXT);
    memcpy(text, text_before, TEXT);
    size_t len = write_text(TEXT, count);
    if (len == SIZE_MAX) return;
    for (int i = 0; i < 3; i++) {
        static uint8_t whole[TEXT];
        size_t space = i == 0 ? len : i == 1 ? len - (len > 0) : below(len + 1);
        memcpy(whole, text, TEXT);
        memcpy(text, text_before, TEXT);
        check((write_text(space, count) == len) == (space >= len), "a list was written in a room that is too short, or not in one that is not");
        memcpy(text, whole, TEXT);
    }
    check(read_text(len - (len > 0 && chance(50)), count + below(NODES + 1 - count)) == count, "what was written is not read");
    for (size_t i = 0; i < count; i++) check(is_read_back(&boot[i], &boot_after[i]), "what was written is read as another node");
    for (size_t turns = 1 + below(3); turns && len; turns--) text[below(len)] = chance(80) ? nasty[below(sizeof nasty - 1)] : (uint8_t)any();
    read_text(chance(80) ? len : below(TEXT), below(NODES + 1));
}

// ---- calls on tables

static uint64_t clock_in(const uint8_t *memory) {
    uint64_t clock = 0;
    for (int i = 32; i < 40; i++) clock = clock << 8 | memory[i];
    return clock;
}

static uint64_t readings[2]; // by whether they gave a clock

// A call with a clock, numbers[0], on the table that is argument 1, over the counters that are argument 0; now and then beside the same call by
// the clock's low 32 bits. The reading is widened here by a signed difference.
static uint64_t timed(function *full, function *by_reading, const lent *arguments, const uint64_t *numbers) {
    static uint8_t low_table[MOST];
    coghammer_counters low_counters;
    uint64_t code = call(full, arguments, numbers);
    if (chance(70)) return code;
    lent again[6];
    memcpy(again, arguments, sizeof again);
    again[0].after = &low_counters, again[1].after = low_table;
    uint64_t low_code = call(by_reading, again, numbers), told = 77, before = 77;
    bool unsound = COGHAMMER_NUMBER(code) == 1, has_clock = arguments[1].len >= HEADER;
    uint64_t last = has_clock ? clock_in(arguments[1].bytes) : 0;
    int32_t difference = (int32_t)((uint32_t)numbers[0] - (uint32_t)last);
    bool given = difference >= 0 && last <= UINT64_MAX - (uint64_t)difference;
    uint64_t wide = last + (uint64_t)difference;
    uint64_t number = call(full_clock, (lent[6]){{arguments[1].bytes, arguments[1].len, NULL}, {&before, 8, &told}}, numbers);
    check(number == 1 ? unsound : number == (given ? 0 : 2), "a full clock has another number");
    check(told == (number ? before : wide), "another full clock was told");
    readings[given]++;
    if (unsound || !given) {
        check(low_code == (unsound ? 1 : 2), "a reading that gives no clock has another number");
        check(memcmp(low_table, arguments[1].bytes, arguments[1].len) == 0, "a refused reading wrote to the table");
    } else if (wide == numbers[0]) {
        check(low_code == code, "a call by a reading gave another answer than by its clock");
        check(memcmp(low_table, arguments[1].after, arguments[1].len) == 0, "a call by a reading left another table than by its clock");
        check(memcmp(&low_counters, arguments[0].after, sizeof low_counters) == 0, "a call by a reading was counted otherwise than by its clock");
    }
    return code;
}

static uint64_t receive(uint8_t *memory, size_t len, const peer *from, uint64_t clock) {
    return timed(datagram, datagram_low,
                 (lent[6]){{&counters, sizeof counters, &next_counters}, {memory, len, next_table},
                           {from->address, about(from->len), NULL}, {from->key, about(64), NULL}, {wire, wire_len, NULL}},
                 (uint64_t[]){clock, chance(95) ? unix_time : any_size(), from->udp});
}

static uint64_t sweep_at(uint8_t *memory, size_t len, uint64_t clock) {
    return timed(sweep, sweep_low, (lent[6]){{&counters, sizeof counters, &next_counters}, {memory, len, next_table}}, (uint64_t[]){clock});
}

static uint64_t record_ping(uint8_t *memory, size_t len, peer *to, uint64_t clock) {
    uint8_t hash[33];
    fill(hash, 33);
    uint64_t number = timed(ping_sent, ping_sent_low,
                            (lent[6]){{&counters, sizeof counters, &next_counters}, {memory, len, next_table}, {to->key, about(64), NULL},
                                      {to->address, about(to->len), NULL}, {hash, about(32), NULL}},
                            (uint64_t[]){clock, to->udp ^ chance(3), any()});
    if (number == 0) memcpy(to->hash, hash, 33); // its pong names this one
    return number;
}

static void find_closest(const uint8_t *memory, size_t len) {
    static coghammer_node before[18], list[18];
    size_t count = chance(80) ? 16 : below(18);
    fill((uint8_t *)before, sizeof before);
    settle(before, sizeof before);
    uint64_t code = call(closest, (lent[6]){{before, count * sizeof before[0], list}, {memory, len, NULL}, {peers[0].key, about(64), NULL}}, NULL);
    uint8_t number = COGHAMMER_NUMBER(code);
    size_t found = COGHAMMER_COUNT(code), distances = COGHAMMER_DISTANCES(code);
    check(number == 0 || number == 1 || number == 5 || number == 19, "closest gave another number");
    check(found <= 16 && (number == 0 || found == 0) && (number || count >= 16), "closest found too many");
    check(code >> 24 == 0 && found <= distances && distances <= COGHAMMER_DISTANCES_MOST, "closest told another number of distances");
    check(found == 16 ? distances >= 16 : distances == found, "closest stopped too early or too late");
    check(memcmp(before + found, list + found, (count - found) * sizeof before[0]) == 0, "records after the count changed");
}

// Asks for the head of a key's bucket (2 numbers), or where its node is held (3).
static void ask_of_key(function *f, size_t numbers, const uint8_t *memory, size_t len, const peer *of) {
    coghammer_node before, node;
    uint64_t kept[3], told[3];
    fill((uint8_t *)&before, sizeof before), fill((uint8_t *)kept, sizeof kept);
    settle(&before, sizeof before);
    lent of_key = {of->key, about(64), NULL}, to_node = {&before, sizeof before, &node}, to_told = {kept, numbers * 8, told};
    uint64_t number = call(f, (lent[6]){{memory, len, NULL}, of_key, to_node, to_told}, NULL);
    check(number == 0 || number == 1 || number == 5 || number == 7 || number == 12, "a question of a key gave another number");
    if (number) check(memcmp(&before, &node, sizeof node) == 0 && memcmp(kept, told, numbers * 8) == 0, "a refused question wrote");
    else check(told[0] <= numbers - 1, "a question of a key told another number");
}

// Asks for the state and the printout, in a room that is right as a rule.
static void ask_of_table(const uint8_t *memory, size_t len) {
    static uint8_t before[MOST], text[MOST];
    uint64_t kept[4], told[4], size_before = any(), size;
    fill((uint8_t *)kept, sizeof kept);
    uint64_t number = call(table_state, (lent[6]){{memory, len, NULL}, {kept, sizeof kept, told}}, NULL);
    check(number == 0 || number == 1, "the state gave another number");
    if (number) check(memcmp(kept, told, sizeof kept) == 0, "a refused state wrote");
    size_t needed = COGHAMMER_PRINTOUT_SIZE(number ? 1 : told[1]), space = chance(80) ? needed : below(needed + 1) + chance(20);
    fill(before, 1000);
    uint64_t answer = call(print, (lent[6]){{before, space, text}, {memory, len, NULL}, {&size_before, 8, &size}}, NULL);
    check(answer == (number ? 1 : space < needed ? 19 : 0), "the printout gave another number");
    size_t written = answer ? 0 : size;
    check(answer ? size == size_before : size > 0 && size <= space && text[size - 1] == '\n', "the printout told another size");
    check(memcmp(before + written, text + written, space - written) == 0, "bytes behind the printout changed");
}

// One call on a memory; whether it was accepted.
static bool step(uint8_t *memory, size_t len, uint64_t clock) {
    peer *p = &peers[below(PEERS)];
    uint64_t code;
    switch (below(8)) {
    case 0: code = sweep_at(memory, len, clock); break;
    case 1:
    case 2: code = record_ping(memory, len, p, clock); break;
    case 3: find_closest(memory, len); return false;
    case 4:
        if (chance(30)) ask_of_table(memory, len);
        else if (chance(50)) ask_of_key(head, COGHAMMER_HEAD, memory, len, p);
        else ask_of_key(find, COGHAMMER_HELD, memory, len, p);
        return false;
    default:
        if (!make_datagram((unsigned)(chance(50) ? 2 : 1 + below(6)), p)) return false;
        if (chance(30)) mutate_datagram();
        read_datagram();
        code = receive(memory, len, p, clock);
    }
    counted(code, memory, len);
    return COGHAMMER_NUMBER(code) == 0;
}

// A sound table goes on; it stays sound.
static void sound_step(void) {
    uint64_t clock = later();
    if (!step(table, size, clock)) return;
    memcpy(table, next_table, size);
    now = clock;
    if (!chance(5)) return;
    uint64_t code = sweep_at(table, size, now);
    check(code == 0, "an accepted call left a table that isn't sound");
    counted(code, table, size);
    memcpy(table, next_table, size);
}

static uint64_t bursts[2];

// A burst, beside the same datagrams one at a time on a copy of the table. Now and then a list is too short or too long, a length is any number,
// or the table is damaged.
static void burst_step(void) {
    enum { ROOM = COGHAMMER_BURST + 4 };
    static uint8_t buffer[ROOM * LONGEST], signers[ROOM * 64 + 1], addresses[ROOM * COGHAMMER_PACKED_ADDRESS + 1], numbers[ROOM + 1], told[ROOM + 1], wide[256];
    static size_t lengths[ROOM + 1];
    static uint16_t ports[ROOM + 1];
    static uint64_t millis[ROOM + 1], times[ROOM + 1];
    static uint32_t low_millis[ROOM + 1];
    size_t count = chance(80) ? below(COGHAMMER_BURST + 1) : below(ROOM), total = 0, len = size;
    for (size_t i = 0; i < count; i++) {
        peer *p = &peers[below(PEERS)];
        if (!make_datagram((unsigned)(chance(50) ? 2 : 1 + below(6)), p)) wire_len = below(LONGEST);
        if (chance(20)) mutate_datagram();
        if (chance(2)) wire_len = 0;
        memcpy(buffer + total, wire, wire_len);
        total += lengths[i] = wire_len;
        memcpy(signers + 64 * i, p->key, 64);
        if (chance(5)) memset(signers + 64 * i, 0, 64);
        addresses[17 * i] = chance(95) ? (uint8_t)p->len : (uint8_t)any();
        memcpy(addresses + 17 * i + 1, p->address, 16);
        ports[i] = (uint16_t)(p->udp ^ chance(3));
        millis[i] = later();
        low_millis[i] = (uint32_t)(chance(95) ? millis[i] : any());
        times[i] = unix_time + chance(5);
    }
    fill(numbers, sizeof numbers);

    // how long each list is lent: numbers, buffer, lengths, signers, addresses, ports, both clocks
    size_t lent_as[8] = {count, total, count, 64 * count, 17 * count, count, count, count};
    if (chance(20)) {
        size_t *one = &lent_as[below(8)];
        *one = *one && chance(50) ? *one - 1 : *one + 1;
    }
    if (count && chance(3)) lengths[below(count)] += chance(50) ? (size_t)any() : 1;
    unsigned __int128 sum = 0;
    for (size_t i = 0; i < lent_as[2]; i++) sum += lengths[i];
    size_t n = lent_as[2];
    bool whole = n <= COGHAMMER_BURST && sum == lent_as[1] && lent_as[3] == 64 * n && lent_as[4] == 17 * n && lent_as[0] == n && lent_as[5] == n
                 && lent_as[6] == n && lent_as[7] == n;

    uint8_t *memory = table;
    if (chance(20)) {
        memory = memcpy(any_table, table, MOST);
        any_table[chance(50) ? below(48) : below(size)] ^= (uint8_t)(1 + below(255));
        if (chance(10)) len = below(MOST);
    }
    bool by_readings = chance(40);
    lent clocks = by_readings ? (lent){low_millis, lent_as[6] * 4, NULL} : (lent){millis, lent_as[6] * 8, NULL};
    uint64_t number = call(by_readings ? burst_low : burst,
                           (lent[10]){{&counters, sizeof counters, &next_counters}, {memory, len, next_table}, {numbers, lent_as[0], told},
                                      {buffer, lent_as[1], NULL}, {lengths, n * sizeof lengths[0], NULL}, {signers, lent_as[3], NULL},
                                      {addresses, lent_as[4], NULL}, {ports, lent_as[5] * 2, NULL}, clocks, {times, lent_as[7] * 8, NULL}},
                           NULL);
    check(number == (whole ? 0 : 28), "a burst gave another number");
    bursts[!whole]++;
    if (!whole) {
        check(memcmp(numbers, told, lent_as[0]) == 0 && memcmp(memory, next_table, len) == 0, "a refused burst wrote");
        check(memcmp(&counters, &next_counters, sizeof counters) == 0, "a refused burst was counted");
        return;
    }
    static uint8_t one_by_one[MOST];
    memcpy(one_by_one, memory, len);
    for (size_t i = 0, at = 0; i < n; at += lengths[i++]) {
        memcpy(wide, addresses + 17 * i + 1, 16);
        bool empty = true;
        for (int k = 0; k < 64; k++) empty = empty && !signers[64 * i + (size_t)k];
        uint32_t code = by_readings ? coghammer_datagram_low(&counters, one_by_one, len, (coghammer_low_millis){low_millis[i]}, (coghammer_unix){times[i]}, wide, addresses[17 * i],
                                                             ports[i], signers + 64 * i, empty ? 0 : 64, buffer + at, lengths[i])
                                    : coghammer_datagram(&counters, one_by_one, len, (coghammer_millis){millis[i]}, (coghammer_unix){times[i]}, wide, addresses[17 * i],
                                                         ports[i], signers + 64 * i, empty ? 0 : 64, buffer + at, lengths[i]);
        check(COGHAMMER_NUMBER(code) == told[i], "a datagram in a burst has another number than by itself");
        reached[told[i]]++;
    }
    check(memcmp(one_by_one, next_table, len) == 0, "a burst left another table than its datagrams by themselves");
    check(memcmp(&counters, &next_counters, sizeof counters) == 0, "a burst was counted otherwise than its datagrams by themselves");
    if (memory != table) return;
    memcpy(table, next_table, size);
    now = clock_in(table);
}

// The same calls on a table with some bytes changed, mostly where a count, a flag or a time stands, or of another length.
static void mutated_step(void) {
    static const size_t places[] = {0, 64, 68, 85, 93, 101, 102, 110};
    size_t len = chance(90) ? size : below(MOST), bucket = size - BUCKET; // the last one has the most nodes
    memcpy(any_table, table, MOST);
    for (size_t turns = 1 + below(3); turns; turns--) {
        size_t entry = bucket + 2 + below(20) * ENTRY;
        size_t at = chance(20) ? below(48) : chance(30) ? bucket + below(2) : chance(60) ? entry + places[below(8)] : below(size);
        any_table[at] = chance(50) ? (uint8_t)any() : (uint8_t)(any_table[at] + 1);
    }
    step(any_table, len, later());
}

static void random_step(void) {
    size_t len = chance(50) ? size : below(MOST > 20000 ? 20000 : MOST);
    fill(any_table, len);
    if (chance(50) && len >= 48) memcpy(any_table, table, len < HEADER ? len : HEADER);
    step(any_table, len, any_size());
}

static void small_calls(void) {
    uint8_t hash[32];
    fill(wire, LONGEST);
    wire_len = below(LONGEST);
    call(keccak256, (lent[6]){{wire, wire_len, NULL}, {hash, 32, hash}}, NULL);
    read_datagram();
    if (chance(30) && make_datagram(4, &peers[0])) any_span();
    if (chance(5)) {
        call(clear, (lent[6]){{&counters, sizeof counters, &counters}}, NULL);
        for (int i = 0; i < 22; i++) check(counters.counts[i] == 0, "a count wasn't cleared");
        if (chance(20)) memset(&counters, 0xff, sizeof counters);
    }
    rooms(1 + (unsigned)below(6), &peers[below(PEERS)]);
}

int main(int argc, char **argv) {
    double seconds = argc > 1 ? atof(argv[1]) : 20;
    seed = argc > 2 ? strtoull(argv[2], NULL, 10) : 1;
    state = seed;
    make_pages();
    fill(table, MOST);
    struct timespec start, t;
    clock_gettime(CLOCK_MONOTONIC, &start);
    unsigned tables = 0;
    do {
        fresh_table();
        tables++;
        for (size_t steps = size > 100000 ? 30 : 400; steps; steps--) {
            unsigned what = (unsigned)below(100);
            if (what < 70) sound_step();
            else if (what < 75) burst_step();
            else if (what < 88) mutated_step();
            else if (what < 93) random_step();
            else if (what < 96) boot_list();
            else small_calls();
        }
        clock_gettime(CLOCK_MONOTONIC, &t);
    } while ((double)(t.tv_sec - start.tv_sec) + (double)(t.tv_nsec - start.tv_nsec) / 1e9 < seconds);
    printf("counted calls by answer:");
    for (int i = 0; i < 19; i++) printf(" %d: %" PRIu64 "%s", i, reached[i], i < 18 ? "," : "\n");
    printf("calls by readings: %" PRIu64 " with a clock, %" PRIu64 " with none\n", readings[1], readings[0]);
    printf("bursts: %" PRIu64 " whole, %" PRIu64 " refused\n", bursts[0], bursts[1]);
    printf("boot lists read by end: 0: %" PRIu64 ", 19: %" PRIu64 ", 22: %" PRIu64 "\n", ends[0], ends[19], ends[22]);
    printf("seed %" PRIu64 ": %" PRIu64 " calls on %u tables, nothing failed\n", seed, calls, tables);
    return 0;
}
