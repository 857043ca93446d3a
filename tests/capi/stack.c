// The stack that each call needs. Each runs in a thread of its own whose stack was painted; what it overwrote is printed, with the frame that calls it, whose
// SPARE bytes can't be painted: no figure is below them.
#include "coghammer.h"
#include <pthread.h>
#include <stdio.h>
#include <stdlib.h>

enum { STACK = 1 << 20, PAINT = 0xa5, SPARE = 160, PLACES = 20, BUCKETS = 16, BUCKET = 2862, ENTRY = 143, NODES = 12 };

static uint8_t table[COGHAMMER_TABLE_SIZE(BUCKETS)], own[64], keys[PLACES][64], signature[65], hash[32];
static uint8_t body[COGHAMMER_DATAGRAM_MOST], datagram[COGHAMMER_DATAGRAM_MOST], text[NODES * COGHAMMER_ENODE_LINE];
static uint8_t packed[NODES * COGHAMMER_PACKED_NODE];
static const uint8_t address[4] = {192, 0, 2, 7}, packed_address[COGHAMMER_PACKED_ADDRESS] = {4, 192, 0, 2, 7};
static size_t len, text_len = sizeof text;
static uint64_t fields[COGHAMMER_FIELDS], told[5], state_told[COGHAMMER_STATE], printed[1], head_told[COGHAMMER_HEAD], held[COGHAMMER_HELD];
static coghammer_counters counters;
static coghammer_node nodes[COGHAMMER_CLOSEST], node;
static uint8_t printout[COGHAMMER_PRINTOUT_SIZE(BUCKETS)];
static const coghammer_millis clock_now = {20};
static const coghammer_unix date = {0};

// The last bucket, full: seats that are verified, and four that wait.
static void fill(void) {
    uint8_t own_hash[32], key[64] = {0}, h[32];
    coghammer_keccak256(own, 64, own_hash);
    if (coghammer_init(table, sizeof table, own, 64, BUCKETS)) abort();
    table[39] = 10; // the clock
    uint8_t *bucket = table + 512 + (BUCKETS - 1) * BUCKET;
    bucket[0] = COGHAMMER_SEATS_MOST;
    bucket[1] = COGHAMMER_WAITING_MOST;
    for (int i = 0; i < PLACES;) {
        key[0]++, key[1] += key[0] == 0;
        coghammer_keccak256(key, 64, h);
        if (!((h[0] ^ own_hash[0]) & 0x80)) continue;
        memcpy(keys[i], key, 64);
        uint8_t *e = bucket + 2 + i * ENTRY;
        memcpy(e, key, 64);
        e[64] = 4;
        memcpy(e + 65, address, 4);
        e[67] += (uint8_t)i++; // each in a range of its own, the first at `address`
        e[82] = 77;            // UDP port
        e[93] = 1;             // proved, at 0
    }
}

static size_t joined(uint32_t code) {
    if (COGHAMMER_NUMBER(code)) abort();
    return COGHAMMER_VALUE(coghammer_join(datagram, sizeof datagram, signature, 65, body, COGHAMMER_VALUE(code)));
}

static void init(void) {
    static uint8_t other[sizeof table];
    coghammer_init(other, sizeof other, own, 64, BUCKETS);
}
static void receive(void) {
    if (COGHAMMER_NUMBER(coghammer_datagram(&counters, table, sizeof table, clock_now, date, address, 4, 77, keys[0], 64, datagram, len))) abort();
}
static void ping_sent(void) {
    if (coghammer_ping_sent(&counters, table, sizeof table, clock_now, keys[0], 64, address, 4, 77, 77, hash, 32)) abort();
}
static void sweep(void) {
    if (coghammer_sweep(&counters, table, sizeof table, (coghammer_millis){600})) abort();
}
static void receive_low(void) {
    if (COGHAMMER_NUMBER(coghammer_datagram_low(&counters, table, sizeof table, (coghammer_low_millis){(uint32_t)clock_now.millis}, date, address, 4, 77, keys[0], 64, datagram, len))) abort();
}
static void full_clock(void) {
    coghammer_millis full;
    if (coghammer_full_clock(table, sizeof table, (coghammer_low_millis){(uint32_t)clock_now.millis}, &full)) abort();
}
static void sweep_low(void) {
    if (coghammer_sweep_low(&counters, table, sizeof table, (coghammer_low_millis){1200})) abort();
}
static void closest(void) {
    if (COGHAMMER_NUMBER(coghammer_closest(nodes, COGHAMMER_CLOSEST, table, sizeof table, own, 64))) abort();
}
static void packet(void) { coghammer_packet(datagram, len, fields); }
static void node_count(void) {
    if (coghammer_node_count(datagram, len, fields[COGHAMMER_FIELD_NODES_START], fields[COGHAMMER_FIELD_NODES_LEN]) != NODES) abort();
}
static void node_at(void) {
    coghammer_node_at(datagram, len, fields[COGHAMMER_FIELD_NODES_START], fields[COGHAMMER_FIELD_NODES_LEN], NODES - 1, &node);
    if (node.endpoint.len != 4) abort();
}
static void state(void) {
    if (coghammer_state(table, sizeof table, state_told)) abort();
}
static void print_table(void) {
    if (coghammer_print(printout, sizeof printout, table, sizeof table, printed)) abort();
}
static void head(void) {
    if (coghammer_head(table, sizeof table, keys[0], 64, &node, head_told)) abort();
}
static void find(void) {
    if (coghammer_find(table, sizeof table, keys[PLACES - 1], 64, &node, held) || held[COGHAMMER_HELD_AS] != COGHAMMER_HELD_WAITING) abort();
}
static void burst(void) {
    uint8_t number[1];
    if (coghammer_burst(&counters, table, sizeof table, number, 1, datagram, len, &len, 1, keys[0], 64, packed_address, sizeof packed_address, &(uint16_t){77}, 1, &clock_now, 1, &date, 1) || number[0]) abort();
}
static void write_ping(void) { coghammer_write_ping(body, sizeof body, address, 4, 1, 2, address, 4, 3, 99, true, 1); }
static void write_pong(void) { coghammer_write_pong(body, sizeof body, address, 4, 1, hash, 32, 99, true, 1); }
static void write_find_node(void) { coghammer_write_find_node(body, sizeof body, own, 64, 99); }
static void write_enr_request(void) { coghammer_write_enr_request(body, sizeof body, 99); }
static void write_enr_response(void) { coghammer_write_enr_response(body, sizeof body, hash, 32, (const uint8_t[]){0xc0}, 1); }
static void write_neighbors(void) { coghammer_write_neighbors(body, sizeof body, packed, sizeof packed, 99); }
static void reply(void) { coghammer_reply_start(COGHAMMER_CLOSEST, coghammer_reply_count(COGHAMMER_CLOSEST) - 1), coghammer_reply_len(COGHAMMER_CLOSEST, 0); }
static void clear(void) { coghammer_clear(&counters); }
static void join(void) { coghammer_join(datagram, sizeof datagram, signature, 65, body, 100); }
static void keccak(void) { coghammer_keccak256(table, sizeof table, hash); }
static void write_enodes(void) {
    uint64_t size[1];
    if (coghammer_write_enodes(text, sizeof text, nodes, NODES, size)) abort();
    text_len = size[0];
}
static void read_enodes(void) { coghammer_read_enodes(nodes, COGHAMMER_CLOSEST, text, text_len, told); }

static void (*measured)(void);
static uint8_t *stack;
static volatile size_t used;

static void *run(void *unused) {
    uint8_t *here = __builtin_frame_address(0);
    for (volatile uint8_t *p = stack; p < here - SPARE; p++) *p = PAINT;
    measured();
    uint8_t *low = stack;
    while (low < here && *low == PAINT) low++;
    used = (size_t)(here - low);
    return unused;
}

static size_t measure(void (*f)(void)) {
    pthread_attr_t attributes;
    pthread_t thread;
    measured = f;
    if (pthread_attr_init(&attributes) || pthread_attr_setstack(&attributes, stack, STACK) || pthread_create(&thread, &attributes, run, NULL)) abort();
    pthread_join(thread, NULL);
    return used;
}

static void print(const char *name, void (*f)(void)) { printf("| %s | %zu |\n", name, (measure(f) + 15) / 16 * 16); }

int main(void) {
    stack = aligned_alloc(4096, STACK);
    memset(own, 1, 64);
    fill();
    for (int i = 0; i < NODES; i++) {
        packed[i * COGHAMMER_PACKED_NODE] = 4;
        nodes[i].endpoint.len = 4;
    }
    printf("| Call | Bytes of stack |\n|---|---|\n");
    print("`coghammer_init`", init);
    print("`coghammer_write_enodes`", write_enodes);
    print("`coghammer_read_enodes`", read_enodes);
    print("`coghammer_write_ping`", write_ping);
    print("`coghammer_write_pong`", write_pong);
    print("`coghammer_write_find_node`", write_find_node);
    print("`coghammer_write_neighbors`", write_neighbors);
    print("`coghammer_write_enr_request`", write_enr_request);
    print("`coghammer_write_enr_response`", write_enr_response);
    print("`coghammer_reply_count`, `_start`, `_len`", reply);
    print("`coghammer_join`", join);
    print("`coghammer_keccak256`", keccak);
    print("`coghammer_ping_sent`", ping_sent);
    // the pong to it
    len = joined(coghammer_write_pong(body, sizeof body, address, 4, 1, hash, 32, 99, false, 0));
    print("`coghammer_datagram`, a Pong", receive);
    len = joined(coghammer_write_ping(body, sizeof body, address, 4, 1, 2, address, 4, 3, 99, true, 1));
    print("`coghammer_datagram`, a Ping", receive);
    len = joined(coghammer_write_neighbors(body, sizeof body, packed, sizeof packed, 99));
    print("`coghammer_datagram`, a Neighbors", receive);
    print("`coghammer_datagram_low`, a Neighbors", receive_low);
    print("`coghammer_full_clock`", full_clock);
    print("`coghammer_burst`, of a Neighbors", burst);
    print("`coghammer_packet`", packet);
    print("`coghammer_node_count`", node_count);
    print("`coghammer_node_at`", node_at);
    print("`coghammer_head`", head);
    print("`coghammer_find`", find);
    print("`coghammer_state`", state);
    print("`coghammer_print`", print_table);
    print("`coghammer_closest`", closest);
    ping_sent(); // which the sweep removes
    print("`coghammer_sweep`", sweep);
    const uint8_t next[4] = {192, 0, 3, 7}; // another one
    if (coghammer_ping_sent(&counters, table, sizeof table, (coghammer_millis){600}, keys[1], 64, next, 4, 77, 77, hash, 32)) abort();
    print("`coghammer_sweep_low`", sweep_low);
    print("`coghammer_clear`", clear);
    return 0;
}
