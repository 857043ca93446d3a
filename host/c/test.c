// Every function of include/coghammer.h on good and on bad input, and the layout of its structs. Prints one line of counts; the exit
// status is not 0 where a check failed.
#include "coghammer.h"
#include <stdio.h>
#include <string.h>

enum { BUCKETS = 16, HEADER = 512, SIZE = COGHAMMER_TABLE_SIZE(BUCKETS), LARGEST = 1280, PACKED = COGHAMMER_PACKED_NODE };

static int checks, failures;

static void check(int holds, int line, const char *text) {
    checks++;
    if (holds) return;
    failures++;
    printf("line %d: %s\n", line, text);
}
#define CHECK(condition) check((condition), __LINE__, #condition)

#define MS(n) ((coghammer_millis){n})
#define UNIX(n) ((coghammer_unix){n})

static const uint64_t now_unix = 1700000000;
static uint8_t own[64], peer[64], signature[65], hash[32];
static const uint8_t address[4] = {192, 0, 2, 7}, other[4] = {192, 0, 2, 8};
static uint8_t table[SIZE], before[SIZE];
static coghammer_counters counters;

// The low byte is the answer number, the rest the value.
static int is(uint32_t code, uint8_t number, uint32_t value) {
    return COGHAMMER_NUMBER(code) == number && COGHAMMER_VALUE(code) == value;
}

static int all(const uint8_t *bytes, size_t len, uint8_t byte) {
    for (size_t i = 0; i < len; i++)
        if (bytes[i] != byte) return 0;
    return 1;
}

// A record has a byte between its fields, which is nobody's.
static int same_node(const coghammer_node *a, const coghammer_node *b) {
    const coghammer_endpoint *e = &a->endpoint, *f = &b->endpoint;
    return memcmp(a->key, b->key, 64) == 0 && e->len == f->len && memcmp(e->address, f->address, 16) == 0 && e->udp == f->udp && e->tcp == f->tcp;
}

static const coghammer_node no_node;

static void layout(void) {
    CHECK(sizeof(coghammer_counters) == 88 && _Alignof(coghammer_counters) == 4);
    CHECK(sizeof(((coghammer_counters *)0)->counts) == 88);
    CHECK(sizeof(coghammer_endpoint) == 22 && _Alignof(coghammer_endpoint) == 2);
    CHECK(offsetof(coghammer_endpoint, len) == 0 && offsetof(coghammer_endpoint, address) == 1);
    CHECK(offsetof(coghammer_endpoint, udp) == 18 && offsetof(coghammer_endpoint, tcp) == 20);
    CHECK(sizeof(coghammer_node) == 86 && _Alignof(coghammer_node) == 2);
    CHECK(offsetof(coghammer_node, key) == 0 && offsetof(coghammer_node, endpoint) == 64);
    CHECK(sizeof(coghammer_millis) == 8 && sizeof(coghammer_unix) == 8);
    CHECK(COGHAMMER_NUMBER(0x010203) == 3 && COGHAMMER_VALUE(0x010203) == 0x0102);
    CHECK(COGHAMMER_TYPE_OF(0x010203) == 2 && COGHAMMER_OUTCOME(0x010203) == 1);
    CHECK(COGHAMMER_COUNT(0x1f1000) == 16 && COGHAMMER_DISTANCES(0x1f1000) == COGHAMMER_DISTANCES_MOST);
    CHECK(COGHAMMER_TABLE_SIZE(16) == 46304 && COGHAMMER_FIELDS == 20 && COGHAMMER_FIELD_RECORD_LEN == 19 && COGHAMMER_PACKED_NODE == 85);
    CHECK(COGHAMMER_PRINTOUT_SIZE(16) == 43881 && COGHAMMER_STATE == 4 && COGHAMMER_HEAD == 2 && COGHAMMER_HELD == 3);
}

static int is_number(int n) { return n <= COGHAMMER_NOT_ENODE || n == COGHAMMER_NOT_WHOLE; }

// Every number has words of its own, and nothing else has.
static void texts(void) {
    for (int i = 0; i < 256; i++)
        for (int j = 0; j < i; j++)
            CHECK((strcmp(coghammer_text((uint8_t)i), coghammer_text((uint8_t)j)) == 0) == (!is_number(i) && !is_number(j)));
    CHECK(strcmp(coghammer_text(255), "no answer number") == 0);
}

static void hashes(void) {
    static const uint8_t empty[32] = {0xc5, 0xd2, 0x46, 0x01, 0x86, 0xf7, 0x23, 0x3c, 0x92, 0x7e, 0x7d, 0xb2, 0xdc, 0xc7, 0x03, 0xc0,
                                      0xe5, 0x00, 0xb6, 0x53, 0xca, 0x82, 0x27, 0x3b, 0x7b, 0xfa, 0xd8, 0x04, 0x5d, 0x85, 0xa4, 0x70};
    uint8_t found[32];
    coghammer_keccak256(own, 0, found);
    CHECK(memcmp(found, empty, 32) == 0);
}

static void fresh(void) {
    memset(table, 0xaa, SIZE);
    CHECK(coghammer_init(table, SIZE - 1, own, 64, BUCKETS) == 1);
    CHECK(coghammer_init(table, SIZE, own, 64, BUCKETS + 1) == 1);
    CHECK(coghammer_init(table, HEADER, own, 64, 0) == 1);
    CHECK(coghammer_init(table, SIZE, own, 63, BUCKETS) == 5);
    CHECK(all(table, SIZE, 0xaa));
    CHECK(coghammer_init(table, SIZE, own, 64, BUCKETS) == 0);
    uint8_t id[32];
    coghammer_keccak256(own, 64, id);
    CHECK(memcmp(table, id, 32) == 0 && table[41] == BUCKETS && all(table + 42, SIZE - 42, 0));
}

// Joins a body that a writer's code announces.
static size_t datagram_of(uint8_t *datagram, const uint8_t *body, uint32_t code) {
    CHECK(COGHAMMER_NUMBER(code) == 0);
    uint32_t joined = coghammer_join(datagram, LARGEST, signature, 65, body, COGHAMMER_VALUE(code));
    CHECK(is(joined, 0, 97 + COGHAMMER_VALUE(code)));
    return COGHAMMER_VALUE(joined);
}

static uint32_t receive(uint64_t clock, const uint8_t *datagram, size_t len) {
    return coghammer_datagram(&counters, table, SIZE, MS(clock), UNIX(now_unix), address, 4, 30303, peer, 64, datagram, len);
}

static uint8_t sent(uint64_t clock) {
    return coghammer_ping_sent(&counters, table, SIZE, MS(clock), peer, 64, address, 4, 30303, 30304, hash, 32);
}

static void writers(void) {
    uint8_t body[LARGEST], datagram[LARGEST], record[3] = {0xc2, 1, 2}, nodes[17 * PACKED];
    uint64_t fields[COGHAMMER_FIELDS];
    memset(nodes, 0, sizeof nodes);
    for (int i = 0; i < 17; i++) nodes[PACKED * i] = 4;

    // one too few bytes of room, the exact room, unwritable values
    memset(body, 0xaa, sizeof body);
    CHECK(is(coghammer_write_enr_request(body, 3, 200), 19, 0) && all(body, sizeof body, 0xaa));
    CHECK(is(coghammer_write_enr_request(body, 4, 200), 0, 4));
    CHECK(body[0] == 5 && body[1] == 0xc2 && body[2] == 0x81 && body[3] == 200 && all(body + 4, LARGEST - 4, 0xaa));
    CHECK(is(coghammer_write_ping(body, LARGEST, address, 3, 1, 2, address, 4, 3, 4, false, 0), 20, 0));
    CHECK(is(coghammer_write_ping(body, LARGEST, address, 0, 1, 2, address, 0, 3, 4, false, 0), 20, 0));
    CHECK(is(coghammer_write_ping(body, 1, address, 4, 1, 2, address, 4, 3, 4, false, 0), 19, 0));
    CHECK(is(coghammer_write_pong(body, LARGEST, address, 4, 3, hash, 31, 4, false, 0), 20, 0));
    CHECK(is(coghammer_write_pong(body, 1, address, 4, 3, hash, 32, 4, false, 0), 19, 0));
    CHECK(is(coghammer_write_find_node(body, LARGEST, own, 63, 1), 20, 0));
    CHECK(is(coghammer_write_find_node(body, 69, own, 64, 1), 19, 0));
    CHECK(is(coghammer_write_neighbors(body, LARGEST, nodes, PACKED - 1, 1), 20, 0));
    CHECK(is(coghammer_write_neighbors(body, LARGEST, nodes, 13 * PACKED, 1), 20, 0));
    CHECK(is(coghammer_write_neighbors(body, LARGEST, nodes, 17 * PACKED, 1), 20, 0));
    CHECK(is(coghammer_write_neighbors(body, 1, nodes, 12 * PACKED, 1), 19, 0));
    CHECK(is(coghammer_write_enr_response(body, LARGEST, hash, 32, record, 2), 20, 0));
    CHECK(is(coghammer_write_enr_response(body, 1, hash, 32, record, 3), 19, 0));
    CHECK(is(coghammer_join(datagram, LARGEST, signature, 64, body, 1), 20, 0));
    CHECK(is(coghammer_join(datagram, LARGEST, signature, 65, body, 0), 20, 0));
    CHECK(is(coghammer_join(datagram, 97, signature, 65, body, 1), 19, 0));

    // what is written reads back
    size_t len = datagram_of(datagram, body, coghammer_write_ping(body, LARGEST, address, 4, 1, 2, other, 4, 3, now_unix, true, 9));
    CHECK(coghammer_packet(datagram, len, fields) == 0);
    CHECK(fields[COGHAMMER_FIELD_TYPE] == 1 && fields[COGHAMMER_FIELD_VERSION] == 4 && fields[COGHAMMER_FIELD_EXPIRATION] == now_unix);
    CHECK(fields[COGHAMMER_FIELD_HAS_ENR_SEQ] == 1 && fields[COGHAMMER_FIELD_ENR_SEQ] == 9);
    CHECK(fields[COGHAMMER_FIELD_FROM_LEN] == 4 && memcmp(datagram + fields[COGHAMMER_FIELD_FROM_START], address, 4) == 0);
    CHECK(fields[COGHAMMER_FIELD_FROM_UDP] == 1 && fields[COGHAMMER_FIELD_FROM_TCP] == 2);
    CHECK(fields[COGHAMMER_FIELD_TO_LEN] == 4 && memcmp(datagram + fields[COGHAMMER_FIELD_TO_START], other, 4) == 0);
    CHECK(fields[COGHAMMER_FIELD_TO_UDP] == 3 && fields[COGHAMMER_FIELD_HASH_LEN] == 0 && fields[COGHAMMER_FIELD_RECORD_LEN] == 0);

    // an unknown `from`
    len = datagram_of(datagram, body, coghammer_write_ping(body, LARGEST, address, 0, 1, 2, other, 4, 3, now_unix, true, 9));
    CHECK(coghammer_packet(datagram, len, fields) == 0 && fields[COGHAMMER_FIELD_TYPE] == 1);
    CHECK(fields[COGHAMMER_FIELD_FROM_START] == 0 && fields[COGHAMMER_FIELD_FROM_LEN] == 0);
    CHECK(fields[COGHAMMER_FIELD_FROM_UDP] == 1 && fields[COGHAMMER_FIELD_FROM_TCP] == 2);
    CHECK(fields[COGHAMMER_FIELD_TO_LEN] == 4 && memcmp(datagram + fields[COGHAMMER_FIELD_TO_START], other, 4) == 0);

    len = datagram_of(datagram, body, coghammer_write_pong(body, LARGEST, address, 4, 3, hash, 32, 7, false, 9));
    CHECK(coghammer_packet(datagram, len, fields) == 0 && fields[COGHAMMER_FIELD_TYPE] == 2);
    CHECK(fields[COGHAMMER_FIELD_HAS_ENR_SEQ] == 0 && fields[COGHAMMER_FIELD_ENR_SEQ] == 0);
    CHECK(fields[COGHAMMER_FIELD_HASH_LEN] == 32 && memcmp(datagram + fields[COGHAMMER_FIELD_HASH_START], hash, 32) == 0);

    len = datagram_of(datagram, body, coghammer_write_find_node(body, LARGEST, own, 64, 7));
    CHECK(coghammer_packet(datagram, len, fields) == 0 && fields[COGHAMMER_FIELD_TYPE] == 3);
    CHECK(fields[COGHAMMER_FIELD_TARGET_LEN] == 64 && memcmp(datagram + fields[COGHAMMER_FIELD_TARGET_START], own, 64) == 0);

    len = datagram_of(datagram, body, coghammer_write_enr_response(body, LARGEST, hash, 32, record, 3));
    CHECK(coghammer_packet(datagram, len, fields) == 0 && fields[COGHAMMER_FIELD_TYPE] == 6);
    CHECK(fields[COGHAMMER_FIELD_RECORD_LEN] == 3 && memcmp(datagram + fields[COGHAMMER_FIELD_RECORD_START], record, 3) == 0);

    // a refused packet leaves the fields
    fields[COGHAMMER_FIELD_VERSION] = 77;
    CHECK(coghammer_packet(datagram, 97, fields) == 8 && coghammer_packet(datagram, 98, fields) == 9);
    datagram[98] = 0xc0;
    CHECK(coghammer_packet(datagram, len, fields) == 10);
    CHECK(fields[COGHAMMER_FIELD_TYPE] == 6 && fields[COGHAMMER_FIELD_VERSION] == 77);
}

// The nodes of a Neighbors, from packed ones.
static void neighbors(void) {
    coghammer_node node = {{0}, {4, {10, 0, 0, 1}, 30303, 30304}}, found;
    uint8_t packed[12 * PACKED], body[LARGEST], datagram[LARGEST];
    uint64_t fields[COGHAMMER_FIELDS];
    for (int i = 0; i < 12; i++) {
        memset(node.key, i + 1, 64);
        coghammer_pack_node(packed + PACKED * i, &node);
    }
    size_t len = datagram_of(datagram, body, coghammer_write_neighbors(body, LARGEST, packed, sizeof packed, 7));
    CHECK(coghammer_packet(datagram, len, fields) == 0 && fields[COGHAMMER_FIELD_TYPE] == 4);
    size_t start = fields[COGHAMMER_FIELD_NODES_START], size = fields[COGHAMMER_FIELD_NODES_LEN];
    CHECK(coghammer_node_count(datagram, len, start, size) == 12);
    CHECK(coghammer_node_count(datagram, len, len, 1) == 0 && coghammer_node_count(datagram, len, SIZE_MAX, SIZE_MAX) == 0);
    coghammer_node_at(datagram, len, start, size, 11, &found);
    CHECK(same_node(&found, &node));
    // the packets of a reply: by plain arithmetic
    for (size_t nodes = 0; nodes < 100; nodes++) {
        size_t packets = nodes ? (nodes + 11) / 12 : 1, done = 0;
        CHECK(coghammer_reply_count(nodes) == packets);
        for (size_t k = 0; k < packets; k++) {
            size_t part = nodes - done < 12 ? nodes - done : 12;
            CHECK(coghammer_reply_start(nodes, k) == done && coghammer_reply_len(nodes, k) == part);
            done += part;
        }
        CHECK(done == nodes && coghammer_reply_len(nodes, packets + 1) == 0);
    }
    CHECK(coghammer_reply_len(SIZE_MAX, SIZE_MAX) == 0 && coghammer_reply_count(SIZE_MAX) == SIZE_MAX / 12 + 1);
    coghammer_node_at(datagram, len, start, size, 12, &found);
    CHECK(same_node(&found, &no_node));
}

// A boot list read and written, and texts and nodes that can't be.
static void boot_lists(void) {
    enum { ROOM = 2 * COGHAMMER_ENODE_LINE };
    static const char digits[] = "0123456789abcdef0123456789ABCDEF0123456789abcdef0123456789ABCDEF"
                                 "0123456789abcdef0123456789ABCDEF0123456789abcdef0123456789ABCDEF";
    static const char *const places[] = {"192.0.2.7:30303", "255.255.255.255:65535?discport=65534"};
    coghammer_node list[3], kept[3];
    uint64_t told[COGHAMMER_TOLD];
    char text[ROOM + 1];
    uint8_t buf[ROOM];
    int len = snprintf(text, sizeof text, "enode://%s@%s\nenode://%s@%s\n", digits, places[0], digits, places[1]), first = 8 + 128 + 1 + 15 + 1;
    CHECK(len == first + COGHAMMER_ENODE_LINE && COGHAMMER_TOLD == 3);
    memset(kept, 0xee, sizeof kept);

    // both lines, with the last 0A and without
    for (int less = 0; less < 2; less++) {
        memcpy(list, kept, sizeof list);
        CHECK(coghammer_read_enodes(list, 3, (uint8_t *)text, (size_t)(len - less), told) == 0);
        CHECK(told[COGHAMMER_TOLD_COUNT] == 2 && told[COGHAMMER_TOLD_END] == 0 && told[COGHAMMER_TOLD_LINE] == 0);
        CHECK(list[0].key[0] == 0x01 && list[0].key[15] == 0xef && list[0].key[63] == 0xef && memcmp(list[0].key, list[1].key, 64) == 0);
        CHECK(list[0].endpoint.len == 4 && memcmp(list[0].endpoint.address, address, 4) == 0 && all(list[0].endpoint.address + 4, 12, 0));
        CHECK(list[0].endpoint.udp == 30303 && list[0].endpoint.tcp == 30303 && list[1].endpoint.udp == 65534 && list[1].endpoint.tcp == 65535);
        CHECK(memcmp(&list[2], &kept[2], sizeof list[2]) == 0);
    }

    // written: lower case, and the text reads back
    memset(buf, 0xaa, ROOM);
    uint64_t size = 77;
    CHECK(coghammer_write_enodes(buf, (size_t)len - 1, list, 2, &size) == 19 && coghammer_write_enodes(buf, 0, list, 1, &size) == 19);
    CHECK(coghammer_write_enodes(buf, ROOM, list, 3, &size) == 20 && coghammer_write_enodes(buf, 0, list + 2, 1, &size) == 20);
    CHECK(size == 77 && all(buf, ROOM, 0xaa));
    CHECK(coghammer_write_enodes(buf, ROOM, list, 0, &size) == 0 && size == 0);
    CHECK(coghammer_write_enodes(buf, (size_t)len, list, 2, &size) == 0 && size == (uint64_t)len);
    for (int i = 0; i < len; i++)
        if (text[i] >= 'A' && text[i] <= 'F') text[i] = (char)(text[i] + 32);
    CHECK(memcmp(buf, text, (size_t)len) == 0 && all(buf + len, (size_t)(ROOM - len), 0xaa));
    coghammer_node six = list[0];
    six.endpoint.len = 16;
    CHECK(coghammer_write_enodes(buf, ROOM, &six, 1, &size) == 20 && size == (uint64_t)len);

    // a full list, and lines that don't fit
    struct {
        size_t room, len;
        char *at, byte;
        uint64_t count, end, line;
    } cases[] = {
        {1, (size_t)len, text, 'e', 1, 19, 2},
        {0, (size_t)len, text, 'e', 0, 19, 1},
        {0, (size_t)len, text, 'E', 0, 22, 1},
        {1, (size_t)len, text + first, 'E', 1, 22, 2},
        {3, (size_t)len, text + first, '\n', 1, 22, 2},
        {3, (size_t)len - 1, text + len - 2, '5', 1, 22, 2}, // discport=65535 equals the TCP port
        {3, (size_t)len, text + len - 1, '\r', 1, 22, 2},
        {3, (size_t)first - 2, text, 'e', 1, 0, 0}, // port 3030
        {3, 0, text, 'e', 0, 0, 0},
    };
    for (size_t i = 0; i < sizeof cases / sizeof cases[0]; i++) {
        char old = *cases[i].at;
        *cases[i].at = cases[i].byte;
        memcpy(list, kept, sizeof list);
        CHECK(coghammer_read_enodes(list, cases[i].room, (uint8_t *)text, cases[i].len, told) == 0);
        CHECK(told[0] == cases[i].count && told[1] == cases[i].end && told[2] == cases[i].line);
        CHECK(memcmp(list + told[0], kept + told[0], (3 - told[0]) * sizeof list[0]) == 0);
        *cases[i].at = old;
    }
}

// A node record is the peer's, or zeros.
static int is_peer(const coghammer_node *node, int held) {
    coghammer_node wanted = {{0}, {4, {192, 0, 2, 7}, 30303, 30304}};
    memcpy(wanted.key, peer, 64);
    return same_node(node, held ? &wanted : &no_node);
}

// Whether the peer is its bucket's head, and since when a ping is out to it.
static void head(int held, uint64_t out, uint64_t since) {
    coghammer_node node;
    uint64_t ping[COGHAMMER_HEAD];
    memset(&node, 0xaa, sizeof node);
    CHECK(coghammer_head(table, SIZE, peer, 64, &node, ping) == 0 && is_peer(&node, held));
    CHECK(ping[COGHAMMER_HEAD_PING_OUT] == out && ping[COGHAMMER_HEAD_PING_SINCE] == since);
}

// The length of the distance of two keys' hashes in bits.
static unsigned log_distance(const uint8_t *one, const uint8_t *two) {
    uint8_t a[32], b[32];
    coghammer_keccak256(one, 64, a);
    coghammer_keccak256(two, 64, b);
    for (unsigned i = 0; i < 256; i++)
        if (((a[i / 8] ^ b[i / 8]) << i % 8) & 0x80) return 256 - i;
    return 0;
}

// What the table tells where it holds nothing (0), or the peer alone: with a seat (1) or waiting (2). times: last seen, proof, ping.
static void tells(uint64_t clock, uint64_t as, const char *times) {
    enum { ROOM = COGHAMMER_PRINTOUT_SIZE(BUCKETS) };
    static const char *const words[] = {"", "seat", "wait"};
    static uint8_t text[ROOM + 1];
    char wanted[200];
    uint64_t told[COGHAMMER_STATE], held[COGHAMMER_HELD], size = 77;
    unsigned distance = log_distance(own, peer);
    coghammer_node node;
    memset(&node, 0xaa, sizeof node);
    memset(text, 0xaa, sizeof text);
    CHECK(coghammer_state(table, SIZE, told) == 0 && told[COGHAMMER_STATE_CLOCK] == clock && told[COGHAMMER_STATE_BUCKETS] == BUCKETS);
    CHECK(told[COGHAMMER_STATE_SEATS] == (as == 1) && told[COGHAMMER_STATE_WAITING] == (as == 2));
    CHECK(coghammer_find(table, SIZE, peer, 64, &node, held) == 0 && is_peer(&node, as != 0) && held[COGHAMMER_HELD_AS] == as);
    CHECK(held[COGHAMMER_HELD_DISTANCE] == (as ? distance : 0) && held[COGHAMMER_HELD_PLACE] == (as ? 1 : 0));

    int len = snprintf(wanted, sizeof wanted, "table\t%d\t%u\t%d\t%d\n", BUCKETS, (unsigned)clock, as == 1, as == 2);
    if (as) len += snprintf(wanted + len, sizeof wanted - (size_t)len, "%s\t%u\t1\t0202020202020202\tc0000207\t30303\t30304\t%s\n", words[as], distance, times);
    CHECK(coghammer_print(text, ROOM - 1, table, SIZE, &size) == 19 && coghammer_print(text, 0, table, SIZE, &size) == 19);
    CHECK(size == 77 && all(text, sizeof text, 0xaa));
    CHECK(coghammer_print(text, ROOM, table, SIZE, &size) == 0 && size == (uint64_t)len);
    CHECK(memcmp(text, wanted, (size_t)len) == 0 && all(text + len, sizeof text - (size_t)len, 0xaa));
}

static void calls(void) {
    uint8_t body[LARGEST], datagram[LARGEST], damaged[LARGEST];
    coghammer_node list[17];
    memset(&counters, 0xff, sizeof counters);
    coghammer_clear(&counters);
    for (int i = 0; i < 22; i++) CHECK(counters.counts[i] == 0);

    // a ping from a node that isn't held: a ping is due, too
    size_t len = datagram_of(datagram, body, coghammer_write_ping(body, LARGEST, address, 4, 1, 2, other, 4, 3, now_unix, false, 0));
    memcpy(before, table, SIZE);
    memcpy(damaged, datagram, len);
    damaged[len - 1] ^= 1;
    CHECK(is(receive(10, datagram, 97), 3, 0) && is(receive(10, damaged, len), 4, 0));
    CHECK(is(coghammer_datagram(&counters, table, SIZE, MS(10), UNIX(now_unix), address, 4, 1, peer, 0, datagram, len), 5, 0));
    CHECK(is(coghammer_datagram(&counters, table, SIZE, MS(10), UNIX(now_unix), address, 3, 1, peer, 64, datagram, len), 6, 0));
    CHECK(is(coghammer_datagram(&counters, table, SIZE, MS(10), UNIX(now_unix), address, 4, 1, own, 64, datagram, len), 7, 0));
    CHECK(is(coghammer_datagram(&counters, table, SIZE, MS(10), UNIX(now_unix + 1), address, 4, 1, peer, 64, datagram, len), 11, 0));
    CHECK(is(coghammer_datagram(&counters, table, SIZE - 1, MS(10), UNIX(now_unix), address, 4, 1, peer, 64, datagram, len), 1, 0));
    CHECK(memcmp(before, table, SIZE) == 0);
    CHECK(is(receive(10, datagram, len), 0, 1 + 256 * 1));
    CHECK(is(receive(9, datagram, len), 2, 0));

    // ping sent, its pong
    CHECK(coghammer_ping_sent(&counters, table, SIZE, MS(20), peer, 64, address, 4, 1, 2, hash, 31) == 4);
    CHECK(coghammer_ping_sent(&counters, table, SIZE, MS(20), peer, 63, address, 4, 1, 2, hash, 32) == 5);
    CHECK(sent(20) == 0 && sent(20) == 17);
    CHECK(coghammer_ping_sent(&counters, table, SIZE, MS(20), peer, 64, other, 4, 30303, 1, hash, 32) == 16);
    head(0, 0, 0);
    tells(20, 2, "0\t-\t20");
    len = datagram_of(datagram, body, coghammer_write_pong(body, LARGEST, address, 4, 3, hash, 32, now_unix, false, 0));
    CHECK(is(receive(521, datagram, len), 15, 0) && is(receive(520, datagram, len), 0, 2 + 256 * 1));
    CHECK(is(receive(520, datagram, len), 14, 0));
    head(1, 0, 0);
    tells(520, 1, "520\t520\tquiet");

    // closest
    memset(list, 0xee, sizeof list);
    CHECK(is(coghammer_closest(list, 15, table, SIZE, own, 64), 19, 0) && is(coghammer_closest(list, 16, table, SIZE, own, 63), 5, 0));
    CHECK(is(coghammer_closest(list, 16, table, SIZE - 1, own, 64), 1, 0) && all((uint8_t *)list, sizeof list, 0xee));
    CHECK(is(coghammer_closest(list, 17, table, SIZE, own, 64), 0, 1 + 256 * 1));
    CHECK(memcmp(list[0].key, peer, 64) == 0 && list[0].endpoint.len == 4 && memcmp(list[0].endpoint.address, address, 4) == 0);
    CHECK(list[0].endpoint.udp == 30303 && list[0].endpoint.tcp == 30304 && all((uint8_t *)(list + 1), 16 * sizeof list[0], 0xee));

    // a verified sender
    len = datagram_of(datagram, body, coghammer_write_find_node(body, LARGEST, own, 64, now_unix));
    CHECK(is(receive(530, datagram, len), 0, 3));
    CHECK(is(coghammer_datagram(&counters, table, SIZE, MS(530), UNIX(now_unix), other, 4, 30303, peer, 64, datagram, len), 13, 0));
    len = datagram_of(datagram, body, coghammer_write_neighbors(body, LARGEST, datagram, 0, now_unix));
    CHECK(is(receive(530, datagram, len), 0, 4));
    len = datagram_of(datagram, body, coghammer_write_enr_request(body, LARGEST, now_unix));
    CHECK(is(receive(530, datagram, len), 0, 5));
    const uint8_t record[1] = {0xc0};
    len = datagram_of(datagram, body, coghammer_write_enr_response(body, LARGEST, hash, 32, record, 1));
    CHECK(is(receive(530, datagram, len), 0, 6));

    // a ping unanswered
    CHECK(sent(600) == 0);
    head(1, 1, 600);
    tells(600, 1, "530\t520\t600");
    CHECK(coghammer_sweep(&counters, table, SIZE, MS(599)) == 2 && coghammer_sweep(&counters, table, SIZE, MS(1100)) == 0);
    head(1, 1, 600);
    CHECK(coghammer_sweep(&counters, table, SIZE, MS(1101)) == 0);
    head(0, 0, 0);
    tells(1101, 0, NULL);

    static const uint32_t wanted[22] = {[0] = 10, [1] = 1, [2] = 2, [3] = 1, [4] = 2, [5] = 2, [6] = 1, [7] = 1,
                                        [11] = 1, [13] = 1, [14] = 1, [15] = 1, [16] = 1, [17] = 1};
    CHECK(memcmp(counters.counts, wanted, sizeof wanted) == 0);
}

// In a table of bucket 255 alone: the third of a range waits beside free seats, and takes the seat that a sweep frees. Addresses of 16 bytes have none.
static void ranges(void) {
    enum { ONE = COGHAMMER_TABLE_SIZE(1), NODES = 6 };
    static const uint8_t outcomes[NODES] = {COGHAMMER_SEATED, COGHAMMER_SEATED, COGHAMMER_RANGE_FULL, COGHAMMER_SEATED, COGHAMMER_SEATED, COGHAMMER_SEATED};
    uint8_t small[ONE], body[LARGEST], datagram[LARGEST], keys[NODES][64] = {{0}}, at[NODES][16] = {{192, 0, 2, 1}, {192, 0, 2, 2}, {192, 0, 2, 3}, {192, 0, 3, 1}};
    size_t len = datagram_of(datagram, body, coghammer_write_pong(body, LARGEST, address, 4, 3, hash, 32, now_unix, false, 0));
    coghammer_node node;
    uint64_t told[COGHAMMER_HELD], ping[COGHAMMER_HEAD];
    memcpy(at[4], "\0\0\0\0\0\0\0\0\0\0\377\377\300\0\2\4", 16); // 192.0.2.4, IPv4-mapped
    memcpy(at[5], at[0], 4);                                           // 16 bytes that begin like the first
    CHECK(coghammer_init(small, ONE, own, 64, 1) == 0);
    uint8_t name = 0;
    for (int i = 0; i < NODES; i++) {
        size_t size = i < 4 ? 4 : 16;
        uint8_t number;
        do { // keys of other buckets get 12
            memset(keys[i], ++name, 64);
            number = coghammer_ping_sent(&counters, small, ONE, MS(10), keys[i], 64, at[i], size, 1, 1, hash, 32);
        } while (number == COGHAMMER_NOT_KEPT || number == COGHAMMER_OWN_KEY);
        CHECK(number == 0);
        uint32_t code = coghammer_datagram(&counters, small, ONE, MS(10), UNIX(now_unix), at[i], size, 1, keys[i], 64, datagram, len);
        CHECK(is(code, 0, COGHAMMER_PONG + 256u * outcomes[i]) && COGHAMMER_OUTCOME(code) == outcomes[i]);
    }
    CHECK(coghammer_head(small, ONE, keys[2], 64, &node, ping) == 0 && memcmp(node.key, keys[0], 64) == 0);
    CHECK(coghammer_find(small, ONE, keys[2], 64, &node, told) == 0 && told[COGHAMMER_HELD_AS] == COGHAMMER_HELD_WAITING);
    CHECK(coghammer_sweep(&counters, small, ONE, MS(10)) == 0);
    CHECK(coghammer_find(small, ONE, keys[2], 64, &node, told) == 0 && told[COGHAMMER_HELD_AS] == COGHAMMER_HELD_WAITING);
    CHECK(coghammer_ping_sent(&counters, small, ONE, MS(10), keys[0], 64, at[0], 4, 1, 1, hash, 32) == 0);
    CHECK(coghammer_sweep(&counters, small, ONE, MS(511)) == 0);
    CHECK(coghammer_find(small, ONE, keys[2], 64, &node, told) == 0 && told[COGHAMMER_HELD_AS] == COGHAMMER_HELD_SEAT && told[COGHAMMER_HELD_PLACE] == 5);
    // a third seat of the range, which no call makes: the fourth byte of seat 2's address, 192.0.3.1
    CHECK(small[512 + 2 + 143 + 67] == 3);
    small[512 + 2 + 143 + 67] = 2;
    CHECK(coghammer_sweep(&counters, small, ONE, MS(511)) == COGHAMMER_UNSOUND);
}

// A burst beside the same datagrams by themselves, and lists that don't fit together.
static void bursts(void) {
    enum { COUNT = 5 };
    uint8_t body[LARGEST], buffer[COUNT * LARGEST], signers[64 * (COGHAMMER_BURST + 1)] = {0}, addresses[COGHAMMER_PACKED_ADDRESS * (COGHAMMER_BURST + 1)] = {0};
    uint8_t numbers[COGHAMMER_BURST + 1], single[SIZE];
    size_t lengths[COGHAMMER_BURST + 1] = {0}, total = 0;
    uint16_t ports[COGHAMMER_BURST + 1] = {0};
    coghammer_millis millis[COGHAMMER_BURST + 1] = {{0}};
    coghammer_unix times[COGHAMMER_BURST + 1] = {{0}};
    coghammer_counters one_by_one;
    CHECK(COGHAMMER_BURST == 32 && COGHAMMER_PACKED_ADDRESS == 17 && sizeof(size_t) == 8);
    CHECK(coghammer_init(table, SIZE, own, 64, BUCKETS) == 0);
    memcpy(single, table, SIZE);
    coghammer_clear(&counters);
    coghammer_clear(&one_by_one);

    // a ping, one with an earlier clock, one whose signature recovers no key, one from an address of 7 bytes, and a ping again
    static const uint8_t wanted[COUNT] = {0, 2, 5, 6, 0};
    for (int i = 0; i < COUNT; i++) {
        lengths[i] = datagram_of(buffer + total, body, coghammer_write_ping(body, LARGEST, address, 4, 1, 2, other, 4, 3, now_unix, false, 0));
        total += lengths[i];
        if (i != 2) memcpy(signers + 64 * i, peer, 64);
        addresses[17 * i] = i == 3 ? 7 : 4;
        memcpy(addresses + 17 * i + 1, address, 4);
        ports[i] = 30303;
        millis[i] = MS(i == 1 ? 9 : 10);
        times[i] = UNIX(now_unix);
    }
    memset(numbers, 0xaa, sizeof numbers);
    memcpy(before, table, SIZE);

    // each list shorter and longer by one, then a wrapped sum: nothing is handled
    for (int list = 0; list < 8; list++)
        for (int longer = 0; longer < 2; longer++) {
            size_t n[8] = {COUNT, total, COUNT, 64 * COUNT, 17 * COUNT, COUNT, COUNT, COUNT};
            n[list] = longer ? n[list] + 1 : n[list] - 1;
            CHECK(coghammer_burst(&counters, table, SIZE, numbers, n[0], buffer, n[1], lengths, n[2], signers, n[3], addresses, n[4], ports, n[5], millis, n[6], times, n[7]) == 28);
        }
    size_t half = (size_t)1 << 63, wrapped[3] = {half, half, 5};
    CHECK(coghammer_burst(&counters, table, SIZE, numbers, 3, buffer, 5, wrapped, 3, signers, 192, addresses, 51, ports, 3, millis, 3, times, 3) == 28);
    CHECK(all(numbers, sizeof numbers, 0xaa) && memcmp(table, before, SIZE) == 0 && all((uint8_t *)&counters, sizeof counters, 0));

    // whole: as by themselves
    CHECK(coghammer_burst(&counters, table, SIZE, numbers, COUNT, buffer, total, lengths, COUNT, signers, 64 * COUNT, addresses, 17 * COUNT, ports, COUNT, millis, COUNT, times, COUNT) == 0);
    CHECK(memcmp(numbers, wanted, COUNT) == 0 && all(numbers + COUNT, sizeof numbers - COUNT, 0xaa));
    size_t at = 0;
    for (int i = 0; i < COUNT; i++) {
        uint32_t code = coghammer_datagram(&one_by_one, single, SIZE, millis[i], times[i], address, i == 3 ? 3 : 4, ports[i], peer, i == 2 ? 0 : 64, buffer + at, lengths[i]);
        CHECK(COGHAMMER_NUMBER(code) == numbers[i]);
        at += lengths[i];
    }
    CHECK(memcmp(single, table, SIZE) == 0 && memcmp(&one_by_one, &counters, sizeof counters) == 0);

    // none, 32 and 33 of length 0; and memory that is no table
    CHECK(coghammer_burst(&counters, table, SIZE, numbers, 0, buffer, 0, lengths, 0, signers, 0, addresses, 0, ports, 0, millis, 0, times, 0) == 0);
    memset(lengths, 0, sizeof lengths);
    for (int i = 0; i <= COGHAMMER_BURST; i++) millis[i] = MS(10);
    CHECK(coghammer_burst(&counters, table, SIZE, numbers, 33, buffer, 0, lengths, 33, signers, 64 * 33, addresses, 17 * 33, ports, 33, millis, 33, times, 33) == 28);
    CHECK(coghammer_burst(&counters, table, SIZE, numbers, 32, buffer, 0, lengths, 32, signers, 64 * 32, addresses, 17 * 32, ports, 32, millis, 32, times, 32) == 0);
    CHECK(all(numbers, 32, 3) && numbers[32] == 0xaa && counters.counts[3] == 32);
    CHECK(coghammer_burst(&counters, table, SIZE - 1, numbers, 32, buffer, 0, lengths, 32, signers, 64 * 32, addresses, 17 * 32, ports, 32, millis, 32, times, 32) == 0);
    CHECK(all(numbers, 32, 1) && counters.counts[1] == 32);
    CHECK(coghammer_burst(&counters, table, SIZE - 1, numbers, 31, buffer, 0, lengths, 32, signers, 64 * 32, addresses, 17 * 32, ports, 32, millis, 32, times, 32) == 28);
}

static void unsound(void) {
    coghammer_node node, kept;
    uint64_t told[COGHAMMER_STATE] = {77, 77, 77, 77}, size = 77;
    uint8_t text[100];
    memset(&node, 0xaa, sizeof node);
    kept = node;
    memset(text, 0xaa, sizeof text);
    CHECK(coghammer_head(table, SIZE, own, 64, &node, told) == 7 && coghammer_head(table, SIZE, own, 63, &node, told) == 5);
    CHECK(coghammer_find(table, SIZE, own, 64, &node, told) == 7 && coghammer_find(table, SIZE, own, 63, &node, told) == 5);
    table[100] = 1;
    memcpy(before, table, SIZE);
    CHECK(coghammer_head(table, SIZE, peer, 64, &node, told) == 1 && coghammer_find(table, SIZE, peer, 64, &node, told) == 1);
    CHECK(coghammer_state(table, SIZE, told) == 1 && coghammer_state(table, SIZE - 1, told) == 1);
    CHECK(coghammer_print(text, sizeof text, table, SIZE, &size) == 1 && size == 77 && all(text, sizeof text, 0xaa));
    CHECK(same_node(&node, &kept) && told[0] == 77 && told[1] == 77 && told[2] == 77 && told[3] == 77);
    CHECK(coghammer_sweep(&counters, table, SIZE, MS(2000)) == 1 && sent(2000) == 1 && memcmp(before, table, SIZE) == 0);
}

// A counter of 32 bits that rolls over.
static void low(void) {
    uint8_t body[LARGEST], datagram[LARGEST], numbers[2] = {0xee, 0xee}, signers[128], addresses[34] = {0};
    size_t lengths[2];
    uint16_t ports[2] = {30303, 30303};
    coghammer_millis clock = {77};
    coghammer_low_millis readings[2] = {{20}, {UINT32_MAX}};
    coghammer_unix times[2] = {UNIX(now_unix), UNIX(now_unix)};
    CHECK(sizeof(coghammer_low_millis) == 4 && coghammer_init(table, SIZE, own, 64, BUCKETS) == 0);
    coghammer_clear(&counters);
    CHECK(coghammer_full_clock(table, SIZE, (coghammer_low_millis){1u << 31}, &clock) == 2 && coghammer_full_clock(table, SIZE - 1, (coghammer_low_millis){0}, &clock) == 1);
    CHECK(clock.millis == 77 && coghammer_full_clock(table, SIZE, (coghammer_low_millis){(1u << 31) - 1}, &clock) == 0 && clock.millis == (1u << 31) - 1);
    // up to the rollover by two sweeps, and past it
    CHECK(coghammer_sweep_low(&counters, table, SIZE, (coghammer_low_millis){1u << 31}) == 2);
    CHECK(coghammer_sweep_low(&counters, table, SIZE, (coghammer_low_millis){2000000000}) == 0);
    CHECK(coghammer_sweep_low(&counters, table, SIZE, (coghammer_low_millis){4000000000}) == 0);
    CHECK(coghammer_sweep_low(&counters, table, SIZE, (coghammer_low_millis){3999999999}) == 2);
    CHECK(coghammer_ping_sent_low(&counters, table, SIZE, (coghammer_low_millis){5}, peer, 64, address, 4, 30303, 30304, hash, 32) == 0);
    CHECK(coghammer_ping_sent_low(&counters, table, SIZE - 1, (coghammer_low_millis){4}, peer, 64, address, 4, 30303, 30304, hash, 32) == 1);
    CHECK(coghammer_ping_sent_low(&counters, table, SIZE, (coghammer_low_millis){4}, peer, 64, address, 4, 30303, 30304, hash, 32) == 2);
    size_t len = datagram_of(datagram, body, coghammer_write_pong(body, LARGEST, address, 4, 3, hash, 32, now_unix, false, 0));
    CHECK(is(coghammer_datagram_low(&counters, table, SIZE, (coghammer_low_millis){4}, UNIX(now_unix), address, 4, 30303, peer, 64, datagram, len), 2, 0));
    CHECK(is(coghammer_datagram_low(&counters, table, SIZE, (coghammer_low_millis){15}, UNIX(now_unix), address, 4, 30303, peer, 64, datagram, len), 0, 2 + 256 * 1));
    uint64_t told[COGHAMMER_STATE];
    CHECK(coghammer_state(table, SIZE, told) == 0 && told[COGHAMMER_STATE_CLOCK] == (1ull << 32) + 15 && told[COGHAMMER_STATE_SEATS] == 1);
    // a burst: the second reading goes back from the first one's clock
    len = datagram_of(datagram, body, coghammer_write_find_node(body, LARGEST / 2, own, 64, now_unix));
    memcpy(datagram + len, datagram, len);
    lengths[0] = lengths[1] = len;
    memcpy(signers, peer, 64), memcpy(signers + 64, peer, 64);
    addresses[0] = addresses[17] = 4;
    memcpy(addresses + 1, address, 4), memcpy(addresses + 18, address, 4);
    CHECK(coghammer_burst_low(&counters, table, SIZE, numbers, 2, datagram, 2 * len, lengths, 2, signers, 128, addresses, 34, ports, 2, readings, 1, times, 2) == 28 && numbers[0] == 0xee);
    CHECK(coghammer_burst_low(&counters, table, SIZE, numbers, 2, datagram, 2 * len, lengths, 2, signers, 128, addresses, 34, ports, 2, readings, 2, times, 2) == 0);
    CHECK(numbers[0] == 0 && numbers[1] == 2 && counters.counts[0] == 5 && counters.counts[1] == 1 && counters.counts[2] == 5);
    // after a restart of the counter alone every reading goes back, until it has come round
    CHECK(coghammer_sweep_low(&counters, table, SIZE, (coghammer_low_millis){0}) == 2);
}

int main(void) {
    memset(own, 1, 64);
    memset(peer, 2, 64);
    memset(signature, 3, 65);
    memset(hash, 4, 32);
    layout();
    texts();
    hashes();
    fresh();
    writers();
    neighbors();
    boot_lists();
    calls();
    ranges();
    bursts();
    unsound();
    low();
    printf("%d checks, %d failed\n", checks, failures);
    return failures != 0;
}
