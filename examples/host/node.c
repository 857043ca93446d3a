#include "node.h"
#include <arpa/inet.h>
#include <stdlib.h>
#include <string.h>
#include <sys/socket.h>
#include <time.h>
#include <unistd.h>

enum { BODY_ROOM = COGHAMMER_BODY_MOST, PACKED = COGHAMMER_PACKED_NODE, CLOSEST = COGHAMMER_CLOSEST, ASKED = 3 };

// ---- the two clocks, and neither is ever taken for the other

static uint64_t first_millis;

coghammer_millis clock_millis(void) {
    struct timespec t;
    clock_gettime(CLOCK_MONOTONIC, &t);
    return (coghammer_millis){(uint64_t)t.tv_sec * 1000 + (uint64_t)t.tv_nsec / 1000000 - first_millis};
}

static coghammer_unix unix_seconds(void) { return (coghammer_unix){(uint64_t)time(NULL)}; }

static uint64_t expiration(void) { return unix_seconds().seconds + 20; }

// ---- sockets

static void fail(const char *what) {
    perror(what);
    exit(1);
}

static struct sockaddr_in address_of(const coghammer_endpoint *e) {
    struct sockaddr_in a = {.sin_family = AF_INET, .sin_port = htons(e->udp)};
    memcpy(&a.sin_addr, e->address, 4);
    return a;
}

static coghammer_endpoint endpoint_of(const struct sockaddr_in *a) {
    coghammer_endpoint e = {.len = 4, .udp = ntohs(a->sin_port)};
    memcpy(e.address, &a->sin_addr, 4);
    return e;
}

static void transmit(node *n, const coghammer_endpoint *to, const uint8_t *datagram, size_t len) {
    struct sockaddr_in a = address_of(to);
    // a datagram that the system doesn't take is one that got lost
    (void)!sendto(n->answer_by, datagram, len, 0, (struct sockaddr *)&a, sizeof a);
}

// ---- sending: the library writes the body, the host signs it, the library joins both

// The datagram of a body that a writer announced by its code; its size.
static size_t seal(node *n, const uint8_t *body, uint32_t code, uint8_t datagram[LARGEST]) {
    uint8_t signature[65];
    if (COGHAMMER_NUMBER(code)) abort(); // every value here can be written
    sign_body(&n->id, body, COGHAMMER_VALUE(code), signature);
    return COGHAMMER_VALUE(coghammer_join(datagram, LARGEST, signature, 65, body, COGHAMMER_VALUE(code)));
}

static void send_body(node *n, const coghammer_node *to, const uint8_t *body, uint32_t code) {
    uint8_t datagram[LARGEST];
    transmit(n, &to->endpoint, datagram, seal(n, body, code, datagram));
}

void node_ping(node *n, const coghammer_node *to) {
    uint8_t body[BODY_ROOM], datagram[LARGEST];
    const coghammer_endpoint *here = &n->self.endpoint, *there = &to->endpoint;
    uint32_t code = coghammer_write_ping(body, sizeof body, here->address, here->len, here->udp, here->tcp, there->address, there->len,
                                         there->udp, expiration(), true, 1);
    size_t len = seal(n, body, code, datagram);
    // the datagram's first 32 bytes are its hash, which the pong names; only a ping that the table has recorded goes out
    coghammer_millis clock = clock_millis();
    uint8_t answer = coghammer_ping_sent(&n->counters, n->table, TABLE_SIZE, clock, to->key, 64, there->address, there->len, there->udp,
                                         there->tcp, datagram, 32);
    record_sent(&n->recording, clock, to, datagram, answer);
    if (answer == 0) transmit(n, there, datagram, len);
}

static void send_pong(node *n, const coghammer_node *to, const uint8_t *ping) {
    uint8_t body[BODY_ROOM];
    const coghammer_endpoint *e = &to->endpoint;
    send_body(n, to, body, coghammer_write_pong(body, sizeof body, e->address, e->len, e->udp, ping, 32, expiration(), true, 1));
}

// How many nodes the table has near a target, with the nodes.
static size_t closest(node *n, const uint8_t target[64], coghammer_node list[CLOSEST]) {
    uint32_t code = coghammer_closest(list, CLOSEST, n->table, TABLE_SIZE, target, 64);
    unsigned distances = COGHAMMER_DISTANCES(code);
    if (distances > COGHAMMER_DISTANCES_MOST) abort(); // proved: it can't be
    if (distances > n->most_distances) n->most_distances = distances;
    return COGHAMMER_COUNT(code);
}

size_t node_ask(node *n) {
    coghammer_node list[CLOSEST];
    uint8_t body[BODY_ROOM];
    size_t count = closest(n, n->self.key, list);
    for (size_t i = 0; i < count && i < ASKED; i++) {
        node_ping(n, &list[i]);
        send_body(n, &list[i], body, coghammer_write_find_node(body, sizeof body, n->self.key, 64, expiration()));
        send_body(n, &list[i], body, coghammer_write_enr_request(body, sizeof body, expiration()));
    }
    return count;
}

// The closest nodes, in as many packets as they take.
static void send_closest(node *n, const coghammer_node *to, const uint8_t *target) {
    coghammer_node list[CLOSEST];
    uint8_t packed[CLOSEST * PACKED], body[BODY_ROOM];
    size_t count = closest(n, target, list);
    for (size_t i = 0; i < count; i++) coghammer_pack_node(packed + i * PACKED, &list[i]);
    for (size_t k = 0; k < coghammer_reply_count(count); k++) {
        const uint8_t *part = packed + coghammer_reply_start(count, k) * PACKED;
        size_t len = coghammer_reply_len(count, k) * PACKED;
        send_body(n, to, body, coghammer_write_neighbors(body, sizeof body, part, len, expiration()));
    }
    n->full_replies += count == CLOSEST;
}

static void send_record(node *n, const coghammer_node *to, const uint8_t *request) {
    uint8_t body[BODY_ROOM];
    send_body(n, to, body, coghammer_write_enr_response(body, sizeof body, request, 32, n->record, n->record_size));
}

// ---- receiving

// A node waits because no seat is free: the bucket's first entry has to show that it is still there. One that waits because its range has two seats
// asks for nothing.
static void ping_head(node *n, const uint8_t key[64]) {
    coghammer_node head;
    uint64_t ping[COGHAMMER_HEAD];
    if (coghammer_head(n->table, TABLE_SIZE, key, 64, &head, ping)) return;
    if (head.endpoint.len && !ping[COGHAMMER_HEAD_PING_OUT]) node_ping(n, &head);
}

// Whether a key's node is an entry of the table.
static bool is_entry(const node *n, const uint8_t key[64]) {
    coghammer_node held;
    uint64_t told[COGHAMMER_HELD];
    return coghammer_find(n->table, TABLE_SIZE, key, 64, &held, told) == 0 && told[COGHAMMER_HELD_AS] == COGHAMMER_HELD_SEAT;
}

// Pings the nodes of a Neighbors that are new.
static void ping_neighbors(node *n, const uint8_t *datagram, size_t len, const uint64_t fields[COGHAMMER_FIELDS]) {
    size_t start = fields[COGHAMMER_FIELD_NODES_START], size = fields[COGHAMMER_FIELD_NODES_LEN];
    size_t count = coghammer_node_count(datagram, len, start, size);
    for (size_t i = 0; i < count; i++) {
        coghammer_node to;
        coghammer_node_at(datagram, len, start, size, i, &to);
        if (to.endpoint.len != 4 || memcmp(to.key, n->self.key, 64) == 0) continue; // this example speaks IPv4 only
        if (!is_entry(n, to.key)) node_ping(n, &to);
    }
}

// Does what an accepted datagram asks for.
static void handle(node *n, coghammer_node *from, const uint8_t *datagram, size_t len, uint32_t code) {
    uint8_t type = COGHAMMER_TYPE_OF(code), outcome = COGHAMMER_OUTCOME(code);
    uint64_t fields[COGHAMMER_FIELDS];
    coghammer_packet(datagram, len, fields);
    n->received[type]++;
    switch (type) {
    case COGHAMMER_PING:
        send_pong(n, from, datagram);
        from->endpoint.tcp = (uint16_t)fields[COGHAMMER_FIELD_FROM_TCP];
        if (outcome == COGHAMMER_PING_DUE) node_ping(n, from);
        break;
    case COGHAMMER_PONG:
        if (outcome == COGHAMMER_WAITS) ping_head(n, from->key);
        break;
    case COGHAMMER_FIND_NODE: send_closest(n, from, datagram + fields[COGHAMMER_FIELD_TARGET_START]); break;
    case COGHAMMER_NEIGHBORS: ping_neighbors(n, datagram, len, fields); break;
    case COGHAMMER_ENR_REQUEST: send_record(n, from, datagram); break;
    default: break; // a record: a host that keeps records would check and store it
    }
}

bool node_take(int socket, taken *t) {
    struct sockaddr_in a;
    socklen_t size = sizeof a;
    ssize_t got = recvfrom(socket, t->datagram, sizeof t->datagram, 0, (struct sockaddr *)&a, &size);
    if (got <= 0) return false; // nothing there, or no byte: the log has no form for that
    t->len = (size_t)got;
    t->from = (coghammer_node){.endpoint = endpoint_of(&a)};
    t->key_len = recover_signer(t->datagram, t->len, t->from.key);
    t->socket = socket;
    return true;
}

void node_receive(node *n, taken *t) {
    const coghammer_endpoint *e = &t->from.endpoint;
    coghammer_millis clock = clock_millis();
    coghammer_unix unix_time = unix_seconds();
    uint32_t code = coghammer_datagram(&n->counters, n->table, TABLE_SIZE, clock, unix_time, e->address, e->len, e->udp, t->from.key, t->key_len,
                                       t->datagram, t->len);
    record_rx(&n->recording, clock, unix_time, &t->from, t->key_len, t->datagram, t->len, code, n->table);
    n->answer_by = t->socket;
    if (COGHAMMER_NUMBER(code) == COGHAMMER_DONE) handle(n, &t->from, t->datagram, t->len, code);
    n->answer_by = n->socket;
}

void node_sweep(node *n) {
    coghammer_millis clock = clock_millis();
    record_sweep(&n->recording, clock, coghammer_sweep(&n->counters, n->table, TABLE_SIZE, clock));
}

// ---- opening and closing

int socket_open(unsigned number, coghammer_endpoint *here) {
    // 127.0.0.1 to 127.0.15.1, then 127.0.0.2 and on: at most two nodes of a range get seats in a bucket
    struct sockaddr_in a = {.sin_family = AF_INET, .sin_addr.s_addr = htonl(INADDR_LOOPBACK + number % 16 * 256 + number / 16)};
    socklen_t size = sizeof a;
    int fd = socket(AF_INET, SOCK_DGRAM, 0);
    if (fd < 0) fail("socket");
    if (bind(fd, (struct sockaddr *)&a, sizeof a)) fail("bind");
    if (getsockname(fd, (struct sockaddr *)&a, &size)) fail("getsockname");
    *here = endpoint_of(&a);
    here->tcp = here->udp;
    return fd;
}

void node_open(node *n, const char *folder, unsigned number) {
    memset(n, 0, sizeof *n);
    if (!first_millis) first_millis = clock_millis().millis;
    n->socket = n->answer_by = socket_open(number, &n->self.endpoint);
    identity_new(&n->id);
    memcpy(n->self.key, n->id.key, 64);
    n->record_size = write_record(&n->id, n->self.endpoint.address, n->self.endpoint.udp, n->record);
    recording_open(&n->recording, folder, number);
    coghammer_clear(&n->counters);
    record_own(&n->recording, n->self.key, coghammer_init(n->table, TABLE_SIZE, n->self.key, 64, BUCKETS));
}

void node_close(node *n) {
    recording_close(&n->recording, n->table);
    close(n->socket);
}
