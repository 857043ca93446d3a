// Keyed calls on a full bucket over the C boundary, beside the hashing that the rules make necessary: the key's, the 20 keys' of the bucket
// that it touches, and of a datagram what follows its hash, all with the same keccak256. The candidates take turns in short batches on a
// table put back before each, and the best batch of each counts.
#include <stdio.h>
#include <stdlib.h>
#include <time.h>

#include "../../include/coghammer.h"

enum { PLACES = 20, ENTRIES = 16, BUCKETS = 16, MOST = 256, BUCKET = 2862, BATCH = 16, TURNS = 400 };

static uint8_t keys[PLACES][64], own_key[64];
static uint8_t full[COGHAMMER_TABLE_SIZE(MOST)], table[COGHAMMER_TABLE_SIZE(MOST)];
static size_t size; // of the table
static const uint8_t address[4] = {192, 0, 2, 7};
static uint8_t at[PLACES][4]; // where each key is, in a range of its own
static uint8_t hash[32];

static double now(void) {
    struct timespec t;
    clock_gettime(CLOCK_MONOTONIC, &t);
    return t.tv_sec * 1e9 + t.tv_nsec;
}

// a table of `count` buckets with a full bucket 255: 16 entries and 4 replacements, proved and seen at 5, a ping out to each since 8 if `out`
static void fill(int count, int out) {
    size = COGHAMMER_TABLE_SIZE(count);
    if (coghammer_init(full, size, own_key, 64, count)) exit(1);
    full[39] = 10;
    uint8_t *bucket = full + size - BUCKET;
    bucket[0] = ENTRIES;
    bucket[1] = PLACES - ENTRIES;
    for (int k = 0; k < PLACES; k++) {
        uint8_t *e = bucket + 2 + k * 143;
        memcpy(e, keys[k], 64);
        e[64] = 4;
        memcpy(e + 65, at[k], 4);
        e[82] = e[84] = 77;
        e[92] = 5;
        e[93] = 1;
        e[101] = 5;
        if (out) e[102] = 1, e[110] = 8, memcpy(e + 111, hash, 32);
    }
}

static void find_keys(void) {
    uint8_t own[32], h[32], key[64] = {0};
    memset(own_key, 7, 64);
    coghammer_keccak256(own_key, 64, own);
    int found = 0;
    for (uint64_t n = 1; found < PLACES; n++) {
        memcpy(key, &n, 8);
        coghammer_keccak256(key, 64, h);
        if ((own[0] ^ h[0]) & 0x80) memcpy(keys[found++], key, 64);
    }
    for (int k = 0; k < PLACES; k++) memcpy(at[k], (uint8_t[4]){192, 0, (uint8_t)k, 7}, 4);
}

static size_t joined(uint8_t *packet, const uint8_t *body, uint32_t code) {
    static const uint8_t signature[65] = {1};
    code = coghammer_join(packet, 1280, signature, 65, body, COGHAMMER_VALUE(code));
    if (COGHAMMER_NUMBER(code)) exit(1);
    return COGHAMMER_VALUE(code);
}

static double best_of(double best, double time) { return time < best ? time : best; }

// `packet` from entry after entry, or a ping sent to them where there is none
static void measure(const char *name, int count, int out, const uint8_t *packet, size_t len) {
    coghammer_counters counters;
    coghammer_clear(&counters);
    uint8_t h[32];
    double hashing = 1e18, calls = 1e18;
    fill(count, out);
    for (int t = 0; t < TURNS; t++) {
        double start = now();
        for (int i = 0; i < BATCH; i++) {
            coghammer_keccak256(keys[i], 64, h);
            for (int k = 0; k < PLACES; k++) coghammer_keccak256(keys[k], 64, h);
            if (packet) coghammer_keccak256(packet + 32, len - 32, h);
        }
        hashing = best_of(hashing, (now() - start) / BATCH);
        memcpy(table, full, size);
        start = now();
        for (int i = 0; i < BATCH; i++) {
            uint8_t number = packet ? COGHAMMER_NUMBER(coghammer_datagram(&counters, table, size, (coghammer_millis){20}, (coghammer_unix){0}, at[i], 4, 77, keys[i], 64, packet, len))
                                    : coghammer_ping_sent(&counters, table, size, (coghammer_millis){20}, keys[i], 64, at[i], 4, 77, 77, hash, 32);
            if (number) printf("%s: answer %d\n", name, number), exit(1);
        }
        calls = best_of(calls, (now() - start) / BATCH);
    }
    printf("  %-34s %7.2f us hashing  %7.2f us the call  %.2f\n", name, hashing / 1e3, calls / 1e3, calls / hashing);
}

// 32 of the packet, from entry after entry, by one call and by 32, on the same table
static void measure_burst(const uint8_t *packet, size_t len) {
    enum { COUNT = COGHAMMER_BURST };
    static uint8_t buffer[COUNT * 1280], signers[64 * COUNT], addresses[COGHAMMER_PACKED_ADDRESS * COUNT], numbers[COUNT];
    size_t lengths[COUNT];
    uint16_t ports[COUNT];
    coghammer_millis millis[COUNT];
    coghammer_unix times[COUNT];
    coghammer_counters counters;
    coghammer_clear(&counters);
    double one = 1e18, many = 1e18;
    fill(BUCKETS, 0);
    for (int i = 0; i < COUNT; i++) {
        memcpy(buffer + i * len, packet, len);
        lengths[i] = len;
        memcpy(signers + 64 * i, keys[i % ENTRIES], 64);
        addresses[COGHAMMER_PACKED_ADDRESS * i] = 4;
        memcpy(addresses + COGHAMMER_PACKED_ADDRESS * i + 1, at[i % ENTRIES], 4);
        ports[i] = 77;
        millis[i] = (coghammer_millis){20};
        times[i] = (coghammer_unix){0};
    }
    for (int t = 0; t < TURNS; t++) {
        memcpy(table, full, size);
        double start = now();
        for (int i = 0; i < COUNT; i++)
            if (COGHAMMER_NUMBER(coghammer_datagram(&counters, table, size, (coghammer_millis){20}, (coghammer_unix){0}, at[i % ENTRIES], 4, 77, signers + 64 * i, 64, buffer + i * len, len))) exit(1);
        many = best_of(many, now() - start);
        memcpy(table, full, size);
        start = now();
        if (coghammer_burst(&counters, table, size, numbers, COUNT, buffer, COUNT * len, lengths, COUNT, signers, sizeof signers, addresses, sizeof addresses, ports, COUNT, millis, COUNT, times, COUNT)) exit(1);
        one = best_of(one, now() - start);
    }
    printf("  %-34s %7.2f us 32 calls %7.2f us one call  %.3f\n", "32 Pings", many / 1e3, one / 1e3, one / many);
}

// the packet from entry after entry, at a clock of 64 bits and at a reading of 32, in turns
static void measure_low(const uint8_t *packet, size_t len) {
    coghammer_counters counters;
    coghammer_clear(&counters);
    double wide = 1e18, low = 1e18;
    fill(BUCKETS, 0);
    for (int t = 0; t < TURNS; t++) {
        memcpy(table, full, size);
        double start = now();
        for (int i = 0; i < BATCH; i++)
            if (COGHAMMER_NUMBER(coghammer_datagram(&counters, table, size, (coghammer_millis){20}, (coghammer_unix){0}, at[i], 4, 77, keys[i], 64, packet, len))) exit(1);
        wide = best_of(wide, (now() - start) / BATCH);
        memcpy(table, full, size);
        start = now();
        for (int i = 0; i < BATCH; i++)
            if (COGHAMMER_NUMBER(coghammer_datagram_low(&counters, table, size, (coghammer_low_millis){20}, (coghammer_unix){0}, at[i], 4, 77, keys[i], 64, packet, len))) exit(1);
        low = best_of(low, (now() - start) / BATCH);
    }
    printf("  %-34s %7.2f us 64 bits  %7.2f us 32 bits   %.3f\n", "Ping, by the clock's width", wide / 1e3, low / 1e3, low / wide);
}

int main(void) {
    uint8_t body[1280], packet[1280], nodes[12 * COGHAMMER_PACKED_NODE] = {0};
    find_keys();
    memset(hash, 9, 32);
    puts("a keyed call on a bucket of 16 entries and 4 replacements");
    measure("Ping", BUCKETS, 0, packet, joined(packet, body, coghammer_write_ping(body, 1280, address, 4, 1, 1, address, 4, 1, 99, false, 0)));
    measure("Pong", BUCKETS, 1, packet, joined(packet, body, coghammer_write_pong(body, 1280, address, 4, 1, hash, 32, 99, false, 0)));
    measure("FindNode", BUCKETS, 0, packet, joined(packet, body, coghammer_write_find_node(body, 1280, keys[0], 64, 99)));
    for (int i = 0; i < 12; i++) nodes[i * COGHAMMER_PACKED_NODE] = 4;
    measure("Neighbors of 12 nodes", BUCKETS, 0, packet, joined(packet, body, coghammer_write_neighbors(body, 1280, nodes, sizeof nodes, 99)));
    measure("ping sent", BUCKETS, 0, 0, 0);
    measure_burst(packet, joined(packet, body, coghammer_write_ping(body, 1280, address, 4, 1, 1, address, 4, 1, 99, false, 0)));
    measure_low(packet, joined(packet, body, coghammer_write_ping(body, 1280, address, 4, 1, 1, address, 4, 1, 99, false, 0)));
    puts("the same Ping, as the table grows");
    static const int counts[] = {1, 4, 16, 64, 256};
    for (size_t i = 0; i < sizeof counts / sizeof *counts; i++) {
        char name[32];
        snprintf(name, sizeof name, "Ping, buckets: %d", counts[i]);
        measure(name, counts[i], 0, packet, joined(packet, body, coghammer_write_ping(body, 1280, address, 4, 1, 1, address, 4, 1, 99, false, 0)));
    }
    return 0;
}
