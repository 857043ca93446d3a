// Closest and sweep over a table through the C boundary, beside the hashing of every held key with the same keccak256. The keys are found by trying: each
// bucket's are hashes that share one bit less with the own one, so that of 256 buckets only the highest can be filled. The candidates take
// turns in short batches, and the best batch of each counts. Before that, closest is compared with a plain sort.
#include <stdio.h>
#include <stdlib.h>
#include <time.h>

#include "../../include/coghammer.h"

enum { FULL = 16, PLACES = 20, ENTRIES = 16, BUCKET = 2862, TURNS = 300 };

static uint8_t keys[FULL][PLACES][64]; // by bucket, the highest last
static uint8_t own_key[64], own[32];
static uint8_t table[COGHAMMER_TABLE_SIZE(256)], spare[COGHAMMER_TABLE_SIZE(256)];
static coghammer_counters counters;
static coghammer_node list[16];

static double now(void) {
    struct timespec t;
    clock_gettime(CLOCK_MONOTONIC, &t);
    return t.tv_sec * 1e9 + t.tv_nsec;
}

static int bucket_of(const uint8_t *a, const uint8_t *b) {
    for (int i = 0; i < 32; i++)
        for (int j = 7; j >= 0; j--)
            if (((a[i] ^ b[i]) >> j) & 1) return 8 * (31 - i) + j;
    return -1;
}

static void find_keys(void) {
    int found[FULL] = {0}, left = FULL * PLACES;
    uint8_t key[64] = {0}, hash[32];
    for (int i = 0; i < 64; i++) own_key[i] = (uint8_t)(i * 5 + 1);
    coghammer_keccak256(own_key, 64, own);
    for (uint64_t n = 1; left; n++) {
        memcpy(key, &n, 8);
        coghammer_keccak256(key, 64, hash);
        int b = bucket_of(own, hash) - (256 - FULL);
        if (b < 0 || found[b] == PLACES) continue;
        memcpy(keys[b][found[b]++], key, 64);
        left--;
    }
}

// `waiting` of 4 replacements in each bucket, and the pings of the first `out` entries out since 0
static size_t fill(int count, int out) {
    size_t size = 512 + (size_t)count * BUCKET;
    if (coghammer_init(table, size, own_key, 64, count)) exit(1);
    table[39] = 10; // clock
    for (int b = 0; b < FULL; b++) {
        uint8_t *bucket = table + 512 + (size_t)(count - FULL + b) * BUCKET;
        bucket[0] = ENTRIES;
        bucket[1] = PLACES - ENTRIES;
        for (int k = 0; k < PLACES; k++) {
            uint8_t *e = bucket + 2 + k * 143;
            memcpy(e, keys[b][k], 64);
            e[64] = 4;
            e[65] = 192;
            e[67] = (uint8_t)k; // each in a range of its own
            e[82] = e[84] = 77;
            e[92] = 5;
            e[93] = 1;
            e[101] = 5;
            e[102] = k < out;
        }
    }
    return size;
}

static uint8_t distances[FULL * ENTRIES][32];
static int order[FULL * ENTRIES], most;
static int nearer(const void *a, const void *b) {
    int x = *(const int *)a, y = *(const int *)b, c = memcmp(distances[x], distances[y], 32);
    return c ? c : x - y;
}

// closest to a key, by the hashes
static void compare(size_t size, const uint8_t *target) {
    uint8_t hash[32];
    coghammer_keccak256(target, 64, hash);
    for (int i = 0; i < FULL * ENTRIES; i++) {
        coghammer_keccak256(keys[i / ENTRIES][i % ENTRIES], 64, distances[i]);
        for (int j = 0; j < 32; j++) distances[i][j] ^= hash[j];
        order[i] = i;
    }
    qsort(order, FULL * ENTRIES, sizeof *order, nearer);
    uint32_t code = coghammer_closest(list, 16, table, size, target, 64);
    if (COGHAMMER_COUNT(code) != 16) puts("closest: not sixteen"), exit(1);
    if (COGHAMMER_DISTANCES(code) > most) most = COGHAMMER_DISTANCES(code);
    for (size_t i = 0; i < 16; i++)
        if (memcmp(list[i].key, keys[order[i] / ENTRIES][order[i] % ENTRIES], 64)) puts("closest differs from a plain sort"), exit(1);
}

static void measure(int count) {
    double best[4] = {1e18, 1e18, 1e18, 1e18};
    uint8_t out[32], target[64];
    size_t size = fill(count, 0);
    for (int i = 0; i < 64; i++) target[i] = (uint8_t)(i * 37 + 11);
    for (int t = 0; t < 20; t++, target[t]++) compare(size, target);
    memcpy(spare, table, size);
    fill(count, 1);
    for (int t = 0; t < TURNS; t++) {
        double start = now();
        for (int b = 0; b < FULL; b++)
            for (int k = 0; k < PLACES; k++) coghammer_keccak256(keys[b][k], 64, out);
        double hashed = now();
        if (COGHAMMER_COUNT(coghammer_closest(list, 16, spare, size, target, 64)) != 16) exit(1);
        double chosen = now();
        if (coghammer_sweep(&counters, spare, size, (coghammer_millis){10})) exit(1);
        double swept = now();
        if (coghammer_sweep(&counters, table, size, (coghammer_millis){600})) exit(1);
        double changed = now();
        fill(count, 1);
        double times[4] = {hashed - start, chosen - hashed, swept - chosen, changed - swept};
        for (int i = 0; i < 4; i++)
            if (times[i] < best[i]) best[i] = times[i];
        target[t % 64] += 3;
    }
    const char *names[4] = {"hashing every held key", "closest", "sweep, nothing goes", "sweep, one goes in each full bucket"};
    printf("%d buckets, the highest %d of them full: %d nodes; at most %d distances worked out for a list\n", count, FULL, FULL * PLACES, most);
    for (int i = 0; i < 4; i++) printf("  %-36s %9.1f us  %.2f\n", names[i], best[i] / 1e3, best[i] / best[0]);
}

int main(void) {
    find_keys();
    // the growth with the number of buckets
    static const int counts[] = {16, 32, 64, 128, 256};
    for (size_t i = 0; i < sizeof counts / sizeof *counts; i++) measure(counts[i]);
    return 0;
}
