#include "recording.h"
#include <inttypes.h>
#include <stdlib.h>

static FILE *open_file(const char *folder, unsigned number, const char *ending) {
    char path[4096];
    snprintf(path, sizeof path, "%s/node-%u.%s", folder, number, ending);
    FILE *file = fopen(path, "w");
    if (!file) {
        perror(path);
        exit(1);
    }
    return file;
}

static void hex(FILE *file, const uint8_t *bytes, size_t len) {
    for (size_t i = 0; i < len; i++) fprintf(file, "%02x", bytes[i]);
}

// ---- lines of the log

void recording_open(recording *r, const char *folder, unsigned number) {
    r->log = open_file(folder, number, "log");
    r->answers = open_file(folder, number, "out");
}

void record_own(recording *r, const uint8_t key[64], uint8_t answer) {
    fprintf(r->log, "own\t%d\t", BUCKETS);
    hex(r->log, key, 64);
    fputc('\n', r->log);
    fprintf(r->answers, "%u\n", answer);
}

void record_sweep(recording *r, coghammer_millis clock, uint8_t answer) {
    fprintf(r->log, "sweep\t%" PRIu64 "\n", clock.millis);
    fprintf(r->answers, "%u\n", answer);
}

void record_sent(recording *r, coghammer_millis clock, const coghammer_node *to, const uint8_t hash[32], uint8_t answer) {
    fprintf(r->log, "sent\t%" PRIu64 "\t", clock.millis);
    hex(r->log, to->key, 64);
    fputc('\t', r->log);
    hex(r->log, to->endpoint.address, to->endpoint.len);
    fprintf(r->log, "\t%u\t%u\t", to->endpoint.udp, to->endpoint.tcp);
    hex(r->log, hash, 32);
    fputc('\n', r->log);
    fprintf(r->answers, "%u\n", answer);
}

// ---- answers to datagrams

// The head of the bucket that the key of a node that waits for a seat falls into.
static void put_head(FILE *file, const uint8_t table[TABLE_SIZE], const uint8_t key[64]) {
    coghammer_node head = {0};
    uint64_t ping[COGHAMMER_HEAD] = {0};
    coghammer_head(table, TABLE_SIZE, key, 64, &head, ping);
    fputc('\t', file);
    hex(file, head.key, 8);
    if (ping[COGHAMMER_HEAD_PING_OUT]) fprintf(file, "\t%" PRIu64, ping[COGHAMMER_HEAD_PING_SINCE]);
    else fputs("\tquiet", file);
}

void record_rx(recording *r, coghammer_millis clock, coghammer_unix unix_time, const coghammer_node *from, size_t key_len, const uint8_t *datagram,
               size_t len, uint32_t code, const uint8_t table[TABLE_SIZE]) {
    fprintf(r->log, "rx\t%" PRIu64 "\t%" PRIu64 "\t", clock.millis, unix_time.seconds);
    hex(r->log, from->endpoint.address, from->endpoint.len);
    fprintf(r->log, "\t%u\t", from->endpoint.udp);
    if (key_len) hex(r->log, from->key, key_len);
    else fputc('-', r->log);
    fputc('\t', r->log);
    hex(r->log, datagram, len);
    fputc('\n', r->log);

    static const char *const words[] = {"", "pong", "", "find", "nodes", "enr", "record"};
    uint8_t type = COGHAMMER_TYPE_OF(code), outcome = COGHAMMER_OUTCOME(code);
    fprintf(r->answers, "%u", COGHAMMER_NUMBER(code));
    if (type) fprintf(r->answers, "\t%s", words[type]);
    if (type == 1 && outcome) fputs("\tping", r->answers);
    static const char *const outcomes[] = {"tail", "seat", "wait", "wait"};
    if (type == COGHAMMER_PONG) fputs(outcomes[outcome], r->answers);
    if (type == COGHAMMER_PONG && outcome == COGHAMMER_WAITS) put_head(r->answers, table, from->key);
    fputc('\n', r->answers);
}

// ---- the table

static void put_table(FILE *file, const uint8_t table[TABLE_SIZE]) {
    static uint8_t text[COGHAMMER_PRINTOUT_SIZE(BUCKETS)];
    uint64_t size = 0;
    if (coghammer_print(text, sizeof text, table, TABLE_SIZE, &size) == 0) fwrite(text, 1, size, file);
}

void recording_close(recording *r, const uint8_t table[TABLE_SIZE]) {
    put_table(r->answers, table);
    if (fclose(r->log) || fclose(r->answers)) {
        perror("recording");
        exit(1);
    }
}
