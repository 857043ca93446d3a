// What a node did, as a log in document 01's form, and how the library answered, as the replay of that log prints it.
#ifndef RECORDING_H
#define RECORDING_H
#include "coghammer.h"
#include <stdio.h>

enum { BUCKETS = 16, TABLE_SIZE = COGHAMMER_TABLE_SIZE(BUCKETS) };

typedef struct {
    FILE *log, *answers;
} recording;

// Opens FOLDER/node-NUMBER.log and FOLDER/node-NUMBER.out.
void recording_open(recording *r, const char *folder, unsigned number);
void recording_close(recording *r, const uint8_t table[TABLE_SIZE]);

void record_own(recording *r, const uint8_t key[64], uint8_t answer);
void record_sweep(recording *r, coghammer_millis clock, uint8_t answer);
void record_sent(recording *r, coghammer_millis clock, const coghammer_node *to, const uint8_t hash[32], uint8_t answer);
// A datagram with its answer, and the table after it.
void record_rx(recording *r, coghammer_millis clock, coghammer_unix unix_time, const coghammer_node *from, size_t key_len, const uint8_t *datagram,
               size_t len, uint32_t code, const uint8_t table[TABLE_SIZE]);

#endif
