// The host's secp256k1: keys, signatures, node records.
#ifndef KEYS_H
#define KEYS_H
#include <stddef.h>
#include <stdint.h>

enum { RECORD_ROOM = 300 };

typedef struct {
    uint8_t secret[32];
    uint8_t key[64]; // the public key without its leading 04: the node's identity in discv4
} identity;

// A new random identity.
void identity_new(identity *id);

// The signature of a body: r, s, and the recovery number.
void sign_body(const identity *id, const uint8_t *body, size_t len, uint8_t signature[65]);

// The key that signed a datagram. Gives its length: 64, or 0 where the signature recovers none.
size_t recover_signer(const uint8_t *datagram, size_t len, uint8_t key[64]);

// Writes the node's record (EIP-778, scheme v4, sequence number 1) and gives its size.
size_t write_record(const identity *id, const uint8_t address[4], uint16_t udp, uint8_t record[RECORD_ROOM]);

#endif
