#include "keys.h"
#include "coghammer.h"
#include <secp256k1.h>
#include <secp256k1_recovery.h>
#include <stdio.h>
#include <stdlib.h>
#include <string.h>
#include <sys/random.h>

static secp256k1_context *context(void) {
    static secp256k1_context *made;
    if (!made) made = secp256k1_context_create(SECP256K1_CONTEXT_SIGN | SECP256K1_CONTEXT_VERIFY);
    return made;
}

static void must(int done, const char *what) {
    if (done) return;
    fprintf(stderr, "%s failed\n", what);
    exit(1);
}

void identity_new(identity *id) {
    secp256k1_pubkey point;
    do must(getrandom(id->secret, 32, 0) == 32, "getrandom");
    while (!secp256k1_ec_pubkey_create(context(), &point, id->secret)); // all but one in 2^128 are keys
    uint8_t whole[65];
    size_t len = sizeof whole;
    secp256k1_ec_pubkey_serialize(context(), whole, &len, &point, SECP256K1_EC_UNCOMPRESSED);
    memcpy(id->key, whole + 1, 64);
}

void sign_body(const identity *id, const uint8_t *body, size_t len, uint8_t signature[65]) {
    uint8_t hash[32];
    int recovery;
    secp256k1_ecdsa_recoverable_signature made;
    coghammer_keccak256(body, len, hash);
    must(secp256k1_ecdsa_sign_recoverable(context(), &made, hash, id->secret, NULL, NULL), "signing");
    secp256k1_ecdsa_recoverable_signature_serialize_compact(context(), signature, &recovery, &made);
    signature[64] = (uint8_t)recovery;
}

size_t recover_signer(const uint8_t *datagram, size_t len, uint8_t key[64]) {
    enum { SIGNATURE = 32, BODY = 97 };
    uint8_t hash[32], whole[65];
    size_t size = sizeof whole;
    secp256k1_ecdsa_recoverable_signature signature;
    secp256k1_pubkey point;
    if (len <= BODY || datagram[BODY - 1] > 3) return 0;
    coghammer_keccak256(datagram + BODY, len - BODY, hash);
    if (!secp256k1_ecdsa_recoverable_signature_parse_compact(context(), &signature, datagram + SIGNATURE, datagram[BODY - 1])) return 0;
    if (!secp256k1_ecdsa_recover(context(), &point, &signature, hash)) return 0;
    secp256k1_ec_pubkey_serialize(context(), whole, &size, &point, SECP256K1_EC_UNCOMPRESSED);
    memcpy(key, whole + 1, 64);
    return 64;
}

// ---- the record. The library hands records on without looking inside, so that the host writes its own.

// A string of 2 to 55 bytes.
static size_t put(uint8_t *to, const void *bytes, size_t len) {
    to[0] = (uint8_t)(0x80 + len);
    memcpy(to + 1, bytes, len);
    return len + 1;
}

static size_t put_list(uint8_t *to, const uint8_t *inside, size_t len) {
    to[0] = 0xf8;
    to[1] = (uint8_t)len; // 56 to 255
    memcpy(to + 2, inside, len);
    return len + 2;
}

size_t write_record(const identity *id, const uint8_t address[4], uint16_t udp, uint8_t record[RECORD_ROOM]) {
    uint8_t all[200], list[202], point[33], port[2] = {(uint8_t)(udp >> 8), (uint8_t)udp}, hash[32];
    uint8_t *content = all + 66; // behind the signature
    size_t n = 0;
    point[0] = (uint8_t)(2 + (id->key[63] & 1));
    memcpy(point + 1, id->key, 32);
    content[n++] = 1;
    n += put(content + n, "id", 2);
    n += put(content + n, "v4", 2);
    n += put(content + n, "ip", 2);
    n += put(content + n, address, 4);
    n += put(content + n, "secp256k1", 9);
    n += put(content + n, point, 33);
    n += put(content + n, "udp", 3);
    n += put(content + n, port, 2);
    coghammer_keccak256(list, put_list(list, content, n), hash);
    secp256k1_ecdsa_signature signature;
    must(secp256k1_ecdsa_sign(context(), &signature, hash, id->secret, NULL, NULL), "signing");
    all[0] = 0xb8;
    all[1] = 64;
    secp256k1_ecdsa_signature_serialize_compact(context(), all + 2, &signature);
    return put_list(record, all, 66 + n);
}
