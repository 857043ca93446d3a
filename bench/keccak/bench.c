// Compares four Keccak-256, the first one over the C boundary, on the same inputs, after a check that they agree on every length from 0 to 1,299.
// They take turns in short batches, so that a busy machine slows them alike, and the best batch of each counts.
#include <stddef.h>
#include <stdint.h>
#include <stdio.h>
#include <string.h>
#include <time.h>

typedef void hash(const uint8_t *message, size_t n, uint8_t *out);
hash coghammer_keccak256, c_keccak256, rustcrypto_keccak256, c_keccak256_bytewise;

enum { HASHES = 4, TURNS = 3000 };
static hash *const hashes[HASHES] = {coghammer_keccak256, c_keccak256, rustcrypto_keccak256, c_keccak256_bytewise};
static const char *const names[HASHES] = {"Rattle, proved", "C, unrolled", "RustCrypto sha3", "C, byte by byte"};
static uint8_t message[2048];

static double now(void) {
    struct timespec t;
    clock_gettime(CLOCK_MONOTONIC, &t);
    return t.tv_sec * 1e9 + t.tv_nsec;
}

static void measure(size_t n, int batch) {
    double best[HASHES];
    uint8_t out[32];
    for (int k = 0; k < HASHES; k++) best[k] = 1e18;
    for (int t = 0; t < TURNS; t++)
        for (int k = 0; k < HASHES; k++) {
            double start = now();
            for (int i = 0; i < batch; i++) {
                hashes[k](message, n, out);
                memcpy(message, out, 8); // each message depends on the hash before it
            }
            double each = (now() - start) / batch;
            if (each < best[k]) best[k] = each;
        }
    printf("%zu bytes\n", n);
    for (int k = 0; k < HASHES; k++)
        printf("  %-16s %8.1f ns  %7.1f MB/s  %.2f x C  %.2f x RustCrypto  %.2f x C byte by byte\n", names[k], best[k], n * 1e3 / best[k],
               best[k] / best[1], best[k] / best[2], best[k] / best[3]);
}

int main(void) {
    for (size_t i = 0; i < sizeof message; i++) message[i] = (uint8_t)(7 * i + 3);
    for (size_t n = 0; n < 1300; n++) {
        uint8_t out[HASHES][32];
        for (int k = 0; k < HASHES; k++) {
            hashes[k](message, n, out[k]);
            if (memcmp(out[0], out[k], 32)) {
                printf("%s differs from %s at %zu bytes\n", names[k], names[0], n);
                return 1;
            }
        }
    }
    puts("lengths 0 to 1299 agree");
    measure(64, 40);
    measure(1280, 6);
    return 0;
}
