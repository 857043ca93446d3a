// bench NEEDS LOG PROGRAM..: the time of each program on the log, its output thrown away, beside the hashing that the log's lines make
// necessary (NEEDS, lines `LENGTH COUNT`) with the library's keccak256, and beside the first program. `PROGRAM WORD` as one argument has the word go
// before the log. They take turns; the best time of each counts.
#include <fcntl.h>
#include <stdint.h>
#include <stdio.h>
#include <stdlib.h>
#include <string.h>
#include <sys/wait.h>
#include <time.h>
#include <unistd.h>

void coghammer_keccak256(const uint8_t *message, size_t n, uint8_t *out);

enum { TURNS = 5, MOST = 2000, PROGRAMS = 7 };

static size_t lengths[MOST];
static unsigned long counts[MOST];
static int kinds;

static double now(void) {
    struct timespec t;
    clock_gettime(CLOCK_MONOTONIC, &t);
    return t.tv_sec + t.tv_nsec / 1e9;
}

static double hashing(void) {
    static uint8_t message[4096], out[32];
    double start = now();
    for (int k = 0; k < kinds; k++)
        for (unsigned long i = 0; i < counts[k]; i++) {
            message[0] = out[0];
            coghammer_keccak256(message, lengths[k], out);
        }
    return now() - start;
}

static double program(const char *path, const char *word, const char *log) {
    double start = now();
    pid_t child = fork();
    if (child == 0) {
        int null = open("/dev/null", O_WRONLY);
        dup2(null, 1);
        dup2(null, 2);
        execl(path, path, word ? word : log, word ? log : (char *)0, (char *)0);
        _exit(127);
    }
    int status;
    if (waitpid(child, &status, 0) < 0 || status) fprintf(stderr, "%s failed\n", path), exit(1);
    return now() - start;
}

int main(int argc, char **argv) {
    if (argc < 4) return 1;
    FILE *needs = fopen(argv[1], "r");
    if (!needs) return 1;
    while (kinds < MOST && fscanf(needs, "%zu %lu", &lengths[kinds], &counts[kinds]) == 2) kinds++;
    unsigned long all = 0, lines = 0;
    for (int k = 0; k < kinds; k++) all += counts[k];
    FILE *log = fopen(argv[2], "r");
    for (int c; log && (c = getc(log)) != EOF;) lines += c == '\n';
    double best[PROGRAMS + 1] = {0};
    const char *words[PROGRAMS + 1] = {0};
    for (int i = 1; i < argc - 2 && i <= PROGRAMS; i++) {
        char *blank = strchr(argv[i + 2], ' ');
        if (blank) *blank = 0, words[i] = blank + 1;
    }
    for (int t = 0; t < TURNS; t++)
        for (int i = 0; i < argc - 2 && i <= PROGRAMS; i++) {
            double time = i ? program(argv[i + 2], words[i], argv[2]) : hashing();
            if (!t || time < best[i]) best[i] = time;
        }
    printf("%lu lines, %lu hashes necessary\n", lines, all);
    printf("  %-40s %8.1f ms  1.00\n", "that hashing, with the same keccak256", best[0] * 1e3);
    for (int i = 1; i < argc - 2 && i <= PROGRAMS; i++)
        printf("  %-40s %8.1f ms  %.2f  %.0f lines/s, %.3f of %s\n", argv[i + 2], best[i] * 1e3, best[i] / best[0], lines / best[i],
               best[i] / best[1], argv[3]);
    return 0;
}
