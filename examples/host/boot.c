#include "boot.h"
#include <inttypes.h>
#include <stdio.h>
#include <stdlib.h>

enum { LARGEST_FILE = 65536 };

static void fail(const char *path) {
    perror(path);
    exit(1);
}

size_t boot_read(const char *path, coghammer_node list[MOST_BOOT]) {
    static uint8_t text[LARGEST_FILE];
    uint64_t told[COGHAMMER_TOLD];
    FILE *file = fopen(path, "r");
    if (!file) fail(path);
    size_t len = fread(text, 1, sizeof text, file); // what is behind so many bytes finds no room in the list either
    if (ferror(file)) fail(path);
    fclose(file);
    coghammer_read_enodes(list, MOST_BOOT, text, len, told);
    if (told[COGHAMMER_TOLD_END])
        fprintf(stderr, "%s: line %" PRIu64 " %s (%" PRIu64 ")\n", path, told[COGHAMMER_TOLD_LINE],
                told[COGHAMMER_TOLD_END] == 22 ? "is no enode line" : "is one more than there is room for", told[COGHAMMER_TOLD_END]);
    return told[COGHAMMER_TOLD_COUNT];
}

void boot_write(const char *path, const coghammer_node *node) {
    uint8_t line[COGHAMMER_ENODE_LINE];
    uint64_t size;
    if (coghammer_write_enodes(line, sizeof line, node, 1, &size)) abort(); // every node here has an IPv4 address
    FILE *file = fopen(path, "w");
    if (!file || fwrite(line, 1, size, file) != size || fclose(file)) fail(path);
}
