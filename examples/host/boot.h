// Boot lists: files of enode lines.
#ifndef BOOT_H
#define BOOT_H
#include "coghammer.h"

enum { MOST_BOOT = 16 };

// Reads the nodes of a file, at most MOST_BOOT, and gives how many. A line that doesn't fit, or that finds the list full, is named on standard error;
// the nodes before it count.
size_t boot_read(const char *path, coghammer_node list[MOST_BOOT]);

// Writes a file of one node's line.
void boot_write(const char *path, const coghammer_node *node);

#endif
