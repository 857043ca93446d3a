// host FOLDER [NODES] [MILLISECONDS] [BOOT]: so many discv4 nodes on loopback (3), for so long (2000). Their first nodes are those of the boot list
// BOOT; without one it is FOLDER/boot.txt, which names node 0 and is always written, for this host's other nodes or for another host.
// Each node's recording goes to FOLDER/node-N.log, and what the library answered, with the table's printout, to FOLDER/node-N.out.
#include "boot.h"
#include "node.h"
#include <poll.h>
#include <stdlib.h>
#include <string.h>

enum { MOST_NODES = 64, MOST_DATAGRAMS = 100000, JOIN_EVERY = 20, SWEEP_EVERY = 250, ASK_EVERY = 400 };

static node nodes[MOST_NODES];
static struct pollfd sockets[MOST_NODES];
static coghammer_node boot[MOST_BOOT];
static size_t boot_count;

static unsigned long argument(const char *text, unsigned long low, unsigned long high) {
    char *end;
    unsigned long n = strtoul(text, &end, 10);
    if (*end || n < low || n > high) {
        fprintf(stderr, "%s: a number from %lu to %lu\n", text, low, high);
        exit(2);
    }
    return n;
}

// Pings the nodes of the boot list, but not itself.
static void ping_boot(node *n) {
    for (size_t i = 0; i < boot_count; i++)
        if (memcmp(boot[i].key, n->self.key, 64)) node_ping(n, &boot[i]);
}

// What a node does by the clock. One node after the other joins: as long as it knows no other, it pings the nodes of the boot list.
static void by_the_clock(unsigned i, uint64_t now) {
    static uint64_t asked[MOST_NODES], swept[MOST_NODES]; // how often
    uint64_t joined = i * JOIN_EVERY;
    if (now >= joined + asked[i] * ASK_EVERY) {
        asked[i]++;
        if (node_ask(&nodes[i]) == 0) ping_boot(&nodes[i]);
    }
    if (now >= joined + (swept[i] + 1) * SWEEP_EVERY) {
        swept[i]++;
        node_sweep(&nodes[i]);
    }
}

// Until the time is over, or so many datagrams have come that something must be wrong.
static unsigned run(unsigned count, uint64_t until) {
    unsigned received = 0;
    for (uint64_t now = clock_millis().millis; now < until && received < MOST_DATAGRAMS; now = clock_millis().millis) {
        poll(sockets, count, 5);
        for (unsigned i = 0; i < count; i++)
            if (sockets[i].revents & POLLIN) {
                taken t;
                if (!node_take(nodes[i].socket, &t)) continue;
                node_receive(&nodes[i], &t);
                received++;
            }
        for (unsigned i = 0; i < count; i++) by_the_clock(i, now);
    }
    return received;
}

static void report(unsigned count, unsigned received) {
    unsigned types[7] = {0}, full = 0, most = 0;
    for (unsigned i = 0; i < count; i++) {
        const node *n = &nodes[i];
        unsigned refused = 0;
        for (int j = 1; j < COGHAMMER_COUNTS; j++) refused += n->counters.counts[j];
        for (int j = 1; j < 7; j++) types[j] += n->received[j];
        full += n->full_replies;
        if (n->most_distances > most) most = n->most_distances;
        printf("node %u: port %u, %u calls done, %u refused\n", i, n->self.endpoint.udp, n->counters.counts[0], refused);
    }
    printf("%u datagrams: %u ping, %u pong, %u findnode, %u neighbors, %u enr request, %u enr response accepted; %u replies of 12 nodes and 4\n",
           received, types[1], types[2], types[3], types[4], types[5], types[6], full);
    printf("at most %u distances worked out for a closest list\n", most);
}

int main(int argc, char **argv) {
    if (argc < 2 || argc > 5) {
        fprintf(stderr, "usage: host FOLDER [NODES] [MILLISECONDS] [BOOT]\n");
        return 2;
    }
    unsigned count = argc > 2 ? (unsigned)argument(argv[2], 2, MOST_NODES) : 3;
    uint64_t millis = argc > 3 ? argument(argv[3], 1, 60000) : 2000;
    for (unsigned i = 0; i < count; i++) {
        node_open(&nodes[i], argv[1], i);
        sockets[i] = (struct pollfd){.fd = nodes[i].socket, .events = POLLIN};
    }
    char own[4096];
    snprintf(own, sizeof own, "%s/boot.txt", argv[1]);
    boot_write(own, &nodes[0].self);
    boot_count = boot_read(argc > 4 ? argv[4] : own, boot);
    unsigned received = run(count, millis);
    report(count, received);
    for (unsigned i = 0; i < count; i++) node_close(&nodes[i]);
    return 0;
}
