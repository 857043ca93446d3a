// threads FOLDER [MILLISECONDS]: a node with two ports and a thread for each, and two nodes that speak to it, one by each port, for so long (2000). One lock
// guards the node: whoever holds it reads the clock, makes the call and writes the log's line, so the log is the order in which the calls were handled.
// Recordings as of host: the node's is FOLDER/node-0.log and node-0.out.
#include "node.h"
#include <poll.h>
#include <pthread.h>
#include <stdlib.h>
#include <string.h>
#include <sys/socket.h>
#include <sys/time.h>
#include <unistd.h>

enum { PORTS = 2, OTHERS = 2, SWEEP_EVERY = 100, PING_EVERY = 7 };

static node shared, others[OTHERS];
static pthread_mutex_t lock = PTHREAD_MUTEX_INITIALIZER;
static int ports[PORTS];
static uint64_t until;
static unsigned handled[PORTS];

// Receives at one port. Waiting and recovering the signer need no lock.
static void *receive(void *argument) {
    unsigned port = (unsigned)(uintptr_t)argument;
    taken t;
    while (clock_millis().millis < until) {
        if (!node_take(ports[port], &t)) continue;
        pthread_mutex_lock(&lock);
        node_receive(&shared, &t);
        pthread_mutex_unlock(&lock);
        handled[port]++;
    }
    return NULL;
}

// The other nodes, and the shared one's sweeps, in this thread.
static void speak(const coghammer_node to[PORTS]) {
    uint64_t swept = 0, pinged = 0;
    for (uint64_t now = clock_millis().millis; now < until; now = clock_millis().millis) {
        struct pollfd sockets[OTHERS];
        for (unsigned i = 0; i < OTHERS; i++) sockets[i] = (struct pollfd){.fd = others[i].socket, .events = POLLIN};
        poll(sockets, OTHERS, 2);
        for (unsigned i = 0; i < OTHERS; i++) {
            taken t;
            if ((sockets[i].revents & POLLIN) && node_take(others[i].socket, &t)) node_receive(&others[i], &t);
        }
        if (now >= pinged + PING_EVERY) {
            pinged = now;
            for (unsigned i = 0; i < OTHERS; i++) {
                node_ping(&others[i], &to[i % PORTS]);
                node_ask(&others[i]);
            }
        }
        if (now >= swept + SWEEP_EVERY) {
            swept = now;
            pthread_mutex_lock(&lock);
            node_sweep(&shared);
            pthread_mutex_unlock(&lock);
            for (unsigned i = 0; i < OTHERS; i++) node_sweep(&others[i]);
        }
    }
}

static void fail(const char *what) {
    perror(what);
    exit(1);
}

int main(int argc, char **argv) {
    if (argc < 2 || argc > 3) {
        fprintf(stderr, "usage: threads FOLDER [MILLISECONDS]\n");
        return 2;
    }
    until = argc > 2 ? strtoul(argv[2], NULL, 10) : 2000;
    node_open(&shared, argv[1], 0);
    for (unsigned i = 0; i < OTHERS; i++) node_open(&others[i], argv[1], i + 1);
    coghammer_node to[PORTS] = {shared.self, shared.self};
    ports[0] = shared.socket;
    ports[1] = socket_open(0, &to[1].endpoint);
    // a receiver looks at the clock now and then, to end
    struct timeval most = {.tv_usec = 20000};
    for (int i = 0; i < PORTS; i++)
        if (setsockopt(ports[i], SOL_SOCKET, SO_RCVTIMEO, &most, sizeof most)) fail("setsockopt");
    pthread_t receivers[PORTS];
    for (unsigned i = 0; i < PORTS; i++)
        if (pthread_create(&receivers[i], NULL, receive, (void *)(uintptr_t)i)) fail("pthread_create");
    speak(to);
    for (unsigned i = 0; i < PORTS; i++) pthread_join(receivers[i], NULL);
    unsigned refused = 0;
    for (int j = 1; j < COGHAMMER_COUNTS; j++) refused += shared.counters.counts[j];
    printf("node 0: %u datagrams at one port, %u at the other, %u calls done, %u refused, %u of them for the clock\n", handled[0], handled[1],
           shared.counters.counts[COGHAMMER_DONE], refused, shared.counters.counts[COGHAMMER_CLOCK_BACK]);
    close(ports[1]);
    node_close(&shared);
    for (unsigned i = 0; i < OTHERS; i++) node_close(&others[i]);
    return 0;
}
