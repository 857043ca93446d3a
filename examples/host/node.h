// One discv4 node: a key, a table, a UDP socket.
#ifndef NODE_H
#define NODE_H
#include "keys.h"
#include "recording.h"

enum { LARGEST = COGHAMMER_DATAGRAM_MOST };

// A datagram that came in by a socket, with its sender; one byte more than the largest, so that a longer one is refused.
typedef struct {
    int socket;
    coghammer_node from;
    size_t key_len; // 0 where the signature recovers no key
    uint8_t datagram[LARGEST + 1];
    size_t len;
} taken;

typedef struct {
    int socket;
    int answer_by; // the socket that an answer goes out by: where the datagram came in, else the node's own
    coghammer_node self; // the own key and endpoint
    identity id;
    uint8_t record[RECORD_ROOM];
    size_t record_size;
    uint8_t table[TABLE_SIZE];
    coghammer_counters counters;
    recording recording;
    unsigned received[7]; // accepted datagrams by type
    unsigned full_replies; // replies of 12 nodes and 4
    unsigned most_distances; // that a closest call worked out
} node;

// A node on loopback, at an address by its number and a port that the system chooses. The clock of all nodes starts with the first one.
void node_open(node *n, const char *folder, unsigned number);
void node_close(node *n);

void node_ping(node *n, const coghammer_node *to);
// Asks the three nodes that are nearest in the table for nodes near the own key, and for their records. A ping goes before that: it shows whether
// they are still there, and one that doesn't hold this node yet will ping back. Gives how many nodes the table has, at most sixteen.
size_t node_ask(node *n);
// Waits for a datagram, takes it and recovers its signer; whether there was one. No node is touched: threads need no lock for it.
bool node_take(int socket, taken *t);
// Hands a datagram to the table, records it, and sends what is due by the socket where it came in.
void node_receive(node *n, taken *t);
void node_sweep(node *n);

// A UDP socket at the address of node `number` and a port that the system chooses, which the endpoint then has.
int socket_open(unsigned number, coghammer_endpoint *here);

// Milliseconds that never go back.
coghammer_millis clock_millis(void);

#endif
