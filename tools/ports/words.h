/* The words of p4ports: which interfaces are joined to which ports. */
#ifndef WORDS_H
#define WORDS_H

#include <stdbool.h>

enum {
    MAX_PORT = 510,  /* the greatest port of the switch */
    REFUSED = 2,     /* the status of words that are refused */
    FAILED = 3,      /* the status where something is missing */
};

struct joined {
    int port;
    const char *interface;
};

struct words {
    struct joined joined[MAX_PORT + 1];
    int count;
    int packets;         /* the UDP port at which the switch takes packets; what leaves comes at the one above */
    int cpu;             /* the switch's CPU port */
    const char *folder;  /* of captures, or NULL */
    bool is_check;
};

/* The words, of which each interface is there and of Ethernet; else what is wrong is told, and the program ends. */
const struct words *read_words(int count, char **words);

#endif
