/* Frames as an AF_PACKET socket gives them, made whole: tags put back, sums written, long frames cut. */
#ifndef FRAMES_H
#define FRAMES_H

#include <stdbool.h>
#include <stddef.h>
#include <stdint.h>

enum {
    MIN_FRAME = 14,    /* an Ethernet header, in bytes */
    MAX_FRAME = 9216,  /* the longest packet that the switch takes, in bytes */
    TAG = 4,           /* a VLAN tag, in bytes */
};

/* Puts a VLAN tag, of a type and with its control information, behind the addresses of a frame of at least 12 bytes. The
   frame begins TAG bytes earlier then, where there must be room; its new beginning is returned. */
uint8_t *put_tag(uint8_t *frame, uint16_t type, uint16_t control);

/* Writes the checksum that the sender left to its card: that of the bytes from `start` to the frame's end, at `offset`
   behind `start`. What stands there is the sum of the pseudo header. False where it would stand outside of the frame. */
bool complete_sum(uint8_t *frame, size_t length, size_t start, size_t offset);

/* A frame of TCP that its sender left to its card to cut, and how far it is cut. */
struct cut {
    const uint8_t *frame;
    size_t length;     /* of the whole frame */
    size_t network;    /* where the IP header begins */
    size_t transport;  /* where the TCP header begins */
    size_t header;     /* where the data begin */
    size_t size;       /* data a segment, in bytes */
    size_t done;       /* data cut off so far */
    bool is_ipv6;
};

/* Begins to cut a frame whose TCP header begins at `transport` into segments of `size` bytes of data. False where it is no
   TCP over IPv4 or IPv6, or a segment would be longer than MAX_FRAME. */
bool begin_cut(struct cut *cut, const uint8_t *frame, size_t length, size_t transport, size_t size);

/* Writes the next segment, with its own lengths, sequence number, flags and sums, into room for MAX_FRAME bytes; its length,
   or 0 where none is left. */
size_t next_segment(struct cut *cut, uint8_t *room);

#endif
