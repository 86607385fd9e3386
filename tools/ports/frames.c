/* Frames made whole: VLAN tags, checksums (RFC 1071), and TCP that was left to a card to cut. */
#include "frames.h"

#include <arpa/inet.h>
#include <string.h>

enum {
    ADDRESSES = 12,
    TYPE_IPV4 = 0x0800,
    TYPE_IPV6 = 0x86dd,
    TYPE_TAG = 0x8100,
    TYPE_SERVICE_TAG = 0x88a8,
    IPV4_HEADER = 20,
    IPV6_HEADER = 40,
    TCP_HEADER = 20,
    PROTOCOL_TCP = 6,
    FIN = 0x01,
    PSH = 0x08,
    CWR = 0x80,
};

static uint16_t read16(const uint8_t *at)
{
    return (uint16_t)(at[0] << 8 | at[1]);
}

static void write16(uint8_t *at, size_t value)
{
    at[0] = (uint8_t)(value >> 8);
    at[1] = (uint8_t)value;
}

/* Adds bytes to a sum of 16-bit words in the order of this machine; a last odd byte is followed by a zero. */
static uint64_t add_bytes(uint64_t sum, const uint8_t *bytes, size_t length)
{
    for (; length >= 4; bytes += 4, length -= 4) {
        uint32_t word;
        memcpy(&word, bytes, 4);
        sum += word;
    }
    uint16_t rest[2] = {0, 0};
    memcpy(rest, bytes, length);
    return sum + rest[0] + rest[1];
}

/* Writes the complement of a sum, in the order of this machine; 0 is written as its other form, as UDP asks. */
static void write_sum(uint8_t *at, uint64_t sum)
{
    while (sum >> 16)
        sum = (sum & 0xffff) + (sum >> 16);
    uint16_t value = (uint16_t)~sum;
    if (value == 0)
        value = 0xffff;
    memcpy(at, &value, 2);
}

uint8_t *put_tag(uint8_t *frame, uint16_t type, uint16_t control)
{
    memmove(frame - TAG, frame, ADDRESSES);
    write16(frame + ADDRESSES - TAG, type);
    write16(frame + ADDRESSES - TAG + 2, control);
    return frame - TAG;
}

bool complete_sum(uint8_t *frame, size_t length, size_t start, size_t offset)
{
    if (start + offset + 2 > length)
        return false;
    write_sum(frame + start + offset, add_bytes(0, frame + start, length - start));
    return true;
}

/* Where the IP header of a frame begins, behind its tags; 0 where it is none of IPv4 or IPv6. */
static size_t network_of(const uint8_t *frame, size_t length, bool *is_ipv6)
{
    size_t at = ADDRESSES;
    while (at + 2 + TAG <= length && (read16(frame + at) == TYPE_TAG || read16(frame + at) == TYPE_SERVICE_TAG))
        at += TAG;
    if (at + 2 > length)
        return 0;
    uint16_t type = read16(frame + at);
    *is_ipv6 = type == TYPE_IPV6;
    return type == TYPE_IPV4 || type == TYPE_IPV6 ? at + 2 : 0;
}

bool begin_cut(struct cut *cut, const uint8_t *frame, size_t length, size_t transport, size_t size)
{
    bool is_ipv6;
    size_t network = network_of(frame, length, &is_ipv6);
    size_t least = network + (is_ipv6 ? IPV6_HEADER : IPV4_HEADER);
    if (network == 0 || transport < least || transport + TCP_HEADER > length || size == 0)
        return false;
    /* In IPv6 other headers may stand between; that of TCP is the last. */
    if (!is_ipv6 && frame[network + 9] != PROTOCOL_TCP)
        return false;
    size_t words = frame[transport + 12] >> 4;
    size_t header = transport + 4 * words;
    if (4 * words < TCP_HEADER || header >= length || header + size > MAX_FRAME)
        return false;
    *cut = (struct cut){frame, length, network, transport, header, size, 0, is_ipv6};
    return true;
}

/* The lengths, the number and the sum of a segment's IP header. */
static void write_network(const struct cut *cut, uint8_t *room, size_t length)
{
    uint8_t *ip = room + cut->network;
    if (cut->is_ipv6) {
        write16(ip + 4, length - cut->network - IPV6_HEADER);
        return;
    }
    write16(ip + 2, length - cut->network);
    write16(ip + 4, read16(ip + 4) + cut->done / cut->size);
    write16(ip + 10, 0);
    write_sum(ip + 10, add_bytes(0, ip, cut->transport - cut->network));
}

/* The sequence number, the flags and the sum of a segment's TCP header. */
static void write_transport(const struct cut *cut, uint8_t *room, size_t length, bool is_last)
{
    uint8_t *ip = room + cut->network, *tcp = room + cut->transport;
    uint32_t number;
    memcpy(&number, tcp + 4, 4);
    number = htonl(ntohl(number) + (uint32_t)cut->done);
    memcpy(tcp + 4, &number, 4);
    if (!is_last)
        tcp[13] &= (uint8_t) ~(FIN | PSH);
    if (cut->done != 0)
        tcp[13] &= (uint8_t)~CWR;
    size_t count = length - cut->transport;
    uint8_t pseudo[4] = {0, PROTOCOL_TCP};
    write16(pseudo + 2, count);
    uint64_t sum = add_bytes(0, pseudo, sizeof pseudo);
    sum = cut->is_ipv6 ? add_bytes(sum, ip + 8, 32) : add_bytes(sum, ip + 12, 8);
    write16(tcp + 16, 0);
    write_sum(tcp + 16, add_bytes(sum, tcp, count));
}

size_t next_segment(struct cut *cut, uint8_t *room)
{
    size_t left = cut->length - cut->header - cut->done;
    if (left == 0)
        return 0;
    size_t data = left < cut->size ? left : cut->size;
    size_t length = cut->header + data;
    memcpy(room, cut->frame, cut->header);
    memcpy(room + cut->header, cut->frame + cut->header + cut->done, data);
    write_network(cut, room, length);
    write_transport(cut, room, length, data == left);
    cut->done += data;
    return length;
}
