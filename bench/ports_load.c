/* load FROM TO SIZE WINDOW SECONDS: sends frames of SIZE bytes into interface FROM and takes them from interface TO, with at
   most WINDOW of them on their way, and says as JSON how many were sent, came and were lost, in how long, and what processor
   time that took. It is IPv4 to 10.0.2.2, from 10.0.1.2.
   load wire PORT: stands in place of a switch at UDP port PORT that does nothing but swap ports 1 and 2. */
#define _GNU_SOURCE
#include <arpa/inet.h>
#include <linux/if_ether.h>
#include <linux/if_packet.h>
#include <net/if.h>
#include <poll.h>
#include <stdint.h>
#include <string.h>
#include <sys/resource.h>
#include <sys/socket.h>

#include "load.h"

enum { BATCH = 64, LONGEST = 10300, QUEUE = 8 << 20, PATIENCE = 500 };

static uint8_t rooms[BATCH][LONGEST];
static struct iovec parts[BATCH];
static struct mmsghdr messages[BATCH];

static int open_interface(const char *name, int protocol)
{
    int made = socket(AF_PACKET, SOCK_RAW, 0), size = QUEUE, yes = 1;
    need(made >= 0, "a socket of packets");
    setsockopt(made, SOL_SOCKET, SO_RCVBUFFORCE, &size, sizeof size);
    setsockopt(made, SOL_SOCKET, SO_SNDBUFFORCE, &size, sizeof size);
    setsockopt(made, SOL_PACKET, PACKET_IGNORE_OUTGOING, &yes, sizeof yes);
    struct packet_mreq request = {.mr_ifindex = (int)if_nametoindex(name), .mr_type = PACKET_MR_PROMISC};
    setsockopt(made, SOL_PACKET, PACKET_ADD_MEMBERSHIP, &request, sizeof request);
    struct sockaddr_ll address = {
        .sll_family = AF_PACKET, .sll_protocol = htons((uint16_t)protocol), .sll_ifindex = (int)if_nametoindex(name)};
    need(bind(made, (struct sockaddr *)&address, sizeof address) == 0, name);
    return made;
}

/* An Ethernet frame with an IPv4 header, which bears its checksum, and zeros. */
static void make_frame(uint8_t *frame, size_t size)
{
    static const uint8_t head[34] = {2, 0, 0, 0, 2, 1, 2, 0, 0, 0, 1, 1, 8, 0, 0x45, 0, 0, 0, 0, 0, 0x40, 0, 64, 17, 0, 0,
                                     10, 0, 1, 2, 10, 0, 2, 2};
    uint32_t sum = 0;
    memset(frame, 0, size);
    memcpy(frame, head, sizeof head);
    frame[16] = (uint8_t)((size - 14) >> 8);
    frame[17] = (uint8_t)(size - 14);
    for (int i = 14; i < 34; i += 2)
        sum += (uint32_t)(frame[i] << 8 | frame[i + 1]);
    sum = (sum & 0xffff) + (sum >> 16);
    frame[24] = (uint8_t)(~sum >> 8);
    frame[25] = (uint8_t)~sum;
}

static void point(size_t length)
{
    for (int i = 0; i < BATCH; i++) {
        parts[i] = (struct iovec){rooms[i], length};
        messages[i].msg_hdr = (struct msghdr){.msg_iov = &parts[i], .msg_iovlen = 1};
    }
}

/* Takes what has come; how many frames that were of this size. */
static long take(int socket, size_t size)
{
    long found = 0;
    point(LONGEST);
    int count = recvmmsg(socket, messages, BATCH, MSG_DONTWAIT, NULL);
    for (int i = 0; i < count; i++)
        found += messages[i].msg_len == size;
    return found;
}

static void load(const char *from, const char *to, size_t size, long window, double seconds)
{
    static uint8_t frame[LONGEST];
    int out = open_interface(from, 0), in = open_interface(to, ETH_P_IP);
    long sent = 0, came = 0, lost = 0;
    make_frame(frame, size);
    double begun = now(), until = begun + seconds;
    while (now() < until || sent > came + lost) {
        long room = now() < until ? window - (sent - came - lost) : 0;
        for (int i = 0; i < BATCH; i++) {
            parts[i] = (struct iovec){frame, size};
            messages[i].msg_hdr = (struct msghdr){.msg_iov = &parts[i], .msg_iovlen = 1};
        }
        if (room > 0) {
            int count = sendmmsg(out, messages, room < BATCH ? (unsigned)room : BATCH, 0);
            need(count > 0, "send");
            sent += count;
        }
        struct pollfd wait = {.fd = in, .events = POLLIN};
        if (poll(&wait, 1, PATIENCE) == 0)
            lost = sent - came;
        else
            came += take(in, size);
    }
    struct rusage used;
    getrusage(RUSAGE_SELF, &used);
    printf("{\"sent\": %ld, \"came\": %ld, \"lost\": %ld, \"seconds\": %.6f, \"user\": %ld.%06ld, \"system\": %ld.%06ld}\n", sent,
           came, sent - came, now() - begun, used.ru_utime.tv_sec, used.ru_utime.tv_usec, used.ru_stime.tv_sec,
           used.ru_stime.tv_usec);
}

static void wire(int port)
{
    static uint8_t room[LONGEST];
    struct sockaddr_in here = {.sin_family = AF_INET, .sin_port = htons((uint16_t)port), .sin_addr.s_addr = htonl(INADDR_LOOPBACK)};
    struct sockaddr_in there = here;
    there.sin_port = htons((uint16_t)(port + 1));
    int made = socket(AF_INET, SOCK_DGRAM, 0);
    need(bind(made, (struct sockaddr *)&here, sizeof here) == 0, "the UDP port");
    for (;;) {
        ssize_t length = recv(made, room, sizeof room, 0);
        if (length < 2)
            continue;
        room[1] = (uint8_t)(3 - room[1]);
        sendto(made, room, (size_t)length, 0, (struct sockaddr *)&there, sizeof there);
    }
}

int main(int count, char **words)
{
    if (count == 3 && strcmp(words[1], "wire") == 0)
        wire(atoi(words[2]));
    if (count != 6)
        return 2;
    load(words[1], words[2], (size_t)atoi(words[3]), atol(words[4]), atof(words[5]));
    return 0;
}
