/* p4ports joins interfaces of Linux to the UDP ports of `p4switch serve`: a frame that comes from an interface goes to the
   switch as a datagram, its port in two bytes, the more significant one first, and then the frame; what the switch sends
   goes out by the interface of its port. One thread, which waits by epoll and moves up to BATCH frames a system call. */
#define _GNU_SOURCE
#include "capture.h"
#include "frames.h"
#include "words.h"

#include <arpa/inet.h>
#include <errno.h>
#include <linux/if_ether.h>
#include <linux/if_packet.h>
#include <linux/virtio_net.h>
#include <net/if.h>
#include <netinet/udp.h>
#include <signal.h>
#include <stdlib.h>
#include <string.h>
#include <sys/epoll.h>
#include <sys/signalfd.h>
#include <sys/socket.h>
#include <unistd.h>

enum {
    BATCH = 64,
    BEFORE = 16,                  /* room before a frame for its port and a tag */
    LONGEST = 65536 + 256,        /* the longest frame that a sender leaves to its card to cut, in bytes */
    LONGEST_DATAGRAM = 2 + 10240, /* the longest that the switch sends, in bytes */
    MAX_CUT = 65000,              /* the longest message that the system is to cut into datagrams, in bytes */
    QUEUE = 8 << 20,              /* what is asked of the system for a socket's queue, in bytes */
    FLUSH_EVERY = 200,            /* how long a frame of a capture waits in this program, in milliseconds, and once more at most */
    TELL_EVERY = 10,              /* how often a missing switch is told, in seconds */
};

/* Why a frame from an interface was dropped. */
enum { TOO_LONG, NO_ROOM, NO_SWITCH, NOT_CUT, IN_REASONS };
static const char *const in_reasons[IN_REASONS] = {
    "longer than 9216 bytes", "found no room in the queue", "not taken by the switch's UDP port",
    "left to a card to finish, in a way that is not known here"};

/* Why a packet of the switch did not go out by its interface. */
enum { TOO_SHORT, ABOVE_MTU, NOT_TAKEN, OUT_REASONS };
static const char *const out_reasons[OUT_REASONS] = {
    "shorter than 14 bytes", "longer than the interface's MTU", "not taken by the interface"};

/* Why a datagram of the switch went to no interface. */
enum { NO_INTERFACE, ABOVE_PORTS, NO_PORT, DATAGRAM_TOO_LONG, DATAGRAM_REASONS };
static const char *const datagram_reasons[DATAGRAM_REASONS] = {
    "of a port without an interface", "of a port above 510", "shorter than two bytes", "longer than 10242 bytes"};

struct port {
    int number, index, socket;
    const char *interface;
    uint64_t in_packets, in_bytes, in_drops[IN_REASONS];
    uint64_t out_packets, out_bytes, out_drops[OUT_REASONS];
    struct capture in, out;
    /* What waits to go out: a header for the system, and the frame in `datagrams`. */
    unsigned waiting;
    struct mmsghdr messages[BATCH];
    struct iovec parts[BATCH][2];
};

static struct port *ports;
static int port_count;
static struct port *by_number[MAX_PORT + 1];
static uint64_t datagram_drops[DATAGRAM_REASONS];
static int to_switch;
static bool can_cut; /* whether the system cuts a long message to UDP into datagrams */
static const struct words *given;

/* Frames that were received, and the datagrams that they become. */
static uint8_t frames[BATCH][BEFORE + LONGEST];
static uint8_t segments[BATCH][2 + MAX_FRAME];
static struct { struct iovec parts[BATCH]; unsigned count; } leaving;

/* What the switch sent. */
static uint8_t datagrams[BATCH][LONGEST_DATAGRAM + 1];

static void stop(const char *what)
{
    fprintf(stderr, "p4ports: %s: %s\n", what, strerror(errno));
    exit(FAILED);
}

/* A switch that does not take what it is sent is told, from some seconds after the start on. */
static void tell_no_switch(void)
{
    static time_t next;
    struct timespec now;
    clock_gettime(CLOCK_MONOTONIC, &now);
    if (next == 0)
        next = now.tv_sec + TELL_EVERY / 2;
    if (now.tv_sec < next)
        return;
    next = now.tv_sec + TELL_EVERY;
    fprintf(stderr, "p4ports: nothing takes packets at UDP port %d of 127.0.0.1: does the switch serve with --packets %d?\n",
            given->packets, given->packets);
}

/* The frames that were sent last. Nobody listened where the system tells of a refusal behind them. */
static struct { struct port *port; uint64_t packets, bytes; } last;

static void refuse_last(void)
{
    if (last.port) {
        last.port->in_packets -= last.packets;
        last.port->in_bytes -= last.bytes;
        last.port->in_drops[NO_SWITCH] += last.packets;
        last.port = NULL;
        tell_no_switch();
    }
}

/* Makes one message of datagrams that the system can cut: all of one length, but for the last, which may be shorter. How many
   of those from `first` on it has. */
static unsigned make_message(struct msghdr *message, unsigned first, uint8_t *control)
{
    struct iovec *parts = leaving.parts + first;
    size_t size = parts->iov_len, all = size;
    unsigned count = 1;
    while (can_cut && first + count < leaving.count && parts[count - 1].iov_len == size && parts[count].iov_len <= size &&
           all + parts[count].iov_len <= MAX_CUT)
        all += parts[count++].iov_len;
    *message = (struct msghdr){.msg_iov = parts, .msg_iovlen = count};
    if (count > 1) {
        uint16_t each = (uint16_t)size;
        message->msg_control = control;
        message->msg_controllen = CMSG_SPACE(sizeof each);
        struct cmsghdr *told = CMSG_FIRSTHDR(message);
        told->cmsg_level = SOL_UDP;
        told->cmsg_type = UDP_SEGMENT;
        told->cmsg_len = CMSG_LEN(sizeof each);
        memcpy(CMSG_DATA(told), &each, sizeof each);
    }
    return count;
}

static void count_sent(struct port *port, const struct msghdr *message)
{
    last.port = port;
    last.packets = message->msg_iovlen;
    last.bytes = 0;
    for (size_t i = 0; i < message->msg_iovlen; i++)
        last.bytes += message->msg_iov[i].iov_len - 2;
    port->in_packets += last.packets;
    port->in_bytes += last.bytes;
}

/* Sends what waits for the switch, all of which is of this port. A short count says as an error does that one was refused. */
static void send_to_switch(struct port *port)
{
    static struct mmsghdr messages[BATCH];
    static union { uint8_t room[CMSG_SPACE(sizeof(uint16_t))]; struct cmsghdr align; } controls[BATCH];
    unsigned count = 0, done = 0;
    for (unsigned at = 0; at < leaving.count; count++)
        at += make_message(&messages[count].msg_hdr, at, controls[count].room);
    while (done < count) {
        int sent = sendmmsg(to_switch, messages + done, count - done, 0);
        if (sent < 0 && errno == EINTR)
            continue;
        if (sent < 0 && errno != ECONNREFUSED) {
            port->in_drops[NO_SWITCH] += messages[done].msg_hdr.msg_iovlen;
            done++;
            continue;
        }
        for (int i = 0; i < sent; i++)
            count_sent(port, &messages[done++].msg_hdr);
        if (done < count)
            refuse_last();
    }
    leaving.count = 0;
}

/* A frame, with room for two bytes before it, is to go to the switch. */
static void queue_for_switch(struct port *port, uint8_t *frame, size_t length, const struct timespec *moment)
{
    if (length > MAX_FRAME) {
        port->in_drops[TOO_LONG]++;
        return;
    }
    capture_frame(&port->in, moment, frame, length);
    frame[-2] = (uint8_t)(port->number >> 8);
    frame[-1] = (uint8_t)port->number;
    leaving.parts[leaving.count++] = (struct iovec){frame - 2, length + 2};
    if (leaving.count == BATCH)
        send_to_switch(port);
}

/* What the system says beside a frame. */
struct beside {
    struct virtio_net_hdr header;
    union { char room[256]; struct cmsghdr align; } control;
};

/* What is said about a frame's VLAN tag and its time. */
static void read_beside(struct msghdr *message, struct tpacket_auxdata *told, struct timespec *moment)
{
    for (struct cmsghdr *it = CMSG_FIRSTHDR(message); it; it = CMSG_NXTHDR(message, it)) {
        if (it->cmsg_level == SOL_PACKET && it->cmsg_type == PACKET_AUXDATA)
            memcpy(told, CMSG_DATA(it), sizeof *told);
        if (it->cmsg_level == SOL_SOCKET && it->cmsg_type == SCM_TIMESTAMPNS)
            memcpy(moment, CMSG_DATA(it), sizeof *moment);
    }
}

/* Cuts a frame of TCP that its sender left to its card to cut, and lets the segments go to the switch. */
static void queue_segments(struct port *port, struct cut *cut, const struct timespec *moment)
{
    size_t length;
    while ((length = next_segment(cut, segments[leaving.count] + 2)) != 0)
        queue_for_switch(port, segments[leaving.count] + 2, length, moment);
}

/* A frame that came from an interface, of which the system says something beside. */
static void take_frame(struct port *port, uint8_t *frame, size_t length, struct msghdr *message, struct virtio_net_hdr *header)
{
    struct tpacket_auxdata told = {0};
    struct timespec moment = {0};
    read_beside(message, &told, &moment);
    size_t start = header->csum_start;
    if (told.tp_status & TP_STATUS_VLAN_VALID) {
        uint16_t type = told.tp_status & TP_STATUS_VLAN_TPID_VALID ? told.tp_vlan_tpid : ETH_P_8021Q;
        frame = put_tag(frame, type, told.tp_vlan_tci);
        length += TAG;
        start += TAG;
    }
    bool has_sum_left = header->flags & VIRTIO_NET_HDR_F_NEEDS_CSUM;
    uint8_t kind = header->gso_type & (uint8_t)~VIRTIO_NET_HDR_GSO_ECN;
    if (kind != VIRTIO_NET_HDR_GSO_NONE) {
        struct cut cut;
        bool is_tcp = kind == VIRTIO_NET_HDR_GSO_TCPV4 || kind == VIRTIO_NET_HDR_GSO_TCPV6;
        if (is_tcp && has_sum_left && begin_cut(&cut, frame, length, start, header->gso_size))
            queue_segments(port, &cut, &moment);
        else
            port->in_drops[NOT_CUT]++;
        return;
    }
    if (has_sum_left && !complete_sum(frame, length, start, header->csum_offset))
        port->in_drops[NOT_CUT]++;
    else
        queue_for_switch(port, frame, length, &moment);
}

/* Takes up to BATCH frames from an interface to the switch. */
static void take_frames(struct port *port)
{
    static struct mmsghdr messages[BATCH];
    static struct iovec parts[BATCH][2];
    static struct beside besides[BATCH];
    for (int i = 0; i < BATCH; i++) {
        parts[i][0] = (struct iovec){&besides[i].header, sizeof besides[i].header};
        parts[i][1] = (struct iovec){frames[i] + BEFORE, LONGEST};
        messages[i].msg_hdr = (struct msghdr){
            .msg_iov = parts[i], .msg_iovlen = 2,
            .msg_control = besides[i].control.room, .msg_controllen = sizeof besides[i].control.room};
    }
    int count = recvmmsg(port->socket, messages, BATCH, MSG_DONTWAIT, NULL);
    if (count < 0 && (errno == ENETDOWN || errno == ENODEV))
        fprintf(stderr, "p4ports: port %d: %s is down or gone\n", port->number, port->interface);
    else if (count < 0 && errno != EAGAIN && errno != EINTR)
        port->in_drops[NOT_CUT]++;
    for (int i = 0; i < count; i++) {
        size_t length = messages[i].msg_len - sizeof besides[i].header;
        if (length < MIN_FRAME)
            continue;
        if (messages[i].msg_hdr.msg_flags & MSG_TRUNC)
            port->in_drops[TOO_LONG]++;
        else
            take_frame(port, frames[i] + BEFORE, length, &messages[i].msg_hdr, &besides[i].header);
    }
    send_to_switch(port);
}

/* Sends what waits for an interface. */
static void send_to_interface(struct port *port)
{
    struct timespec now = {0};
    if (port->out.file)
        clock_gettime(CLOCK_REALTIME, &now);
    unsigned done = 0;
    while (done < port->waiting) {
        int sent = sendmmsg(port->socket, port->messages + done, port->waiting - done, MSG_DONTWAIT);
        if (sent < 0 && errno == EINTR)
            continue;
        for (int i = 0; i < sent; i++) {
            struct iovec *frame = &port->parts[done + i][1];
            port->out_packets++;
            port->out_bytes += frame->iov_len;
            capture_frame(&port->out, &now, frame->iov_base, frame->iov_len);
        }
        done += sent < 0 ? 0 : sent;
        if (sent < 0) {
            port->out_drops[errno == EMSGSIZE ? ABOVE_MTU : NOT_TAKEN]++;
            done++;
        }
    }
    port->waiting = 0;
}

/* The port of a datagram of the switch, or NULL where it is counted and goes nowhere. */
static struct port *port_of(const uint8_t *datagram, size_t length, bool is_cut)
{
    unsigned number = length < 2 ? 0 : datagram[0] << 8 | datagram[1];
    int reason = -1;
    if (length < 2)
        reason = NO_PORT;
    else if (number > MAX_PORT)
        reason = ABOVE_PORTS;
    else if (!by_number[number])
        reason = NO_INTERFACE;
    else if (is_cut || length > LONGEST_DATAGRAM)
        reason = DATAGRAM_TOO_LONG;
    if (reason >= 0) {
        datagram_drops[reason]++;
        return NULL;
    }
    if (length < 2 + MIN_FRAME) {
        by_number[number]->out_drops[TOO_SHORT]++;
        return NULL;
    }
    return by_number[number];
}

/* Takes up to BATCH datagrams of the switch to their interfaces. */
static void take_datagrams(void)
{
    static struct virtio_net_hdr nothing_left;
    static struct mmsghdr messages[BATCH];
    static struct iovec parts[BATCH];
    struct port *touched[BATCH];
    unsigned touched_count = 0;
    for (int i = 0; i < BATCH; i++) {
        parts[i] = (struct iovec){datagrams[i], sizeof datagrams[i]};
        messages[i].msg_hdr = (struct msghdr){.msg_iov = &parts[i], .msg_iovlen = 1};
    }
    int count = recvmmsg(to_switch, messages, BATCH, MSG_DONTWAIT, NULL);
    if (count < 0 && errno == ECONNREFUSED)
        refuse_last();
    for (int i = 0; i < count; i++) {
        struct port *port = port_of(datagrams[i], messages[i].msg_len, messages[i].msg_hdr.msg_flags & MSG_TRUNC);
        if (!port)
            continue;
        if (port->waiting == 0)
            touched[touched_count++] = port;
        unsigned at = port->waiting++;
        port->parts[at][0] = (struct iovec){&nothing_left, sizeof nothing_left};
        port->parts[at][1] = (struct iovec){datagrams[i] + 2, messages[i].msg_len - 2};
        port->messages[at].msg_hdr = (struct msghdr){.msg_iov = port->parts[at], .msg_iovlen = 2};
    }
    for (unsigned i = 0; i < touched_count; i++)
        send_to_interface(touched[i]);
}

/* Adds what the system dropped since it was asked last. */
static void add_system_drops(struct port *port)
{
    struct tpacket_stats told;
    socklen_t size = sizeof told;
    if (getsockopt(port->socket, SOL_PACKET, PACKET_STATISTICS, &told, &size) == 0)
        port->in_drops[NO_ROOM] += told.tp_drops;
}

static void report_reasons(const struct port *port, const char *way, const uint64_t *counts, const char *const *reasons, int count)
{
    for (int i = 0; i < count; i++)
        if (counts[i])
            printf("port %d %s: dropped %s %llu: %s\n", port->number, port->interface, way, (unsigned long long)counts[i],
                   reasons[i]);
}

static uint64_t sum_of(const uint64_t *counts, int count)
{
    uint64_t sum = 0;
    for (int i = 0; i < count; i++)
        sum += counts[i];
    return sum;
}

/* What a UDP port of 127.0.0.1 dropped since its queue was full, as /proc/net/udp says: the last of the fields of its line. */
static uint64_t queue_drops(int port)
{
    char line[512];
    uint64_t found = 0;
    FILE *table = fopen("/proc/net/udp", "re");
    while (table && fgets(line, sizeof line, table)) {
        unsigned address, number;
        unsigned long long drops;
        if (sscanf(line, " %*[^:]: %8X:%4X %*s %*s %*s %*s %*s %*s %*s %*s %*s %*s %llu", &address, &number, &drops) == 3 &&
            (int)number == port && address == htonl(INADDR_LOOPBACK))
            found += drops;
    }
    if (table)
        fclose(table);
    return found;
}

/* Writes packets, bytes and drops of each port, and why there were drops. */
static void report(void)
{
    for (struct port *it = ports; it < ports + port_count; it++) {
        add_system_drops(it);
        printf("port %d %s: in %llu packets %llu bytes %llu dropped, out %llu packets %llu bytes %llu dropped\n", it->number,
               it->interface, (unsigned long long)it->in_packets, (unsigned long long)it->in_bytes,
               (unsigned long long)sum_of(it->in_drops, IN_REASONS), (unsigned long long)it->out_packets,
               (unsigned long long)it->out_bytes, (unsigned long long)sum_of(it->out_drops, OUT_REASONS));
        report_reasons(it, "in", it->in_drops, in_reasons, IN_REASONS);
        report_reasons(it, "out", it->out_drops, out_reasons, OUT_REASONS);
        flush_capture(&it->in);
        flush_capture(&it->out);
    }
    for (int i = 0; i < DATAGRAM_REASONS; i++)
        if (datagram_drops[i])
            printf("of the switch: dropped %llu: %s\n", (unsigned long long)datagram_drops[i], datagram_reasons[i]);
    for (int port = given->packets; port <= given->packets + 1; port++)
        if (queue_drops(port))
            printf("UDP port %d: dropped %llu: its queue was full\n", port, (unsigned long long)queue_drops(port));
    fflush(stdout);
}

/* More room for a socket's queues where this process may have it, else as much as the system gives to all. */
static void widen(int socket)
{
    int size = QUEUE;
    if (setsockopt(socket, SOL_SOCKET, SO_RCVBUFFORCE, &size, sizeof size) != 0)
        setsockopt(socket, SOL_SOCKET, SO_RCVBUF, &size, sizeof size);
    if (setsockopt(socket, SOL_SOCKET, SO_SNDBUFFORCE, &size, sizeof size) != 0)
        setsockopt(socket, SOL_SOCKET, SO_SNDBUF, &size, sizeof size);
}

static struct sockaddr_in local_port(int port)
{
    return (struct sockaddr_in){.sin_family = AF_INET, .sin_port = htons((uint16_t)port), .sin_addr.s_addr = htonl(INADDR_LOOPBACK)};
}

/* The socket at which the switch's packets come, which sends to the port below. */
static void open_switch(void)
{
    struct sockaddr_in here = local_port(given->packets + 1), there = local_port(given->packets);
    to_switch = socket(AF_INET, SOCK_DGRAM | SOCK_CLOEXEC, 0);
    if (to_switch < 0)
        stop("a UDP socket");
    widen(to_switch);
    if (bind(to_switch, (struct sockaddr *)&here, sizeof here) != 0) {
        fprintf(stderr, "p4ports: UDP port %d of 127.0.0.1 cannot be had: %s; another p4ports or a script listens there\n",
                given->packets + 1, strerror(errno));
        exit(FAILED);
    }
    if (connect(to_switch, (struct sockaddr *)&there, sizeof there) != 0)
        stop("the switch's UDP port");
    int no_size = 0;
    can_cut = setsockopt(to_switch, SOL_UDP, UDP_SEGMENT, &no_size, sizeof no_size) == 0;
}

static void set(struct port *port, int level, int name, int value)
{
    if (setsockopt(port->socket, level, name, &value, sizeof value) != 0)
        stop(port->interface);
}

/* A promiscuous socket of one interface, which is not given what is sent by it. */
static void open_port(struct port *port, const struct joined *joined)
{
    *port = (struct port){.number = joined->port, .interface = joined->interface, .index = (int)if_nametoindex(joined->interface)};
    port->socket = socket(AF_PACKET, SOCK_RAW | SOCK_CLOEXEC, 0);
    if (port->socket < 0) {
        bool is_denied = errno == EPERM || errno == EACCES;
        fprintf(stderr, "p4ports: no socket of packets: %s%s\n", strerror(errno), is_denied ?
                "; CAP_NET_RAW is missing: run it as root, or give it to the program by setcap cap_net_raw+ep" : "");
        exit(FAILED);
    }
    widen(port->socket);
    set(port, SOL_PACKET, PACKET_AUXDATA, 1);
    set(port, SOL_PACKET, PACKET_VNET_HDR, 1);
    set(port, SOL_PACKET, PACKET_IGNORE_OUTGOING, 1);
    if (given->folder)
        set(port, SOL_SOCKET, SO_TIMESTAMPNS, 1);
    struct packet_mreq request = {.mr_ifindex = port->index, .mr_type = PACKET_MR_PROMISC};
    if (setsockopt(port->socket, SOL_PACKET, PACKET_ADD_MEMBERSHIP, &request, sizeof request) != 0)
        stop(port->interface);
    struct sockaddr_ll address = {.sll_family = AF_PACKET, .sll_protocol = htons(ETH_P_ALL), .sll_ifindex = port->index};
    if (bind(port->socket, (struct sockaddr *)&address, sizeof address) != 0)
        stop(port->interface);
    by_number[port->number] = port;
}

static void open_all(void)
{
    port_count = given->count;
    ports = calloc((size_t)port_count, sizeof *ports);
    if (!ports)
        stop("memory");
    for (int i = 0; i < port_count; i++)
        open_port(&ports[i], &given->joined[i]);
    open_switch();
    for (int i = 0; given->folder && i < port_count; i++)
        if (!open_capture(&ports[i].in, given->folder, ports[i].number, "in") ||
            !open_capture(&ports[i].out, given->folder, ports[i].number, "out"))
            stop(given->folder);
}

/* Hands what was captured to the system, at most once in FLUSH_EVERY milliseconds. */
static void flush_captures(void)
{
    static int64_t next;
    struct timespec now;
    clock_gettime(CLOCK_MONOTONIC_COARSE, &now);
    int64_t moment = now.tv_sec * 1000LL + now.tv_nsec / 1000000;
    if (moment < next)
        return;
    next = moment + FLUSH_EVERY;
    for (struct port *it = ports; it < ports + port_count; it++) {
        flush_capture(&it->in);
        flush_capture(&it->out);
    }
}

/* The signals as something to wait for: USR1 asks for the report, INT and TERM end the program. */
static int open_signals(void)
{
    sigset_t signals;
    sigemptyset(&signals);
    sigaddset(&signals, SIGUSR1);
    sigaddset(&signals, SIGINT);
    sigaddset(&signals, SIGTERM);
    sigprocmask(SIG_BLOCK, &signals, NULL);
    int told = signalfd(-1, &signals, SFD_CLOEXEC);
    if (told < 0)
        stop("signals");
    return told;
}

static void watch(int epoll, int file, int number)
{
    struct epoll_event event = {.events = EPOLLIN, .data.u32 = (uint32_t)number};
    if (epoll_ctl(epoll, EPOLL_CTL_ADD, file, &event) != 0)
        stop("epoll");
}

/* Moves frames until a signal ends it. The numbers behind those of the ports are the switch and the signals. */
static void serve(int signals)
{
    struct epoll_event events[BATCH];
    int epoll = epoll_create1(EPOLL_CLOEXEC);
    for (int i = 0; i < port_count; i++)
        watch(epoll, ports[i].socket, i);
    watch(epoll, to_switch, port_count);
    watch(epoll, signals, port_count + 1);
    for (;;) {
        int count = epoll_wait(epoll, events, BATCH, given->folder ? FLUSH_EVERY : -1);
        for (int i = 0; i < count; i++) {
            int which = (int)events[i].data.u32;
            struct signalfd_siginfo told;
            if (which < port_count)
                take_frames(&ports[which]);
            else if (which == port_count)
                take_datagrams();
            else if (read(signals, &told, sizeof told) == sizeof told && told.ssi_signo != SIGUSR1)
                return;
            else
                report();
        }
        if (given->folder)
            flush_captures();
    }
}

int main(int count, char **words)
{
    given = read_words(count, words);
    int signals = open_signals();
    open_all();
    if (given->is_check)
        return 0;
    printf("p4ports: %d interface%s joined to the UDP ports %d and %d\n", port_count, port_count == 1 ? "" : "s",
           given->packets, given->packets + 1);
    fflush(stdout);
    serve(signals);
    report();
    return 0;
}
