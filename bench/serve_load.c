/* load PORT WINDOW SECONDS < DATAGRAM: sends a datagram to UDP port PORT of 127.0.0.1 over and over and takes what comes at the
   port above, with at most WINDOW of them on their way. It says as JSON how many were sent and came, in how long, and of those that
   were sent one at a time the times between sending and coming in us: the middle one, and that which one of a hundred is above.
   echo PORT THREADS: a switch that does nothing: each of so many threads takes a datagram at PORT and sends the same to the port
   above. */
#define _GNU_SOURCE
#include <arpa/inet.h>
#include <poll.h>
#include <pthread.h>
#include <stdint.h>
#include <string.h>
#include <sys/socket.h>
#include <unistd.h>

#include "load.h"

enum { BATCH = 64, LONGEST = 10300, QUEUE = 8 << 20, PATIENCE = 500, MOST_TIMES = 1 << 20 };

static uint8_t rooms[BATCH][LONGEST];
static struct iovec parts[BATCH];
static struct mmsghdr messages[BATCH];
static float times[MOST_TIMES];

static struct sockaddr_in address_of(int port)
{
    return (struct sockaddr_in){
        .sin_family = AF_INET, .sin_port = htons((uint16_t)port), .sin_addr.s_addr = htonl(INADDR_LOOPBACK)};
}

/* A socket at a port, or at none where that is 0. What waits at it has room where the system lets it have more than it gives to all. */
static int open_socket(int port)
{
    int made = socket(AF_INET, SOCK_DGRAM, 0), size = QUEUE;
    need(made >= 0, "a socket");
    setsockopt(made, SOL_SOCKET, SO_RCVBUFFORCE, &size, sizeof size);
    struct sockaddr_in here = address_of(port);
    need(port == 0 || bind(made, (struct sockaddr *)&here, sizeof here) == 0, "the UDP port");
    return made;
}

static int by_size(const void *one, const void *other)
{
    float a = *(const float *)one, b = *(const float *)other;
    return (a > b) - (a < b);
}

static void point(uint8_t *same, size_t length)
{
    for (int i = 0; i < BATCH; i++) {
        parts[i] = (struct iovec){same ? same : rooms[i], length};
        messages[i].msg_hdr = (struct msghdr){.msg_iov = &parts[i], .msg_iovlen = 1};
    }
}

static void load(int port, long window, double seconds)
{
    static uint8_t datagram[LONGEST];
    size_t size = fread(datagram, 1, sizeof datagram, stdin);
    int out = open_socket(0), in = open_socket(port + 1);
    struct sockaddr_in there = address_of(port);
    need(connect(out, (struct sockaddr *)&there, sizeof there) == 0, "the switch");
    long sent = 0, came = 0, lost = 0, timed = 0;
    double begun = now(), until = begun + seconds, at = begun;
    while (now() < until || sent > came + lost) {
        long room = now() < until ? window - (sent - came - lost) : 0;
        if (room > 0) {
            point(datagram, size);
            at = now();
            int count = sendmmsg(out, messages, room < BATCH ? (unsigned)room : BATCH, 0);
            need(count > 0, "send");
            sent += count;
        }
        struct pollfd wait = {.fd = in, .events = POLLIN};
        if (poll(&wait, 1, PATIENCE) == 0) {
            lost = sent - came;
            continue;
        }
        point(NULL, LONGEST);
        int count = recvmmsg(in, messages, BATCH, MSG_DONTWAIT, NULL);
        came += count > 0 ? count : 0;
        if (window == 1 && timed < MOST_TIMES)
            times[timed++] = (float)((now() - at) * 1e6);
    }
    double took = now() - begun;
    qsort(times, (size_t)timed, sizeof *times, by_size);
    printf("{\"sent\": %ld, \"came\": %ld, \"seconds\": %.6f, \"p50\": %.2f, \"p99\": %.2f}\n", sent, came, took,
           (double)times[timed / 2], (double)times[timed * 99 / 100]);
}

struct ends {
    int in, out;
    struct sockaddr_in there;
};

static void *echo(void *given)
{
    struct ends *ends = given;
    uint8_t room[LONGEST];
    for (;;) {
        ssize_t length = recv(ends->in, room, sizeof room, 0);
        if (length >= 0)
            sendto(ends->out, room, (size_t)length, 0, (struct sockaddr *)&ends->there, sizeof ends->there);
    }
    return NULL;
}

static void echo_on(int port, int count)
{
    static struct ends ends[64];
    int in = open_socket(port);
    for (int i = 0; i < count && i < 64; i++) {
        pthread_t thread;
        ends[i] = (struct ends){in, open_socket(0), address_of(port + 1)};
        need(pthread_create(&thread, NULL, echo, &ends[i]) == 0, "a thread");
    }
    pause();
}

int main(int count, char **words)
{
    if (count == 4 && strcmp(words[1], "echo") == 0)
        echo_on(atoi(words[2]), atoi(words[3]));
    else if (count == 5 && strcmp(words[1], "load") == 0)
        load(atoi(words[2]), atol(words[3]), atof(words[4]));
    else
        return 2;
    return 0;
}
