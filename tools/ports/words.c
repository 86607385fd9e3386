/* The words of p4ports. */
#define _GNU_SOURCE
#include "words.h"

#include <errno.h>
#include <getopt.h>
#include <net/if.h>
#include <net/if_arp.h>
#include <stdarg.h>
#include <stdio.h>
#include <stdlib.h>
#include <string.h>
#include <sys/ioctl.h>
#include <sys/socket.h>
#include <sys/stat.h>
#include <unistd.h>

enum { LONGEST_LIST = 400 };

static const char usage[] =
    "p4ports -i PORT@INTERFACE .. [--packets N] [--cpu N] [--pcap DIR] [--check]\n"
    "Joins interfaces of Linux to the UDP ports of `p4switch serve`, until Ctrl-C or TERM ends it.\n"
    "  -i, --interface PORT@INTERFACE  a port of the switch, 0 to 510, and its interface, as 1@veth1; once for each\n"
    "  --packets N  the UDP port at which the switch takes packets (9000); what leaves comes at the one above\n"
    "  --cpu N      the switch's CPU port (255), to which no interface is joined\n"
    "  --pcap DIR   writes what enters and leaves as DIR/PORT-in.pcap and DIR/PORT-out.pcap\n"
    "  --check      says what is wrong with the words and the interfaces, and ends\n"
    "On USR1 and at the end it writes packets, bytes and drops of each port.\n";

static _Noreturn void refuse(const char *format, ...)
{
    va_list parts;
    va_start(parts, format);
    fputs("p4ports: ", stderr);
    vfprintf(stderr, format, parts);
    fputc('\n', stderr);
    va_end(parts);
    exit(REFUSED);
}

/* A decimal number of all of a text, or -1. */
static int number_of(const char *text, size_t length)
{
    int number = 0;
    if (length == 0 || length > 6)
        return -1;
    for (size_t i = 0; i < length; i++) {
        if (text[i] < '0' || text[i] > '9')
            return -1;
        number = 10 * number + (text[i] - '0');
    }
    return number;
}

static int number_between(const char *option, const char *text, int least, int most)
{
    int number = number_of(text, strlen(text));
    if (number < least || number > most)
        refuse("%s %s: write a number from %d to %d", option, text, least, most);
    return number;
}

static void join(struct words *words, const char *text)
{
    const char *at = strchr(text, '@');
    if (!at || at == text || !at[1])
        refuse("-i %s: write PORT@INTERFACE, as 1@veth1", text);
    int port = number_of(text, (size_t)(at - text));
    if (port < 0 || port > MAX_PORT)
        refuse("-i %s: a port of the switch is a number from 0 to %d", text, MAX_PORT);
    for (int i = 0; i < words->count; i++) {
        if (words->joined[i].port == port)
            refuse("-i %s: port %d has the interface %s already", text, port, words->joined[i].interface);
        if (strcmp(words->joined[i].interface, at + 1) == 0)
            refuse("-i %s: %s is joined to port %d already", text, at + 1, words->joined[i].port);
    }
    words->joined[words->count++] = (struct joined){port, at + 1};
}

/* The names of all interfaces that are there. */
static const char *known_interfaces(void)
{
    static char list[LONGEST_LIST];
    struct if_nameindex *known = if_nameindex();
    for (struct if_nameindex *it = known; it && it->if_name; it++)
        if (strlen(list) + strlen(it->if_name) + 3 < sizeof list)
            strcat(strcat(list, *list ? ", " : ""), it->if_name);
    if_freenameindex(known);
    return list;
}

/* Whether an interface is there, is of Ethernet, and is up, which is only told. */
static void check_interface(int asked, const struct joined *joined)
{
    struct ifreq request = {0};
    if (strlen(joined->interface) < IFNAMSIZ)
        strcpy(request.ifr_name, joined->interface);
    if (!*request.ifr_name || ioctl(asked, SIOCGIFHWADDR, &request) != 0)
        refuse("-i %d@%s: no interface is named %s; there are: %s", joined->port, joined->interface, joined->interface,
               known_interfaces());
    if (request.ifr_hwaddr.sa_family != ARPHRD_ETHER)
        refuse("-i %d@%s: %s is no Ethernet interface, as veth, tap and network cards are", joined->port, joined->interface,
               joined->interface);
    if (ioctl(asked, SIOCGIFFLAGS, &request) == 0 && !(request.ifr_flags & IFF_UP))
        fprintf(stderr, "p4ports: note: %s is down, so nothing passes it before `ip link set %s up`\n", joined->interface,
                joined->interface);
}

static void check_all(const struct words *words)
{
    if (words->count == 0)
        refuse("no interface is named; write -i PORT@INTERFACE for each, as -i 1@veth1");
    for (int i = 0; i < words->count; i++)
        if (words->joined[i].port == words->cpu)
            refuse("-i %d@%s: port %d is the switch's CPU port, which leads to its controllers; --cpu names another",
                   words->cpu, words->joined[i].interface, words->cpu);
    int asked = socket(AF_UNIX, SOCK_DGRAM | SOCK_CLOEXEC, 0);
    for (int i = 0; i < words->count; i++)
        check_interface(asked, &words->joined[i]);
    close(asked);
    struct stat told;
    if (words->folder && mkdir(words->folder, 0777) != 0 && errno != EEXIST)
        refuse("--pcap %s: the folder cannot be made: %s", words->folder, strerror(errno));
    if (words->folder && (stat(words->folder, &told) != 0 || !S_ISDIR(told.st_mode)))
        refuse("--pcap %s: it is no folder", words->folder);
}

const struct words *read_words(int count, char **words)
{
    static struct words made = {.packets = 9000, .cpu = 255};
    static const struct option known[] = {
        {"interface", required_argument, NULL, 'i'}, {"packets", required_argument, NULL, 'k'},
        {"cpu", required_argument, NULL, 'c'},       {"pcap", required_argument, NULL, 'd'},
        {"check", no_argument, NULL, 'n'},           {"help", no_argument, NULL, 'h'},
        {NULL, 0, NULL, 0}};
    words[0] = "p4ports";
    int option;
    while ((option = getopt_long(count, words, "i:h", known, NULL)) != -1) {
        switch (option) {
        case 'i': join(&made, optarg); break;
        case 'k': made.packets = number_between("--packets", optarg, 1, 65534); break;
        case 'c': made.cpu = number_between("--cpu", optarg, 1, MAX_PORT); break;
        case 'd': made.folder = optarg; break;
        case 'n': made.is_check = true; break;
        case 'h': fputs(usage, stdout); exit(0);
        default: fputs(usage, stderr); exit(REFUSED);
        }
    }
    if (optind < count)
        refuse("%s is not expected; write -i PORT@INTERFACE for each interface", words[optind]);
    check_all(&made);
    return &made;
}
