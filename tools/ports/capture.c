/* Captures as libpcap writes them, in the byte order of this machine. */
#define _GNU_SOURCE
#include "capture.h"

#include <errno.h>
#include <stdlib.h>
#include <string.h>

enum { BUFFER = 1 << 18 };

static void fail(struct capture *capture)
{
    fprintf(stderr, "p4ports: %s is written no further: %s\n", capture->path, strerror(errno));
    fclose(capture->file);
    capture->file = NULL;
}

bool open_capture(struct capture *capture, const char *folder, int port, const char *way)
{
    /* The magic number of nanoseconds, version 2.4, times in UTC, the longest frame, and Ethernet. */
    static const struct { uint32_t magic; uint16_t version[2]; uint32_t rest[4]; } head = {
        0xa1b23c4d, {2, 4}, {0, 0, 262144, 1}};
    if (asprintf(&capture->path, "%s/%d-%s.pcap", folder, port, way) < 0)
        return false;
    capture->file = fopen(capture->path, "wbe");
    if (!capture->file)
        return false;
    setvbuf(capture->file, NULL, _IOFBF, BUFFER);
    return fwrite(&head, sizeof head, 1, capture->file) == 1 && fflush(capture->file) == 0;
}

void capture_frame(struct capture *capture, const struct timespec *moment, const uint8_t *frame, size_t length)
{
    if (!capture->file)
        return;
    uint32_t head[4] = {(uint32_t)moment->tv_sec, (uint32_t)moment->tv_nsec, (uint32_t)length, (uint32_t)length};
    capture->is_fresh = true;
    if (fwrite(head, sizeof head, 1, capture->file) != 1 || fwrite(frame, 1, length, capture->file) != length)
        fail(capture);
}

void flush_capture(struct capture *capture)
{
    if (capture->file && capture->is_fresh && fflush(capture->file) != 0)
        fail(capture);
    capture->is_fresh = false;
}
