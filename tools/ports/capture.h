/* Captures: pcap files of Ethernet with times in nanoseconds. */
#ifndef CAPTURE_H
#define CAPTURE_H

#include <stdbool.h>
#include <stddef.h>
#include <stdint.h>
#include <stdio.h>
#include <time.h>

struct capture {
    FILE *file;     /* NULL where nothing is captured */
    char *path;
    bool is_fresh;  /* something was written and not yet handed to the system */
};

/* Opens the capture folder/PORT-way.pcap anew. False where it cannot be written; errno says why. */
bool open_capture(struct capture *capture, const char *folder, int port, const char *way);

/* Writes a frame. Where that fails it is told, and the capture ends there. */
void capture_frame(struct capture *capture, const struct timespec *moment, const uint8_t *frame, size_t length);

/* Hands what was written to the system. */
void flush_capture(struct capture *capture);

#endif
