/* What both programs that load a switch need: the end where something is not there, and the time in seconds. */
#include <stdio.h>
#include <stdlib.h>
#include <time.h>

static void need(int is_good, const char *what)
{
    if (!is_good) {
        perror(what);
        exit(1);
    }
}

static double now(void)
{
    struct timespec it;
    clock_gettime(CLOCK_MONOTONIC, &it);
    return (double)it.tv_sec + (double)it.tv_nsec / 1e9;
}
