/* What the peers of bench/serving and of bench/waiting share: addresses on 127.0.0.1, the clock, and what must hold. */
#include <netinet/in.h>
#include <stdio.h>
#include <stdlib.h>
#include <sys/socket.h>
#include <time.h>

#include "bytes.h"

#define MOST 9000

static void need(int holds, const char *what) {
    if (!holds) { perror(what); exit(1); }
}

static struct sockaddr_in here(int port) {
    struct sockaddr_in at = {.sin_family = AF_INET, .sin_port = htons(port)};
    at.sin_addr.s_addr = htonl(INADDR_LOOPBACK);
    return at;
}

static double now(void) {
    struct timespec t;
    clock_gettime(CLOCK_MONOTONIC, &t);
    return t.tv_sec + 1e-9 * t.tv_nsec;
}
