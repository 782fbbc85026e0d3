/* The peers of bench/serving, on 127.0.0.1: a client that asks a hub again and again, a server that answers as many
   bytes, a board that reads zeros, and a ping-pong of the same datagrams. */
#include <arpa/inet.h>
#include <netinet/tcp.h>
#include <pthread.h>
#include <stdint.h>
#include <stdio.h>
#include <stdlib.h>
#include <string.h>
#include <sys/socket.h>
#include <time.h>
#include <unistd.h>

#include "peers.h"

static int bound(int kind, int port) {
    struct sockaddr_in at = here(port);
    int one = 1, fd = socket(AF_INET, kind, 0);
    need(fd >= 0, "socket");
    setsockopt(fd, SOL_SOCKET, SO_REUSEADDR, &one, sizeof one);
    need(bind(fd, (struct sockaddr *)&at, sizeof at) == 0, "bind");
    return fd;
}

static int joined(int kind, int port) {
    struct sockaddr_in at = here(port);
    int one = 1, fd = socket(AF_INET, kind, 0);
    need(fd >= 0, "socket");
    need(connect(fd, (struct sockaddr *)&at, sizeof at) == 0, "connect");
    if (kind == SOCK_STREAM) setsockopt(fd, IPPROTO_TCP, TCP_NODELAY, &one, sizeof one);
    return fd;
}

enum { REQUEST_BYTES = 20, MOST_AHEAD = 64 };

static int reply_bytes, words, port, asks, ahead;

static void write_all(int fd, const unsigned char *bytes, int count) {
    for (int done = 0; done < count;) {
        int wrote = write(fd, bytes + done, count - done);
        need(wrote > 0, "write");
        done += wrote;
    }
}

/* a server that answers as many bytes as a hub: one thread for each connection, and one write for what came in a read */
static void *answer_all(void *given) {
    static unsigned char replies[MOST_AHEAD * MOST];
    int one = 1, fd = (int)(intptr_t)given, got = 0, count;
    unsigned char buf[MOST_AHEAD * REQUEST_BYTES];
    setsockopt(fd, IPPROTO_TCP, TCP_NODELAY, &one, sizeof one);
    while ((count = read(fd, buf, sizeof buf)) > 0) {
        got += count;
        write_all(fd, replies, got / REQUEST_BYTES * reply_bytes);
        got %= REQUEST_BYTES;
    }
    close(fd);
    return 0;
}

static void answer_streams(void) {
    int fd = bound(SOCK_STREAM, port);
    need(listen(fd, 64) == 0, "listen");
    for (;;) {
        pthread_t thread;
        int stream = accept(fd, 0, 0);
        need(stream >= 0, "accept");
        pthread_create(&thread, 0, answer_all, (void *)(intptr_t)stream);
        pthread_detach(thread);
    }
}

/* A client that asks a hub, or that server, for so many words of board 0, with so many requests under way: as many as
   were answered in a read are asked next, in one write. */
static void *ask_all(void *given) {
    int fd = (int)(intptr_t)given, sent = 0, done = 0, got = 0, next = ahead;
    unsigned char frames[MOST_AHEAD * REQUEST_BYTES], replies[4 * MOST];
    for (int i = 0; i < ahead; i++) {
        unsigned char *frame = frames + i * REQUEST_BYTES;
        put(frame, 16);
        put(frame + 4, 0);
        put(frame + 8, 0x200000f0);
        put(frame + 12, 0x2000000f | words << 8);
        put(frame + 16, 0);
    }
    while (done < asks) {
        if (next > asks - sent) next = asks - sent;
        write_all(fd, frames, next * REQUEST_BYTES);
        sent += next;
        int count = read(fd, replies, sizeof replies);
        need(count > 0, "read");
        next = (got + count) / reply_bytes;
        got = (got + count) % reply_bytes;
        done += next;
    }
    return 0;
}

static void ask_streams(int connections) {
    pthread_t threads[64];
    int fds[64];
    for (int i = 0; i < connections; i++) fds[i] = joined(SOCK_STREAM, port);
    double began = now();
    for (int i = 0; i < connections; i++) pthread_create(threads + i, 0, ask_all, (void *)(intptr_t)fds[i]);
    for (int i = 0; i < connections; i++) pthread_join(threads[i], 0);
    printf("%.6f\n", now() - began);
    for (int i = 0; i < connections; i++) {
        char rest;
        shutdown(fds[i], SHUT_WR);
        need(read(fds[i], &rest, 1) <= 0, "nothing is behind the end");
        close(fds[i]);
    }
}

/* a board that reads zeros, with no care for what is lost: nothing is on this machine */
static void be_board(void) {
    int fd = bound(SOCK_DGRAM, port);
    unsigned char in[MOST], out[MOST] = {0};
    unsigned next = 1;
    for (;;) {
        struct sockaddr_in from;
        socklen_t length = sizeof from;
        int got = recvfrom(fd, in, sizeof in, 0, (struct sockaddr *)&from, &length), count = 12;
        if (got == 64 && word(in) == 0x200000f1) {
            put(out, 0x200000f1);
            put(out + 4, 1500);
            put(out + 8, 16);
            put(out + 12, 0x200000f0 | next << 8);
            memset(out + 16, 0, 48);
            count = 64;
        } else if (got == 12 && word(in) == (0x200000f0 | next << 8)) {
            count = 8 + 4 * (word(in + 4) >> 8 & 0xff);
            put(out, word(in));
            put(out + 4, word(in + 4) & ~0xfu);
            memset(out + 8, 0, count - 8);
            next = next % 65535 + 1;
        } else {
            continue;
        }
        sendto(fd, out, count, 0, (struct sockaddr *)&from, length);
    }
}

/* so many datagrams go to that board and come back, one after another */
static void ask_board(void) {
    int fd = joined(SOCK_DGRAM, port);
    unsigned char out[12], in[MOST];
    double began = now();
    for (int i = 0; i < asks; i++) {
        put(out, 0x200000f0 | (i % 65535 + 1) << 8);
        put(out + 4, 0x2000000f | words << 8);
        put(out + 8, 0);
        need(write(fd, out, 12) == 12, "write");
        need(read(fd, in, sizeof in) == 8 + 4 * words, "read");
    }
    printf("%.6f\n", now() - began);
}

int main(int count, char **args) {
    need(count == 7, "six words");
    const char *what = args[1];
    port = atoi(args[2]);
    words = atoi(args[3]);
    int connections = atoi(args[4]);
    asks = atoi(args[5]);
    ahead = atoi(args[6]);
    need(ahead >= 1 && ahead <= MOST_AHEAD, "requests under way");
    reply_bytes = 20 + 4 * words;
    if (!strcmp(what, "server")) answer_streams();
    if (!strcmp(what, "client")) ask_streams(connections);
    if (!strcmp(what, "board")) be_board();
    if (!strcmp(what, "pings")) ask_board();
    return 0;
}
