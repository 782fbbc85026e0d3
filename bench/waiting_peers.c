/* Peers of a hub for bench/waiting, on 127.0.0.1: a board that holds each answer for a while, and clients of a hub. */
#define _GNU_SOURCE
#include <arpa/inet.h>
#include <netinet/tcp.h>
#include <poll.h>
#include <pthread.h>
#include <stdint.h>
#include <stdio.h>
#include <stdlib.h>
#include <string.h>
#include <sys/socket.h>
#include <time.h>
#include <unistd.h>

#include "peers.h"

#define MOST_HELD 65536
#define MOST_CLIENTS 64

/* ---- a board: it reads zeros, and each answer leaves so many seconds behind its question */

struct held {
    double due;
    struct sockaddr_in to;
    uint32_t header, first;
    int count;
};

static struct held queue[MOST_HELD];
static unsigned head, tail, held_packets, most_held, statuses;
static double latest;

static void hold(double due, struct sockaddr_in to, uint32_t header, uint32_t first, int count) {
    need(tail - head < MOST_HELD, "too many answers are held");
    queue[tail++ % MOST_HELD] = (struct held){due, to, header, first, count};
}

static int is_packet(const struct held *answer) { return (answer->header & 0xff) == 0xf0; }

static void let_go(int fd) {
    unsigned char out[MOST] = {0};
    struct held *answer = &queue[head++ % MOST_HELD];
    double late = now() - answer->due;
    put(out, answer->header);
    put(out + 4, answer->first);
    if (is_packet(answer)) {
        held_packets--;
        if (late > latest) latest = late;
    }
    else {
        put(out + 8, 16);
        put(out + 12, 0x200000f0 | answer->count << 8);
    }
    sendto(fd, out, is_packet(answer) ? answer->count : 64, 0, (struct sockaddr *)&answer->to, sizeof answer->to);
}

/* After so many packets it is silent. A datagram of one byte asks for the most packets that it held at once, by how
   many seconds the latest of its answers was late, and how often it was asked for its status. */
static void be_board(int port, double seconds, long packets) {
    struct sockaddr_in at = here(port), from;
    int fd = socket(AF_INET, SOCK_DGRAM, 0);
    unsigned next = 1;
    long heard = 0;
    need(fd >= 0 && bind(fd, (struct sockaddr *)&at, sizeof at) == 0, "bind");
    for (;;) {
        unsigned char in[MOST];
        struct pollfd ready = {.fd = fd, .events = POLLIN};
        double left = head == tail ? 1 : queue[head % MOST_HELD].due - now();
        struct timespec wait = {left > 0 ? (long)left : 0, left > 0 ? (long)(1e9 * (left - (long)left)) : 0};
        if (ppoll(&ready, 1, &wait, 0) > 0) {
            socklen_t length = sizeof from;
            int got = recvfrom(fd, in, sizeof in, 0, (struct sockaddr *)&from, &length);
            uint32_t header = got >= 4 ? word(in) : 0;
            if (got == 1) {
                char text[64];
                int count = snprintf(text, sizeof text, "%u %.6f %u", most_held, latest, statuses);
                sendto(fd, text, count, 0, (struct sockaddr *)&from, length);
            } else if (got == 64 && header == 0x200000f1) {
                statuses++;
                if (packets < 0 || heard < packets || !heard) hold(now() + seconds, from, header, 1500, next);
            } else if (got == 12 && header == (0x200000f0 | next << 8)) {
                if (packets >= 0 && heard++ >= packets) continue;
                if (packets < 0) heard++;
                hold(now() + seconds, from, header, word(in + 4) & ~0xfu, 8 + 4 * (word(in + 4) >> 8 & 0xff));
                if (++held_packets > most_held) most_held = held_packets;
                next = next % 65535 + 1;
            }
        }
        while (head != tail && queue[head % MOST_HELD].due <= now()) let_go(fd);
    }
}

/* ---- as many packets under way at that board as there are connections, for so long: the most that a hub can get, and
   the longest that one of them waited for its answer */

static void ask_board(int port, int connections, double seconds) {
    struct sockaddr_in at = here(port);
    int fd = socket(AF_INET, SOCK_DGRAM, 0);
    unsigned char out[12], in[MOST];
    double began[MOST_CLIENTS], longest = 0;
    long answers = 0, asked = 0;
    need(fd >= 0 && connect(fd, (struct sockaddr *)&at, sizeof at) == 0, "connect");
    double end = now() + seconds;
    while (now() < end) {
        while (asked - answers < connections) {
            began[asked % MOST_CLIENTS] = now();
            put(out, 0x200000f0 | (asked++ % 65535 + 1) << 8);
            put(out + 4, 0x2000010f);
            put(out + 8, 0);
            need(write(fd, out, 12) == 12, "write");
        }
        need(read(fd, in, sizeof in) == 12, "read");
        double took = now() - began[answers++ % MOST_CLIENTS];
        if (took > longest) longest = took;
    }
    printf("%ld %.6f\n", answers, longest);
}

/* ---- clients of a hub, each with a connection and one request at a time */

static int streams[MOST_CLIENTS];
static long answers[MOST_CLIENTS];
static double greatest[MOST_CLIENTS], deadline;

/* Asks for a word of board 0. The code of the answer is 0 where the board answered. */
static uint32_t ask(int client) {
    unsigned char frame[20], reply[MOST];
    double began = now();
    put(frame, 16);
    put(frame + 4, 0);
    put(frame + 8, 0x200000f0);
    put(frame + 12, 0x2000010f);
    put(frame + 16, 0);
    need(write(streams[client], frame, 20) == 20, "write");
    need(take(streams[client], reply, 4) && take(streams[client], reply + 4, word(reply)), "read");
    double took = now() - began;
    if (took > greatest[client]) greatest[client] = took;
    answers[client]++;
    return word(reply + 4);
}

static void *ask_on(void *given) {
    int client = (int)(intptr_t)given;
    do ask(client);
    while (now() < deadline);
    return 0;
}

static void *ask_once(void *given) {
    ask((int)(intptr_t)given);
    return 0;
}

static void join_hub(int port, int connections) {
    for (int i = 0; i < connections; i++) {
        struct sockaddr_in at = here(port);
        int one = 1;
        streams[i] = socket(AF_INET, SOCK_STREAM, 0);
        need(connect(streams[i], (struct sockaddr *)&at, sizeof at) == 0, "connect");
        setsockopt(streams[i], IPPROTO_TCP, TCP_NODELAY, &one, sizeof one);
    }
}

static void together(int first, int count, void *(*run)(void *)) {
    pthread_t threads[MOST_CLIENTS];
    for (int i = 0; i < count; i++) need(!pthread_create(threads + i, 0, run, (void *)(intptr_t)(first + i)), "thread");
    for (int i = 0; i < count; i++) pthread_join(threads[i], 0);
}

/* Each asks until the time is over. A line for each: its answers, and the longest that it waited for one. */
static void ask_for(int port, int connections, double seconds) {
    join_hub(port, connections);
    deadline = now() + seconds;
    together(0, connections, ask_on);
    for (int i = 0; i < connections; i++) printf("%ld %.6f\n", answers[i], greatest[i]);
}

/* So many bursts of 2 to all connections, which ask once each, or those that begin within so many seconds. How long the
   longest took until all were told, how many clients it had, and how many bursts there were. */
static void ask_in_bursts(int port, int connections, int bursts, double seconds) {
    double longest = 0, end = now() + seconds;
    int clients = 0, done = 0;
    join_hub(port, connections);
    srand(1);
    for (; done < bursts && now() < end; done++) {
        int count = 2 + rand() % (connections - 1);
        double began = now();
        together(0, count, ask_once);
        double took = now() - began;
        if (took > longest) longest = took, clients = count;
    }
    printf("%.6f %d %d\n", longest, clients, done);
}

int main(int count, char **args) {
    need(count == 5 || count == 6, "four words, or five");
    int port = atoi(args[2]);
    double number = atof(args[4]);
    if (!strcmp(args[1], "board")) be_board(port, 1e-3 * atof(args[3]), (long)number);
    if (!strcmp(args[1], "pings")) ask_board(port, atoi(args[3]), number);
    if (!strcmp(args[1], "clients")) ask_for(port, atoi(args[3]), number);
    if (!strcmp(args[1], "bursts")) ask_in_bursts(port, atoi(args[3]), (int)number, atof(args[5]));
    return 0;
}
