/* A hub as one would write it by hand, with no proof, for the times of `ipbus` beside it. It prints the same text. With
   --keep in front of the other words it keeps to its end all that the definitions of the proved hub speak of (kept.h).

     plain_hub [--keep] load COUNT               the work of `ipbus load COUNT`
     plain_hub [--keep] run CLIENTS BOARDS READS EACH IN_TURN SEED
         the work of `ipbus run` on a session of so many one-word reads, which the clients share, with a dispatch after
         EACH of them (0: none but the last): client n on board n modulo BOARDS, or on the boards IN_TURN (1); over
         links with the noise SEED, SEED + 1 and so on, or that lose nothing (-1)
     plain_hub [--keep] serve PORT CONNECTIONS UDP_PORT
         the work of `ipbus serve`, at a simulated board, or one on a port (not 0)

   A thread for each client or connection; they share a lane for each board behind a lock. Packets are written and read
   as bytes; a simulated link loses, repeats and delays them by the same noise. Replies are matched by their identifiers
   in a window of 16 packets, and what is lost is asked for again by status packets and re-send requests. */
#include <arpa/inet.h>
#include <netinet/tcp.h>
#include <stdint.h>
#include <stdio.h>
#include <stdlib.h>
#include <string.h>
#include <sys/socket.h>
#include <unistd.h>

#include "plain_lane.h"

enum { LOAD_CLIENTS = 4, READS_OF_A_PACKET = (PACKET / 4 - 1) / 2, READ_ADDRESS = 4 };

/* ---- load */

struct client {
    pthread_t thread;
    int number, fd;
    uint32_t share, done;
    uint64_t total;
    struct result { uint32_t word; int board, index; uint64_t place; } *results;
    struct body *bodies;
};

static struct client clients[MOST_CLIENTS];

/* puts one transaction behind the others of a body */
static unsigned char *put_request(struct body *body, int index, int type, uint32_t address) {
    unsigned char *at = body->request + body->length;
    put(at, 0x2000000f | (uint32_t)index << 16 | 1 << 8 | type << 4);
    put(at + 4, address);
    body->length += 8;
    return at + 8;
}

static void *add_all(void *given) {
    struct client *client = given;
    struct body body;
    for (uint32_t i = 0; i < client->share; i++) {
        body.length = 0;
        put(put_request(&body, 0, RMW_SUM, 0), 1);
        body.length += 4;
        perform(lanes, client->number, &body, 1);
        int is_done = body.outcome == REPLIED && body.reply_length == 8
            && word(body.reply) == (0x20000000 | 1 << 8 | RMW_SUM << 4);
        client->done += is_done;
        client->total += is_done ? word(body.reply + 4) : 0;
    }
    return 0;
}

static void start(int count, void *(*work)(void *)) {
    for (int i = 0; i < count; i++) {
        clients[i].number = i;
        need(pthread_create(&clients[i].thread, 0, work, clients + i) == 0, "no thread");
    }
    for (int i = 0; i < count; i++) pthread_join(clients[i].thread, 0);
}

static int load(uint32_t count) {
    uint64_t done = 0, total = 0;
    open_lanes(1, count, -1);
    for (uint32_t i = 0; i < LOAD_CLIENTS; i++) clients[i].share = (count + LOAD_CLIENTS - 1 - i) / LOAD_CLIENTS;
    start(LOAD_CLIENTS, add_all);
    for (int i = 0; i < LOAD_CLIENTS; i++) {
        done += clients[i].done;
        total += clients[i].total;
    }
    printf("load %u\ndone %llu\nwas total %llu\nplaces %llu\n", count, (unsigned long long)done,
           (unsigned long long)total, (unsigned long long)lanes->sent);
    return done != count;
}

/* ---- run */

static uint32_t reads_of_a_dispatch;
static int goes_in_turn;

/* takes the words of the reads of a body, and says whether all are there */
static int take_words(struct body *body, int board, struct result *results, int count) {
    if (body->outcome != REPLIED || body->reply_length != 8 * count) return 0;
    for (int i = 0; i < count; i++) {
        if (word(body->reply + 8 * i) != (0x20000000 | (uint32_t)i << 16 | 1 << 8)) return 0;
        results[i] = (struct result){word(body->reply + 8 * i + 4), board, i + 1, body->place};
    }
    return 1;
}

static void *read_all(void *given) {
    struct client *client = given;
    uint32_t each = reads_of_a_dispatch ? reads_of_a_dispatch : client->share;
    for (uint32_t done = 0, turn = 0; done < client->share; turn++) {
        uint32_t reads = client->share - done < each ? client->share - done : each;
        int board = (client->number + (goes_in_turn ? turn : 0)) % boards;
        int count = (reads + READS_OF_A_PACKET - 1) / READS_OF_A_PACKET;
        for (uint32_t i = 0; i < reads; i++) {
            struct body *body = client->bodies + i / READS_OF_A_PACKET;
            int index = i % READS_OF_A_PACKET;
            if (index == 0) body->length = 0;
            put_request(body, index, READ, READ_ADDRESS);
        }
        perform(lanes + board, client->number, client->bodies, count);
        for (int i = 0; i < count; i++) {
            uint32_t first = i * READS_OF_A_PACKET, rest = reads - first;
            int here = rest < READS_OF_A_PACKET ? rest : READS_OF_A_PACKET;
            client->done += here * take_words(client->bodies + i, board, client->results + done + first, here);
        }
        done += reads;
    }
    return 0;
}

static int run(int count, int board_count, uint32_t reads, uint32_t each, int in_turn, long seed) {
    uint64_t done = 0;
    need(count >= 1 && count <= MOST_CLIENTS, "clients");
    open_lanes(board_count, seed, -1);
    reads_of_a_dispatch = each;
    goes_in_turn = in_turn;
    for (int i = 0; i < count; i++) {
        struct client *client = clients + i;
        client->share = reads / count;
        uint32_t longest = each ? each : client->share;
        client->results = calloc(client->share, sizeof *client->results);
        client->bodies = calloc(longest / READS_OF_A_PACKET + 1, sizeof *client->bodies);
        need(client->results && client->bodies, "no memory");
    }
    start(count, read_all);
    for (int i = 0; i < count; i++) {
        printf("client %d\n", i + 1);
        for (uint32_t j = 0; j < clients[i].share; j++) {
            struct result *it = clients[i].results + j;
            printf("%u read b%d:id = 0x%08x @%llu.%d\n", j + 1, it->board, it->word, (unsigned long long)it->place,
                   it->index);
        }
        done += clients[i].done;
    }
    for (int i = 0; i < boards; i++)
        printf("board b%d places %llu replied %llu timeout %llu lost 0\n", i, (unsigned long long)lanes[i].sent,
               (unsigned long long)lanes[i].replied, (unsigned long long)(lanes[i].sent - lanes[i].replied));
    return done != (uint64_t)count * (reads / count);
}

/* ---- serve */

static void *serve_one(void *given) {
    struct client *client = given;
    static __thread struct body body;
    unsigned char frame[8 + PACKET], reply[16 + PACKET] = {0};
    while (take(client->fd, frame, 8)) {
        int length = (int)word(frame) - 4, id;
        if (length < 4 || length > PACKET || !take(client->fd, frame + 8, length)) break;
        int board = word(frame + 4), type = type_of(frame + 8, length, &id), made = 0;
        int code = type != CONTROL ? 4 : board >= boards ? 5 : 0;
        if (code == 0) {
            body.length = length - 4;
            memcpy(body.request, frame + 12, body.length);
            perform(lanes + board, client->number, &body, 1);
            code = body.outcome == REPLIED ? 0 : body.outcome == TIMED_OUT ? 1 : 2;
        }
        if (code == 0) {
            put(reply + 12, header(id, CONTROL));
            memcpy(reply + 16, body.reply, body.reply_length);
            made = 4 + body.reply_length;
        }
        put(reply, 8 + made);
        put(reply + 4, board);
        put(reply + 8, (uint32_t)code << 16);
        if (write(client->fd, reply, 12 + made) != 12 + made) break;
        client->done++;
    }
    close(client->fd);
    return 0;
}

static int serve(int port, int count, int udp_port) {
    struct sockaddr_in at = {.sin_family = AF_INET, .sin_port = htons(udp_port)};
    int one = 1, fd = -1, door = socket(AF_INET, SOCK_STREAM, 0);
    at.sin_addr.s_addr = htonl(INADDR_LOOPBACK);
    if (udp_port) {
        fd = socket(AF_INET, SOCK_DGRAM, 0);
        need(connect(fd, (struct sockaddr *)&at, sizeof at) == 0, "the board's port");
    }
    open_lanes(1, -1, fd);
    at.sin_port = htons(port);
    setsockopt(door, SOL_SOCKET, SO_REUSEADDR, &one, sizeof one);
    need(bind(door, (struct sockaddr *)&at, sizeof at) == 0 && listen(door, MOST_CLIENTS) == 0, "the port");
    need(count >= 1 && count <= MOST_CLIENTS, "connections");
    for (int i = 0; i < count; i++) {
        clients[i].number = i;
        clients[i].fd = accept(door, 0, 0);
        need(clients[i].fd >= 0, "accept");
        setsockopt(clients[i].fd, IPPROTO_TCP, TCP_NODELAY, &one, sizeof one);
        need(pthread_create(&clients[i].thread, 0, serve_one, clients + i) == 0, "no thread");
    }
    for (int i = 0; i < count; i++) pthread_join(clients[i].thread, 0);
    for (int i = 0; i < count; i++) printf("connection %d frames %u closed\n", i + 1, clients[i].done);
    printf("board b0 places %llu replied %llu timeout 0 lost 0\n", (unsigned long long)lanes->sent,
           (unsigned long long)lanes->replied);
    return 0;
}

static int work(int count, char **words) {
    const char *what = count > 0 ? words[0] : "";
    long numbers[6] = {0};
    for (int i = 1; i < count && i < 7; i++) numbers[i - 1] = strtol(words[i], 0, 10);
    if (count == 2 && !strcmp(what, "load")) return load(numbers[0]);
    if (count == 7 && !strcmp(what, "run"))
        return run(numbers[0], numbers[1], numbers[2], numbers[3], numbers[4], numbers[5]);
    if (count == 4 && !strcmp(what, "serve")) return serve(numbers[0], numbers[1], numbers[2]);
    need(0, "usage: plain_hub [--keep] load COUNT | run CLIENTS BOARDS READS EACH IN_TURN SEED"
            " | serve PORT COUNT UDP_PORT");
    return 1;
}

int main(int count, char **words) {
    keeps = count > 1 && !strcmp(words[1], "--keep");
    int status = work(count - 1 - keeps, words + 1 + keeps);
    for (int i = 0; keeps && i < boards; i++) need(has_kept_all(lanes + i), "something is not kept");
    return status;
}
