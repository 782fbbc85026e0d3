/* The lane of one board, for plain_hub.c: a link, which is simulated with noise or a socket, the board behind a
   simulated one, and the hub's side of the board. Whoever calls `perform` waits, and pumps the lane while nobody else
   does. Where `keeps` is set, all that happens is kept to the end. */
#include <arpa/inet.h>
#include <poll.h>
#include <pthread.h>
#include <stddef.h>
#include <stdint.h>
#include <stdio.h>
#include <stdlib.h>
#include <string.h>
#include <sys/socket.h>

#include "bytes.h"
#include "kept.h"

enum {
    MTU = 1500, PACKET = MTU - 28, BUFFERS = 16, CELLS = 256, WINDOW = 16, ROUNDS = 255, MOST_BOARDS = 16,
    IDENTIFIERS = 65535, LIFETIME = 32768, QUEUE = 256, LATE = 16, STATUS = 64, WAIT = 1000,
    MOST_CLIENTS = 64
};
enum { READ, WRITE, READ_PORT, WRITE_PORT, RMW_BITS, RMW_SUM };
enum { CONTROL, STATUS_PACKET, RESEND };
enum outcome { WAITING, REPLIED, TIMED_OUT, UNSENT };

static void need(int holds, const char *what) {
    if (!holds) {
        fprintf(stderr, "plain_hub: %s\n", what);
        exit(1);
    }
}

static uint32_t header(int id, int type) {
    return 0x200000f0u | (uint32_t)id << 8 | (uint32_t)type;
}

/* the identifier and the type of a packet, or -1 where it is none in big-endian order */
static int type_of(const unsigned char *packet, int length, int *id) {
    uint32_t first = length >= 4 && length % 4 == 0 ? word(packet) : 0;
    *id = first >> 8 & 0xffff;
    return (first & 0xff0000f0) == 0x200000f0 ? (int)(first & 15) : -1;
}

static int id_at(int first, uint64_t place) {
    return (int)((first + place - 2) % IDENTIFIERS) + 1;
}

/* ---- what belongs to one board */

struct datagram {
    uint64_t birth, due, number;
    int is_for_board, length;
    unsigned char bytes[PACKET];
};

/* one packet of a client: its request and what came of it; its number among those of its client and of the lane */
struct body {
    enum outcome outcome;
    int length, reply_length;
    uint64_t place, seq, ask;
    unsigned char request[PACKET], reply[PACKET];
};

/* a place, in its slot of the window */
struct place {
    int is_open, wants_resend, wants_control, length;
    struct body *body;
    unsigned char packet[PACKET];
};

struct lane {
    pthread_mutex_t lock;
    /* the simulated link: datagrams that wait to be heard, those that are late, and the noise; or a socket */
    struct datagram queue[QUEUE], late[LATE];
    uint64_t queue_front, queue_back, numbers, first_sends, noise_state;
    int late_count, is_noisy, fd;
    struct datagram heard;
    /* the board */
    uint32_t cells[CELLS];
    int expected, executed;
    struct { int id, length; unsigned char bytes[PACKET]; } replies[BUFFERS];
    /* the hub */
    struct body **asked;
    uint64_t asked_front, asked_back, asked_room;
    struct place places[WINDOW];
    uint64_t sent, low, replied, give_ups;
    int first, wants_status, round_number, gave_up;
    uint64_t asked_of[MOST_CLIENTS];
    struct kept kept;
};

static struct lane *lanes;
static int boards, keeps;

/* ---- the link */

enum { NOISE_INCREMENT = 54 << 1 | 1 };

static uint32_t noise(struct lane *lane) {
    uint64_t state = lane->noise_state;
    lane->noise_state = state * 6364136223846793005u + NOISE_INCREMENT;
    uint32_t shifted = (uint32_t)((state >> 18 ^ state) >> 27), turn = state >> 59;
    return shifted >> turn | shifted << (-turn & 31);
}

static void copy(struct datagram *to, const struct datagram *from) {
    memcpy(to, from, offsetof(struct datagram, bytes) + from->length);
}

static void arrive(struct lane *lane, const struct datagram *it) {
    need(lane->queue_back - lane->queue_front < QUEUE, "the queue is full");
    copy(lane->queue + lane->queue_back++ % QUEUE, it);
}

static void send_datagram(struct lane *lane, int is_for_board, const unsigned char *bytes, int length) {
    static const char fates[] = "ddddddddddllrr25";
    if (lane->fd >= 0) {
        need(send(lane->fd, bytes, length, 0) == length, "a datagram is not sent");
        return;
    }
    struct datagram it;
    it.birth = lane->first_sends;
    it.number = lane->numbers;
    it.is_for_board = is_for_board;
    it.length = length;
    memcpy(it.bytes, bytes, length);
    if (keeps) keep_datagram(&lane->kept, is_for_board, it.birth, bytes, length);
    char fate = lane->is_noisy ? fates[noise(lane) % 16] : 'd';
    lane->numbers++;
    if (fate == 'd' || fate == 'r') arrive(lane, &it);
    if (fate == 'r') arrive(lane, &it);
    if (fate == '2' || fate == '5') {
        need(lane->late_count < LATE, "too many are late");
        it.due = lane->numbers + (fate - '0');
        copy(lane->late + lane->late_count++, &it);
    }
    int kept = 0;
    for (int i = 0; i < lane->late_count; i++) {
        if (lane->late[i].due == lane->numbers) arrive(lane, lane->late + i);
        else if (kept++ != i) copy(lane->late + kept - 1, lane->late + i);
    }
    lane->late_count = kept;
}

/* ---- the board */

/* executes a transaction: the words that were done, and the info code */
static int transact(uint32_t *cells, int type, uint32_t address, int count, const unsigned char *in,
                    unsigned char *out, int *code) {
    int is_port = type == READ_PORT || type == WRITE_PORT, is_read = type == READ || type == READ_PORT;
    for (int done = 0; done < count; done++) {
        uint32_t at = is_port ? address : address + done;
        if (at >= CELLS) {
            *code = type == WRITE || type == WRITE_PORT ? 5 : 4;
            return done;
        }
        if (type == WRITE || type == WRITE_PORT) {
            cells[at] = word(in + 4 * done);
            continue;
        }
        put(out + 4 * done, cells[at]);
        if (is_read) continue;
        cells[at] = type == RMW_SUM ? cells[at] + word(in) : (cells[at] & word(in)) | word(in + 4);
    }
    *code = 0;
    return count;
}

/* executes a body: the bytes of its reply */
static int execute(struct lane *lane, const unsigned char *in, int length, unsigned char *out) {
    int used = 0, made = 0, code = 0;
    while (used < length && code == 0) {
        uint32_t first = word(in + used);
        int type = first >> 4 & 15, count = first >> 8 & 0xff;
        int is_write = type == WRITE || type == WRITE_PORT, is_rmw = type == RMW_BITS || type == RMW_SUM;
        int words = is_write ? count : type == RMW_BITS ? 2 : type == RMW_SUM;
        if (first >> 28 != 2 || (first & 15) != 15 || type > RMW_SUM || (is_rmw && count != 1)
            || length - used < 8 + 4 * words) {
            put(out + made, (first & 0x0fff0000) | 0x20000001);
            return made + 4;
        }
        uint32_t address = word(in + used + 4);
        int done = transact(lane->cells, type, address, count, in + used + 8, out + made + 4, &code);
        put(out + made, (first & 0xffff00f0) | (uint32_t)done << 8 | (uint32_t)code);
        made += is_write ? 4 : 4 + 4 * done;
        used += 8 + 4 * words;
    }
    return made;
}

static void board_hear(struct lane *lane, const unsigned char *packet, int length) {
    unsigned char out[PACKET];
    int id, type = type_of(packet, length, &id);
    if (type == STATUS_PACKET && id == 0 && length == STATUS) {
        memset(out, 0, STATUS);
        put(out, header(0, STATUS_PACKET));
        put(out + 4, MTU);
        put(out + 8, BUFFERS);
        put(out + 12, header(lane->expected, CONTROL));
        send_datagram(lane, 0, out, STATUS);
    } else if (type == RESEND) {
        for (int i = 0; i < BUFFERS; i++)
            if (lane->replies[i].length && lane->replies[i].id == id)
                send_datagram(lane, 0, lane->replies[i].bytes, lane->replies[i].length);
    } else if (type == CONTROL && id == lane->expected) {
        int made = 4 + execute(lane, packet + 4, length - 4, out + 4), slot = lane->executed++ % BUFFERS;
        if (keeps) keep_executed(&lane->kept, packet + 4, length - 4);
        put(out, header(id, CONTROL));
        memcpy(lane->replies[slot].bytes, out, made);
        lane->replies[slot].id = id;
        lane->replies[slot].length = made;
        lane->expected = lane->expected % IDENTIFIERS + 1;
        send_datagram(lane, 0, out, made);
    }
}

/* the next datagram for the hub, or nothing where all is quiet */
static const struct datagram *receive(struct lane *lane) {
    if (lane->fd >= 0) {
        struct pollfd ready = {.fd = lane->fd, .events = POLLIN};
        if (poll(&ready, 1, WAIT) <= 0) return 0;
        lane->heard.length = recv(lane->fd, lane->heard.bytes, PACKET, 0);
        return lane->heard.length < 0 ? 0 : &lane->heard;
    }
    while (lane->queue_front < lane->queue_back) {
        const struct datagram *it = lane->queue + lane->queue_front++ % QUEUE;
        if (lane->first_sends - it->birth > LIFETIME) continue;
        if (!it->is_for_board) {
            if (keeps) keep_heard(&lane->kept, it->number);
            return it;
        }
        board_hear(lane, it->bytes, it->length);
    }
    return 0;
}

/* ---- the hub */

static void ask_status(struct lane *lane) {
    unsigned char packet[STATUS] = {0};
    put(packet, header(0, STATUS_PACKET));
    send_datagram(lane, 1, packet, STATUS);
}

static void send_body(struct lane *lane, struct body *body) {
    struct place *place = lane->places + ++lane->sent % WINDOW;
    put(place->packet, header(id_at(lane->first, lane->sent), CONTROL));
    memcpy(place->packet + 4, body->request, body->length);
    place->length = 4 + body->length;
    place->body = body;
    place->is_open = 1;
    place->wants_resend = place->wants_control = 0;
    body->place = lane->sent;
    lane->first_sends++;
    send_datagram(lane, 1, place->packet, place->length);
}

static int send_next(struct lane *lane) {
    if (lane->wants_status) {
        lane->wants_status = 0;
        ask_status(lane);
        return 1;
    }
    for (uint64_t at = lane->low; at <= lane->sent; at++) {
        struct place *place = lane->places + at % WINDOW;
        unsigned char packet[4];
        if (place->wants_resend) {
            place->wants_resend = 0;
            put(packet, header(id_at(lane->first, at), RESEND));
            send_datagram(lane, 1, packet, 4);
            return 1;
        }
        if (place->wants_control) {
            place->wants_control = 0;
            send_datagram(lane, 1, place->packet, place->length);
            return 1;
        }
    }
    if (lane->asked_front == lane->asked_back || lane->sent + 2 - lane->low > WINDOW) return 0;
    send_body(lane, lane->asked[lane->asked_front++ % lane->asked_room]);
    return 1;
}

/* something came of a body */
static void settle(struct lane *lane, struct body *body, enum outcome outcome) {
    body->outcome = outcome;
    if (!keeps) return;
    uint64_t place = outcome == UNSENT ? 0 : body->place;
    int length = outcome == REPLIED ? body->reply_length : 0;
    keep_outcome(&lane->kept, body->ask, outcome, place, body->reply, length);
}

static void hear_reply(struct lane *lane, int id, const unsigned char *reply, int length) {
    for (uint64_t at = lane->low; at <= lane->sent; at++) {
        struct place *place = lane->places + at % WINDOW;
        if (!place->is_open || id_at(lane->first, at) != id) continue;
        place->is_open = place->wants_resend = place->wants_control = 0;
        lane->round_number = 0;
        if (place->body) {
            memcpy(place->body->reply, reply, length);
            place->body->reply_length = length;
            settle(lane, place->body, REPLIED);
            lane->replied++;
        }
        break;
    }
    while (lane->low <= lane->sent && !lane->places[lane->low % WINDOW].is_open) lane->low++;
}

static void hear_status(struct lane *lane, int next) {
    if (lane->round_number == 0) return;
    for (uint64_t at = lane->low; at <= lane->sent + 1; at++) {
        if (id_at(lane->first, at) != next) continue;
        for (uint64_t each = lane->low; each <= lane->sent; each++) {
            struct place *place = lane->places + each % WINDOW;
            if (!place->is_open) continue;
            if (each < at) place->wants_resend = 1;
            else place->wants_control = 1;
        }
    }
}

static void hear_quiet(struct lane *lane) {
    if (lane->round_number < ROUNDS) {
        lane->round_number++;
        lane->wants_status = 1;
        return;
    }
    for (uint64_t at = lane->low; at <= lane->sent; at++) {
        struct place *place = lane->places + at % WINDOW;
        if (place->body && place->is_open) settle(lane, place->body, TIMED_OUT);
        place->body = 0;
        place->wants_resend = place->wants_control = 0;
    }
    while (lane->asked_front < lane->asked_back)
        settle(lane, lane->asked[lane->asked_front++ % lane->asked_room], UNSENT);
    lane->wants_status = lane->round_number = 0;
    lane->gave_up = 1;
    lane->give_ups++;
}

/* all that is to be sent, and then one datagram */
static void pump(struct lane *lane) {
    while (send_next(lane));
    const struct datagram *heard = receive(lane);
    if (!heard) {
        hear_quiet(lane);
        return;
    }
    int id, type = type_of(heard->bytes, heard->length, &id);
    if (type == CONTROL) hear_reply(lane, id, heard->bytes + 4, heard->length - 4);
    if (type == STATUS_PACKET && heard->length == STATUS) hear_status(lane, word(heard->bytes + 12) >> 8 & 0xffff);
}

/* room for more bodies that are asked and not yet sent: twice as much as there was */
static void make_room(struct lane *lane) {
    uint64_t room = lane->asked_room ? 2 * lane->asked_room : WINDOW;
    struct body **asked = malloc(room * sizeof *asked);
    need(asked != 0, "no memory");
    for (uint64_t i = lane->asked_front; i < lane->asked_back; i++)
        asked[i % room] = lane->asked[i % lane->asked_room];
    free(lane->asked);
    lane->asked = asked;
    lane->asked_room = room;
}

static void ask(struct lane *lane, int client, struct body *body) {
    body->outcome = WAITING;
    body->seq = lane->asked_of[client]++;
    if (keeps) body->ask = keep_ask(&lane->kept, client, body->seq, lane->give_ups, body->request, body->length);
    if (lane->asked_back - lane->asked_front == lane->asked_room) make_room(lane);
    lane->asked[lane->asked_back++ % lane->asked_room] = body;
    for (uint64_t at = lane->low; lane->gave_up && at <= lane->sent; at++)
        lane->places[at % WINDOW].wants_control = lane->places[at % WINDOW].is_open;
    lane->gave_up = 0;
}

static void take_outcome(struct lane *lane, int client, const struct body *body) {
    if (keeps)
        keep_entry(&lane->kept, (struct kept_entry){TAKEN, client, body->seq, body->ask, lane->give_ups, {0, 0}});
}

/* a client asks for bodies, one after the other, and waits until something came of each */
static void perform(struct lane *lane, int client, struct body *bodies, int count) {
    pthread_mutex_lock(&lane->lock);
    for (int i = 0; i < count; i++) ask(lane, client, bodies + i);
    pthread_mutex_unlock(&lane->lock);
    for (int settled = 0; settled < count;) {
        pthread_mutex_lock(&lane->lock);
        if (bodies[settled].outcome == WAITING) pump(lane);
        while (settled < count && bodies[settled].outcome != WAITING) take_outcome(lane, client, bodies + settled++);
        pthread_mutex_unlock(&lane->lock);
    }
}

static int greet(struct lane *lane) {
    for (int i = 0; i < ROUNDS; i++) {
        ask_status(lane);
        for (const struct datagram *heard; (heard = receive(lane));) {
            int id, type = type_of(heard->bytes, heard->length, &id);
            if (type != STATUS_PACKET || heard->length != STATUS) continue;
            lane->first = word(heard->bytes + 12) >> 8 & 0xffff;
            return word(heard->bytes + 4) == MTU && word(heard->bytes + 8) == BUFFERS;
        }
    }
    return 0;
}

/* so many boards with the noise from this seed on, or none where it is negative; or one on a port */
static void open_lanes(int count, long seed, int fd) {
    boards = count;
    lanes = calloc(count, sizeof *lanes);
    need(count >= 1 && count <= MOST_BOARDS && lanes != 0, "boards");
    for (int i = 0; i < count; i++) {
        struct lane *lane = lanes + i;
        pthread_mutex_init(&lane->lock, 0);
        lane->expected = lane->low = 1;
        lane->fd = fd;
        lane->is_noisy = seed >= 0;
        lane->noise_state = seed + i + NOISE_INCREMENT;
        noise(lane);
        need(greet(lane), "the board is silent");
    }
}

/* whether all is kept that there was; over a socket no air and no board is seen */
static int has_kept_all(const struct lane *lane) {
    const struct kept *kept = &lane->kept;
    return kept->datagrams.count == lane->numbers && kept->executed.count == (size_t)lane->executed
        && kept->outcomes.count == lane->asked_back && kept->entries.count == 3 * kept->outcomes.count;
}
