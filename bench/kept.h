/* What the hub in C keeps to its end with --keep, for plain_lane.h: all that the definitions of the proved hub speak
   of. Of a simulated link every datagram, as bytes, and which of them the hub heard; of its board every body that it
   executed; of a lane an entry for each body that was planned, asked and taken, and what became of it. Bytes and words
   stand behind one another in lists that only grow, and what they belong to says where. */
#include <stddef.h>
#include <stdint.h>
#include <stdlib.h>
#include <string.h>

static void need(int holds, const char *what);

struct list { void *items; size_t count, room; };

/* where bytes or words stand in their list */
struct span { size_t first; int count; };

struct kept_datagram { struct span bytes; uint64_t birth; int is_for_board; };
enum entry_kind { PLANNED, ASKED, TAKEN };
struct kept_entry { enum entry_kind kind; int client; uint64_t seq, ask, give_ups; struct span body; };
struct kept_outcome { int outcome; uint64_t place; struct span reply; };

struct kept {
    struct list bytes, datagrams, heard; /* of the link */
    struct list executed;                /* of the board: where the words of each body stand */
    struct list entries, outcomes;       /* of the lane: outcomes in the order in which they were asked */
    struct list words;
};

/* room for more items of a size at the end of a list, which has them then */
static void *extend(struct list *list, size_t more, size_t size) {
    if (list->count + more > list->room) {
        size_t room = 2 * list->room + more + 64;
        void *items = realloc(list->items, room * size);
        need(items != 0, "no memory");
        list->items = items;
        list->room = room;
    }
    list->count += more;
    return (char *)list->items + (list->count - more) * size;
}

static struct span keep_bytes(struct kept *kept, const unsigned char *bytes, int length) {
    struct span span = {kept->bytes.count, length};
    memcpy(extend(&kept->bytes, length, 1), bytes, length);
    return span;
}

static struct span keep_words(struct kept *kept, const unsigned char *bytes, int length) {
    struct span span = {kept->words.count, length / 4};
    uint32_t *words = extend(&kept->words, length / 4, sizeof *words);
    for (int i = 0; i < length / 4; i++) words[i] = word(bytes + 4 * i);
    return span;
}

static void keep_datagram(struct kept *kept, int is_for_board, uint64_t birth, const unsigned char *bytes, int length) {
    struct span span = keep_bytes(kept, bytes, length);
    struct kept_datagram *datagram = extend(&kept->datagrams, 1, sizeof *datagram);
    *datagram = (struct kept_datagram){span, birth, is_for_board};
}

static void keep_heard(struct kept *kept, uint64_t number) {
    *(uint64_t *)extend(&kept->heard, 1, sizeof number) = number;
}

static void keep_executed(struct kept *kept, const unsigned char *body, int length) {
    struct span span = keep_words(kept, body, length);
    *(struct span *)extend(&kept->executed, 1, sizeof span) = span;
}

static void keep_entry(struct kept *kept, struct kept_entry entry) {
    *(struct kept_entry *)extend(&kept->entries, 1, sizeof entry) = entry;
}

/* a client plans a body and asks it: the number under which its outcome is kept */
static uint64_t keep_ask(struct kept *kept, int client, uint64_t seq, uint64_t give_ups, const unsigned char *body,
                         int length) {
    uint64_t ask = kept->outcomes.count;
    keep_entry(kept, (struct kept_entry){PLANNED, client, seq, ask, 0, keep_words(kept, body, length)});
    keep_entry(kept, (struct kept_entry){ASKED, client, seq, ask, give_ups, {0, 0}});
    memset(extend(&kept->outcomes, 1, sizeof(struct kept_outcome)), 0, sizeof(struct kept_outcome));
    return ask;
}

static void keep_outcome(struct kept *kept, uint64_t ask, int outcome, uint64_t place, const unsigned char *reply,
                         int length) {
    struct kept_outcome *at = (struct kept_outcome *)kept->outcomes.items + ask;
    *at = (struct kept_outcome){outcome, place, keep_words(kept, reply, length)};
}
