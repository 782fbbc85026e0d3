/* Words as bytes, high byte first, and bytes of a stream: for the programs in C here. */
#include <arpa/inet.h>
#include <stdint.h>
#include <string.h>
#include <unistd.h>

static uint32_t word(const unsigned char *at) {
    uint32_t raw;
    memcpy(&raw, at, 4);
    return ntohl(raw);
}

static void put(unsigned char *at, uint32_t value) {
    uint32_t raw = htonl(value);
    memcpy(at, &raw, 4);
}

/* takes so many bytes from a stream, or answers 0 where it ends before */
__attribute__((unused)) static int take(int fd, unsigned char *into, int count) {
    for (int got = 0; got < count;) {
        int more = read(fd, into + got, count - got);
        if (more <= 0) return 0;
        got += more;
    }
    return 1;
}
