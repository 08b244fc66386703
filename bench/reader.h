/* The four states of listening in plain C: what the yardsticks beside it share. */
#include "addresses.h"
#include "check.h"
#include <stdint.h>

enum { SEEKING, DELIMITED, INSIDE, HELD };
enum { LONGEST_BODY = 255, QUIET = -1 };

/* The body just heard stands at the front of `body` until the next byte. */
struct reader {
    uint64_t wire;
    unsigned kept, state;
    unsigned char body[LONGEST_BODY];
};

/* 1, 4, 5 of a body that ended, in this order; 0 of a good one */
static int judged(const unsigned char *body, unsigned kept) {
    if (kept < 3 || (body[0] == 0 && kept < 6)) return 1;
    if (feed_all(0, body, kept) != 0) return 4;
    return body[0] <= HIGHEST_SHORT ? 0 : 5;
}

static int keep(struct reader *reader, int byte) {
    if (reader->kept == LONGEST_BODY) {
        reader->state = SEEKING;
        return 2;
    }
    reader->body[reader->kept++] = (unsigned char)byte;
    reader->state = INSIDE;
    return QUIET;
}

/* One byte: QUIET, 0 for a frame, or the number of a refusal. The caller counts the wire. */
static int hear(struct reader *reader, int byte) {
    switch (reader->state) {
    case SEEKING:
        if (byte == 0xFF) reader->state = DELIMITED;
        return QUIET;
    case DELIMITED:
        reader->kept = 0;
        if (byte == 0xFF) return QUIET;
        if (byte != 0xFE) return keep(reader, byte);
        reader->state = SEEKING;
        return QUIET;
    case INSIDE:
        if (byte != 0xFF) return keep(reader, byte);
        reader->state = HELD;
        return QUIET;
    default:
        if (byte == 0xFE) return keep(reader, 0xFF);
        reader->state = byte == 0xFF ? DELIMITED : SEEKING;
        return byte == 0xFF ? judged(reader->body, reader->kept) : 3;
    }
}
