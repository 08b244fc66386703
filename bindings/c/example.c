/* A poller's loop, with a file in place of a port: the capture that its argument names, or standard input without one, is listed as
 * `bin/quay list` lists it. The family of its terminals is said by `--family`, and is 002 without it, as there. It holds one block and the reader's
 * 255 bytes, however long the capture is.
 *
 * What cannot be opened, read or written is said on standard error; then no total line is printed, so that a cut listing never looks whole,
 * and the exit status is 1. */
#define _POSIX_C_SOURCE 200809L

#include "quay.h"

#include <errno.h>
#include <fcntl.h>
#include <stdbool.h>
#include <stdio.h>
#include <string.h>
#include <unistd.h>

enum { BLOCK_SIZE = 65536 };

/* All that is known between two blocks. */
struct listing {
    uint8_t family; /* a line has one */
    QuayPlace place;
    uint8_t body[QUAY_BODY_ROOM];
    uint64_t events, weights, refused;
};

static bool complain(const char *about, const char *reason)
{
    fprintf(stderr, "example: %s: %s\n", about, reason);
    return false;
}

static bool print(const uint8_t *line, size_t length)
{
    if (fwrite(line, 1, length, stdout) == length)
        return true;
    return complain("standard output", strerror(errno));
}

static bool show(void)
{
    if (fflush(stdout) == 0)
        return true;
    return complain("standard output", strerror(errno));
}

static bool list_event(struct listing *listing, QuayEvent event)
{
    uint8_t line[QUAY_LONGEST_LINE];
    QuayListed listed =
        quay_list_event(listing->events + 1, listing->family, event, listing->body, sizeof listing->body, line, sizeof line);
    if (listed.refusal != QUAY_NOT_REFUSED)
        return complain("the library", "refused to list an event of its own");
    listing->events++;
    listing->weights += listed.entry == QUAY_ENTRY_WEIGHT;
    listing->refused += listed.entry == QUAY_ENTRY_REFUSED;
    return print(line, listed.length);
}

static bool list_block(struct listing *listing, const uint8_t *block, size_t length)
{
    size_t at = 0;
    while (at < length) {
        QuayWent went = quay_listen(listing->place, block + at, length - at, listing->body);
        if (went.refusal != QUAY_NOT_REFUSED)
            return complain("the library", "refused a place of its own");
        listing->place = went.place;
        at += went.used;
        if (went.event.kind != QUAY_EVENT_NOTHING && !list_event(listing, went.event))
            return false;
    }
    return true;
}

/* A signal may break a read off before its first byte; that is no end and no failure. */
static ssize_t read_some(int capture, uint8_t *block)
{
    ssize_t got;
    do
        got = read(capture, block, BLOCK_SIZE);
    while (got < 0 && errno == EINTR);
    return got;
}

static bool list_all(struct listing *listing, int capture, const char *name)
{
    static uint8_t block[BLOCK_SIZE];
    for (;;) {
        ssize_t got = read_some(capture, block);
        if (got == 0)
            return true;
        if (got < 0)
            return complain(name, strerror(errno));
        if (!list_block(listing, block, (size_t)got))
            return false;
        /* A short read shows all there is: the line may be silent for long. */
        if (got < BLOCK_SIZE && !show())
            return false;
    }
}

static bool list_total(const struct listing *listing)
{
    uint8_t line[QUAY_LONGEST_LINE];
    QuayWritten written = quay_list_total(listing->events, listing->weights, listing->refused, line, sizeof line);
    return print(line, written.length);
}

static bool list_capture(uint8_t family, int capture, const char *name)
{
    struct listing listing = {.family = family, .place = {.phase = QUAY_SEEKING}};
    bool whole = list_all(&listing, capture, name) && list_total(&listing);
    return show() && whole;
}

static bool list_file(uint8_t family, const char *name)
{
    int capture = open(name, O_RDONLY);
    if (capture < 0)
        return complain(name, strerror(errno));
    bool whole = list_capture(family, capture, name);
    close(capture);
    return whole;
}

/* The family of a document's number. No capture is of the plain family, so that one stands for every other word. */
static uint8_t family_of(const char *document)
{
    static const struct {
        const char *document;
        uint8_t family;
    } known[] = {{"000", QUAY_FAMILY_000}, {"001", QUAY_FAMILY_001}, {"002", QUAY_FAMILY_002}};
    for (size_t each = 0; each < sizeof known / sizeof known[0]; each++) {
        if (strcmp(known[each].document, document) == 0)
            return known[each].family;
    }
    return QUAY_FAMILY_PLAIN;
}

int main(int count, char **words)
{
    uint8_t family = QUAY_FAMILY_002;
    int next = 1;
    if (count > 1 && strcmp(words[1], "--family") == 0) {
        family = count > 2 ? family_of(words[2]) : QUAY_FAMILY_PLAIN;
        next = 3;
    }
    if (family == QUAY_FAMILY_PLAIN || count > next + 1) {
        fprintf(stderr, "usage: %s [--family 000|001|002] [CAPTURE]    lists a capture, or standard input; without a family it is 002\n", words[0]);
        return 1;
    }
    bool whole = count > next ? list_file(family, words[next]) : list_capture(family, STDIN_FILENO, "standard input");
    return whole ? 0 : 1;
}
