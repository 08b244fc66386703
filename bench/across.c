/* A block fed across the C interface: standard input through quay_listen of libquay.a, with the counts and the sum that crates/meter tells. */
#include "quay.h"
#include <stdio.h>
#include <unistd.h>

enum { BLOCK = 56000 };

static QuayPlace place;
static uint8_t body[QUAY_BODY_ROOM];
static uint64_t good, refused, sum;

static void count(QuayEvent event) {
    if (event.kind == QUAY_EVENT_NOTHING) return;
    if (event.kind == QUAY_EVENT_FRAME) good++;
    else refused++;
    sum += event.wire + event.kept + event.refusal;
}

static int listen_all(const uint8_t *block, size_t length) {
    for (size_t at = 0; at < length;) {
        QuayWent went = quay_listen(place, block + at, length - at, body);
        if (went.refusal != QUAY_NOT_REFUSED) return 0;
        place = went.place;
        at += went.used;
        count(went.event);
    }
    return 1;
}

int main(void) {
    static uint8_t block[BLOCK];
    for (ssize_t got; (got = read(0, block, sizeof block)) > 0;) {
        if (!listen_all(block, (size_t)got)) return fputs("across: quay_listen refused its place\n", stderr), 1;
    }
    printf("good %llu refused %llu sum %llu\n", (unsigned long long)good, (unsigned long long)refused, (unsigned long long)sum);
    return 0;
}
