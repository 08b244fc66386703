/* The listing once more in plain C: the yardstick that bench/run counts the proved one against. It reads a capture from standard input and
   writes the listing of replies, of a line of the family that the argument names (000, 001 or 002; 002 where there is none). */
#include "reader.h"
#include "replies.h"
#include <string.h>
#include <unistd.h>

enum { BLOCK = 65536, LONGEST_LINE = 85 };

static unsigned char block[BLOCK], page[BLOCK];
static size_t used;
static uint64_t lines, weights, refusals;
static enum family family = OF_002;

static void flush(void) {
    for (size_t done = 0; done < used;) {
        ssize_t put = write(1, page + done, used - done);
        if (put <= 0) _exit(1);
        done += (size_t)put;
    }
    used = 0;
}

static void text(const char *words) {
    size_t length = strlen(words);
    memcpy(page + used, words, length);
    used += length;
}

static void decimal(uint64_t number) {
    unsigned char digits[20];
    unsigned at = sizeof digits;
    do digits[--at] = '0' + number % 10; while (number /= 10);
    memcpy(page + used, digits + at, sizeof digits - at);
    used += sizeof digits - at;
}

static void letter(int byte) { page[used++] = (unsigned char)byte; }

static void address(const unsigned char *body) {
    if (body[0] != 0) {
        decimal(body[0]);
        return;
    }
    text("0:");
    decimal(body[1] | body[2] << 8 | (uint64_t)body[3] << 16);
}

static void two_digits(int byte) {
    letter('0' + (byte >> 4));
    letter('0' + (byte & 15));
}

static void refused(int number) {
    refusals++;
    text(" refused ");
    decimal((uint64_t)number);
}

static void weighed(const unsigned char *body, int code, const unsigned char *data) {
    weights++;
    text(code == 0xC3 ? " weight gross " : " weight net ");
    address(body);
    text(data[3] & 0x80 ? " - " : " + ");
    if (data[3] & 0x08) text("------"); /* an overloaded bridge has no weight */
    else for (int at = 2; at >= 0; at--) two_digits(data[at]);
    const char marks[] = {' ', (char)('0' + (data[3] & 7)), ' ', (char)('0' + (data[3] >> 4 & 1)), ' ', (char)('0' + (data[3] >> 3 & 1))};
    memcpy(page + used, marks, sizeof marks);
    used += sizeof marks;
    if (family == OF_001) text(data[3] & 0x20 ? " scale1" : " scale0");
    else text(data[3] & 0x20 ? " net" : " gross");
}

static void told(int number, const unsigned char *body, unsigned kept) {
    if (sizeof page - used < LONGEST_LINE) flush();
    decimal(++lines);
    unsigned code_at = body[0] == 0 ? 4 : 1;
    const unsigned char *data = body + code_at + 1;
    if (number == 0) number = judged_reply(family, body[code_at], data, kept - code_at - 2);
    if (number != 0) refused(number);
    else if (body[code_at] == 0xC2 || body[code_at] == 0xC3) weighed(body, body[code_at], data);
    else {
        text(" message ");
        address(body);
        letter(' ');
        letter("0123456789ABCDEF"[body[code_at] >> 4]);
        letter("0123456789ABCDEF"[body[code_at] & 15]);
    }
    letter('\n');
}

int main(int count, char **words) {
    if (count > 1) family = OF_000 + (words[1][2] - '0');
    struct reader reader = {0};
    ssize_t got;
    while ((got = read(0, block, sizeof block)) > 0) {
        for (ssize_t at = 0; at < got; at++) {
            int number = hear(&reader, block[at]);
            if (number != QUIET) told(number, reader.body, reader.kept);
        }
        if (got < BLOCK) flush();
    }
    if (got < 0) return 1;
    if (sizeof page - used < LONGEST_LINE) flush();
    text("total ");
    decimal(lines);
    text(" weights ");
    decimal(weights);
    text(" refused ");
    decimal(refusals);
    text("\n");
    flush();
    return 0;
}
