/* Case lines taken apart, bytes lent with guards around them, and answers put together as words. */
#ifndef LINES_H
#define LINES_H

#include <inttypes.h>
#include <stdbool.h>
#include <stdint.h>
#include <stdio.h>
#include <stdlib.h>
#include <string.h>

enum { GUARD = 16, GUARD_BYTE = 0xA5, MOST_LENT = 4 };

/* Bytes of a case as they are lent to the library. */
struct lent {
    uint8_t *bytes;
    size_t length;
    const char *word; /* as the line has them */
    bool to_read;     /* the library may not change them */
};

/* The inputs of a case that are not yet taken, and what was lent so far. */
struct inputs {
    unsigned long line;
    const char *next;
    uint8_t *memory; /* room for everything that a line can lend */
    struct lent lent[MOST_LENT];
    size_t count;
};

/* Words of an answer. The room has place for the longest that a line of its length can have. */
struct answer {
    char *text;
    size_t length, room;
};

/* A line that is not a case is never skipped. */
_Noreturn static void malformed(unsigned long line, const char *why)
{
    fprintf(stderr, "line %lu: malformed: %s\n", line, why);
    exit(1);
}

static void *room_of(void *old, size_t size)
{
    void *room = realloc(old, size);
    if (room != NULL)
        return room;
    fprintf(stderr, "no memory for a line\n");
    exit(1);
}

/* ---- inputs */

static const char *take_word(struct inputs *in, size_t *length)
{
    const char *word = in->next;
    *length = strcspn(word, " ");
    if (*length == 0)
        malformed(in->line, "too few words, or two blanks");
    in->next = word + *length;
    if (*in->next == ' ')
        in->next++;
    return word;
}

static uint64_t take_number(struct inputs *in, uint64_t highest)
{
    size_t length;
    const char *word = take_word(in, &length);
    uint64_t number = 0;
    for (size_t at = 0; at < length; at++) {
        uint64_t digit = (uint64_t)(word[at] - '0');
        if (word[at] < '0' || word[at] > '9' || number > (highest - digit) / 10)
            malformed(in->line, "a word that is no number of its field");
        number = number * 10 + digit;
    }
    return number;
}

static uint8_t take_byte(struct inputs *in)
{
    return (uint8_t)take_number(in, UINT8_MAX);
}

static unsigned half_of(const struct inputs *in, char letter)
{
    if (letter >= '0' && letter <= '9')
        return (unsigned)(letter - '0');
    if (letter >= 'a' && letter <= 'f')
        return (unsigned)(letter - 'a') + 10;
    malformed(in->line, "a word that is no bytes");
}

/* Bytes with guards ahead of them and behind them. */
static struct lent take_bytes(struct inputs *in, bool to_read)
{
    size_t letters;
    const char *word = take_word(in, &letters);
    if (word[0] == '-' && letters == 1)
        letters = 0;
    if (letters % 2 != 0)
        malformed(in->line, "bytes of an odd number of digits");
    struct lent lent = {in->memory + GUARD, letters / 2, word, to_read};
    memset(in->memory, GUARD_BYTE, lent.length + 2 * GUARD);
    for (size_t at = 0; at < lent.length; at++)
        lent.bytes[at] = (uint8_t)(half_of(in, word[2 * at]) << 4 | half_of(in, word[2 * at + 1]));
    in->memory += lent.length + 2 * GUARD;
    in->lent[in->count++] = lent;
    return lent;
}

static struct lent take_exactly(struct inputs *in, size_t count, bool to_read)
{
    struct lent lent = take_bytes(in, to_read);
    if (lent.length != count)
        malformed(in->line, "bytes of another number than their field has");
    return lent;
}

static void end_inputs(const struct inputs *in)
{
    if (*in->next != '\0')
        malformed(in->line, "too many words");
}

/* ---- answers */

static void say(struct answer *out, const char *word)
{
    size_t length = strlen(word);
    if (out->length + length + 2 > out->room)
        out->text = room_of(out->text, out->room = 2 * (out->room + length + 2));
    if (out->length != 0)
        out->text[out->length++] = ' ';
    memcpy(out->text + out->length, word, length + 1);
    out->length += length;
}

static void say_number(struct answer *out, uint64_t number)
{
    char word[24];
    snprintf(word, sizeof word, "%" PRIu64, number);
    say(out, word);
}

static void say_each(struct answer *out, const uint64_t *numbers, size_t count)
{
    for (size_t each = 0; each < count; each++)
        say_number(out, numbers[each]);
}

#define SAY_NUMBERS(out, ...) say_each(out, (const uint64_t[]){__VA_ARGS__}, sizeof((const uint64_t[]){__VA_ARGS__}) / sizeof(uint64_t))

static void say_signed(struct answer *out, int64_t number)
{
    char word[24];
    snprintf(word, sizeof word, "%" PRId64, number);
    say(out, word);
}

static void say_bytes(struct answer *out, const uint8_t *bytes, size_t length)
{
    static const char digits[] = "0123456789abcdef";
    say(out, length == 0 ? "-" : "");
    if (out->length + 2 * length + 2 > out->room)
        out->text = room_of(out->text, out->room = 2 * (out->room + 2 * length + 2));
    for (size_t at = 0; at < length; at++) {
        out->text[out->length++] = digits[bytes[at] >> 4];
        out->text[out->length++] = digits[bytes[at] & 15];
    }
    out->text[out->length] = '\0';
}

/* ---- after a call: the guards stand, and what was lent to be read is as it was */

static bool guards_stand(const struct lent *lent)
{
    for (size_t at = 0; at < GUARD; at++) {
        if (lent->bytes[at - GUARD] != GUARD_BYTE || lent->bytes[lent->length + at] != GUARD_BYTE)
            return false;
    }
    return true;
}

static bool reads_as_lent(const struct inputs *in, const struct lent *lent)
{
    for (size_t at = 0; at < lent->length; at++) {
        if (lent->bytes[at] != (half_of(in, lent->word[2 * at]) << 4 | half_of(in, lent->word[2 * at + 1])))
            return false;
    }
    return true;
}

static void look_after_lent(const struct inputs *in, struct answer *out)
{
    for (size_t each = 0; each < in->count; each++) {
        if (!guards_stand(&in->lent[each]))
            say(out, "(and a byte beside the lent ones changed)");
        if (in->lent[each].to_read && !reads_as_lent(in, &in->lent[each]))
            say(out, "(and a byte lent to be read changed)");
    }
}

#endif
