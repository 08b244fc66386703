/* Wrong libraries, to see that the cases see each: linked ahead of libquay.a, and the environment variable QUAY_WRONG names the one function that
 * answers wrongly. Most of them make the mistake that must never happen: what was refused looks like a weight of nothing. A word behind the name says
 * that the function is wrong in another way. About the family:
 *   unknown    a family that does not exist passes for plain
 *   unjudged   002 passes for 000, whose bit 6 is free
 *   lost       the family that is told is plain
 * About overload:
 *   weighed    an overloaded bridge has a weight
 *   early      24 goes before 8
 *   emptied    an overloaded weight is not told: its bytes are lost */
#include "quay.h"

#include <stdbool.h>
#include <stdio.h>
#include <stdlib.h>
#include <string.h>

/* The linker gives the library's own function the name __real_, and callers the one named __wrap_. */
#define WRAPPED(answer, name, ...) \
    answer __real_quay_##name(__VA_ARGS__); \
    answer __wrap_quay_##name(__VA_ARGS__); \
    answer __wrap_quay_##name(__VA_ARGS__)

enum { OVERLOAD = 0x08 }; /* bit 3 of CON */

static bool is_wrong(const char *name)
{
    const char *wrong = getenv("QUAY_WRONG");
    return wrong != NULL && strcmp(wrong, name) == 0;
}

/* Whether the function is wrong in the way that a second word says. */
static bool is_wrong_in(const char *name, const char *way)
{
    char both[64];
    snprintf(both, sizeof both, "%s %s", name, way);
    return is_wrong(both);
}

static uint8_t family_taken(const char *name, uint8_t family)
{
    if (family > QUAY_FAMILY_002 && is_wrong_in(name, "unknown"))
        return QUAY_FAMILY_PLAIN;
    if (family == QUAY_FAMILY_002 && is_wrong_in(name, "unjudged"))
        return QUAY_FAMILY_000;
    return family;
}

static uint8_t family_told(const char *name, uint8_t family)
{
    return is_wrong_in(name, "lost") ? QUAY_FAMILY_PLAIN : family;
}

static QuayWeight weight_taken(const char *name, QuayWeight weight)
{
    weight.family = family_taken(name, weight.family);
    if (is_wrong_in(name, "weighed"))
        weight.con &= (uint8_t)~OVERLOAD;
    return weight;
}

static uint8_t refusal_told(const char *name, uint8_t con, uint8_t refusal)
{
    return refusal == QUAY_FIELD_OUTSIDE && (con & OVERLOAD) != 0 && is_wrong_in(name, "early") ? QUAY_OVERLOADED : refusal;
}

static bool is_emptied(const char *name, uint8_t con)
{
    return (con & OVERLOAD) != 0 && is_wrong_in(name, "emptied");
}

static QuayRecord record_told(const char *name, QuayRecord item)
{
    item.family = family_told(name, item.family);
    if ((item.kind == QUAY_RECORD_GROSS || item.kind == QUAY_RECORD_NET) && is_emptied(name, item.status))
        item.w0 = item.w1 = item.w2 = 0xFF;
    return item;
}

/* The last of the lent bytes is cleared, though nothing was kept there. */
WRAPPED(QuayWent, listen, QuayPlace place, const uint8_t *block, size_t length, uint8_t body[QUAY_BODY_ROOM])
{
    QuayWent went = __real_quay_listen(place, block, length, body);
    if (is_wrong("listen") && went.place.kept < QUAY_BODY_ROOM)
        body[QUAY_BODY_ROOM - 1] = 0;
    return went;
}

/* A refused write leaves its mark. */
WRAPPED(QuayWritten, write_frame, uint8_t short_address, uint32_t serial, uint8_t code, const uint8_t *data, size_t length, uint8_t *room,
        size_t room_length)
{
    QuayWritten written = __real_quay_write_frame(short_address, serial, code, data, length, room, room_length);
    if (is_wrong("write_frame") && written.refusal != 0 && room_length != 0)
        room[0] = 0xFF;
    return written;
}

/* Any role but a request passes for a reply. */
WRAPPED(QuayWritten, write_message, uint8_t role, uint8_t family, uint8_t short_address, uint32_t serial, uint8_t code, const uint8_t *data,
        size_t length, uint8_t *room, size_t room_length)
{
    uint8_t taken = is_wrong("write_message") && role > QUAY_REPLY ? QUAY_REPLY : role;
    return __real_quay_write_message(taken, family_taken("write_message", family), short_address, serial, code, data, length, room, room_length);
}

/* A message that was refused has a weight of nothing. */
WRAPPED(QuayMessage, read_message, uint8_t role, uint8_t family, const uint8_t *body, size_t length)
{
    QuayMessage message = __real_quay_read_message(role, family_taken("read_message", family), body, length);
    if (is_wrong("read_message") && message.refusal != 0)
        message.what.weight = (QuayWeight){0, 0, 0, 0, QUAY_FAMILY_PLAIN};
    if (message.what.says == QUAY_SAYS_WEIGHT && is_emptied("read_message", message.what.weight.con))
        message.what.weight = (QuayWeight){0xFF, 0xFF, 0xFF, 0xFF, 0xFF};
    message.what.weight.family = family_told("read_message", message.what.weight.family);
    return message;
}

WRAPPED(QuayReading, read_weight, QuayWeight weight)
{
    QuayReading reading = __real_quay_read_weight(weight_taken("read_weight", weight));
    if (is_wrong("read_weight") && reading.refusal != 0)
        reading.number = 0;
    if (reading.refusal == 0 && is_emptied("read_weight", weight.con))
        reading.number = UINT32_MAX;
    reading.family = family_told("read_weight", reading.family);
    return reading;
}

WRAPPED(QuayValue, value, QuayWeight weight)
{
    QuayValue value = __real_quay_value(weight_taken("value", weight));
    if (is_wrong("value") && value.refusal != 0)
        value.value = 0;
    value.refusal = refusal_told("value", weight.con, value.refusal);
    return value;
}

/* A net that was refused is taken for nothing. `weighed` looks past the overload of the net alone; `early` looks at the gross ahead of the net. */
WRAPPED(QuayValue, difference, QuayWeight gross, QuayWeight net)
{
    QuayWeight taken = weight_taken("difference", gross);
    taken.con = gross.con;
    QuayValue value = __real_quay_difference(taken, weight_taken("difference", net));
    if (is_wrong("difference") && value.refusal != 0)
        value = __real_quay_value(gross);
    value.refusal = refusal_told("difference", gross.con, value.refusal);
    return value;
}

/* Minus nothing is minus zero. */
WRAPPED(QuayKilograms, kilograms, QuayWeight weight)
{
    QuayKilograms weighed = __real_quay_kilograms(weight_taken("kilograms", weight));
    if (is_wrong("kilograms") && weighed.kilograms == 0 && (weight.con & 0x80) != 0)
        weighed.kilograms = -0.0;
    weighed.refusal = refusal_told("kilograms", weight.con, weighed.refusal);
    return weighed;
}

/* What carries a refusal is written all the same. */
WRAPPED(QuayWritten, write_record, QuayRecord item, uint8_t *room, size_t length)
{
    if (is_wrong("write_record"))
        item.refusal = 0;
    item.family = family_taken("write_record", item.family);
    return __real_quay_write_record(item, room, length);
}

/* Twenty bytes are read of more. */
WRAPPED(QuayRecord, read_record, const uint8_t *bytes, size_t length)
{
    QuayRecord item = __real_quay_read_record(bytes, is_wrong("read_record") && length > QUAY_RECORD_BYTES ? QUAY_RECORD_BYTES : length);
    return record_told("read_record", item);
}

/* At the end the place is the log's length. */
WRAPPED(QuayStepped, step, const uint8_t *log, size_t length, size_t place)
{
    QuayStepped stepped = __real_quay_step(log, length, place);
    if (is_wrong("step") && place >= length)
        stepped.next = length;
    stepped.item = record_told("step", stepped.item);
    return stepped;
}

/* A refusal that was met crosses with the zeros that its record has on disk. */
WRAPPED(QuayRecord, record_heard, uint64_t time, uint8_t role, uint8_t family, QuayEvent event, const uint8_t *body, size_t length)
{
    QuayRecord item = __real_quay_record_heard(time, role, family_taken("record_heard", family), event, body, length);
    if (is_wrong("record_heard") && item.kind == QUAY_RECORD_REFUSED)
        item.w0 = item.w1 = item.w2 = 0;
    return record_told("record_heard", item);
}

/* The hyphens of a weight's line as digits. No other line has six of them. */
static void put_digits(uint8_t *line, size_t length)
{
    const uint8_t hyphens[] = {'-', '-', '-', '-', '-', '-'};
    for (size_t at = 0; at + sizeof hyphens <= length; at++) {
        if (memcmp(line + at, hyphens, sizeof hyphens) == 0)
            memset(line + at, '0', sizeof hyphens);
    }
}

/* Stale bytes are read as the body's. */
WRAPPED(QuayListed, list_event, uint64_t number, uint8_t family, QuayEvent event, const uint8_t *body, size_t length, uint8_t *room,
        size_t room_length)
{
    if (is_wrong("list_event"))
        event.kept = length;
    QuayListed listed = __real_quay_list_event(number, family_taken("list_event", family), event, body, length, room, room_length);
    if (is_wrong_in("list_event", "weighed"))
        put_digits(room, listed.length);
    return listed;
}

/* A byte behind the line is cleared. */
WRAPPED(QuayWritten, list_total, uint64_t total, uint64_t weights, uint64_t refused, uint8_t *room, size_t length)
{
    QuayWritten written = __real_quay_list_total(total, weights, refused, room, length);
    if (is_wrong("list_total") && written.length < length)
        room[written.length] = 0;
    return written;
}
