/* Reads case lines from standard input, calls libquay.a with each, and compares the whole answer: every field, every lent byte.
 * The form of the lines stands in tests/host/README.md. */
#define _POSIX_C_SOURCE 200809L

#include "lines.h"
#include "quay.h"

enum { MOST_SHOWN = 10 };

/* ---- structs from words and to words */

static QuayEvent take_event(struct inputs *in)
{
    QuayEvent event;
    event.kind = take_byte(in);
    event.refusal = take_byte(in);
    event.wire = take_number(in, UINT64_MAX);
    event.kept = take_number(in, SIZE_MAX);
    return event;
}

static QuayWeight take_weight(struct inputs *in)
{
    struct lent five = take_exactly(in, 5, true);
    return (QuayWeight){.w0 = five.bytes[0], .w1 = five.bytes[1], .w2 = five.bytes[2], .con = five.bytes[3], .family = five.bytes[4]};
}

static void say_room(struct answer *out, struct lent room)
{
    say_bytes(out, room.bytes, room.length);
}

static void say_written(struct answer *out, QuayWritten written, struct lent room)
{
    SAY_NUMBERS(out, written.refusal, written.length);
    say_room(out, room);
}

static void say_record(struct answer *out, QuayRecord item)
{
    SAY_NUMBERS(out, item.refusal, item.time, item.kind, item.address, item.serial, item.status);
    say_bytes(out, (uint8_t[]){item.w0, item.w1, item.w2}, 3);
    say_number(out, item.family);
}

static void say_what(struct answer *out, QuayWhat what)
{
    SAY_NUMBERS(out, what.says, what.number, what.on, what.load);
    say_bytes(out, (uint8_t[]){what.weight.w0, what.weight.w1, what.weight.w2, what.weight.con, what.weight.family}, 5);
    SAY_NUMBERS(out, what.from, what.to);
}

static void say_value(struct answer *out, QuayValue value)
{
    say_number(out, value.refusal);
    say_signed(out, value.value);
}

/* ---- the fourteen functions */

static void listen(struct inputs *in, struct answer *out)
{
    QuayPlace place;
    place.phase = take_byte(in);
    place.wire = take_number(in, UINT64_MAX);
    place.kept = take_number(in, SIZE_MAX);
    struct lent body = take_exactly(in, QUAY_BODY_ROOM, false);
    struct lent block = take_bytes(in, true);
    QuayWent went = quay_listen(place, block.bytes, block.length, body.bytes);
    SAY_NUMBERS(out, went.refusal, went.place.phase, went.place.wire, went.place.kept);
    say_room(out, body);
    SAY_NUMBERS(out, went.used, went.event.kind, went.event.refusal, went.event.wire, went.event.kept);
}

static void write_frame(struct inputs *in, struct answer *out)
{
    uint8_t short_address = take_byte(in);
    uint32_t serial = (uint32_t)take_number(in, UINT32_MAX);
    uint8_t code = take_byte(in);
    struct lent data = take_bytes(in, true);
    struct lent room = take_bytes(in, false);
    say_written(out, quay_write_frame(short_address, serial, code, data.bytes, data.length, room.bytes, room.length), room);
}

static void write_message(struct inputs *in, struct answer *out)
{
    uint8_t role = take_byte(in);
    uint8_t family = take_byte(in);
    uint8_t short_address = take_byte(in);
    uint32_t serial = (uint32_t)take_number(in, UINT32_MAX);
    uint8_t code = take_byte(in);
    struct lent data = take_bytes(in, true);
    struct lent room = take_bytes(in, false);
    say_written(out, quay_write_message(role, family, short_address, serial, code, data.bytes, data.length, room.bytes, room.length), room);
}

static void read_message(struct inputs *in, struct answer *out)
{
    uint8_t role = take_byte(in);
    uint8_t family = take_byte(in);
    struct lent body = take_bytes(in, true);
    QuayMessage message = quay_read_message(role, family, body.bytes, body.length);
    SAY_NUMBERS(out, message.refusal, message.short_address, message.serial, message.code, message.from, message.to);
    say_what(out, message.what);
}

static void read_weight(struct inputs *in, struct answer *out)
{
    QuayReading reading = quay_read_weight(take_weight(in));
    SAY_NUMBERS(out, reading.refusal, reading.number, reading.point, reading.minus, reading.bit6, reading.bit5, reading.settled,
                reading.overload, reading.family);
}

static void value(struct inputs *in, struct answer *out)
{
    say_value(out, quay_value(take_weight(in)));
}

static void difference(struct inputs *in, struct answer *out)
{
    QuayWeight gross = take_weight(in);
    QuayWeight net = take_weight(in);
    say_value(out, quay_difference(gross, net));
}

static void kilograms(struct inputs *in, struct answer *out)
{
    QuayKilograms weighed = quay_kilograms(take_weight(in));
    char word[24] = "nan";
    uint64_t bits;
    memcpy(&bits, &weighed.kilograms, sizeof bits);
    if (weighed.kilograms == weighed.kilograms)
        snprintf(word, sizeof word, "%016" PRIx64, bits);
    say_number(out, weighed.refusal);
    say(out, word);
}

static void write_record(struct inputs *in, struct answer *out)
{
    QuayRecord item;
    item.time = take_number(in, UINT64_MAX);
    item.kind = take_byte(in);
    item.address = take_byte(in);
    item.serial = (uint32_t)take_number(in, UINT32_MAX);
    item.status = take_byte(in);
    struct lent digits = take_exactly(in, 3, true);
    item.w0 = digits.bytes[0];
    item.w1 = digits.bytes[1];
    item.w2 = digits.bytes[2];
    item.family = take_byte(in);
    item.refusal = take_byte(in);
    struct lent room = take_bytes(in, false);
    say_written(out, quay_write_record(item, room.bytes, room.length), room);
}

static void read_record(struct inputs *in, struct answer *out)
{
    struct lent bytes = take_bytes(in, true);
    say_record(out, quay_read_record(bytes.bytes, bytes.length));
}

static void step(struct inputs *in, struct answer *out)
{
    struct lent log = take_bytes(in, true);
    QuayStepped stepped = quay_step(log.bytes, log.length, take_number(in, SIZE_MAX));
    say_record(out, stepped.item);
    say_number(out, stepped.next);
}

static void record_heard(struct inputs *in, struct answer *out)
{
    uint64_t time = take_number(in, UINT64_MAX);
    uint8_t role = take_byte(in);
    uint8_t family = take_byte(in);
    QuayEvent event = take_event(in);
    struct lent body = take_bytes(in, true);
    say_record(out, quay_record_heard(time, role, family, event, body.bytes, body.length));
}

static void list_event(struct inputs *in, struct answer *out)
{
    uint64_t number = take_number(in, UINT64_MAX);
    uint8_t family = take_byte(in);
    QuayEvent event = take_event(in);
    struct lent body = take_bytes(in, true);
    struct lent room = take_bytes(in, false);
    QuayListed listed = quay_list_event(number, family, event, body.bytes, body.length, room.bytes, room.length);
    SAY_NUMBERS(out, listed.refusal, listed.length, listed.entry);
    say_room(out, room);
}

static void list_total(struct inputs *in, struct answer *out)
{
    uint64_t total = take_number(in, UINT64_MAX);
    uint64_t weights = take_number(in, UINT64_MAX);
    uint64_t refused = take_number(in, UINT64_MAX);
    struct lent room = take_bytes(in, false);
    say_written(out, quay_list_total(total, weights, refused, room.bytes, room.length), room);
}

typedef void (*call)(struct inputs *in, struct answer *out);

static const struct {
    const char *name;
    call call;
} functions[] = {
    {"listen", listen}, {"write_frame", write_frame}, {"write_message", write_message}, {"read_message", read_message},
    {"read_weight", read_weight}, {"value", value}, {"difference", difference}, {"kilograms", kilograms},
    {"write_record", write_record}, {"read_record", read_record}, {"step", step}, {"record_heard", record_heard},
    {"list_event", list_event}, {"list_total", list_total},
};

/* ---- lines */

static call function_of(struct inputs *in)
{
    size_t length;
    const char *word = take_word(in, &length);
    for (size_t each = 0; each < sizeof functions / sizeof functions[0]; each++) {
        if (strlen(functions[each].name) == length && memcmp(functions[each].name, word, length) == 0)
            return functions[each].call;
    }
    fprintf(stderr, "line %lu: unknown function %.*s\n", in->line, (int)length, word);
    exit(1);
}

/* Whether the answer is the one that the line wants; if not, it is shown while there are few. */
static bool answers(char *line, unsigned long number, uint8_t *memory, struct answer *out, unsigned long shown)
{
    char *wanted = strstr(line, " = ");
    if (wanted == NULL)
        malformed(number, "no answer");
    *wanted = '\0';
    wanted += 3;
    struct inputs in = {.line = number, .next = line, .memory = memory};
    call call = function_of(&in);
    out->length = 0;
    call(&in, out);
    end_inputs(&in);
    look_after_lent(&in, out);
    if (strcmp(wanted, out->text) == 0)
        return true;
    if (shown < MOST_SHOWN)
        printf("line %lu: %.*s: wanted %s, given %s\n", number, (int)strcspn(line, " "), line, wanted, out->text);
    return false;
}

int main(void)
{
    char *line = NULL;
    size_t room = 0;
    ssize_t length;
    uint8_t *memory = NULL;
    struct answer out = {NULL, 0, 0};
    unsigned long cases = 0, differ = 0;
    while ((length = getline(&line, &room, stdin)) >= 0) {
        if (length > 0 && line[length - 1] == '\n')
            line[--length] = '\0';
        cases++;
        if (strlen(line) != (size_t)length)
            malformed(cases, "a byte 0");
        memory = room_of(memory, (size_t)length + MOST_LENT * 2 * GUARD);
        differ += !answers(line, cases, memory, &out, differ);
    }
    if (ferror(stdin)) {
        fprintf(stderr, "standard input could not be read\n");
        return 1;
    }
    printf("%lu cases, %lu differ\n", cases, differ);
    return cases != 0 && differ == 0 ? 0 : 1;
}
