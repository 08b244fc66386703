/* The quay reader for C and C++: the fourteen functions of libquay.a.
 *
 * A weight that wasn't heard never looks like a weight of nothing. So each answer has a field `refusal` (a step has it in its item). It is 0, or a number
 * of the rules paper's list. If it is not 0, no other field can pass for a weight: a value is INT64_MIN, kilograms are not a number, weight bytes are FF.
 * A record that notes a refusal (kind 3) has weight bytes FF too, although it was read and its own `refusal` is 0.
 * Test `refusal` first all the same.
 *
 * An overloaded bridge has no weight. Its value, its kilograms and every difference with it are refused (24, after 8). What it said was heard all the
 * same: its reading, message and record are not refused, and keep its bytes. The reading has `overload` 1 then, and its digits are no weight.
 *
 * The functions in the archive (crates/quay_*) are proved: each for every value of every argument, under the rules below. This header is NOT
 * proved: its declarations are written by hand. The assertions at its end compare every size and every offset with the numbers of the C rules.
 * tests/host/run calls every function through it. Beyond that the declarations are as right as this text.
 *
 * Rules of lending. Lent bytes are the caller's; a function uses them during the call. C cannot make you keep these rules:
 *  - No pointer is ever null. Where the length is 0, point to any byte.
 *  - A pointer and the length after it lend exactly so many bytes. `body` of quay_listen lends exactly 255.
 *  - Bytes lent for writing (`room`, and `body` of quay_listen) overlap no other bytes of the same call.
 *  - The library keeps no pointer and has no state of its own. It never changes bytes lent for reading.
 *  - Two calls at the same time must not share bytes that one of them writes. Otherwise any threads may call.
 *
 * The archive is for x86-64 and the System V convention (Linux and the like). It needs memcpy and nothing else.
 */
#ifndef QUAY_H
#define QUAY_H

#include <stddef.h>
#include <stdint.h>

#if defined(_WIN32)
#error "libquay.a follows the System V convention of x86-64; Windows passes structs in another way"
#endif

#ifdef __cplusplus
extern "C" {
#endif

/* ---- sizes */

enum {
    QUAY_BODY_ROOM = 255,     /* bytes to lend to quay_listen: the longest body */
    QUAY_LONGEST_FRAME = 512, /* no frame needs more room */
    QUAY_LONGEST_LINE = 85,   /* no line of a listing needs more room */
    QUAY_RECORD_BYTES = 20    /* a record of a log */
};

/* ---- refusals, by the paper's numbers */

enum {
    QUAY_NOT_REFUSED = 0,
    QUAY_BODY_SHORT = 1,      /* a body of under 3 bytes, or of under 6 where its first is 00 */
    QUAY_BODY_LONG = 2,       /* a body of more than 255 bytes */
    QUAY_HELD_BROKEN = 3,     /* the byte after an FF inside a body was neither FE nor FF */
    QUAY_CHECK_WRONG = 4,     /* the check byte is wrong */
    QUAY_ADDRESS_ILLEGAL = 5, /* a short address outside 01 to FD, or a serial too large */
    QUAY_CODE_UNKNOWN = 6,    /* a code that the table does not have in that role */
    QUAY_LENGTH_WRONG = 7,    /* data of a length that is wrong for the code */
    QUAY_FIELD_OUTSIDE = 8,   /* a field outside its values, as bit 6 of a weight of family 002; also a number handed in that names no phase, role,
                                 family, kind, or refusal of a line */
    QUAY_ROOM_SHORT = 9,      /* the lent room is shorter than needed */
    QUAY_LOG_LEFT_OVER = 10,  /* 1 to 19 bytes left over in a log */
    QUAY_RECORD_BROKEN = 11,  /* a record that breaks a rule */
    QUAY_HEADER_WRONG = 20,   /* a parcel scale's message does not start with F8 55 CE, or has under 3 bytes */
    QUAY_BYTES_MISSING = 21,  /* fewer bytes than the length and the check of such a message need */
    QUAY_PARCEL_CHECK_WRONG = 22, /* the check of such a message is wrong */
    QUAY_COUNT_FULL = 23,     /* a count of the weekday and hour table would pass 65,535 */
    QUAY_OVERLOADED = 24,     /* bit 3 of CON, overload, is set: instead of a value */
    QUAY_LENGTH_OUTSIDE = 25, /* a body that is empty or over 31 bytes, in which no bad bit is looked for */
    QUAY_CHECK_RIGHT = 26,    /* a body of 1 to 31 bytes whose check is right already, so no bad bit is looked for */
    QUAY_SUM_BEYOND = 31      /* a lent cell of the weekday and hour table: its sum, sign aside, is beyond its count times 9,999,990,000,000 */
};

/* 20, 21 and 22 are earned by the messages of the parcel scales at the foot desk (document 003). The Rattle library reads and writes them
 * (`parcel_scale`). libquay.a has nothing of them yet, so that no function of this header answers these three. Of the tare (A3, in grams, with its sign) 003 says: a tare of 0 takes
 * the weight that stands on the scale as tare. It does not clear the tare.
 *
 * 23 and 31 are earned by the weekday and hour table, which the Rattle library fills (`hour_table`). No function of this header answers these two either.
 *
 * 24 is answered by quay_value, quay_difference and quay_kilograms alone. No line meets it, so that no event and no record of kind 3 can have it.
 *
 * 25 and 26 are earned where the cable crew asks which single bit of a body, turned over, would make its check right. The Rattle library tells it
 * (`bad_bit`). No function of this header answers these two, and no line meets them. */

/* ---- numbers of the fields */

enum { QUAY_SEEKING = 0, QUAY_DELIMITED = 1, QUAY_INSIDE = 2, QUAY_HELD = 3 }; /* QuayPlace.phase */

enum { QUAY_EVENT_NOTHING = 0, QUAY_EVENT_FRAME = 1, QUAY_EVENT_REFUSED = 2 }; /* QuayEvent.kind */

enum { QUAY_REQUEST = 0, QUAY_REPLY = 1 }; /* role */

/* family: that of the document which describes the terminals of a line. The caller says it. It tells what bits 6 and 5 of CON mean:
 *  - 000: bit 6 a key code was entered, bit 5 net mode.
 *  - 001: bit 6 an event, bit 5 the current scale number, 0 or 1.
 *  - 002: bit 6 is reserved and must be 0: a weight that has it set is refused by 8, a record by 11. Bit 5 net mode.
 *  - plain: a record from before there were families. Neither bit has a meaning, and neither is judged.
 * Any other number is refused by 8, in a record by 11. A family's number is one above its document's: QUAY_FAMILY_002 is 3, and a literal 2 is 001,
 * which nothing refuses. Use the names. Plain is 0. So an initialiser that leaves `family` out says plain, and bit 6 of a terminal of 002 is not
 * judged then. Say the family of the line wherever a struct or a call has one, but not in a record of kind 3: a refusal has none, and its family is
 * QUAY_FAMILY_PLAIN. */
enum { QUAY_FAMILY_PLAIN = 0, QUAY_FAMILY_000 = 1, QUAY_FAMILY_001 = 2, QUAY_FAMILY_002 = 3 };

enum { QUAY_GROSS = 1, QUAY_NET = 2 }; /* QuayWhat.load; 0 where no weight is said */

enum { QUAY_NO_RECORD = 0, QUAY_RECORD_GROSS = 1, QUAY_RECORD_NET = 2, QUAY_RECORD_REFUSED = 3 }; /* QuayRecord.kind */

enum { QUAY_ENTRY_NOTHING = 0, QUAY_ENTRY_WEIGHT = 1, QUAY_ENTRY_MESSAGE = 2, QUAY_ENTRY_REFUSED = 3 }; /* QuayListed.entry */

enum { /* QuayWhat.says: what a message says, and in which fields */
    QUAY_SAYS_NOTHING = 0,
    QUAY_SAYS_SERIAL = 1,    /* number: the serial */
    QUAY_SAYS_NUMBER = 2,    /* number: NUM */
    QUAY_SAYS_STATUS = 3,    /* number: the status */
    QUAY_SAYS_WEIGHT = 4,    /* weight and load */
    QUAY_SAYS_INPUTS = 5,    /* number: the 32 bits, the first byte lowest; on: how many are 1 */
    QUAY_SAYS_OUTPUTS = 6,   /* number: the 32 bits, the first byte lowest */
    QUAY_SAYS_TEXT = 7,      /* number: NUM; from, to: its characters in the body */
    QUAY_SAYS_EVENT = 8,     /* number: EVENT; from, to: its six bytes in the body */
    QUAY_SAYS_CONVERTER = 9, /* number: the converter's number */
    QUAY_SAYS_ERROR = 10     /* number: NER */
};

/* ---- structs, by value both ways */

/* Where a reader stands. All zeros are a fresh reader: QuayPlace place = {0, 0, QUAY_SEEKING}; */
typedef struct QuayPlace {
    uint64_t wire; /* bytes taken since the reader started, modulo 2^64 */
    size_t kept;   /* how many body bytes are kept: they are the first of the lent 255 */
    uint8_t phase;
} QuayPlace;

/* An event of the line. Its two counts never stand in for each other. */
typedef struct QuayEvent {
    uint64_t wire;   /* the place on the wire, counting the byte that gave the event */
    size_t kept;     /* body bytes kept at that moment; for a frame, how many bytes its body has */
    uint8_t kind;
    uint8_t refusal; /* of the line; 0 unless the kind is QUAY_EVENT_REFUSED */
} QuayEvent;

typedef struct QuayWent {
    QuayPlace place; /* hand it in with the next block */
    QuayEvent event;
    size_t used;     /* bytes of the block that were taken */
    uint8_t refusal; /* of the call, not of the line */
} QuayWent;

/* The four bytes of a weight as the wire has them, and the family of the terminal that said them. Five times FF is no weight: every use of it is
 * refused. */
typedef struct QuayWeight {
    uint8_t w0, w1, w2, con;
    uint8_t family; /* left out of an initialiser it is QUAY_FAMILY_PLAIN */
} QuayWeight;

/* What a terminal shows. The marks are 0 or 1. If refused, the number, the marks and the family are all ones and the point is 0: number and point
 * together are far above any weight. An overload is no refusal of the reading: test `overload` before you show or use the number. */
typedef struct QuayReading {
    uint32_t number; /* 0 to 999,999. Where overload is 1 it is no weight: the digits stay only so that the four bytes come back */
    uint8_t point;   /* digits after the point, 0 to 7 */
    uint8_t minus;
    uint8_t bit6;    /* what it means, the family says; 0 is no answer in plain, nor in 002 */
    uint8_t bit5;    /* what it means, the family says; 0 is no answer in plain, and in 001 the bit is no net mode */
    uint8_t settled;
    uint8_t overload; /* 1: more lies on the bridge than it can weigh, and it has no weight */
    uint8_t family;
    uint8_t refusal;
} QuayReading;

typedef struct QuayValue {
    int64_t value; /* tenths of a milligram; INT64_MIN if refused. Keep it in 64 bits: 32 bits hold 214 kg. Subtract with quay_difference */
    uint8_t refusal;
} QuayValue;

typedef struct QuayKilograms {
    double kilograms; /* not a number if refused */
    uint8_t refusal;
} QuayKilograms;

/* What a write answers. If refused, the length is 0 and every byte of the room is as it stood. Otherwise only the first `length` bytes are changed. */
typedef struct QuayWritten {
    size_t length;
    uint8_t refusal;
} QuayWritten;

typedef struct QuayListed {
    size_t length;
    uint8_t entry; /* what was listed, for the counts of the total */
    uint8_t refusal;
} QuayListed;

/* What a message says. A number, a count or a weight that it does not have is all ones. No terminal says that. */
typedef struct QuayWhat {
    uint64_t number; /* UINT64_MAX where none is said: in a weight, in a message without data, and where the message was refused */
    size_t from;     /* where in the lent body a text or an event's bytes begin; 0 where there are none */
    size_t to;       /* the place after them */
    uint32_t on;     /* UINT32_MAX where no inputs are said */
    QuayWeight weight;
    uint8_t load;
    uint8_t says;
} QuayWhat;

typedef struct QuayMessage {
    QuayWhat what;
    size_t from;           /* where in the lent body the data begin */
    size_t to;             /* the place after them */
    uint32_t serial;
    uint8_t short_address; /* 0 says that the serial is the address. The library calls this field `short`, a word that C keeps for itself */
    uint8_t code;
    uint8_t refusal;
} QuayMessage;

/* A record of a log. Kind 0 is no record: if `refusal` is not 0 the record was refused, otherwise there was none. Kinds 0 and 3 are no weighing.
 * Their weight bytes are FF, which read as no weight. Test `kind` before you ask for a weight. A weighing becomes a weight as
 * QuayWeight weight = {item.w0, item.w1, item.w2, item.status, item.family}; the four parts of before still compile, and say plain. */
typedef struct QuayRecord {
    uint64_t time;      /* seconds, as the caller gives them. The weekday and hour table of the Rattle library takes 0 for a Monday midnight */
    uint32_t serial;
    uint8_t kind;
    uint8_t address;
    uint8_t status;     /* CON of a weight; for QUAY_RECORD_REFUSED the refusal's number, 1 to 8 (5 in logs from before) */
    uint8_t w0, w1, w2; /* FF unless the kind is 1 or 2 */
    uint8_t family;     /* of the terminal; QUAY_FAMILY_PLAIN in a record from before there were families, and in kind 3; FF in kind 0 */
    uint8_t refusal;
} QuayRecord;

typedef struct QuayStepped {
    QuayRecord item;
    size_t next; /* the place after the record; without a record, the place handed in */
} QuayStepped;

/* ---- the line */

/* Takes bytes of a block up to and including the first event, or to the block's end. Next hand in the rest of the block, from `used` on.
 * An empty block takes nothing and hands the place back as it stood. A place with more than 255 kept bytes is treated as fresh, wire count 0.
 * Refusals of the call: 8 where the place has a phase that does not exist. Then nothing is taken, and the place and all of `body` are as they stood.
 * Refusals of the line are not refusals of the call. They stand in `event`, as 1, 2, 3, 4 or 5 (at a body's end judged 1, 4, 5). A line heard from
 * a fresh place never gives 5. Only an open body that the line did not leave so can earn it: a place made by hand, or other bytes lent beside it.
 * Lent: `body`, exactly 255 bytes. Lend the same bytes with each block, as they were left. At first they may hold anything. After a frame its body is
 * the first event.kept of them, until the next call. Bytes after those kept are as they stood. */
QuayWent quay_listen(QuayPlace place, const uint8_t *block, size_t block_length, uint8_t body[QUAY_BODY_ROOM]);

/* ---- frames and messages
 *
 * An address is a short one (01 to FD) with serial 0, or short address 0 with a serial (0 to 16,777,215). Both at once make no address. */

/* Writes the frame of an address, any code and data, with delimiters, inserted FEs and check as they go on the wire.
 * Refusals: 5 (no address), 2 (the body would pass 255), 9 (room), in this order. */
QuayWritten quay_write_frame(uint8_t short_address, uint32_t serial, uint8_t code, const uint8_t *data, size_t data_length, uint8_t *room,
                             size_t room_length);

/* Writes the frame of a message in a role, from the data of the paper's table, for a line of a family.
 * Refusals: 8 for a role or a family that does not exist; then 5, 6, 7, 8 (a field of the data, a weight's by its family), 2, 9, in this order. */
QuayWritten quay_write_message(uint8_t role, uint8_t family, uint8_t short_address, uint32_t serial, uint8_t code, const uint8_t *data,
                               size_t data_length, uint8_t *room, size_t room_length);

/* Reads a body (address, code, data, check; no delimiters) in a role, of a line of a family. A weight that it says carries that family. It tests
 * the check itself, also for a body that quay_listen handed out.
 * Refusals: 8 for a role or a family that does not exist; then 2 (over 255 bytes), 1, 4, 5, 6, 7, 8, in this order. If refused, the number and
 * `on` are all ones, the weight is five times FF and every other field is 0. */
QuayMessage quay_read_message(uint8_t role, uint8_t family, const uint8_t *body, size_t body_length);

/* ---- weights. Refusals, in this order:
 *  - 8 for a half of W0, W1 or W2 that is no decimal digit, for a family that does not exist, and for bit 6 set in family 002. Otherwise CON is any byte.
 *  - 24 for a weight whose overload bit (bit 3 of CON) is set, whatever its digits are, zeros too. Of the four functions quay_read_weight does not judge this. */

/* The reading that four bytes show. Refusal: 8. A weight with the overload bit is read, with overload 1 and its digits in `number`. Never show or use
 * them as a weight then: ask quay_value or quay_kilograms, which refuse. */
QuayReading quay_read_weight(QuayWeight weight);

/* The value in tenths of a milligram, -9,999,990,000,000 to 9,999,990,000,000. Refusals: 8, 24, in this order. */
QuayValue quay_value(QuayWeight weight);

/* Gross less net in tenths of a milligram. It may be negative. The two may be of different families.
 * Refusals: 8 of either weight, 24 of either weight, in this order. */
QuayValue quay_difference(QuayWeight gross, QuayWeight net);

/* The value in kilograms, rounded once. A weight of minus zero gives plus zero. Refusals: 8, 24, in this order. */
QuayKilograms quay_kilograms(QuayWeight weight);

/* ---- the log */

/* Writes a record's 20 bytes. In a record of kind 3 the weight bytes FF FF FF and 00 00 00 both stand for the zeros that it has on disk.
 * Refusals: 11 (a record that breaks a rule, as a family in kind 3, kind 0, or one that carries a refusal), 9, in this order. */
QuayWritten quay_write_record(QuayRecord item, uint8_t *room, size_t room_length);

/* Reads a record of 20 bytes. Refusal: 11, also for more bytes or fewer. A refusal 5 in a log from before came from a
 * terminal at A0 to FD, when 9F was the highest address. A record from before there were families is plain. */
QuayRecord quay_read_record(const uint8_t *bytes, size_t bytes_length);

/* The record at a byte place of a log. At or past its end: kind 0 and no refusal.
 * Refusals: 10 (1 to 19 bytes left over), 11, in this order. */
QuayStepped quay_step(const uint8_t *log, size_t log_length, size_t place);

/* The record that an event makes at a time, in the role in which the line is read, and of its family. It notes a gross or net reply with that family,
 * or a refusal 1 to 8 of the line or of its message, without one. Where the event makes no record, the answer is kind 0 and no refusal. The body of
 * a frame is the first event.kept of the lent bytes (all of them where they are fewer). It is judged again, check and all.
 * Refusals: 8 for a role, a family or a kind of event that does not exist, and for a number of its refusal that is not 1 to 8. A line meets no
 * others. */
QuayRecord quay_record_heard(uint64_t time, uint8_t role, uint8_t family, QuayEvent event, const uint8_t *body, size_t body_length);

/* ---- the listing */

/* Writes the listing's line of an event, with its newline, as the event of that number. The event is read as a reply of a line of a family. The last
 * word of a weight's line is what bit 5 says: `net` or `gross` (000 and 002), `scale0` or `scale1` (001). A plain one has no such word. The line of
 * an overloaded weight has six hyphens, `------`, for its digits. Everything else of it is as in any weight's line, and its entry is
 * QUAY_ENTRY_WEIGHT. Where there was no event there is no line: length 0, entry 0, no refusal. The body of a frame is the first event.kept of the
 * lent bytes (all of them where they are fewer). It is judged again, check and all. Other bytes than those that were heard list as the refusal they
 * earn.
 * Refusals: 8 for a family or a kind of event that does not exist, or a number of its refusal that is not 1 to 8 (then entry is 0); 9 (then entry is
 * as if the line had fitted), in this order. */
QuayListed quay_list_event(uint64_t number, uint8_t family, QuayEvent event, const uint8_t *body, size_t body_length, uint8_t *room,
                           size_t room_length);

/* Writes the total line: all events, weights and refusals of the listing. Refusal: 9. */
QuayWritten quay_list_total(uint64_t total, uint64_t weights, uint64_t refused, uint8_t *room, size_t room_length);

#ifdef __cplusplus
}
#endif

/* ---- every size and every offset of the library is asserted: a compiler that lays a struct out in another way stops here */

#ifdef __cplusplus
#define QUAY_HOLDS(claim, words) static_assert(claim, words)
#else
#define QUAY_HOLDS(claim, words) _Static_assert(claim, words)
#endif
#define QUAY_SIZE(type, size) QUAY_HOLDS(sizeof(type) == (size), #type " has another size in libquay.a")
#define QUAY_AT(type, field, place) QUAY_HOLDS(offsetof(type, field) == (place), #type "." #field " stands elsewhere in libquay.a")

QUAY_SIZE(size_t, 8); QUAY_SIZE(double, 8);
QUAY_SIZE(QuayPlace, 24); QUAY_AT(QuayPlace, wire, 0); QUAY_AT(QuayPlace, kept, 8); QUAY_AT(QuayPlace, phase, 16);
QUAY_SIZE(QuayEvent, 24); QUAY_AT(QuayEvent, wire, 0); QUAY_AT(QuayEvent, kept, 8); QUAY_AT(QuayEvent, kind, 16); QUAY_AT(QuayEvent, refusal, 17);
QUAY_SIZE(QuayWent, 64); QUAY_AT(QuayWent, place, 0); QUAY_AT(QuayWent, event, 24); QUAY_AT(QuayWent, used, 48); QUAY_AT(QuayWent, refusal, 56);
QUAY_SIZE(QuayWeight, 5); QUAY_AT(QuayWeight, w0, 0); QUAY_AT(QuayWeight, w1, 1); QUAY_AT(QuayWeight, w2, 2); QUAY_AT(QuayWeight, con, 3);
    QUAY_AT(QuayWeight, family, 4);
QUAY_SIZE(QuayReading, 12); QUAY_AT(QuayReading, number, 0); QUAY_AT(QuayReading, point, 4); QUAY_AT(QuayReading, minus, 5);
    QUAY_AT(QuayReading, bit6, 6); QUAY_AT(QuayReading, bit5, 7); QUAY_AT(QuayReading, settled, 8); QUAY_AT(QuayReading, overload, 9);
    QUAY_AT(QuayReading, family, 10); QUAY_AT(QuayReading, refusal, 11);
QUAY_SIZE(QuayValue, 16); QUAY_AT(QuayValue, value, 0); QUAY_AT(QuayValue, refusal, 8);
QUAY_SIZE(QuayKilograms, 16); QUAY_AT(QuayKilograms, kilograms, 0); QUAY_AT(QuayKilograms, refusal, 8);
QUAY_SIZE(QuayWritten, 16); QUAY_AT(QuayWritten, length, 0); QUAY_AT(QuayWritten, refusal, 8);
QUAY_SIZE(QuayListed, 16); QUAY_AT(QuayListed, length, 0); QUAY_AT(QuayListed, entry, 8); QUAY_AT(QuayListed, refusal, 9);
QUAY_SIZE(QuayWhat, 40); QUAY_AT(QuayWhat, number, 0); QUAY_AT(QuayWhat, from, 8); QUAY_AT(QuayWhat, to, 16); QUAY_AT(QuayWhat, on, 24);
    QUAY_AT(QuayWhat, weight, 28); QUAY_AT(QuayWhat, load, 33); QUAY_AT(QuayWhat, says, 34);
QUAY_SIZE(QuayMessage, 64); QUAY_AT(QuayMessage, what, 0); QUAY_AT(QuayMessage, from, 40); QUAY_AT(QuayMessage, to, 48);
    QUAY_AT(QuayMessage, serial, 56); QUAY_AT(QuayMessage, short_address, 60); QUAY_AT(QuayMessage, code, 61); QUAY_AT(QuayMessage, refusal, 62);
QUAY_SIZE(QuayRecord, 24); QUAY_AT(QuayRecord, time, 0); QUAY_AT(QuayRecord, serial, 8); QUAY_AT(QuayRecord, kind, 12);
    QUAY_AT(QuayRecord, address, 13); QUAY_AT(QuayRecord, status, 14); QUAY_AT(QuayRecord, w0, 15); QUAY_AT(QuayRecord, w1, 16);
    QUAY_AT(QuayRecord, w2, 17); QUAY_AT(QuayRecord, family, 18); QUAY_AT(QuayRecord, refusal, 19);
QUAY_SIZE(QuayStepped, 32); QUAY_AT(QuayStepped, item, 0); QUAY_AT(QuayStepped, next, 24);

#undef QUAY_HOLDS
#undef QUAY_SIZE
#undef QUAY_AT

#endif
