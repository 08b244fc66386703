"""02 request 7, "An overloaded bridge has no weight", and its open points 5.5, 6.1 and 6.7.

What is expected is written out by hand, as the request and the open points say
it. 5.6 and 8.3 are asked of overloaded weights here too.
"""

from contextlib import contextmanager
from itertools import product

import weight
from captures import WEIGHTS, capture, named_captures
from cases_log import record_bytes
from families import OF_000, OF_001, OF_002, PLAIN
from frame import body_of, frame_of
from hour_table import EMPTY_TABLE, Cell, add, cells_told, enter, fill, replaced
from line import hear
from listing import event_line, listing_of, write_line
from log import Record, read_record, record_heard, step, weight_noted, write_record
from message import read_message, write_message
from random_bytes import RandomBytes
from weight import Reading, difference, kilograms, mode, read_reading, reading_is_right, value, write_reading

EVERY = (PLAIN, OF_000, OF_001, OF_002)
NO_OR_YES = (0, 1)
ONE = ('short', 1)
NUMBERS = ((0, b'\x00\x00\x00'), (1, b'\x01\x00\x00'), (60_000, b'\x00\x00\x06'), (999_999, b'\x99\x99\x99'))
# The last field, by bit 5: "It stands on hyphened lines too" (open point 5.6).
LAST_FIELDS = {PLAIN: ('', ''), OF_000: (' gross', ' net'), OF_001: (' scale0', ' scale1'), OF_002: (' gross', ' net')}

RIGHT = Reading(0, 251, 1, 0, 0, 1, 0, PLAIN)                # 25.1 kg
RIGHT_ZERO = Reading(1, 0, 7, 0, 0, 0, 0, OF_001)
OVERLOADED = Reading(0, 60_000, 0, 0, 0, 1, 1, OF_002)       # the 60 tonnes of the request
OVERLOADED_ZERO = Reading(1, 0, 3, 0, 0, 0, 1, OF_000)
WRONG_NUMBER = Reading(0, 1_000_000, 0, 0, 0, 1, 0, PLAIN)
WRONG_POINT = Reading(1, 1, 8, 0, 0, 0, 0, OF_001)
RESERVED = Reading(0, 251, 1, 1, 0, 1, 0, OF_002)            # bit 6 of 002
WRONG = (WRONG_NUMBER, WRONG_POINT, RESERVED, WRONG_NUMBER._replace(point=255))


def both_loads(reading):
    return reading._replace(overload=0), reading._replace(overload=1)


def readings_in_range():
    """Every sign, point, family and flag but overload, with each of the numbers."""
    for minus, (number, _), point, six, five, settled, family in product(
            NO_OR_YES, NUMBERS, range(8), NO_OR_YES, NO_OR_YES, NO_OR_YES, EVERY):
        if family != OF_002 or not six:
            yield Reading(minus, number, point, six, five, settled, 0, family)


def test_no_value(expect):
    """"The value of a reading with bit 3 set must be refused", and "the float": it is
    bit 3 alone that does it, and it does it to a zero too."""
    for reading in readings_in_range():
        loaded = reading._replace(overload=1)
        expect('6.7 value', (value(loaded), kilograms(loaded)), ((24,), (24,)))
        tenths = (-1) ** reading.minus * reading.number * 10_000_000 // 10 ** reading.point
        expect('6.7 value', (value(reading), kilograms(reading)), ((0, tenths), (0, tenths / 10_000_000)))
        # it is a reading as any other
        expect('6.7', (reading_is_right(loaded), mode(loaded)), (True, mode(reading)))
        expect('6.1', [difference(loaded, RIGHT), difference(RIGHT, loaded), difference(loaded, loaded)], [(24,)] * 3)
        expect('6.1', [difference(reading, RIGHT), difference(RIGHT, reading), difference(reading, reading)],
               [(0, tenths - 251_000_000), (0, 251_000_000 - tenths), (0, 0)])


def test_after_eight(expect):
    """"24 overload, after 8": what is wrong by itself is 8, overloaded or not."""
    for wrong in WRONG:
        for minus, settled in product(NO_OR_YES, NO_OR_YES):
            for reading in both_loads(wrong._replace(minus=minus, settled=settled)):
                expect('24 after 8', [function(reading) for function in (value, kilograms, write_reading, mode)],
                       [(8,)] * 4)
                expect('24 after 8', reading_is_right(reading), False)
    for family in EVERY:
        for wrong in (WRONG_NUMBER, WRONG_POINT):
            for reading in both_loads(wrong._replace(family=family)):
                expect('24 after 8', (value(reading), kilograms(reading)), ((8,), (8,)))


def test_differences(expect):
    """6.1 (!) "8 of either first, then 24 of either"."""
    eight, twenty_four = (8,), (24,)
    for gross, net, answer in (
            (OVERLOADED, RIGHT, twenty_four), (RIGHT, OVERLOADED, twenty_four), (OVERLOADED, OVERLOADED, twenty_four),
            (OVERLOADED_ZERO, RIGHT, twenty_four), (RIGHT, OVERLOADED_ZERO, twenty_four),
            (OVERLOADED_ZERO, OVERLOADED, twenty_four), (OVERLOADED_ZERO, RIGHT_ZERO, twenty_four),
            # one is wrong and the other overloaded, either way round
            (WRONG_NUMBER, OVERLOADED, eight), (OVERLOADED, WRONG_NUMBER, eight), (WRONG_POINT, OVERLOADED, eight),
            (OVERLOADED, WRONG_POINT, eight), (RESERVED, OVERLOADED_ZERO, eight), (OVERLOADED_ZERO, RESERVED, eight),
            (RIGHT, RIGHT_ZERO, (0, 251_000_000)), (RIGHT_ZERO, RIGHT, (0, -251_000_000))):
        expect('6.1', difference(gross, net), answer)
    # one that is both wrong and overloaded, beside each sort
    beside = (RIGHT, RIGHT_ZERO, OVERLOADED, OVERLOADED_ZERO, *WRONG)
    for wrong in WRONG:
        for reading, other in product(both_loads(wrong), beside):
            expect('6.1', (difference(reading, other), difference(other, reading)), (eight, eight))
    # 6.5 families may be mixed: it is not the family that refuses
    for gross, net in product(EVERY, EVERY):
        for loads in product(NO_OR_YES, NO_OR_YES):
            pair = [RIGHT._replace(family=family, overload=overload) for family, overload in zip((gross, net), loads)]
            expect('6.5', difference(*pair), twenty_four if any(loads) else (0, 0))


def every_overloaded():
    """(family, digits, CON, number) of every CON with bit 3 set, in every family."""
    for family, status, (number, digits) in product(EVERY, range(256), NUMBERS):
        if status & 0x08:
            yield family, digits, status, number


def test_bytes_come_back(expect):
    """6.7 "Its digits are still in the reading and the log, so the bytes come back":
    the message, the reading and the record are as they were."""
    for family, digits, status, number in every_overloaded():
        four = digits + bytes([status])
        if family == OF_002 and status & 0x40:
            expect('6.7', read_reading(family, four), (8,))
            continue
        reading = Reading(status >> 7, number, status & 7, status >> 6 & 1, status >> 5 & 1, status >> 4 & 1, 1, family)
        expect('6.7 bytes', (read_reading(family, four), write_reading(reading)), ((0, reading), (0, four)))
        for code, kind in ((0xC3, 1), (0xC2, 2)):
            body = body_of(ONE, code, four)
            expect('6.7 message', read_message('reply', family, body), (0, ONE, code, four, (reading,)))
            room = bytearray(24)
            wire = frame_of(body)
            expect('6.7 message', (write_message('reply', family, ONE, code, four, room), bytes(room)),
                   ((0, len(wire)), wire.ljust(24, b'\x00')))
            record = Record(7, kind, 1, 0, status, digits, family)
            expect('6.7 record', record_heard(7, 'reply', family, next(hear(wire))), record)
            twenty, room = record_bytes(record), bytearray(20)
            expect('6.7 record', (write_record(record, room), bytes(room)), ((0, 20), twenty))
            expect('6.7 record', (read_record(twenty), step(twenty, 0)), ((0, record), (0, record, 20)))
            expect('6.7 record', weight_noted(record), (0, reading))


def test_lines(expect):
    """5.5 (!) "sign, point, settled and overload as before", and 5.6 (!) the family's
    field behind them."""
    for family, fields in LAST_FIELDS.items():
        for five, field in enumerate(fields):
            heard = ((ONE, 0xC3, 0x19), (ONE, 0xC2, 0x99), (('serial', 255), 0xC3, 0x8F), (('short', 253), 0xC2, 0x08))
            bodies = [body_of(address, code, b'\x51\x02\x00' + bytes([status | five << 5]))
                      for address, code, status in heard]
            expect('5.5', listing_of(family, b''.join(map(frame_of, bodies))).decode('ascii').splitlines(),
                   ['1 weight gross 1 + ------ 1 1 1' + field, '2 weight net 1 - ------ 1 1 1' + field,
                    '3 weight gross 0:255 - ------ 7 0 1' + field, '4 weight net 253 + ------ 0 0 1' + field,
                    'total 4 weights 4 refused 0'])


def test_refused_lines(expect):
    """What is refused with 8 stays a refused line: it has no hyphens."""
    for family, code in product(EVERY, WEIGHTS):
        wire = frame_of(body_of(ONE, code, b'\x5a\x02\x00\x19')) + frame_of(body_of(ONE, code, b'\x51\x02\xf0\x08'))
        expect('5.2', listing_of(family, wire), b'1 refused 8\n2 refused 8\ntotal 2 weights 0 refused 2\n')
    reserved = frame_of(body_of(ONE, 0xC3, b'\x51\x02\x00\x59'))
    expect('5.2', listing_of(OF_002, reserved), b'1 refused 8\ntotal 1 weights 0 refused 1\n')
    expect('5.2', listing_of(OF_000, reserved), b'1 weight gross 1 + ------ 1 1 1 gross\ntotal 1 weights 1 refused 0\n')


def test_longest_line(expect):
    """Hyphens take the room of the digits."""
    count, address = 2 ** 64 - 1, ('serial', 16_777_215)
    for status, digits, sign in ((0x3F, b'------', b'+'), (0x37, b'999999', b'+'), (0xBF, b'------', b'-'),
                                 (0xB7, b'999999', b'-')):
        line = b'18446744073709551615 weight gross 0:16777215 %s %s 7 1 %d scale1\n' % (sign, digits, status >> 3 & 1)
        event = next(hear(frame_of(body_of(address, 0xC3, b'\x99\x99\x99' + bytes([status])))))
        expect('longest', len(line), 67)
        room = bytearray(b'\xaa' * 68)
        expect('longest', (write_line(count, OF_001, event, room), bytes(room)), ((0, 67), line + b'\xaa'))
        room = bytearray(b'\xaa' * 66)
        expect('longest', (write_line(count, OF_001, event, room), set(room)), ((9, 0), {0xAA}))


def test_lines_count(expect):
    """5.5 (!) a hyphened line "counts in `weights`", beside every other sort of line."""
    source = RandomBytes(137)
    sorts = ((b'\x51\x02\x00\x11', 'weight'), (b'\x51\x02\x00\x19', 'weight'), (b'\x00\x00\x00\x88', 'weight'),
             (b'\x5a\x02\x00\x19', 'refused'), (b'', 'refused'))
    for family in EVERY:
        for _ in range(20):
            drawn = [source.choice(sorts) for _ in range(source.below(12))]
            wire = b''.join(frame_of(body_of(ONE, source.choice(WEIGHTS), data)) for data, _ in drawn)
            wire += frame_of(body_of(ONE, 0xC4, b'\x08\x08\x08\x08'))  # no weight, whatever its bits
            *lines, total = listing_of(family, wire).splitlines()
            kinds = [kind for _, kind in drawn]
            expect('5.5 total', total, b'total %d weights %d refused %d' % (
                len(drawn) + 1, kinds.count('weight'), kinds.count('refused')))
            expect('5.5 hyphens', [b' ------ ' in line for line in lines],
                   [kind == 'weight' and bool(data[3] & 0x08) for data, kind in drawn] + [False])


def digits_worth(words):
    """The value that the words of a weight line tell, or None where it has no digits."""
    sign, digits, point = words[4:7]
    return None if digits == '------' else int(sign + digits) * 10 ** (7 - int(point))


def expect_line_and_value(expect, family, event):
    """A weight line that shows digits has a value, and it is the digits'; a line with
    hyphens has none. Says whether it was a weight line, and whether it had a value."""
    words = event_line(7, family, event).decode('ascii').split()
    if words[1] != 'weight':
        return False, False
    reading, = read_message('reply', family, event.body)[4]
    worth = digits_worth(words)
    expect('line and value', value(reading), (24,) if worth is None else (0, worth))
    expect('line and value', len(words[5]) == 6 and set(words[5]) <= set('-' if worth is None else '0123456789'), True)
    return True, worth is not None


def test_lines_and_values(expect):
    """"The clerk saw 60 tonnes typed from a screen with the overload light on": no
    weight line shows digits for which the value is refused."""
    weights = [body_of(ONE, code, digits + bytes([status]))
               for code, (_, digits), status in product(WEIGHTS, NUMBERS, range(256))]
    for family in EVERY:
        for body in weights:
            met = expect_line_and_value(expect, family, next(hear(frame_of(body))))
            status = body[5]
            expect('line and value', met, (False, False) if family == OF_002 and status & 0x40
                   else (True, not status & 0x08))
        seen = {expect_line_and_value(expect, family, event)
                for wire in (capture(139, 4_000), *(wire for _, wire in named_captures()[:60])) for event in hear(wire)}
        expect('line and value', seen, {(True, True), (True, False), (False, False)})


@contextmanager
def values_asked():
    """The readings whose value is asked meanwhile."""
    asked, now = [], weight.value

    def watched(reading):
        asked.append(reading)
        return now(reading)

    weight.value = watched
    try:
        yield asked
    finally:
        weight.value = now


def test_tables(expect):
    """6.7 "The table of 02/6 never asks such a value", and 8.3 (!) such a record never
    gives 23: no 24 is met, and nothing is counted."""
    overloaded = [Record(7, kind, 1, 0, status, digits, family) for kind in (1, 2)
                  for family, digits, status, _ in every_overloaded() if family != OF_002 or not status & 0x40]
    settled = Record(7, 1, 1, 0, 0x11, b'\x51\x02\x00', OF_002)
    full = Cell(65_535, 65_535, -12)
    for record in overloaded:
        for cell in (Cell(0, 0, 0), Cell(7, 9, 10), full):
            expect('8.3', add(record, cell), (0, cell))
    log = b''.join(map(record_bytes, overloaded[::7]))
    lent = replaced(EMPTY_TABLE, (0, 0), full)
    with values_asked() as asked:
        for table in (EMPTY_TABLE, lent):
            expect('6.7 table', fill(log, table), (0, len(overloaded[::7]), table))
            expect('6.7 table', enter(overloaded[0], table), (0, 1, table))
        expect('6.7 table', asked, [])
        number, entered, table = fill(log + record_bytes(settled) + log, EMPTY_TABLE)
        expect('6.7 table', (number, entered, cells_told(table)),
               (0, 2 * len(overloaded[::7]) + 1, [(0, 0, (1, 0, 251_000_000))]))
        expect('6.7 table', asked, [Reading(0, 251, 1, 0, 0, 1, 0, OF_002)])


TESTS = (test_no_value, test_after_eight, test_differences, test_bytes_come_back, test_lines, test_refused_lines,
         test_longest_line, test_lines_count, test_lines_and_values, test_tables)
