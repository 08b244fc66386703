"""02 request 4, "Bits 6 and 5 mean something, per family", and the open points of it.

What is expected is written out by hand, as the request and the open points say
it. Nothing here asks `families.TABLE`, but for the test of the table itself.
"""

import families
from cases_log import record_bytes
from families import OF_000, OF_001, OF_002, PLAIN
from frame import body_of, frame_of
from good_messages import ROWS, good_data
from line import Event, hear
from listing import FAMILY_NOT_SAID, event_line, listing_of, write_line, write_total
from log import NO_WEIGHT, Record, read_record, record_heard, step, weight_noted, write_record
from message import ROLES, read_message, write_message
from random_bytes import RandomBytes
from weight import (Reading, difference, kilograms, mode, read_reading, reading_is_right, value,
                    write_reading)

EVERY = (PLAIN, OF_000, OF_001, OF_002)
NOT_002 = (PLAIN, OF_000, OF_001)
ONE = ('short', 1)
E3 = bytes.fromhex('ff01c351020001deffff')
E4 = bytes.fromhex('ff01c20500009132ffff')

# (net mode, platform, key code, event) of each family, by its bits 6 and 5.
MODES = {
    (PLAIN, 0, 0): (0, 0, 0, 0), (PLAIN, 0, 1): (0, 0, 0, 0),
    (PLAIN, 1, 0): (0, 0, 0, 0), (PLAIN, 1, 1): (0, 0, 0, 0),
    # 000 "bit 6 key code entered, bit 5 net mode"
    (OF_000, 0, 0): (1, 0, 1, 0), (OF_000, 0, 1): (2, 0, 1, 0),
    (OF_000, 1, 0): (1, 0, 2, 0), (OF_000, 1, 1): (2, 0, 2, 0),
    # 001 "bit 6 event, bit 5 current scale number"
    (OF_001, 0, 0): (0, 1, 0, 1), (OF_001, 0, 1): (0, 2, 0, 1),
    (OF_001, 1, 0): (0, 1, 0, 2), (OF_001, 1, 1): (0, 2, 0, 2),
    # 002 "bit 6 reserved and must be 0, bit 5 net mode"
    (OF_002, 0, 0): (1, 0, 0, 0), (OF_002, 0, 1): (2, 0, 0, 0),
}
# The last field, by bit 5: "`net`, `gross`, or `scale0`, `scale1`".
LAST_FIELDS = {PLAIN: ('', ''), OF_000: (' gross', ' net'), OF_001: (' scale0', ' scale1'),
               OF_002: (' gross', ' net')}


def status_of(six, five, rest=0x01):
    return rest | six << 6 | five << 5


def weight_bytes(status):
    return b'\x51\x02\x00' + bytes([status])


def reading_of(family, six, five):
    return Reading(0, 251, 1, six, five, 0, 0, family)


def event_of(code, data, address=ONE):
    return next(hear(frame_of(body_of(address, code, data))))


def listed(family, *bodies):
    return listing_of(family, b''.join(frame_of(body) for body in bodies)).decode('ascii').split('\n')


def written(record):
    room = bytearray(20)
    answer = write_record(record, room)
    return bytes(room) if answer == (0, 20) else answer


def test_table(expect):
    """"1 to 3 for 000 to 002; 0 is an old record whose bits stay plain"."""
    expect('02/4 table', {family: tuple(called) for family, called in families.TABLE.items()},
           {0: (None, None), 1: ('key code entered', 'net mode'), 2: ('event', 'current scale number'),
            3: ('reserved and must be 0', 'net mode')})
    expect('02/4 table', (PLAIN, OF_000, OF_001, OF_002), (0, 1, 2, 3))
    expect('02/4 table', [number for number in range(256) if families.is_family(number)], [0, 1, 2, 3])


def test_four_bytes(expect):
    """"the four bytes still come back exactly"; 8 for 002 with bit 6 set, and for
    a half above 9 in every family."""
    for family in EVERY:
        for status in range(256):
            four = b'\x51\x02\x90' + bytes([status])
            answer = read_reading(family, four)
            if family == OF_002 and status & 0x40:
                expect('02/4 bit 6', answer, (8,))
                continue
            expect('02/4 four bytes', (answer[0], answer[1].family), (0, family))
            expect('02/4 four bytes', write_reading(answer[1]), (0, four))
        for place in range(3):
            for byte in (0x0A, 0xA0, 0xFF):
                four = bytearray(b'\x51\x02\x00\x01')
                four[place] = byte
                expect('02/4 half above 9', read_reading(family, bytes(four)), (8,))


def test_modes(expect):
    """"The loadmaster asks whether a weight was net mode or the second platform." """
    for (family, six, five), answers in MODES.items():
        for minus, number, point, settled, overload in ((0, 251, 1, 0, 0), (1, 999_999, 7, 1, 1), (1, 0, 0, 0, 1)):
            reading = Reading(minus, number, point, six, five, settled, overload, family)
            expect('02/4 mode', mode(reading), (0,) + answers)
    # 8 first: bit 6 of 002, and a number or a point out of its range in every family
    for five in (0, 1):
        expect('02/4 mode', mode(reading_of(OF_002, 1, five)), (8,))
    for family in EVERY:
        for six in (0, 1):
            expect('02/4 mode', mode(reading_of(family, six, 1)._replace(number=1_000_000)), (8,))
            expect('02/4 mode', mode(reading_of(family, six, 1)._replace(point=8)), (8,))


def test_readings_handed_in(expect):
    # 6.3 (!) 002 with bit 6: 8 wherever a reading is used, the four bytes included
    good = reading_of(OF_000, 0, 0)
    for five in (0, 1):
        reserved = reading_of(OF_002, 1, five)
        expect('6.3', reading_is_right(reserved), False)
        expect('6.3', [write_reading(reserved), value(reserved), kilograms(reserved), mode(reserved)], [(8,)] * 4)
        expect('6.3', [difference(reserved, good), difference(good, reserved), difference(reserved, reserved)],
               [(8,)] * 3)
    # 6.4 bit 6 is free in every other family
    for family in NOT_002:
        for five in (0, 1):
            free = reading_of(family, 1, five)
            expect('6.4', (reading_is_right(free), value(free)), (True, (0, 251_000_000)))
            expect('6.4', write_reading(free), (0, weight_bytes(status_of(1, five))))
    # 6.5 families may be mixed in a difference
    for gross in EVERY:
        for net in EVERY:
            expect('6.5', difference(reading_of(gross, 0, 0), reading_of(net, 0, 1)), (0, 0))
    for family in EVERY:
        for wrong in (good._replace(number=1_000_000, family=family), good._replace(point=8, family=family)):
            expect('02/4 ranges', [write_reading(wrong), value(wrong), kilograms(wrong)], [(8,)] * 3)


def test_family_alone(expect):
    """Of a legal reading neither the value nor kilograms nor the bytes depend on
    the family, and its line differs in the last field only."""
    source = RandomBytes(73)
    for _ in range(100):
        five = source.below(2)
        reading = Reading(source.below(2), source.below(1_000_000), source.below(8), 0, five,
                          source.below(2), source.below(2), PLAIN)
        for family in EVERY:
            same = reading._replace(family=family)
            expect('02/4 value', (value(same), kilograms(same)), (value(reading), kilograms(reading)))
            expect('02/4 bytes', write_reading(same), write_reading(reading))
            expect('02/4 bytes', read_reading(family, write_reading(reading)[1]), (0, same))
            event = event_of(0xC3, write_reading(reading)[1])
            expect('02/4 line', event_line(7, family, event),
                   event_line(7, PLAIN, event)[:-1] + LAST_FIELDS[family][five].encode('ascii') + b'\n')


def test_messages(expect):
    """4.12 (!) both reader and writer take the family, and judge 8 alike."""
    for family in EVERY:
        for code in (0xC2, 0xC3):
            for status in range(256):
                data = weight_bytes(status)
                reserved = family == OF_002 and bool(status & 0x40)
                answer = read_message('reply', family, body_of(ONE, code, data))
                expect('4.12', answer, (8,) if reserved else
                       (0, ONE, code, data, (read_reading(family, data)[1],)))
                room = bytearray(b'\xaa' * 24)
                number, length = write_message('reply', family, ONE, code, data, room)
                expect('4.12', (number, length > 0), (8, False) if reserved else (0, True))
                wanted = b'' if reserved else frame_of(body_of(ONE, code, data))
                expect('4.12', bytes(room), wanted.ljust(24, b'\xaa'))
                # as a request there is no weight, so four bytes are too many
                expect('4.12', read_message('request', family, body_of(ONE, code, data)), (7,))
                expect('4.12', write_message('request', family, ONE, code, data, room), (7, 0))
            expect('4.12', read_message('request', family, body_of(ONE, code, b'')), (0, ONE, code, b'', ()))


def test_orders(expect):
    """Bit 6 is an 8 like any other: behind 1, 4, 5, 6 and 7, ahead of 2 and 9."""
    reserved = weight_bytes(0x41)
    body = body_of(ONE, 0xC3, reserved)
    expect('02/4 order', [read_message('reply', OF_002, lent) for lent in
                          (body, body[:-1] + bytes([body[-1] ^ 1]), body_of(('short', 0xFE), 0xC3, reserved),
                           body_of(ONE, 0xC1, reserved), body_of(ONE, 0xC3, reserved + b'\x41'))],
           [(8,), (4,), (5,), (6,), (7,)])
    expect('02/4 order', [write_message('reply', OF_002, address, code, data, bytearray())
                          for address, code, data in ((('short', 0), 0xC3, reserved), (ONE, 0xC1, reserved),
                                                      (ONE, 0xC3, reserved[1:]), (ONE, 0xC3, reserved))],
           [(5, 0), (6, 0), (7, 0), (8, 0)])
    expect('02/4 order', write_message('reply', OF_001, ONE, 0xC3, reserved, bytearray()), (9, 0))


def test_other_messages(expect):
    """What is no weight is read and written alike in every family, bit 6 of a
    BF status and of inputs too (open point 4.5)."""
    source = RandomBytes(79)
    bodies = [(role, code, good_data(source, role, code, 12)) for role, code in ROWS
              if (role, code) not in (('reply', 0xC2), ('reply', 0xC3)) for _ in range(6)]
    bodies += [('reply', 0xBF, b'\x40'), ('reply', 0xC4, b'\x51\x02\x00\x41'), ('reply', 0xBF, b'\x80'),
               ('request', 0xD0, b'\x51\x02\x00\x41'), ('reply', 0x11, b''), ('reply', 0xC0, b'\x41')]
    for role, code, data in bodies:
        body = body_of(ONE, code, data)
        expect('02/4 other', len({read_message(role, family, body) for family in EVERY}), 1)
        expect('02/4 other', len({write_message(role, family, ONE, code, data, bytearray(40))
                                  for family in EVERY}), 1)
        event = Event(0, 9, len(body), body)
        expect('02/4 other', len({event_line(1, family, event) for family in EVERY}), 1)
        expect('02/4 other', len({record_heard(7, role, family, event) for family in EVERY}), 1)


def test_lines(expect):
    """"The listing adds one field at the end of a weight line"."""
    # E3 and E4 as terminals of 002
    expect('02/4 E3, E4', listing_of(OF_002, E3 + E4),
           b'1 weight gross 1 + 000251 1 0 0 gross\n2 weight net 1 - 000005 1 1 0 gross\n'
           b'total 2 weights 2 refused 0\n')
    # 5.6 (!) from bit 5 alone, whatever the code: both words are printed
    for family, clear, set_ in ((PLAIN, '', ''), (OF_000, ' gross', ' net'), (OF_001, ' scale0', ' scale1'),
                                (OF_002, ' gross', ' net')):
        lines = listed(family, body_of(ONE, 0xC3, weight_bytes(0x01)), body_of(ONE, 0xC2, weight_bytes(0x01)),
                       body_of(ONE, 0xC3, weight_bytes(0x21)), body_of(ONE, 0xC2, weight_bytes(0x21)))
        expect('5.6', lines, ['1 weight gross 1 + 000251 1 0 0' + clear, '2 weight net 1 + 000251 1 0 0' + clear,
                              '3 weight gross 1 + 000251 1 0 0' + set_, '4 weight net 1 + 000251 1 0 0' + set_,
                              'total 4 weights 4 refused 0', ''])
    # bit 6 changes no line but that of 002, which is refused
    for family, field in ((PLAIN, ''), (OF_000, ' net'), (OF_001, ' scale1')):
        expect('02/4 bit 6', listed(family, body_of(ONE, 0xC3, weight_bytes(0x61)))[0],
               '1 weight gross 1 + 000251 1 0 0' + field)
    expect('02/4 bit 6', listed(OF_002, body_of(ONE, 0xC3, weight_bytes(0x61)), body_of(ONE, 0xCD, b'')),
           ['1 refused 8', '2 message 1 CD', 'total 2 weights 0 refused 1', ''])
    # 5.7 where no family is said, 002
    expect('5.7', FAMILY_NOT_SAID, OF_002)


def test_line_rooms(expect):
    """The field counts in the line's length."""
    event = event_of(0xC3, weight_bytes(0x21))
    for family, line in ((PLAIN, b'1 weight gross 1 + 000251 1 0 0\n'),
                         (OF_000, b'1 weight gross 1 + 000251 1 0 0 net\n'),
                         (OF_001, b'1 weight gross 1 + 000251 1 0 0 scale1\n'),
                         (OF_002, b'1 weight gross 1 + 000251 1 0 0 net\n')):
        room = bytearray(b'\xaa' * (len(line) + 1))
        expect('02/4 line', (write_line(1, family, event, room), bytes(room)), ((0, len(line)), line + b'\xaa'))
        room = bytearray(b'\xaa' * (len(line) - 1))
        expect('02/4 line', (write_line(1, family, event, room), set(room)), ((9, 0), {0xAA}))
    expect('02/4 total', write_total(3, 2, 1, bytearray(28)), (0, 28))


def family_records():
    """(record, whether it is good) of kinds 1 and 2 for every byte 17 and both bits."""
    for kind in (1, 2):
        for family in range(256):
            for six in (0, 1):
                for five in (0, 1):
                    record = Record(7, kind, 1, 0, status_of(six, five), b'\x51\x02\x00', family)
                    yield record, family <= 2 or (family == 3 and not six)


def test_byte_17(expect):
    """7.8 (!) "11 also for byte 17 above 3, not 0 in kind 3, or 3 with status bit
    6 set", in reading, in writing, in a step, and of the weight noted."""
    for record, good in family_records():
        twenty = record_bytes(record)
        four = record.weight + bytes([record.status])
        expect('7.8', read_record(twenty), (0, record) if good else (11,))
        expect('7.8', written(record), twenty if good else (11, 0))
        expect('7.8', step(twenty, 0), (0, record, 20) if good else (11,))
        expect('7.8', weight_noted(record), read_reading(record.family, four) if good else (11,))
    for family in range(256):
        for number in range(1, 9):
            record = Record(7, 3, 0, 0, number, NO_WEIGHT, family)
            answers = (read_record(record_bytes(record)), written(record), weight_noted(record))
            expect('7.8', answers, ((0, record), record_bytes(record), (number,)) if family == 0
                   else ((11,), (11, 0), (11,)))
    # the layout by its places: byte 17 is the family, 18 and 19 are zero
    expect('7.8', written(Record(7, 1, 1, 0, 0x01, b'\x51\x02\x00', 3)).hex(),
           '0700000000000000' '01' '01' '000000' '01' '510200' '03' '0000')
    for family in EVERY:
        for kind, status, digits in ((1, 1, b'\x51\x02\x00'), (2, 0x31, NO_WEIGHT), (3, 4, NO_WEIGHT)):
            twenty = record_bytes(Record(7, kind, 0, 0, status, digits, 0 if kind == 3 else family))
            for ending in (b'\x01\x00', b'\x00\x01', b'\xff\x00', b'\x00\xff', b'\x03\x03'):
                expect('7.8', read_record(twenty[:18] + ending), (11,))
    # 11 before 9
    expect('7.8', write_record(Record(7, 1, 1, 0, 0x41, NO_WEIGHT, 3), bytearray()), (11, 0))
    expect('7.8', write_record(Record(7, 1, 1, 0, 0x41, NO_WEIGHT, 2), bytearray()), (9, 0))


def test_status(expect):
    # 7.9 CON is any byte in kinds 1 and 2; only bit 6 is judged, under family 3 alone
    for kind in (1, 2):
        for family in EVERY:
            good = [status for status in range(256)
                    if read_record(record_bytes(Record(7, kind, 1, 0, status, NO_WEIGHT, family))) != (11,)]
            expect('7.9', good, [status for status in range(256) if family != OF_002 or not status & 0x40])


def test_records_heard(expect):
    """A record of a line carries the line's family; kind 3 carries 0."""
    for family in EVERY:
        for six in (0, 1):
            for five in (0, 1):
                status = status_of(six, five)
                refused = Record(7, 3, 0, 0, 8, NO_WEIGHT, 0)
                for code, kind in ((0xC3, 1), (0xC2, 2)):
                    event = event_of(code, weight_bytes(status), ('serial', 255))
                    record = Record(7, kind, 0, 255, status, b'\x51\x02\x00', family)
                    wanted = refused if family == OF_002 and six else record
                    expect('02/4 heard', record_heard(7, 'reply', family, event), wanted)
                    # and it is a good record, whose weight is what was heard
                    heard = read_reading(family, weight_bytes(status))
                    expect('02/4 heard', read_record(written(wanted)), (0, wanted))
                    expect('02/4 heard', weight_noted(wanted), heard)
                    # four bytes are no request
                    expect('02/4 heard', record_heard(7, 'request', family, event), refused._replace(status=7))
        for role in ROLES:
            for number in range(1, 9):
                expect('02/4 heard', record_heard(7, role, family, Event(number, 9, 4, b'')),
                       Record(7, 3, 0, 0, number, NO_WEIGHT, 0))
            expect('02/4 heard', record_heard(7, role, family, Event(11, 9, 4, b'')), (8,))


def good_before(twenty):
    """01's rule of a record, with 02 request 1, before this request."""
    kind, address, serial, status, digits = twenty[8], twenty[9], twenty[10:13], twenty[13], twenty[14:17]
    if any(twenty[17:]):
        return False
    if kind == 3:
        return 1 <= status <= 8 and not any(twenty[9:13]) and not any(digits)
    decimal = all(half in '0123456789' for half in digits.hex())
    return kind in (1, 2) and address <= 0xFD and (address == 0 or not any(serial)) and decimal


def test_old_records(expect):
    """"0 is an old record whose bits stay plain": every record that was good with
    byte 17 zero is good now, with the same fields and family 0; one that was bad
    with bytes 17 to 19 zero is bad now."""
    good = 0
    for kind in range(5):
        for address in (0, 1, 0xFD, 0xFE):
            for serial in (b'\x00\x00\x00', b'\x01\x02\x03'):
                for digits in (NO_WEIGHT, b'\x51\x02\x00', b'\x5a\x02\x00'):
                    for status in range(256):
                        twenty = b'\x07\x06\x05\x04\x03\x02\x01\x00' + bytes([kind, address]) + serial \
                            + bytes([status]) + digits + bytes(3)
                        record = Record(0x01020304050607, kind, address, int.from_bytes(serial, 'little'),
                                        status, digits, 0)
                        before = good_before(twenty)
                        good += before
                        expect('6.4 old records', read_record(twenty), (0, record) if before else (11,))
                        if before and kind != 3:
                            expect('6.4 old records', mode(weight_noted(record)[1]), (0, 0, 0, 0, 0))
                            expect('6.4 old records', write_reading(weight_noted(record)[1])[1],
                                   digits + bytes([status]))
    # Kinds 1 and 2: two serials and two short addresses, two weights, every status. Kind 3: one for each.
    expect('6.4 old records', good, 2 * 4 * 2 * 256 + 8)


TESTS = (test_table, test_four_bytes, test_modes, test_readings_handed_in, test_family_alone, test_messages,
         test_orders, test_other_messages, test_lines, test_line_rooms, test_byte_17, test_status,
         test_records_heard, test_old_records)
