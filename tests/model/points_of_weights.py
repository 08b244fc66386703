"""The open points of sections 6 and 7: weights and the log.

Readings are plain here and records are old ones. The points of 02 request 4,
6.3 to 6.5, 7.8 and 7.9, stand in points_of_families.py, those of 02 request 7,
6.1 and 6.7, in points_of_overload.py.
"""

from families import PLAIN
from frame import HIGHEST_SHORT, body_of, frame_of
from line import Event, hear
from log import NO_WEIGHT, Record, read_record, record_heard, step, weight_noted, write_record
from message import ROLES
from random_bytes import RandomBytes
from weight import (Reading, difference, float_bits, is_near, kilograms, kilograms_of, read_reading,
                    value, write_reading)

ONE = ('short', 1)
HEAVY = Reading(0, 999_999, 0, 0, 0, 1, 0, PLAIN)
WRONG = Reading(0, 1_000_000, 0, 0, 0, 1, 0, PLAIN)
FAR = Reading(0, 1, 8, 0, 0, 1, 0, PLAIN)


def written(record):
    room = bytearray(20)
    answer = write_record(record, room)
    return bytes(room) if answer == (0, 20) else answer


def test_readings(expect):
    for status in range(256):
        four = b'\x51\x02\x90' + bytes([status])
        expect('four bytes come back', write_reading(read_reading(PLAIN, four)[1]), (0, four))
    for number in (0, 9, 99, 10_000, 100_000, 251_399, 999_999):
        for point in range(8):
            reading = Reading(1, number, point, 0, 1, 0, 1, PLAIN)
            expect('readings come back', read_reading(PLAIN, write_reading(reading)[1]), (0, reading))
    for place in range(3):
        for byte in (0x0A, 0xA0, 0x9F, 0xFF):
            four = bytearray(4)
            four[place] = byte
            expect('half above 9', read_reading(PLAIN, bytes(four)), (8,))
    expect('91 is a status', read_reading(PLAIN, b'\x05\x00\x00\x91')[1], Reading(1, 5, 1, 0, 0, 1, 0, PLAIN))
    for wrong in (WRONG, FAR):
        expect('8 wherever', [write_reading(wrong), value(wrong), kilograms(wrong)], [(8,)] * 3)


def test_values(expect):
    expect('largest', value(HEAVY), (0, 9_999_990_000_000))
    expect('least', difference(HEAVY._replace(minus=1), HEAVY), (0, -19_999_980_000_000))
    # 8 of either reading is 8
    for pair in ((WRONG, HEAVY), (HEAVY, WRONG), (FAR, WRONG), (HEAVY, FAR)):
        expect('8 of either', difference(*pair), (8,))


def test_kilograms(expect):
    # 6.6 the inequality, and nearest: no other float is as near
    source = RandomBytes(31)
    for _ in range(300):
        tenths = source.below(1_000_000) * 10 ** source.below(8)
        expect('6.6', is_near(kilograms_of(tenths), tenths), True)
        expect('6.6', kilograms_of(-tenths) == -kilograms_of(tenths), True)
        expect('6.6', kilograms_of(tenths), tenths / 10_000_000)
    expect('6.6', is_near(25.100000000000005, 251_000_000), False)
    expect('6.6', kilograms(Reading(0, 251, 1, 0, 0, 0, 0, PLAIN)), (0, 25.1))
    minus_zero = Reading(1, 0, 3, 0, 0, 0, 0, PLAIN)
    expect('minus zero', float_bits(kilograms(minus_zero)[1]), bytes(8))
    expect('minus zero', (value(minus_zero), write_reading(minus_zero)), ((0, 0), (0, b'\x00\x00\x00\x83')))


def test_log(expect):
    good = written(Record(7, 1, 1, 0, 0x01, b'\x51\x02\x00', 0))
    bad = good[:8] + b'\x04' + good[9:]
    expect('record', good.hex(), '0700000000000000' '01' '01' '000000' '01' '510200' '000000')
    for record in (Record(0x0807060504030201, 1, 0, 0x030201, 0x91, b'\x12\x34\x56', 0),
                   Record(0x0807060504030201, 2, HIGHEST_SHORT, 0, 0x91, b'\x12\x34\x99', 0)):
        expect('records come back', read_record(written(record)), (0, record))
        expect('records come back', step(written(record), 0), (0, record, 20))
    # 6.2 the record writer is given the record's fields, not a reading
    expect('6.2', written(Record(7, 1, 1, 0, 0x01, b'\x5a\x02\x00', 0)), (11, 0))
    # 7.1 (!) record by record from the front: 11 comes before 10
    expect('7.1', step(bad + b'\x00', 0), (11,))
    expect('7.1', [step(good + b'\x00' * more, 20) for more in (1, 19)], [(10,), (10,)])
    expect('7.1', step(good + bad, 0)[2], 20)
    # 7.2 (!) address 00 with serial 0 is good in kinds 1 and 2
    for kind in (1, 2):
        expect('7.2', len(written(Record(7, kind, 0, 0, 0, NO_WEIGHT, 0))), 20)
    expect('7.2', written(Record(7, 1, 1, 1, 0, NO_WEIGHT, 0)), (11, 0))
    # 7.3 kind 3 keeps the number only, 1 to 8
    statuses = [status for status in range(256) if written(Record(7, 3, 0, 0, status, NO_WEIGHT, 0)) != (11, 0)]
    expect('7.3', statuses, [1, 2, 3, 4, 5, 6, 7, 8])
    expect('7.3', written(Record(7, 3, 1, 0, 4, NO_WEIGHT, 0)), (11, 0))
    # 7.6 time is any 64-bit number, low first
    expect('7.6', written(Record(2 ** 64 - 2, 3, 0, 0, 4, NO_WEIGHT, 0))[:8], b'\xfe' + b'\xff' * 7)
    # 7.7 a place past the log's end is the end; an empty log is whole
    expect('7.7', [step(good, 20), step(good, 40), step(b'', 0), step(b'', 20)], [('end',)] * 4)
    # 7.10 a serial above 16,777,215 is 11
    expect('7.10', written(Record(7, 1, 0, 16_777_216, 0, NO_WEIGHT, 0)), (11, 0))
    expect('7.10', len(written(Record(7, 1, 0, 16_777_215, 0, NO_WEIGHT, 0))), 20)
    # "Writing a record judges 11, then 9."
    expect('11 then 9', write_record(Record(7, 0, 0, 0, 0, NO_WEIGHT, 0), bytearray(3)), (11, 0))
    room = bytearray(b'\xaa' * 19)
    expect('11 then 9', (write_record(Record(7, 3, 0, 0, 1, NO_WEIGHT, 0), room), room), ((9, 0), b'\xaa' * 19))


def test_heard(expect):
    def recorded(role, code, data, address=ONE):
        event = next(hear(frame_of(body_of(address, code, data))))
        return record_heard(7, role, PLAIN, event)

    # 7.4 (!) kind 3: refusals of the line and of the message layer
    for role in ROLES:
        expect('7.4', [record_heard(7, role, PLAIN, Event(number, 9, 4, b'')) for number in range(1, 9)],
               [Record(7, 3, 0, 0, number, NO_WEIGHT, 0) for number in range(1, 9)])
        # a refusal that no line can meet is 8, and makes no record
        for number in (9, 10, 11, 20, 21, 22, 23, 24, 25, 26, 31):
            expect('not met on the line', record_heard(7, role, PLAIN, Event(number, 9, 4, b'')), (8,))
    refused = ((0x11, b''), (0xC3, b''), (0xBF, b'\x80'))
    expect('7.4', [recorded('reply', code, data) for code, data in refused],
           [Record(7, 3, 0, 0, number, NO_WEIGHT, 0) for number in (6, 7, 8)])
    expect('7.4', recorded('request', 0xEE, b'\x01'), Record(7, 3, 0, 0, 6, NO_WEIGHT, 0))
    # 7.5 a request makes no record; nor do other messages
    expect('7.5', [recorded('request', 0xC3, b''), recorded('request', 0xC2, b''),
                   recorded('reply', 0xCD, b'')], [None] * 3)
    expect('heard', recorded('reply', 0xC3, b'\x51\x02\x00\x01'), Record(7, 1, 1, 0, 1, b'\x51\x02\x00', 0))
    expect('heard', recorded('reply', 0xC2, b'\x05\x00\x00\x91', ('serial', 255)),
           Record(7, 2, 0, 255, 0x91, b'\x05\x00\x00', 0))


def test_weights_noted(expect):
    """The weight that a record notes."""
    gross = Record(7, 1, 1, 0, 0x01, b'\x51\x02\x00', 0)
    net = Record(7, 2, 0, 255, 0x91, b'\x05\x00\x00', 0)
    # kinds 1 and 2: the reading of W0 W1 W2 and the status as CON
    expect('weight noted', weight_noted(gross), (0, Reading(0, 251, 1, 0, 0, 0, 0, PLAIN)))
    expect('weight noted', weight_noted(net), (0, Reading(1, 5, 1, 0, 0, 1, 0, PLAIN)))
    expect('weight noted', weight_noted(Record(7, 1, 1, 0, 0xFF, b'\x12\x34\x56', 0)),
           (0, Reading(1, 563_412, 7, 1, 1, 1, 1, PLAIN)))
    # kind 3: the refusal that it notes, never a reading of its zeros
    expect('refusal noted', [weight_noted(Record(7, 3, 0, 0, number, NO_WEIGHT, 0)) for number in range(1, 9)],
           [(number,) for number in range(1, 9)])
    # zeros that were heard are a reading, with the same bytes but for the kind
    expect('zeros heard', weight_noted(Record(7, 1, 0, 0, 4, NO_WEIGHT, 0)),
           (0, Reading(0, 0, 4, 0, 0, 0, 0, PLAIN)))
    # what breaks a rule is 11 in every kind, digits that are not decimal too
    wrong = [Record(7, 3, 0, 0, status, NO_WEIGHT, 0) for status in [0] + list(range(9, 256))]
    wrong += [gross._replace(kind=kind) for kind in (0, 3, 4, 255)]
    wrong += [gross._replace(weight=digits) for digits in (b'\x5a\x02\x00', b'\x51\xa2\x00', b'\x51\x02\x0f')]
    wrong += [gross._replace(address=address) for address in (0xFE, 0xFF)]
    wrong += [gross._replace(serial=1), net._replace(serial=16_777_216),
              Record(7, 3, 0, 0, 4, b'\x00\x00\x01', 0), Record(7, 3, 1, 0, 4, NO_WEIGHT, 0)]
    expect('11 of a weight noted', {weight_noted(record) for record in wrong}, {(11,)})


TESTS = (test_readings, test_values, test_kilograms, test_log, test_heard, test_weights_noted)
