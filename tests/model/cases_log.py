"""Cases of log records: written, read, made from what was heard, stepped, and the weights they note."""

from addresses import BRIDGES, HIGH
from captures import (E3_WEIGHT, WEIGHTS, any_body, high_body, reply_body, request_body, weight_body,
                      wrong_field_body)
from cases_frame import marked_room
from cases_line import event_with
import families
from families_asked import BITS_6_AND_5, BYTES_17, every_mix, some_family, with_bits
from frame import HIGHEST_SHORT, body_of, frame_of
from good_messages import weight_data
from line import Event, hear
from log import NO_FAMILY, NO_WEIGHT, Record, read_record, record_heard, step, weight_noted, write_record
from message import ROLES
from overloads_asked import overloaded_replies
from random_bytes import RandomBytes
from refusals import ALL

TIMES = (0, 1, 255, 256, 86_400, 2 ** 32, 2 ** 63, 2 ** 64 - 1)
GOOD = Record(1000, 1, 1, 0, 0x01, b'\x51\x02\x00', families.OF_002)
GOOD_SERIAL = Record(1000, 2, 0, 255, 0x91, b'\x05\x00\x00', families.OF_000)
GOOD_REFUSAL = Record(1000, 3, 0, 0, 4, NO_WEIGHT, NO_FAMILY)
OLD = GOOD_SERIAL._replace(family=families.PLAIN)
WIDE_SERIALS = (0x1000000, 2 ** 32 - 1)  # open point 7.10
HALVES = (0, 9, 10, 15)  # of a weight byte, at and past the decimal digits
# At and past the refusals that a line meets; the later numbers of 01 and 02; and bits of CON.
STATUSES = (*range(12), *range(20, 28), 31, 0x40, 0x91, 128, 255)


def field_changes():
    """Each field at and past its boundaries, in each kind, of old and new records."""
    for base in (GOOD, GOOD._replace(kind=2, family=families.OF_001), OLD, GOOD_REFUSAL):
        yield base
        for time in TIMES:
            yield base._replace(time=time)
        for kind in (0, 1, 2, 3, 4, 5, 17, 128, 255):
            yield base._replace(kind=kind)
        for address in (0, 1, HIGHEST_SHORT - 1) + HIGH:
            yield base._replace(address=address)
        for serial in (0, 1, 255, 256, 0xFFFFFE, 0xFFFFFF, 0x010203):
            yield base._replace(serial=serial)
        for status in STATUSES:
            yield base._replace(status=status)
        for byte in (0x00, 0x09, 0x0A, 0x90, 0x99, 0x9A, 0xA0, 0xFF):
            for place in range(3):
                digits = bytearray(base.weight)
                digits[place] = byte
                yield base._replace(weight=bytes(digits))


def family_changes():
    """Each byte 17 of interest in each kind, bits 6 and 5 of the status clear and
    set. In kind 3 a status with one of them set is wrong by itself."""
    for base in (GOOD, GOOD_SERIAL, GOOD_REFUSAL):
        for family in BYTES_17:
            for bits in BITS_6_AND_5:
                yield base._replace(family=family, status=with_bits(base.status, bits))


def wide_serials():
    for serial in WIDE_SERIALS:
        for base in (GOOD, GOOD_SERIAL, GOOD_REFUSAL):
            yield base._replace(serial=serial)


def some_record(source):
    """A record whose fields are right, but for bit 6 where the family is 002."""
    kind = source.between(1, 3)
    if kind == 3:
        return Record(source.number(), 3, 0, 0, source.between(1, 8), NO_WEIGHT, NO_FAMILY)
    address = source.choice((0, *BRIDGES, source.between(1, HIGHEST_SHORT)))
    serial = 0 if address else source.below(2 ** 24)
    data = weight_data(source)
    return Record(source.number(), kind, address, serial, data[3], data[:3], some_family(source))


def write_case(record, length):
    room = bytearray(marked_room(length))
    answer = write_record(record, room)
    return ('write_record', tuple(record) + (marked_room(length),), answer + (bytes(room),))


def writing_cases(source):
    for group in (field_changes, wide_serials, family_changes):
        for record in group():
            yield write_case(record, 20)
    for length in (0, 1, 19, 20, 21, 40):
        for record in (GOOD, GOOD_SERIAL, OLD, GOOD_REFUSAL, GOOD._replace(kind=0), GOOD._replace(status=0x41)):
            yield write_case(record, length)
    for _ in range(60):
        yield write_case(some_record(source), source.between(18, 24))


def record_bytes(record):
    """The 20 bytes of a record by its places alone, right or wrong."""
    return (record.time.to_bytes(8, 'little') + bytes([record.kind, record.address])
            + record.serial.to_bytes(3, 'little') + bytes([record.status]) + record.weight
            + bytes([record.family, 0, 0]))


def read_case(twenty):
    return ('read_record', (twenty,), read_record(twenty))


def changed(record, place, byte):
    """A record's 20 bytes with one of them changed."""
    twenty = bytearray(record_bytes(record))
    twenty[place] = byte
    return bytes(twenty)


def last_byte_cases():
    """Bytes 18 and 19 not zero, in each kind of old and new records; and byte 17."""
    for base in (GOOD, GOOD_SERIAL, GOOD_REFUSAL):
        for byte in (1, 2, 3, 4, 255):
            yield read_case(changed(base, 17, byte))
            for family in families.ALL:
                for place in (18, 19):
                    yield read_case(changed(base._replace(family=family), place, byte))


def record_reading_cases(source):
    for record in field_changes():
        yield read_case(record_bytes(record))
    for record in family_changes():
        yield read_case(record_bytes(record))
    yield from last_byte_cases()
    for _ in range(100):
        record = some_record(source)
        yield read_case(record_bytes(record))
        yield read_case(changed(record, source.below(20), source.byte()))
    for _ in range(20):
        yield read_case(source.bytes(20))


def heard_case(time, role, family, event):
    return ('record_heard', (time, role, family, event), (record_heard(time, role, family, event),))


def heard_cases(source):
    for number in range(1, 6):
        for role in ROLES:
            yield heard_case(source.choice(TIMES), role, some_family(source), Event(number, 9, 4, b''))
    makers = (weight_body, reply_body, request_body, any_body, high_body, wrong_field_body)
    for role in ROLES:
        for maker in makers:
            for _ in range(20):
                for event in hear(frame_of(maker(source))):
                    yield heard_case(source.choice(TIMES), role, some_family(source), event)


def family_cases():
    """Both weights in both roles, in every family with bits 6 and 5 clear and
    set: a reply makes a record of its family, or kind 3 with status 8."""
    for family, status in every_mix(0x91):
        for role in ROLES:
            for code in WEIGHTS:
                for address in (('short', 1), ('serial', 255)):
                    body = body_of(address, code, b'\x05\x00\x00' + bytes([status]))
                    yield heard_case(1000, role, family, event_with(body))


def overload_cases():
    """Overloaded weights are noted as any other, their four bytes as they stood (open
    point 6.7): heard, written, read, and a log of each kind stepped from each record."""
    records = []
    for family, (name, number), code, data in overloaded_replies():
        yield heard_case(1000, 'reply', family, event_with(body_of((name, number), code, data)))
        short, serial = (number, 0) if name == 'short' else (0, number)
        records.append(Record(1000, 1 if code == 0xC3 else 2, short, serial, data[3], data[:3], family))
    for record in records:
        yield write_case(record, 20)
        yield read_case(record_bytes(record))
        yield weight_case(record)
    for kind in (1, 2):
        yield from stepped_cases(b''.join(record_bytes(record) for record in records if record.kind == kind))


def address_cases(source):
    """A weight from each address of interest, its event handed in. FE and FF,
    which no wire heard from fresh gives, are noted as refusal 5."""
    for first in HIGH:
        for code in WEIGHTS:
            event = event_with(body_of(('short', first), code, E3_WEIGHT))
            for role in ROLES:
                yield heard_case(86_400 + first, role, some_family(source), event)


def handed_in_cases(source):
    """Each of the paper's refusals as an event, in every family: 1 to 8 are met
    on the line, of the frame layer and of the message layer, and are noted
    without a family; the others are refused by 8."""
    for number in ALL:
        for role in ROLES:
            for family in families.ALL:
                wire, count = source.choice(((0, 0), (9, 4), (2 ** 64 - 1, 255)))
                yield heard_case(86_400 + number, role, family, Event(number, wire, count, b''))


def step_cases(source):
    """Places are whole records from the front, or past the end."""
    logs = [b'']
    for count in (1, 2, 3):
        whole = b''.join(record_bytes(some_record(source)) for _ in range(count))
        logs.append(whole)
        logs.extend(whole + source.bytes(more) for more in (1, 2, 10, 19))
        bad = bytearray(whole)
        bad[8] = 0
        logs.extend((bytes(bad), bytes(bad) + b'\x01'))
    logs.extend(source.bytes(count) for count in (1, 18, 19, 20, 21))
    for log in logs:
        for place in sorted({0, 20, 40, 60, 80, len(log) // 20 * 20, 2 ** 32}):
            yield ('step', (log, place), step(log, place))


def stepped_cases(log):
    """A whole log, stepped from each of its records and from its end."""
    for place in range(0, len(log) + 1, 20):
        yield ('step', (log, place), step(log, place))


def address_step_cases():
    """A log of one record from each address of interest, stepped from each: a
    bad record is 11 at its own place only."""
    for base in (GOOD, GOOD._replace(kind=2)):
        yield from stepped_cases(b''.join(record_bytes(base._replace(address=first)) for first in HIGH))


def family_step_cases():
    """A log of one record for each byte 17 and both bits, stepped from each."""
    records = list(family_changes())
    for kind in (1, 2, 3):
        yield from stepped_cases(b''.join(record_bytes(record) for record in records if record.kind == kind))


def status_step_cases():
    """A log of one record of kind 3 for each status of interest, stepped from each."""
    yield from stepped_cases(b''.join(record_bytes(GOOD_REFUSAL._replace(status=status)) for status in STATUSES))


def weight_case(record):
    return ('weight_noted', tuple(record), weight_noted(record))


def digit_changes():
    """Weight bytes whose halves are decimal digits or not, in each place and kind."""
    for base in (GOOD, GOOD_SERIAL, GOOD_REFUSAL):
        for place in range(3):
            for high in HALVES:
                for low in HALVES:
                    digits = bytearray(base.weight)
                    digits[place] = high << 4 | low
                    yield base._replace(weight=bytes(digits))


def every_status():
    """Every CON in every family, of gross records; and of the other kinds."""
    for status in range(256):
        for family in families.ALL:
            yield GOOD._replace(status=status, family=family)
        for base in (GOOD_SERIAL, GOOD_REFUSAL):
            yield base._replace(status=status)


def weight_cases(source):
    for group in (field_changes, wide_serials, family_changes, every_status, digit_changes):
        for record in group():
            yield weight_case(record)
    for _ in range(100):
        yield weight_case(some_record(source))


def cases():
    source = RandomBytes(23)
    for group in (writing_cases, record_reading_cases, heard_cases, handed_in_cases, step_cases,
                  weight_cases, address_cases):
        yield from group(source)
    yield from address_step_cases()
    yield from family_cases()
    yield from overload_cases()
    yield from family_step_cases()
    yield from status_step_cases()
