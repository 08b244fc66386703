"""Cases of the parcel scales: checks, messages read and written, and the values of weights."""

from cases_frame import marked_room, rooms_around
import cases_parcel_read
from parcel import TABLE, body_of, fields_are_right, framed, value_of, write_parcel
from parcel_check import check_of
from parcels_asked import (DIVISIONS, SEVEN, SIGNED, STABLES, every_division, every_stable, numbers,
                           some_number, some_parcel, weights)
from random_bytes import RandomBytes

CHECKED_LENGTHS = tuple(range(21)) + (255, 256, 257, 1000, 4096)
LONG_ROOMS = (20, 40, 256, 300)


def bodies_to_check(source):
    """Every length of interest; every byte alone and ahead of others, so that
    each byte that falls out of the register is met; every bit alone."""
    for length in CHECKED_LENGTHS:
        yield bytes(length)
        yield b'\xff' * length
        yield marked_room(length)
        yield from (source.bytes(length) for _ in range(4 if length < 1000 else 1))
    for byte in range(256):
        yield bytes([byte])
        yield bytes([byte, 0x00])
        yield bytes([byte, 0x00, 0x00])
        yield bytes([byte, 0xFF, 0x80, 0x01])
    for length in range(1, 9):
        for place in range(8 * length):
            yield (1 << place).to_bytes(length, 'big')
    for _ in range(150):
        yield source.bytes(source.below(60))
    for code, fields in SEVEN:
        body = body_of(code, fields)
        yield body
        yield body + b'\x00'
        yield body + b'\x00\x00'
        yield framed(body)[5:]  # the check too: it "does not give 0" (open point 10.1)


def check_cases(source):
    for body in bodies_to_check(source):
        yield ('parcel_check_of', (body,), (check_of(body),))


def value_case(count, division, stable):
    return ('parcel_value', (count, division, stable), value_of(count, division, stable))


def value_cases(source):
    for count in SIGNED:
        for division in DIVISIONS:
            for stable in STABLES:
                yield value_case(count, division, stable)
    for number in range(256):
        for count in (-1, 2 ** 31 - 1):
            yield value_case(count, number, number % 2)
            yield value_case(count, number % 5, number)
    for _ in range(200):
        yield value_case(some_number(source), source.below(5), source.below(2))
        yield value_case(some_number(source), source.below(8), source.below(3))


def write_case(code, fields, length):
    room = bytearray(marked_room(length))
    answer = write_parcel(code, fields, room)
    return ('write_parcel', (bytes([code]), fields, marked_room(length)), answer + (bytes(room),))


def need(code, fields):
    return len(framed(body_of(code, fields)))


def rooms_of_every_length():
    """Each of the seven into rooms from none to three bytes more than it needs,
    and into longer ones."""
    for code, fields in SEVEN:
        for length in (*range(need(code, fields) + 4), *LONG_ROOMS):
            yield code, fields, length


def fields_to_write():
    """Every number, division and stable mark of interest: 8 is judged ahead of
    9, so in rooms that are too short as well."""
    for code, fields in numbers() + weights():
        lengths = rooms_around(need(code, fields))
        for length in lengths if fields_are_right(code, fields) else lengths[:3]:
            yield code, fields, length
    for code, fields in every_division() + every_stable():
        for length in (14, 13):
            yield code, fields, length


def writing_cases(source):
    for code, fields, length in rooms_of_every_length():
        yield write_case(code, fields, length)
    for code, fields, length in fields_to_write():
        yield write_case(code, fields, length)
    for _ in range(250):
        yield write_case(*some_parcel(source), source.between(6, 18))
    for _ in range(100):
        code, fields = source.choice(tuple(TABLE)), (some_number(source), source.below(8), source.below(4))
        if code == 0x50:
            fields = (fields[0] % 2 ** 32,)
        yield write_case(code, fields[:len(TABLE[code])], source.between(6, 18))


def cases():
    source = RandomBytes(71)
    yield from check_cases(source)
    yield from cases_parcel_read.cases(source)
    yield from value_cases(source)
    yield from writing_cases(source)
