"""Inputs for the functions of weights, frames, messages and records: what the model tries, and what only crossing can hand in."""

from __future__ import annotations

from typing import Iterator

import crossing  # first: it puts the model's folder on the path
import cases_frame
import cases_listing
import cases_log
import cases_message
import cases_weight
import families
import frame
import message
from captures import PAPER, body_of_length
from families_asked import BITS_6_AND_5, with_bits
from random_bytes import RandomBytes
from weight import write_reading

Case = tuple
MARKS = cases_frame.marked_room(1200)
STRANGE_ROLES = (2, 3, 128, 255)
STRANGE_FAMILIES = (4, 5, 127, 128, 254, 255)
OVERLOAD = 0x08  # bit 3 of CON
BOTH_NUMBERS = ((1, 1), (1, 255), (0xFD, 16_777_215), (1, 16_777_216), (0xFE, 1), (255, 2 ** 32 - 1))


def both_or(address: crossing.Address) -> tuple[int, int]:
    """An address as its two numbers; the short address 0 crosses only as both at once."""
    return (1, 1) if address == ('short', 0) else crossing.numbers_of(address)


# ---- weights: four bytes, and the family behind them

def of_family(four: bytes, family: int) -> bytes:
    return four + bytes([family])


def model_weights() -> Iterator[bytes]:
    """The bytes that the model reads, every status byte in every family among them, and those of the readings that it writes."""
    for name, inputs, _ in cases_weight.cases():
        if name == 'read_reading':
            family, four = inputs
            yield of_family(four, family)
        if name == 'write_reading':
            reading, = inputs
            answer = write_reading(reading)
            if len(answer) > 1:
                yield of_family(answer[1], reading.family)


def strange_weights() -> Iterator[bytes]:
    """Bytes that are no weight, and weights of every kind, in every family and in numbers that name none."""
    for text in ('ffffffff', '00000000', '00000080', '999999ff', '9a999900', '51020001', '51020041', '51020021'):
        for family in (*families.ALL, *STRANGE_FAMILIES):
            yield of_family(bytes.fromhex(text), family)


def overloaded_weights() -> Iterator[bytes]:
    """Zero, the paper's digits and the largest, at each point and with each sign, the overload bit set: in every family and in numbers that name
    none. An overloaded zero is no weight of nothing."""
    for digits in ('000000', '510200', '999999'):
        for status in (sign | OVERLOAD | point for sign in (0, 0x80) for point in range(8)):
            for family in (*families.ALL, 4, 255):
                yield of_family(bytes.fromhex(digits) + bytes([status]), family)


def fives() -> Iterator[bytes]:
    yield from model_weights()
    yield from strange_weights()
    yield from overloaded_weights()


def weights() -> Iterator[Case]:
    for five in fives():
        for name in ('read_weight', 'value', 'kilograms'):
            yield (name, five)


def corner_differences() -> Iterator[Case]:
    """Each corner less each other one, of families by turns."""
    corners = [bytes.fromhex(text) for text in (
        '99999900', '99999980', '00000000', '00000080', '00000087', '01000007', '51020001', '050000f8', 'ffffffff', '0a000000',
        '0000a000', '00000fff')]
    for number, gross in enumerate(corners):
        for turn, net in enumerate(corners):
            yield ('difference', of_family(gross, number % 4), of_family(net, (number + turn) % 4))


def family_differences() -> Iterator[Case]:
    """Every family beside every other and beside numbers that name none, bits 6 and 5 clear and set."""
    every = [of_family(b'\x51\x02\x00' + bytes([with_bits(0x11, bits)]), family)
             for family in (*families.ALL, 4, 255) for bits in BITS_6_AND_5]
    for gross in every:
        for net in every:
            yield ('difference', gross, net)


def overload_differences() -> Iterator[Case]:
    """Good, overloaded, bad, and both at once, each beside each: digits or bit 6 of 002 may be what is bad. 8 of either goes before 24 of either."""
    every = [of_family(bytes.fromhex(digits) + bytes([status | over]), family)
             for digits, status, family in (('510200', 0x11, families.OF_002), ('000000', 0x80, families.PLAIN), ('5a0200', 0x11, families.OF_001),
                                            ('510200', 0x51, families.OF_002), ('510200', 0x11, 4))
             for over in (0, OVERLOAD)]
    for gross in every:
        for net in every:
            yield ('difference', gross, net)


def differences() -> Iterator[Case]:
    yield from corner_differences()
    yield from family_differences()
    yield from overload_differences()
    every = list(fives())
    for gross, net in zip(every[::3], every[1::3]):
        yield ('difference', gross, net)


# ---- frames and messages

def frames() -> Iterator[Case]:
    for name, inputs, _ in cases_frame.write_cases(RandomBytes(37)):
        if name == 'write_frame':
            address, code, data, room = inputs
            yield (name, *both_or(address), code[0], data, room)
    for numbers in BOTH_NUMBERS:
        for data, room in ((b'', MARKS[:20]), (bytes(300), MARKS[:600]), (b'\xff', b'')):
            yield ('write_frame', *numbers, 0xC3, data, room)
    for length in range(247, 257):
        for numbers in ((1, 0), (0, 70_501)):
            _, need = frame.room_needed(crossing.address_of(*numbers), 0xFF, b'\xff' * length)
            yield ('write_frame', *numbers, 0xFF, b'\xff' * length, MARKS[:need])
            yield ('write_frame', *numbers, 0xFF, b'\xff' * length, MARKS[:max(0, need - 1)])


def messages_written() -> Iterator[Case]:
    for name, inputs, _ in cases_message.cases():
        if name == 'write_message':
            role, family, address, code, data, room = inputs
            yield (name, message.ROLES.index(role), family, *both_or(address), code[0], data, room)
    for role, family in unknown():
        for numbers in ((1, 0), (0xFD, 0), (1, 1), (0xFE, 0)):
            for code, data in ((0xC3, b'\x51\x02\x00\x01'), (0xC3, b''), (0x11, b''), (0xC3, b'\xff\x00\x00\x00')):
                yield ('write_message', role, family, *numbers, code, data, MARKS[:16])
                yield ('write_message', role, family, *numbers, code, data, b'')
    for numbers in BOTH_NUMBERS:
        yield ('write_message', 1, families.OF_002, *numbers, 0x11, b'\x01', b'')


def unknown() -> Iterator[tuple[int, int]]:
    """(role, family) of which one or both are numbers that name none."""
    for role, family in zip(STRANGE_ROLES, families.ALL):
        yield role, family
        yield role, 255
    for family in STRANGE_FAMILIES:
        yield 0, family
        yield 1, family


def messages_read() -> Iterator[Case]:
    for name, inputs, _ in cases_message.cases():
        if name == 'read_message':
            role, family, body = inputs
            yield (name, message.ROLES.index(role), family, body)
    source = RandomBytes(43)
    for role, family in unknown():
        for body in (bytes.fromhex(PAPER[2][1])[1:-2], bytes.fromhex(PAPER[0][1])[1:-2], b'', bytes(300), b'\x01\xc3\xe2'):
            yield ('read_message', role, family, body)
    for length in range(253, 258):
        for role in (0, 1):
            yield ('read_message', role, families.OF_002, body_of_length(source, length))
            yield ('read_message', role, families.PLAIN, bytes(length))


# ---- records

# New ones, one of them overloaded, an old one whose byte 17 is 0, and a refusal, which has no family.
OVERLOADED = cases_log.GOOD._replace(status=cases_log.GOOD.status | OVERLOAD)
RECORDS = (cases_log.GOOD, cases_log.GOOD_SERIAL, OVERLOADED, cases_log.OLD, cases_log.GOOD_REFUSAL)


def records_written() -> Iterator[Case]:
    """What the model writes, and the same with a refusal carried: no record, whatever the room."""
    for name, inputs, _ in cases_log.cases():
        if name == 'write_record':
            *record, room = inputs
            yield (name, *record, 0, room)
    for carried in (1, 8, 9, 10, 11, 12, 128, 255):
        for record in RECORDS:
            yield ('write_record', *record, carried, MARKS[:20])
            yield ('write_record', *record, carried, MARKS[:19])
    for refusal in (0, 8):
        for family in (0, 255):
            yield ('write_record', 0, 0, 0, 0, 0, crossing.NO_DIGITS, family, refusal, MARKS[:20])
    for kind in (*range(5), 255):
        for digits in ('ffffff', '000000', 'ffff00', '00ffff', 'ff0000', '0000ff', '010000'):
            for status in (0, 4, 8, 9, 255):
                for family in (0, 2, 3):
                    yield ('write_record', 7, kind, 0, 0, status, bytes.fromhex(digits), family, 0, MARKS[:20])
    for record in RECORDS:
        for family in STRANGE_FAMILIES:
            yield ('write_record', *record._replace(family=family), 0, MARKS[:20])


def records_read() -> Iterator[Case]:
    for name, inputs, _ in cases_log.cases():
        if name == 'read_record':
            yield (name, *inputs)
    for record in RECORDS:
        twenty = cases_log.record_bytes(record)
        for family in (*families.ALL, *STRANGE_FAMILIES):
            yield ('read_record', cases_log.record_bytes(record._replace(family=family)))
        for lent in (b'', twenty[:1], twenty[:19], twenty + b'\x00', twenty + twenty, bytes(20), b'\xff' * 20):
            yield ('read_record', lent)


def steps() -> Iterator[Case]:
    for name, inputs, _ in cases_log.cases():
        if name == 'step':
            yield (name, *inputs)
    whole = b''.join(cases_log.record_bytes(record) for record in RECORDS)
    for log in (whole, whole[1:], b'\x00' + whole, whole + b'\x07' * 19):
        for place in (*range(0, 122), 2 ** 32, 2 ** 63 - 1, 2 ** 63, 2 ** 64 - 21, 2 ** 64 - 20, 2 ** 64 - 1):
            yield ('step', log, place)


def totals() -> Iterator[Case]:
    for name, inputs, _ in cases_listing.cases():
        if name == 'write_total':
            yield ('list_total', *inputs)
    for digits in range(20):
        for counts in ((10 ** digits, 0, 10 ** digits - 1), (9, 10 ** digits - 1, 10 ** digits)):
            _, need, _ = crossing.list_total(*counts, MARKS)
            for length in (need, need - 1):
                yield ('list_total', *counts, MARKS[:length])
    for length in (85, 84, 86):
        yield ('list_total', 2 ** 64 - 1, 2 ** 64 - 1, 2 ** 64 - 1, MARKS[:length])
