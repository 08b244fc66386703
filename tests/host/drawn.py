"""Inputs drawn from a random source, for every function: (function, inputs).

Most are right or nearly so, and every refusal comes up often: bytes that are all random would be refused at the first test.
"""

from __future__ import annotations

from typing import Callable, Iterator

import crossing  # first: it puts the model's folder on the path
import families
import frame
import listing
import message
from captures import DAMAGES, noise
from cases_frame import marked_room
from cases_log import record_bytes, some_record
from good_messages import ROWS, good_data, some_address, weight_data
from random_bytes import RandomBytes

Case = tuple
Maker = Callable[[RandomBytes], Case]

MARKS = marked_room(1200)
LITTLE = 12
OVERLOAD = 0x08  # bit 3 of CON
SOME_CODES = tuple(message.TABLE)
STRANGE = (2, 3, 4, 12, 127, 128, 255)  # no role, and but for 3 no phase; no kind of event
STRANGE_FAMILIES = (4, 5, 127, 128, 255)


def room_around(source: RandomBytes, need: int) -> bytes:
    """Mostly just enough or one short."""
    return MARKS[:max(0, need + source.choice((0, 0, -1, -1, 1, 7, -need, source.below(9) - 4)))]


def some_numbers(source: RandomBytes) -> tuple[int, int]:
    """An address as its two numbers: mostly legal, sometimes both at once or too high."""
    short, serial = crossing.numbers_of(some_address(source))
    if source.below(8):
        return short, serial
    return source.choice(((source.byte(), 0), (source.byte(), source.below(2 ** 24)), (0, source.number() >> 32),
                          (short, serial ^ 0x1000000), (0xFE, 0), (0, 0x1000000)))


def some_role(source: RandomBytes) -> int:
    return source.below(2) if source.below(16) else source.choice(STRANGE)


def a_family(source: RandomBytes) -> int:
    return source.choice(families.ALL) if source.below(16) else source.choice(STRANGE_FAMILIES)


def wide_number(source: RandomBytes) -> int:
    """A 64-bit number, small ones as common as large ones."""
    return source.number() >> source.below(64)


# ---- weights

def some_weight(source: RandomBytes) -> bytes:
    """W0 W1 W2 CON and the family, mostly right, and overloaded one time in four: what is overloaded has no value to compare."""
    w0, w1, w2, status = weight_data(source)
    overload = 0 if source.below(4) else OVERLOAD
    five = bytes([w0, w1, w2, status & ~OVERLOAD | overload, a_family(source)])
    if source.below(5):
        return five
    place = source.below(3)
    return five[:place] + source.bytes(1) + five[place + 1:]


def read_weight(source: RandomBytes) -> Case:
    return ('read_weight', some_weight(source))


def value(source: RandomBytes) -> Case:
    return ('value', some_weight(source))


def difference(source: RandomBytes) -> Case:
    return ('difference', some_weight(source), some_weight(source))


def kilograms(source: RandomBytes) -> Case:
    return ('kilograms', some_weight(source))


# ---- frames and messages

def little_data(source: RandomBytes) -> bytes:
    count = source.below(7)
    return source.bytes(count) if source.below(2) else source.bytes_from(b'\xff\xfe\x00', count)


def write_frame(source: RandomBytes) -> Case:
    numbers, code, data = some_numbers(source), source.choice((0xC3, 0xFF, source.byte())), little_data(source)
    _, need = frame.room_needed(crossing.address_of(*numbers), code, data)
    return ('write_frame', *numbers, code, data, room_around(source, need))


def some_row(source: RandomBytes) -> tuple[int, int, bytes]:
    """Role, code and data of a row; sometimes of another role or code, or with other data."""
    role, code = source.choice(ROWS)
    data = good_data(source, role, code, LITTLE)
    number = message.ROLES.index(role)
    change = source.below(6)
    if change == 0:
        return some_role(source), code, data
    if change == 1:
        return number, source.choice((source.choice(SOME_CODES), source.byte())), data
    if change == 2:
        return number, code, little_data(source)
    return number, code, data


def write_message(source: RandomBytes) -> Case:
    numbers, (role, code, data) = some_numbers(source), some_row(source)
    _, need = frame.room_needed(crossing.address_of(*numbers), code, data)
    return ('write_message', role, a_family(source), *numbers, code, data, room_around(source, need))


def some_body(source: RandomBytes) -> tuple[int, bytes]:
    """A role and a body for it, sometimes damaged."""
    role, code, data = some_row(source)
    address = some_address(source) if source.below(24) else ('short', source.between(frame.HIGHEST_SHORT + 1, 0xFF))
    body = frame.body_of(address, code, data)
    if source.below(6) == 0:
        body = source.choice(DAMAGES)[1](source, body)
    return role, body


def read_message(source: RandomBytes) -> Case:
    role, body = some_body(source)
    return ('read_message', role, a_family(source), body)


# ---- the log

def changed(source: RandomBytes, twenty: bytes) -> bytes:
    """One byte otherwise, half of the time."""
    if source.below(2):
        return twenty
    place = source.below(20)
    return twenty[:place] + source.bytes(1) + twenty[place + 1:]


def write_record(source: RandomBytes) -> Case:
    record = some_record(source)
    change = source.below(8)
    if change == 0:
        record = record._replace(kind=source.below(5))
    elif change == 1:
        record = record._replace(address=source.byte(), serial=source.number() >> source.between(32, 63))
    elif change == 2:
        record = record._replace(status=source.byte(), weight=source.bytes(3))
    elif change == 3:
        record = record._replace(family=source.choice((a_family(source), source.byte())))
    carried = 0 if source.below(12) else source.byte()
    return ('write_record', *record, carried, MARKS[:source.choice((20, 20, 20, 19, 0, 21, 26))])


def read_record(source: RandomBytes) -> Case:
    twenty = changed(source, record_bytes(some_record(source)))
    if source.below(16) == 0:
        twenty = source.choice((twenty[:-1], twenty + b'\x00', twenty + twenty, b''))
    return ('read_record', twenty)


def step(source: RandomBytes) -> Case:
    whole = b''.join(changed(source, record_bytes(some_record(source))) for _ in range(source.below(3)))
    if source.below(3) == 0:
        whole += source.bytes(source.below(20))
    return ('step', whole, source.choice((0, 0, 20, 20, 40, source.below(64), wide_number(source))))


# ---- events handed in

def some_event(source: RandomBytes) -> tuple[int, tuple[int, int, int, int], bytes]:
    """Role, event, lent body: mostly a frame with stale bytes behind its body."""
    role, body = some_body(source)
    wire = wide_number(source)
    kind = source.choice((1, 1, 1, 1, 2, 2, 0, source.choice(STRANGE)))
    if kind != 1:
        return role, (kind, source.choice((source.below(13), source.byte())), wire, source.below(256)), body
    kept = len(body) if source.below(8) else source.choice((0, 2, len(body) + 1, 255, 256, wide_number(source)))
    return role, (1, source.below(3), wire, kept), body + source.bytes(source.choice((0, 0, 3, 9)))


def record_heard(source: RandomBytes) -> Case:
    role, event, body = some_event(source)
    return ('record_heard', wide_number(source), role, a_family(source), *event, body)


def list_event(source: RandomBytes) -> Case:
    _, event, body = some_event(source)
    number, family = wide_number(source), a_family(source)
    _, need, _, _ = crossing.list_event(number, family, *event, body, MARKS)
    return ('list_event', number, family, *event, body, room_around(source, need))


def list_total(source: RandomBytes) -> Case:
    counts = (wide_number(source), wide_number(source), wide_number(source))
    return ('list_total', *counts, room_around(source, len(listing.total_line(*counts))))


def listen(source: RandomBytes) -> Case:
    """Any place, any kept bytes, and a block of frames, damage or noise."""
    phase = source.below(4) if source.below(16) else source.choice(STRANGE)
    kept = source.choice((source.below(12), source.below(12), source.between(250, 258), wide_number(source)))
    block = frame.frame_of(some_body(source)[1])
    if source.below(2):
        block = source.choice(DAMAGES)[1](source, block)
    if source.below(4) == 0:
        block = noise(source, source.below(30))
    return ('listen', phase, wide_number(source), kept, source.bytes(255), block)


CHEAP: tuple[Maker, ...] = (read_weight, value, difference, kilograms, read_record, step, write_record, list_total, read_message, write_frame)
EVERY: tuple[Maker, ...] = CHEAP + (write_message, record_heard, list_event, listen)


def drawn(makers: tuple[Maker, ...], count: int, seed: int) -> Iterator[Case]:
    """So many cases, in equal shares."""
    source = RandomBytes(seed)
    for number in range(count):
        yield makers[number % len(makers)](source)
