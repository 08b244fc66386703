"""What each function of the export library answers, from the second model.

The rules themselves are tests/model's. Here stands only what crossing to another language adds to them, written from the promises in
crates/crossing/specs and crates/quay_*/specs: phases, roles, families, kinds and refusals as numbers, and 8 for a number that is none; an address
as two numbers; a weight's four bytes with its family behind them; and what the fields hold where something is refused. Each function takes the
inputs of a case line in their order and gives its answer's words.
"""

from __future__ import annotations

import os
import sys
from typing import Callable, Union

sys.path.append(os.path.join(os.path.dirname(os.path.abspath(__file__)), '..', 'model'))

import families  # noqa: E402 (the model's folder is only now on the path)
import frame  # noqa: E402
import line  # noqa: E402
import listing  # noqa: E402
import log  # noqa: E402
import message  # noqa: E402
import weight  # noqa: E402
from refusals import ACCEPTED, ALL as REFUSALS, FIELD_WRONG, RECORD_WRONG, refused  # noqa: E402 (REFUSALS: for those who make inputs)

PHASES = ('seeking', 'delimited', 'inside', 'held')
NOTHING, FRAME, REFUSED = 0, 1, 2
ENTRIES = {'weight': 1, 'message': 2, 'refused': 3}
LOADS = {message.GROSS: 1, message.NET: 2}

ALL_ONES = 0xFFFFFFFF
NO_NUMBER = 0xFFFFFFFFFFFFFFFF
NO_COUNT = ALL_ONES
NO_FAMILY = 255
NO_READING = (ALL_ONES, 0) + (255,) * 5 + (NO_FAMILY,)  # number and point together are far above any weight
NO_VALUE = -2 ** 63
NO_WEIGHT = b'\xff\xff\xff\xff' + bytes([NO_FAMILY])
NO_DIGITS = b'\xff\xff\xff'

Word = Union[int, bytes, str]
Answer = tuple[Word, ...]
Address = tuple[str, int]


def address_of(short: int, serial: int) -> Address:
    """A short address and serial 0, or short 0 and a serial. Both at once are the short address 0, which no frame may carry."""
    if short == 0:
        return ('serial', serial)
    return ('short', short if serial == 0 else 0)


def numbers_of(address: Address) -> tuple[int, int]:
    """A legal address as its two numbers."""
    kind, number = address
    return (number, 0) if kind == 'short' else (0, number)


# ---- the line

def event_words(event: line.Event | None) -> Answer:
    """Kind, refusal, wire count, body count."""
    if event is None:
        return (NOTHING, 0, 0, 0)
    return (REFUSED if event.number else FRAME, event.number, event.wire, event.count)


def listen(phase: int, wire: int, kept: int, body: bytes, block: bytes) -> Answer:
    """A block up to and with the first event. Of the lent 255 bytes only the front changes: after each byte the kept bytes stand there, and
    what lies behind them is as it stood."""
    if phase >= len(PHASES):
        return (FIELD_WRONG, phase, wire, kept, body, 0, NOTHING, 0, 0, 0)
    state, event, used = line.State(PHASES[phase], wire, kept, body), None, 0
    for byte in block:
        state, event = line.feed(state, byte)
        used += 1
        front = line.kept_bytes(state)
        body = front + body[len(front):]
        if event is not None:
            break
    assert event is None or event.number or body[:event.count] == event.body
    return (ACCEPTED, PHASES.index(state.phase), state.wire, state.count, body, used) + event_words(event)


def event_given(kind: int, refusal: int, wire: int, kept: int, body: bytes) -> tuple[int, line.Event | None]:
    """An event handed in, its body at the front of the lent bytes, or as many of them as there are. 8 where it is none, or a refusal that
    no line can meet."""
    if kind == NOTHING:
        return ACCEPTED, None
    if kind == FRAME:
        return ACCEPTED, line.Event(ACCEPTED, wire, kept, body[:kept])
    if kind == REFUSED and refusal in log.LINE_REFUSALS:
        return ACCEPTED, line.Event(refusal, wire, kept, b'')
    return FIELD_WRONG, None


# ---- frames and messages

def write_frame(short: int, serial: int, code: int, data: bytes, room: bytes) -> Answer:
    lent = bytearray(room)
    return frame.write_frame(address_of(short, serial), code, data, lent) + (bytes(lent),)


def is_known(role: int, family: int) -> bool:
    """Whether both numbers name something. Nothing else is judged ahead of them."""
    return role < len(message.ROLES) and families.is_family(family)


def write_message(role: int, family: int, short: int, serial: int, code: int, data: bytes, room: bytes) -> Answer:
    if not is_known(role, family):
        return (FIELD_WRONG, 0, room)
    lent = bytearray(room)
    return message.write_message(message.ROLES[role], family, address_of(short, serial), code, data, lent) + (bytes(lent),)


def plain(says: int, number: int = NO_NUMBER, on: int = NO_COUNT) -> Answer:
    return (says, number, on, 0, NO_WEIGHT, 0, 0)


# What a row of the table says of its data, which begin at `start` of the body:
# says, number, on, load, weight, and from where to where a text stands. A weight alone says more than its row knows.
SAYS = {
    message.NONE: lambda start, data: plain(0),
    message.SERIAL: lambda start, data: plain(1, message.low_first(data)),
    message.PRINTER: lambda start, data: plain(2, data[0]),
    message.DISPLAY: lambda start, data: plain(2, data[0]),
    message.STATUS: lambda start, data: plain(3, data[0]),
    message.INPUTS: lambda start, data: plain(5, message.low_first(data), message.inputs_on(data)),
    message.FOUR_BYTES: lambda start, data: plain(6, message.low_first(data)),
    message.DISPLAY_TEXT: lambda start, data: (7, data[0], NO_COUNT, 0, NO_WEIGHT, start + 2, start + len(data)),
    message.TEXT: lambda start, data: (7, data[0], NO_COUNT, 0, NO_WEIGHT, start + 2, start + len(data)),
    message.EVENT: lambda start, data: (8, data[0], NO_COUNT, 0, NO_WEIGHT, start + 1, start + len(data)),
    message.FIVE_BYTES: lambda start, data: plain(9, message.low_first(data)),
    message.ERROR: lambda start, data: plain(10, data[0]),
}


def weight_said(family: int, code: int, four: bytes) -> Answer:
    """A weight carries the family of its line."""
    return (4, NO_NUMBER, NO_COUNT, LOADS[code], four + bytes([family]), 0, 0)


def read_message(role: int, family: int, body: bytes) -> Answer:
    if not is_known(role, family):
        return (FIELD_WRONG, 0, 0, 0, 0, 0) + plain(0)
    answer = message.read_message(message.ROLES[role], family, body)
    if answer[0] != ACCEPTED:
        return (answer[0], 0, 0, 0, 0, 0) + plain(0)
    _, address, code, data, _ = answer
    start, row = len(frame.address_bytes(address)) + 1, message.row(message.ROLES[role], code)
    said = weight_said(family, code, data) if row is message.WEIGHT else SAYS[row](start, data)
    return (ACCEPTED,) + numbers_of(address) + (code, start, start + len(data)) + said


# ---- weights: four bytes, and the family behind them

def reading_of(five: bytes) -> tuple:
    """(0, reading), or (8,), also for a family that is none."""
    four, family = five[:4], five[4]
    return weight.read_reading(family, four) if families.is_family(family) else refused(FIELD_WRONG)


def read_weight(five: bytes) -> Answer:
    answer = reading_of(five)
    if answer[0] != ACCEPTED:
        return answer + NO_READING
    reading = answer[1]
    return (ACCEPTED, reading.number, reading.point, reading.minus, reading.six, reading.five, reading.settled, reading.overload,
            reading.family)


def weighed(ask: Callable[..., tuple], *fives: bytes) -> tuple:
    """What the model answers of the readings: (0, answer), or a number alone. Bytes that are no reading, of any of them, go before what the
    model refuses of readings: "24 overload, after 8"."""
    readings = [reading_of(five) for five in fives]
    wrong = [answer for answer in readings if answer[0] != ACCEPTED]
    return wrong[0] if wrong else ask(*(answer[1] for answer in readings))


def value(five: bytes) -> Answer:
    answer = weighed(weight.value, five)
    return answer if answer[0] == ACCEPTED else answer + (NO_VALUE,)


def difference(gross: bytes, net: bytes) -> Answer:
    answer = weighed(weight.difference, gross, net)
    return answer if answer[0] == ACCEPTED else answer + (NO_VALUE,)


def kilograms(five: bytes) -> Answer:
    answer = weighed(weight.kilograms, five)
    return (ACCEPTED, weight.float_bits(answer[1])) if answer[0] == ACCEPTED else answer + ('nan',)


# ---- the log

def no_record(refusal: int) -> Answer:
    return (refusal, 0, 0, 0, 0, 0, NO_DIGITS, NO_FAMILY)


def record_words(record: log.Record | None) -> Answer:
    """What is no weighing has no digits: a refusal that was met must not cross as a weight of nothing."""
    if record is None:
        return no_record(ACCEPTED)
    if record.kind == log.KIND_REFUSED:
        record = record._replace(weight=NO_DIGITS)
    return (ACCEPTED,) + tuple(record)


def record_given(record: log.Record) -> log.Record:
    """A record handed in: where it is no weighing, no digits stand for its zeros."""
    weighing = record.kind in (log.KIND_GROSS, log.KIND_NET)
    return record._replace(weight=log.NO_WEIGHT) if record.weight == NO_DIGITS and not weighing else record


def write_record(
        time: int, kind: int, address: int, serial: int, status: int, digits: bytes, family: int, carried: int, room: bytes) -> Answer:
    """What carries a refusal is no record. A family that is none breaks a record's rule, as any other byte 17 does."""
    if carried != ACCEPTED:
        return (RECORD_WRONG, 0, room)
    lent = bytearray(room)
    record = record_given(log.Record(time, kind, address, serial, status, digits, family))
    return log.write_record(record, lent) + (bytes(lent),)


def read_record(lent: bytes) -> Answer:
    """A record has 20 bytes, no more and no fewer."""
    if len(lent) != log.RECORD_LENGTH:
        return no_record(RECORD_WRONG)
    answer = log.read_record(lent)
    return record_words(answer[1]) if answer[0] == ACCEPTED else no_record(answer[0])


def step(whole: bytes, place: int) -> Answer:
    """Without a record the next place is the one handed in."""
    answer = log.step(whole, place)
    if answer[0] == 'end':
        return no_record(ACCEPTED) + (place,)
    if answer[0] != ACCEPTED:
        return no_record(answer[0]) + (place,)
    return record_words(answer[1]) + (answer[2],)


def record_heard(time: int, role: int, family: int, kind: int, refusal: int, wire: int, kept: int, body: bytes) -> Answer:
    """A role or a family that is none is refused also where there was no event."""
    if not is_known(role, family):
        return no_record(FIELD_WRONG)
    number, event = event_given(kind, refusal, wire, kept, body)
    if number != ACCEPTED:
        return no_record(number)
    return record_words(None if event is None else log.record_heard(time, message.ROLES[role], family, event))


# ---- the listing

def list_event(number: int, family: int, kind: int, refusal: int, wire: int, kept: int, body: bytes, room: bytes) -> Answer:
    """A frame's body is judged again, check and all: a caller may lend other bytes than those that were heard. A family that is none is refused
    also where there was no event."""
    if not families.is_family(family):
        return (FIELD_WRONG, 0, 0, room)
    why, event = event_given(kind, refusal, wire, kept, body)
    if why != ACCEPTED:
        return (why, 0, 0, room)
    if event is None:
        return (ACCEPTED, 0, 0, room)
    lent = bytearray(room)
    written = listing.write_line(number, family, event, lent)
    return written + (ENTRIES[listing.entry(family, event)[0]], bytes(lent))


def list_total(total: int, weights: int, refused: int, room: bytes) -> Answer:
    lent = bytearray(room)
    return listing.write_total(total, weights, refused, lent) + (bytes(lent),)


# ---- case lines

FUNCTIONS = {function.__name__: function for function in (
    listen, write_frame, write_message, read_message, read_weight, value, difference, kilograms, write_record, read_record, step,
    record_heard, list_event, list_total)}


def word_of(thing: Word) -> str:
    """Numbers decimal, bytes lowercase hex, no bytes `-`."""
    if isinstance(thing, int):
        return str(thing)
    if isinstance(thing, str):
        return thing
    return thing.hex() or '-'


def line_of(name: str, *inputs: Word) -> str:
    """The case line of a function and its inputs, with the answer that is expected of it."""
    answer = FUNCTIONS[name](*inputs)
    return ' '.join((name, *map(word_of, inputs), '=', *map(word_of, answer)))
