"""Inputs for the functions that listen and that are handed events: every phase, kind, refusal and boundary, and captures cut into blocks."""

from __future__ import annotations

from typing import Iterator

import crossing  # first: it puts the model's folder on the path
import cases_line
import cases_listing
import cases_log
import families
import line
import message
from captures import PAPER, body_of_length, body_with_check_ff, named_captures
from cases_frame import marked_room
from frame import body_of
from random_bytes import RandomBytes

Case = tuple
MARKS = marked_room(1200)
STALE = marked_room(255)
ZEROS = bytes(255)
GROSS = bytes.fromhex(PAPER[2][1])
GROSS_BODY = GROSS[1:-2]
STRANGE_PHASES = (4, 5, 127, 128, 254, 255)
STRANGE_ROLES = (2, 3, 128, 255)
STRANGE_FAMILIES = (4, 5, 128, 255)
STRANGE_KINDS = (3, 4, 127, 128, 255)
STRANGE_REFUSALS = (0, 12, 13, 128, 255)
WIRES = (0, 7, 2 ** 32, 2 ** 64 - 1)


# ---- listening

def lent(state: line.State, behind: bytes) -> bytes:
    """The 255 bytes of a state, with others behind those it keeps."""
    count = min(state.count, len(state.kept))
    return state.kept[:count] + behind[count:]


def model_states() -> Iterator[Case]:
    """The states and blocks that the model tries: marks stand behind the kept bytes of every other one."""
    for number, (name, inputs, _) in enumerate(cases_line.cases()):
        state, block = inputs
        body = lent(state, STALE if number % 2 else state.kept)
        yield ('listen', crossing.PHASES.index(state.phase), state.wire, state.count, body, block)


def strange_phases() -> Iterator[Case]:
    for phase in STRANGE_PHASES:
        for wire, kept in zip(WIRES, (0, 2, 255, 300)):
            yield ('listen', phase, wire, kept, STALE, GROSS)
        yield ('listen', phase, 5, 300, STALE, b'')


def empty_blocks() -> Iterator[Case]:
    """Nothing is taken, and the place comes back as it stood, whatever it holds."""
    for phase in range(4):
        for kept in (0, 1, 5, 255, 256, 300, 2 ** 64 - 1):
            yield ('listen', phase, 2 ** 64 - 1, kept, STALE, b'')


def overfull_places() -> Iterator[Case]:
    """More than 255 kept: treated as fresh, wire count 0; none of the lent bytes is a kept one."""
    for phase in range(4):
        for kept in cases_line.OVER_COUNTS:
            for block in (b'\xff', b'\x01', b'\xff\xff', GROSS, GROSS[1:] + GROSS, b'\xff\x01\xff\x02'):
                yield ('listen', phase, 2 ** 64 - 2, kept, STALE, block)


def heard_in_blocks(capture: bytes, size: int, body: bytes) -> Iterator[Case]:
    """A capture in blocks of a size, the place and the lent bytes handed on from each call to the next."""
    phase, wire, kept = 0, 0, 0
    for start in range(0, len(capture), size):
        block = capture[start:start + size]
        while block:
            yield ('listen', phase, wire, kept, body, block)
            _, phase, wire, kept, body, used, *_ = crossing.listen(phase, wire, kept, body, block)
            block = block[used:]


def captures_in_blocks() -> Iterator[Case]:
    sizes = (4096, 100, 37, 4096, 16, 64)
    for number, (_, capture) in enumerate(named_captures()):
        size = sizes[number % len(sizes)]
        yield from heard_in_blocks(capture, size if len(capture) < 20 * size else 100, STALE if number % 3 else ZEROS)
    for name, text in PAPER:
        yield from heard_in_blocks(bytes.fromhex(text), 1, STALE)


def listening() -> Iterator[Case]:
    yield from model_states()
    yield from strange_phases()
    yield from empty_blocks()
    yield from overfull_places()
    yield from captures_in_blocks()


# ---- events handed in

Event = tuple[int, int, int, int]  # kind, refusal, wire, kept


def event_words(event: line.Event) -> Event:
    return crossing.event_words(event)


def strange_events() -> Iterator[tuple[Event, bytes]]:
    """Kinds and refusals that are none, each refusal that is one, and fields that do not matter to their kind."""
    for kind in STRANGE_KINDS:
        for refusal in (0, 4, 255):
            yield (kind, refusal, 9, len(GROSS_BODY)), GROSS_BODY
    for refusal in (*crossing.REFUSALS, *STRANGE_REFUSALS):
        yield (2, refusal, 2 ** 64 - 1, 3), GROSS_BODY
        yield (1, refusal, 9, len(GROSS_BODY)), GROSS_BODY
        yield (0, refusal, 9, len(GROSS_BODY)), GROSS_BODY
        yield (2, refusal, 0, 2 ** 64 - 1), b''


def strange_bodies() -> Iterator[tuple[Event, bytes]]:
    """Frames whose count and lent bytes do not fit each other, bodies of every wrong kind, and the longest."""
    for kept in (0, 1, 2, 3, 6, 7, 8, 9, 255, 256, 2 ** 32, 2 ** 64 - 1):
        for body in (GROSS_BODY, GROSS_BODY + b'\xc3\x99', GROSS_BODY[:-1], b'', b'\x00', bytes(300)):
            yield (1, 0, 11, kept), body
    source = RandomBytes(41)
    for length in range(253, 258):
        for body in (body_of_length(source, length), body_with_check_ff(source, length), source.bytes(length)):
            for kept in (length, 255, 256, 300):
                yield (1, 0, 600, kept), body
    for first in (0x9F, 0xA0, 0xA4, 0xF0, 0xFD, 0xFE, 0xFF):
        body = body_of(('short', first), 0xC3, b'\x51\x02\x00\x01')
        yield (1, 0, 12, len(body)), body


def wrong_checks() -> Iterator[tuple[Event, bytes]]:
    """Bodies whose check is wrong, each of them all right but for it: the log and the listing judge it again."""
    for code, data in ((0xC3, '51020001'), (0xC2, '05000091'), (0xA1, 'ff0000'), (0xEE, '05'), (0xC3, '5a020001'), (0x11, '')):
        for address in (('short', 1), ('serial', 70_501)):
            body = body_of(address, code, bytes.fromhex(data))
            for change in (1, 0x80, 0xFF):
                yield (1, 0, 10, len(body)), body[:-1] + bytes([body[-1] ^ change])


def overloaded_bodies() -> Iterator[tuple[Event, bytes]]:
    """Both weights with the overload bit set, zero and not, settled and not, with each sign: heard, noted and listed, though they have no value."""
    for code in (message.GROSS, message.NET):
        for digits in ('000006', '000000', '999999'):
            for status in (0x08, 0x18, 0x98, 0x2F):
                body = body_of(('short', 1), code, bytes.fromhex(digits) + bytes([status]))
                yield (1, 0, 10, len(body)), body


def lent_events() -> Iterator[tuple[Event, bytes]]:
    yield from strange_events()
    yield from strange_bodies()
    yield from wrong_checks()
    yield from overloaded_bodies()


def recording() -> Iterator[Case]:
    for name, inputs, _ in cases_log.cases():
        if name == 'record_heard':
            time, role, family, event = inputs
            yield (name, time, message.ROLES.index(role), family, *event_words(event), event.body + MARKS[:time % 5])
    for number, (event, body) in enumerate(lent_events()):
        family, strange = families.ALL[number % 4], STRANGE_FAMILIES[number % 4]
        for role in (0, 1, STRANGE_ROLES[number % 4]):
            yield ('record_heard', 86_400 + number, role, family, *event, body)
        yield ('record_heard', 86_400 + number, number % 2, strange, *event, body)


def listed_lengths(need: int) -> tuple[int, ...]:
    return (need, need - 1, 0, need + 5) if need else (0, 6)


def listing_events() -> Iterator[Case]:
    for name, inputs, _ in cases_listing.cases():
        if name == 'write_line':
            count, family, event, room = inputs
            yield ('list_event', count, family, *event_words(event), event.body + MARKS[:count % 5], room)
    for number, (event, body) in enumerate(lent_events()):
        family, strange = families.ALL[number % 4], STRANGE_FAMILIES[number % 4]
        _, need, _, _ = crossing.list_event(2 ** 64 - 1, family, *event, body, MARKS)
        for length in listed_lengths(need):
            yield ('list_event', 2 ** 64 - 1, family, *event, body, MARKS[:length])
        yield ('list_event', 2 ** 64 - 1, strange, *event, body, MARKS[:85])
    for number in (0, 1, 9, 10, 99, 100, 10 ** 19, 2 ** 63, 2 ** 64 - 1):
        for family in families.ALL:
            yield ('list_event', number, family, 1, 0, 9, len(GROSS_BODY), GROSS_BODY, MARKS[:85])
