"""Runs case lines through the library as ctypes sees it, without the friendly part of the binding.

    runner.py < CASES      QUAY_LIBRARY names the library

One case a line, `function inputs = answer`: words separated by one blank, numbers decimal, bytes in lowercase hex, no bytes `-`.
The whole answer is compared, also every byte of lent room. Prints at most ten differences, and last `N cases, M differ`. The exit
status is 0 only where there were cases and none differs; a line that cannot be understood ends the run with 1.
"""
from __future__ import annotations

import ctypes
import os
import re
import struct
import sys
from typing import Any, Callable, Dict, Iterable, List, Tuple, Union

sys.path.insert(0, os.path.join(os.path.dirname(os.path.abspath(__file__)), '..', '..', '..', 'bindings', 'python'))

import quay_library as quay  # noqa: E402 (the binding's folder is only now on the path)

NUMBER = re.compile(r'0|-?[1-9][0-9]*')
BYTES = re.compile(r'-|([0-9a-f]{2})+')
ANSWER_WORD = re.compile(r'-?[0-9a-f]+|-|nan')
DIFFERENCES_SHOWN = 10

# Bytes behind a lent room, which no call may touch.
GUARD = bytes(range(0xA0, 0xB0))

Input = Union[int, bytes]
Answer = Tuple[Union[int, bytes, str], ...]


class Malformed(Exception):
    """A line that is no case."""


class Room:
    """Lent room: the bytes of a case, and a guard behind them. Its pointer is never null, also at length 0."""

    def __init__(self, held: bytes) -> None:
        self.length = len(held)
        self.buffer = ctypes.create_string_buffer(held + GUARD, len(held) + len(GUARD))

    def left(self) -> bytes:
        """The whole room after the call. Where the guard was touched the room is told with it, which is no right answer."""
        raw = self.buffer.raw
        return raw[:self.length] if raw[self.length:] == GUARD else raw


# ---- what each function answers, in the order of the case lines

def record_words(item: quay.QuayRecord) -> Answer:
    digits = bytes((item.w0, item.w1, item.w2))
    return item.refusal, item.time, item.kind, item.address, item.serial, item.status, digits, item.family


def weight_of(five: bytes) -> quay.QuayWeight:
    return quay.QuayWeight(*five)


def listen(phase: int, wire: int, kept: int, body: bytes, block: bytes) -> Answer:
    lent = Room(body)
    went = quay.library().quay_listen(quay.QuayPlace(wire, kept, phase), block, len(block), lent.buffer)
    place, event = went.place, went.event
    return (went.refusal, place.phase, place.wire, place.kept, lent.left(), went.used,
            event.kind, event.refusal, event.wire, event.kept)


def write_frame(short: int, serial: int, code: int, data: bytes, room: bytes) -> Answer:
    lent = Room(room)
    written = quay.library().quay_write_frame(short, serial, code, data, len(data), lent.buffer, lent.length)
    return written.refusal, written.length, lent.left()


def write_message(role: int, family: int, short: int, serial: int, code: int, data: bytes, room: bytes) -> Answer:
    lent = Room(room)
    written = quay.library().quay_write_message(role, family, short, serial, code, data, len(data), lent.buffer, lent.length)
    return written.refusal, written.length, lent.left()


def read_message(role: int, family: int, body: bytes) -> Answer:
    message = quay.library().quay_read_message(role, family, body, len(body))
    what = message.what
    return (message.refusal, message.short, message.serial, message.code, message.from_, message.to,
            what.says, what.number, what.on, what.load, bytes(what.weight), what.from_, what.to)


def read_weight(five: bytes) -> Answer:
    shown = quay.library().quay_read_weight(weight_of(five))
    return (shown.refusal, shown.number, shown.point, shown.minus, shown.bit6, shown.bit5, shown.settled, shown.overload, shown.family)


def value(five: bytes) -> Answer:
    answer = quay.library().quay_value(weight_of(five))
    return answer.refusal, answer.value


def difference(gross: bytes, net: bytes) -> Answer:
    answer = quay.library().quay_difference(weight_of(gross), weight_of(net))
    return answer.refusal, answer.value


def kilograms(five: bytes) -> Answer:
    answer = quay.library().quay_kilograms(weight_of(five))
    weighed = answer.kilograms
    return answer.refusal, 'nan' if weighed != weighed else struct.pack('>d', weighed)


def write_record(
        time: int, kind: int, address: int, serial: int, status: int, digits: bytes, family: int, carried: int, room: bytes) -> Answer:
    lent = Room(room)
    item = quay.QuayRecord(time, serial, kind, address, status, *digits, family, carried)
    written = quay.library().quay_write_record(item, lent.buffer, lent.length)
    return written.refusal, written.length, lent.left()


def read_record(twenty: bytes) -> Answer:
    return record_words(quay.library().quay_read_record(twenty, len(twenty)))


def step(log: bytes, place: int) -> Answer:
    stepped = quay.library().quay_step(log, len(log), place)
    return (*record_words(stepped.item), stepped.next)


def record_heard(time: int, role: int, family: int, kind: int, refusal: int, wire: int, kept: int, body: bytes) -> Answer:
    event = quay.QuayEvent(wire, kept, kind, refusal)
    return record_words(quay.library().quay_record_heard(time, role, family, event, body, len(body)))


def list_event(number: int, family: int, kind: int, refusal: int, wire: int, kept: int, body: bytes, room: bytes) -> Answer:
    lent = Room(room)
    event = quay.QuayEvent(wire, kept, kind, refusal)
    listed = quay.library().quay_list_event(number, family, event, body, len(body), lent.buffer, lent.length)
    return listed.refusal, listed.length, listed.entry, lent.left()


def list_total(total: int, weights: int, refused: int, room: bytes) -> Answer:
    lent = Room(room)
    written = quay.library().quay_list_total(total, weights, refused, lent.buffer, lent.length)
    return written.refusal, written.length, lent.left()


# ---- the forms of inputs

def number_of(bits: int) -> Callable[[str], int]:
    def read(word: str) -> int:
        if not NUMBER.fullmatch(word) or not 0 <= int(word) < 2**bits:
            raise Malformed(f'{word!r} is not a number of {bits} bits')
        return int(word)
    return read


def any_bytes(word: str) -> bytes:
    if not BYTES.fullmatch(word):
        raise Malformed(f'{word!r} is not bytes in lowercase hex')
    return b'' if word == '-' else bytes.fromhex(word)


def bytes_of(length: int) -> Callable[[str], bytes]:
    def read(word: str) -> bytes:
        held = any_bytes(word)
        if len(held) != length:
            raise Malformed(f'{word!r} is not {length} bytes')
        return held
    return read


U8, U32, U64, DIGITS = number_of(8), number_of(32), number_of(64), bytes_of(3)
WEIGHT = bytes_of(5)  # W0 W1 W2 CON, and the family
EVENT = (U8, U8, U64, U64)  # kind, refusal, wire, kept

FORMS: Dict[str, Tuple[Callable[..., Answer], Tuple[Callable[[str], Input], ...]]] = {
    'listen': (listen, (U8, U64, U64, bytes_of(quay.BODY_BYTES), any_bytes)),
    'write_frame': (write_frame, (U8, U32, U8, any_bytes, any_bytes)),
    'write_message': (write_message, (U8, U8, U8, U32, U8, any_bytes, any_bytes)),
    'read_message': (read_message, (U8, U8, any_bytes)),
    'read_weight': (read_weight, (WEIGHT,)),
    'value': (value, (WEIGHT,)),
    'difference': (difference, (WEIGHT, WEIGHT)),
    'kilograms': (kilograms, (WEIGHT,)),
    'write_record': (write_record, (U64, U8, U8, U32, U8, DIGITS, U8, U8, any_bytes)),
    'read_record': (read_record, (any_bytes,)),
    'step': (step, (any_bytes, U64)),
    'record_heard': (record_heard, (U64, U8, U8, *EVENT, any_bytes)),
    'list_event': (list_event, (U64, U8, *EVENT, any_bytes, any_bytes)),
    'list_total': (list_total, (U64, U64, U64, any_bytes)),
}


# ---- lines

def word_of(thing: Any) -> str:
    if isinstance(thing, bytes):
        return thing.hex() or '-'
    return str(thing)


def taken_apart(line: str) -> Tuple[str, List[Input], str]:
    """The function, its inputs and the wanted answer of a case line."""
    asked, equals, wanted = line.partition(' = ')
    name, *words = asked.split(' ')
    if not equals:
        raise Malformed('there is no ` = `')
    if name not in FORMS:
        raise Malformed(f'there is no function {name!r}')
    forms = FORMS[name][1]
    if len(words) != len(forms):
        raise Malformed(f'{name} has {len(forms)} inputs, not {len(words)}')
    return name, [form(word) for form, word in zip(forms, words)], wanted


def difference_in(line: str) -> str:
    """How the library's answer differs from the wanted one; nothing where it does not."""
    name, inputs, wanted = taken_apart(line)
    given = [word_of(thing) for thing in FORMS[name][0](*inputs)]
    words = wanted.split(' ')
    if len(words) != len(given) or not all(ANSWER_WORD.fullmatch(word) for word in words):
        raise Malformed(f'the answer of {name} has {len(given)} words of numbers or bytes, not {wanted!r}')
    return '' if words == given else f'{name}: wanted {wanted}, given {" ".join(given)}'


def run(lines: Iterable[str]) -> int:
    cases, differ = 0, 0
    for cases, line in enumerate(lines, start=1):
        try:
            found = difference_in(line.rstrip('\n'))
        except Malformed as reason:
            print(f'line {cases}: {reason}', file=sys.stderr)
            return 1
        differ += bool(found)
        if found and differ <= DIFFERENCES_SHOWN:
            print(f'line {cases}: {found}')
    print(f'{cases} cases, {differ} differ')
    return 0 if cases and not differ else 1


def main() -> int:
    try:
        quay.load_library()
    except quay.LibraryNotLoaded as error:
        print(f'runner: {error}', file=sys.stderr)
        return 1
    return run(sys.stdin)


if __name__ == '__main__':
    sys.exit(main())
