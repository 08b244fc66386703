"""Cases of the listing: lines of events in every family, the total line, small captures."""

from itertools import product

from addresses import HIGH
from captures import (E3_WEIGHT, PAPER, WEIGHTS, any_body, named_captures, reply_body, request_body,
                      weight_body, wrong_field_body)
from cases_frame import written
from cases_line import event_with
import families
from families_asked import FIVE, MINUS, OVERLOAD, SETTLED, every_mix, some_family
from frame import HIGHEST_SHORT, body_of
from good_messages import ROWS, good_data
from line import Event, hear
from listing import event_line, listing_of, total_line, write_line, write_total
from random_bytes import RandomBytes
from refusals import ALL, LINE_REFUSALS

COUNTS = (1, 2, 9, 10, 99, 100, 65_535, 10 ** 9, 2 ** 64 - 1)
UNMET = tuple(number for number in ALL if number not in LINE_REFUSALS)  # by no line


def address_events():
    """A weight and another message from each address of interest, handed in:
    FE and FF, which no wire heard from fresh gives, list as refusal 5."""
    for first in HIGH:
        for code, data in ((0xC3, E3_WEIGHT), (0xC2, b'\x05\x00\x00\x91'), (0xCD, b'')):
            yield event_with(body_of(('short', first), code, data))


def some_events(source):
    for _, text in PAPER:
        yield from hear(bytes.fromhex(text))
    for number in range(1, 6):
        yield Event(number, 12, 3, b'')
    for role, code in ROWS:
        for address in (('short', 1), ('short', HIGHEST_SHORT), ('serial', 0), ('serial', 16_777_215)):
            yield event_with(body_of(address, code, good_data(source, role, code, 12)))
    for status in (0x00, 0x07, 0x08, 0x10, 0x18, 0x20, 0x40, 0x60, 0x80, 0x98, 0xFF):
        for digits in (b'\x00\x00\x00', b'\x99\x99\x99', b'\x01\x00\x00', b'\x00\x00\x10'):
            yield event_with(body_of(('short', 10), 0xC3, digits + bytes([status])))
    for maker in (weight_body, reply_body, request_body, any_body, wrong_field_body):
        for _ in range(15):
            yield event_with(maker(source))
    yield from address_events()


def line_cases(source, turn):
    for place, event in enumerate(some_events(source)):
        count, family = source.choice(COUNTS), some_family(turn)
        need = len(event_line(count, family, event))
        lengths = (need, need - 1, need + 5, 0) if place % 4 == 0 else (need,)
        for length in lengths:
            yield written('write_line', write_line, (count, family, event), length)


def family_events():
    """(family, event) of both weights, in every family with bits 6 and 5 clear
    and set: settled; the longest line; and a message that no family changes."""
    for code in WEIGHTS:
        for family, status in every_mix(0x91):
            yield family, event_with(body_of(('short', 1), code, b'\x05\x00\x00' + bytes([status])))
        for family, status in every_mix(0x17):
            longest = b'\x99\x99\x99' + bytes([status])
            yield family, event_with(body_of(('serial', 16_777_215), code, longest))
    for family in families.ALL:
        yield family, event_with(body_of(('short', 1), 0xC4, b'\x00\x00\x00\x60'))


def family_cases():
    for family, event in family_events():
        need = len(event_line(2, family, event))
        for length in (need, need - 1, need + 5):
            yield written('write_line', write_line, (2, family, event), length)


def overload_events():
    """(family, event) of both weights overloaded: both signs, settled and not, in
    every family with bits 6 and 5 clear and set, the points and the digits in turn;
    and with digits that are not decimal, which are refused."""
    turns = product(WEIGHTS, (0, MINUS), (0, SETTLED))
    for shift, (code, minus, settled) in enumerate(turns):
        for place, (family, status) in enumerate(every_mix(OVERLOAD | minus | settled)):
            digits = (b'\x00\x00\x00', b'\x00\x00\x06', b'\x99\x99\x99')[(place + shift) % 3]
            status |= (place + shift) % 8
            yield family, event_with(body_of(('short', 2), code, digits + bytes([status])))
    for family in families.ALL:
        yield family, event_with(body_of(('short', 2), 0xC3, b'\x00\x0a\x06' + bytes([OVERLOAD | SETTLED])))


def longest_overloaded():
    """(family, event) of the longest lines of both weights overloaded, with both signs."""
    for code, family, minus in product(WEIGHTS, families.ALL, (0, MINUS)):
        status = OVERLOAD | SETTLED | FIVE | minus | 7
        yield family, event_with(body_of(('serial', 16_777_215), code, b'\x99\x99\x99' + bytes([status])))


def overload_cases():
    """Hyphens need the room that digits need."""
    for family, event in overload_events():
        yield written('write_line', write_line, (7, family, event), len(event_line(7, family, event)))
    for family, event in longest_overloaded():
        count = COUNTS[-1]
        need = len(event_line(count, family, event))
        for length in (need, need - 1):
            yield written('write_line', write_line, (count, family, event), length)


def handed_in_cases(turn):
    """Refusals handed in as events: 1 to 8 list, of the frame layer and of the
    message layer; the others are 8, ahead of 9, whatever the room."""
    for number in ALL:
        for count in (1, 10, 2 ** 64 - 1):
            event, family = Event(number, 12, 3, b''), some_family(turn)
            need = len(event_line(count, family, event))
            for length in (need, need - 1, need + 5, 0):
                yield written('write_line', write_line, (count, family, event), length)
    for number in UNMET:
        for length in (1, 100):
            yield written('write_line', write_line,
                          (7, some_family(turn), Event(number, 2 ** 64 - 1, 255, b'')), length)


def total_cases():
    for events, weights, refusals in ((0, 0, 0), (3, 2, 1), (10, 9, 0), (100, 10, 90), (7, 0, 0),
                                      (2 ** 64 - 1, 2 ** 63, 2 ** 63 - 1)):
        need = len(total_line(events, weights, refusals))
        for length in (need, need - 1, need + 5, 0):
            yield written('write_total', write_total, (events, weights, refusals), length)


def capture_cases(turn):
    for _, capture in named_captures():
        family = some_family(turn)
        yield ('listing', (family, capture), (listing_of(family, capture),))


def cases():
    source = RandomBytes(29)
    turn = RandomBytes(71)  # of the families, so that the other bytes do not depend on them
    yield from line_cases(source, turn)
    yield from family_cases()
    yield from overload_cases()
    yield from handed_in_cases(turn)
    yield from total_cases()
    yield from capture_cases(turn)
