"""Cases of the bad bit: bodies with none, one and more bits turned over; and captures, in `cases_bad_bit_wire.py`."""

from bad_bit import LONGEST_SERVED, find
from bad_bits_asked import (GROSS_BODY, ONE_BYTE, POWERS, SERIAL_BODY, every_bit, every_pair,
                            lone_bit_register, right, right_from, right_of_length, some_places, turned,
                            with_register)
import cases_bad_bit_wire
from cases_frame import marked_room
from random_bytes import RandomBytes

SERVED = range(1, LONGEST_SERVED + 1)
# Past every served length. Cut to eight bits, some of them are 0, or lengths that are served.
LONG = (41, 63, 64, 100, 127, 128, 254, 255, 256, 257, 258, 263, 286, 287, 288, 300, 512, 519, 1000)
VERY_LONG = (4095, 4096)  # the last fills the longest text
# First bytes that a body has when its bad bit is flipped: a serial, no address, both ends of the short ones.
FIRST_BYTES = (0x00, 0xFE, 0xFF, 0x01, 0xFD)


def single_bits(source):
    """Each bit of right bodies of 1, 2, 7 and 31 bytes, and of E5, which has six."""
    several = [ONE_BYTE, bytes(2), right(b'\x01'), right(b'\xff'), right_of_length(source, 2),
               GROSS_BODY, right(b'\x00\xff\xfe\xff\xff\x01'), SERIAL_BODY,
               bytes(LONGEST_SERVED), right_from(source, 0x01, LONGEST_SERVED)]
    for body in several:
        yield from every_bit(body)


def ends_of_lengths(source):
    """Both ends of every served length, and where its bytes meet."""
    for length in SERVED:
        body = right_of_length(source, length)
        for place in (0, 7, 8, 8 * length - 9, 8 * length - 8, 8 * length - 1):
            if 0 <= place < 8 * length:
                yield turned(body, place)


def two_bits(source):
    """All pairs of bodies of 1, 2 and 7 bytes; of 31 bytes pairs at both ends, with
    what stands beside them, and some between."""
    for body in (ONE_BYTE, right_of_length(source, 2), GROSS_BODY):
        yield from every_pair(body)
    last = 8 * LONGEST_SERVED - 1
    for body in (bytes(LONGEST_SERVED), right_from(source, 0x01, LONGEST_SERVED)):
        yield turned(body, 0, last)
        for place in (1, 7, 8, 9, *(source.between(10, last - 10) for _ in range(8)), last - 8, last - 7, last - 1):
            yield turned(body, 0, place)
            yield turned(body, place, last)
        for place in range(0, last, 19):
            yield turned(body, place, place + 1)
        for _ in range(30):
            yield turned(body, *some_places(source, LONGEST_SERVED, 2))


def right_bodies(source):
    """No bit is bad: 26 up to 31 bytes, 25 past them and of the empty body, which
    passes its check too."""
    yield b''
    for length in (*range(1, 41), *LONG, *VERY_LONG):
        yield bytes(length)
        yield right(marked_room(length - 1))
        if length < 1000:
            yield right_of_length(source, length)
            yield right(b'\xff' * (length - 1))
    for byte in range(0, 256, 15):
        yield right(bytes([byte]))


def wrong_bodies(source):
    """Every length: a bit of its last byte, a bit of its first, and all ones, which are
    right at 255 bytes alone. The empty body has no bit that could be wrong."""
    for length in (*range(1, 41), *LONG, *VERY_LONG):
        body = right(marked_room(length - 1))
        yield turned(body, source.below(8))
        yield turned(body, 8 * length - 1 - source.below(8))
        if length < 1000:
            yield b'\xff' * length


def past_the_longest(source):
    """32 bytes and more: 25, although one bit would do. At 32 bytes the first bit and the
    last both would, and turned over together they are not seen (02 request 8)."""
    for length in (32, 33, 63, 64, 255, 256, 257, 287, 288):
        body = right_of_length(source, length)
        for place in (0, 7, 8, 247, 248, 254, 255, 8 * length - 8, 8 * length - 1):
            yield turned(body, place)
        yield turned(body, 0, 255)
        yield turned(body, *some_places(source, length, 2))
    for place in range(0, 256, 5):
        yield turned(bytes(32), place)


def every_register(source):
    """Bodies of 1, 2 and 31 bytes that leave each register; that of one byte is its byte."""
    for register in range(1, 256):
        yield bytes([register])
        yield with_register(source.bytes(1), register)
        yield with_register(source.bytes(LONGEST_SERVED - 1), register)


def beside_the_bits(source):
    """Registers of a lone bit just past the body's bits and further on, up to the last
    there is, and just inside them."""
    for length in SERVED:
        past = 8 * length
        places = {past - 1, past, past + 1, past + 7, past + 8, (past + POWERS) // 2, POWERS - 2, POWERS - 1}
        places.update(range(past, POWERS, 61))
        if length == LONGEST_SERVED:
            places.update(range(past, POWERS))  # all that this length has no bit for
        for place in sorted(place for place in places if place < POWERS):
            yield with_register(source.bytes(length - 1), lone_bit_register(place))


def first_bytes(source):
    """A bit that, flipped, gives a first byte of interest; and one further behind."""
    for first in FIRST_BYTES:
        for length in (1, 2, 3, 6, LONGEST_SERVED):
            if length > 1 or first == 0:
                body = right_from(source, first, length)
                for bit in range(8):
                    yield turned(body, 8 * length - 8 + bit)
                yield turned(body, source.below(8))


def drawn(source):
    """Random bodies of all lengths; and right ones with one to four bits turned over,
    anywhere and side by side."""
    for length in range(41):
        for _ in range(4):
            yield source.bytes(length)
    for length in SERVED:
        for count in (1, 1, 2, 3, 4):
            yield turned(right_of_length(source, length), *some_places(source, length, count))
        start = source.below(8 * length - 3)
        yield turned(right_of_length(source, length), *range(start, start + 4))


def bodies(source):
    yield b'\x03'  # no bit would
    for group in (single_bits, ends_of_lengths, two_bits, right_bodies, wrong_bodies, past_the_longest,
                  every_register, beside_the_bits, first_bytes, drawn):
        yield from group(source)


def cases():
    source = RandomBytes(97)
    for body in dict.fromkeys(bodies(source)):
        yield ('bad_bit', (body,), find(body))
    yield from cases_bad_bit_wire.cases(source)
