"""Right bodies, and bodies with bits turned over, that the cases of the bad bit ask.

Which bit is told stands in `bad_bit.py` and nowhere here. Registers are asked of
the check: no powers of x are kept.
"""

from bad_bit import flipped
from captures import PAPER
from check_byte import check_of, register_of

POWERS = 255             # places at which a lone bit leaves a register of its own
ONE_BYTE = b'\x00'       # the only right body of one byte
GROSS_BODY, NET_BODY, SERIAL_BODY = (
    bytes.fromhex(text)[1:-2].replace(b'\xff\xfe', b'\xff') for _, text in PAPER[2:5])  # of E3, E4 and E5


def with_register(unchecked, register):
    """A body that leaves this register: with 0 it is a right one."""
    return unchecked + bytes([check_of(unchecked) ^ register])


def right(unchecked):
    return with_register(unchecked, 0)


def right_of_length(source, length):
    """A right body of random bytes, from one byte on."""
    return right(source.bytes(length - 1))


def right_from(source, first, length):
    """The same with its first byte said. One byte alone is right only if it is 00."""
    return right((bytes([first]) + source.bytes(max(length - 2, 0)))[:length - 1])


def turned(body, *places):
    """Several bits turned over."""
    for place in places:
        body = flipped(body, place)
    return body


def lone_bit_register(place):
    """The register that is left by zeros with one bit set at a place."""
    return register_of((1 << place).to_bytes(place // 8 + 1, 'big'))


def every_bit(body):
    """The body with each of its bits turned over, alone."""
    for place in range(8 * len(body)):
        yield flipped(body, place)


def every_pair(body):
    """The body with each two of its bits turned over."""
    for high in range(8 * len(body)):
        for low in range(high):
            yield turned(body, low, high)


def some_places(source, length, count):
    """So many different places among the bits of a body."""
    places = set()
    while len(places) < count:
        places.add(source.below(8 * length))
    return tuple(sorted(places))
