"""Cases of captures whose bodies fail their check: each such body is handed on to the bad bit's rule.

Bits are turned over in the body, and the frame is then written with its stuffing,
if nothing else is said.
"""

from bad_bit import LONGEST_SERVED, find_heard, flipped
from bad_bits_asked import (GROSS_BODY, NET_BODY, SERIAL_BODY, every_bit, right, right_from, right_of_length,
                            some_places, turned)
from captures import PAPER, body_of_length, body_with_check_ff, capture, clean_wire, named_captures, noise
from cases_frame import marked_room
from frame import LONGEST_BODY, frame_of, stuffed

GROSS, NET, REPLY_GROSS, REPLY_NET, SERIAL, WRONG_CHECK, SHORT_BODY, STRAY_BYTE = (
    bytes.fromhex(text) for _, text in PAPER)
FAILING = frame_of(flipped(GROSS_BODY, 20))
MIXED_SIZES = (400, 1000, 2000, 4096)  # the last fills the longest text


def good_wires(source):
    """Whole frames, none of which fails."""
    yield b''
    yield b'\xff' * 9
    for wire in (GROSS, NET, REPLY_GROSS, REPLY_NET, SERIAL):
        yield wire
    yield GROSS + NET + REPLY_GROSS + REPLY_NET + SERIAL
    for length in (30, LONGEST_SERVED, 32, LONGEST_BODY):
        yield frame_of(body_of_length(source, length))
    for _ in range(10):
        yield clean_wire(source)[1]


def one_bit_wires(source):
    """Each bit of E3 and of bodies with FFs in them, alone; all those of E4 in one row."""
    for body in (GROSS_BODY, SERIAL_BODY, body_with_check_ff(source, 5), right(b'\x01\xff\xff\xfe\xff')):
        for changed in every_bit(body):
            yield frame_of(changed)
    yield b''.join(frame_of(changed) for changed in every_bit(NET_BODY))


def full_bodies(source):
    """Bodies of FFs as long as are served and around: more bytes on the wire than in
    the body. Bits that make an FF, and bits of an FF."""
    for length in (30, LONGEST_SERVED, 32):
        for body in (right(b'\x01' + b'\xff' * (length - 2)), right(b'\x01' + b'\xfe\xff\x7f' * 10)):
            for place in (0, 1, 7, 8, 100, 8 * len(body) - 9, 8 * len(body) - 8, 8 * len(body) - 1):
                yield frame_of(flipped(body, place))
        yield frame_of(flipped(body_with_check_ff(source, length), 11))


def longest_bodies(source):
    """Each end, and some bits between, of 31 bytes."""
    body = right_from(source, 0x02, LONGEST_SERVED)
    for place in (*range(10), *range(10, 240, 17), *range(238, 248)):
        yield frame_of(flipped(body, place))


def lengths(source):
    """Bodies that fail, of every length up to one past what is served and of long ones:
    one bit, and two. 256 bytes are refusal 2. A good frame stands behind each."""
    for length in (*range(1, 36), 63, 64, 100, 127, 128, 253, 254, 255, 256, 257):
        body = right_from(source, 0x01, length) if length > 1 else b'\x01'
        yield frame_of(flipped(body, source.below(8 * length))) + GROSS
        if length > 1:
            yield frame_of(turned(body, *some_places(source, length, 2))) + GROSS


def first_bytes(source):
    """Each bit of a first byte: what was 00 is heard as an address, an address as 00, or
    as FE or FF, which start no body. What was FE or FF is on no wire but so."""
    for first in (0x00, 0xFD, 0x7F, 0xFC, 0x01, 0x80):
        for length in (3, 6):
            body = right_from(source, first, length)
            for bit in range(8):
                yield frame_of(flipped(body, 8 * length - 8 + bit)) + GROSS
    for first in (0xFE, 0xFF):
        body = right_from(source, first, 7)
        for bit in range(8):
            yield frame_of(flipped(body, 48 + bit))


def too_short():
    """Refusal 1 and not 4: under 3 bytes, and 00 ahead of under 6, whatever the check;
    alone, and with a frame that fails behind."""
    several = [b'\x01', b'\x03', b'\x01\x69', b'\x01\x68', b'\x00', b'\x00\x69']
    several += [bytes([0, *range(1, length)]) for length in (3, 4, 5)]
    several += [flipped(right(bytes(length)), 0) for length in (2, 3, 4)]
    several += [right(bytes([0, *range(1, length)])) for length in (2, 3, 4)]
    for body in several:
        yield frame_of(body)
        yield frame_of(body) + FAILING
    yield frame_of(flipped(right(bytes(5)), 0))  # 00 and six bytes: 4


def ahead_of_it(source):
    """What may stand ahead of a frame that fails: nothing, refusals 1, 2 and 3, a frame,
    another that fails, FFs, an FE, noise, part of a frame."""
    yield b''
    yield SHORT_BODY
    yield b'\xff\x01\xc3\xff\xff'
    yield STRAY_BYTE
    yield b'\xff' + marked_room(40).replace(b'\xff', b'\x01') + b'\xff\x02'
    for length in (256, 300):
        yield frame_of(body_of_length(source, length, b'\x55'))
        yield frame_of(body_of_length(source, length, b'\xff'))
    yield REPLY_GROSS
    yield WRONG_CHECK
    yield frame_of(body_of_length(source, LONGEST_BODY))
    yield b'\xff' * 5
    yield b'\xff\xfe'
    yield REPLY_GROSS[4:]
    yield SERIAL[3:]
    for count in range(1, 12):
        yield noise(source, 3 * count)


def behind_others(source):
    """Frames that fail behind each of these, and a frame behind them. An FF that ends a
    body also opens the next one."""
    several = (FAILING, WRONG_CHECK, frame_of(flipped(right_from(source, 0x01, LONGEST_SERVED), 247)),
               stuffed(flipped(SERIAL_BODY, 33)) + b'\xff\xff')
    for front in ahead_of_it(source):
        for wire in several:
            yield front + wire + GROSS
        yield b'\xff' + front + FAILING


def one_behind_another(source):
    """Bodies that fail behind longer ones, which left their bytes in the room where a
    shorter one is kept; behind shorter ones; and behind long ones that are refused by
    2 and 3 or are not finished well."""
    lengths_in_a_row = ((31, 7, 3), (3, 7, 31), (255, 31, 3), (31, 30, 29, 28), (32, 31), (33, 32, 31, 30),
                        (7, 7, 7), (255, 254, 32, 31), (4, 3), (31, 3, 31, 3), tuple(range(31, 2, -1)))
    for row in lengths_in_a_row:
        for _ in range(3):
            bodies = [right_from(source, 0x01, length) for length in row]
            yield b''.join(frame_of(turned(body, source.below(8 * len(body)))) for body in bodies)
            yield b''.join(frame_of(turned(body, *some_places(source, len(body), 2))) for body in bodies)
    for length in (LONGEST_SERVED, 32, LONGEST_BODY):
        ahead = (frame_of(right(b'\x01' + b'\xff' * (length - 2))), frame_of(right_from(source, 0x01, length)),
                 b'\xff\x01' + stuffed(source.bytes(length - 1)) + b'\xff\x02')
        for front in ahead:
            for behind in (3, 7, 30, LONGEST_SERVED):
                yield front + frame_of(flipped(right_from(source, 0x01, behind), source.below(8 * behind)))
    for place in range(24):
        yield frame_of(body_of_length(source, 9, b'\xff\xfe\x55')) + frame_of(flipped(b'\x01\xc3\xe3', place))


def not_finished(source):
    """A frame that fails cut behind every byte, alone and behind another; a body left
    open at the end, Inside and Held."""
    for wire in (FAILING, frame_of(flipped(SERIAL_BODY, 9))):
        for length in range(1, len(wire) + 1):
            yield wire[:length]
            yield FAILING + wire[:length]
    long_wire = frame_of(flipped(right_from(source, 0x01, LONGEST_SERVED), 100))
    for length in (len(long_wire) - 1, len(long_wire) - 2, 20):
        yield FAILING + long_wire[:length]


def delimiters():
    """More FFs than are needed ahead and behind, and one FF that is missing."""
    for ahead in (1, 2, 5):
        for behind in (2, 3, 7):
            wire = b'\xff' * ahead + FAILING[1:-2] + b'\xff' * behind
            yield wire + WRONG_CHECK
            yield wire + WRONG_CHECK[1:]
    yield FAILING[1:] + WRONG_CHECK
    yield FAILING[:-1] + WRONG_CHECK
    yield FAILING[:-1] + WRONG_CHECK[1:]


def drawn(source):
    """Frames that fail by one to three bits, several on a wire; mixed lines; and all
    the small captures of the other layers."""
    for _ in range(40):
        wire = b''
        for _ in range(source.between(1, 6)):
            body = right_from(source, source.between(1, 0xFD), source.between(3, 34))
            wire += frame_of(turned(body, *some_places(source, len(body), source.choice((1, 1, 1, 2, 3)))))
        yield wire
    for size in MIXED_SIZES:
        for seed in (3000, 3001):
            yield capture(seed + size, size)
    for _, wire in named_captures():
        yield wire


def wires(source):
    yield from good_wires(source)
    yield from one_bit_wires(source)
    for group in (full_bodies, longest_bodies, lengths, first_bytes, behind_others, one_behind_another, not_finished):
        yield from group(source)
    yield from too_short()
    yield from delimiters()
    yield from drawn(source)


def cases(source):
    for wire in dict.fromkeys(wires(source)):
        heard = find_heard(wire)
        yield ('bad_bits_heard', (wire,), (heard, len(heard)))
