"""Cases of the check byte, of bodies, and of frames written into lent room."""

from addresses import HIGH, short
from check_byte import check_of, fed, register_of
from frame import (HIGHEST_SHORT, address_is_legal, body_of, frame_of, judge_lent, open_body, room_needed,
                   stuffed, write_frame)
from captures import PAPER, body_of_length, body_with_check_ff
from good_messages import some_address
from random_bytes import RandomBytes

ADDRESSES = short((0, 1, 2, 0x7F, HIGHEST_SHORT - 1) + HIGH) + tuple(('serial', number) for number in (
    0, 1, 254, 255, 256, 0xFFFF, 0xFF00FF, 0xFFFFFE, 0xFFFFFF, 0x1000000, 0x1000001, 2 ** 32 - 1))
FIRST_BYTES = (0x00, 0x01, 0x02) + HIGH
LONG_LENGTHS = (255, 256, 257, 300, 600)  # the last that a body may have, and past it


def marked_room(length):
    """Lent room with a different mark in each place, so that a byte changed,
    moved or cleared is seen."""
    return bytes((place * 7 + 0x31) % 251 for place in range(length))


def written(name, write, inputs, length):
    """A write into a marked room: number, length, and the room afterwards."""
    room = bytearray(marked_room(length))
    lent = bytes(room)
    answer = write(*inputs, room)
    return (name, tuple(inputs) + (lent,), answer + (bytes(room),))


def rooms_around(need):
    """Exact, one short, none, one long, long."""
    return (need, need - 1, 0, need + 1, need + 6)


def check_cases(source):
    for register in (0, 1, 0x7F, 0x80, 0x69, 0xFF):
        for byte in (0, 1, 0x80, 0x69, 0xFF, source.byte()):
            yield ('fed', (bytes([register]), bytes([byte])), (bytes([fed(register, byte)]),))
    some = [b'', b'\x01', bytes(254), b'\xff' * 254, b'\xfe' * 254, b'\x01' + bytes(253)]
    some += [bytes([byte]) for byte in range(256)]
    some += [source.bytes(length) for length in (2, 3, 4, 5, 31, 32, 100, 253, 254)]
    some += [source.bytes(source.below(40)) for _ in range(60)]
    for sent in some:
        yield ('check_of', (sent,), (bytes([check_of(sent)]),))
        yield ('register_of', (sent,), (bytes([register_of(sent)]),))
        whole = sent + bytes([check_of(sent)])
        yield ('register_of', (whole,), (bytes([register_of(whole)]),))


def address_cases():
    for address in ADDRESSES + short(range(256)):
        yield ('address_is_legal', (address,), (address_is_legal(address),))


def judged_bodies(source):
    """Bodies of every refusal, alone and together, up to 255 bytes."""
    yield b''
    for first in FIRST_BYTES:
        for length in range(1, 9):
            unchecked = bytes([first]) + source.bytes(max(length - 2, 0))
            right = (unchecked + bytes([check_of(unchecked)]))[:length]
            yield right
            yield right[:-1] + bytes([right[-1] ^ source.between(1, 255)])
    for _, text in PAPER[:6]:
        yield bytes.fromhex(text)[1:-2].replace(b'\xff\xfe', b'\xff')
    for length in (253, 254, 255):
        yield body_of_length(source, length)
        yield body_of_length(source, length, b'\xff\xfe')
        yield body_with_check_ff(source, length)
        yield source.bytes(length)
    for _ in range(40):
        yield body_of(some_address(source), source.byte(), source.bytes(source.below(10)))


def overlong_bodies(source):
    for length in (256, 257, 300):
        yield body_of_length(source, length)
        yield source.bytes(length)
    yield bytes(256)


def long_bodies():
    """At 255 bytes and past them, every first byte, a right check and wrong
    ones: past 255 it is 2 whatever the check and the address."""
    for length in LONG_LENGTHS:
        for first in FIRST_BYTES:
            unchecked = bytes([first]) + marked_room(length - 2)
            check = check_of(unchecked)
            for change in (0x00, 0x01, 0xFF):
                yield unchecked + bytes([check ^ change])


def body_cases(source):
    bodies = list(judged_bodies(source)) + list(overlong_bodies(source))
    for body in long_bodies():
        yield ('judge_lent', (body,), (judge_lent(body),))
    for body in bodies:
        yield ('judge_lent', (body,), (judge_lent(body),))
        opened = open_body(body)
        if len(opened) > 1:
            number, address, code, data = opened
            opened = (number, address, bytes([code]), data)
        yield ('open_body', (body,), opened)


def data_to_write(source, address):
    """Data of interest for an address, the longest legal one and its
    neighbours included."""
    longest = 252 if address[0] == 'short' else 249
    yield b''
    yield b'\xff'
    yield b'\xff\xff\xfe\xff'
    yield source.bytes(source.below(8))
    yield bytes(longest)
    yield bytes(longest + 1)


def frame_inputs(source):
    """(address, code, data) of every refusal and boundary."""
    for address in ADDRESSES:
        for data in data_to_write(source, address):
            yield address, source.choice((0xC3, 0xA1, 0x00, 0xFE, 0xFF)), data
    for address in (('short', 1), ('serial', 0xFFFFFF)):
        longest = 252 if address[0] == 'short' else 249
        for length in (longest - 1, longest, longest + 1, longest + 2):
            yield address, 0xFF, b'\xff' * length
            yield address, 0xD2, source.bytes(length)
    for _ in range(60):
        yield some_address(source), source.byte(), source.bytes(source.below(10))
    for length in range(3, 9):
        body = body_with_check_ff(source, length)
        yield ('short', 1), body[1], body[2:-1]


def write_cases(source):
    for address, code, data in frame_inputs(source):
        inputs = (address, bytes([code]), data)
        number, need = room_needed(address, code, data)
        yield ('room_needed', inputs, (number, need))
        lengths = (need, need - 1) if need > 60 else rooms_around(need)
        if number:
            lengths = (0, 12)
        for length in lengths:
            name, _, answer = written('write_frame', write_frame, (address, code, data), length)
            yield (name, inputs + (marked_room(length),), answer)


def stuffing_cases(source):
    bodies = [b'', b'\xff', b'\xfe', b'\xff\xff', b'\xff\xfe', b'\xff\xfe\xfe', b'\x01\xff\x02']
    bodies += [source.bytes_from(b'\xff\xfe\x00', source.below(12)) for _ in range(20)]
    for body in bodies:
        yield ('stuffed', (body,), (stuffed(body),))
        yield ('frame_of', (body,), (frame_of(body),))


def cases():
    source = RandomBytes(11)
    yield from address_cases()
    for group in (check_cases, body_cases, stuffing_cases, write_cases):
        yield from group(source)
