"""Cases of messages: every row in both roles, right and wrong, and weights in every family."""

from addresses import BRIDGES, HIGH, short
from captures import E3_WEIGHT, WEIGHTS
from cases_frame import judged_bodies, marked_room, overlong_bodies, rooms_around
import families
from families_asked import every_mix, some_family
from frame import HIGHEST_SHORT, body_of, room_needed
from good_messages import LONGEST_TEXT, ROWS, good_data, some_address
from message import ROLES, TABLE, read_message, write_message
from overloads_asked import overloaded_replies
from random_bytes import RandomBytes

NEAR_LENGTHS = range(0, 10)
SOME_ADDRESSES = short((1, *BRIDGES, HIGHEST_SHORT)) + (('serial', 0), ('serial', 0xFFFFFF))


def read_case(role, family, body):
    answer = read_message(role, family, body)
    if len(answer) > 1:
        number, address, code, data, fields = answer
        answer = (number, address, bytes([code]), data, fields)
    return ('read_message', (role, family, body), answer)


def write_case(role, family, address, code, data, length):
    room = bytearray(marked_room(length))
    answer = write_message(role, family, address, code, data, room)
    inputs = (role, family, address, bytes([code]), data, marked_room(length))
    return ('write_message', inputs, answer + (bytes(room),))


def wrong_fields(role, code):
    """Data of the right length with a field at or past its boundary."""
    if code == 0xBF:
        return [bytes([byte]) for byte in (0x00, 0x02, 0x03, 0x04, 0x12, 0x13, 0x14, 0x40, 0x7F, 0x80, 0xFF)]
    if code in (0xC2, 0xC3) and role == 'reply':
        return [bytes([0x9A, 0, 0, 1]), bytes([0, 0xA0, 0, 1]), bytes([0, 0, 0x0A, 1]),
                bytes([0x99, 0x99, 0x99, 0xFF]), bytes([0, 0, 0, 0x80]), bytes([0xFF] * 4)]
    if code == 0xC6 and role == 'request':
        return [bytes([byte]) for byte in (0x00, 0x01, 0x02, 0x1E, 0x1F, 0x20, 0x21, 0x22, 0xFF)]
    if code == 0xC6 or (code == 0xD2 and role == 'request'):
        numbers = list(range(0x00, 0x26)) + [0x7F, 0x80, 0xDF] + list(range(0xE0, 0x100))
        return [bytes([byte, 0]) for byte in numbers] + [
            bytes([0x99, 1]), bytes([0x99, 1, 0x41]), bytes([0x20, 1]), bytes([0x20, 2, 0x41]),
            bytes([0x20, 0, 0x41]), bytes([0x20, 255]) + bytes(254), bytes([0x20])]
    if code == 0xC7:
        return [bytes([0x70]) + bytes(count) for count in (0, 5, 6, 7)] + [bytes([0x71]) + bytes(6)]
    return []


def row_data(source, role, code):
    """Right data, near lengths, boundary fields, random ones, of one row."""
    for _ in range(4):
        yield good_data(source, role, code)
    for length in NEAR_LENGTHS:
        yield source.bytes(length)
        yield bytes(length)
    yield from wrong_fields(role, code)


def longest_texts(source):
    """(role, address, code, data) of texts around the longest (open point 4.8)."""
    for role, code in (('reply', 0xC6), ('request', 0xD2)):
        for address in (('short', 1), ('serial', 255)):
            longest = LONGEST_TEXT[address[0]]
            for length in (longest - 1, longest, longest + 1, 255):
                for first in (0x20, 0x99):
                    yield role, address, code, bytes([first, length]) + source.bytes(length)


def bodies_to_read(source):
    """(role, body) of every code and row, right and wrong."""
    for role in ROLES:
        for code in range(256):
            yield role, body_of(('short', 1), code, b'')
        for code in TABLE:
            for data in row_data(source, role, code) if (role, code) in ROWS else [b'', b'\x01']:
                if len(data) <= 249:
                    yield role, body_of(source.choice(SOME_ADDRESSES), code, data)
    for role, address, code, data in longest_texts(source):
        yield role, body_of(address, code, data)
    for body in list(judged_bodies(source)) + list(overlong_bodies(source)):
        yield source.choice(ROLES), body
    for _ in range(150):
        role, code = source.choice(ROWS)
        address = some_address(source)
        yield source.choice(ROLES), body_of(address, code, good_data(source, role, code))


def bodies_by_address(source):
    """Every row in its role, read from each address of interest."""
    for role, code in ROWS:
        for first in HIGH:
            yield role, body_of(('short', first), code, good_data(source, role, code, 12))


def two_refusals():
    """Two refusals met at once, in each neighbouring pair of 5, 6, 7, 8, 2, 9."""
    text = bytes([0x20, 255]) + bytes(255)
    wrong_text = bytes([0x99, 255]) + bytes(255)
    yield 'reply', ('short', 0), 0x11, b'', 20
    yield 'reply', ('short', 0xFE), 0xC3, b'', 20
    yield 'request', ('serial', 0x1000000), 0xEE, b'\x01', 20
    yield 'request', ('short', 1), 0xEE, b'', 0
    yield 'request', ('short', 1), 0xEE, b'\x01\x02', 20
    yield 'reply', ('short', 1), 0xC3, b'\xff\xff\xff', 20
    yield 'reply', ('short', 1), 0xC6, b'\x99\x01', 20
    yield 'reply', ('short', 1), 0xC7, b'\x70' + bytes(5), 20
    yield 'request', ('short', 1), 0xD2, wrong_text, 0
    yield 'request', ('short', 1), 0xD2, wrong_text[:-1], 0
    yield 'request', ('short', 1), 0xD2, text, 0
    yield 'reply', ('serial', 0), 0xC6, text, 600
    yield 'reply', ('short', 1), 0xC3, b'\xff\x00\x00\x00', 0
    yield 'reply', ('short', 1), 0xC3, b'\x51\x02\x00\x01', 0


def messages_to_write(source):
    """(role, address, code, data, length of the room) of every code, row and refusal."""
    for role in ROLES:
        for code in range(256):
            yield role, ('short', 1), code, b'', 8
    for role, code in ROWS:
        for data in row_data(source, role, code):
            address = source.choice(SOME_ADDRESSES)
            number, need = room_needed(address, code, data)
            yield role, address, code, data, need if not number else 12
        data = good_data(source, role, code, 12)
        for length in rooms_around(room_needed(('short', 1), code, data)[1]):
            yield role, ('short', 1), code, data, length
        for address in short((0,) + HIGH) + (('serial', 0x1000000),):
            yield role, address, code, data, 40
    for role, address, code, data in longest_texts(source):
        need = room_needed(address, code, data)[1]
        yield role, address, code, data, need
        if need:
            yield role, address, code, data, need - 1
    yield from two_refusals()
    for _ in range(100):
        role, code = source.choice(ROWS)
        yield source.choice(ROLES), some_address(source), code, good_data(source, role, code, 12), \
            source.between(8, 48)


def weight_cases(role, family, address, code, data):
    """A weight read; and written into room enough, one byte short and none."""
    yield read_case(role, family, body_of(address, code, data))
    need = room_needed(address, code, data)[1]
    for length in (need, need - 1, 0):
        yield write_case(role, family, address, code, data, length)


def family_cases():
    """Both weights in both roles, in every family with bits 6 and 5 clear and
    set. As a request four bytes are too many in every family."""
    for family, status in every_mix(0x91):
        for role in ROLES:
            for code in WEIGHTS:
                for address in (('short', 1), ('serial', 255)):
                    yield from weight_cases(role, family, address, code, b'\x05\x00\x00' + bytes([status]))


def family_order_cases():
    """Bit 6 beside another refusal, in every family: 5 and 7 come ahead of 8, 9
    behind it, and digits that are not decimal are 8 too."""
    weight = E3_WEIGHT[:3] + b'\x41'
    for family in families.ALL:
        for address, data, length in ((('short', 0), weight, 20), (('serial', 0x1000000), weight, 20),
                                      (('short', 1), weight[1:], 20), (('short', 1), weight + b'\x41', 20),
                                      (('short', 1), b'\x5a' + weight[1:], 20), (('short', 1), weight, 9)):
            yield write_case('reply', family, address, 0xC3, data, length)
        for address, data in ((('short', 0xFE), weight), (('short', 1), weight[1:]),
                              (('short', 1), weight + b'\x41'), (('short', 1), b'\x5a' + weight[1:])):
            yield read_case('reply', family, body_of(address, 0xC3, data))


def overload_cases():
    """Overloaded weights are read and written as any other (open point 6.7)."""
    for family, address, code, data in overloaded_replies():
        yield read_case('reply', family, body_of(address, code, data))
        yield write_case('reply', family, address, code, data, 16)


def row_family_cases(source):
    """Every row in its role and every family, right data."""
    for role, code in ROWS:
        for family in families.ALL:
            data = good_data(source, role, code, 12)
            yield read_case(role, family, body_of(('short', 1), code, data))
            yield write_case(role, family, ('short', 1), code, data, 40)


def cases():
    source = RandomBytes(19)
    turn = RandomBytes(67)  # of the families, so that the other bytes do not depend on them
    for role, body in bodies_to_read(source):
        yield read_case(role, some_family(turn), body)
    for role, *rest in messages_to_write(source):
        yield write_case(role, some_family(turn), *rest)
    for role, body in bodies_by_address(source):
        yield read_case(role, some_family(turn), body)
    yield from family_cases()
    yield from family_order_cases()
    yield from row_family_cases(source)
    yield from overload_cases()
