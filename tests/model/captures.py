"""Captures made from seeds: the same seed and size give the same bytes.

`capture(seed, size)` makes one long mixed capture. `named_captures()` gives
some hundreds of small ones, each with a name that says what is in it.
"""

from addresses import BRIDGES, HIGH, HIGHEST_OF_01
from check_byte import check_of
from frame import DELIMITER, HIGHEST_SHORT, INSERTED, body_of, frame_of, stuffed
from good_messages import ROWS, good_data, some_address, weight_data
from random_bytes import RandomBytes

REQUESTS = tuple(code for role, code in ROWS if role == 'request')
REPLIES = tuple(code for role, code in ROWS if role == 'reply')
WEIGHTS = (0xC2, 0xC3)
E3_WEIGHT = b'\x51\x02\x00\x01'

PAPER = (
    ('request gross', 'ff01c3e3ffff'), ('request net', 'ff01c28affff'),
    ('reply gross', 'ff01c351020001deffff'), ('reply net', 'ff01c20500009132ffff'),
    ('serial 255', 'ff01a1fffe000039ffff'), ('wrong check', 'ff01c3e2ffff'),
    ('short body', 'ff01ffff'), ('stray byte', 'ff01ff02'))


def delimited(source, body):
    """A frame with "one or more FFs ahead and two or more behind"."""
    ahead = 1 if source.below(3) else source.between(1, 5)
    behind = 2 if source.below(3) else source.between(2, 6)
    return b'\xff' * ahead + stuffed(body) + b'\xff' * behind


def message_body(source, role, code):
    address = some_address(source)
    return body_of(address, code, good_data(source, role, code))


def weight_body(source):
    return message_body(source, 'reply', source.choice(WEIGHTS))


def reply_body(source):
    return message_body(source, 'reply', source.choice(REPLIES))


def request_body(source):
    return message_body(source, 'request', source.choice(REQUESTS))


def any_body(source):
    """Any address, any code, any data: a frame may carry any code."""
    data = source.bytes(source.below(12))
    return body_of(some_address(source), source.byte(), data)


def wrong_field_body(source):
    """A good frame whose message is refusal 8 as a reply."""
    wrong = source.choice((
        (0xC3, bytes([0x51, source.between(0x9A, 0x9F), 0, 0x11])),
        (0xC2, bytes([0, 0, source.between(0xA0, 0xFF), 0x11])),
        (0xBF, bytes([source.between(0x80, 0xFF)])),
        (0xC6, bytes([0x22, 2, 0x30, 0x31])),
        (0xC7, bytes([0x70]) + source.bytes(6))))
    return body_of(some_address(source), wrong[0], wrong[1])


def full_body(source):
    """A body whose data is made of FF and FE."""
    length = source.choice((1, 2, 3, 8, 60, 250)) - source.below(2)
    alphabet = source.choice((b'\xff', b'\xfe', b'\xff\xfe', b'\xff\xfe\xfe', b'\xff\xff\xfe\x00'))
    data = source.bytes_from(alphabet, min(length, 249))
    return body_of(some_address(source), source.choice((0xFF, 0xFE, 0xC3)), data)


def weight_from(first):
    """The weight of E3 behind any first byte, the check right: also behind FE and
    FF, which are no address. Behind 00 its first bytes are a serial."""
    return body_of(('short', first), 0xC3, E3_WEIGHT)


def check_spoilt(body):
    return body[:-1] + bytes([body[-1] ^ 1])


def high_body(source):
    """A weight from an address that 01 refused and 02 request 1 lets in."""
    first = source.choice((*BRIDGES, source.between(HIGHEST_OF_01 + 1, HIGHEST_SHORT)))
    return body_of(('short', first), source.choice(WEIGHTS), weight_data(source))


def ff_not_stuffed(body):
    """A body's first FF without its FE: on the wire one more delimiter, so the
    byte behind it starts a body, whose check is wrong."""
    return b'\xff' + body[:1] + stuffed(body[1:]) + b'\xff\xff'


def banned_wire(source):
    """A right check behind a first byte FE or FF, which no writer writes.
    "Delimited: FF stays, FE goes back to Seeking": FE gives no event, nor does
    FF with its FE behind it."""
    first = source.choice((INSERTED, DELIMITER))
    body = body_of(('short', first), source.choice(WEIGHTS), weight_data(source))
    if first == DELIMITER and source.below(2):
        return ff_not_stuffed(body)
    return delimited(source, body)


def body_of_length(source, length, alphabet=None):
    """A body of so many bytes, its check right, address 1: also one that no
    writer may write."""
    inner = source.bytes(length - 2) if alphabet is None else source.bytes_from(alphabet, length - 2)
    unchecked = b'\x01' + inner
    return unchecked + bytes([check_of(unchecked)])


def body_with_check_ff(source, length):
    """A body whose check byte is FF, so that the check too is stuffed."""
    ahead = b'\x01' + source.bytes(length - 3)
    last = next(byte for byte in range(256) if check_of(ahead + bytes([byte])) == 0xFF)
    return ahead + bytes([last, 0xFF])


def long_body(source):
    return body_of_length(source, source.between(253, 257),
                          source.choice((None, b'\x00', b'\xff', b'\xfe', b'\xff\xfe')))


def noise(source, length):
    alphabet = source.choice((None, b'\xff\xfe\x01', b'\xff\xff\xfe\x01\x02\x00\xc3', b'\xfe', b'\xff'))
    return source.bytes(length) if alphabet is None else source.bytes_from(alphabet, length)


def flipped(source, wire):
    place = source.below(len(wire))
    bit = 1 << source.below(8)
    return wire[:place] + bytes([wire[place] ^ bit]) + wire[place + 1:]


def dropped(source, wire):
    place = source.below(len(wire))
    return wire[:place] + wire[place + 1:]


def doubled(source, wire):
    place = source.below(len(wire))
    return wire[:place + 1] + wire[place:]


def inserted(source, wire):
    place = source.below(len(wire) + 1)
    byte = source.choice((0xFF, 0xFE, 0x00, source.byte()))
    return wire[:place] + bytes([byte]) + wire[place:]


def cut(source, wire):
    """A late listener's part: the wire from some byte on."""
    return wire[source.below(len(wire)):]


DAMAGES = (('flipped', flipped), ('dropped', dropped), ('doubled', doubled), ('inserted', inserted))


def piece(source):
    """One piece of a mixed line: weights first of all, then the rest."""
    kind = source.below(100)
    if kind < 55:
        return delimited(source, weight_body(source))
    if kind < 70:
        return delimited(source, reply_body(source))
    if kind < 80:
        return delimited(source, request_body(source))
    if kind < 92:
        damage = source.choice(DAMAGES)[1]
        return damage(source, delimited(source, source.choice((weight_body, reply_body))(source)))
    if kind < 94:
        return cut(source, delimited(source, weight_body(source)))
    if kind < 96:
        return delimited(source, source.choice((any_body, high_body, wrong_field_body))(source))
    if kind < 97:
        return banned_wire(source)
    if kind < 98:
        return noise(source, source.between(1, 30))
    return delimited(source, source.choice((full_body, long_body))(source))


def capture(seed, size):
    """Exactly `size` bytes of a mixed line; the last piece may be cut short."""
    source = RandomBytes(seed)
    pieces = []
    length = 0
    while length < size:
        pieces.append(piece(source))
        length += len(pieces[-1])
    return b''.join(pieces)[:size]


def clean_bodies(source):
    makers = (weight_body, weight_body, reply_body, request_body, any_body, wrong_field_body)
    return [source.choice(makers)(source) for _ in range(source.between(1, 8))]


def clean_wire(source):
    """(the bodies, their wire), every frame whole."""
    bodies = clean_bodies(source)
    return bodies, b''.join(delimited(source, body) for body in bodies)


def placed_frames(source):
    """(a clean wire, where the first byte of each body stands on it, the bodies)."""
    wire, starts, bodies = b'', [], clean_bodies(source)
    for body in bodies:
        framed = delimited(source, body)
        starts.append(len(wire) + len(framed) - len(framed.lstrip(b'\xff')))
        wire += framed
    return wire, starts, bodies


def paper_captures():
    yield 'empty', b''
    for name, text in PAPER:
        yield name, bytes.fromhex(text)
    yield 'paper one after another', bytes.fromhex(''.join(text for _, text in PAPER))
    yield 'paper listing', bytes.fromhex(PAPER[2][1] + PAPER[3][1] + PAPER[5][1])


def whole_and_late_captures(source):
    for count in range(40):
        yield 'clean wire %d' % count, clean_wire(source)[1]
    for count in range(40):
        yield 'late join %d' % count, cut(source, clean_wire(source)[1])


def damaged_captures(source):
    for name, damage in DAMAGES:
        for count in range(30):
            wire = clean_wire(source)[1]
            for _ in range(source.between(1, 3)):
                wire = damage(source, wire)
            yield '%s %d' % (name, count), wire


def long_captures(source):
    """Bodies of 253 to 257 bytes, each with a good frame behind it."""
    behind = bytes.fromhex(PAPER[2][1])
    fillings = (('zeros', b'\x00'), ('any bytes', None), ('ff', b'\xff'), ('fe', b'\xfe'),
                ('ff and fe', b'\xff\xfe'))
    for length in range(253, 258):
        for name, alphabet in fillings:
            body = body_of_length(source, length, alphabet)
            yield 'body of %d, %s' % (length, name), frame_of(body) + behind
        yield 'body of %d, check ff' % length, frame_of(body_with_check_ff(source, length)) + behind
        stray = stuffed(body_of_length(source, length, b'\x00')[:length - 1])
        yield 'body of %d, stray byte' % length, b'\xff' + stray + b'\xff\x02' + behind


def full_captures(source):
    for count in range(30):
        wires = [delimited(source, full_body(source)) for _ in range(source.between(1, 3))]
        yield 'full of ff and fe %d' % count, b''.join(wires)
    for length in range(3, 9):
        yield 'check ff %d' % length, frame_of(body_with_check_ff(source, length))


def address_captures(source):
    """Each address of interest, its check right and wrong, with a good frame
    behind it: FE and FF are never heard as the first byte of a body."""
    behind = bytes.fromhex(PAPER[2][1])
    for first in HIGH:
        body = weight_from(first)
        yield 'address %02x' % first, frame_of(body) + behind
        yield 'address %02x, wrong check' % first, frame_of(check_spoilt(body)) + behind
    yield 'address ff, not stuffed', ff_not_stuffed(weight_from(0xFF)) + behind
    for count in range(6):
        yield 'high address %d' % count, delimited(source, high_body(source))


def noise_captures(source):
    for count in range(40):
        yield 'noise %d' % count, noise(source, source.between(1, 120))
    for count in range(30):
        yield 'mixed %d' % count, capture(1000 + count, source.between(60, 400))


def named_captures():
    """Some hundreds of (name, bytes), always the same."""
    source = RandomBytes(7)
    groups = (whole_and_late_captures, damaged_captures, long_captures, full_captures,
              address_captures, noise_captures)
    captures = list(paper_captures())
    for group in groups:
        captures.extend(group(source))
    return captures
