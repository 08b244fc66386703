"""Cases of the listener: one byte in every state, blocks, whole wires."""

from addresses import HIGH
from captures import (DAMAGES, body_of_length, body_with_check_ff, check_spoilt, named_captures,
                      weight_from)
from frame import HIGHEST_SHORT, body_of, frame_of, stuffed
from good_messages import some_address
from line import FRESH, Event, feed, feed_block, hear, kept_bytes, state_of
from random_bytes import RandomBytes
from refusals import ACCEPTED

PHASES = ('seeking', 'delimited', 'inside', 'held')
COUNTS = (0, 1, 2, 3, 5, 6, 7, 253, 254, 255)
OVER_COUNTS = (256, 257, 511, 65_535, 65_536, 2 ** 32, 2 ** 64 - 1)
BYTES = (0x00, 0x01, 0x02) + HIGH
WIRES = (0, 1, 2, 255, 256, 2 ** 32 - 1, 2 ** 53, 2 ** 63 - 1, 2 ** 63, 2 ** 64 - 2, 2 ** 64 - 1)


def seen(state):
    """A state handed back, without what lies past its kept bytes."""
    return state_of(state.phase, state.wire, state.count, kept_bytes(state))


def fed_case(state, byte):
    after, event = feed(state, byte)
    return ('feed', (state, bytes([byte])), (seen(after), event))


def block_case(state, block):
    after, taken, event = feed_block(state, block)
    return ('feed_block', (state, block), (seen(after), taken, event))


def event_with(body):
    """A frame's event to be handed in, also with a body that no wire gives."""
    return Event(ACCEPTED, len(frame_of(body)), len(body), body)


def kept_of(source, count):
    """Kept bytes with a right check where the count allows one."""
    if count < 3:
        return source.choice((b'\x01\xc3', b'\x00\x00', b'\xff\xfe', bytes([HIGHEST_SHORT, 0])))[:count]
    return source.choice((body_of_length(source, count), source.bytes(count),
                          body_with_check_ff(source, count), body_of_length(source, count, b'\xff\xfe')))


def boundary_cases(source):
    """Every phase, every boundary count, every byte of interest."""
    for phase in PHASES:
        for count in COUNTS:
            for byte in BYTES:
                state = state_of(phase, source.choice(WIRES), count, kept_of(source, count))
                yield fed_case(state, byte)
        for count in OVER_COUNTS:
            for byte in (0x00, 0x01, 0xFE, 0xFF):
                yield fed_case(state_of(phase, source.choice(WIRES), count, b'\x01\xc3'), byte)


def wire_cases():
    """Each boundary of the wire count, in each phase, for each turn."""
    for phase in PHASES:
        for wire in WIRES:
            for byte in (0x02, 0xFE, 0xFF):
                yield fed_case(state_of(phase, wire, 1, b'\x01'), byte)


def ending_cases(source):
    """Held, then FF: every answer a body's end can have, 1, 4, 5 or a frame,
    with nothing kept and with marks past the kept bytes."""
    bodies = [b'', b'\x01', b'\x01\xc3', b'\x00\x00\x00\x00\x00', b'\x00\x00\x00\x00\x00\x00',
              b'\x01\xc3\xe3', b'\x01\xc3\xe2', b'\x00\x00\x00\x00\xa1']
    bodies += [weight_from(first) for first in HIGH]
    bodies += [check_spoilt(weight_from(first)) for first in HIGH]
    bodies += [body_of(some_address(source), source.byte(), source.bytes(source.below(6)))
               for _ in range(30)]
    bodies += [body_of_length(source, 255), source.bytes(255)]
    for body in bodies:
        for byte in (0xFF, 0xFE, 0x01):
            yield fed_case(state_of('held', source.choice(WIRES), len(body), body), byte)
        marked = (body + b'\xc3\xff\x07')[:255]
        yield fed_case(state_of('held', 9, len(body), marked), 0xFF)
        yield fed_case(state_of('inside', 9, len(body), marked), 0x44)


def random_cases(source):
    for _ in range(100):
        count = source.below(12)
        state = state_of(source.choice(PHASES), source.number(), count, kept_of(source, count))
        yield fed_case(state, source.choice((0xFF, 0xFE, source.byte())))


def block_cases(source):
    """Blocks from fresh and from any state. An empty block is tried only on
    states that a reader can have handed back: the papers say nothing of the
    others there."""
    for state in (state_of('seeking', 5, 0, b''), state_of('delimited', 5, 0, b''),
                  state_of('inside', 5, 2, b'\x01\xc3'), state_of('held', 5, 2, b'\x01\xc3')):
        yield block_case(state, b'')
    for phase in PHASES:
        yield block_case(state_of(phase, 5, 300, b'\x01\xc3'), b'\xff\x01\xc3\xe3\xff\xff')
    for _ in range(60):
        body = body_of(some_address(source), source.byte(), source.bytes(source.below(6)))
        wire = frame_of(body)
        yield block_case(FRESH, wire)
        yield block_case(FRESH, wire + frame_of(body))
        damage = source.choice(DAMAGES)[1]
        yield block_case(FRESH, damage(source, wire) + wire)
        place = source.below(len(wire) + 1)
        middle, taken, _ = feed_block(FRESH, wire[:place])
        yield block_case(middle, wire[taken:])
        yield block_case(state_of(source.choice(PHASES), 2 ** 64 - source.below(9) - 1, 2, b'\x01\xc3'),
                         wire)
    for length in range(253, 258):
        for alphabet in (b'\x00', b'\xff', None):
            yield block_case(FRESH, frame_of(body_of_length(source, length, alphabet)))
        yield block_case(state_of('inside', 7, 1, b'\x01'),
                         stuffed(body_with_check_ff(source, length)[1:]) + b'\xff\xff')


def address_cases():
    """Each address of interest behind a right check. On a wire heard from fresh
    FE and FF start no body. A body handed in with nothing kept keeps them, and
    earns 5 (open point 2.8)."""
    for first in HIGH:
        body = weight_from(first)
        rest = stuffed(body[1:]) + b'\xff\xff'
        yield block_case(FRESH, frame_of(body))
        yield block_case(state_of('inside', 5, 0, b''), stuffed(body[:1]) + rest)
        yield block_case(state_of('inside', 5, 1, body[:1]), rest)
        yield block_case(state_of('held', 5, len(body), body), b'\xff')
    # An FF held with nothing kept becomes the first byte when its FE is heard.
    yield block_case(state_of('held', 5, 0, b''), stuffed(weight_from(0xFF))[1:] + b'\xff\xff')


def cases():
    source = RandomBytes(13)
    yield from boundary_cases(source)
    yield from wire_cases()
    yield from ending_cases(source)
    yield from random_cases(source)
    yield from block_cases(source)
    yield from address_cases()


def wires():
    """Whole captures from fresh: how many events, and each with its counts."""
    for _, capture in named_captures():
        events = tuple(hear(capture))
        yield ('hear', (capture,), (len(events), events))
