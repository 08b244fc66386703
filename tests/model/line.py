"""The listener: one byte at a time, its state handed in and handed back.

"Listening has four states": seeking, delimited, inside, held. A state is
taken by value: phase, wire count, kept count, and room for 255 kept bytes.
What lies past the kept count is never looked at, and the papers say nothing
of it; only the kept bytes are compared.

An event carries both counts: "the place on the wire and the place in the
body". Its number is 0 for a body that ended well, else the refusal.
"""

from collections import namedtuple

from frame import DELIMITER, INSERTED, LONGEST_BODY, judge_heard
from refusals import ACCEPTED, BODY_TOO_LONG, FIELD_WRONG, LINE_REFUSALS, STRAY_BYTE

WIRE_TURN = 2 ** 64  # "bytes since the reader started, modulo 2^64"
NOTHING_KEPT = bytes(LONGEST_BODY)

State = namedtuple('State', 'phase wire count kept')
Event = namedtuple('Event', 'number wire count body')

FRESH = State('seeking', 0, 0, NOTHING_KEPT)  # "A fresh reader seeks."


def state_of(phase, wire, count, kept):
    """A state with the bytes `kept`, zeros behind them."""
    return State(phase, wire, count, bytes(kept).ljust(LONGEST_BODY, b'\x00'))


def kept_bytes(state):
    """The body bytes kept so far."""
    return state.kept[:state.count]


def at_rest(phase, wire):
    """Seeking and delimited states keep nothing (open point 2.7), whatever
    the state handed in held."""
    return State(phase, wire, 0, NOTHING_KEPT)


def refusal(number, wire, count):
    return Event(number, wire, count, b'')


def judge_event(event):
    """An event handed in to the log or the listing. Only "a refusal met on
    the line", 1 to 8, is an event's: any other number is "a field outside its
    values", refusal 8."""
    if event.number == ACCEPTED or event.number in LINE_REFUSALS:
        return ACCEPTED
    return FIELD_WRONG


def keep(state, wire, byte):
    """"A byte to keep that would be the 256th is refusal 2 and leads to
    Seeking." For refusal 2 the body count is 255."""
    count = state.count
    if count == LONGEST_BODY:
        return at_rest('seeking', wire), refusal(BODY_TOO_LONG, wire, count)
    kept = state.kept[:count] + bytes((byte,)) + state.kept[count + 1:]
    return State('inside', wire, count + 1, kept), None


def start(wire, byte):
    """The first byte of a body: "any other byte starts a body"."""
    return keep(at_rest('delimited', wire), wire, byte)


def end(state, wire):
    """"FF ends the body, gives its event and leads to Delimited". The check
    is that of the kept bytes (open point 2.9)."""
    body = kept_bytes(state)
    number = judge_heard(body)
    if number != ACCEPTED:
        return at_rest('delimited', wire), refusal(number, wire, len(body))
    return at_rest('delimited', wire), Event(ACCEPTED, wire, len(body), body)


def feed(state, byte):
    """One byte in; (next state, event or None) out."""
    if state.count > LONGEST_BODY:
        # "A state handed in with more than 255 kept bytes is treated as
        # fresh, wire count 0": in every phase, and the byte is then taken.
        state = FRESH
    wire = (state.wire + 1) % WIRE_TURN
    if state.phase == 'seeking':
        return at_rest('delimited' if byte == DELIMITER else 'seeking', wire), None
    if state.phase == 'delimited':
        if byte == DELIMITER:
            return at_rest('delimited', wire), None
        if byte == INSERTED:
            return at_rest('seeking', wire), None
        return start(wire, byte)
    if state.phase == 'inside':
        if byte == DELIMITER:
            return state._replace(phase='held', wire=wire), None
        return keep(state, wire, byte)
    if byte == INSERTED:
        return keep(state, wire, DELIMITER)
    if byte == DELIMITER:
        return end(state, wire)
    # The byte is used up: it is not looked at again (open point 2.4).
    return at_rest('seeking', wire), refusal(STRAY_BYTE, wire, state.count)


def feed_block(state, block):
    """Feed up to and with the byte of the first event.

    (next state, bytes taken, event or None). An empty block takes nothing and
    hands the state back as it stood, even one with more than 255 kept bytes:
    the papers speak of no byte there, so nothing has been treated yet.
    """
    for place, byte in enumerate(block):
        state, event = feed(state, byte)
        if event is not None:
            return state, place + 1, event
    return state, len(block), None


def hear(wire):
    """All events of a wire, one after another, from a fresh reader."""
    state = FRESH
    for byte in wire:
        state, event = feed(state, byte)
        if event is not None:
            yield event
