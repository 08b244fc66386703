"""The bad bit of a body, 02 request 9: "Which bit went bad".

"For a body of at most 31 bytes that fails its check, say which single bit, if
flipped, makes it pass, counted from the last bit as 0, or say that no single bit
would. At most one can."

The bit is found as this sentence says it: each bit is flipped alone, and the check
is asked again. Nothing but the check is asked, so the bit is told even if flipping
it gives an illegal address or a first byte FF, and bodies of one and two bytes are
served (open point 11.6).
"""

from functools import lru_cache

from check_byte import register_of
from line import FRESH, feed, kept_bytes
from refusals import ACCEPTED, BODY_NOT_SERVED, CHECK_RIGHT, CHECK_WRONG, refused

LONGEST_SERVED = 31
NO_BIT, ONE_BIT = 0, 1  # how the answer goes on if nothing was refused


def passes(body):
    """"The receiver feeds the whole body and wants 0." """
    return register_of(body) == 0


def flipped(body, place):
    """The body with one bit turned over. Its place is "counted from the last bit as
    0", across bytes: the low bit of the last byte is 0, its top bit 7, the low bit
    of the byte ahead of it 8."""
    bytes_behind, bit = divmod(place, 8)
    at = len(body) - 1 - bytes_behind
    return body[:at] + bytes([body[at] ^ 1 << bit]) + body[at + 1:]


def mending_places(body):
    """The place of each bit that, flipped alone, makes the body pass."""
    return [place for place in range(8 * len(body)) if passes(flipped(body, place))]


@lru_cache(maxsize=None)  # remembered only: each answer is found by flipping
def find(body):
    """(25,), (26,), (0, one bit, its place) or (0, no bit). "Refusals: 25 body empty
    or over 31 bytes, 26 check already right", in this order (open point 11.6)."""
    if not 1 <= len(body) <= LONGEST_SERVED:
        return refused(BODY_NOT_SERVED)
    if passes(body):
        return refused(CHECK_RIGHT)
    places = mending_places(body)
    if not places:
        return (ACCEPTED, NO_BIT)
    place, = places  # "At most one can."
    return (ACCEPTED, ONE_BIT, place)


def failed_bodies(wire):
    """(event, body) of each refusal 4 that a fresh reader gives. The body is what was
    kept when its last byte came: the state behind the event keeps nothing."""
    state = FRESH
    for byte in wire:
        after, event = feed(state, byte)
        if event is not None and event.number == CHECK_WRONG:
            yield event, kept_bytes(state)
        state = after


def find_heard(wire):
    """Each body that failed its check handed on: (wire count, kept count, finding) of
    each refusal 4. "The finding is for the crew's sheet only: the frame stays refused"."""
    return tuple((event.wire, event.count, find(body)) for event, body in failed_bodies(wire))
