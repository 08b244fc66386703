"""The capture walker of 02 request 2, "Walk a whole capture without feeding bytes".

A walker "holds the lent block and its place in it; each step answers the next
event and the walker moved on". It remembers nothing else: each step works out
from the block and the place how listening goes on (open point 9.4).

The body of a frame goes into 255 lent bytes, which the papers do not speak of.
While a step listens, each kept byte of an open body is put there at its own
place, the first at 0. A step changes no other lent byte. A body never ends
without an event, so in one step at most one is opened.
"""

from collections import namedtuple

from frame import DELIMITER, LONGEST_BODY
from line import FRESH, feed, state_of
from refusals import ACCEPTED

END = 'end'  # "after the last one say "end" for ever"

Walker = namedtuple('Walker', 'block place')


def lent_bytes(front=b''):
    """The 255 lent bytes: `front` ahead, zeros behind."""
    return bytearray(bytes(front).ljust(LONGEST_BODY, b'\x00'))


def listening_at(block, place):
    """How listening goes on from a place ahead of the block's end. "Started at
    place 0": as "the byte-fed reader started fresh". "Any other place handed in
    goes on with no body open, Delimited if the byte before the place is FF and
    Seeking otherwise, the wire count going on from the place." """
    if place == 0:
        return FRESH
    phase = 'delimited' if block[place - 1] == DELIMITER else 'seeking'
    return state_of(phase, place, 0, b'')


def put_kept(before, after, lent):
    """A byte that was kept, at its own place among the lent bytes."""
    if after.count > before.count:
        lent[before.count] = after.kept[before.count]


def met(event, lent):
    """A frame's event has the length of the body; the body itself is the front
    of the lent bytes."""
    if event.number != ACCEPTED:
        return event
    return event._replace(body=bytes(lent[:event.count]))


def step(walker, lent):
    """(the next event or END, the walker moved on); `lent` is a bytearray of 255.

    "An empty block, or a place past its end, ends at once": the place stays, and
    so does every lent byte. Behind an event the place is behind its byte. With no
    event left it is the block's end (open point 9.3).
    """
    block, place = walker
    if place >= len(block):
        return END, walker
    state = listening_at(block, place)
    while place < len(block):
        after, event = feed(state, block[place])
        place += 1
        put_kept(state, after, lent)
        if event is not None:
            return met(event, lent), Walker(block, place)
        state = after
    return END, Walker(block, place)


def walk(walker, lent):
    """Steps until "end": (each event with the place behind it, the walker then)."""
    steps = []
    event, walker = step(walker, lent)
    while event != END:
        steps.append((event, walker.place))
        event, walker = step(walker, lent)
    return steps, walker
