"""The line: a reader that hears blocks of bytes, the events it gives, and the lines of a listing."""
from __future__ import annotations

import ctypes
from dataclasses import dataclass
from enum import IntEnum
from typing import Iterator, List, Tuple, Union

from quay_family import Family, said_family
from quay_library import (BODY_BYTES, HIGHEST_BYTE, HIGHEST_COUNT, Bytes, QuayEvent, QuayPlace, address_of, as_bytes, library,
                          whole_number)
from quay_refusal import accepted, meaning_of

# Longer than any line: the longest is a total of three counts of 20 digits.
LINE_ROOM = 128

FRAME_KIND = 1
REFUSAL_KIND = 2


@dataclass(frozen=True)
class Frame:
    """A frame was heard. `wire` is the place on the wire: bytes since the reader started. `kept` is the place in the body: how many
    bytes the body has. `body` has those bytes. `family` is that of the line on which it was heard: its body is read by it."""
    wire: int
    kept: int
    body: bytes
    family: Family

    def crossing(self) -> Tuple[Family, QuayEvent, bytes]:
        """The family, the event and its body as the library takes them."""
        kept = whole_number('kept', self.kept, HIGHEST_COUNT)
        event = QuayEvent(whole_number('wire', self.wire, HIGHEST_COUNT), kept, FRAME_KIND, 0)
        return said_family(self.family), event, as_bytes(self.body)


@dataclass(frozen=True)
class LineRefusal:
    """A refusal met on the line: its number, and both places. It is an event, not a weight. It has no family: it is the same in each."""
    number: int
    wire: int
    kept: int

    @property
    def meaning(self) -> str:
        """What the number means, in the paper's words."""
        return meaning_of(self.number)

    def crossing(self) -> Tuple[Family, QuayEvent, bytes]:
        """The event as the library takes it. It has no body, so no family reads anything."""
        wire, kept = whole_number('wire', self.wire, HIGHEST_COUNT), whole_number('kept', self.kept, HIGHEST_COUNT)
        event = QuayEvent(wire, kept, REFUSAL_KIND, whole_number('number', self.number, HIGHEST_BYTE))
        return Family.PLAIN, event, b''


Event = Union[Frame, LineRefusal]


class Phase(IntEnum):
    """The four states of listening."""
    SEEKING = 0
    DELIMITED = 1
    INSIDE = 2
    HELD = 3


class Reader:
    """Hears a line of terminals of one family, block by block. However the bytes are cut into blocks, the events are the same. The family is
    said here, once for the line, and each frame carries it.

    >>> reader = Reader(Family.OF_002)
    >>> list(reader.feed(bytes.fromhex('ff 01 c3 e3')))
    []
    >>> frame, refusal = reader.feed(bytes.fromhex('ff ff 01 ff 02'))
    >>> frame
    Frame(wire=6, kept=3, body=b'\\x01\\xc3\\xe3', family=<Family.OF_002: 3>)
    >>> refusal
    LineRefusal(number=3, wire=9, kept=1)
    """

    def __init__(self, family: Family) -> None:
        self._family = said_family(family)
        self._place = QuayPlace()
        self._body = ctypes.create_string_buffer(BODY_BYTES)

    @property
    def family(self) -> Family:
        """The family of the line's terminals."""
        return self._family

    @property
    def wire(self) -> int:
        """Bytes taken since the reader started, modulo 2^64."""
        return self._place.wire

    @property
    def kept(self) -> int:
        """Body bytes kept."""
        return self._place.kept

    @property
    def phase(self) -> Phase:
        """The state the reader is in."""
        return Phase(self._place.phase)

    def feed(self, block: Bytes) -> Iterator[Event]:
        """The events of a block, in order. The whole block is taken at once, also if nobody asks for its events. So a block that
        was fed is never half heard."""
        return iter(self._heard(as_bytes(block)))

    def _heard(self, block: bytes) -> List[Event]:
        listen, begin, place = library().quay_listen, address_of(block), 0
        events: List[Event] = []
        while place < len(block):
            went = accepted(listen(self._place, begin + place, len(block) - place, self._body))
            self._place = went.place
            place += went.used
            if went.event.kind:
                events.append(self._told(went.event))
        return events

    def _told(self, event: QuayEvent) -> Event:
        if event.kind == FRAME_KIND:
            return Frame(event.wire, event.kept, self._body.raw[:event.kept], self._family)
        return LineRefusal(event.refusal, event.wire, event.kept)


class Entry(IntEnum):
    """What a line of the listing is, for the counts of the total."""
    NOTHING = 0
    WEIGHT = 1
    MESSAGE = 2
    REFUSAL = 3


@dataclass(frozen=True)
class Listed:
    """A line of the listing, with its newline, and what it is."""
    line: str
    entry: Entry


def list_event(number: int, event: Event) -> Listed:
    """The line of an event, as the event of that number. The event is read as a reply, by its family. The body of a frame is judged again,
    check and all: bytes that nobody heard list as the refusal they earn. An overloaded weight has six hyphens for its digits, and is listed as
    a weight all the same.

    >>> list_event(2, Frame(wire=10, kept=7, body=bytes.fromhex('01c20500009132'), family=Family.OF_002))
    Listed(line='2 weight net 1 - 000005 1 1 0 gross\\n', entry=<Entry.WEIGHT: 1>)
    >>> list_event(7, Frame(wire=10, kept=7, body=bytes.fromhex('01c300000618a2'), family=Family.OF_002)).line
    '7 weight gross 1 + ------ 0 1 1 gross\\n'
    >>> list_event(3, LineRefusal(4, wire=16, kept=3)).line
    '3 refused 4\\n'
    """
    number = whole_number('number', number, HIGHEST_COUNT)
    family, crossing, body = event.crossing()
    room = ctypes.create_string_buffer(LINE_ROOM)
    listed = accepted(library().quay_list_event(number, family, crossing, body, len(body), room, LINE_ROOM))
    return Listed(room.raw[:listed.length].decode('ascii'), Entry(listed.entry))


def list_total(total: int, weights: int, refused: int) -> str:
    """The last line of a listing, with its newline. The total counts all events.

    >>> list_total(3, 2, 1)
    'total 3 weights 2 refused 1\\n'
    """
    named = (('total', total), ('weights', weights), ('refused', refused))
    counts = [whole_number(name, count, HIGHEST_COUNT) for name, count in named]
    room = ctypes.create_string_buffer(LINE_ROOM)
    written = accepted(library().quay_list_total(*counts, room, LINE_ROOM))
    return room.raw[:written.length].decode('ascii')
