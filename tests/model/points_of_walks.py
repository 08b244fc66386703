"""Section 9 of the open points and 02 request 2: the capture walker.

The walker is held to the byte-fed reader: to `line.hear` from the front, and
from any other place to a reader in the state that the request names. Each
expectation names its point, or the request.
"""

from captures import named_captures, placed_frames
from cases_walker import FAR, LAST_PLACE, MARKED, long_captures, small_captures
from line import FRESH, Event, feed, hear, kept_bytes, state_of
from random_bytes import RandomBytes
from refusals import ACCEPTED, BODY_TOO_LONG, BODY_TOO_SHORT, CHECK_WRONG, STRAY_BYTE
from walker import END, Walker, lent_bytes, listening_at, step, walk

wire_of = bytes.fromhex
SERIAL = wire_of('ff01a1fffe000039ffff')  # E5
SERIAL_BODY = wire_of('01a1ff000039')
EVERY_PLACE_UP_TO = 40  # of longer wires some places are tried
LEFT_DELIMITED = (ACCEPTED, BODY_TOO_SHORT, CHECK_WRONG)
LEFT_SEEKING = (BODY_TOO_LONG, STRAY_BYTE)


def many_wires():
    for _, wire in named_captures():
        yield wire
    yield from small_captures()
    yield from long_captures()


def wires_and_places():
    """Every place of a small wire, the front, the end and some of a longer one."""
    source = RandomBytes(53)
    for wire in many_wires():
        if len(wire) <= EVERY_PLACE_UP_TO:
            places = range(len(wire) + 1)
        else:
            places = (0, 1, len(wire), *(source.below(len(wire)) for _ in range(3)))
        for place in places:
            yield wire, place


def reader_at(wire, place):
    """A reader in the state that the request names for a place."""
    if place == 0:
        return FRESH
    return state_of('delimited' if wire[:place].endswith(b'\xff') else 'seeking', place, 0, b'')


def fed_from(wire, place):
    """That reader fed the rest byte by byte: state, event and count of bytes
    from the wire's front, after each."""
    state = reader_at(wire, place)
    for index in range(place, len(wire)):
        state, event = feed(state, wire[index])
        yield state, event, index + 1


def walked(wire, place):
    return walk(Walker(wire, place), lent_bytes())[0]


def events_from(wire, place):
    return [event for event, _ in walked(wire, place)]


def test_places_handed_in(expect):
    # 9.1 (!) no body open, Delimited exactly if the byte before is FF, wire count = place
    expect('9.1', [listening_at(SERIAL, place).phase for place in range(len(SERIAL) + 1)],
           ['seeking', 'delimited', 'seeking', 'seeking', 'delimited', 'seeking', 'seeking', 'seeking',
            'seeking', 'delimited', 'delimited'])
    expect('9.1', [listening_at(SERIAL, place)[1:3] for place in range(len(SERIAL) + 1)],
           [(place, 0) for place in range(len(SERIAL) + 1)])
    # behind the opening FF the frame is heard, with the counts of the whole block
    expect('9.1', [walked(SERIAL, place) for place in range(len(SERIAL) + 1)],
           [[(Event(0, 10, 6, SERIAL_BODY), 10)]] * 2 + [[]] * 9)
    # behind an FF that a fed reader holds: a stuffed one that lost its FE, a first closing one
    expect('9.1', events_from(wire_of('ff01ff01c3e3ffff'), 0), [Event(3, 4, 1, b'')])
    expect('9.1', events_from(wire_of('ff01ff01c3e3ffff'), 3), [Event(0, 8, 3, b'\x01\xc3\xe3')])
    expect('9.1', events_from(wire_of('ff01c3e3ff01c28affff'), 0), [Event(3, 6, 3, b'')])
    expect('9.1', events_from(wire_of('ff01c3e3ff01c28affff'), 5), [Event(0, 10, 3, b'\x01\xc2\x8a')])
    # between two closing FFs: that body is not heard, the next one is
    expect('9.1', events_from(wire_of('ff01c3e3ffff01c28affff'), 5), [Event(0, 11, 3, b'\x01\xc2\x8a')])
    # at place 0 no byte is before: a body without its FF is not heard
    expect('9.1', events_from(wire_of('01c3e3ffff'), 0), [])


def test_end(expect):
    """"An empty block, or a place past its end, ends at once"."""
    for point, block, places in (('9.2', SERIAL, (len(SERIAL),)), ('9.3', SERIAL, (len(SERIAL) + 1, *FAR)),
                                 ('02/2 empty', b'', (0, 1, *FAR))):
        for place in places:
            lent = bytearray(MARKED)
            expect(point, step(Walker(block, place), lent), (END, Walker(block, place)))
            expect(point, lent, MARKED)
    # 9.3 after "end" at the block's end, from any place ahead of it
    for place in range(2, len(SERIAL)):
        expect('9.3', step(Walker(SERIAL, place), lent_bytes()), (END, Walker(SERIAL, len(SERIAL))))


def test_end_for_ever(expect):
    """"after the last one say "end" for ever", from every place."""
    for wire, place in wires_and_places():
        lent = lent_bytes()
        ended = walk(Walker(wire, place), lent)[1]
        expect('9.3', ended, Walker(wire, len(wire)))
        before = bytes(lent)
        for _ in range(3):
            expect('02/2 for ever', step(ended, lent), (END, ended))
        expect('02/2 for ever', lent, before)


def test_from_the_front(expect):
    """"Started at place 0, it must give exactly the events, counts and order of
    the byte-fed reader started fresh"."""
    for wire in many_wires():
        expect('02/2 from the front', events_from(wire, 0), list(hear(wire)))


def test_from_any_place(expect):
    """From any place the events of the reader that the request names; each place
    after an event is the event's wire count."""
    met = set()
    for wire, place in wires_and_places():
        wanted = [(event, count) for _, event, count in fed_from(wire, place) if event is not None]
        expect('02/2 from a place', walked(wire, place), wanted)
        expect('9.1', [event.wire for event, _ in wanted], [count for _, count in wanted])
        met.update(event.number for event, _ in wanted)
    # 5 is not met: a place handed in has no body open, so every first byte is heard.
    expect('02/2 met', sorted(met), sorted(LEFT_DELIMITED + LEFT_SEEKING))


def test_place_is_enough(expect):
    # 9.4 behind each event the state named for the place is that of the reader fed on
    for wire, place in wires_and_places():
        for state, event, count in fed_from(wire, place):
            if event is not None:
                expect('9.4', listening_at(wire, count), state)
                expect('9.4', (state.phase == 'delimited', wire[count - 1] == 0xFF),
                       (event.number in LEFT_DELIMITED,) * 2)


def test_going_on(expect):
    """A walk from behind any of its events is the rest of that walk."""
    for wire in many_wires():
        steps = walked(wire, 0)
        for number, (_, place) in enumerate(steps[:4], 1):
            expect('9.4', walked(wire, place), steps[number:])


def kept_in_one_step(wire, place):
    """The bytes that the fed reader last had kept, up to its first event, and how
    often it opened a body."""
    kept, opened, before = b'', 0, reader_at(wire, place)
    for state, event, _ in fed_from(wire, place):
        opened += before.phase == 'delimited' and state.phase == 'inside'
        kept = kept_bytes(state) if state.count else kept
        if event is not None:
            break
        before = state
    return kept, opened


def test_lent_bytes(expect):
    """What was kept at the front, every other lent byte as it stood."""
    for wire, place in wires_and_places():
        kept, opened = kept_in_one_step(wire, place)
        expect('lent bytes', opened <= 1, True)
        for lent in (MARKED, b'\xff' * len(MARKED), bytes(len(MARKED))):
            left = bytearray(lent)
            event, _ = step(Walker(wire, place), left)
            expect('lent bytes', bytes(left), kept + lent[len(kept):])
            if event != END and event.number == ACCEPTED:
                expect('lent bytes', bytes(left[:event.count]), event.body)
    # refusal 2 leaves 255 bytes of the long body; a stop leaves what was kept, a held FF not
    for text, front in (('ff01' + '07' * 300, '01' + '07' * 254), ('ff01a1fffe', '01a1ff'), ('ff01a1ff', '01a1'),
                        ('ff01ff02', '01'), ('fffe01c3', ''), ('ffff', '')):
        left = bytearray(MARKED)
        step(Walker(wire_of(text), 0), left)
        expect('lent bytes', bytes(left), wire_of(front) + MARKED[len(front) // 2:])


def test_late_listener(expect):
    """"Demand 3 holds for both, a late listener's walker being started at place 0
    of the part of the block from that byte." A walker in the whole block knows the
    byte before its place, so it also has a frame whose body starts there."""
    source = RandomBytes(59)
    for _ in range(25):
        wire, starts, bodies = placed_frames(source)
        for place in range(0, len(wire), 1 if len(wire) < 120 else 7):
            expect('02/2 late listener', [event.body for event in events_from(wire[place:], 0)],
                   [body for start, body in zip(starts, bodies) if start > place])
            expect('02/2 frames from a place', [event.body for event in events_from(wire, place)],
                   [body for start, body in zip(starts, bodies) if start >= place])


def test_places_in_64_bits(expect):
    """A place is not cut short: the far ones end at once, whatever their low bits."""
    expect('02/2 far', FAR[-1], LAST_PLACE)
    expect('02/2 far', [walked(SERIAL, place) for place in FAR], [[]] * len(FAR))


TESTS = (test_places_handed_in, test_end, test_end_for_ever, test_from_the_front, test_from_any_place,
         test_place_is_enough, test_going_on, test_lent_bytes, test_late_listener, test_places_in_64_bits)
