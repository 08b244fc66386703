"""02 request 1, "Older bridges have high addresses": the limit, refusal 5, old records.

The limit stands in `frame.HIGHEST_SHORT`. Here every layer is held to the other
words of the request: "Those papers ban only FE and FF as a first byte".
"""

from collections import Counter
from contextlib import contextmanager

import frame
from addresses import HIGHEST_OF_01
from captures import (E3_WEIGHT, capture, check_spoilt, ff_not_stuffed, named_captures, noise,
                      weight_from)
from cases_line import event_with
from cases_log import record_bytes
import families
from frame import (address_is_legal, body_of, first_byte_is_legal, frame_of, judge_heard, judge_lent,
                   open_body, room_needed, stuffed, write_frame)
from line import FRESH, Event, feed, feed_block, hear, kept_bytes, state_of
from listing import write_line
from log import NO_WEIGHT, Record, read_record, record_heard, step, weight_noted, write_record
from message import ROLES, read_message, write_message
from random_bytes import RandomBytes
from refusals import ACCEPTED, ADDRESS_WRONG

BANNED = (0xFE, 0xFF)
NOT_BANNED = [first for first in range(1, 256) if first not in BANNED]
ENDING = b'\xff\xff'
FAMILY = families.OF_002


def record_from(first, kind=1):
    """The record of `weight_from`, right or wrong."""
    return Record(7, kind, first, 0, E3_WEIGHT[3], E3_WEIGHT[:3], FAMILY)


def heard_with_nothing_kept(first):
    """The event of a body which a state handed in has open, nothing kept yet."""
    return feed_block(state_of('inside', 5, 0, b''), stuffed(weight_from(first)) + ENDING)[2]


def took(read, *inputs):
    return read(*inputs)[0] == ACCEPTED


def wrote(write, *inputs):
    return took(write, *inputs, bytearray(20))


def came_back(kind, first):
    """Whether a record's 20 bytes read as that record."""
    return read_record(record_bytes(record_from(first, kind))) == (0, record_from(first, kind))


def line_from(first):
    room = bytearray(80)
    length = write_line(1, FAMILY, event_with(weight_from(first)), room)[1]
    return bytes(room[:length])


# Each layer that takes or meets an address, and whether it takes this one.
LAYERS = (
    ('legal', lambda first: address_is_legal(('short', first))),
    ('first byte', first_byte_is_legal),
    ('judge heard', lambda first: judge_heard(weight_from(first)) == ACCEPTED),
    ('judge lent', lambda first: judge_lent(weight_from(first)) == ACCEPTED),
    ('open', lambda first: open_body(weight_from(first)) == (0, ('short', first), 0xC3, E3_WEIGHT)),
    ('room needed', lambda first: took(room_needed, ('short', first), 0xC3, b'')),
    ('frame write', lambda first: wrote(write_frame, ('short', first), 0xC3, E3_WEIGHT)),
    ('hear', lambda first: list(hear(frame_of(weight_from(first)))) == [event_with(weight_from(first))]),
    ('hear, nothing kept', lambda first: heard_with_nothing_kept(first).body == weight_from(first)),
    ('read reply', lambda first: took(read_message, 'reply', FAMILY, weight_from(first))),
    ('read request', lambda first: took(read_message, 'request', FAMILY, body_of(('short', first), 0xC3, b''))),
    ('write reply', lambda first: wrote(write_message, 'reply', FAMILY, ('short', first), 0xC3, E3_WEIGHT)),
    ('write request', lambda first: wrote(write_message, 'request', FAMILY, ('short', first), 0xC3, b'')),
    ('write gross', lambda first: wrote(write_record, record_from(first, 1))),
    ('write net', lambda first: wrote(write_record, record_from(first, 2))),
    ('read gross', lambda first: came_back(1, first)),
    ('read net', lambda first: came_back(2, first)),
    ('step', lambda first: step(record_bytes(record_from(first)), 0) == (0, record_from(first), 20)),
    ('weight noted', lambda first: took(weight_noted, record_from(first))),
    ('note', lambda first: record_heard(7, 'reply', FAMILY, event_with(weight_from(first))) == record_from(first)),
    ('line', lambda first: line_from(first) == b'1 weight gross %d + 000251 1 0 0 gross\n' % first),
)


def test_every_layer(expect):
    """"a short address is 01 to FD": every layer takes these and no other."""
    expect('02/1', NOT_BANNED, list(range(0x01, 0xFD + 1)))
    for name, takes in LAYERS:
        expect('02/1 ' + name, [first for first in range(1, 256) if takes(first)], NOT_BANNED)
    expect('02/1 legal', address_is_legal(('short', 0)), False)
    for serial in (0, 1, 16_777_215, 16_777_216):
        expect('02/1 serial', address_is_legal(('serial', serial)), serial < 2 ** 24)


def is_sound(state):
    """A body is open only with a first byte that is not banned."""
    if state.phase in ('seeking', 'delimited'):
        return state.count == 0
    return state.count > 0 and state.kept[0] not in BANNED


def test_kept_from_fresh(expect):
    """Why no wire heard from fresh gives 5: a fresh state is sound, and so is
    what any byte makes of a sound one, which gives no 5."""
    before = [FRESH, state_of('delimited', 9, 0, b'')]
    before += [state_of(phase, 9, count, weight_from(first)[:count])
               for phase in ('inside', 'held') for first in [0] + NOT_BANNED for count in (1, 7)]
    for state in before:
        expect('02/1 sound', is_sound(state), True)
        fed = [feed(state, byte) for byte in range(256)]
        expect('02/1 sound', [after for after, _ in fed if not is_sound(after)], [])
        expect('02/1 sound', [event for _, event in fed if event and event.number == ADDRESS_WRONG], [])


def many_wires():
    """Small captures, mixed ones, noise, and every first byte: in a frame, with
    a wrong check, with too few bytes, without its FE, and behind an FE."""
    for _, small in named_captures():
        yield small
    for seed in range(2000, 2012):
        yield capture(seed, 1_000)
    source = RandomBytes(37)
    for _ in range(150):
        yield noise(source, source.between(1, 200))
    for first in range(256):
        body = weight_from(first)
        yield frame_of(body) + frame_of(check_spoilt(body)) + frame_of(body[:2])
        yield ff_not_stuffed(body) + b'\xfe' + frame_of(body) + b'\xff\xfe' + body + ENDING


def in_blocks(wire, size):
    """The events of a wire heard from fresh in blocks of a size."""
    state, place = FRESH, 0
    while place < len(wire):
        state, taken, event = feed_block(state, wire[place:place + size])
        place += taken
        if event is not None:
            yield event


def test_no_five_from_fresh(expect):
    """"on a wire heard from fresh it can no longer occur": whole, in blocks, and
    joined late. Every other answer of the line is met there."""
    source = RandomBytes(41)
    met = Counter()
    for wire in many_wires():
        whole = list(hear(wire))
        blocks = list(in_blocks(wire, source.between(1, 40)))
        late = [event for _ in range(4) for event in hear(wire[source.below(len(wire) + 1):])]
        expect('02/1 blocks', blocks, whole)
        expect('02/1 from fresh',
               [event for event in whole + blocks + late if event.number == ADDRESS_WRONG], [])
        met.update(event.number for event in whole + late)
    expect('02/1 from fresh', sorted(met), [0, 1, 2, 3, 4])


def test_first_bytes_heard(expect):
    """What the listener makes of each first byte: FE and FF start no body."""
    for first in range(1, 256):
        body = weight_from(first)
        spoilt = check_spoilt(body)
        refused = Event(4, len(frame_of(spoilt)), len(spoilt), b'')
        expect('02/1 first byte', list(hear(frame_of(body))),
               [] if first in BANNED else [event_with(body)])
        expect('02/1 first byte', list(hear(frame_of(spoilt))), [] if first in BANNED else [refused])
    # An FF without its FE is one more delimiter: six bytes are left, and their check is wrong.
    expect('02/1 first byte', list(hear(ff_not_stuffed(weight_from(0xFF)))), [Event(4, 10, 6, b'')])


def test_five_in_reading(expect):
    """5 is not dead: a state handed in, a lent body, an event handed in earn it."""
    for first in BANNED:
        body = weight_from(first)
        # 2.8 (!) Inside with nothing kept, and Held with all of it
        wire = 5 + len(stuffed(body) + ENDING)
        expect('2.8', heard_with_nothing_kept(first), Event(5, wire, 7, b''))
        expect('2.8', feed(state_of('held', 5, 7, body), 0xFF)[1], Event(5, 6, 7, b''))
        expect('2.12', feed(state_of('held', 5, 7, check_spoilt(body)), 0xFF)[1], Event(4, 6, 7, b''))
        # 4.9 (!) "First byte FE or FF can be lent here: 5 under either address rule"
        expect('4.9', (judge_heard(body), judge_lent(body), open_body(body)), (5, 5, (5,)))
        expect('4.9', [read_message(role, FAMILY, body) for role in ROLES], [(5,), (5,)])
        expect('4.9', [judge_lent(check_spoilt(body)), judge_lent(body[:2])], [4, 1])
        # 7.3 "Status 5 stays good after 02/1"
        noted = Record(7, 3, 0, 0, 5, NO_WEIGHT, 0)
        expect('7.3', [record_heard(7, role, FAMILY, event_with(body)) for role in ROLES], [noted, noted])
        expect('7.3', (read_record(record_bytes(noted)), weight_noted(noted)), ((0, noted), (5,)))
        expect('02/1 line', line_from(first), b'1 refused 5\n')
    # 2.8 (!) Held with nothing kept: its FE keeps an FF
    kept, _ = feed(state_of('held', 5, 0, b''), 0xFE)
    expect('2.8', kept_bytes(kept), b'\xff')
    expect('2.8', feed_block(kept, stuffed(weight_from(0xFF)[1:]) + ENDING)[2].number, 5)


def test_five_in_writing(expect):
    """"a short address outside 01 to FD or a serial too large": number and
    length 0, ahead of 6, 2 and 9, and every lent byte as it stood."""
    for address in (('short', 0), ('short', 0xFE), ('short', 0xFF), ('serial', 16_777_216)):
        room = bytearray(b'\xaa' * 20)
        answers = [room_needed(address, 0xC3, b''), write_frame(address, 0xC3, b'', bytearray()),
                   write_frame(address, 0xC3, b'', room), write_frame(address, 0xC3, bytes(300), room)]
        answers += [write_message(role, FAMILY, address, 0x11, b'', room) for role in ROLES]
        answers += [write_message('reply', FAMILY, address, 0xC3, E3_WEIGHT, room)]
        expect('02/1 writing', (answers, room), ([(5, 0)] * 7, b'\xaa' * 20))


@contextmanager
def limit_of_01():
    """The model before 02 request 1: the limit stands in one place, and this
    one place is put back."""
    now, frame.HIGHEST_SHORT = frame.HIGHEST_SHORT, HIGHEST_OF_01
    try:
        yield
    finally:
        frame.HIGHEST_SHORT = now


def record_grid():
    """20 bytes each: every address, the other fields right and wrong, byte 17 zero."""
    for kind in range(5):
        for address in range(256):
            for serial in (0, 1, 0xFFFFFF):
                for status in (0, 5, 0x91):
                    for digits in (NO_WEIGHT, b'\x51\x02\x00', b'\x5a\x02\x00'):
                        twenty = record_bytes(Record(7, kind, address, serial, status, digits, 0))
                        yield twenty
                        yield twenty[:19] + b'\x01'


def test_old_records(expect):
    """Every record that was good with 01's limit is good now and is the same
    record. Kinds 1 and 2 of the addresses behind that limit came in; FE and FF
    stay bad."""
    with limit_of_01():
        before = {twenty: read_record(twenty) for twenty in record_grid()}
    good = [twenty for twenty, answer in before.items() if answer[0] == ACCEPTED]
    # Kinds 1 and 2: three serials and 9F short addresses, three statuses, two weights. Kind 3: one.
    expect('old records', len(good), 2 * (3 + HIGHEST_OF_01) * 3 * 2 + 1)
    expect('old records', [twenty for twenty in good if read_record(twenty) != before[twenty]], [])
    came_in = [twenty for twenty in before if before[twenty] == (11,) != read_record(twenty)]
    expect('new records', {(twenty[8], twenty[9]) for twenty in came_in},
           {(kind, first) for kind in (1, 2) for first in NOT_BANNED if first > HIGHEST_OF_01})
    expect('FE and FF', {read_record(twenty) for twenty in before if twenty[9] in BANNED}, {(11,)})
    for twenty in good:
        room = bytearray(20)
        expect('old records', (write_record(before[twenty][1], room), bytes(room)), ((0, 20), twenty))


def test_old_bodies(expect):
    """Every body that was good with 01's limit opens as it did."""
    bodies = [weight_from(first) for first in range(1, 256)]
    bodies += [body_of(('serial', serial), 0xC3, E3_WEIGHT) for serial in (0, 255, 0xFFFFFF)]
    with limit_of_01():
        before = {body: open_body(body) for body in bodies}
    good = [body for body in bodies if before[body][0] == ACCEPTED]
    expect('old bodies', len(good), HIGHEST_OF_01 + 3)
    expect('old bodies', [open_body(body) for body in good], [before[body] for body in good])


TESTS = (test_every_layer, test_kept_from_fresh, test_no_five_from_fresh, test_first_bytes_heard,
         test_five_in_reading, test_five_in_writing, test_old_records, test_old_bodies)
