"""What the cases of the bad bit must hold, so that nothing of 02 request 9 goes unasked.

Only cases that a program runs are looked at. What is looked for is written out here
by hand, or worked out by a division of polynomials. Programs that have misread the
request stand in `points_of_bad_bit_stand_ins.py`.
"""

from functools import lru_cache
from itertools import combinations

import bit_vectors
from captures import named_captures
from frame import frame_of, stuffed
from line import FRESH, feed, hear
from log import Record
from points_of_bad_bits import NONE, PAST_31_BYTES, POWERS, rest_of, told, turned
from points_of_overload_cases import run_cases

E3 = bytes.fromhex('01c351020001de')
E5 = bytes.fromhex('01a1ff000039')
LONG = (63, 64, 127, 128, 254, 255, 256, 257, 287, 288, 300, 512, 1000, 4095, 4096)


@lru_cache(maxsize=None)
def cases_of(function):
    """{inputs: answer} of the cases of one function that are run."""
    return {vector.case[1]: vector.case[2] for vector in bit_vectors.vectors() if vector.case[0] == function}


def answer_of(body):
    """The answer of the case of a body, or None where there is none."""
    return cases_of('bad_bit').get((body,))


@lru_cache(maxsize=None)
def bodies_of(length):
    """{body: answer} of the cases of a length."""
    return {body: answer for (body,), answer in cases_of('bad_bit').items() if len(body) == length}


def damaged(length):
    """{right body: places of it that are turned over in some case}."""
    several = {}
    for body, answer in bodies_of(length).items():
        if answer[:2] == (0, 1):
            several.setdefault(turned(body, answer[2]), set()).add(answer[2])
    return several


def test_every_answer(expect):
    """25, 26, no bit and one bit, each often; every place of 31 bytes."""
    given = [answer[:2] for answer in cases_of('bad_bit').values()]
    expect('answers', set(given), {(25,), (26,), (0, 0), (0, 1)})
    expect('answers', [answer for answer in set(given) if given.count(answer) < 100], [])
    places = {answer[2] for answer in bodies_of(31).values() if answer[:2] == (0, 1)}
    expect('places', places, set(range(248)))
    findings = [finding[:2] for heard, _ in cases_of('bad_bits_heard').values() for *_, finding in heard]
    expect('answers of captures', set(findings), {(25,), (0, 0), (0, 1)})
    expect('answers of captures', [answer for answer in set(findings) if findings.count(answer) < 60], [])


def test_single_bits(expect):
    """Each bit of right bodies of 1, 2, 7 and 31 bytes, among them E3."""
    for length, least in ((1, 1), (2, 3), (7, 2), (31, 2)):
        whole = [body for body, places in damaged(length).items() if len(places) == 8 * length]
        expect('single bits of %d' % length, len(whole) >= least, True)
    expect('the right body of one byte', list(damaged(1)), [b'\x00'])
    for body in (b'\x00', bytes(2), b'\x01\x69', E3, bytes(31)):
        expect('single bits', [answer_of(turned(body, place)) for place in range(8 * len(body))],
               [told(place) for place in range(8 * len(body))])


def pairs_asked(body):
    return {pair for pair in combinations(range(8 * len(body)), 2) if answer_of(turned(body, *pair))}


def test_two_bits(expect):
    """All pairs of bodies of 1, 2 and 7 bytes; of 31 bytes pairs with both ends, with
    each of them, side by side, and others."""
    rights = [turned(bytes([byte, 0]), *(bit for bit in range(8) if rest_of(bytes([byte, 0])) >> bit & 1))
              for byte in range(256)]
    expect('pairs of 2', max(len(pairs_asked(body)) for body in rights), 120)
    expect('pairs', (len(pairs_asked(b'\x00')), len(pairs_asked(E3))), (28, 1540))
    pairs = pairs_asked(bytes(31))
    expect('pairs of 31', (0, 247) in pairs, True)
    for name, holds in (('the last bit', lambda low, high: low == 0), ('the first bit', lambda low, high: high == 247),
                        ('side by side', lambda low, high: high == low + 1),
                        ('others', lambda low, high: 0 < low and low + 1 < high < 247)):
        expect('pairs of 31: ' + name, sum(holds(*pair) for pair in pairs) >= 10, True)
    kinds = {length: {answer_of(turned(body, *pair))[1] for pair in pairs_asked(body)}
             for length, body in ((7, E3), (31, bytes(31)))}
    expect('kinds of pairs', kinds, {7: {0, 1}, 31: {0, 1}})


def test_right_bodies(expect):
    """Every length to 40 and long ones: 26 up to 31 bytes, 25 past them and of the empty
    body. Zeros, and others where there are others."""
    for length in (*range(41), *LONG):
        right = {body: answer for body, answer in bodies_of(length).items() if rest_of(body) == 0}
        expect('right bodies of %d' % length, set(right.values()), {(26,) if 1 <= length <= 31 else (25,)})
        expect('right bodies of %d' % length, bytes(length) in right, True)
        expect('right bodies of %d' % length, len(right) >= (1 if length < 2 else 2), True)


def test_wrong_bodies(expect):
    """Every length from 1 on: one bit and none up to 31 bytes, 25 past them, where one
    bit of the first and of the last byte would do."""
    for length in range(1, 32):
        answers = {answer[:2] for answer in bodies_of(length).values() if answer != (26,)}
        expect('wrong bodies of %d' % length, answers, {(0, 0), (0, 1)})
    for length in (*range(32, 41), *LONG):
        wrong = [body for body in bodies_of(length) if rest_of(body)]
        mended = {byte for body in wrong for place in (*range(8), *range(8 * length - 8, 8 * length))
                  for byte in [place // 8] if rest_of(turned(body, place)) == 0}
        expect('wrong bodies of %d' % length, mended, {0, length - 1})
        expect('wrong bodies of %d' % length, {answer_of(body) for body in wrong}, {(25,)})


def test_every_register(expect):
    """1, 2 and 31 bytes with each of the 255 wrong registers: of 31 bytes seven have no bit."""
    for length in (1, 2, 31):
        wrong = {body: answer for body, answer in bodies_of(length).items() if answer != (26,)}
        expect('registers of %d' % length, {rest_of(body) for body in wrong}, set(range(1, 256)))
        none = {rest_of(body) for body, answer in wrong.items() if answer == NONE}
        expect('no bit of %d' % length, none, set(POWERS[8 * length:]))
    expect('no bit of 31', len(PAST_31_BYTES), 7)
    expect('03', answer_of(b'\x03'), NONE)


def test_beside_the_bits(expect):
    """For each length the first power past its bits, the next, the last ones and one
    between are no bit; the last one inside is told, and so is each end of its bytes."""
    for length in range(1, 32):
        past = 8 * length
        met = {POWERS.index(rest_of(body)): answer for body, answer in bodies_of(length).items() if answer != (26,)}
        expect('inside %d' % length, [met.get(place) for place in (0, 7, past - 8, past - 1)],
               [told(place) for place in (0, 7, past - 8, past - 1)])
        beyond = [place for place in (past, past + 1, past + 7, past + 8, 253, 254) if place < 255]
        expect('past %d' % length, [met.get(place) for place in beyond], [NONE] * len(beyond))
        expect('far past %d' % length, length > 28 or any(past + 8 < place < 253 for place in met), True)


def test_past_the_longest(expect):
    """32 bytes: right ones, the first and the last bit alone and together, the bits
    around the 248th; lengths that are 0, or are served, when cut to eight bits."""
    for places in ((0,), (255,), (0, 255), (247,), (248,), (7,), (8,)):
        asked = [body for body in bodies_of(32) if rest_of(turned(body, *places)) == 0 and any(body)]
        expect('32 bytes, %r' % (places,), len(asked) >= 1 and {answer_of(body) for body in asked} == {(25,)}, True)
    for length in (256, 257, 263, 287, 288, 512, 519, 4096):
        expect('cut to eight bits', {rest_of(body) == 0 for body in bodies_of(length)} >= {True}, True)
    expect('the empty body', answer_of(b''), (25,))


def test_first_bytes(expect):
    """Each bit that, flipped, gives a first byte 00, FE or FF."""
    for first in (0x00, 0xFE, 0xFF):
        for length in (2, 3, 6, 31):
            places = {place - 8 * length + 8 for body, bits in damaged(length).items() if body[0] == first
                      for place in bits if place >= 8 * length - 8}
            expect('first byte %02X of %d' % (first, length), places, set(range(8)))


def test_drawn(expect):
    """More different bodies of every length than those that are made on purpose."""
    for length in range(1, 41):
        expect('different bodies of %d' % length, len(bodies_of(length)) >= (24 if 1 < length < 32 else 8), True)


def phase_at_end(wire):
    state = FRESH
    for byte in wire:
        state, _ = feed(state, byte)
    return state.phase


def numbers(wire):
    return tuple(event.number for event in hear(wire))


def counts_of_4(wire):
    return [event.count for event in hear(wire) if event.number == 4]


def ends_with_4_behind(*ahead):
    return lambda wire: numbers(wire)[:len(ahead) + 1] == (*ahead, 4)


# What captures must be asked, by name.
CAPTURES = {
    'nothing': lambda wire: wire == b'',
    'a frame and no refusal': lambda wire: numbers(wire) == (0,),
    'frames and no refusal': lambda wire: len(numbers(wire)) > 3 and set(numbers(wire)) == {0},
    'a frame of 31 bytes': lambda wire: numbers(wire) == (0,) and next(hear(wire)).count == 31,
    'a frame of 32 bytes': lambda wire: numbers(wire) == (0,) and next(hear(wire)).count == 32,
    'one failed body': lambda wire: numbers(wire) == (4,),
    '31 bytes failed': lambda wire: 31 in counts_of_4(wire),
    '31 bytes failed, nearly all FF': lambda wire: counts_of_4(wire) == [31] and wire.count(b'\xff\xfe') > 25,
    '32 bytes failed, nearly all FF': lambda wire: counts_of_4(wire) == [32] and wire.count(b'\xff\xfe') > 25,
    '32 bytes failed': lambda wire: 32 in counts_of_4(wire),
    '255 bytes failed': lambda wire: 255 in counts_of_4(wire),
    'behind refusal 1': ends_with_4_behind(1),
    'behind refusal 2': ends_with_4_behind(2),
    'behind refusal 3': ends_with_4_behind(3),
    'behind a frame': ends_with_4_behind(0),
    'behind noise': lambda wire: wire[:1] != b'\xff' and numbers(wire)[:1] == (4,),
    'behind an FE': lambda wire: wire.startswith(b'\xff\xfe') and numbers(wire)[:1] == (4,),
    'more FFs': lambda wire: wire.startswith(b'\xff\xff\xff') and numbers(wire) == (4, 4),
    'a frame behind': lambda wire: numbers(wire) == (4, 0),
    'behind longer ones': lambda wire: counts_of_4(wire)[:3] == [31, 7, 3],
    'behind shorter ones': lambda wire: counts_of_4(wire)[:3] == [3, 7, 31],
    'behind much longer ones': lambda wire: counts_of_4(wire)[:3] == [255, 31, 3],
    'behind a longer frame': lambda wire: [event.count for event in hear(wire)] == [255, 7] and numbers(wire) == (0, 4),
    'many': lambda wire: len(counts_of_4(wire)) > 25,
    'one and two bytes are 1': lambda wire: numbers(wire) == (1, 4) and wire[:4] == b'\xff\x01\x68\xff',
    '00 and under six is 1': lambda wire: wire[:6] == b'\xff\x00\x01\x02\x03\x04' and numbers(wire) == (1, 4),
    '00 and six is 4': lambda wire: wire[:2] == b'\xff\x00' and counts_of_4(wire) == [6],
    'stops Inside': lambda wire: numbers(wire) == (4,) and phase_at_end(wire) == 'inside',
    'stops Held': lambda wire: numbers(wire) == (4,) and phase_at_end(wire) == 'held',
    'never ends': lambda wire: numbers(wire) == () and phase_at_end(wire) == 'held',
    'the longest text': lambda wire: len(wire) == 4096 and len(counts_of_4(wire)) > 10,
}


def test_captures(expect):
    """Each kind of capture; each bit of E3 and of a body with an FF; the small captures
    of the other layers."""
    wires = [wire for wire, in cases_of('bad_bits_heard')]
    for name, holds in CAPTURES.items():
        expect('captures: ' + name, any(map(holds, wires)), True)
    for body in (E3, E5):
        missing = [place for place in range(8 * len(body)) if frame_of(turned(body, place)) not in wires]
        expect('captures of each bit', missing, [])
    expect('captures of the others', [name for name, wire in named_captures() if wire not in set(wires)], [])


def test_failed_lengths(expect):
    """Every length that fails, from 3 to 35, and up to 255; up to 31 bytes the first
    and last bytes of a body are hit too."""
    met = {(count, finding[:2]) for heard, _ in cases_of('bad_bits_heard').values() for _, count, finding in heard}
    for length in range(3, 32):
        expect('failed bodies of %d' % length, (length, (0, 1)) in met, True)
    for length in (*range(32, 36), 63, 64, 127, 128, 254, 255):
        expect('failed bodies of %d' % length, (length, (25,)) in met, True)
    places = {finding[2] for heard, _ in cases_of('bad_bits_heard').values() for _, count, finding in heard
              if count == 31 and finding[:2] == (0, 1)}
    expect('places heard', {*range(10), *range(238, 248)} - places, set())


def test_stuffed_bodies(expect):
    """Failed bodies with FFs: the bad bit is behind one, ahead of one, in one, and made one."""
    kinds = set()
    for (wire,), (heard, count) in cases_of('bad_bits_heard').items():
        if count == 1 and heard[0][2][:2] == (0, 1) and wire.startswith(b'\xff') and len(wire) > heard[0][1] + 3:
            _, length, (*_, place) = heard[0]
            body = wire[1:-2].replace(b'\xff\xfe', b'\xff')
            if len(body) == length and frame_of(body) == wire:
                at = length - 1 - place // 8
                mended = turned(body, place)
                kinds.update(['behind'] * (0xFF in body[:at]) + ['ahead'] * (0xFF in body[at + 1:])
                             + ['in'] * (mended[at] == 0xFF) + ['made'] * (body[at] == 0xFF))
    expect('stuffed bodies', kinds, {'behind', 'ahead', 'in', 'made'})
    expect('stuffing', stuffed(b'\x01\xff'), b'\x01\xff\xfe')


def kind_3(number):
    """A record of kind 3 that is right but for its status, by its fields and by its bytes."""
    return Record(0, 3, 0, 0, number, bytes(3), 0)[1:], bytes([3, 0, 0, 0, 0, number]) + bytes(6)


def test_not_met_on_the_line(expect):
    """25 and 26 as events and as statuses: no line meets them, and no record notes them."""
    for number in (25, 26):
        fields, twelve = kind_3(number)
        heard = {(role, family) for (_, role, family, event), answer in run_cases()['record_heard']
                 if event.number == number and answer == ((8,),)}
        expect('event %d' % number, heard, {(role, family) for role in ('request', 'reply') for family in range(4)})
        rooms = {len(room) for (_, _, event, room), answer in run_cases()['write_line']
                 if event.number == number and answer == (8, 0, room)}
        expect('line %d' % number, (0 in rooms, len(rooms) > 4), (True, True))
        for function, asked in (('write_record', lambda *given: given[1:-1] == fields),
                                ('weight_noted', lambda *given: given[1:] == fields),
                                ('read_record', lambda twenty: twenty[8:] == twelve),
                                ('step', lambda log, place: log[place + 8:place + 20] == twelve)):
            answers = {answer[0] for inputs, answer in run_cases()[function] if asked(*inputs)}
            expect('status %d of %s' % (number, function), answers, {11})


def test_as_they_are_run(expect):
    """Cases as the program reads and answers them: place 0 and no bit never look alike."""
    run = {vector.case[:2]: (vector.given.hex(' '), vector.answer) for vector in bit_vectors.vectors()}
    for case, given, answer in (
            (('bad_bit', (b'',)), '01 00 00', b'1 25'),
            (('bad_bit', (b'\x00',)), '01 01 00 00', b'1 26'),
            (('bad_bit', (b'\x01',)), '01 01 00 01', b'1 0 1 0'),
            (('bad_bit', (b'\x03',)), '01 01 00 03', b'1 0 0'),
            (('bad_bit', (turned(E3, 55),)), '01 07 00 81 c3 51 02 00 01 de', b'1 0 1 55'),
            (('bad_bits_heard', (b'',)), '02 00 00', b'2 0'),
            (('bad_bits_heard', (bytes.fromhex('ff01c3e2ffff'),)), '02 06 00 ff 01 c3 e2 ff ff', b'2 6 3 0 1 0 1'),
            (('bad_bits_heard', (bytes.fromhex('ff01c3e2ffff' 'ff01c351021001deffff' 'ff01c3e3ffff'),)),
             '02 16 00 ff 01 c3 e2 ff ff ff 01 c3 51 02 10 01 de ff ff ff 01 c3 e3 ff ff',
             b'2 6 3 0 1 0 16 7 0 1 20 2')):
        expect('as run', run.get(case), (given, answer))
    expect('a capture of long bodies', any(answer.split()[3:4] == [b'25'] for _, answer in run.values()
                                           if answer.startswith(b'2 ')), True)


TESTS = (test_every_answer, test_single_bits, test_two_bits, test_right_bodies, test_wrong_bodies, test_every_register,
         test_beside_the_bits, test_past_the_longest, test_first_bytes, test_drawn, test_captures, test_failed_lengths,
         test_stuffed_bodies, test_not_met_on_the_line, test_as_they_are_run)
