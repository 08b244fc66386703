"""What the cases and samples must hold, so that nothing of 02 requests 1, 2 and 4 goes unasked."""

from functools import lru_cache
from itertools import product

import cases
import cases_walker
from addresses import BRIDGES, HIGH
from captures import weight_from
from check_byte import register_of
from families import OF_000, OF_001, OF_002
from frame import frame_of, open_body
from good_messages import ROWS
from line import FRESH, feed, hear, kept_bytes
from listing import listing_of
from message import ROLES, judge_message
from refusals import ACCEPTED
from sample import SAMPLES, morning, older, platforms
from walker import END
from weight import is_decimal


@lru_cache(maxsize=None)
def every_case():
    return tuple(cases.all_cases())


def right_first(body):
    """The first byte of a body with a right check, or nothing."""
    return body[:1] if len(body) >= 3 and register_of(body) == 0 else b''


def ended(state, byte):
    """The first byte of a body that this byte ends."""
    return right_first(kept_bytes(state)) if (state.phase, byte) == ('held', b'\xff') else b''


def spoken_first(role, family, body):
    """The first byte of a body whose message is good in its role."""
    good = len(body) >= 3 and judge_message(role, family, body[1], body[2:-1]) == ACCEPTED
    return right_first(body) if good else b''


def short_of(address):
    kind, number = address
    return bytes([number]) if kind == 'short' else b''


def framed_in(wire):
    """Those of interest whose frame stands on a wire."""
    return bytes(first for first in HIGH if frame_of(weight_from(first)) in wire)


def framed_at(wire):
    """The one of interest with whose frame a wire starts."""
    return bytes(first for first in HIGH if wire.startswith(frame_of(weight_from(first))))


def weighed(kind, first):
    """The address of a record of kinds 1 and 2."""
    return bytes([first]) if kind in (1, 2) else b''


# What a case asks of its function: a short address, or a first byte behind a right check.
ASKED = {
    'address_is_legal': short_of,
    'judge_lent': right_first,
    'open_body': right_first,
    'room_needed': lambda address, *rest: short_of(address),
    'write_frame': lambda address, *rest: short_of(address),
    'feed': ended,
    'feed_block': lambda state, block: framed_in(block) if state == FRESH else b'',
    'hear': framed_in,
    'walker_step': lambda lent, block, place: framed_at(block[place:]),
    'walk': lambda block, place: framed_in(block[place:]),
    'read_message': spoken_first,
    'write_message': lambda role, family, address, *rest: short_of(address),
    'read_record': lambda twenty: weighed(twenty[8], twenty[9]),
    'write_record': lambda time, kind, first, *rest: weighed(kind, first),
    'weight_noted': lambda time, kind, first, *rest: weighed(kind, first),
    'step': lambda log, place: log[place + 9:place + 10],
    'record_heard': lambda time, role, family, event: right_first(event.body),
    'write_line': lambda count, family, event, room: right_first(event.body),
    'listing': lambda family, capture: framed_in(capture),
}
BY_ROLE = ('read_message', 'write_message')  # their first input is a role


def test_every_layer_is_asked(expect):
    """Each address of interest stands in the cases of every layer that takes or
    meets an address, in both roles where a message is read or written."""
    asked = {}
    for name, inputs, _ in every_case():
        if name in ASKED:
            layer = name + ' ' + inputs[0] if name in BY_ROLE else name
            asked.setdefault(layer, set()).update(ASKED[name](*inputs))
    expect('layers', len(asked), len(ASKED) + len(BY_ROLE))
    for layer in sorted(asked):
        expect('cases of ' + layer, [first for first in HIGH if first not in asked[layer]], [])


def test_older_sample(expect):
    """samples/older: weights of both bridges, a stuffed check, refusals 1, 3 and 4.
    Its listing is that of 002 too, where no family is said."""
    events = list(hear(older()))
    listing = listing_of(OF_000, older()).decode('ascii')
    expect('older', listing_of(OF_002, older()).decode('ascii'), listing)
    for first in BRIDGES:
        for word in ('gross', 'net'):
            expect('older', ' weight %s %d ' % (word, first) in listing, True)
    expect('older', sorted({event.number for event in events}), [0, 1, 3, 4])
    expect('older', any(event.body[-1:] == b'\xff' for event in events), True)
    expect('older', b'\xff\xfe\xc3' in older(), True)  # an address heard as FE


FAMILIES = (0, 1, 2, 3)
BITS = (0x00, 0x20, 0x40, 0x60)  # 6 and 5 of CON
WEIGHT_CODES = (0xC2, 0xC3)
BYTES_17 = (0, 1, 2, 3, 4, 255)


def bits_of(reading):
    """(family, bits) of a reading whose number and point are in range."""
    if reading.number > 999_999 or reading.point > 7:
        return []
    return [(reading.family, reading.six << 6 | reading.five << 5)]


def weight_bits(family, data):
    """(family, bits) of four bytes whose digits are decimal."""
    if len(data) != 4 or not all(map(is_decimal, data[:3])):
        return []
    return [(family, data[3] & 0x60)]


def spoken_bits(family, body):
    """(code, family, bits) of a body that carries a weight."""
    opened = open_body(body)
    if opened[0] != ACCEPTED or opened[2] not in WEIGHT_CODES:
        return []
    return [(opened[2], *bits) for bits in weight_bits(family, opened[3])]


def in_role(role, asked):
    return [(role, *rest) for rest in asked]


def record_bits(time, kind, address, serial, status, weight, family, *room):
    """(kind, byte 17, bits) of a record."""
    return [(kind, family, status & 0x60)]


def twenty_bits(twenty):
    """The same of a record's bytes, and whether bytes 18 and 19 are zero."""
    if len(twenty) < 20:
        return []
    return [(twenty[8], twenty[17], twenty[13] & 0x60, bool(twenty[18]), bool(twenty[19]))]


# What a case asks its function of families and bits.
FAMILY_ASKED = {
    'read_reading': weight_bits,
    'reading_is_right': bits_of,
    'write_reading': bits_of,
    'value': bits_of,
    'kilograms': bits_of,
    'mode': bits_of,
    'difference': lambda gross, net: [(gross.family, gross.six, net.family, net.six)],
    'read_message': lambda role, family, body: in_role(role, spoken_bits(family, body)),
    'write_message': lambda role, family, address, code, data, room: [
        (role, code[0], *bits) for bits in weight_bits(family, data)],
    'record_heard': lambda time, role, family, event: in_role(role, spoken_bits(family, event.body)),
    'write_line': lambda count, family, event, room: spoken_bits(family, event.body),
    'write_record': record_bits,
    'weight_noted': record_bits,
    'read_record': twenty_bits,
    'step': lambda log, place: twenty_bits(log[place:place + 20]),
}
READING_BITS = set(product(FAMILIES, BITS))
SPOKEN_BITS = set(product(ROLES, WEIGHT_CODES, FAMILIES, BITS))
RECORD_BITS = set(product((1, 2, 3), BYTES_17, BITS))
TWENTY_BITS = set(product((1, 2, 3), BYTES_17, BITS, (False,), (False,)))
# What must be asked; every function that reads, writes or uses a reading is here.
FAMILY_WANTED = {
    'read_reading': READING_BITS, 'reading_is_right': READING_BITS, 'write_reading': READING_BITS,
    'value': READING_BITS, 'kilograms': READING_BITS, 'mode': READING_BITS,
    'difference': set(product(FAMILIES, (0, 1), FAMILIES, (0, 1))),
    'read_message': SPOKEN_BITS, 'write_message': SPOKEN_BITS, 'record_heard': SPOKEN_BITS,
    'write_line': set(product(WEIGHT_CODES, FAMILIES, BITS)),
    'write_record': RECORD_BITS, 'weight_noted': RECORD_BITS,
    'read_record': TWENTY_BITS | {(kind, family, 0, *marked) for kind in (1, 2, 3) for family in FAMILIES
                                  for marked in ((True, False), (False, True))},
    'step': TWENTY_BITS,
}


def test_every_family_is_asked(expect):
    """Every family with bits 6 and 5 clear and set, in both roles where a message
    is spoken; every byte 17 of interest in every kind of record; and every family
    of every other function that takes one."""
    asked = {name: set() for name in FAMILY_ASKED}
    listed = set()
    for name, inputs, _ in every_case():
        if name in FAMILY_ASKED:
            asked[name].update(FAMILY_ASKED[name](*inputs))
        if name == 'listing':
            listed.add(inputs[0])
    for name, wanted in FAMILY_WANTED.items():
        expect('families of ' + name, sorted(wanted - asked[name]), [])
    expect('families of listing', sorted(listed), list(FAMILIES))


def test_every_row_in_every_family(expect):
    """Each row of the table is read and written in each family, and is right."""
    asked = {'read_message': set(), 'write_message': set()}
    for name, inputs, answer in every_case():
        if name in asked and answer[0] == ACCEPTED:
            code = answer[2] if name == 'read_message' else inputs[3]
            asked[name].add((inputs[0], code[0], inputs[1]))
    wanted = {(role, code, family) for role, code in ROWS for family in FAMILIES}
    for name, rows in asked.items():
        expect('rows of ' + name, sorted(wanted - rows), [])


def test_family_answers(expect):
    """The cases meet each mode of a family, and each word that ends its weight
    lines: of a plain one the overload digit."""
    modes = {family: set() for family in FAMILIES}
    words = {family: set() for family in FAMILIES}
    for name, inputs, answer in every_case():
        if name == 'mode' and answer[0] == ACCEPTED:
            modes[inputs[0].family].add(answer[1:])
        if name == 'write_line' and b' weight ' in answer[2][:answer[1]]:
            words[inputs[1]].add(answer[2][:answer[1]].split()[-1])
    expect('modes', {family: len(told) for family, told in modes.items()}, {0: 1, 1: 4, 2: 4, 3: 2})
    expect('words', words, {0: {b'0', b'1'}, 1: {b'gross', b'net'}, 2: {b'scale0', b'scale1'},
                            3: {b'gross', b'net'}})


def words_listed(family, wire):
    """The lines of a listing as lists of words, the total left out."""
    return [line.split() for line in listing_of(family, wire).decode('ascii').splitlines()[:-1]]


def test_samples_by_family(expect):
    """Each listing of samples/ by its own family: the words that end its weights,
    and no refusal 8, which a bit 6 of 002 would be."""
    words = {'morning': {'gross'}, 'older': {'gross', 'net'}, 'platforms': {'scale0', 'scale1'}}
    expect('samples', [name for name, *_ in SAMPLES], list(words))
    for name, wire, family in SAMPLES:
        lines = words_listed(family, wire())
        expect(name, {line[-1] for line in lines if line[1] == 'weight'}, words[name])
        expect(name, [line for line in lines if line[1:] == ['refused', '8']], [])


def test_net_mode_sample(expect):
    """samples/older: a net weight in net mode, and one in gross mode."""
    expect('older', {line[-1] for line in words_listed(OF_000, older()) if line[1:3] == ['weight', 'net']},
           {'net', 'gross'})


def test_platforms_sample(expect):
    """samples/platforms: weights of both platforms, one of them with bit 6 set, a
    refusal 4, another message. As 002, which it is not, the weight with bit 6 is
    refusal 8, and the platforms are told as modes."""
    lines = words_listed(OF_001, platforms())
    expect('platforms', [' '.join(line[1:3]) for line in lines],
           ['weight gross', 'weight gross', 'refused 4', 'weight gross', 'weight gross', 'weight net', 'message 12',
            'weight gross'])
    modes = {'scale0': 'gross', 'scale1': 'net'}
    wanted = [[*line[:-1], modes[line[-1]]] if line[1] == 'weight' else line for line in lines]
    wanted[5] = ['6', 'refused', '8']
    expect('platforms', words_listed(OF_002, platforms()), wanted)


@lru_cache(maxsize=None)
def phases_of(block):
    """The phase of a fresh reader ahead of each byte of a block, and at its end."""
    state, phases = FRESH, [FRESH.phase]
    for byte in block:
        state, _ = feed(state, byte)
        phases.append(state.phase)
    return phases


def stands(phase, bytes_there):
    """Whether a reader fed the block up to the place is in a phase there, and
    which bytes come next."""
    return lambda block, place: (place < len(block) and phases_of(block)[place] == phase
                                 and block.startswith(bytes_there, place))


def stops(phase):
    """Whether the block stops in a phase, and the place is ahead of its end."""
    return lambda block, place: place < len(block) and phases_of(block)[-1] == phase


def in_empty_block(at):
    return lambda block, place: not block and place == at


# Where a walker is started, by name.
PLACES = {
    'the front': lambda block, place: block and place == 0,
    'behind an opening FF': stands('delimited', b'\x01'),
    'behind an FF, on an FE': stands('delimited', b'\xfe'),
    'inside a frame': stands('inside', b''),
    'on a stuffed FF': stands('inside', b'\xff\xfe'),
    'on an inserted FE': stands('held', b'\xfe'),
    'behind an inserted FE': lambda block, place: place > 0 and stands('held', b'\xfe')(block, place - 1),
    'on the first closing FF': stands('inside', b'\xff\xff'),
    'between two closing FFs': stands('held', b'\xff'),
    'on a stray byte': stands('held', b'\x02'),
    'stops Inside': stops('inside'),
    'stops Held': stops('held'),
    'the end': lambda block, place: block and place == len(block),
    'one past the end': lambda block, place: block and place == len(block) + 1,
    'far past the end': lambda block, place: block and len(block) + 1 < place < 2 ** 64 - 1,
    'the last place': lambda block, place: block and place == 2 ** 64 - 1,
    'empty block at 0': in_empty_block(0),
    'empty block at 1': in_empty_block(1),
    'empty block at the last place': in_empty_block(2 ** 64 - 1),
}


@lru_cache(maxsize=None)
def walker_cases(function):
    """(inputs, answer) of the walker's cases of one function."""
    return [case[1:] for case in cases_walker.cases() if case[0] == function]


def test_walkers_start_everywhere(expect):
    """A step and a walk from each kind of place."""
    for function in ('walker_step', 'walk'):
        starts = [inputs[-2:] for inputs, _ in walker_cases(function)]
        for name, holds in PLACES.items():
            expect('%s: %s' % (function, name), any(holds(*start) for start in starts), True)


def test_small_captures_from_every_place(expect):
    """Each small capture is walked and stepped from every place up to one past its end."""
    for function in ('walker_step', 'walk'):
        starts = {inputs[-2:] for inputs, _ in walker_cases(function)}
        for block in cases_walker.small_captures():
            missing = [place for place in range(len(block) + 2) if (block, place) not in starts]
            expect('%s of %s' % (function, block.hex()), missing, [])


def lent_kind(lent):
    if not lent or lent == b'\xff' * 255:
        return 'all FF' if lent else 'zeros'
    return 'all marked' if len(lent) == 255 else 'few marked'


def met_kind(block, place, met):
    if met == END:
        return 'end at once' if place >= len(block) else 'end'
    return met.number


def test_lent_bytes_are_marked(expect):
    """A step that meets a frame, each refusal of a line, the end, and the end at
    once, with each kind of lent bytes. Refusal 2 is met by the long bodies only."""
    asked = {(lent_kind(lent), met_kind(block, place, met))
             for (lent, block, place), (met, _, _) in walker_cases('walker_step')}
    for lent in ('zeros', 'few marked', 'all marked', 'all FF'):
        for met in (0, 1, 3, 4, 'end', 'end at once'):
            expect('lent ' + lent, (lent, met) in asked, True)
    for lent in ('all marked', 'all FF'):
        expect('lent ' + lent, (lent, 2) in asked, True)


def test_walks_meet_everything(expect):
    """Frames of up to 255 bytes, each refusal of a line, also with 255 bytes kept,
    and walks of none, one and more events."""
    walks = [answer for _, answer in walker_cases('walk')]
    met = {(event.number, event.count == 255) for steps, *_ in walks for event, _ in steps}
    expect('walks', sorted(met), [(0, False), (0, True), (1, False), (2, True), (3, False), (3, True), (4, False)])
    expect('walks', {min(count, 2) for _, count, *_ in walks}, {0, 1, 2})
    expect('walks', {(more, ended == after) for _, _, ended, more, after in walks}, {(END, True)})


TESTS = (test_every_layer_is_asked, test_every_family_is_asked, test_every_row_in_every_family,
         test_family_answers, test_older_sample, test_samples_by_family, test_net_mode_sample,
         test_platforms_sample, test_walkers_start_everywhere,
         test_small_captures_from_every_place, test_lent_bytes_are_marked, test_walks_meet_everything)
