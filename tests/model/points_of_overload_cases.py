"""What the cases and samples must hold, so that nothing of 02 request 7 goes unasked.

Only cases that a program runs are looked at. The stand-ins are programs that have
misread the request: each must answer some case otherwise than the model.
"""

from functools import lru_cache
from itertools import product
from math import nan

import make
import vectors
from captures import WEIGHTS, capture
from cases_log import record_bytes
from cases_weight import bytes_answer, kilogram_answer
from frame import body_of, open_body
from line import Event
from listing import FAMILY_NOT_SAID, event_line, listing_of
from log import Record, read_record, record_of_refusal, weight_noted
from message import read_message
from points_of_table_cases import INTO, first_records
from refusals import lend
from sample import SAMPLES
from weight import Reading, difference, float_bits, mode, read_reading, reading_is_right, value

FAMILIES = (0, 1, 2, 3)
NO_OR_YES = (0, 1)


def alone(reading):
    return [reading] if reading_is_right(reading) else []


def spoken(role, family, body):
    """The reading of a message that is read and is a weight."""
    number, *rest = read_message(role, family, body)
    return [field for field in rest[3] if isinstance(field, Reading)] if number == 0 else []


def to_write(role, family, address, code, data, room):
    is_weight = role == 'reply' and code[0] in WEIGHTS and len(data) == 4
    return read_reading(family, data)[1:] if is_weight else ()


def noted(record):
    """The reading of a good record of kinds 1 and 2."""
    return weight_noted(record)[1:]


def noted_in(twenty):
    return [reading for record in read_record(twenty)[1:] for reading in noted(record)] if len(twenty) == 20 else []


# The readings in range that a case hands to its function, or lets it meet.
MET = {
    'read_reading': lambda family, four: read_reading(family, four)[1:],
    'reading_is_right': alone, 'write_reading': alone, 'value': alone, 'kilograms': alone, 'mode': alone,
    'difference': lambda gross, net: alone(gross) + alone(net),
    'read_message': spoken,
    'write_message': to_write,
    'record_heard': lambda time, role, family, event: spoken(role, family, event.body),
    'write_line': lambda count, family, event, room: spoken('reply', family, event.body),
    'write_record': lambda *fields_and_room: noted(Record(*fields_and_room[:-1])),
    'weight_noted': lambda *fields: noted(Record(*fields)),
    'read_record': noted_in,
    'step': lambda log, place: noted_in(log[place:place + 20]),
}


@lru_cache(maxsize=None)
def run_cases():
    """{function: [(inputs, answer)]} of what `vectors` runs."""
    functions = {name: [] for name in MET}
    for part, layouts in vectors.RUN:
        if layouts.keys() & MET.keys():
            for name, inputs, answer in part():
                if name in MET and name in layouts:
                    functions[name].append((inputs, answer))
    return functions


def overloaded_in(readings):
    return [reading for reading in readings if reading.overload]


# What the readings differ in, one by one: a program could look at bit 3 in some of them only.
SORTS = {
    'minus': (lambda reading: reading.minus, NO_OR_YES),
    'zero': (lambda reading: reading.number == 0, (False, True)),
    'point': (lambda reading: reading.point, range(8)),
    'six': (lambda reading: reading.six, NO_OR_YES),
    'five': (lambda reading: reading.five, NO_OR_YES),
    'settled': (lambda reading: reading.settled, NO_OR_YES),
    'family': (lambda reading: reading.family, FAMILIES),
}


def expect_sorts(expect, name, readings):
    for sort, (of, wanted) in SORTS.items():
        expect('overloaded, %s: %s' % (sort, name), set(wanted) - set(map(of, readings)), set())


def test_every_layer_is_asked(expect):
    """Each layer that reads, writes or uses a reading meets overloaded ones of each
    sort; and each side of a difference, beside one that has a value."""
    for name, met in MET.items():
        expect_sorts(expect, name, [reading for inputs, _ in run_cases()[name]
                                    for reading in overloaded_in(met(*inputs))])
    pairs = [inputs for inputs, _ in run_cases()['difference']]
    for name, (side, other) in (('gross', (0, 1)), ('net', (1, 0))):
        expect_sorts(expect, name, [pair[side] for pair in pairs
                                    if value(pair[side]) == (24,) and value(pair[other])[0] == 0])


def sent_in(body):
    """(code, whether from a serial) of a body that is a weight."""
    _, (kind, _), code, _ = open_body(body)
    return code, kind == 'serial'


def sent_by(kind, address):
    """The same of a record of kinds 1 and 2."""
    return {1: 0xC3, 2: 0xC2}[kind], address == 0


# Who sent the weight that a case lets its function meet.
SENT = {
    'read_message': lambda role, family, body: sent_in(body),
    'write_message': lambda role, family, address, code, data, room: (code[0], address[0] == 'serial'),
    'record_heard': lambda time, role, family, event: sent_in(event.body),
    'write_record': lambda time, kind, address, *rest: sent_by(kind, address),
    'weight_noted': lambda time, kind, address, *rest: sent_by(kind, address),
    'read_record': lambda twenty: sent_by(*twenty[8:10]),
    'step': lambda log, place: sent_by(*log[place + 8:place + 10]),
}


def test_senders_together(expect):
    """Gross and net, from a short address and a serial, with every family, settled and
    not: each of them overloaded, where a message or a record is asked."""
    wanted = set(product(WEIGHTS, (False, True), FAMILIES, NO_OR_YES))
    for name, sent in SENT.items():
        met = {(*sent(*inputs), reading.family, reading.settled) for inputs, answer in run_cases()[name]
               for reading in overloaded_in(MET[name](*inputs)) if answer[0] != 9}
        expect('senders: ' + name, wanted - met, set())


def test_sorts_together(expect):
    """Sign, zero, settled and family together, where a value is asked; sign, settled,
    family, bit 5 and load together, where a line is."""
    wanted = set(product(NO_OR_YES, (False, True), NO_OR_YES, FAMILIES))
    for name in ('value', 'kilograms'):
        met = {(reading.minus, reading.number == 0, reading.settled, reading.family)
               for (reading,), answer in run_cases()[name] if answer == (24,)}
        expect('together: ' + name, wanted - met, set())
    met = {(reading.minus, reading.settled, reading.family, reading.five, sent_in(event.body)[0])
           for (count, family, event, room), (number, *_) in run_cases()['write_line']
           for reading in overloaded_in(spoken('reply', family, event.body)) if number == 0}
    wanted = set(product(NO_OR_YES, NO_OR_YES, FAMILIES, NO_OR_YES, WEIGHTS))
    expect('together: write_line', wanted - met, set())


def fault(reading):
    """What refuses a reading with 8."""
    if reading.number > 999_999:
        return 'number and point' if reading.point > 7 else 'number'
    if reading.point > 7:
        return 'point'
    return 'bit 6' if reading.family == 3 and reading.six else 'none'


def test_faults_together(expect):
    """8 beside 24: each fault in an overloaded reading, in every family that has it; in
    a difference each fault and none, overloaded or not, beside each that is overloaded."""
    wanted = {*product(('number', 'point', 'number and point'), FAMILIES), ('bit 6', 3)}
    for name in ('value', 'kilograms'):
        met = {(fault(reading), reading.family) for (reading,), _ in run_cases()[name] if reading.overload}
        expect('faults: ' + name, wanted - met, set())
    sorts = set(product(('none', 'number', 'point', 'bit 6'), NO_OR_YES))
    wanted = {pair for pair in product(sorts, sorts) if any(overload for _, overload in pair)}
    met = {tuple((fault(reading), reading.overload) for reading in pair) for pair, _ in run_cases()['difference']}
    expect('faults: difference', wanted - met, set())


def not_seen(reading):
    """The reading as a program has it that does not look at bit 3."""
    return reading._replace(overload=0)


def is_overloaded_only(reading):
    """Whether nothing but overload refuses its value."""
    return bool(reading_is_right(reading) and reading.overload)


def where_overloaded(wrong, right):
    """The wrong answer of such a reading, and the right one of others."""
    return lambda reading: wrong(reading) if is_overloaded_only(reading) else right(reading)


def reading_by_reading(first, second):
    """A difference refused by what its first reading is refused by, then its second."""
    def wrong(*pair):
        refusals = [value(pair[side]) for side in (first, second) if value(pair[side])[0]]
        return refusals[0] if refusals else difference(*pair)
    return wrong


def as_nothing(gross, net):
    """A difference in which an overloaded reading counts nothing."""
    return difference(*(not_seen(reading)._replace(number=0) if is_overloaded_only(reading) else reading
                        for reading in (gross, net)))


def four_read(change):
    """Four bytes read, with another reading of overloaded ones."""
    def wrong(family, four):
        number, *met = read_reading(family, four)
        return (number, *(change(reading) if reading.overload else reading for reading in met))
    return wrong


def heard_as(made):
    """What is made of an overloaded weight that was heard, in place of its record."""
    def wrong(time, role, family, event):
        return (made(time),) if overloaded_in(spoken(role, family, event.body)) else None
    return wrong


def refusing(name):
    """A program that refuses where it meets an overloaded weight."""
    return lambda *inputs: (24,) if overloaded_in(MET[name](*inputs)) else None


NOTING_24 = record_of_refusal(0, 24)  # no line meets 24, and no record notes it (open point 7.3)


def where_24_is_noted(made, time, *fields):
    """What is made of a record of kind 3 that is right but for its status, 24."""
    return made if (0, *fields) == NOTING_24 else None


def where_24_stands(made, twenty):
    """The same of its bytes."""
    return made if twenty[8:] == record_bytes(NOTING_24)[8:] else None


def event_24_listed(count, family, event, room):
    after = bytearray(room)
    return lend(b'%d refused 24\n' % count, after) + (bytes(after),) if event.number == 24 else None


# (function, what the program does, what it answers); None stands for the model's answer.
STAND_INS = (
    ('value', '24 before 8', lambda reading: (24,) if reading.overload else value(reading)),
    ('value', 'the digits', lambda reading: value(not_seen(reading))),
    ('value', 'a zero is 0', lambda reading: value(not_seen(reading) if reading.number == 0 else reading)),
    ('value', 'nothing, as 0', where_overloaded(lambda reading: (0, 0), value)),
    ('value', '8 for 24', where_overloaded(lambda reading: (8,), value)),
    ('kilograms', '24 before 8', lambda reading: (24,) if reading.overload else kilogram_answer(reading)),
    ('kilograms', 'the digits', lambda reading: kilogram_answer(not_seen(reading))),
    ('kilograms', 'plus zero', where_overloaded(lambda reading: (0, float_bits(0.0)), kilogram_answer)),
    ('kilograms', 'no number', where_overloaded(lambda reading: (0, float_bits(nan)), kilogram_answer)),
    ('kilograms', '8 for 24', where_overloaded(lambda reading: (8,), kilogram_answer)),
    ('difference', '24 before 8', lambda *pair: (24,) if overloaded_in(pair) else difference(*pair)),
    ('difference', 'gross, then net', reading_by_reading(0, 1)),
    ('difference', 'net, then gross', reading_by_reading(1, 0)),
    ('difference', 'net let through', lambda gross, net: difference(gross, not_seen(net))),
    ('difference', 'gross let through', lambda gross, net: difference(not_seen(gross), net)),
    ('difference', 'both let through', lambda gross, net: difference(not_seen(gross), not_seen(net))),
    ('difference', 'refused if both are', lambda gross, net: difference(
        *((gross, net) if gross.overload and net.overload else map(not_seen, (gross, net))))),
    ('difference', 'the same twice is 0', lambda gross, net: difference(
        *((gross, net) if gross != net else map(not_seen, (gross, net))))),
    ('difference', 'overloaded as nothing', as_nothing),
    ('reading_is_right', 'overloaded is out of range', lambda reading: (value(reading)[0] == 0,)),
    ('write_reading', 'refused', where_overloaded(lambda reading: (24,), bytes_answer)),
    ('write_reading', 'bit 3 lost', lambda reading: bytes_answer(not_seen(reading))),
    ('write_reading', 'digits lost', where_overloaded(lambda reading: bytes_answer(reading._replace(number=0)),
                                                      bytes_answer)),
    ('read_reading', 'bit 3 lost', four_read(not_seen)),
    ('read_reading', 'digits lost', four_read(lambda reading: reading._replace(number=0))),
    ('record_heard', 'a refusal 24', heard_as(lambda time: record_of_refusal(time, 24))),
    ('record_heard', 'a refusal 8', heard_as(lambda time: record_of_refusal(time, 8))),
    ('record_heard', 'no record', heard_as(lambda time: None)),
    ('record_heard', '24 as an event', lambda time, role, family, event: (
        (record_of_refusal(time, 24),) if event.number == 24 else None)),
    ('write_line', '24 as an event', event_24_listed),
    ('write_record', '24 as a status', lambda *fields_and_room: where_24_is_noted((0,), *fields_and_room[:-1])),
    ('weight_noted', '24 as a status', lambda *fields: where_24_is_noted((24,), *fields)),
    ('read_record', '24 as a status', lambda twenty: where_24_stands((0,), twenty)),
    ('step', '24 as a status', lambda log, place: where_24_stands((0,), log[place:place + 20])),
    ('mode', 'refused', where_overloaded(lambda reading: (24,), mode)),
    *((name, 'refused', refusing(name)) for name in SENT),
)


def test_stand_ins(expect):
    """Each of them is caught by some case."""
    for name, what, wrong in STAND_INS:
        given = ((wrong(*inputs), answer) for inputs, answer in run_cases()[name])
        expect('%s: %s' % (name, what), any(got is not None and got != answer for got, answer in given), True)


def word_as(place, *words):
    """A line's words with others in one place; the sign is the word at 4, the digits
    stand at 5, point, settled and overload behind them."""
    return lambda line, reading: line[:place] + list(words) + line[place + 1:]


# What a program lists in place of an overloaded weight's line.
OVERLOADED_LINES = {
    'the digits': lambda line, reading: word_as(5, '%06d' % reading.number)(line, reading),
    'zeros': word_as(5, '000000'), 'a zero': word_as(5, '0'), 'no digits at all': word_as(5),
    'five hyphens': word_as(5, '-----'), 'seven hyphens': word_as(5, '-------'),
    'always plus': word_as(4, '+'), 'always minus': word_as(4, '-'), 'no sign': word_as(4),
    'no point': word_as(6, '0'), 'a hyphen for the point': word_as(6, '-'),
    'never settled': word_as(7, '0'), 'always settled': word_as(7, '1'), 'no overload': word_as(8, '0'),
    'no last field': lambda line, reading: line[:9],
    'refused 24': lambda line, reading: [line[0], 'refused', '24'],
    'refused 8': lambda line, reading: [line[0], 'refused', '8'],
}
# What a program lists with hyphens although the weight is not overloaded.
HYPHENED = {
    'every weight': lambda reading: True,
    'what is settled': lambda reading: reading.settled,
    'what is not settled': lambda reading: not reading.settled,
    'minus': lambda reading: reading.minus,
    'a zero': lambda reading: reading.number == 0,
    'net mode': lambda reading: reading.five,
}


def caught(line_of):
    """Whether a case of a line that was written is answered otherwise, of those that
    the wrong program lists in its own way: it has a line for them, or None."""
    for (count, family, event, room), answer in run_cases()['write_line']:
        if event.number == 0 and answer[0] == 0:
            line = line_of(count, family, event)
            after = bytearray(room)
            if line is not None and lend(line, after) + (bytes(after),) != answer:
                return True
    return False


def weights_listed_as(words_of, holds):
    """Lines of the weights for which something holds, in other words."""
    def line_of(count, family, event):
        for reading in spoken('reply', family, event.body):
            if holds(reading):
                words = event_line(count, family, event).decode('ascii').split()
                return ' '.join(words_of(words, reading)).encode('ascii') + b'\n'
        return None
    return line_of


def refused_as_hyphens(count, family, event):
    """An overloaded weight that is refused with 8, listed as one that is not."""
    number, *opened = open_body(event.body)
    if number or read_message('reply', family, event.body) != (8,):
        return None
    address, code, data = opened
    if code not in WEIGHTS or not data[3] & 0x08:
        return None
    body = body_of(address, code, bytes([0, 0, 0, data[3] & ~0x40]))
    return event_line(count, family, Event(0, event.wire, len(body), body))


def test_lines_of_stand_ins(expect):
    """Each line that is listed otherwise is caught by some case."""
    for what, words_of in OVERLOADED_LINES.items():
        expect('line: ' + what, caught(weights_listed_as(words_of, lambda reading: reading.overload)), True)
    for what, holds in HYPHENED.items():
        line_of = weights_listed_as(word_as(5, '------'), lambda reading: not reading.overload and holds(reading))
        expect('hyphens: ' + what, caught(line_of), True)
    expect('hyphens: refused 8', caught(refused_as_hyphens), True)
    lengths = {len(line) for line in (answer[2][:answer[1]] for _, answer in run_cases()['write_line'])
               if b' ------ ' in line}
    longest = '18446744073709551615 weight gross 0:16777215 - ------ 7 1 1 scale1\n'
    expect('the longest line', max(lengths), len(longest))


def test_whole_listings(expect):
    """The mixed capture of `list_capture` has hyphened lines of both weights, signs and
    modes, and its total counts them; samples/ have one each, but for the platforms."""
    mixed = listing_of(FAMILY_NOT_SAID, capture(make.CAPTURE_SEED, make.CAPTURE_SIZE))
    *lines, total = (line.split() for line in mixed.decode('ascii').splitlines())
    weights = [line for line in lines if line[1] == 'weight']
    hyphened = [line for line in weights if line[5] == '------']
    expect('mixed capture', int(total[3]), len(weights))
    expect('mixed capture', (len(hyphened) > 500, len(weights) - len(hyphened) > 500), (True, True))
    expect('mixed capture', {(line[2], line[4], line[-1]) for line in hyphened},
           set(product(('gross', 'net'), '+-', ('gross', 'net'))))
    expect('mixed capture', {line[8] for line in hyphened}, {'1'})
    listings = {name: listing_of(family, wire()).decode('ascii').splitlines() for name, wire, family in SAMPLES}
    for name, hyphens, end in (
            ('morning', ['7 weight gross 2 + ------ 0 1 1 gross'], 'total 15 weights 7 refused 5'),
            ('older', ['16 weight gross 240 + ------ 0 1 1 gross'], 'total 17 weights 9 refused 5'),
            ('platforms', [], 'total 8 weights 6 refused 1')):
        expect(name, [line for line in listings[name] if '------' in line], hyphens)
        expect(name, listings[name][-1], end)


def test_tables(expect):
    """Overloaded gross records come first into a cell, settled and not, whose count of
    weights is full and is not, and are let in: who would ask their value, count them,
    or count them as refused is caught."""
    for function in INTO:
        met = {(record.status & 0x10, cell[0] == 65_535, cell[1] == 65_535)
               for record, cell, number in first_records(function)
               if record.kind == 1 and record.status & 0x08 and number == 0}
        expect('overloaded in ' + function, {*product((0, 0x10), (False,), (False,)),
                                             *product((0, 0x10), (True,), (True,))} - met, set())
    families = {record.family for record, _, number in first_records('add_to_cell')
                if record.kind == 1 and record.status & 0x18 == 0x18 and number == 0}
    expect('overloaded in every family', families, set(FAMILIES))


TESTS = (test_every_layer_is_asked, test_senders_together, test_sorts_together, test_faults_together, test_stand_ins,
         test_lines_of_stand_ins, test_whole_listings, test_tables)
