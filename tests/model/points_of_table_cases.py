"""What the cases of the weekday and hour table must hold, so that nothing of 02 request 6 goes unasked.

What is looked for is written out here by hand, not taken from where the cases have
it. Tables are looked at by their cells.
"""

from functools import lru_cache
from itertools import product
from math import gcd

import cases_table
import table_vectors
from hour_table import Cell, Table, cell_at
from log import Record

NONE = b'\x00\x00\x00'
EMPTY = (0, 0, 0)
HEAVIEST = 9_999_990_000_000
SLOTS = [(weekday, hour) for weekday in range(7) for hour in range(24)]
ADDRESSES = {0x9F, 0xA0, 0xA4, 0xF0, 0xFD, 0xFE, 0xFF}
STATUSES = {*range(13), 20, 21, 22, 23, 24, 25, 26, 31, 255}  # of kind 3
INTO = ('add_to_cell', 'enter_table', 'fill_table')


@lru_cache(maxsize=None)
def all_cases():
    """{function: {inputs: answer}} of the cases."""
    functions = {}
    for name, inputs, answer in cases_table.cases():
        functions.setdefault(name, {})[inputs] = answer
    return functions


def cases_of(function):
    return all_cases()[function]


def records_in(log):
    """The whole records of a log as they stand there, and whether bytes 18 and 19 are zero."""
    for place in range(0, len(log) - 19, 20):
        twenty = log[place:place + 20]
        time, serial = (int.from_bytes(part, 'little') for part in (twenty[:8], twenty[10:13]))
        record = Record(time, twenty[8], twenty[9], serial, twenty[13], twenty[14:17], twenty[17])
        yield record, twenty[18:] == b'\x00\x00'


def slot(record):
    """Where a record falls, in the words of open point 8.12."""
    return record.time // 86_400 % 7, record.time // 3_600 % 24


def cells(table):
    return {place: tuple(cell) for place, cell in zip(SLOTS, (cell for row in table.rows for cell in row))
            if tuple(cell) != EMPTY}


def unsound(cell):
    weights, _, total = cell
    return abs(total) > weights * HEAVIEST


@lru_cache(maxsize=None)
def first_records(function):
    """(record, its own cell, number of the answer) of each case whose first record
    is judged: no other cell is 31, and the log has a whole record at its front."""
    several = []
    for (first, second), (number, *_) in cases_of(function).items():
        if function == 'fill_table':
            found = next(records_in(first), None)
            if found is None or not found[1]:
                continue
            record, table = found[0], second
            number = 0 if cases_of(function)[first, second][1] else number
        else:
            record, table = first, second
        if function != 'add_to_cell':
            if any(unsound(cell) for place, cell in cells(table).items() if place != slot(record)):
                continue
            several.append((record, tuple(cell_at(table, slot(record))), number))
        else:
            several.append((record, tuple(table), number))
    return several


def test_every_answer(expect):
    """Every refusal of each function, each often; and how many records went in."""
    for function, numbers in (('add_to_cell', [0, 11, 23, 31]), ('enter_table', [0, 11, 23, 31]),
                              ('fill_table', [0, 10, 11, 23, 31]), ('mean_of', [0, 31]), ('cell_is_sound', [0, 1]),
                              ('add_weight', [0, 8, 23, 31]), ('add_refused', [0, 23, 31])):
        given = [answer[0] for answer in cases_of(function).values()]
        expect('answers of ' + function, sorted(set(given)), numbers)
        expect('answers of ' + function, [number for number in numbers if given.count(number) < 30], [])
    entered = {(number, min(count, 2)) for number, count, _ in cases_of('fill_table').values()}
    expect('records in', entered, {*product((0, 10, 11, 23), (0, 1, 2)), (31, 0)})
    kinds = {answer[1] for answer in cases_of('mean_of').values() if answer[0] == 0}
    expect('kinds of means', kinds, {0, 1})


def test_times(expect):
    """Every hour of a week at its first and last second, weeks later, around 2^32,
    2^63 and at the end."""
    asked = {time for time, in cases_of('slot_of')}
    for hour in range(168):
        expect('first and last second', {hour * 3_600, hour * 3_600 + 3_599} - asked, set())
    later = {time // 3_600 % 168 for time in asked if 604_800 <= time < 2 ** 32}
    last = {time // 3_600 % 168 for time in asked if time > 2 ** 64 - 2 * 604_800}
    expect('weeks later', (len(later), len(last)), (168, 168))
    for near in (2 ** 31, 2 ** 32, 2 ** 63):
        expect('round times', {near - 1, near, near + 1} - asked, set())
    expect('the end', {2 ** 64 - 2, 2 ** 64 - 1} - asked, set())
    for function in ('enter_table', 'fill_table'):
        times = {record.time for record, _, _ in first_records(function)} if function == 'enter_table' else {
            record.time for log, _ in cases_of(function) for record, _ in records_in(log)}
        expect('times of ' + function, {2 ** 32 - 1, 2 ** 32, 2 ** 63 - 1, 2 ** 63, 2 ** 64 - 1} - times, set())
    expect('every slot is entered', {slot(record) for record, _, number in first_records('enter_table') if number == 0},
           set(SLOTS))


def test_every_sort_of_record(expect):
    """Settled, overload, minus, point and family with each other in gross records;
    settled and overload in net ones; every status of kind 3; each address."""
    gross = {(record.status & 0x98, record.family) for record, _, _ in first_records('add_to_cell') if record.kind == 1}
    flags = [settled | overload | minus for settled in (0, 0x10) for overload in (0, 8) for minus in (0, 0x80)]
    expect('flags and families', set(product(flags, (0, 1, 2, 3))) - gross, set())
    points = {(record.status & 0x80, record.status & 7) for record, _, number in first_records('add_to_cell')
              if record.kind == 1 and record.status & 0x18 == 0x10 and record.weight == b'\x99\x99\x99' and number == 0}
    expect('points', points, set(product((0, 0x80), range(8))))
    for function in INTO:
        met = first_records(function) if function != 'fill_table' else [
            (record, None, None) for log, _ in cases_of(function) for record, _ in records_in(log)]
        sorts = {(record.kind, record.status & 0x18) for record, _, _ in met}
        expect('sorts of ' + function, set(product((1, 2), (0, 8, 0x10, 0x18))) - sorts, set())
        expect('families of ' + function,
               set(product((1, 2, 3), (0, 1, 2, 3, 4, 255), (0, 0x20, 0x40, 0x60)))
               - {(record.kind, record.family, record.status & 0x60) for record, _, _ in met}, set())
        expect('addresses of ' + function,
               set(product((1, 2), ADDRESSES)) - {(record.kind, record.address) for record, _, _ in met}, set())
        expect('kind 3 of ' + function, STATUSES - {record.status for record, _, _ in met if record.kind == 3}, set())


# Each breaks one rule of a record; the last one can stand in no 20 bytes.
RULES_BROKEN = {
    'kind': lambda record: record.kind in (0, 4, 255),
    'digits': lambda record: record.kind == 1 and any(byte % 16 > 9 or byte > 0x99 for byte in record.weight),
    'address': lambda record: record.kind == 1 and record.address > 0xFD,
    'serial beside an address': lambda record: record.kind == 1 and record.address and record.serial,
    'family': lambda record: record.kind == 1 and record.family > 3,
    'bit 6 of 002': lambda record: record.kind == 1 and record.family == 3 and record.status & 0x40,
    'weight bytes in kind 3': lambda record: record.kind == 3 and record.weight != NONE and record.address == 0,
    'address in kind 3': lambda record: record.kind == 3 and record.address and record.weight == NONE,
    'serial in kind 3': lambda record: record.kind == 3 and record.serial and record.weight == NONE,
    'family in kind 3': lambda record: record.kind == 3 and record.family and record.status < 9,
    'status in kind 3': lambda record: record.kind == 3 and record.status in (0, 9, 23, 24, 25, 26, 31),
    'wide serial': lambda record: record.serial > 0xFFFFFF,
}


def test_broken_records(expect):
    """Each rule broken, in each function, at the front, in the middle and at the end
    of a log: 11, whether the own cell is full or not, and 31 ahead of it."""
    for name, broken in RULES_BROKEN.items():
        for function in ('add_to_cell', 'enter_table'):
            met = [(cell[:2] == (65_535, 65_535), number) for record, cell, number in first_records(function)
                   if broken(record) and not unsound(cell)]
            expect(name + ' in ' + function, set(met), {(False, 11), (True, 11)})
        places = set()
        for (log, _), (number, entered, _) in cases_of('fill_table').items():
            found = list(records_in(log))
            if number == 11 and broken(found[entered][0]):
                places.add(('front', 'end', 'middle')[0 if entered == 0 else 1 if entered == len(found) - 1 else 2])
        expect(name + ' in fill_table', places, set() if name == 'wide serial' else {'front', 'middle', 'end'})
    last = {(log[20 * entered + 18:20 * entered + 20], entered > 0)
            for (log, _), (number, entered, _) in cases_of('fill_table').items() if number == 11}
    expect('bytes 18 and 19', set(product((b'\x01\x00', b'\x00\x01'), (False, True))) - last, set())


def share(record):
    """'weights', 'refused', 'none' or 'broken': what a first record would let grow."""
    if any(broken(record) for broken in RULES_BROKEN.values()):
        return 'broken'
    if record.kind == 3:
        return 'refused'
    return 'weights' if record.kind == 1 and record.status & 0x18 == 0x10 else 'none'


def test_full_counts(expect):
    """Each count at 65,533, 65,534 and 65,535, with records that let it grow, that let
    the other grow, that change nothing, and that are broken."""
    ends = (65_533, 65_534, 65_535)
    for function in INTO:
        met = {(share(record), *cell[:2], number) for record, cell, number in first_records(function)
               if not unsound(cell)}
        for weights, refused in product(ends, ends):
            full = {'weights': weights == 65_535, 'refused': refused == 65_535, 'none': False}
            if function != 'fill_table' or weights == refused:
                for sort, is_full in full.items():
                    expect('%s near the end of %s' % (sort, function),
                           (sort, weights, refused, 23 if is_full else 0) in met, True)
        expect('11 ahead of 23 of ' + function, ('broken', 65_535, 65_535, 11) in met, True)
    for count, place in product(ends, (0, 1)):
        # fill: the count passes through its end within a log, and the other one is far from it
        grown = {(entered, number) for (_, table), (number, entered, _) in cases_of('fill_table').items()
                 if any(cell[place] == count and cell[1 - place] < 10 for cell in cells(table).values())}
        expect('filled up from %d' % count, (65_535 - count, 23) in grown, True)


def test_full_beside(expect):
    """Another cell is full: the record's own grows all the same."""
    for function in ('enter_table', 'fill_table'):
        beside = set()
        for (first, table), (number, entered, after) in cases_of(function).items():
            full = [place for place, cell in cells(table).items() if cell[:2] == (65_535, 65_535)]
            changed = [place for place in SLOTS if cell_at(table, place) != cell_at(after, place)]
            if entered and changed and full:
                beside.add((full[0][0] == changed[0][0], full[0][1] == changed[0][1]))
        expect('beside in ' + function, beside >= {(True, False), (False, True), (False, False)}, True)


def edge_sums(count):
    end = count * HEAVIEST
    return {end - 1, end, end + 1, -end - 1, -end, 1 - end}


def test_sums(expect):
    """Both ends of a sum, one less and one beyond, for counts at their ends; the 64-bit
    ends; and the heaviest weights added there."""
    for count in (0, 1, 2, 65_534, 65_535):
        wanted = {(count, total) for total in edge_sums(count) | {2 ** 63 - 1, -2 ** 63}}
        for function in ('cell_is_sound', 'mean_of'):
            expect('sums of ' + function, wanted - {(cell[0], cell[2]) for cell, in cases_of(function)}, set())
        for function in INTO:
            for minus in (0, 0x80):
                met = {(cell[0], cell[2]) for record, cell, _ in first_records(function)
                       if record.kind == 1 and record.weight == b'\x99\x99\x99' and record.status == 0x10 | minus}
                wanted = {(count, total) for total in edge_sums(count)}
                expect('heaviest of ' + function, wanted - met, set())


VALUES = (0, 1, -1, HEAVIEST, -HEAVIEST, HEAVIEST - 1, 1 - HEAVIEST, HEAVIEST + 1, -HEAVIEST - 1, 2 ** 62,
          2 ** 63 - 1, -2 ** 63)
COUNTS = (0, 1, 2, 65_533, 65_534, 65_535)


def test_weights_added(expect):
    """Every value of interest with every count and every sum at its ends; each refusal
    alone, each two faults at once, and all three."""
    met = {(value, cell.weights, cell.sum) for value, cell in cases_of('add_weight')}
    for count in COUNTS:
        wanted = product(VALUES, (count,), edge_sums(count) | {0, 2 ** 63 - 1, -2 ** 63})
        expect('weights added', set(wanted) - met, set())
    faults = {}
    for (value, cell), (number, *after) in cases_of('add_weight').items():
        several = (31,) * unsound(cell) + (8,) * (abs(value) > HEAVIEST) + (23,) * (cell.weights == 65_535)
        expect('order of add_weight', number, several[0] if several else 0)
        expect('weight added', after, [] if number else [(cell.weights + 1, cell.refused, cell.sum + value)])
        faults[several] = faults.get(several, 0) + 1
    expect('faults of add_weight', set(faults), {(), (31,), (8,), (23,), (31, 8), (31, 23), (8, 23), (31, 8, 23)})
    expect('faults of add_weight', [several for several, count in faults.items() if count < 20], [])
    refused = {(cell.refused, number) for (_, cell), (number, *_) in cases_of('add_weight').items()}
    expect('refused beside', set(product((0, 1, 65_533, 65_534, 65_535), (0, 8, 23))) - refused, set())
    lengths = {abs(value).bit_length() for value, _ in cases_of('add_weight')}
    expect('sizes of values', set(range(65)) - lengths, set())


def test_refused_added(expect):
    """Each count of refused with each of weights, at both ends of the sum and beyond;
    each refusal alone and both at once."""
    met = {(cell.weights, cell.refused) for cell, in cases_of('add_refused')}
    expect('refused added', set(product(COUNTS, COUNTS)) - met, set())
    sums = {(cell.weights, cell.sum) for cell, in cases_of('add_refused')}
    for count in COUNTS:
        wanted = {(count, total) for total in edge_sums(count) | {0, 2 ** 63 - 1, -2 ** 63}}
        expect('sums of add_refused', wanted - sums, set())
    faults = set()
    for (cell,), (number, *after) in cases_of('add_refused').items():
        several = (31,) * unsound(cell) + (23,) * (cell.refused == 65_535)
        expect('order of add_refused', number, several[0] if several else 0)
        expect('refused added', after, [] if number else [(cell.weights, cell.refused + 1, cell.sum)])
        faults.add((several, cell.weights == 65_535))
    expect('faults of add_refused', faults, set(product(((), (31,), (23,), (31, 23)), (False, True))))


def test_unsound_tables(expect):
    """31 in each of the 168 cells, and not in the record's own; in the first and the
    last with an empty log, and with logs that would be 0, 10, 11 and 23."""
    for function in ('enter_table', 'fill_table'):
        places = set()
        for (first, table), (number, entered, after) in cases_of(function).items():
            bad = [place for place, cell in cells(table).items() if unsound(cell)]
            if number == 31:
                expect('31 of ' + function, (bool(bad), entered, after), (True, 0, table))
                records = [first] if function == 'enter_table' else [record for record, _ in records_in(first)]
                places.update(place for place in bad if place not in map(slot, records))
        expect('31 of ' + function, set(SLOTS) - places, set())
    for place in ((0, 0), (6, 23)):
        logs = {log: table for (log, table), (number, *_) in cases_of('fill_table').items()
                if number == 31 and unsound(cell_at(table, place))}
        front = {(len(log) % 20 > 0, log[8:9] == b'\x00', bool(log)) for log in logs}
        expect('31 with every log', {(False, False, False), (False, False, True), (True, False, True),
                                     (False, True, True)} - front, set())
        full = [log for log, table in logs.items() if log[8:9] == b'\x01' and cell_at(table, (2, 9))[0] == 65_535]
        expect('31 ahead of 23', len(full) > 0, True)


def test_logs(expect):
    """A record in each hour of a week, into an empty and a full table; logs cut at
    every length of their last record; tables with all 168 cells; long logs."""
    week = [(log, table) for log, table in cases_of('fill_table')
            if len({slot(record) for record, _ in records_in(log)}) == 168]
    expect('a week', any(len(log) == 3_360 and not cells(table) for log, table in week), True)
    expect('a week', any(len(log) == 3_360 and len(cells(table)) == 168 for log, table in week), True)
    expect('a week', any(len(cells(cases_of('fill_table')[case][2])) == 168 for case in week), True)
    cuts = {(entered, len(log) % 20)
            for (log, _), (number, entered, _) in cases_of('fill_table').items() if number == 10}
    expect('cuts', set(product((0, 1, 2, 3), range(1, 20))) - cuts, set())
    expect('long logs', {len(log) for log, _ in cases_of('fill_table')} >= {0, 20, 4_080, 4_096}, True)
    for function in ('enter_table', 'fill_table'):
        sizes = {(len(cells(table)), answer[0]) for (_, table), answer in cases_of(function).items()}
        expect('all cells told in ' + function, {(168, 0), (168, 11)} - sizes, set())
        expect('few cells in ' + function, set(product((0, 1, 2, 3), (0,))) - sizes, set())


def test_first_refusal(expect):
    """23 ahead of 11 and of 10, 11 ahead of 23 and of 10, by their places in the log."""
    orders = set()
    for (log, table), (number, entered, after) in cases_of('fill_table').items():
        if number not in (11, 23):
            continue
        rest = log[20 * entered + 20:]
        behind = [record for record, _ in records_in(rest)]
        full = cell_at(after, (2, 9))[:2] == (65_535, 65_535)
        sorts = {11 if share(record) == 'broken' else 23 if share(record) != 'none' and slot(record) == (2, 9) and full
                 else 0 for record in behind}
        orders.update((number, later, entered > 0) for later in sorts)
        if not behind and rest:
            orders.add((number, 10, entered > 0))
    for number, later in ((23, 11), (11, 23), (23, 10), (11, 10), (11, 11), (23, 23)):
        expect('%d ahead of %d' % (number, later), (number, later, True) in orders, True)


def test_filled_further(expect):
    """The table that one call left is lent to another."""
    tables = {answer[2] for answer in cases_of('fill_table').values() if answer[1]}
    lent = {table for (log, table), (number, entered, _) in cases_of('fill_table').items() if entered}
    expect('filled further', len(tables & lent) >= 25, True)
    logs = {log for log, table in cases_of('fill_table') if len(log) >= 20}
    expect('random logs', len(logs) >= 700, True)


def test_means(expect):
    """All counts 1 to 24 with all sums -40 to 40; large common divisors; prime counts;
    pairs with the most remainders; no readings with refused records; a zero that was
    read."""
    met = {(weights, total): answer for (cell,), answer in cases_of('mean_of').items()
           for weights, _, total in [cell]}
    expect('small', [(weights, total) for weights in range(1, 25) for total in range(-40, 41)
                     if (weights, total) not in met], [])
    common = [gcd(weights, total) for weights, total in met if total]
    for least, most, count in ((2, 10, 300), (11, 100, 60), (101, 1_000, 40), (1_001, 65_535, 40)):
        expect('common divisors from %d' % least, sum(least <= number <= most for number in common) >= count, True)
    expect('many remainders', {(46_368, 75_025), (46_368, -75_025), (46_368, 28_657), (57_314, 92_736),
                               (53_133, -85_971)} - set(met), set())
    lowers = {answer[3] for answer in met.values() if len(answer) == 4}
    for prime in (2, 3, 251, 32_749, 65_521):
        sums = {total % prime == 0 for weights, total in met if weights == prime}
        expect('prime counts', sums, {True, False})
        expect('prime counts', prime in lowers, True)
    expect('lower numbers', (min(lowers), max(lowers)), (1, 65_535))
    uppers = [answer[2] for answer in met.values() if len(answer) == 4]
    most = 65_535 * HEAVIEST - 1  # over 65,535 it is in lowest terms
    expect('upper numbers', (min(uppers), max(uppers)), (-most, most))
    none = {cell.refused for (cell,), answer in cases_of('mean_of').items() if answer == (0, 0)}
    expect('no readings', {0, 1, 65_535} - none, set())
    expect('a zero that was read', {weights for (weights, total), answer in met.items() if answer == (0, 1, 0, 1)}
           >= {*range(1, 25), 65_535}, True)


def test_as_they_are_run(expect):
    """Cases as the program reads and answers them."""
    run = {vector.case[:2]: (vector.given.hex(' '), vector.answer) for vector in table_vectors.vectors()}
    gross = Record(206_434, 1, 0x9F, 0, 0x11, b'\x51\x02\x00', 3)  # a Wednesday, 9:20:34
    refusal = Record(206_434, 3, 0, 0, 4, NONE, 0)
    none, lent = Cell(0, 0, 0), Cell(7, 9, -1_000_000_000_000)
    empty = Table(((none,) * 24,) * 7)
    one = Table(empty.rows[:2] + ((none,) * 9 + (lent,) + (none,) * 14,) + empty.rows[3:])
    time, lent_bytes = '62 26 03 00 00 00 00 00 ', '07 00 09 00 00 f0 5a 2b 17 ff ff ff'
    twenty = bytes.fromhex(time + '03 00 00 00 00 04 00 00 00 00 00 00')
    for case, given, answer in (
            (('slot_of', (2 ** 64 - 1,)), '01 00 00 ff ff ff ff ff ff ff ff', b'1 0 7'),
            (('slot_of', (86_400,)), '01 00 00 80 51 01 00 00 00 00 00', b'1 1 0'),
            (('cell_is_sound', (lent,)), '02 00 00 ' + lent_bytes, b'2 1'),
            (('cell_is_sound', (Cell(0, 0, 5),)), '02 00 00 00 00 00 00 05 00 00 00 00 00 00 00', b'2 0'),
            (('add_to_cell', (gross, lent)),
             '03 00 00 ' + time + '01 9f 00 00 00 00 11 51 02 00 03 ' + lent_bytes, b'3 0 8 9 ffffff173a50e4c0'),
            (('add_to_cell', (refusal, Cell(65_535, 65_535, 0))),
             '03 00 00 ' + time + '03 00 00 00 00 00 04 00 00 00 00 ff ff ff ff 00 00 00 00 00 00 00 00', b'3 23'),
            (('enter_table', (gross, one)),
             '04 00 00 ' + time + '01 9f 00 00 00 00 11 51 02 00 03 01 02 09 ' + lent_bytes,
             b'4 0 1 1 2 9 8 9 ffffff173a50e4c0'),
            (('fill_table', (b'', empty)), '05 00 00 00', b'5 0 0 0'),
            (('fill_table', (b'', one)), '05 00 00 01 02 09 ' + lent_bytes, b'5 0 0 1 2 9 7 9 ffffff172b5af000'),
            (('fill_table', (twenty, empty)), '05 14 00 ' + twenty.hex(' ') + ' 00',
             b'5 0 1 1 2 9 0 1 0000000000000000'),
            (('mean_of', (Cell(6, 0, -4),)), '06 00 00 06 00 00 00 fc ff ff ff ff ff ff ff',
             b'6 0 1 fffffffffffffffe 0000000000000003'),
            (('mean_of', (Cell(0, 1, 0),)), '06 00 00 00 00 01 00 00 00 00 00 00 00 00 00', b'6 0 0'),
            (('mean_of', (Cell(0, 1, 5),)), '06 00 00 00 00 01 00 05 00 00 00 00 00 00 00', b'6 31'),
            (('add_weight', (-1, lent)), '07 00 00 ff ff ff ff ff ff ff ff ' + lent_bytes,
             b'7 0 8 9 ffffff172b5aefff'),
            (('add_weight', (HEAVIEST, none)),
             '07 00 00 80 09 da 4d 18 09 00 00 00 00 00 00 00 00 00 00 00 00 00 00', b'7 0 1 0 000009184dda0980'),
            (('add_weight', (-2 ** 63, Cell(65_535, 0, 0))),
             '07 00 00 00 00 00 00 00 00 00 80 ff ff 00 00 00 00 00 00 00 00 00 00', b'7 8'),
            (('add_refused', (lent,)), '08 00 00 ' + lent_bytes, b'8 0 7 10 ffffff172b5af000'),
            (('add_refused', (Cell(0, 65_535, 1),)), '08 00 00 00 00 ff ff 01 00 00 00 00 00 00 00', b'8 31')):
        expect('as run', run.get(case), (given, answer))


TESTS = (test_every_answer, test_times, test_every_sort_of_record, test_broken_records, test_full_counts,
         test_full_beside, test_sums, test_weights_added, test_refused_added, test_unsound_tables, test_logs,
         test_first_refusal, test_filled_further, test_means, test_as_they_are_run)
