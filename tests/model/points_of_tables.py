"""Section 8 of the open points and 02 request 6: the weekday and hour table.

Records, cells and answers are written out by hand. Each expectation names its
point, or what the request says.
"""

from datetime import date
from fractions import Fraction
from math import gcd

from cases_log import record_bytes
from hour_mean import lowest_terms, mean_of, prime_factors
from hour_table import (EMPTY, EMPTY_TABLE, HEAVIEST, Cell, add, add_refused, add_weight, cell_at, cell_is_sound,
                        cells_told, enter, fill, replaced, slot_of)
from log import Record, judge_record
from random_bytes import RandomBytes
from tables_asked import some_cell, some_good_record, some_slots, some_table
from weight import Reading, value

NONE = b'\x00\x00\x00'
GROSS = Record(0, 1, 1, 0, 0x11, b'\x51\x02\x00', 0)       # 25.1 kg, settled, a Monday midnight
NET = Record(0, 2, 1, 0, 0x11, b'\x51\x02\x00', 0)
UNSETTLED = Record(0, 1, 1, 0, 0x01, b'\x51\x02\x00', 0)
OVERLOADED = Record(0, 1, 1, 0, 0x19, b'\x51\x02\x00', 0)
REFUSED = Record(0, 3, 0, 0, 4, NONE, 0)
HEAVY = Record(0, 1, 1, 0, 0x10, b'\x99\x99\x99', 0)
LEAST = Record(0, 1, 1, 0, 0x90, b'\x99\x99\x99', 0)
BROKEN = Record(0, 1, 1, 0, 0x11, b'\x5a\x02\x00', 0)
GOOD = (GROSS, NET, UNSETTLED, OVERLOADED, REFUSED, HEAVY, LEAST)
BEYOND = 9_999_990_000_001
FULL_SUM = 655_349_344_650_000_000                         # 65,535 times the heaviest


def with_cell(cell, weekday=0, hour=0):
    return replaced(EMPTY_TABLE, (weekday, hour), cell)


def log_of(*records):
    return b''.join(map(record_bytes, records))


def told(answer):
    """Number, records in, and the cells that are not empty."""
    number, entered, table = answer
    return (number, entered, [(weekday, hour, tuple(cell)) for weekday, hour, cell in cells_told(table)])


def test_slots(expect):
    # 8.12 weekday = day mod 7, 0 is Monday; hour = whole hours mod 24. "Time 0 of the log is a Monday midnight."
    for time, slot in ((0, (0, 0)), (1, (0, 0)), (3_599, (0, 0)), (3_600, (0, 1)), (86_399, (0, 23)), (86_400, (1, 0)),
                       (2 * 86_400 + 9 * 3_600, (2, 9)), (604_799, (6, 23)), (604_800, (0, 0)),
                       (604_800 + 5 * 86_400 + 12 * 3_600 + 1, (5, 12)), (2 ** 32 - 1, (3, 6)), (2 ** 32, (3, 6)),
                       (2 ** 63 - 1, (3, 15)), (2 ** 63, (3, 15)), (2 ** 64 - 1, (0, 7))):
        expect('8.12', slot_of(time), slot)


def calendar_slot(time):
    """Another way to a slot: the calendar's first day, 1 January of year 1, was a
    Monday. It repeats after 400 years, which are 20,871 weeks."""
    hours, _ = divmod(time, 3_600)
    days = hours // 24
    return date.fromordinal(1 + days % 146_097).weekday(), hours - 24 * days


def test_calendar(expect):
    source = RandomBytes(101)
    times = [hour * 3_600 + second for hour in range(400) for second in (0, 1_800, 3_599)]
    times += [source.number() >> source.below(64) for _ in range(3_000)]
    times += [2 ** power + step for power in range(64) for step in (-1, 0, 1)] + [2 ** 64 - 1]
    for time in times:
        expect('8.12 by the calendar', slot_of(time), calendar_slot(time))
    week = [slot_of(hour * 3_600) for hour in range(168)]
    expect('8.12 each cell once', week, [(weekday, hour) for weekday in range(7) for hour in range(24)])


def test_sound_cells(expect):
    """31: "a lent cell whose sum, sign aside, is beyond its count times
    9,999,990,000,000"."""
    expect('31', value(Reading(0, 999_999, 0, 0, 0, 1, 0, 0)), (0, HEAVIEST))
    expect('31', 65_535 * 9_999_990_000_000, FULL_SUM)
    # 8.1 (!) equality is good
    for cell, sound in (((0, 0, 0), True), ((0, 9, 0), True), ((0, 0, 1), False), ((0, 9, -1), False),
                        ((1, 0, 9_999_990_000_000), True), ((1, 0, 9_999_990_000_001), False),
                        ((1, 0, -9_999_990_000_000), True), ((1, 0, -9_999_990_000_001), False),
                        ((2, 0, 19_999_980_000_000), True), ((2, 0, -19_999_980_000_001), False),
                        ((65_535, 0, FULL_SUM), True), ((65_535, 0, FULL_SUM + 1), False),
                        ((65_535, 0, -FULL_SUM), True), ((65_535, 0, -FULL_SUM - 1), False),
                        ((65_534, 0, FULL_SUM), False), ((65_535, 65_535, 2 ** 63 - 1), False),
                        ((65_535, 0, -2 ** 63), False), ((1, 65_535, 9_999_990_000_001), False)):
        expect('8.1', cell_is_sound(Cell(*cell)), sound)


def test_what_counts(expect):
    """"the count of settled gross weights without overload, their signed sum in
    tenths of a milligram, and the count of refused records"."""
    for record, after in ((GROSS, (8, 9, 251_000_010)), (NET, (7, 9, 10)), (UNSETTLED, (7, 9, 10)),
                          (OVERLOADED, (7, 9, 10)), (REFUSED, (7, 10, 10)), (HEAVY, (8, 9, 9_999_990_000_010)),
                          (LEAST, (8, 9, -9_999_989_999_990)),
                          (GROSS._replace(status=0x91), (8, 9, -250_999_990)),   # minus
                          (GROSS._replace(status=0x17), (8, 9, 261)),            # seven digits after the point
                          (GROSS._replace(status=0x10), (8, 9, 2_510_000_010)),
                          (GROSS._replace(weight=NONE), (8, 9, 10)),             # a zero that was weighed
                          (GROSS._replace(weight=NONE, status=0x97), (8, 9, 10)),  # minus zero too
                          (GROSS._replace(status=0x09), (7, 9, 10)),             # neither settled nor without overload
                          (GROSS._replace(status=0x99), (7, 9, 10)),
                          (NET._replace(status=0x91), (7, 9, 10))):
        expect('what counts', add(record, Cell(7, 9, 10)), (0, after))
        expect('what counts', told(enter(record, with_cell(Cell(7, 9, 10)))), (0, 1, [(0, 0, after)]))
        expect('what counts', told(fill(log_of(record), with_cell(Cell(7, 9, 10)))), (0, 1, [(0, 0, after)]))
    # 8.5 kind 3 is a refused record whatever its status; a status that breaks a rule is 11
    for status in range(256):
        wanted = (0, (0, 1, 0)) if 1 <= status <= 8 else (11,)
        expect('8.5', add(REFUSED._replace(status=status), EMPTY), wanted)


def test_same_cell(expect):
    # 8.12 all addresses, families and scale numbers fall into the same cell
    several = [GROSS._replace(address=address) for address in (1, 0x9F, 0xA4, 0xF0, 0xFD)]
    several += [GROSS._replace(address=0, serial=serial) for serial in (0, 1, 0xFFFFFF)]
    several += [GROSS._replace(family=family, status=0x11 | bits)
                for family in (0, 1, 2) for bits in (0, 0x20, 0x40, 0x60)]
    several += [GROSS._replace(family=3, status=0x11 | bits) for bits in (0, 0x20)]
    expect('8.12', told(fill(log_of(*several), EMPTY_TABLE)), (0, 22, [(0, 0, (22, 0, 22 * 251_000_000))]))
    # weeks later it is the same cell; the record ahead of midnight is in another
    weeks = [GROSS._replace(time=week * 604_800) for week in (0, 1, 52, 30_500_568_904_942)]
    expect('8.12', told(fill(log_of(*weeks, REFUSED._replace(time=86_399), HEAVY._replace(time=604_799)), EMPTY_TABLE)),
           (0, 6, [(0, 0, (4, 0, 1_004_000_000)), (0, 23, (0, 1, 0)), (6, 23, (1, 0, 9_999_990_000_000))]))


def test_unsound_first(expect):
    # 8.1 (!) any of the 168 cells, judged first, for an empty log too; the table stays as lent
    logs = (b'', log_of(GROSS), log_of(BROKEN), b'\x01', log_of(GROSS)[:19], log_of(GROSS, BROKEN),
            log_of(REFUSED) + b'\x01')
    for weekday in range(7):
        for hour in range(24):
            for cell in (Cell(0, 0, 5), Cell(1, 0, -BEYOND)):
                lent = with_cell(cell, weekday, hour)
                for log in logs:
                    expect('8.1', fill(log, lent), (31, 0, lent))
                for record in (GROSS, NET, REFUSED, BROKEN):
                    expect('8.1', enter(record, lent), (31, 0, lent))
    full = replaced(with_cell(Cell(65_535, 65_535, 0)), (6, 23), Cell(1, 0, BEYOND))
    for record in (GROSS, REFUSED, BROKEN):
        expect('31 ahead of 11 and 23', enter(record, full), (31, 0, full))
        expect('31 ahead of 11 and 23', add(record, Cell(65_535, 65_535, FULL_SUM + 1)), (31,))
    expect('8.1 empty log', told(fill(b'', EMPTY_TABLE)), (0, 0, []))


def test_full_counts(expect):
    # 8.3 (!) 23 only for the count that is to grow; net, unsettled, overloaded never
    for weights, refused, numbers in ((65_534, 65_534, (0, 0)), (65_535, 65_534, (23, 0)), (65_534, 65_535, (0, 23)),
                                      (65_535, 65_535, (23, 23)), (65_533, 0, (0, 0))):
        cell = Cell(weights, refused, -12)
        grown = (Cell(weights + 1, refused, 250_999_988), Cell(weights, refused + 1, -12))
        for record, number, after in zip((GROSS, REFUSED), numbers, grown):
            lent = with_cell(cell)
            expect('8.3', add(record, cell), (0, after) if number == 0 else (23,))
            expect('8.3', enter(record, lent), (0, 1, with_cell(after)) if number == 0 else (23, 0, lent))
            expect('8.3', fill(log_of(record), lent), (0, 1, with_cell(after)) if number == 0 else (23, 0, lent))
        for record in (NET, UNSETTLED, OVERLOADED):
            expect('8.3', [add(record, cell), enter(record, with_cell(cell))],
                   [(0, cell), (0, 1, with_cell(cell))])
        # 11 goes ahead of 23
        expect('11 ahead of 23', [add(BROKEN, cell), enter(BROKEN, with_cell(cell))], [(11,), (11, 0, with_cell(cell))])
    # another cell that is full is nobody's matter
    expect('8.3', told(enter(GROSS, with_cell(Cell(65_535, 65_535, 0), 0, 1))),
           (0, 1, [(0, 0, (1, 0, 251_000_000)), (0, 1, (65_535, 65_535, 0))]))
    # from 65,534 to 65,535, and then 23
    expect('8.4', told(fill(log_of(GROSS, NET, GROSS, REFUSED), with_cell(Cell(65_534, 3, 0)))),
           (23, 2, [(0, 0, (65_535, 3, 251_000_000))]))
    expect('8.4', told(fill(log_of(REFUSED, REFUSED, GROSS), with_cell(Cell(3, 65_534, 0)))),
           (23, 1, [(0, 0, (3, 65_535, 0))]))


def test_stays_as_before(expect):
    """"10 and 11 as the log gives them"; "in all of these the table stays as before
    that record"."""
    two = [(0, 0, (1, 1, 251_000_000))]
    good, bad = log_of(GROSS, REFUSED), log_of(BROKEN)
    # 8.4 earlier records of the same call stay in
    for log, answer in ((good, (0, 2, two)), (good + bad, (11, 2, two)), (good + bad + good, (11, 2, two)),
                        (bad + good, (11, 0, [])), (good + b'\x00', (10, 2, two)), (b'\x00', (10, 0, [])),
                        (good + bytes(19), (10, 2, two)), (good + bytes(20), (11, 2, two)),
                        # 7.1 (!) a bad record early, and bytes left over: 11
                        (bad + b'\x01', (11, 0, [])), (good + bad + good + bytes(5), (11, 2, two)),
                        (good + bad[:19], (10, 2, two))):
        expect('8.4', told(fill(log, EMPTY_TABLE)), answer)
    # a 23 at an earlier record goes ahead of an 11 or a 10 at a later one, and the other way round
    lent, after = with_cell(Cell(65_535, 0, 0)), with_cell(Cell(65_535, 1, 0))
    gross, refusal = log_of(GROSS), log_of(REFUSED)
    for log, answer in ((refusal + gross + bad, (23, 1, after)), (refusal + bad + gross, (11, 1, after)),
                        (refusal + gross + b'\x01', (23, 1, after)), (refusal + b'\x01', (10, 1, after)),
                        (gross + refusal, (23, 0, lent)), (bad + b'\x01', (11, 0, lent))):
        expect('7.1', fill(log, lent), answer)
    # bytes 18 and 19 that are not zero are 11 as in the log
    for place in (18, 19):
        marked = bytearray(gross)
        marked[place] = 1
        expect('11', told(fill(bytes(marked) + gross, EMPTY_TABLE)), (11, 0, []))
    # times that go back are no matter (open point 7.6)
    expect('7.6', told(fill(log_of(GROSS._replace(time=2 ** 64 - 1), GROSS), EMPTY_TABLE)),
           (0, 2, [(0, 0, (1, 0, 251_000_000)), (0, 7, (1, 0, 251_000_000))]))


def test_ends_of_sums(expect):
    """The heaviest weight at both ends: a sound cell stays sound."""
    for count in (0, 1, 2, 65_533, 65_534):
        end = count * 9_999_990_000_000
        for record, sign in ((HEAVY, 1), (LEAST, -1)):
            beyond = sign * (end + 9_999_990_000_000)
            expect('ends', add(record, Cell(count, 0, sign * end)), (0, (count + 1, 0, beyond)))
            expect('ends', cell_is_sound(Cell(count + 1, 0, beyond)), True)
            expect('ends', add(record, Cell(count, 0, -sign * end)),
                   (0, (count + 1, 0, -sign * end + sign * 9_999_990_000_000)))
            expect('ends', add(record, Cell(count, 0, sign * (end + 1))), (31,))
        expect('ends', add(HEAVY, Cell(65_535, 0, FULL_SUM)), (23,))


def test_one_weight_more(expect):
    """"their signed sum in tenths of a milligram": one weight more, by its value. The
    order is 31, 8, 23."""
    for worth, cell, answer in (
            (251_000_000, (7, 9, 10), (0, (8, 9, 251_000_010))), (-251_000_000, (7, 9, 10), (0, (8, 9, -250_999_990))),
            (0, (0, 0, 0), (0, (1, 0, 0))), (1, (0, 0, 0), (0, (1, 0, 1))), (-1, (0, 0, 0), (0, (1, 0, -1))),
            (-1, (1, 0, 1), (0, (2, 0, 0))), (1, (1, 65_535, -1), (0, (2, 65_535, 0))),
            (9_999_990_000_000, (0, 0, 0), (0, (1, 0, 9_999_990_000_000))),
            (-9_999_990_000_000, (0, 0, 0), (0, (1, 0, -9_999_990_000_000))),
            (9_999_989_999_999, (1, 0, 9_999_990_000_000), (0, (2, 0, 19_999_979_999_999))),
            (9_999_990_000_000, (65_534, 3, FULL_SUM - 9_999_990_000_000), (0, (65_535, 3, FULL_SUM))),
            (-9_999_990_000_000, (65_534, 3, 9_999_990_000_000 - FULL_SUM), (0, (65_535, 3, -FULL_SUM))),
            (-9_999_990_000_000, (65_533, 0, 5), (0, (65_534, 0, -9_999_989_999_995))),
            # 8: a value that no weight has
            (BEYOND, (0, 0, 0), (8,)), (-BEYOND, (0, 0, 0), (8,)), (BEYOND, (5, 0, -9_999_990_000_000), (8,)),
            (2 ** 62, (5, 5, 5), (8,)), (2 ** 63 - 1, (5, 5, 5), (8,)), (-2 ** 63, (5, 5, 5), (8,)),
            (-2 ** 63, (0, 0, 0), (8,)),
            # 23: one weight too many, also where it is a zero
            (1, (65_535, 0, 0), (23,)), (0, (65_535, 65_535, FULL_SUM), (23,)), (-1, (65_535, 0, FULL_SUM), (23,)),
            # 31, also where the sum would be good afterwards
            (0, (0, 0, 5), (31,)), (-5, (0, 0, 5), (31,)), (0, (1, 0, BEYOND), (31,)), (-1, (1, 0, BEYOND), (31,)),
            (1, (1, 65_535, -BEYOND), (31,)), (0, (3, 0, -2 ** 63), (31,)), (0, (3, 0, 2 ** 63 - 1), (31,)),
            # 31 ahead of 8, of 23, of both; 8 ahead of 23
            (BEYOND, (0, 0, 1), (31,)), (-2 ** 63, (0, 0, 2 ** 63 - 1), (31,)), (1, (65_535, 0, FULL_SUM + 1), (31,)),
            (-1, (65_535, 0, -FULL_SUM - 1), (31,)), (BEYOND, (65_535, 0, FULL_SUM + 1), (31,)),
            (BEYOND, (65_535, 0, 0), (8,)), (-2 ** 63, (65_535, 65_535, -FULL_SUM), (8,))):
        expect('one weight more', add_weight(worth, Cell(*cell)), answer)


def test_one_refused_more(expect):
    """"and the count of refused records": one more, whatever the weights. The order is
    31, 23."""
    for cell, answer in (((0, 0, 0), (0, (0, 1, 0))), ((7, 9, -10), (0, (7, 10, -10))), ((0, 1, 0), (0, (0, 2, 0))),
                         ((1, 65_533, 9_999_990_000_000), (0, (1, 65_534, 9_999_990_000_000))),
                         ((65_535, 65_534, -FULL_SUM), (0, (65_535, 65_535, -FULL_SUM))),
                         ((65_535, 0, FULL_SUM), (0, (65_535, 1, FULL_SUM))),
                         ((0, 65_535, 0), (23,)), ((65_535, 65_535, FULL_SUM), (23,)), ((3, 65_535, -7), (23,)),
                         ((0, 0, 1), (31,)), ((0, 9, -1), (31,)), ((1, 0, BEYOND), (31,)), ((2, 0, -2 ** 63), (31,)),
                         ((65_535, 0, FULL_SUM + 1), (31,)), ((65_535, 0, -FULL_SUM - 1), (31,)),
                         # 31 ahead of 23
                         ((0, 65_535, 1), (31,)), ((65_535, 65_535, FULL_SUM + 1), (31,)),
                         ((1, 65_535, 2 ** 63 - 1), (31,))):
        expect('one refused more', add_refused(Cell(*cell)), answer)


def some_records(source):
    """Good records of a few slots, and broken ones now and then."""
    slots = some_slots(source)
    records = [some_good_record(source, slots) for _ in range(source.below(30))]
    if source.one_in(3):
        records.insert(source.below(len(records) + 1), BROKEN)
    return slots, records


def counted(record):
    """Whether a record is a settled gross weight without overload, by its bytes."""
    return record.kind == 1 and record.status & 0x18 == 0x10


def weighed(record):
    """Its value, digit by digit."""
    digits = ''.join('%02x' % byte for byte in reversed(record.weight))
    tenths = int(digits) * 10_000_000 // 10 ** (record.status & 7)
    return -tenths if record.status & 0x80 else tenths


def test_all_records(expect):
    """"Say it as a statement about all records of the log": each cell has the count
    of its weights, their sum, and the count of its refused records, beside what was
    lent. The log goes up to its first record that is refused."""
    source = RandomBytes(103)
    for _ in range(150):
        slots, records = some_records(source)
        lent = some_table(source, slots, 3)
        number, entered, table = fill(log_of(*records), lent)
        front = records[:entered]
        expect('all records', (entered == len(records)) == (number == 0), True)
        for weekday in range(7):
            for hour in range(24):
                own = [record for record in front if slot_of(record.time) == (weekday, hour)]
                weights = [weighed(record) for record in own if counted(record)]
                before = cell_at(lent, (weekday, hour))
                after = Cell(before.weights + len(weights), before.refused + sum(record.kind == 3 for record in own),
                             before.sum + sum(weights))
                expect('all records', cell_at(table, (weekday, hour)), after)
                expect('counts and sums', (max(after[:2]) <= 65_535, cell_is_sound(after)), (True, True))
        if number:
            expect('the first refused', enter(records[entered], table), (number, 0, table))


def test_one_by_one(expect):
    """A log is its records entered one after another; a record changes its own cell
    as `add` does, and no other."""
    source = RandomBytes(107)
    for _ in range(150):
        slots, records = some_records(source)
        lent = table = some_table(source, slots, 3)
        entered = 0
        for record in records:
            number, went_in, after = enter(record, table)
            slot = slot_of(record.time)
            grown = add(record, cell_at(table, slot))
            expect('own cell', grown, (0, cell_at(after, slot)) if number == 0 else (number,))
            expect('no other cell', replaced(after, slot, cell_at(table, slot)), table)
            expect('went in', went_in, 1 if number == 0 else 0)
            table, entered = after, entered + went_in
            if number:
                break
        else:
            number = 0
        expect('one by one', fill(log_of(*records), lent), (number, entered, table))
        # in two calls, the second on the table that the first left
        cut = source.below(len(records) + 1)
        number, first, between = fill(log_of(*records[:cut]), lent)
        if number == 0:
            number, second, table = fill(log_of(*records[cut:]), between)
            expect('two calls', (number, first + second, table), fill(log_of(*records), lent))


def test_in_parts(expect):
    """A record into its cell is one weight more by its value, or one refused record
    more, or no change; behind 31 and 11."""
    source = RandomBytes(127)
    cells = [Cell(65_535, 65_535, -3), Cell(65_535, 0, FULL_SUM), Cell(0, 65_535, 0), Cell(0, 0, 5), EMPTY]
    cells += [some_cell(source) for _ in range(40)]
    for cell in cells:
        records = [*GOOD, *(some_good_record(source, ((0, 0), (3, 3))) for _ in range(20))]
        for record in records:
            if counted(record):
                answer = add_weight(weighed(record), cell)
            elif record.kind == 3:
                answer = add_refused(cell)
            else:
                answer = (0, cell) if cell_is_sound(cell) else (31,)
            expect('in parts', add(record, cell), answer)
        expect('in parts', add(BROKEN, cell), (11,) if cell_is_sound(cell) else (31,))


def test_any_order(expect):
    """Values put in one after another: their number and their sum, and the cell is
    sound all the while. A refused one is as if it were not there."""
    source = RandomBytes(131)
    for _ in range(60):
        cell, taken, refusals = EMPTY, [], 0
        for _ in range(source.below(25)):
            worth = source.choice((1, -1)) * (source.number() % 12_000_000_000_000)
            number, *after = add_weight(worth, cell)
            expect('8', number, 8 if worth > 9_999_990_000_000 or worth < -9_999_990_000_000 else 0)
            if number == 0:
                cell, = after
                taken.append(worth)
            if source.one_in(3):
                more = cell._replace(refused=cell.refused + 1)
                expect('one refused more', add_refused(cell), (0, more))
                cell, refusals = more, refusals + 1
            expect('sound', cell_is_sound(cell), True)
        expect('number and sum', cell, (len(taken), refusals, sum(taken)))


def test_means(expect):
    """"a fraction in lowest terms with a positive lower number; sum 0 gives 0 over 1; a
    cell with no weights answers "no readings" and never a zero"."""
    for cell, answer in (((1, 0, 7), (0, 1, 7, 1)), ((2, 0, 7), (0, 1, 7, 2)), ((2, 0, 8), (0, 1, 4, 1)),
                         ((6, 0, 4), (0, 1, 2, 3)), ((6, 0, -4), (0, 1, -2, 3)), ((12, 0, -18), (0, 1, -3, 2)),
                         ((1, 0, 0), (0, 1, 0, 1)), ((24, 5, 0), (0, 1, 0, 1)), ((65_535, 0, 0), (0, 1, 0, 1)),
                         ((5, 0, 5), (0, 1, 1, 1)), ((5, 0, -5), (0, 1, -1, 1)), ((5, 0, 1), (0, 1, 1, 5)),
                         ((65_535, 0, FULL_SUM), (0, 1, 9_999_990_000_000, 1)),
                         ((65_535, 0, -FULL_SUM), (0, 1, -9_999_990_000_000, 1)),
                         ((65_521, 0, 65_520), (0, 1, 65_520, 65_521)), ((65_521, 0, -131_042), (0, 1, -2, 1)),
                         ((32_768, 0, 2 ** 40 + 2 ** 10), (0, 1, 2 ** 30 + 1, 32)),
                         ((0, 0, 0), (0, 0)), ((0, 65_535, 0), (0, 0)),
                         # 8.1 (!) 31 ahead of "no readings"
                         ((0, 0, 5), (31,)), ((0, 0, -1), (31,)), ((0, 9, 5), (31,)), ((1, 0, BEYOND), (31,)),
                         ((1, 0, -BEYOND), (31,)), ((65_535, 0, FULL_SUM + 1), (31,)), ((65_535, 0, -2 ** 63), (31,)),
                         ((0, 0, -2 ** 63), (31,)), ((0, 0, 2 ** 63 - 1), (31,))):
        expect('mean', mean_of(Cell(*cell)), answer)
    # the refused are no part of it
    for refused in (0, 1, 65_535):
        expect('mean', mean_of(Cell(4, refused, 6)), (0, 1, 3, 2))


def test_lowest_terms(expect):
    """Another way to the fraction: the library's, and its greatest common divisor.
    And what lowest terms are: the same fraction, and no divisor in common."""
    source = RandomBytes(109)
    cells = [Cell(weights, 0, total) for weights in range(1, 40) for total in range(-50, 51)]
    cells += [cell for cell in (some_cell(source) for _ in range(1_500)) if cell.weights]
    for cell in cells:
        number, kind, upper, lower = mean_of(cell)
        whole = Fraction(cell.sum, cell.weights)
        expect('lowest terms', (number, kind, upper, lower), (0, 1, whole.numerator, whole.denominator))
        expect('lowest terms', (lower > 0, gcd(upper, lower)), (True, 1))
        expect('the same fraction', upper * cell.weights, cell.sum * lower)
    for weights in range(1, 40):
        for total in range(-50, 51):
            upper, lower = lowest_terms(total, weights)
            common = [factor for factor in range(2, weights + 1) if upper % factor == 0 and lower % factor == 0]
            expect('no divisor in common', common, [])
    for number in (1, 2, 12, 97, 32_768, 65_521, 65_535):
        product = 1
        for factor in prime_factors(number):
            expect('prime', [part for part in range(2, factor) if factor % part == 0], [])
            product *= factor
        expect('prime factors', product, number)


def test_values_lent(expect):
    """Nothing that was lent is changed, and what is drawn for the cases is as it is
    called: records that are good, cells that are sound."""
    lent = with_cell(Cell(1, 2, 3))
    enter(GROSS, lent)
    fill(log_of(*GOOD), lent)
    expect('as lent', lent, with_cell(Cell(1, 2, 3)))
    source = RandomBytes(113)
    for _ in range(300):
        expect('good records', judge_record(some_good_record(source, ((0, 0), (6, 23)))), 0)
        expect('sound cells', cell_is_sound(some_cell(source)), True)


TESTS = (test_slots, test_calendar, test_sound_cells, test_what_counts, test_same_cell, test_unsound_first,
         test_full_counts, test_stays_as_before, test_ends_of_sums, test_one_weight_more, test_one_refused_more,
         test_all_records, test_one_by_one, test_in_parts, test_any_order, test_means, test_lowest_terms,
         test_values_lent)
