"""Cases of a log filled into a weekday and hour table."""

from addresses import HIGH
from cases_log import family_changes, record_bytes
from hour_table import EMPTY_TABLE, Cell, fill
from overloads_asked import overloaded_weights
from tables_asked import (BESIDE, BROKEN_BYTES, END_COUNTS, FIRST_SLOT, GOOD, GROSS, GROWING, HEAVIEST, HEAVY, IDLE,
                          LAST_SLOT, LAST_TIME, LEAST, LENT, MINUS_ZERO, NEARLY_FULL, NEGATIVE, NET, OVERLOADED, OWN,
                          REFUSED, SLOTS, UNSETTLED, UNSOUND, ZERO, at, every_cell_told, log_of, some_cell,
                          some_good_record, some_slots, some_table, sums_around, table_of, time_of)

LONGEST_LOG = 204  # records in a text of 4,096 bytes
WHOLE = log_of(GROSS, REFUSED, NET)
BAD = BROKEN_BYTES[0]                                  # a gross weight of kind 0
BAD_REFUSAL = record_bytes(REFUSED._replace(status=0))
BAD_LAST_BYTE = BROKEN_BYTES[-1]
# What a log can give: nothing, records, 10 and 11 behind them, 11 ahead of them, 10 alone.
LOGS = (b'', WHOLE, WHOLE + b'\x01', WHOLE + BAD, BAD + WHOLE, BAD[:19])


def weeks(source):
    """(log, table): a record in each hour of a week, in order, backwards and mixed."""
    grosses = [GROSS._replace(time=time_of(slot, 59)) for slot in SLOTS]
    refusals = [REFUSED._replace(time=time_of(slot, 3_599, 9)) for slot in SLOTS]
    all_sorts = [GOOD[place % len(GOOD)]._replace(time=time_of(slot, 7, place)) for place, slot in enumerate(SLOTS)]
    mixed = list(all_sorts)
    for place in range(len(mixed)):
        other = source.below(len(mixed))
        mixed[place], mixed[other] = mixed[other], mixed[place]
    for records in (grosses, refusals, all_sorts, mixed, grosses[::-1]):
        yield log_of(*records), EMPTY_TABLE
    for records in (all_sorts, refusals):
        yield log_of(*records), every_cell_told()
    yield log_of(*grosses) + BAD, EMPTY_TABLE
    yield log_of(GROSS, REFUSED) + BAD, every_cell_told()
    yield log_of(*grosses, REFUSED) + b'\x00', table_of({OWN: LENT})


def longest_logs(source):
    records = [some_good_record(source, SLOTS) for _ in range(LONGEST_LOG)]
    yield log_of(*records), EMPTY_TABLE
    yield log_of(*records) + bytes(16), EMPTY_TABLE
    yield log_of(*[GROSS] * LONGEST_LOG), table_of({OWN: LENT})
    yield log_of(*[LEAST] * LONGEST_LOG), table_of({OWN: Cell(65_400, 0, -65_400 * HEAVIEST)})
    yield log_of(*[REFUSED] * LONGEST_LOG), table_of({OWN: Cell(0, 65_331, 0)})
    yield log_of(*[REFUSED] * LONGEST_LOG), table_of({OWN: Cell(0, 65_332, 0)})


def empty_logs():
    """No record: nothing changes, and 31 is judged all the same."""
    yield b'', EMPTY_TABLE
    yield b'', table_of({OWN: LENT})
    yield b'', every_cell_told()
    yield b'', table_of({OWN: Cell(65_535, 65_535, 0)})
    for cell in UNSOUND:
        for slot in (FIRST_SLOT, OWN, LAST_SLOT):
            yield b'', table_of({slot: cell})


def unsound_tables():
    """31 in each cell, whatever the log gives; in the first and the last, and
    beside others, with each log."""
    for place, slot in enumerate(SLOTS):
        yield LOGS[place % len(LOGS)], table_of({slot: UNSOUND[place % len(UNSOUND)]})
    for slot in (OWN, *BESIDE):
        for log in LOGS + (log_of(GROSS, GROSS),):
            yield log, table_of({OWN: Cell(65_535, 0, 0), slot: Cell(2, 0, 2 * HEAVIEST + 1)})


def cut_logs():
    """Every length of the last record, behind none to three: 10, and what stands
    ahead of it is in."""
    for count in range(4):
        whole = log_of(*(GROSS, REFUSED, LEAST, NET)[:count + 1])
        for cut in range(20):
            yield whole[:len(whole) - cut], EMPTY_TABLE
    for cut in range(20):
        yield (BAD * 2)[:40 - cut], table_of({OWN: LENT})  # 11 at the front, whatever is cut behind


def broken_logs():
    """Each broken record at the front, in the middle and at the end; and ahead of
    bytes left over: 11 comes first (open point 7.1)."""
    for bad in BROKEN_BYTES:
        yield bad + log_of(GROSS, REFUSED), EMPTY_TABLE
        yield log_of(GROSS, HEAVY) + bad + log_of(REFUSED, GROSS), table_of({OWN: LENT})
        yield log_of(REFUSED, NEGATIVE) + bad, EMPTY_TABLE
        yield log_of(GROSS) + bad + b'\x01\x02\x03', EMPTY_TABLE


def filled_up():
    """Counts at and ahead of their end, with logs that pass it and logs that do not:
    up to four that grow, those that change nothing, and those of the other count."""
    for count in NEARLY_FULL:
        for record, cell in ((GROSS, Cell(count, 3, 0)), (REFUSED, Cell(3, count, 0)), (GROSS, Cell(3, count, 0)),
                             (REFUSED, Cell(count, 3, 0)), (HEAVY, Cell(count, count, count * HEAVIEST)),
                             (LEAST, Cell(count, 0, -count * HEAVIEST)), (ZERO, Cell(count, 65_535, 4)),
                             (MINUS_ZERO, Cell(count, 65_535, -4))):
            for times in range(1, 5):
                yield log_of(*[record] * times), table_of({OWN: cell})
        for cell in (Cell(count, 0, 0), Cell(0, count, 0), Cell(count, count, 77)):
            yield log_of(*IDLE), table_of({OWN: cell})
            yield log_of(*IDLE, GROSS, REFUSED, *IDLE, GROSS, REFUSED), table_of({OWN: cell})
            yield log_of(REFUSED, *IDLE, GROSS, REFUSED, GROSS), table_of({OWN: cell})
        for slot in BESIDE:  # another cell is full: only its own records meet that
            lent = table_of({slot: Cell(count, count, 5), OWN: Cell(1, 1, 1)})
            yield log_of(GROSS, REFUSED, at(slot, GROSS), at(slot, REFUSED), GROSS, at(slot, NEGATIVE)), lent


def overloaded_logs():
    """Overloaded gross records ahead of one that counts: they change nothing, however
    full their cell is (open points 6.7 and 8.3)."""
    records = [GROSS._replace(status=four[3], weight=four[:3], family=family) for family, four in overloaded_weights()]
    for cell in (LENT, Cell(65_534, 65_535, 9), Cell(65_535, 65_535, 9)):
        for front in (records, records[::-1]):
            yield log_of(*front), table_of({OWN: cell})
            yield log_of(*front, GROSS, *front, GROSS), table_of({OWN: cell})


def first_refusals():
    """10, 11 and 23 in one log: the first from the front is the answer."""
    full = table_of({OWN: Cell(65_535, 65_535, 9)})
    nearly = table_of({OWN: Cell(65_534, 65_534, 9)})
    refusing = (log_of(GROSS), log_of(REFUSED), BAD, BAD_REFUSAL, BAD_LAST_BYTE)  # 23, 23, 11, 11, 11
    elsewhere = log_of(at(FIRST_SLOT, GROSS), NET)
    for first in refusing:
        for second in refusing:
            for lent in (full, nearly):
                yield elsewhere + first + elsewhere + second, lent
        yield first + b'\x03', full
        yield elsewhere + first + elsewhere + b'\x03', nearly


def filled_further(source):
    """A log in two calls, the second on the table that the first left; and at once."""
    for _ in range(30):
        slots = some_slots(source)
        lent = some_table(source, slots, 3)
        first, second = (log_of(*[some_good_record(source, slots) for _ in range(source.between(1, 5))])
                         for _ in range(2))
        _, _, after = fill(first, lent)
        yield first, lent
        yield second, after
        yield first + second, lent


def sums_at_ends():
    """The heaviest weights of both signs, to cells at and past both ends."""
    for count in END_COUNTS:
        for total in sums_around(count):
            lent = table_of({OWN: Cell(count, 1, total)})
            for log in (log_of(HEAVY), log_of(LEAST), log_of(HEAVY, LEAST, LEAST, HEAVY)):
                yield log, lent


def times_apart():
    """Far times, times that go back, and both sides of every midnight."""
    far = (0, 2 ** 31, 2 ** 32 - 1, 2 ** 32, 2 ** 63 - 1, 2 ** 63, LAST_TIME)
    for times in (far, far[::-1], (LAST_TIME, 0), (3_599, 3_600), (604_799, 604_800)):
        for record in (GROSS, LEAST, REFUSED, NET):
            yield log_of(*[record._replace(time=time) for time in times]), EMPTY_TABLE
    turns = [day * 86_400 + step for day in range(1, 8) for step in (-1, 0)]
    yield log_of(*[HEAVY._replace(time=time) for time in turns]), table_of({LAST_SLOT: LENT})


def every_sort():
    """Each good record alone and between others; each address, byte 17 and bits 6
    and 5 of interest. They all "fall into the same cell" (open point 8.12)."""
    for record in GOOD:
        yield log_of(record), EMPTY_TABLE
        yield log_of(record, record), table_of({OWN: LENT})
        yield log_of(GROSS, record, REFUSED), table_of({OWN: LENT})
    for record in family_changes():
        yield log_of(GROSS) + record_bytes(record) + log_of(UNSETTLED, GROSS), EMPTY_TABLE
    for base in (GROSS, NET, OVERLOADED):
        for first in HIGH:
            yield log_of(base._replace(address=first), GROSS), EMPTY_TABLE
    yield log_of(*GROWING), table_of({OWN: LENT})


def some_log(source, slots):
    """Mostly good records; one log in six has a broken one, or a byte changed, or
    bytes left over."""
    parts = [record_bytes(some_good_record(source, slots)) for _ in range(source.between(1, 12))]
    if source.one_in(6):
        parts.insert(source.below(len(parts) + 1), source.choice(BROKEN_BYTES))
    lent_log = bytearray(b''.join(parts))
    if source.one_in(6):
        lent_log[source.below(len(lent_log))] = source.byte()
    if source.one_in(6):
        lent_log += source.bytes(source.between(1, 19))
    return bytes(lent_log)


def some_fillings(source):
    for _ in range(400):
        slots = some_slots(source)
        yield some_log(source, slots), some_table(source, slots, 4)
    for _ in range(10):
        yield some_log(source, SLOTS), table_of({slot: some_cell(source) for slot in SLOTS})
    for _ in range(20):
        yield source.bytes(source.between(1, 60)), EMPTY_TABLE


def cases(source):
    fillings = [*empty_logs(), *unsound_tables(), *cut_logs(), *broken_logs(), *filled_up(), *overloaded_logs(),
                *first_refusals(), *sums_at_ends(), *times_apart(), *every_sort()]
    for group in (weeks, longest_logs, filled_further, some_fillings):
        fillings += group(source)
    for log, table in fillings:
        yield ('fill_table', (log, table), fill(log, table))
