"""Cases of the weekday and hour table: slots of times, cells, and one record into a cell or a table."""

from addresses import HIGH
from cases_log import family_changes
import cases_table_fill
import cases_table_grow
import cases_table_mean
import families
from families_asked import MINUS, SETTLED
from hour_table import EMPTY, EMPTY_TABLE, Cell, add, cell_is_sound, enter, slot_of
from random_bytes import RandomBytes
from tables_asked import (BESIDE, BROKEN, DAY, GOOD, GROSS, HEAVY, HOUR, IDLE, LAST_SLOT, LAST_TIME, LAST_WEEK,
                          LEAST, LENT, NET, OWN, REFUSED, SLOTS, TOO_WIDE, UNSOUND, WEEK, at, edge_cells,
                          every_cell_told, full_cells, some_cell, some_good_record, some_slots, some_table, table_of,
                          time_of)

# Where a time is cut to 32 or taken as signed 64 bits it changes here.
ROUND_TIMES = (2 ** 16, 2 ** 31, 2 ** 32, 2 ** 53, 2 ** 63, 2 ** 64)


def times(source):
    """Every hour of a week at its first and last second; in the middle of an hour,
    some weeks later; at its last second in the last whole week; around the turns of
    hours, days and weeks near the round numbers; every power of two; and times by
    chance."""
    for place, slot in enumerate(SLOTS):
        yield time_of(slot)
        yield time_of(slot, HOUR - 1)
        yield time_of(slot, 1_800, 1 + place)
        yield time_of(slot, HOUR - 1, LAST_WEEK)
    for near in ROUND_TIMES:
        for unit in (1, HOUR, DAY, WEEK):
            turn = near // unit * unit
            yield from (time for time in (turn - 1, turn, turn + 1) if 0 <= time <= LAST_TIME)
    for power in range(64):
        yield from (2 ** power - 1, 2 ** power)
    yield from (LAST_TIME - 1, LAST_TIME)
    for _ in range(60):
        yield source.number() >> source.below(64)


def slot_cases(source):
    for time in times(source):
        yield ('slot_of', (time,), slot_of(time))


def sound_cases(source):
    cells = [EMPTY, LENT, *edge_cells(), *UNSOUND, *full_cells()]
    cells += [some_cell(source) for _ in range(60)]
    cells += [Cell(count, 0, sign * (count * 9_999_990_000_000 + step)) for count in (3, 255, 256, 32_767, 32_768)
              for sign in (1, -1) for step in (0, 1)]
    # a count by chance with the sum of its neighbour's end
    for _ in range(40):
        weights = source.below(65_535)
        cells.append(Cell(weights, source.below(65_536), source.choice((1, -1)) * (weights + 1) * 9_999_990_000_000))
    for cell in cells:
        yield ('cell_is_sound', (cell,), (cell_is_sound(cell),))


def every_status():
    """Every CON of gross, and every status of kind 3; at both ends of the point every
    CON of gross in every family, and of net in some."""
    for status in range(256):
        yield GROSS._replace(status=status, family=families.PLAIN)
        yield REFUSED._replace(status=status)
        if status & 7 in (0, 7):
            yield from (GROSS._replace(status=status, family=family) for family in families.ALL[1:])
            yield from (NET._replace(status=status, family=family) for family in (families.OF_001, families.OF_002))


def every_value():
    """Numbers at and between their ends with every point and both signs."""
    for digits in (b'\x00\x00\x00', b'\x01\x00\x00', b'\x56\x34\x12', b'\x00\x00\x90', b'\x99\x99\x99'):
        for point in range(8):
            for minus in (0, MINUS):
                yield GROSS._replace(weight=digits, status=SETTLED | minus | point)


def from_every_address():
    for record in (GROSS, NET):
        for first in HIGH:
            yield record._replace(address=first)


def cells_to_add(source):
    """(record, cell): every record of interest in a cell, every cell of interest
    with a record of each sort."""
    for group in (every_status, every_value, family_changes, from_every_address):
        yield from ((record, LENT) for record in group())
    for record in GOOD + BROKEN + TOO_WIDE:
        for cell in (EMPTY, Cell(65_535, 65_535, 0), Cell(1, 1, 9_999_990_000_001)):
            yield record, cell
    for cell in full_cells():
        yield from ((record, cell) for record in GOOD)
    for cell in edge_cells():
        yield from ((record, cell) for record in (HEAVY, LEAST))
    for cell in UNSOUND:
        yield from ((record, cell) for record in (GROSS, NET, REFUSED, BROKEN[0]))
    for _ in range(120):
        yield some_good_record(source, SLOTS), some_cell(source)


def add_cases(source):
    for record, cell in cells_to_add(source):
        yield ('add_to_cell', (record, cell), add(record, cell))


def each_slot():
    """(record, table): each cell is a record's own, first and last second, this week
    and later; and each cell is unsound, beside the record's own."""
    for place, slot in enumerate(SLOTS):
        yield GROSS._replace(time=time_of(slot)), EMPTY_TABLE
        yield REFUSED._replace(time=time_of(slot, 3_599, 52 + place)), table_of({slot: LENT, OWN: Cell(1, 0, 0)})
        yield at(SLOTS[place - 1], GOOD[place % len(GOOD)]), table_of({slot: UNSOUND[place % len(UNSOUND)]})


def near_full():
    """(record, table): the record's own cell, or another, is at or ahead of the end
    of its counts."""
    for cell in full_cells():
        yield from ((record, table_of({OWN: cell})) for record in (GROSS, HEAVY, LEAST, REFUSED, *IDLE, BROKEN[0]))
    for slot in BESIDE:
        lent = table_of({slot: Cell(65_535, 65_535, 0), OWN: LENT})
        yield from ((record, lent) for record in (GROSS, NET, REFUSED, BROKEN[0]))


def in_order():
    """(record, table): 31 ahead of 11, and 11 ahead of 23."""
    for record in BROKEN + TOO_WIDE:
        yield record, EMPTY_TABLE
        yield record, table_of({OWN: Cell(65_535, 65_535, 12)})
        yield record, table_of({OWN: Cell(65_535, 65_535, 12), LAST_SLOT: UNSOUND[0]})
    for cell in UNSOUND:
        for slot in (OWN, *BESIDE):
            yield GROSS, table_of({OWN: Cell(65_535, 0, 12), slot: cell})


def all_cells_told():
    """(record, table) of a table with no empty cell."""
    lent = every_cell_told()
    for record in (GROSS, at((0, 0), HEAVY), at((6, 23), LEAST), at((6, 0), REFUSED), NET, BROKEN[0]):
        yield record, lent


def edge_tables():
    """(record, table): the record's own cell at and past the ends of its sum."""
    for cell in edge_cells():
        yield from ((record, table_of({OWN: cell, LAST_SLOT: LENT})) for record in (HEAVY, LEAST))


def some_entries(source):
    for _ in range(100):
        slots = some_slots(source)
        record = some_good_record(source, slots)
        if source.one_in(6):
            record = source.choice(BROKEN)
        yield record, some_table(source, slots, 5)


def enter_cases(source):
    entries = [*each_slot(), *near_full(), *in_order(), *all_cells_told(), *edge_tables()]
    several = [*family_changes(), *from_every_address(), *(REFUSED._replace(status=status) for status in range(1, 9))]
    entries += [(record, table_of({OWN: LENT})) for record in several]
    entries += [(GROSS._replace(time=time), EMPTY_TABLE) for near in ROUND_TIMES for time in (near - 1, near)
                if time <= LAST_TIME]
    for record, table in entries + list(some_entries(source)):
        yield ('enter_table', (record, table), enter(record, table))


def cases():
    source = RandomBytes(97)
    for group in (slot_cases, sound_cases, add_cases, enter_cases):
        yield from group(source)
    yield from cases_table_fill.cases(source)
    yield from cases_table_mean.cases(source)
    yield from cases_table_grow.cases(source)
