"""Times, records, cells and tables of interest, for the cases of the weekday and hour table.

Which records count in a cell, and which cells and records are refused, stands in
`hour_table.py` and `log.py` and nowhere here.
"""

from cases_log import record_bytes, some_record
import families
from families_asked import MINUS, OVERLOAD, SETTLED
from hour_table import EMPTY_TABLE, HEAVIEST, HIGHEST_COUNT, HOURS, WEEKDAYS, Cell, replaced
from log import NO_FAMILY, NO_WEIGHT, Record

HOUR, DAY, WEEK = 3_600, 86_400, 604_800  # seconds
LAST_TIME = 2 ** 64 - 1
LAST_WEEK = LAST_TIME // WEEK - 1  # the last that is whole
SLOTS = tuple((weekday, hour) for weekday in range(WEEKDAYS) for hour in range(HOURS))
FIRST_SLOT, LAST_SLOT = SLOTS[0], SLOTS[-1]
OWN = (2, 9)                                    # of the records below: a Wednesday, from nine o'clock on
BESIDE = ((2, 8), (2, 10), (1, 9), (3, 9), FIRST_SLOT, LAST_SLOT)
LOWEST_SUM, HIGHEST_SUM = -2 ** 63, 2 ** 63 - 1
NEARLY_FULL = (HIGHEST_COUNT - 2, HIGHEST_COUNT - 1, HIGHEST_COUNT)
END_COUNTS = (0, 1, 2, HIGHEST_COUNT - 1, HIGHEST_COUNT)
LENT = Cell(7, 9, -1_000_000_000_000)           # a cell with nothing special about it


def time_of(slot, second=0, week=0):
    """A time that falls into a slot, by counting up."""
    weekday, hour = slot
    return week * WEEK + weekday * DAY + hour * HOUR + second


# 25.1 kg, the sum grows by 251,000,000.
GROSS = Record(time_of(OWN, 1_234), 1, 1, 0, SETTLED | 1, b'\x51\x02\x00', families.OF_002)
NEGATIVE = GROSS._replace(status=SETTLED | MINUS | 1)
HEAVY = GROSS._replace(status=SETTLED, weight=b'\x99\x99\x99')
LEAST = GROSS._replace(status=SETTLED | MINUS, weight=b'\x99\x99\x99')
ZERO = GROSS._replace(weight=NO_WEIGHT)
MINUS_ZERO = ZERO._replace(status=SETTLED | MINUS | 7)
FROM_SERIAL = GROSS._replace(address=0, serial=0xFFFFFF, family=families.OF_001, status=SETTLED | 0x60 | 1)
NET = GROSS._replace(kind=2)
UNSETTLED = GROSS._replace(status=1)
OVERLOADED = GROSS._replace(status=SETTLED | OVERLOAD | 1)
BOTH = HEAVY._replace(status=OVERLOAD)          # unsettled and overloaded
REFUSED = Record(time_of(OWN, 1_234), 3, 0, 0, 4, NO_WEIGHT, NO_FAMILY)
GROWING = (GROSS, NEGATIVE, HEAVY, LEAST, ZERO, MINUS_ZERO, FROM_SERIAL)
IDLE = (NET, NET._replace(status=1), UNSETTLED, OVERLOADED, BOTH)
GOOD = GROWING + IDLE + (REFUSED,)

# Records that are 11, most of them by one rule, and would count otherwise.
BROKEN = tuple(GROSS._replace(kind=kind) for kind in (0, 3, 4, 255)) \
    + tuple(GROSS._replace(weight=digits) for digits in (b'\x5a\x02\x00', b'\x51\xa2\x00', b'\x51\x02\x0f')) \
    + tuple(GROSS._replace(address=address) for address in (0xFE, 0xFF)) \
    + tuple(GROSS._replace(family=family) for family in (4, 255)) \
    + (GROSS._replace(serial=1), GROSS._replace(status=GROSS.status | 0x40), NET._replace(family=4),
       UNSETTLED._replace(serial=255), OVERLOADED._replace(weight=b'\xff\xff\xff')) \
    + tuple(REFUSED._replace(status=status) for status in (0, 9, 10, 11, 12, *range(20, 27), 31, 255)) \
    + (REFUSED._replace(address=1), REFUSED._replace(serial=1), REFUSED._replace(family=1)) \
    + tuple(REFUSED._replace(weight=digits) for digits in (b'\x01\x00\x00', b'\x00\x01\x00', b'\x00\x00\x01'))
TOO_WIDE = (GROSS._replace(serial=0x1000000), FROM_SERIAL._replace(serial=2 ** 32 - 1))  # in no 20 bytes


def last_bytes_marked():
    """Records whose bytes 18 and 19 are not zero."""
    for record in (GROSS, NET, REFUSED):
        for place in (18, 19):
            twenty = bytearray(record_bytes(record))
            twenty[place] = 1
            yield bytes(twenty)


BROKEN_BYTES = tuple(map(record_bytes, BROKEN)) + tuple(last_bytes_marked())


def log_of(*records):
    return b''.join(map(record_bytes, records))


def at(slot, record):
    """The same record at another time."""
    return record._replace(time=time_of(slot, 3_599))


def sums_around(count):
    """Both ends of the sums that a count may have, one less, one beyond; and 0."""
    end = count * HEAVIEST
    return tuple(sorted({sign * (end + step) for sign in (1, -1) for step in (-1, 0, 1)} | {0}))


def edge_cells():
    """Sums at and past their ends, for counts at and between theirs; the ends of 64
    bits, also where the count is full; no count of refused records helps."""
    for count in END_COUNTS:
        for refused in (0, HIGHEST_COUNT):
            yield from (Cell(count, refused, total) for total in sums_around(count))
        yield from (Cell(count, 1, total) for total in (LOWEST_SUM, LOWEST_SUM + 1, HIGHEST_SUM, 5, -5))


UNSOUND = tuple(Cell(0, 0, total) for total in (5, -1, HIGHEST_SUM, LOWEST_SUM)) + (
    Cell(0, HIGHEST_COUNT, 1), Cell(1, 0, HEAVIEST + 1), Cell(1, 7, -HEAVIEST - 1),
    Cell(HIGHEST_COUNT, HIGHEST_COUNT, HIGHEST_COUNT * HEAVIEST + 1),
    Cell(HIGHEST_COUNT, 0, -HIGHEST_COUNT * HEAVIEST - 1), Cell(HIGHEST_COUNT, 0, LOWEST_SUM))


def full_cells():
    """Both counts at and ahead of their end, each with each."""
    for weights in NEARLY_FULL:
        for refused in NEARLY_FULL:
            yield Cell(weights, refused, -weights * 1_000)


def table_of(cells):
    """The table that has these cells, by their slots, and is empty otherwise."""
    table = EMPTY_TABLE
    for slot, cell in cells.items():
        table = replaced(table, slot, cell)
    return table


def every_cell_told():
    """A table with no empty cell, and no two alike."""
    return table_of({slot: Cell(place + 1, 200 - place, (-1) ** place * (place + 1) * HEAVIEST)
                     for place, slot in enumerate(SLOTS)})


def some_sum(source, weights):
    """That this many weights may have."""
    end = weights * HEAVIEST
    total = source.choice((0, end, end - source.below(weights + 1), source.number() % (end + 1)))
    return total * source.choice((1, -1))


def some_count(source):
    """Small, of any size, or nearly full."""
    return source.choice((0, source.below(4), source.below(HIGHEST_COUNT + 1), source.choice(NEARLY_FULL)))


def some_cell(source):
    weights = some_count(source)
    return Cell(weights, some_count(source), some_sum(source, weights))


def some_table(source, slots, most):
    """At most so many cells, in these slots or beside them."""
    chosen = [source.choice(slots) if source.below(3) else source.choice(SLOTS) for _ in range(source.below(most + 1))]
    return table_of({slot: some_cell(source) for slot in chosen})


def some_slots(source):
    """A few, so that the records of a log meet."""
    return tuple(source.choice(SLOTS) for _ in range(source.between(1, 4)))


def some_good_record(source, slots):
    """A record that breaks no rule, in one of the slots; half of the weights settled
    and without overload."""
    record = some_record(source)
    time = time_of(source.choice(slots), source.below(HOUR), source.choice((0, 1, source.number() % LAST_WEEK)))
    if record.kind == 3:
        return record._replace(time=time)
    status = record.status & ~0x40 if record.family == families.OF_002 else record.status
    if source.below(2):
        status = status & ~OVERLOAD | SETTLED
    return record._replace(time=time, status=status, kind=source.choice((1, 1, 2)))
