"""The weekday and hour table of 02 request 6: cells, and a table filled from a log.

"for each of seven weekdays and 24 hours, the count of settled gross weights
without overload, their signed sum in tenths of a milligram, and the count of
refused records." "The table is seven rows of twenty-four cells, filled from a log
read record by record."

A table is its rows, one for each weekday, Monday first. Cells and tables are
values and are never changed: who grows one has another, and who is refused still
has the one that he lent.
"""

from collections import namedtuple

import log
import weight
from refusals import ACCEPTED, COUNT_FULL, FIELD_WRONG, RECORD_WRONG, SUM_TOO_FAR, refused

WEEKDAYS = 7
HOURS = 24
SECONDS_IN_DAY = 86_400
SECONDS_IN_HOUR = 3_600
HIGHEST_COUNT = 65_535
HEAVIEST = 9_999_990_000_000  # "The largest is 9,999,990,000,000", of the value of a weight

Cell = namedtuple('Cell', 'weights refused sum')
Table = namedtuple('Table', 'rows')
EMPTY = Cell(0, 0, 0)
ONE_REFUSED = Cell(0, 1, 0)
EMPTY_TABLE = Table(((EMPTY,) * HOURS,) * WEEKDAYS)


def slot_of(time):
    """Weekday and hour of a time. "Time 0 of the log is a Monday midnight", and
    Monday is 0 (open point 8.12). A time is any 64-bit number (open point 7.6)."""
    day, second_of_day = divmod(time, SECONDS_IN_DAY)
    return day % WEEKDAYS, second_of_day // SECONDS_IN_HOUR


def cell_at(table, slot):
    weekday, hour = slot
    return table.rows[weekday][hour]


def replaced(table, slot, cell):
    """The table with one other cell."""
    weekday, hour = slot
    row = table.rows[weekday]
    row = row[:hour] + (cell,) + row[hour + 1:]
    return Table(table.rows[:weekday] + (row,) + table.rows[weekday + 1:])


def cells_told(table):
    """(weekday, hour, cell) of those that are not empty, in their order."""
    return [(weekday, hour, cell) for weekday, row in enumerate(table.rows)
            for hour, cell in enumerate(row) if cell != EMPTY]


def cell_is_sound(cell):
    """No 31: "a lent cell whose sum, sign aside, is beyond its count times
    9,999,990,000,000". Equality is good (open point 8.1). The count is that of
    the weights: refused records have no sum."""
    return abs(cell.sum) <= cell.weights * HEAVIEST


def table_is_sound(table):
    """31 is for any of the 168 cells (open point 8.1)."""
    return all(cell_is_sound(cell) for row in table.rows for cell in row)


def one_weight(value):
    return Cell(1, 0, value)


def share_of(record):
    """What a good record brings to its cell: one settled gross weight without
    overload and its value; or one refused record, whatever its status (open point
    8.5); or nothing. So it never asks the value of an overloaded weight, which would
    be refused (open point 6.7), and no table meets 24."""
    if record.kind == log.KIND_REFUSED:
        return ONE_REFUSED
    _, reading = log.weight_noted(record)
    if record.kind == log.KIND_GROSS and reading.settled and not reading.overload:
        return one_weight(weight.value(reading)[1])
    return EMPTY


def passes(count, more):
    """"23 when a count would pass 65,535": only one that is to grow (open points
    8.2 and 8.3)."""
    return more > 0 and count + more > HIGHEST_COUNT


def grown(cell, share):
    """A sound cell and what one record brings to it: (0, cell) or (23,)."""
    if passes(cell.weights, share.weights) or passes(cell.refused, share.refused):
        return refused(COUNT_FULL)
    return (ACCEPTED, Cell(cell.weights + share.weights, cell.refused + share.refused, cell.sum + share.sum))


def add_weight(value, cell):
    """One weight more in a lent cell, by its value in tenths of a milligram: (0, cell)
    or (number,). The order is 31, 8, 23: 8 is for a value that no weight has, "The
    largest is 9,999,990,000,000"."""
    if not cell_is_sound(cell):
        return refused(SUM_TOO_FAR)
    if abs(value) > HEAVIEST:
        return refused(FIELD_WRONG)
    return grown(cell, one_weight(value))


def add_refused(cell):
    """One refused record more in a lent cell: (0, cell) or (number,). The order is
    31, 23."""
    if not cell_is_sound(cell):
        return refused(SUM_TOO_FAR)
    return grown(cell, ONE_REFUSED)


def add(record, cell):
    """One record into the cell that is lent as its own: (0, cell) or (number,).
    The order is 31, 11, 23."""
    if not cell_is_sound(cell):
        return refused(SUM_TOO_FAR)
    if log.judge_record(record) != ACCEPTED:
        return refused(RECORD_WRONG)
    return grown(cell, share_of(record))


def table_grown(table, record):
    """A sound table with a good record in it: (0, table), or (23, the same table)."""
    slot = slot_of(record.time)
    number, *cell = grown(cell_at(table, slot), share_of(record))
    return (number, replaced(table, slot, *cell)) if number == ACCEPTED else (number, table)


def enter(record, table):
    """One record into a table: (number, how many went in, table). "in all of these
    the table stays as before that record"."""
    if not table_is_sound(table):
        return (SUM_TOO_FAR, 0, table)
    if log.judge_record(record) != ACCEPTED:
        return (RECORD_WRONG, 0, table)
    number, table = table_grown(table, record)
    return (number, 1 if number == ACCEPTED else 0, table)


def fill(lent_log, table):
    """A log into a table: (number, how many records went in, table). 31 is judged
    first, "for an empty log too" (open point 8.1). Then it goes record by record
    from the front, "10 and 11 as the log gives them" (open point 7.1), up to the
    first refusal. "Earlier records of the same call stay in" (open point 8.4)."""
    if not table_is_sound(table):
        return (SUM_TOO_FAR, 0, table)
    entered, place = 0, 0
    while True:
        number, *met = log.step(lent_log, place)
        if number == 'end':
            return (ACCEPTED, entered, table)
        if number != ACCEPTED:
            return (number, entered, table)
        record, place = met
        number, table = table_grown(table, record)
        if number != ACCEPTED:
            return (number, entered, table)
        entered += 1
