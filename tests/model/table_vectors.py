"""The cases of the weekday and hour table as the program `crates/table_vectors` reads and answers them.

Cases and answers have the form of `vectors.py`. `RUN` is the one list of what
this program runs. README.md has the layouts.
"""

import cases_table
import vectors as form
from hour_table import cells_told
from parcel_vectors import LONGS, long_bits
from vectors import Layout, as_it_is, numbers_alone, or_refused

NO_WRITER = 256  # past every function's number: none of them is lent room


def record(of):
    """The numbers of a record, as `vectors` has them."""
    _, numbers = form.record(*of)
    return numbers


def cell(of):
    """Weights 2, refused 2, sum 8 in two's complement."""
    return form.half(of.weights) + form.half(of.refused) + form.long(of.sum % LONGS)


def table(of):
    """How many cells are told, and each with its weekday and its hour; the others
    are empty."""
    told = cells_told(of)
    return bytes([len(told)]) + b''.join(bytes(slot) + cell(held) for *slot, held in told)


def record_and_cell(entered, held):
    return numbers_alone(record(entered), cell(held))


def value_and_cell(value, held):
    """The value 8 in two's complement, and the cell."""
    return numbers_alone(form.long(value % LONGS), cell(held))


def record_and_table(entered, lent):
    return numbers_alone(record(entered), table(lent))


def cell_told(of):
    return of.weights, of.refused, long_bits(of.sum)


def table_told(number, entered, after):
    """The refusal or 0, how many records went in, how many cells are not empty, and
    these."""
    told = cells_told(after)
    return number, entered, len(told), [(slot, cell_told(held)) for *slot, held in told]


def mean_told(kind, *fraction):
    """0 for no readings; or 1, and both numbers of the fraction as 64 bits."""
    return kind, [long_bits(number) for number in fraction]


TABLE_RUN = {
    'slot_of': [Layout(1, lambda time: numbers_alone(form.long(time)), as_it_is)],
    'cell_is_sound': [Layout(2, lambda held: numbers_alone(cell(held)), as_it_is)],
    # `hour_cell::counts_as`, then `add_weight` or `add_refused`
    'add_to_cell': [Layout(3, record_and_cell, or_refused(cell_told))],
    'enter_table': [Layout(4, record_and_table, table_told)],
    'fill_table': [Layout(5, lambda log, lent: (log, table(lent)), table_told)],
    'mean_of': [Layout(6, lambda held: numbers_alone(cell(held)), or_refused(mean_told))],
    'add_weight': [Layout(7, value_and_cell, or_refused(cell_told))],
    'add_refused': [Layout(8, lambda held: numbers_alone(cell(held)), or_refused(cell_told))],
}

RUN = ((cases_table.cases, TABLE_RUN),)


def vectors():
    """Every case that is run, with what the program reads and its line."""
    return form.vectors(RUN, NO_WRITER)
