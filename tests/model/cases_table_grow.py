"""Cases of one weight more in a cell, by its value, and of one refused record more."""

from hour_table import EMPTY, HEAVIEST, HIGHEST_COUNT, Cell, add_refused, add_weight
from tables_asked import (HIGHEST_SUM, LENT, LOWEST_SUM, NEARLY_FULL, UNSOUND, edge_cells, full_cells, some_cell,
                          sums_around)

COUNTS = (0, 1, 2) + NEARLY_FULL
REFUSED_COUNTS = (0, HIGHEST_COUNT, 1)
TOO_FAR = tuple(sign * (HEAVIEST + 1) for sign in (1, -1)) + (2 ** 62, -2 ** 62, HIGHEST_SUM, LOWEST_SUM)
VALUES = (0, 1, -1) + tuple(sign * (HEAVIEST - step) for sign in (1, -1) for step in (0, 1)) + TOO_FAR


def cells_at_ends():
    """Each count with the sums around both of its ends, and the ends of 64 bits. The
    refused are none, one or full by turns."""
    for count in COUNTS:
        for place, total in enumerate(sums_around(count) + (LOWEST_SUM, HIGHEST_SUM)):
            yield Cell(count, REFUSED_COUNTS[(place + count) % 3], total)


def counts_at_ends():
    """Each count of weights with each of refused, with sum 0, at both ends and one
    beyond."""
    for weights in COUNTS:
        for place, refused in enumerate(COUNTS):
            end = (-1) ** place * weights * HEAVIEST
            yield from (Cell(weights, refused, total) for total in (0, end, -end, end + (-1) ** place))


def powers():
    """Every power of two, plus and minus by turns, and the heaviest weight with a
    further bit: where a value is cut to fewer bits it changes here."""
    for power in range(63):
        yield (-1) ** power * 2 ** power
    for power in (16, 31, 32, 44, 48, 53, 62):
        yield HEAVIEST + 2 ** power
        yield -HEAVIEST - 2 ** power


def some_value(source):
    """Mostly one that a weight may have: of any size, near an end, or just past it."""
    size = source.choice((source.number() % (HEAVIEST + 1), source.number() % (HEAVIEST + 1) >> source.below(44),
                          HEAVIEST - source.below(10), HEAVIEST + 1 + source.below(10), source.number() >> 1))
    return source.choice((1, -1)) * size


def some_lent_cell(source):
    """A sound cell, or one in eight with a sum by chance."""
    cell = some_cell(source)
    return cell._replace(sum=source.number() - 2 ** 63) if source.one_in(8) else cell


def weights_to_add(source):
    """(value, cell): every value with every cell at its ends; each count nearly full
    with each; cells that are 31; every size of a value; and by chance."""
    for cell in (EMPTY, LENT, *cells_at_ends()):
        yield from ((value, cell) for value in VALUES)
    for cell in full_cells():
        yield from ((value, cell) for value in (251_000_000, HEAVIEST, -HEAVIEST, HEAVIEST + 1))
    for cell in UNSOUND:
        yield from ((value, cell) for value in (-251_000_000, -HEAVIEST - 1))
    yield from ((value, LENT) for value in powers())
    for _ in range(100):
        yield some_value(source), some_lent_cell(source)


def weight_cases(source):
    for value, cell in dict.fromkeys(weights_to_add(source)):  # each once
        yield ('add_weight', (value, cell), add_weight(value, cell))


def refused_cases(source):
    cells = [EMPTY, LENT, *counts_at_ends(), *cells_at_ends(), *edge_cells(), *UNSOUND, *full_cells()]
    cells += [some_lent_cell(source) for _ in range(80)]
    cells += [some_cell(source)._replace(refused=HIGHEST_COUNT) for _ in range(20)]
    for cell in dict.fromkeys(cells):  # each once
        yield ('add_refused', (cell,), add_refused(cell))


def cases(source):
    yield from weight_cases(source)
    yield from refused_cases(source)
