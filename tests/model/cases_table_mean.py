"""Cases of the mean of a cell."""

from hour_mean import mean_of
from hour_table import EMPTY, HEAVIEST, HIGHEST_COUNT, Cell
from tables_asked import UNSOUND, edge_cells, full_cells, some_cell

# Products of many primes or of one prime often: 2^15, 3^10, 5^6, 2*3*5*7*11*13, and both ends of the counts.
MANY_DIVISORS = (12, 60, 720, 5_040, 30_030, 32_768, 45_360, 55_440, 59_049, 15_625, 65_520, 65_534, 65_535)
PRIMES = (2, 3, 5, 7, 251, 257, 4_093, 32_749, 65_519, 65_521)


def small_cells():
    """All counts 1 to 24 with all sums from -40 to 40."""
    for weights in range(1, 25):
        for total in range(-40, 41):
            yield Cell(weights, weights % 3, total)


def divisors(number):
    return [factor for factor in range(1, number + 1) if number % factor == 0]


def divided_cells(source):
    """Sums that have a divisor of the count, from 1 to the count itself: the smallest
    and largest ones, some between."""
    for weights in MANY_DIVISORS:
        several = divisors(weights)
        for common in several[:4] + several[-4:] + [source.choice(several) for _ in range(2)]:
            times = source.number() % (weights * HEAVIEST // common)
            yield Cell(weights, 0, source.choice((1, -1)) * common * times)
            yield Cell(weights, 0, source.choice((1, -1)) * common * (times % 100))


def prime_cells(source):
    """Prime counts with sums that have the prime, its square, or not; sums that are
    prime too."""
    for weights in PRIMES:
        for total in (weights, weights - 1, weights + 1, weights ** 2, weights * 10 ** 9, 65_521, 65_537,
                      2_147_483_647, weights * HEAVIEST, weights * HEAVIEST - 1,
                      source.number() % (weights * HEAVIEST)):
            yield Cell(weights, 3, source.choice((1, -1)) * total)


def slow_cells():
    """Neighbours among 1, 2, 3, 5, 8, ..., each the sum of the two ahead of it: who
    takes one number off the other has the most steps here. Alone, and with a factor
    in common."""
    for common, least in ((1, 10_000), (2, 20_000), (3, 40_000), (7, 50_000)):
        lower, upper = common, 2 * common
        while lower <= HIGHEST_COUNT:
            if lower >= least:
                yield Cell(lower, 0, upper)
                yield Cell(lower, 0, -upper)
                yield Cell(lower, 0, upper - lower)
            lower, upper = upper, lower + upper


def no_readings():
    """No weights and sum 0, whatever the refused; beside them a zero that was read."""
    for refused in (0, 1, 2, 255, 256, 65_534, HIGHEST_COUNT):
        yield Cell(0, refused, 0)
        yield Cell(1, refused, 0)
        yield Cell(HIGHEST_COUNT, refused, 0)
        yield Cell(0, refused, 5)
        yield Cell(0, refused, -5)


def some_cells(source):
    """Cells by chance, and sums that have a factor in common with their count."""
    for _ in range(50):
        yield some_cell(source)
        common, weights = source.between(1, 255), source.between(1, 257)
        total = common * (source.number() % (weights * HEAVIEST))
        yield Cell(common * weights, source.below(4), source.choice((1, -1)) * total)


def cases(source):
    cells = [EMPTY, *small_cells(), *edge_cells(), *UNSOUND, *full_cells(), *slow_cells(), *no_readings()]
    for group in (divided_cells, prime_cells, some_cells):
        cells += group(source)
    for cell in cells:
        yield ('mean_of', (cell,), mean_of(cell))
