"""The mean of a cell of the weekday and hour table, 02 request 6.

"The mean is a fraction in lowest terms with a positive lower number; sum 0 gives 0
over 1; a cell with no weights answers "no readings" and never a zero."
"""

from hour_table import cell_is_sound
from refusals import ACCEPTED, SUM_TOO_FAR, refused

NO_READINGS, A_FRACTION = 0, 1  # how the answer goes on if nothing was refused


def prime_factors(number):
    """The primes whose product a number from 1 on is, each as often as it is in it."""
    factor = 2
    while factor * factor <= number:
        if number % factor == 0:
            yield factor
            number //= factor
        else:
            factor += 1
    if number > 1:
        yield number


def lowest_terms(upper, lower):
    """The fraction with every prime taken out that both numbers have. Each prime of
    the lower number is tried as often as it is in it, so none is left. 0 has them
    all: 0 over 1."""
    for factor in list(prime_factors(lower)):
        if upper % factor == 0:
            upper, lower = upper // factor, lower // factor
    return upper, lower


def mean_of(cell):
    """(31,), (0, no readings) or (0, a fraction, upper, lower). 31 goes ahead of "no
    readings": "count 0 with sum 5 is 31" (open point 8.1)."""
    if not cell_is_sound(cell):
        return refused(SUM_TOO_FAR)
    if cell.weights == 0:
        return (ACCEPTED, NO_READINGS)
    return (ACCEPTED, A_FRACTION) + lowest_terms(cell.sum, cell.weights)
