"""Overloaded weights of interest, for the cases of every layer that meets one.

That they have no value stands in `weight.py` and nowhere here.
"""

from itertools import product

from captures import WEIGHTS
import families
from families_asked import FIVE, MINUS, OVERLOAD, SETTLED, SIX

DIGITS = (b'\x00\x00\x00', b'\x00\x00\x06')  # a zero, and the 60 tonnes of 02 request 7
SHORT, SERIAL = ('short', 1), ('serial', 255)


def overloaded_weights():
    """(family, W0 W1 W2 CON): both signs, a zero and a number, each with every point,
    and with every family settled and not. Minus has bit 5 set, plus has bit 6 where the
    family lets it be set."""
    for minus, digits, point in product((0, MINUS), DIGITS, range(8)):
        settled, family = divmod(point, len(families.ALL))
        six_or_none = SIX if families.six_is_right(families.ALL[family], 1) else 0
        status = OVERLOAD | SETTLED * settled | minus | point | (FIVE if minus else six_or_none)
        yield families.ALL[family], digits + bytes([status])


def overloaded_replies():
    """(family, address, code, data) of the same, each gross and net. A plus zero and
    a minus number are from a short address, the others from a serial: so every family
    has both addresses with both loads, settled and not."""
    for (family, four), code in product(overloaded_weights(), WEIGHTS):
        is_zero, is_plus = four[:3] == DIGITS[0], not four[3] & MINUS
        yield family, SHORT if is_zero == is_plus else SERIAL, code, four
