"""Families, the bits of CON, and bytes 17 of interest, for cases.

Which of them are refused stands in `families.TABLE` and `weight.py`, and nowhere
here.
"""

import families

SIX, FIVE = 0x40, 0x20                # bits of CON
MINUS, SETTLED, OVERLOAD = 0x80, 0x10, 0x08
BITS_6_AND_5 = (0, FIVE, SIX, SIX | FIVE)
# Byte 17 of a record: each family's number, what stands behind them, and the last byte.
BYTES_17 = families.ALL + (4, 255)


def some_family(source):
    return source.choice(families.ALL)


def with_bits(status, bits):
    """A CON whose bits 6 and 5 are those of `bits`."""
    return status & ~(SIX | FIVE) | bits


def every_mix(status):
    """(family, CON) of every family with bits 6 and 5 clear and set."""
    for family in families.ALL:
        for bits in BITS_6_AND_5:
            yield family, with_bits(status, bits)
