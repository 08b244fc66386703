"""Weights as exact numbers.

"A reading keeps the sign bit, the number 0 to 999,999, the point and the
flags, so its four bytes come back exactly." 02 request 4: "A reading now
carries its terminal family"; what its bits 6 and 5 are called is asked of
`families.TABLE`. 02 request 7: an overloaded reading is a reading as any other,
and has no value.
"""

from collections import namedtuple
from fractions import Fraction
import struct

import families
from refusals import ACCEPTED, BRIDGE_OVERLOADED, FIELD_WRONG, refused

HIGHEST_NUMBER = 999_999
HIGHEST_POINT = 7
TENTHS_IN_KILOGRAM = 10_000_000  # tenths of a milligram

Reading = namedtuple('Reading', 'minus number point six five settled overload family')

# What the loadmaster asks of a reading, in the order in which `mode` answers it.
ASKED = (families.NET_MODE, families.SCALE_NUMBER, families.KEY_CODE, families.EVENT)
NO_SUCH_BIT, BIT_CLEAR, BIT_SET = 0, 1, 2


def is_decimal(byte):
    """"each byte holds two decimal digits, high half first; a half above 9 is
    refusal 8"."""
    return byte >> 4 <= 9 and byte & 0x0F <= 9


def two_digits(byte):
    return (byte >> 4) * 10 + (byte & 0x0F)


def packed(number):
    """Two decimal digits as one byte."""
    return (number // 10) << 4 | number % 10


def read_reading(family, four):
    """W0 W1 W2 CON as a reading: (0, reading) or (8,). W0 is the low byte.
    "The caller says the family per line"."""
    low, middle, high, status = four
    if not (is_decimal(low) and is_decimal(middle) and is_decimal(high)):
        return refused(FIELD_WRONG)
    number = two_digits(high) * 10_000 + two_digits(middle) * 100 + two_digits(low)
    reading = Reading(
        minus=status >> 7 & 1, number=number, point=status & 7,
        six=status >> 6 & 1, five=status >> 5 & 1,
        settled=status >> 4 & 1, overload=status >> 3 & 1, family=family)
    return (ACCEPTED, reading) if reading_is_right(reading) else refused(FIELD_WRONG)


def reading_is_right(reading):
    """"A reading handed in with a number above 999,999 or a point above 7 is
    refusal 8 wherever it is used." 02 request 4: "8 also for family 002 with
    bit 6 set", wherever too (open point 6.3)."""
    return (reading.number <= HIGHEST_NUMBER and reading.point <= HIGHEST_POINT
            and families.six_is_right(reading.family, reading.six))


def write_reading(reading):
    """A reading as its four bytes: (0, bytes) or (8,). Whatever its family,
    "the four bytes still come back exactly"."""
    if not reading_is_right(reading):
        return refused(FIELD_WRONG)
    status = (reading.minus << 7 | reading.six << 6 | reading.five << 5
              | reading.settled << 4 | reading.overload << 3 | reading.point)
    pairs = (reading.number % 100, reading.number // 100 % 100, reading.number // 10_000)
    return (ACCEPTED, bytes([packed(pair) for pair in pairs] + [status]))


def judge_values(*readings):
    """Whether all of these readings have a value. 02 request 7: "The value of a
    reading with bit 3 set must be refused", "24 overload, after 8". Of two readings
    it is "8 of either first, then 24 of either" (open point 6.1)."""
    if not all(map(reading_is_right, readings)):
        return FIELD_WRONG
    return BRIDGE_OVERLOADED if any(reading.overload for reading in readings) else ACCEPTED


def value(reading):
    """"a signed whole number of tenths of a milligram: the digits times
    10^(7 - point), negated for minus"; (0, value), (8,) or (24,)."""
    number = judge_values(reading)
    if number != ACCEPTED:
        return refused(number)
    tenths = reading.number * 10 ** (7 - reading.point)
    return (ACCEPTED, -tenths if reading.minus else tenths)


def difference(gross, net):
    """"Gross less net is a signed difference and may be negative." (0, difference),
    (8,) or (24,): "the gross less net difference" of an overloaded reading is
    refused too. Two families are not refused (open point 6.5)."""
    number = judge_values(gross, net)
    if number != ACCEPTED:
        return refused(number)
    return (ACCEPTED, value(gross)[1] - value(net)[1])


def kilograms_of(tenths):
    """"the value over 10,000,000, rounded once": an exact rational, and
    Python rounds a rational to the nearest float. Value 0 gives plus zero."""
    kilograms = float(Fraction(tenths, TENTHS_IN_KILOGRAM))
    assert is_near(kilograms, tenths)
    return kilograms


def is_near(kilograms, tenths):
    """"The float, taken as the exact binary fraction it is, lies within one
    part in 2^53 of the true weight, written as an inequality of whole
    numbers": |f * 10^7 - v| * 2^53 <= |v|, both sides times f's lower number."""
    upper, lower = kilograms.as_integer_ratio()
    away = abs(upper * TENTHS_IN_KILOGRAM - tenths * lower)
    return away * 2 ** 53 <= abs(tenths) * lower


def kilograms(reading):
    """(0, float), or as the value is refused: "the float ... refused too"."""
    answer = value(reading)
    if answer[0] != ACCEPTED:
        return answer
    return (ACCEPTED, kilograms_of(answer[1]))


def float_bits(number):
    """A float's 64 bits as eight bytes, top byte first: +0.0 and -0.0 differ."""
    return struct.pack('>d', number)


def bit_called(name, reading):
    """Whether the bit of that name is set in a reading, if its family has one."""
    called = families.TABLE[reading.family]
    for own_name, bit in ((called.six, reading.six), (called.five, reading.five)):
        if own_name == name:
            return BIT_SET if bit else BIT_CLEAR
    return NO_SUCH_BIT


def mode(reading):
    """"The loadmaster asks whether a weight was net mode or the second
    platform": (0, net mode, platform, key code, event) or (8,). Each of the
    four is 0 where the family has no such bit, 1 for no or scale 0, 2 for yes
    or scale 1. In the plain family "there is no mode word" (open point 6.4)."""
    if not reading_is_right(reading):
        return refused(FIELD_WRONG)
    return (ACCEPTED,) + tuple(bit_called(name, reading) for name in ASKED)
