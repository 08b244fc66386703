"""The cases of the parcel scales as the program `crates/parcel_vectors` reads and answers them.

Cases and answers have the form of `vectors.py`. `RUN` is the one list of what
this program runs. README.md has the layouts.
"""

import cases_parcel
import parcel
import vectors as form
from vectors import Layout, as_it_is, numbers_alone, or_refused, text_alone

FIRST_WRITER = 4  # from this number on a function is lent room: the last of its inputs
WORDS = 2 ** 32
LONGS = 2 ** 64
NO_FIELDS = (0, 0, 0)
TAGS = tuple(parcel.TABLE)  # 0 A0, 1 A3, 2 90, 3 the answer 10, 4 12, 5 50, 6 F0


def unsigned(number):
    """The number of a signed number's 32 bits, two's complement."""
    return number % WORDS


def fields_in_their_places(fields):
    """A tare, count or serial, a division, a stable mark; 0 where there is none."""
    return fields + NO_FIELDS[len(fields):]


def weight_to_value(count, division, stable):
    return numbers_alone(form.word(unsigned(count)), bytes([division, stable]))


def parcel_to_write(code, fields):
    """Its tag, and its fields in their places."""
    number, division, stable = fields_in_their_places(fields)
    return numbers_alone(bytes([TAGS.index(code[0])]), form.word(unsigned(number)),
                         bytes([division, stable]))


def parcel_told(used, code, fields):
    """How many bytes were used, the tag, and the fields that the message has."""
    return used, TAGS.index(code[0]), [unsigned(field) for field in fields]


def long_bits(value):
    """A signed whole number's 64 bits, two's complement, top byte first."""
    assert -LONGS // 2 <= value < LONGS // 2
    return (value % LONGS).to_bytes(8, 'big')


PARCEL_RUN = {
    'parcel_check_of': [Layout(1, text_alone, as_it_is)],
    'read_parcel': [Layout(2, text_alone, or_refused(parcel_told))],
    'parcel_value': [Layout(3, weight_to_value, or_refused(long_bits))],
    'write_parcel': [Layout(4, parcel_to_write, as_it_is)],
}

RUN = ((cases_parcel.cases, PARCEL_RUN),)


def vectors():
    """Every case that is run, with what the program reads and its line."""
    return form.vectors(RUN, FIRST_WRITER)
