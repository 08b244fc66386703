"""Cases of weights: four bytes, readings, values, differences, kilograms, modes."""

from itertools import product

import families
from families_asked import some_family
from good_messages import weight_data
from message import inputs_on
from overloads_asked import overloaded_weights
from random_bytes import RandomBytes
from weight import (Reading, difference, float_bits, kilograms, mode, read_reading, reading_is_right, value,
                    write_reading)

NUMBERS = (0, 1, 5, 9, 10, 99, 100, 251, 9_999, 10_000, 99_999, 100_000, 999_998, 999_999)
WRONG_NUMBERS = (1_000_000, 1_000_001, 2 ** 24, 2 ** 32 - 1)
WRONG_POINTS = (8, 9, 15, 128, 255)
FLAGS = ('six', 'five', 'settled', 'overload')
NO_OR_YES = (0, 1)


def bare(minus, number, point, family=families.PLAIN):
    """A reading with every flag clear."""
    return Reading(minus, number, point, 0, 0, 0, 0, family)


def in_some_family(turn, readings):
    """The same readings, each in one family by chance."""
    return [reading._replace(family=some_family(turn)) for reading in readings]


def status_bytes():
    """Every CON in every family."""
    for status in range(256):
        for family in families.ALL:
            yield family, b'\x51\x02\x00' + bytes([status])


def digit_bytes(source):
    for byte in range(256):
        for place in range(3):
            digits = bytearray(weight_data(source))
            digits[place] = byte
            if place == 0 or byte & 0x0F in (0, 9, 10, 15) or byte >> 4 in (0, 9, 10, 15):
                yield bytes(digits)
    for _ in range(60):
        yield weight_data(source)
        yield source.bytes(4)


def four_byte_cases(source, turn):
    asked = list(status_bytes()) + [(some_family(turn), four) for four in digit_bytes(source)]
    for family, four in asked:
        yield ('read_reading', (family, four), read_reading(family, four))


def some_readings(source):
    """Number and point in their ranges."""
    for number in NUMBERS:
        for point in range(8):
            for minus in NO_OR_YES:
                yield bare(minus, number, point)
    for flag in FLAGS:
        for minus in NO_OR_YES:
            yield bare(minus, 251, 1)._replace(**{flag: 1})
            yield bare(minus, 0, 7)._replace(**{flag: 1})
    for _ in range(120):
        yield Reading(source.below(2), source.below(1_000_000), source.below(8), source.below(2),
                      source.below(2), source.below(2), source.below(2), families.PLAIN)


def wrong_readings():
    for minus in NO_OR_YES:
        for number in WRONG_NUMBERS:
            yield bare(minus, number, 0)
            yield bare(minus, number, 7)
        for point in WRONG_POINTS:
            yield bare(minus, 0, point)
            yield bare(minus, 999_999, point)
    yield bare(1, 1_000_000, 8)


def every_family(reading):
    """A reading in every family with bits 6 and 5 clear and set."""
    for family in families.ALL:
        for six in NO_OR_YES:
            for five in NO_OR_YES:
                yield reading._replace(six=six, five=five, family=family)


def family_readings():
    """Every family with both bits: the other flags clear and set, and a number
    or a point that is wrong in every family."""
    for minus in NO_OR_YES:
        yield from every_family(bare(minus, 251, 1))
        yield from every_family(bare(minus, 999_999, 7)._replace(settled=1, overload=1))
    yield from every_family(bare(0, 1_000_000, 1))
    yield from every_family(bare(0, 251, 8))


def overloaded_readings():
    """In their ranges, and overloaded."""
    for family, four in overloaded_weights():
        yield read_reading(family, four)[1]


def wrong_and_overloaded():
    """A number or a point that is wrong in every family, and bit 6 of 002, of
    overloaded readings: 8 goes ahead of 24."""
    for wrong in (bare(0, 1_000_000, 1), bare(1, 251, 8), bare(1, 1_000_000, 8), bare(0, 0, 255)):
        yield from (wrong._replace(overload=1, settled=family % 2, family=family) for family in families.ALL)
    yield from (bare(minus, 0, 0, families.OF_002)._replace(six=1, overload=1) for minus in NO_OR_YES)


def kilogram_answer(reading):
    answer = kilograms(reading)
    return answer if len(answer) == 1 else (answer[0], float_bits(answer[1]))


def bytes_answer(reading):
    """Its four bytes, and the family that they are read in."""
    answer = write_reading(reading)
    return answer if len(answer) == 1 else answer + (reading.family,)


def reading_cases(source, turn):
    readings = in_some_family(turn, some_readings(source)) + in_some_family(turn, wrong_readings())
    for reading in [*readings, *family_readings(), *overloaded_readings(), *wrong_and_overloaded()]:
        yield ('reading_is_right', (reading,), (reading_is_right(reading),))
        yield ('write_reading', (reading,), bytes_answer(reading))
        yield ('value', (reading,), value(reading))
        yield ('kilograms', (reading,), kilogram_answer(reading))
        yield ('mode', (reading,), mode(reading))


def some_pairs(source):
    largest = bare(0, 999_999, 0)
    least = bare(1, 999_999, 0)
    wrong = bare(0, 1_000_000, 0)
    far = bare(0, 1, 8)
    overloaded = Reading(0, 600, 1, 1, 1, 1, 1, families.PLAIN)
    pairs = [(gross, net) for gross in (largest, least, bare(0, 0, 0), bare(1, 0, 7), overloaded)
             for net in (largest, least, bare(0, 0, 7), bare(1, 0, 0), bare(0, 1, 7))]
    pairs += [(wrong, largest), (largest, wrong), (wrong, wrong), (far, least), (least, far),
              (wrong, far), (overloaded, wrong), (far, overloaded)]
    right = list(some_readings(source))
    return pairs + [(source.choice(right), source.choice(right)) for _ in range(100)]


def family_pairs():
    """Every family beside every other, bit 6 clear and set in each."""
    grosses = [bare(0, 999_999, 1, family)._replace(six=six) for family in families.ALL for six in NO_OR_YES]
    nets = [bare(0, 251, 2, family)._replace(six=six, five=1) for family in families.ALL for six in NO_OR_YES]
    return [(gross, net) for gross in grosses for net in nets]


def overload_pairs():
    """Each overloaded reading beside one that has a value; and every sort of reading,
    of those that are wrong too, beside every sort that is overloaded."""
    right = bare(1, 251, 2, families.OF_001)
    for reading in overloaded_readings():
        yield from ((reading, right), (right, reading))
    reserved = bare(0, 251, 1, families.OF_002)._replace(six=1)
    sorts = [right, bare(0, 0, 7, families.OF_002), bare(0, 1_000_000, 0), bare(0, 1, 8), reserved]
    overloaded = [reading._replace(overload=1) for reading in sorts]
    yield from product(sorts, overloaded)
    yield from product(overloaded, sorts + overloaded)


def difference_cases(source, turn):
    pairs = [tuple(in_some_family(turn, pair)) for pair in some_pairs(source)]
    for gross, net in [*pairs, *family_pairs(), *overload_pairs()]:
        yield ('difference', (gross, net), difference(gross, net))


def input_cases(source):
    fours = [bytes(4), b'\xff\xff\xff\xff', b'\x01\x00\x00\x00', b'\x00\x00\x00\x80', b'\xfe\xff\xff\xff']
    fours += [(1 << place).to_bytes(4, 'little') for place in range(32)]
    fours += [source.bytes(4) for _ in range(30)]
    for four in fours:
        yield ('inputs_on', (four,), (inputs_on(four),))


def cases():
    source = RandomBytes(17)
    turn = RandomBytes(61)  # of the families, so that the other bytes do not depend on them
    yield from four_byte_cases(source, turn)
    yield from reading_cases(source, turn)
    yield from difference_cases(source, turn)
    yield from input_cases(source)
