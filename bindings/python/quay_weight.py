"""Weights: four bytes and their family, what the terminal shows with them, and their exact value."""
from __future__ import annotations

from dataclasses import dataclass
from fractions import Fraction
from typing import Optional

from quay_family import Family, mode_of, said_family
from quay_library import HIGHEST_BYTE, Bytes, QuayWeight, as_bytes, library, whole_number
from quay_refusal import accepted

TENTHS_IN_A_KILOGRAM = 10_000_000
WEIGHT_BYTES = 4


@dataclass(frozen=True)
class Reading:
    """What a terminal shows: the sign bit, the number 0 to 999,999, the digits after the point, and the flags. What bits 6 and 5 mean, the
    family says. False is no answer in plain, nor for bit 6 in 002; bit 5 of 001 is no net mode.

    If `overload` is True, more lies on the bridge than it can weigh, and `number` is no weight. It stays only so that the four bytes come
    back. Do not show or use it: ask the weight for its value, which is refused then."""
    number: int
    point: int
    minus: bool
    bit6: bool
    bit5: bool
    settled: bool
    overload: bool
    family: Family

    @property
    def mode(self) -> Optional[str]:
        """What bit 5 says, in the listing's words: `net` or `gross` (000 and 002), `scale0` or `scale1` (001). None in the plain family.
        001 has no net mode: what is not `net` need not be gross.

        It is the terminal's mode and not the weight that was asked for: the two may differ.
        """
        return mode_of(self.family, self.bit5)


@dataclass(frozen=True)
class Weight:
    """The four bytes of a weight, W0 W1 W2 CON, as the wire and the log have them, and the family of the terminal that said them.

    If the bytes are no weight, every question about them raises `Refused` with number 8. The answer is never 0 and never another number.
    Bit 6 of CON is refused so in family 002.

    An overloaded bridge has no weight. If bit 3 of CON is set, the reading answers, with `overload` True. `value`, `kilograms`,
    `kilograms_exact` and every `difference` raise `Refused` with number 24, after 8.

    >>> weight = Weight.from_bytes(bytes.fromhex('51020001'), Family.OF_002)
    >>> weight.value, weight.kilograms_exact, weight.kilograms
    (251000000, Fraction(251, 10), 25.1)
    >>> Weight.from_bytes(bytes.fromhex('51020041'), Family.OF_000).kilograms
    25.1
    >>> Weight.from_bytes(bytes.fromhex('51020041'), Family.OF_002).kilograms
    Traceback (most recent call last):
    quay_refusal.Refused: refusal 8: a field outside its values
    >>> overloaded = Weight.from_bytes(bytes.fromhex('00000618'), Family.OF_002)
    >>> overloaded.reading.overload, bytes(overloaded).hex()
    (True, '00000618')
    >>> overloaded.value
    Traceback (most recent call last):
    quay_refusal.Refused: refusal 24: overload, so the reading has no value
    """
    w0: int
    w1: int
    w2: int
    con: int
    family: Family

    def __post_init__(self) -> None:
        for name in ('w0', 'w1', 'w2', 'con'):
            whole_number(name, getattr(self, name), HIGHEST_BYTE)
        said_family(self.family)

    @classmethod
    def from_bytes(cls, four: Bytes, family: Family) -> Weight:
        """The weight of four bytes in the order of the wire, of a terminal of a family."""
        held = as_bytes(four)
        if len(held) != WEIGHT_BYTES:
            raise ValueError(f'a weight has {WEIGHT_BYTES} bytes, W0 W1 W2 CON, not {len(held)}')
        return cls(*held, family)

    def __bytes__(self) -> bytes:
        return bytes((self.w0, self.w1, self.w2, self.con))

    def crossing(self) -> QuayWeight:
        """The four bytes and the family as the library takes them."""
        return QuayWeight(*bytes(self), self.family)

    @property
    def reading(self) -> Reading:
        """What the terminal shows. An overload is marked here and is not refused.

        >>> reading = Weight.from_bytes(bytes.fromhex('050000b1'), Family.OF_002).reading
        >>> reading.minus, reading.number, reading.point, reading.settled, reading.mode
        (True, 5, 1, True, 'net')
        """
        shown = accepted(library().quay_read_weight(self.crossing()))
        flags = (bool(flag) for flag in (shown.minus, shown.bit6, shown.bit5, shown.settled, shown.overload))
        return Reading(shown.number, shown.point, *flags, Family(shown.family))

    @property
    def value(self) -> int:
        """A signed whole number of tenths of a milligram. Minus zero is 0 in value and keeps its sign bit in the reading. `Refused` is judged
        8, 24."""
        return accepted(library().quay_value(self.crossing())).value

    @property
    def kilograms_exact(self) -> Fraction:
        """The weight in kilograms, exactly: the value over 10,000,000. It is refused as the value is."""
        return exact_kilograms(self.value)

    @property
    def kilograms(self) -> float:
        """The weight in kilograms as a 64-bit float: the value over 10,000,000, rounded once; value 0 gives plus zero. It is refused as the
        value is.

        >>> Weight.from_bytes(bytes.fromhex('00000618'), Family.OF_002).kilograms
        Traceback (most recent call last):
        quay_refusal.Refused: refusal 24: overload, so the reading has no value
        """
        return accepted(library().quay_kilograms(self.crossing())).kilograms


def exact_kilograms(value: int) -> Fraction:
    """Tenths of a milligram as kilograms, exactly.

    >>> exact_kilograms(-5_000_000)
    Fraction(-1, 2)
    """
    return Fraction(value, TENTHS_IN_A_KILOGRAM)


def difference(gross: Weight, net: Weight) -> int:
    """Gross less net in tenths of a milligram: a signed difference, which may be negative. The two may be of different families. `Refused` is
    judged 8 of either weight, then 24 of either.

    >>> gross = Weight(0x51, 0x02, 0, 0x01, Family.OF_002)
    >>> difference(gross, Weight(0x05, 0, 0, 0x91, Family.OF_002))
    256000000
    >>> difference(gross, Weight(0x05, 0, 0, 0x99, Family.OF_002))
    Traceback (most recent call last):
    quay_refusal.Refused: refusal 24: overload, so the reading has no value
    """
    return accepted(library().quay_difference(gross.crossing(), net.crossing())).value
