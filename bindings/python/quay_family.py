"""The families of terminals: what bits 6 and 5 of a weight's status byte mean."""
from __future__ import annotations

from enum import IntEnum
from typing import Dict, Optional, Tuple


class Family(IntEnum):
    """The family of a line's terminals: the document that describes them. The caller says it, once for a line.

    `OF_000`: bit 6 a key code was entered, bit 5 net mode. `OF_001`: bit 6 an event, bit 5 the current scale number. `OF_002`: bit 6 is
    reserved and must be 0, so a weight that has it set is refused by 8; bit 5 net mode. `PLAIN` is no terminal's: a record of a log from
    before there were families has it. Neither bit has a meaning then, and neither is judged.

    The numbers are those of byte 17 of a record, which counts from 1: `Family(2)` is 001. A number that is no family's raises `ValueError`. It
    never becomes `PLAIN`. Where a family is asked for, no number is taken at all.

    >>> Family(2), Family.OF_001.word
    (<Family.OF_001: 2>, '001')
    >>> Family(4)
    Traceback (most recent call last):
    ValueError: 4 is not a valid Family
    """
    PLAIN = 0
    OF_000 = 1
    OF_001 = 2
    OF_002 = 3

    @property
    def word(self) -> str:
        """The document's number, or `plain`."""
        return WORDS[self]


WORDS: Dict[Family, str] = {Family.PLAIN: 'plain', Family.OF_000: '000', Family.OF_001: '001', Family.OF_002: '002'}

# What bit 5 says, clear and set, in the listing's words. The plain family is not here: it has no mode.
MODES: Dict[Family, Tuple[str, str]] = {
    Family.OF_000: ('gross', 'net'),
    Family.OF_001: ('scale0', 'scale1'),
    Family.OF_002: ('gross', 'net'),
}


def said_family(said: object) -> Family:
    """A family that a caller said. A number is not taken: 2 would be 001 where 002 is meant, and an old call's role would be a family.

    >>> said_family(2)
    Traceback (most recent call last):
    TypeError: 2 is not a family: say it by its name, Family.OF_000, .OF_001, .OF_002 or .PLAIN; the number of byte 17 goes through Family(n)
    """
    if not isinstance(said, Family):
        raise TypeError(f'{said!r} is not a family: say it by its name, Family.OF_000, .OF_001, .OF_002 or .PLAIN; '
                        'the number of byte 17 goes through Family(n)')
    return said


def mode_of(family: Family, bit5: bool) -> Optional[str]:
    """What bit 5 says in a family. None where it says nothing, also where the bit is 0.

    >>> mode_of(Family.OF_001, True), mode_of(Family.PLAIN, True)
    ('scale1', None)
    """
    words = MODES.get(said_family(family))
    return None if words is None else words[bit5]
