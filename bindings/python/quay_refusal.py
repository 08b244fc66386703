"""Refusals: the numbers of the rules paper's list and of the requests behind it, and the exception that carries one.

20 to 22 are of the parcel scales, 23 and 31 of the weekday and hour table, 25 and 26 of the bad bit that is looked for in a body. This module hands
over none of these yet. 24 is raised where the value of an overloaded weight is asked for. No line meets any of them.
"""
from __future__ import annotations

from typing import Any, Dict

MEANINGS: Dict[int, str] = {
    1: 'body ended with under 3 bytes, or first byte 00 and under 6',
    2: '256th body byte (reading); body would pass 255 (writing)',
    3: 'Held, then neither FE nor FF',
    4: 'check not 0',
    5: 'short address outside 01 to FD, or serial above 16,777,215',
    6: 'code not in the table for that role',
    7: 'data length wrong for the code',
    8: 'a field outside its values',
    9: 'lent room shorter than needed',
    10: 'log bytes left over, 1 to 19',
    11: 'log record breaks a rule',
    20: "header of a parcel scale's message wrong, or under 3 bytes",
    21: "fewer bytes than length and check of a parcel scale's message need",
    22: "check of a parcel scale's message wrong",
    23: 'a count of the weekday and hour table would pass 65,535',
    24: 'overload, so the reading has no value',
    25: 'body empty or over 31 bytes, so no bad bit is looked for',
    26: 'check already right, so no bad bit is looked for',
    31: 'sum of a cell of the weekday and hour table, sign aside, beyond its count of weights times 9,999,990,000,000',
}


def meaning_of(number: int) -> str:
    """What a refusal's number means, in the paper's words.

    >>> meaning_of(4)
    'check not 0'
    """
    return MEANINGS.get(number, 'a refusal that the paper does not list')


class Refused(Exception):
    """The library refused. `number` is the refusal's number. `meaning` is what the paper says of it.

    >>> str(Refused(8))
    'refusal 8: a field outside its values'
    """

    def __init__(self, number: int) -> None:
        super().__init__(number)
        self.number = number

    @property
    def meaning(self) -> str:
        return meaning_of(self.number)

    def __str__(self) -> str:
        return f'refusal {self.number}: {self.meaning}'


def accepted(answer: Any) -> Any:
    """A struct that the library answered, if it was not refused. Otherwise its refusal is raised."""
    if answer.refusal:
        raise Refused(answer.refusal)
    return answer
