"""The terminal families of 02 request 4, "Bits 6 and 5 mean something, per family".

"A reading now carries its terminal family: 000 (bit 6 key code entered, bit 5
net mode), 001 (bit 6 event, bit 5 current scale number), 002 (bit 6 reserved
and must be 0, bit 5 net mode)." Beside them stands a fourth, plain: "0 is an
old record whose bits stay plain" (open point 6.4).

A family is its number: "1 to 3 for 000 to 002". What its two bits are called
stands in the table here. Everything else asks the table.
"""

from collections import namedtuple

PLAIN = 0
OF_000 = 1
OF_001 = 2
OF_002 = 3

NO_MEANING = None                      # "two plain bits (the documents disagree on them)"
KEY_CODE = 'key code entered'
EVENT = 'event'
RESERVED = 'reserved and must be 0'
NET_MODE = 'net mode'
SCALE_NUMBER = 'current scale number'

Bits = namedtuple('Bits', 'six five')

TABLE = {                              # family: what its bit 6 and its bit 5 are called
    PLAIN: Bits(NO_MEANING, NO_MEANING),
    OF_000: Bits(KEY_CODE, NET_MODE),
    OF_001: Bits(EVENT, SCALE_NUMBER),
    OF_002: Bits(RESERVED, NET_MODE),
}
ALL = tuple(TABLE)


def is_family(number):
    """Whether a number is a family's. 02 request 4: "11 also for byte 17 above 3"."""
    return number in TABLE


def six_is_right(family, six):
    """"8 also for family 002 with bit 6 set": a reserved bit must be 0."""
    return TABLE[family].six != RESERVED or six == 0
