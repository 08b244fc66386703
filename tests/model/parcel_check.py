"""The check of the parcel scales, "a 16-bit check as printed in 003 section 4.1".

`check_of` is the printed code, statement by statement. `rest_of_division` is the
wording that 02 request 5 has beside it: "polynomial 11021h over the body, register
from 0, top bit first, no zero bytes fed". points_of_parcels.py compares the two.
"""

from functools import lru_cache

WORD = 0xFFFF          # what a `word` of the printed code holds
TOP_BIT = 0x8000
FOLD = 0x1021          # the polynomial without its top bit
POLYNOMIAL = 0x11021


@lru_cache(maxsize=None)  # remembered only: each answer is worked out bit by bit
def accumulated(temp):
    """The inner loop: `accumulator` from 0, after `for( bits = 0; bits < 8; bits++ )`."""
    accumulator = 0
    for _ in range(8):
        if (temp ^ accumulator) & TOP_BIT:
            accumulator = (accumulator << 1 & WORD) ^ FOLD
        else:
            accumulator = accumulator << 1 & WORD
        temp = temp << 1 & WORD
    return accumulator


def check_of(body):
    """`CRC16(0, body, len)`: "crc - the value at the start, taken as zero"; the
    block starts with the byte Command and has all from it on."""
    crc = 0
    for byte in body:
        temp = crc >> 8 << 8
        crc = accumulated(temp) ^ (crc << 8 & WORD) ^ (byte & 0xFF)
    return crc


def rest_of_division(body):
    """The body as one polynomial, its first bit on top, and the rest left by
    dividing it by 11021h. Nothing is put behind it: "no zero bytes fed"."""
    rest = int.from_bytes(body, 'big')
    for place in range(rest.bit_length() - 1, 15, -1):
        if rest >> place & 1:
            rest ^= POLYNOMIAL << place - 16
    return rest
