"""Short addresses of interest, for cases and captures.

Which of them are legal stands in `frame.HIGHEST_SHORT` and nowhere here.
"""

HIGHEST_OF_01 = 0x9F     # what 01 took of 002 "for everybody"; 02 request 1 moved it
BRIDGES = (0xA4, 0xF0)   # "terminals from documents 000 and 001 with addresses A4 and F0"
# Both ends, 01's and that of 02 request 1, with what stands behind them, and the
# bridges between: every layer that takes or meets an address is asked each of them.
HIGH = (0x9F, 0xA0, 0xA4, 0xF0, 0xFD, 0xFE, 0xFF)


def short(numbers):
    return tuple(('short', number) for number in numbers)
