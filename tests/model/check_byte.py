"""The check byte.

"Check: polynomial 169h, register starts at 0, bytes enter top bit first. The
bit that falls out of the register, if 1, folds in 69h. The sender feeds all
bytes before the check and one zero byte; the register is the check. The
receiver feeds the whole body and wants 0. Inserted FEs are not fed."
"""

from functools import lru_cache

FOLD = 0x69  # the polynomial 169h without its top bit


@lru_cache(maxsize=None)  # remembered only: each answer is worked out bit by bit
def fed(register, byte):
    """The register after one more byte, which enters top bit first."""
    for place in range(7, -1, -1):
        entering = (byte >> place) & 1
        falling = (register >> 7) & 1
        register = ((register << 1) & 0xFF) | entering
        if falling:
            register ^= FOLD
    return register


def register_of(sent):
    """The register that starts at 0 and is fed all of `sent`."""
    register = 0
    for byte in sent:
        register = fed(register, byte)
    return register


def check_of(unchecked):
    """The sender's check: all bytes before the check, and one zero byte."""
    return fed(register_of(unchecked), 0)
