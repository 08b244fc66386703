"""Writes the case lines that the C, Python and Rust runners read.

    python3 tests/host/cases.py                    the same cases every time, of every function
    python3 tests/host/cases.py --random N SEED    N random cases of the functions that are quick to answer, always the same for a seed

One case a line: `function inputs = answer`. Each answer is the second model's (tests/model), and the crossing rules' (crossing.py).
"""

from __future__ import annotations

import itertools
import sys
from typing import Iterable, Iterator

import crossing
import drawn
import line_inputs
import other_inputs

GROUPS = (other_inputs.weights, other_inputs.differences, other_inputs.frames, other_inputs.messages_written, other_inputs.messages_read,
          other_inputs.records_written, other_inputs.records_read, other_inputs.steps, line_inputs.recording, line_inputs.listing_events,
          other_inputs.totals, line_inputs.listening)
DRAWN_OF_EACH = 150
DRAWN_SEED = 47


def every_case() -> Iterator[tuple]:
    for group in GROUPS:
        yield from group()
    yield from drawn.drawn(drawn.EVERY, DRAWN_OF_EACH * len(drawn.EVERY), DRAWN_SEED)


def write(cases: Iterable[tuple]) -> int:
    """Some thousand lines at a time: a million need not be held at once."""
    lines = (crossing.line_of(*case) + '\n' for case in cases)
    while some := ''.join(itertools.islice(lines, 5000)):
        sys.stdout.write(some)
    return 0


def main(arguments: list[str]) -> int:
    if not arguments:
        return write(every_case())
    if len(arguments) == 3 and arguments[0] == '--random' and all(word.isdecimal() for word in arguments[1:]):
        return write(drawn.drawn(drawn.CHEAP, int(arguments[1]), int(arguments[2])))
    print(__doc__, file=sys.stderr)
    return 2


if __name__ == '__main__':
    sys.exit(main(sys.argv[1:]))
