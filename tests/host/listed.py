"""Prints the second model's listing of a capture, as that of a line of a family: what the examples must list.

    python3 tests/host/listed.py 000|001|002 CAPTURE
"""

from __future__ import annotations

import sys

import crossing  # noqa: F401 (it puts the model's folder on the path)
import families
import listing

FAMILIES = {'000': families.OF_000, '001': families.OF_001, '002': families.OF_002}


def main(arguments: list[str]) -> int:
    if len(arguments) != 2 or arguments[0] not in FAMILIES:
        print(__doc__, file=sys.stderr)
        return 2
    document, name = arguments
    with open(name, 'rb') as capture:
        sys.stdout.buffer.write(listing.listing_of(FAMILIES[document], capture.read()))
    return 0


if __name__ == '__main__':
    sys.exit(main(sys.argv[1:]))
