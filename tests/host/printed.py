"""Tells what a README prints, so that it can be tried as it stands.

    python3 tests/host/printed.py README KIND     the blocks of one kind, in their order

A block is what stands indented by four blanks. Of KIND `session` are those that begin with `>>>`, of KIND `shell` those that begin with
a command; all others are of KIND `code`.
"""

from __future__ import annotations

import re
import sys
from typing import Iterator

INDENT = '    '
KINDS = ('session', 'shell', 'code')
COMMAND = re.compile(r'([A-Z_]+=\S+ )*((\.{1,2}/)?[\w.-]+/[\w./-]+|gcc|x86_64-linux-gnu-gcc|qemu-x86_64|python3|cargo|cd)( |$)')


def blocks(lines: list[str]) -> Iterator[list[str]]:
    """Blank lines inside a block are its own; those around it are not."""
    block: list[str] = []
    for line in lines + ['end']:
        if line.startswith(INDENT) or (block and not line.strip()):
            block.append(line[len(INDENT):])
        elif block:
            yield '\n'.join(block).rstrip().split('\n')
            block = []


def kind_of(block: list[str]) -> str:
    if block[0].startswith('>>>'):
        return 'session'
    return 'shell' if COMMAND.match(block[0]) else 'code'


def printed(name: str, kind: str) -> list[list[str]]:
    with open(name, encoding='utf-8') as readme:
        return [block for block in blocks(readme.read().split('\n')) if kind_of(block) == kind]


def main(arguments: list[str]) -> int:
    if len(arguments) != 2 or arguments[1] not in KINDS:
        print(__doc__, file=sys.stderr)
        return 2
    found = printed(*arguments)
    if not found:
        print(f'printed: {arguments[0]} has no block of the kind {arguments[1]}', file=sys.stderr)
        return 1
    print('\n\n'.join('\n'.join(block) for block in found))
    return 0


if __name__ == '__main__':
    sys.exit(main(sys.argv[1:]))
