#!/usr/bin/env python3
"""Polls a captured line from a file instead of a port: lists what is heard, and notes weighings and refusals in a log.

The listing is that of `bin/quay list`. As there, a line whose family is not said is of family 002. A file has no clock, so the log's times
are made up: event 1 has the start time, and each event after it a second more. If something cannot be opened, read or written, standard
error says so. Then there is no total line, and the exit status is 1. A log that already exists is not touched.
"""
from __future__ import annotations

import argparse
import contextlib
import sys
from typing import BinaryIO, List, Optional

import quay

# As many bytes as a port may hand over at once. Any other number gives the same listing.
BLOCK_BYTES = 64
START_TIME = 1_785_542_400  # 1 August 2026, 00:00 UTC, in seconds since 1970
# By the document's number. The plain family is that of old records, and no line is of it.
FAMILIES = {family.word: family for family in quay.Family if family is not quay.Family.PLAIN}
FAMILY_NOT_SAID = quay.Family.OF_002


class Poll:
    """What was heard so far: its lines go to standard output, its records to the log."""

    def __init__(self, log: Optional[BinaryIO]) -> None:
        self.log = log
        self.total = 0
        self.counts = {entry: 0 for entry in quay.Entry}

    def hear(self, event: quay.Event) -> None:
        self.total += 1
        listed = quay.list_event(self.total, event)
        self.counts[listed.entry] += 1
        sys.stdout.write(listed.line)
        if self.log is not None:
            self.note(self.log, event)

    def note(self, log: BinaryIO, event: quay.Event) -> None:
        record = quay.record_heard(START_TIME + self.total - 1, event)
        if record is not None:
            log.write(quay.write_record(record))

    def end(self) -> None:
        """Writes the total line. It stands only where everything was heard and noted."""
        if self.log is not None:
            self.log.close()
        sys.stdout.write(quay.list_total(self.total, self.counts[quay.Entry.WEIGHT], self.counts[quay.Entry.REFUSAL]))
        sys.stdout.flush()


def poll(capture: str, family: quay.Family, log: Optional[str]) -> None:
    quay.load_library()
    reader = quay.Reader(family)
    with contextlib.ExitStack() as opened:
        line = opened.enter_context(open(capture, 'rb'))
        polled = Poll(opened.enter_context(open(log, 'xb')) if log is not None else None)
        while True:
            block = line.read(BLOCK_BYTES)
            if not block:
                return polled.end()
            for event in reader.feed(block):
                polled.hear(event)


def main(arguments: List[str]) -> int:
    parser = argparse.ArgumentParser(description=__doc__.split('\n')[0])
    parser.add_argument('capture', help='the captured bytes of a line')
    parser.add_argument('--family', choices=sorted(FAMILIES), default=FAMILY_NOT_SAID.word,
                        help="the document that describes the line's terminals; %(default)s if it is not said")
    parser.add_argument('--log', metavar='FILE', help='also write a log of the weighings and refusals heard, with times made by '
                        f'counting: {START_TIME} seconds for event 1, a second more for each event after it')
    chosen = parser.parse_args(arguments)
    try:
        poll(chosen.capture, FAMILIES[chosen.family], chosen.log)
    except (OSError, quay.LibraryNotLoaded) as error:
        print(f'example: {error}', file=sys.stderr)
        return 1
    return 0


if __name__ == '__main__':
    sys.exit(main(sys.argv[1:]))
