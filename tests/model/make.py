"""Makes the vector files from the model.

    python3 tests/model/make.py                writes them anew
    python3 tests/model/make.py --check        says whether the committed ones are stale (exit 1)
    python3 tests/model/make.py --differ FILE  says which cases a run's output answers otherwise (exit 1)
    python3 tests/model/make.py --differ parcel_vectors FILE   the same of that program; else it is vectors
    python3 tests/model/make.py --differ table_vectors FILE    the same of that one
    python3 tests/model/make.py --differ bit_vectors FILE      the same of that one
    python3 tests/model/make.py --text         writes the cases as text to tests/model/out, to be read

The committed files are what `crates/vectors`, `crates/parcel_vectors`,
`crates/table_vectors` and `crates/bit_vectors` read and must write, and a mixed
capture with its listing, which `crates/list_capture` reads and must write; and the
small wires of samples/ with theirs. The mixed capture is listed as family 002, each
small wire as its own. As text there is a file per part of the model with one case a
line.
"""

import collections
import os
import sys

import bit_vectors
import captures
import cases
import listing
import parcel_vectors
import sample
import table_vectors
import vectors

HERE = os.path.dirname(os.path.abspath(__file__))
TEXT_FOLDER = os.path.join(HERE, 'out')
ROOT = os.path.join(HERE, '..', '..')
CAPTURE_SEED = 2024
CAPTURE_SIZE = 200_000
SHOWN = 10  # cases that a difference shows whole
PROGRAMS = {'vectors': vectors.vectors, 'parcel_vectors': parcel_vectors.vectors,
            'table_vectors': table_vectors.vectors, 'bit_vectors': bit_vectors.vectors}  # what runs cases
NOT_NAMED = 'vectors'  # whose cases a difference is asked of if no program is named


def text_of(part):
    return ''.join(cases.line_of(case) + '\n' for case in part()).encode('ascii')


def text_files():
    """(file name, content) of the cases as text, in a stable order."""
    for name, part in cases.PARTS:
        yield name + '.cases', text_of(part)


def run_files():
    """(program, what it reads, what it must write) of the committed files."""
    for program, cases_run in PROGRAMS.items():
        yield (program, *vectors.files_of(list(cases_run())))
    capture = captures.capture(CAPTURE_SEED, CAPTURE_SIZE)
    yield 'list_capture', capture, listing.listing_of(listing.FAMILY_NOT_SAID, capture)


def committed_files():
    """(file name, content) of the committed files."""
    for program, stdin, stdout in run_files():
        yield 'crates/%s/stdin' % program, stdin
        yield 'crates/%s/stdout' % program, stdout
    for name, wire, family in sample.SAMPLES:
        yield 'samples/%s.capture' % name, wire()
        yield 'samples/%s.listing' % name, listing.listing_of(family, wire())


def content_of(path):
    """A file's bytes, or None where there is no such file."""
    if not os.path.isfile(path):
        return None
    with open(path, 'rb') as file:
        return file.read()


def check():
    stale = [name for name, content in committed_files()
             if content_of(os.path.join(ROOT, name)) != content]
    for name in stale:
        print('stale: ' + name)
    if stale:
        print('run python3 tests/model/make.py')
        return 1
    print('the committed files are as the model makes them')
    return 0


def write(folder, files):
    for name, content in files:
        path = os.path.join(folder, name)
        os.makedirs(os.path.dirname(path), exist_ok=True)
        with open(path, 'wb') as file:
            file.write(content)
        print('%s: %d bytes' % (name, len(content)))
    return 0


def write_vectors():
    for cases_run in PROGRAMS.values():
        run = collections.Counter(vector.case[0] for vector in cases_run())
        for name, count in run.items():
            print('%s: %d cases' % (name, count))
    return write(ROOT, committed_files())


def differ(program, path):
    wanted = list(PROGRAMS[program]())
    given = (content_of(path) or b'').splitlines()
    wrong = [(vector, answer) for vector, answer in zip(wanted, given) if vector.answer != answer]
    for vector, answer in wrong[:SHOWN]:
        print(cases.line_of(vector.case))
        print('  wanted ' + vector.answer.decode('ascii'))
        print('  given  ' + answer.decode('ascii', 'replace'))
    print('%d cases, %d answers, %d differ' % (len(wanted), len(given), len(wrong)))
    return 1 if wrong or len(wanted) != len(given) else 0


def main(arguments):
    if arguments == ['--check']:
        return check()
    if arguments == ['--text']:
        return write(TEXT_FOLDER, text_files())
    if len(arguments) == 2 and arguments[0] == '--differ':
        return differ(NOT_NAMED, arguments[1])
    if len(arguments) == 3 and arguments[0] == '--differ' and arguments[1] in PROGRAMS:
        return differ(*arguments[1:])
    if arguments:
        print('usage: make.py [--check | --text | --differ [%s] FILE]' % ' | '.join(PROGRAMS), file=sys.stderr)
        return 2
    return write_vectors()


if __name__ == '__main__':
    sys.exit(main(sys.argv[1:]))
