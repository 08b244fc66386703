"""Types the lines that a README prints for one Python session, in their order, and compares what is answered.

    session.py README

A section that imports what is not installed is left out, which is said in a line `Python: skipped: ...`; those behind it go on without it.
The exit status is 0 where lines were typed and all were answered as printed.
"""
from __future__ import annotations

import doctest
import importlib.util
import re
import sys
from typing import Any, Dict, Iterator

IMPORT = re.compile(r'import (\w+)')


def sections(name: str) -> Iterator[doctest.DocTest]:
    with open(name, encoding='utf-8') as readme:
        texts = re.split(r'(?m)^## ', readme.read())
    for text in texts:
        title = text.split('\n')[0]
        test = doctest.DocTestParser().get_doctest(text, {}, title, name, 0)
        if test.examples:
            yield test


def missing_in(test: doctest.DocTest) -> str:
    """What a section imports and is not installed."""
    imported = (IMPORT.match(example.source) for example in test.examples)
    return ', '.join(found[1] for found in imported if found and not importlib.util.find_spec(found[1]))


def main(arguments: list) -> int:
    if len(arguments) != 1:
        print(__doc__, file=sys.stderr)
        return 2
    runner, session = doctest.DocTestRunner(), {}  # type: doctest.DocTestRunner, Dict[str, Any]
    for test in sections(arguments[0]):
        missing = missing_in(test)
        if missing:
            print(f'Python: skipped: "{test.name}" of {arguments[0]}: {missing} is not installed')
            continue
        test.globs = session
        runner.run(test, clear_globs=False)
    print(f'{runner.tries} lines of {arguments[0]} typed, {runner.failures} answered otherwise')
    return 0 if runner.tries and not runner.failures else 1


if __name__ == '__main__':
    sys.exit(main(sys.argv[1:]))
