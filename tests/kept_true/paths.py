"""Every path that README.md and docs/ mention is there, and so is every law or definition that they name with its file."""
import re
from pathlib import Path

from definitions import definitions_in
from texts import ROOT, Finding, crates, files_of, lines_of, once

PATH = re.compile(r'(?<![\w/.])(?:docs|crates|tests|bench|bindings|bin|samples)/[\w./*-]*')


def exists(path: str) -> bool:
    """A part in capitals, as NAME, stands for any name."""
    pattern = re.sub(r'\b[A-Z][A-Z_]+\b(?!\.)', '*', path)
    return any(True for _ in ROOT.glob(pattern)) if '*' in pattern else (ROOT / pattern).exists()


def in_crate(line: str) -> list[str]:
    """`line/specs/Readers`, and `line/proofs/Joined.told`: a crate's file without its ending, or a name in it."""
    known = '|'.join(crates())
    found = re.findall(rf'(?<![\w/.])({known})/(specs|proofs)/(\w+)', line)
    return [f'crates/{crate}/{folder}/{file}.antt' for crate, folder, file in found]


@once
def known() -> dict[str, set[str]]:
    """What is defined and shown in the files of each name, of whichever crate."""
    found: dict[str, set[str]] = {}
    for file in (file for crate in crates() for file in files_of(crate) if file.suffix == '.antt'):
        found.setdefault(file.stem, set()).update(definition.name for definition in definitions_in(file))
    return found


def laws_missing(line: str) -> list[str]:
    """`Rebuilding.rebuilt`, and `weight/specs/Tenths.valueOf`: a name behind its file's. Of other names with a dot nothing is said."""
    named = re.findall(r'`(?:[\w/]+/)?([A-Z]\w*)\.([^\s`.]+)`', line)
    return [f'{file}.{name}' for file, name in named if file in known() and name not in known()[file] and name != 'antt']


def findings_in(file: Path) -> list[Finding]:
    found = []
    for number, line in enumerate(lines_of(file), 1):
        named = [path.rstrip('.') for path in PATH.findall(line)] + in_crate(line)
        missing = [path for path in named if not exists(path)] + laws_missing(line)
        found += [Finding(file, number, f'there is no {what}') for what in missing]
    return found


def findings() -> list[Finding]:
    return [found for file in [ROOT / 'README.md', *sorted((ROOT / 'docs').glob('*.md'))] for found in findings_in(file)]
