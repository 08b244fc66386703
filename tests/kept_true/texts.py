"""What every check reads: the repository's files, their lines without comments, the names in them, and what they import."""
import re
from functools import lru_cache
from pathlib import Path
from typing import NamedTuple

ROOT = Path(__file__).resolve().parents[2]
PROMISES = ROOT / 'docs' / 'PROMISES.md'


class Finding(NamedTuple):
    """Something that is not true, and where."""
    file: Path
    line: int
    what: str

    def __str__(self) -> str:
        return f'{self.file.relative_to(ROOT)}:{self.line}: {self.what}'


class Import(NamedTuple):
    """One name that an import line brings into its file."""
    line: int
    module: str
    written: str  # as it stands in the braces; of a line without braces, all behind 'use'
    name: str     # under its own name
    local: str    # under the name that the file gives it
    whole: bool   # a module: its names are written behind it, `local.x`


class Word(NamedTuple):
    """A name where it stands in a text; `behind` is what is written in front of it, up to the dots or colons between."""
    line: int
    name: str
    behind: str
    leads: bool  # a dot or colons follow at once: it leads to a name


REMEMBERED = []


def once(function):
    """Remembers what a function answered of the files: each is read once, though many checks ask."""
    remembered = lru_cache(maxsize=None)(function)
    REMEMBERED.append(remembered)
    return remembered


def forget() -> None:
    """To be called where a file was written."""
    for remembered in REMEMBERED:
        remembered.cache_clear()


@once
def lines_of(file: Path) -> list[str]:
    return file.read_text(encoding='utf-8').split('\n')


def crates() -> dict[str, tuple[int, list[str]]]:
    """Each crate: the line of crates.txt where it stands, and the crates that it is given."""
    found = {}
    for number, line in enumerate(lines_of(ROOT / 'crates.txt'), 1):
        if ':' in line and not line.startswith('#'):
            name, given = line.split(':')
            found[name.split()[0]] = (number, given.split())  # behind its name a crate may be called a static library
    return found


def section_of(crate: str) -> list[tuple[int, str]]:
    """The lines of docs/PROMISES.md under a crate's heading, with their numbers."""
    found = []
    inside = False
    for number, line in enumerate(lines_of(PROMISES), 1):
        if line.startswith('#'):
            inside = line == f'### `{crate}`'
        elif inside:
            found.append((number, line))
    return found


OF_LAWS = ('register', 'check_misses', 'crew_sheet', 'demands')  # crates that have laws in place of functions, and wrong programs of these
COVERS = 'quay'  # the static library: each of its functions covers one of a library and says its clauses again, word for word
OF_INPUT = ('blocks',)  # what an input gives nobody can say ahead, so there is no law of one answer


def is_program(crate: str) -> bool:
    return (ROOT / 'crates' / crate / 'src' / 'main.rt').is_file()


@once
def files_of(crate: str, folder: str = '') -> list[Path]:
    """Code, definitions and proofs of a crate, or those of one of its folders."""
    inside = ROOT / 'crates' / crate / folder
    kept = ROOT / 'crates' / crate / 'out'  # what rt keeps is no text of ours
    return sorted(file for file in inside.rglob('*') if file.suffix in ('.rt', '.antt') and kept not in file.parents)


@once
def bare_lines(file: Path) -> list[str]:
    """The lines without their comments. No string of ours holds the two signs that begin one."""
    comment = re.compile(r'//.*' if file.suffix == '.rt' else r'(?<!\S)--.*')
    return [comment.sub('', line).rstrip() for line in lines_of(file)]


BRACED = re.compile(r'\s*(?:ghost )?use (?P<module>[^{}]+?)(?:\.|::)\{(?P<names>.*)\};?$')
WHOLE = re.compile(r'\s*(?:ghost )?use (?P<module>[^{}; ]+)(?: as (?P<local>[^; ]+))?;?$')


def imports_in(line: str, number: int) -> list[Import]:
    """What a line imports. A `pub use` passes a name on: whoever uses it stands elsewhere."""
    if braced := BRACED.match(line):
        found = []
        for written in braced['names'].split(', '):
            name, _, local = written.partition(' as ')
            found.append(Import(number, braced['module'], written, name, local or name, False))
        return found
    if whole := WHOLE.match(line):
        # Rust's `use a::b;` brings b itself; antt's `use a.b` brings a module
        module, _, name = re.match(r'(.*?)(::|\.)([^.:]+)$', whole['module']).groups()
        is_module = '::' not in whole['module']
        written = line.strip().removeprefix('ghost ').removeprefix('use ').rstrip(';')
        return [Import(number, whole['module'] if is_module else module, written, name, whole['local'] or name, is_module)]
    return []


@once
def imports_of(file: Path) -> list[Import]:
    return [found for number, line in enumerate(bare_lines(file), 1) for found in imports_in(line, number)]


# A name of antt is whatever stands between blanks, brackets, commas and dots; in Rust colons and signs end one too.
ANTT_WORDS = re.compile(r'[⟦⟧⌜⌝]|[^\s(){};,.⟦⟧⌜⌝]+')
RUST_WORDS = re.compile(r'\w+')
BEHIND = re.compile(r'([^\s(){};,.:⟦⟧⌜⌝]*)(?:\.|::)$')


@once
def words_of(file: Path, rust: bool = False) -> list[Word]:
    """Every name outside import lines: as antt reads the file, or as Rust does."""
    pattern = RUST_WORDS if rust else ANTT_WORDS
    importing = {found.line for found in imports_of(file)}
    found = []
    for number, line in enumerate(bare_lines(file), 1):
        if number in importing:
            continue
        text = line.replace('..', '  ')  # of a range; no name stands in front of one
        for word in pattern.finditer(text):
            behind = BEHIND.search(text, 0, word.start()) if text[:word.start()].endswith(('.', '::')) else None
            leads = text.startswith(('.', '::'), word.end()) and not text.startswith('. ', word.end())
            found.append(Word(number, word[0], behind[0] if behind else '', leads))
    return found


@once
def lines_naming(file: Path, rust: bool = False) -> dict[str, set[int]]:
    """For each name that stands by itself in a file, not behind a dot or colons, the lines where it does."""
    found: dict[str, set[int]] = {}
    for word in words_of(file, rust):
        if not word.behind:
            found.setdefault(word.name, set()).add(word.line)
    return found


@once
def qualified_in(file: Path) -> set[tuple[str, str]]:
    """The pairs of a module's local name and the name written behind it."""
    return {(word.behind.rstrip('.:'), word.name) for word in words_of(file) if word.behind}


def lines_with(file: Path, name: str) -> set[int]:
    """The lines that use a name of antt. `◌+◌` is used as `+`, a name of several parts by its words."""
    named = lines_naming(file)
    here = set(named.get(name, ()))
    parts = [part for part in re.split(r'[◌\s{}]+', name.removeprefix('syntax ')) if part]
    if parts != [name] and all(part in named for part in parts):
        here |= named[parts[0]]
    return here
