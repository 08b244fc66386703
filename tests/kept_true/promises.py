"""The tables of docs/PROMISES.md: each public function, and each conversion, has a row under its crate, and the law that it names is there."""
import re
from pathlib import Path
from typing import NamedTuple

from definitions import definitions_in
from texts import COVERS, OF_INPUT, OF_LAWS, PROMISES, Finding, bare_lines, crates, files_of, is_program, once, section_of


class Row(NamedTuple):
    line: int
    name: str
    cells: list[str]


@once
def rows_of(crate: str) -> dict[str, Row]:
    """The rows under a crate's heading, by the function (of a crate of laws: the law) that each begins with."""
    found = {}
    for number, line in section_of(crate):
        if row := re.match(r'\| `([\w-]+)` \|', line):
            found[row[1]] = Row(number, row[1], [cell.strip() for cell in line.strip().strip('|').split('|')])
    return found


PUBLIC = re.compile(r'\s*pub (?:extern "C" )?fn (\w+)')


def public_functions(crate: str) -> dict[str, tuple[Path, int]]:
    return {match[1]: (file, number) for file in files_of(crate, 'src') for number, line in enumerate(bare_lines(file), 1)
            if (match := PUBLIC.match(line))}


CONVERSION = re.compile(r'impl(?:<[^{]*?>)? ((?:From|TryFrom)<.*> for .*) \{$')


def conversions(crate: str) -> dict[str, tuple[Path, int]]:
    """The conversions that a crate gives a type, each by what its impl says."""
    return {match[1]: (file, number) for file in files_of(crate, 'src') for number, line in enumerate(bare_lines(file), 1)
            if (match := CONVERSION.match(line.strip()))}


def conversion_of(row: Row) -> list[str]:
    """A row that begins with no function's name names the impl that it speaks of: `impl From<A> for B`."""
    return re.findall(r'`impl ((?:From|TryFrom)<[^`]*> for [^`]*)`', row.cells[1])


def conversions_told(crate: str) -> list[str]:
    """Those that stand behind an export, and have no row of their own: a sentence under the crate's heading names them."""
    told = '\n'.join(line for _, line in section_of(crate) if not line.startswith('|'))
    return re.findall(r'`impl ((?:From|TryFrom)<[^`]*> for [^`]*)`', told)


def stands_in(row: Row) -> list[str]:
    """A row whose function went says which one states its promise: "now `row_of`: ..". Its wrong programs keep their names."""
    return re.findall(r'^now `(\w+)`', row.cells[1])


def has_lemma(crate: str, name: str) -> bool:
    return any(known.name == name for file in files_of(crate, 'proofs') for known in definitions_in(file))


OF_CROSSING = ('writes_one', 'family_from_one')  # laws of `crossing` that rows of other crates name


def law_of(crate: str, row: Row) -> list[Finding]:
    """The column 'one answer' names a law of the crate's own, or more than one, where a definition has its own beside the function's."""
    if crate in OF_INPUT:
        return []
    named = re.findall(r'`(\w+_one)`', row.cells[2])
    if not named:
        return [Finding(PROMISES, row.line, f'`{row.name}` does not name a one-answer law')]
    homes = {law: 'crossing' if law in OF_CROSSING else crate for law in named}
    return [Finding(PROMISES, row.line, f'`{home}` has no law `{law}`') for law, home in homes.items() if not has_lemma(home, law)]


def said_of(crate: str) -> dict[str, tuple[Path, int, str]]:
    """Each public function of a crate with its parameters, its answer and its clauses, up to its body."""
    found = {}
    for name, (file, number) in public_functions(crate).items():
        said = []
        for line in bare_lines(file)[number - 1:]:
            if line.strip() == '{':
                break
            said.append(line.strip())
        found[name] = (file, number, ' '.join(said))
    return found


def covers() -> list[Finding]:
    """Each export of the static library says of itself what the function that it covers says."""
    known = {name: said for crate in crates() if crate.startswith('quay_') for name, (_, _, said) in said_of(crate).items()}
    exported = said_of(COVERS)
    found = [Finding(file, line, f'`{name}` does not say what the function that it covers says')
             for name, (file, line, said) in exported.items() if known.get(name) != said]
    return found + [Finding(PROMISES, 1, f'`{COVERS}` does not export `{name}`') for name in known if name.startswith('quay_') and name not in exported]


def findings() -> list[Finding]:
    found = covers()
    for crate in crates():
        if is_program(crate) or crate in OF_LAWS or crate == COVERS:
            continue
        rows = rows_of(crate)
        functions = public_functions(crate)
        found += [Finding(file, line, f'docs/PROMISES.md has no row for `{crate}::{name}`')
                  for name, (file, line) in functions.items() if name not in rows]
        given = conversions(crate)
        named = {said for row in rows.values() for said in conversion_of(row)} | set(conversions_told(crate))
        found += [Finding(file, line, f'docs/PROMISES.md has no row for `impl {said}` of `{crate}`')
                  for said, (file, line) in given.items() if said not in named]
        found += [Finding(PROMISES, row.line, f'`{crate}` has no `impl {said}`')
                  for row in rows.values() for said in conversion_of(row) if said not in given]
        found += [Finding(PROMISES, 1, f'`{crate}` has no `impl {said}`') for said in conversions_told(crate) if said not in given]
        for name, row in rows.items():
            if any(now not in functions for now in stands_in(row)):
                found.append(Finding(PROMISES, row.line, f'`{crate}` has no public function that `{name}` could be now'))
            if name not in functions and not conversion_of(row) and not stands_in(row):
                found.append(Finding(PROMISES, row.line, f'`{crate}` has no public function `{name}`'))
            found += law_of(crate, row)
    return found
