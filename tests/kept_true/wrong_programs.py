"""Wrong programs: docs/PROMISES.md names each in its function's row, and the line that each changes stands in the code once.

The gate's are crates/NAME/must-fail/FUNCTION--LABEL.edit, the others tests/wrong/NAME/FUNCTION--LABEL.edit.
"""
from pathlib import Path
from typing import NamedTuple

from promises import Row, rows_of
from texts import OF_LAWS, PROMISES, ROOT, Finding, crates, forget, lines_of

OF_DEFINITION = ' †'  # the definition was made wrong, and the code as it is was refused
BESIDE_GATE = ' ‡'


class Edit(NamedTuple):
    path: Path
    crate: str
    function: str
    label: str  # as docs/PROMISES.md writes it, with its marks


def field(edit: Path, name: str) -> tuple[int, str]:
    """A field of an edit, and its line: `name: ` and then all of the line that it speaks of, blanks and all."""
    for number, line in enumerate(lines_of(edit), 1):
        if line.startswith(name + ': '):
            return number, line[len(name) + 2:]
    return 1, ''


def edit_at(path: Path, crate: str, mark: str) -> Edit:
    function, _, label = path.stem.partition('--')
    of_definition = OF_DEFINITION if field(path, 'file')[1].startswith('specs/') else ''
    return Edit(path, crate, function, label.replace('_', ' ') + of_definition + mark)


def edits_of(crate: str) -> list[Edit]:
    """Those of the gate first, by name, then the others, by name: the order in which a row lists them."""
    gate = sorted((ROOT / 'crates' / crate / 'must-fail').glob('*.edit'))
    beside = sorted((ROOT / 'tests' / 'wrong' / crate).glob('*.edit'))
    return [edit_at(path, crate, '') for path in gate] + [edit_at(path, crate, BESIDE_GATE) for path in beside]


def row_name(edit: Edit) -> str:
    """A crate of laws has them in place of functions, and a law that would have a definition's name ends in `_lem`."""
    law = edit.function + '_lem'
    return law if edit.crate in OF_LAWS and law in rows_of(edit.crate) else edit.function


def labels(row: Row) -> list[str]:
    return [label for label in row.cells[-1].split('; ') if label]


def unnamed(crate: str) -> list[Finding]:
    """Edits that no row names, and names in rows that are no edit's."""
    rows = rows_of(crate)
    edits = edits_of(crate)
    found = []
    for edit in edits:
        row = rows.get(row_name(edit))
        if row is None:
            found.append(Finding(edit.path, 1, f'docs/PROMISES.md has no row `{row_name(edit)}` under `{crate}`'))
        elif edit.label not in labels(row):
            found.append(Finding(PROMISES, row.line, f'`{row.name}` does not name "{edit.label}", which is tried'))
    there = {(row_name(edit), edit.label) for edit in edits}
    for row in rows.values():
        found += [Finding(PROMISES, row.line, f'`{row.name}` names "{label}", which is not tried')
                  for label in labels(row) if (row.name, label) not in there]
    return found


def strangers() -> list[Finding]:
    """Folders of tests/wrong that belong to no crate: their edits would be looked for nowhere."""
    folders = (path for path in (ROOT / 'tests' / 'wrong').iterdir() if path.is_dir())
    return [Finding(folder, 1, 'no crate of crates.txt has this name') for folder in folders if folder.name not in crates()]


def misplaced(edit: Edit) -> list[Finding]:
    """The line to be changed must stand in its file once. `rt` takes a part of a line too; a whole one shows where it belongs."""
    _, name = field(edit.path, 'file')
    line, old = field(edit.path, 'old')
    file = ROOT / 'crates' / edit.crate / name
    if not name or not file.is_file():
        return [Finding(edit.path, line, f'there is no file "{name}" in `{edit.crate}`')]
    times = lines_of(file).count(old)
    if times == 1:
        return []
    if times > 1:
        return [Finding(edit.path, line, f'its old line stands {times} times in {name}')]
    inside = old and any(old in other for other in lines_of(file))
    return [Finding(edit.path, line, f'its old line is {"a part of a line" if inside else "nowhere"} in {name}')]


def findings() -> list[Finding]:
    found = strangers()
    for crate in crates():
        found += unnamed(crate)
        for edit in edits_of(crate):
            found += misplaced(edit)
    return found


def written(row: str, edits: list[Edit]) -> str:
    """A row with its last cell made of the edits."""
    head = row.rstrip('|').rpartition('|')[0]
    cell = '; '.join(edit.label for edit in edits)
    return f'{head}| {cell} |' if cell else f'{head}| |'


def write() -> None:
    """Makes the last columns of docs/PROMISES.md anew. Under a crate of laws rows come and go with the edits: they have no other column."""
    lines = list(lines_of(PROMISES))
    for crate in crates():
        by_row: dict[str, list[Edit]] = {}
        for edit in edits_of(crate):
            by_row.setdefault(row_name(edit), []).append(edit)
        rows = rows_of(crate)
        for name, row in rows.items():
            lines[row.line - 1] = written(lines[row.line - 1], by_row.get(name, []))
        if crate in OF_LAWS and rows:
            first, last = min(row.line for row in rows.values()), max(row.line for row in rows.values())
            laws = '\n'.join(written(f'| `{name}` | |', by_row[name]) for name in sorted(by_row))
            # one element for all of them, so that the lines of the sections below keep their places
            lines[first - 1:last] = [laws] + [None] * (last - first)
    PROMISES.write_text('\n'.join(line for line in lines if line is not None), encoding='utf-8')
    forget()
