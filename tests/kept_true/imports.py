"""No unused import: each name that a file brings in is used in it, outside its import lines.

A name that the file also binds itself (a parameter, a field's label) passes for a use: text alone cannot tell the two apart. No import is
needed without being named: a module `Reads` or `Lts` beside a proof is not looked up by `search needs` either (tried: without them every
crate was proved).
"""
from pathlib import Path

from texts import Finding, Import, crates, files_of, forget, imports_of, lines_naming, lines_of, lines_with, words_of


def is_rust(file: Path, found: Import) -> bool:
    """Code imports for itself; a `ghost use` imports for the contracts, which antt reads."""
    return file.suffix == '.rt' and not lines_of(file)[found.line - 1].lstrip().startswith('ghost ')


def heads_import(file: Path, found: Import) -> bool:
    """Another import line may begin with a name that this one brings: `use c.M as q`, then `use q.{x}`."""
    return any(other.module.split('.')[0] == found.local for other in imports_of(file) if other.line != found.line)


def is_used(file: Path, found: Import) -> bool:
    if found.whole:
        return any(word.name == found.local and word.leads and not word.behind for word in words_of(file)) or heads_import(file, found)
    if is_rust(file, found):
        return found.local in lines_naming(file, rust=True)
    return bool(lines_with(file, found.local)) or heads_import(file, found)


def unused_in(file: Path) -> list[Import]:
    return [found for found in imports_of(file) if not is_used(file, found)]


def sources() -> list[Path]:
    return [file for crate in crates() for file in files_of(crate)]


def findings() -> list[Finding]:
    return [Finding(file, found.line, f'`{found.local}` is imported and not used') for file in sources() for found in unused_in(file)]


def without(line: str, dropped: list[Import]) -> str | None:
    """An import line without some of its names, or None where no name is left."""
    if dropped[0].whole or '{' not in line:
        return None
    head, _, rest = line.partition('{')
    names, _, tail = rest.rpartition('}')
    gone = {found.written for found in dropped}
    left = [name for name in names.split(', ') if name not in gone]
    return f'{head}{{{", ".join(left)}}}{tail}' if left else None


def drop() -> int:
    """Takes every unused import out of its file. Answers how many."""
    count = 0
    for file in sources():
        by_line: dict[int, list[Import]] = {}
        for found in unused_in(file):
            by_line.setdefault(found.line, []).append(found)
        if not by_line:
            continue
        kept = [without(line, by_line[number]) if number in by_line else line for number, line in enumerate(lines_of(file), 1)]
        file.write_text('\n'.join(line for line in kept if line is not None), encoding='utf-8')
        count += sum(map(len, by_line.values()))
    forget()
    return count
