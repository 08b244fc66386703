"""No unused definition: what specs/ defines is named by another definition, a contract or a proof; what proofs/ shows is cited, or
docs/PROMISES.md names it."""
import re
from pathlib import Path
from typing import NamedTuple

from imports import is_used
from texts import (PROMISES, ROOT, Finding, Import, bare_lines, crates, files_of, imports_of, lines_of, lines_with, once, qualified_in,
                   section_of)


class Definition(NamedTuple):
    file: Path
    name: str
    line: int
    end: int     # the last line of its own clauses
    public: bool
    claims: str  # what stands behind the colon on its first line


HEAD = re.compile(r' *(?P<marks>(?:(?:pub|abbrev|unfoldable) )*)'
                  r'(?:(?:record|data|ruleset) (?P<type>[^\s(){}:]+)|(?P<name>[^\s(){}:]+)(?: \{[^}]*\})* :(?= |$)(?P<claims>.*))')
BLOCK = re.compile(r'( *)module _\b')


@once
def definitions_in(file: Path) -> list[Definition]:
    """The definitions of a file, and those inside its `module _ .. where` blocks, whose lines stand two places further in."""
    heads = []  # where each begins, and where blocks begin: either ends what stands above
    depth = 0
    for number, line in enumerate(bare_lines(file), 1):
        if not line or file.suffix != '.antt':
            continue
        indent = len(line) - len(line.lstrip())
        if indent < depth:
            depth = indent - indent % 2
        if block := BLOCK.match(line):
            depth = len(block[1]) + 2
            heads.append((number, None))
        elif (head := HEAD.match(line)) and indent == depth:
            heads.append((number, head))
    ends = [number - 1 for number, _ in heads[1:]] + [len(lines_of(file))]
    return [Definition(file, head['type'] or head['name'], number, end, 'pub' in head['marks'], (head['claims'] or '').strip())
            for (number, head), end in zip(heads, ends) if head]


def module_of(file: Path) -> str:
    """crates/body/specs/Body.antt is `body.specs.Body`; a line names it `Rattle.body.specs.Body`."""
    crate, *rest = file.relative_to(ROOT / 'crates').with_suffix('').parts
    return '.'.join([crate, *rest])


def module_named(found: Import) -> str:
    return re.sub(r'^Rattle\.', '', found.module)


IN_TACTIC = re.compile(r"(\w+)::((?:proofs|specs)(?:::[A-Z]\w*)+)::([^\s,()]+)")


@once
def named_in_tactics() -> set[tuple[str, str]]:
    """The pairs of a module and a name of it that a function's `#[tactic(auto, using(..), unfolding(..))]` gives the search."""
    found = set()
    for crate in crates():
        for file in files_of(crate, 'src'):
            for home, module, name in IN_TACTIC.findall('\n'.join(bare_lines(file))):
                found.add(('.'.join([crate if home == 'crate' else home, *module.split('::')]), name))
    return found


@once
def named_from_outside() -> set[tuple[str, str]]:
    """The pairs of a module and a name of it that another file imports and uses."""
    found = set(named_in_tactics())
    for crate in crates():
        for file in files_of(crate):
            for brought in imports_of(file):
                if brought.whole:
                    found |= {(module_named(brought), name) for local, name in qualified_in(file) if local == brought.local}
                elif is_used(file, brought):
                    found.add((module_named(brought), brought.name))
    return found


def is_named(known: Definition) -> bool:
    inside = lines_with(known.file, known.name) - set(range(known.line, known.end + 1))
    return bool(inside) or (module_of(known.file), known.name) in named_from_outside()


@once
def named_in_promises() -> set[str]:
    """Every name in backticks; of `Values.value_bound` the part behind the dot."""
    text = '\n'.join(lines_of(PROMISES))
    return {name for span in re.findall(r'`([^`]+)`', text) for name in re.split(r'[\s./:]+', span)}


@once
def files_in_promises(crate: str) -> set[str]:
    """The files of laws that a crate's section names as a whole, as in "no line is longer than 72 bytes (`Lengths`)"."""
    laws = '\n'.join(line for _, line in section_of(crate) if not line.startswith('|'))
    return set(re.findall(r'`(?:proofs/)?([A-Z]\w*)`', laws))


@once
def statements() -> set[str]:
    return {known.name for file in files_of('demands', 'specs') for known in definitions_in(file)}


def is_an_end(known: Definition) -> bool:
    """What is shown for its own sake: a one-answer law, an answer to a goal, a demand, what docs/PROMISES.md names by itself or by its file."""
    crate = known.file.relative_to(ROOT / 'crates').parts[0]
    if known.file.name == 'OneAnswer.antt' and known.name.endswith('_one'):
        return True
    if known.claims.startswith('goal.') or known.name.endswith('_spec') or known.name in named_in_promises():
        return True
    if known.file.stem in files_in_promises(crate):
        return True
    return crate == 'demands' and known.claims in statements()


def findings() -> list[Finding]:
    found = []
    for crate in crates():
        for file in files_of(crate, 'specs'):
            found += [Finding(file, known.line, f'`{known.name}` is defined and named nowhere else')
                      for known in definitions_in(file) if not is_named(known)]
        for file in files_of(crate, 'proofs'):
            found += [Finding(file, known.line, f'`{known.name}` is shown, and neither cited nor named in docs/PROMISES.md')
                      for known in definitions_in(file) if not is_named(known) and not is_an_end(known)]
    return found
