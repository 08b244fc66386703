"""No crate is given another that it does not name: crates.txt says what an edit proves again, and no more. And a finding stays on the crew's sheet."""
import re

from texts import ROOT, Finding, bare_lines, crates, files_of

# Named nowhere and needed all the same: with the crate out of the line the prover refuses what is said here.
NEEDED: dict[tuple[str, str], str] = {}

# "The finding is for the crew's sheet only" (02, request 9): laws and programs of the sheet may ask for one, and no reader, message or log does.
FOR_THE_SHEET = {'bad_bit': ('bit_meter', 'bit_vectors', 'crew_sheet')}


def names(crate: str, other: str) -> bool:
    """Code names a crate by `other::`, definitions, proofs and contracts by `Rattle.other.`"""
    named = re.compile(rf'(?<![\w:]){other}::|Rattle\.{other}\.')
    return any(named.search(line) for file in files_of(crate) for line in bare_lines(file))


def strangers() -> list[Finding]:
    """Crates that stand on one whose answers are for the sheet alone."""
    return [Finding(ROOT / 'crates.txt', line, f'`{crate}` stands on `{other}`, whose findings are for the crew\'s sheet only')
            for crate, (line, given) in crates().items() for other in given
            if other in FOR_THE_SHEET and crate not in FOR_THE_SHEET[other]]


def findings() -> list[Finding]:
    listed = ROOT / 'crates.txt'
    found = strangers()
    for crate, (line, given) in crates().items():
        for other in given:
            if names(crate, other):
                if (crate, other) in NEEDED:
                    found.append(Finding(listed, line, f'`{crate}` names `{other}`: it is no exception any more'))
            elif (crate, other) not in NEEDED:
                found.append(Finding(listed, line, f'`{crate}` is given `{other}`, which no line of it names'))
    gone = [pair for pair in NEEDED if pair[0] not in crates() or pair[1] not in crates()[pair[0]][1]]
    return found + [Finding(listed, 1, f'`{crate}` is not given `{other}`: it is no exception any more') for crate, other in gone]
