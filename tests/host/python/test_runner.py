"""The runner of case lines sees what is wrong: an answer that differs in any word, a line that is no case, a file without cases."""
from __future__ import annotations

import contextlib
import io
import os
import unittest
from typing import Dict, Iterator, List

import binding  # noqa: F401 (puts the runner's folder on the path)
import runner

GOOD = 'value 5102000103 = 0 251000000'


def run(*lines: str) -> tuple:
    said = io.StringIO()
    with contextlib.redirect_stdout(said), contextlib.redirect_stderr(said):
        status = runner.run(lines)
    return status, said.getvalue()


def first_cases() -> Dict[str, str]:
    """The first case of each function in the file of case lines."""
    found: Dict[str, str] = {}
    with open(os.environ['QUAY_CASES'], encoding='ascii') as cases:
        for line in cases:
            found.setdefault(line.split(' ')[0], line.rstrip('\n'))
    return found


def changed(word: str) -> str:
    """Another word of the same form: its last digit is another."""
    return '00' if word in ('-', 'nan') else word[:-1] + ('1' if word[-1] == '0' else '0')


def wrong_answers(line: str) -> Iterator[str]:
    asked, _, answer = line.partition(' = ')
    words: List[str] = answer.split(' ')
    for place, word in enumerate(words):
        yield asked + ' = ' + ' '.join(words[:place] + [changed(word)] + words[place + 1:])


class TheRunner(unittest.TestCase):
    def test_a_good_case(self) -> None:
        self.assertEqual(run(GOOD), (0, '1 cases, 0 differ\n'))

    def test_a_wrong_answer_in_any_word_of_any_function_is_seen(self) -> None:
        cases = first_cases()
        self.assertEqual(sorted(cases), sorted(runner.FORMS))
        for name, line in cases.items():
            self.assertEqual(run(line)[0], 0)
            for wrong in wrong_answers(line):
                status, said = run(GOOD, wrong)
                self.assertEqual(status, 1)
                self.assertRegex(said, f'^line 2: {name}: wanted .*, given .*\n2 cases, 1 differ\n$')

    def test_ten_differences_are_shown_and_all_are_counted(self) -> None:
        status, said = run(*['value 5102000103 = 0 0'] * 12)
        self.assertEqual((status, said.count('\n'), said.splitlines()[-1]), (1, 11, '12 cases, 12 differ'))

    def test_a_line_that_is_no_case_ends_the_run(self) -> None:
        wrong = ['', 'weigh 5102000103 = 0', 'value 5102000103 0 251000000', 'value 510200010 = 0 0', 'value 510200FF03 = 0 0',
                 'value 51020001 = 0 251000000', 'value 5102000103 7 = 0 251000000', 'value  5102000103 = 0 251000000',
                 'value 5102000103 = 0', 'value 5102000103 = 0 x', 'step - 18446744073709551616 = 0', 'step - -1 = 0',
                 'step - 01 = 0', 'list_total 1 2 = 0']
        for line in wrong:
            status, said = run(GOOD, line, GOOD)
            self.assertEqual((status, said.startswith('line 2: '), 'cases' in said), (1, True, False), line)

    def test_no_cases_are_not_a_pass(self) -> None:
        self.assertEqual(run(), (1, '0 cases, 0 differ\n'))

    def test_a_touched_guard_is_told(self) -> None:
        room = runner.Room(b'\x01\x02')
        self.assertEqual(room.left(), b'\x01\x02')
        room.buffer[2] = b'\x00'
        self.assertNotEqual(room.left(), b'\x01\x02')


if __name__ == '__main__':
    unittest.main()
