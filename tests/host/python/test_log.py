"""The friendly part of the Python binding: the log, its rows, the listing, and the example."""
from __future__ import annotations

import contextlib
import importlib.util
import io
import os
import tempfile
import unittest
from fractions import Fraction
from unittest import mock

import binding
import example
import listing as model_listing  # the second model's
import quay
from test_quay import E1, E3, E4, E6, FAMILY, NO_WEIGHT, RefusedCase, heard

HEAVY = quay.Weighing(1000, quay.Load.GROSS, quay.Address(1), quay.Weight(0x51, 0x02, 0, 0x01, FAMILY))
LIGHT = quay.Weighing(2**64 - 1, quay.Load.NET, quay.Address(serial=70501), quay.Weight(0, 0, 0, 0xB0, quay.Family.OF_001))
UNREAD = quay.RefusalMet(1001, 4)
RECORDS = (HEAVY, UNREAD, LIGHT)
LOG = b''.join(quay.write_record(record) for record in RECORDS)
BROKEN = bytes(8) + b'\x01\x01' + bytes(3) + b'\x10' + b'\xff\xff\xff' + bytes(3)
WEIGHT_KEYS = ('address', 'serial', 'value', 'kilograms', 'kilograms_exact', 'sign', 'digits', 'point', 'settled', 'overload', 'family',
               'mode')


def shown_of(row: quay.Row) -> object:
    """A row's digits as the listing shows them, or its refusal."""
    if row['refusal'] is not None:
        return row['refusal']
    return '------' if row['overload'] else row['digits']


class Records(RefusedCase):
    def test_what_is_written_reads_back(self) -> None:
        high = [quay.Weighing(0, quay.Load.NET, quay.Address(short), HEAVY.weight) for short in (0x9F, 0xA0, 0xA4, 0xF0, 0xFD)]
        for record in (*RECORDS, *high):
            self.assertEqual(quay.read_record(quay.write_record(record)), record)
        self.assertEqual(quay.write_record(HEAVY).hex(), 'e803000000000000' + '0101000000' + '01' + '510200' + '030000')

    def test_a_record_that_breaks_a_rule_is_not_written(self) -> None:
        gross, weight = quay.Load.GROSS, HEAVY.weight
        wrong = [quay.Weighing(0, gross, quay.Address(short), weight) for short in (0, 0xFE, 0xFF, 257, -1)]
        wrong += [quay.Weighing(0, gross, quay.Address(serial=serial), weight) for serial in (2**24, 2**32, -1)]
        wrong += [quay.Weighing(0, gross, quay.Address(1), NO_WEIGHT)]
        wrong += [quay.RefusalMet(0, number) for number in (0, 9, 255, 257, -255)]
        for record in wrong:
            self.refused(11, quay.write_record, record)

    def test_a_time_that_is_none_is_not_cut_to_another(self) -> None:
        for time in (-1, 2**64, 1.5):
            with self.assertRaises(ValueError):
                quay.write_record(quay.RefusalMet(time, 4))
            with self.assertRaises(ValueError):
                quay.record_heard(time, quay.LineRefusal(4, 0, 0))

    def test_bytes_that_are_no_record(self) -> None:
        for held in (b'', LOG[:19], LOG[:21], BROKEN):
            self.refused(11, quay.read_record, held)

    def test_the_record_of_what_was_heard(self) -> None:
        told = [quay.record_heard(1000, event) for event in heard([E3 + E6 + E1])]
        self.assertEqual(told, [HEAVY, quay.RefusalMet(1000, 4), quay.RefusalMet(1000, 7)])
        asked, = heard([E1])
        self.assertIsNone(quay.record_heard(1000, asked, quay.Role.REQUEST))
        serial, = heard([quay.write_message(quay.Role.REPLY, FAMILY, quay.Address(1), 0xA1, bytes(3))])
        self.assertIsNone(quay.record_heard(1000, serial))

    def test_an_event_that_is_none(self) -> None:
        self.refused(8, quay.record_heard, 0, quay.LineRefusal(77, 0, 0))
        with self.assertRaises(ValueError):
            quay.record_heard(0, quay.LineRefusal(256 + 4, 0, 0))
        damaged = quay.Frame(10, 7, bytes.fromhex('01c351020001dd'), FAMILY)
        self.assertEqual(quay.record_heard(5, damaged), quay.RefusalMet(5, 4))


class Rows(RefusedCase):
    def test_a_whole_log(self) -> None:
        self.assertEqual(quay.read_log(LOG), quay.Log(RECORDS, None))
        self.assertEqual((quay.rows(b''), quay.read_log(b'').ending), ([], None))
        heavy, unread, light = quay.rows(LOG)
        self.assertEqual(heavy, {
            'time': 1000, 'kind': 'gross', 'refusal': None, 'address': 1, 'serial': None, 'value': 251_000_000, 'kilograms': 25.1,
            'kilograms_exact': Fraction(251, 10), 'sign': '+', 'digits': '000251', 'point': 1, 'settled': False, 'overload': False,
            'family': '002', 'mode': 'gross'})
        shown = ('time', 'kind', 'address', 'serial', 'value', 'sign', 'settled', 'overload', 'family', 'mode')
        self.assertEqual([light[key] for key in shown], [2**64 - 1, 'net', None, 70501, 0, '-', True, False, '001', 'scale1'])
        self.assertEqual((unread['time'], unread['kind'], unread['refusal']), (1001, 'refusal', 4))

    def test_every_row_has_the_same_keys(self) -> None:
        wanted = ['time', 'kind', 'refusal', *WEIGHT_KEYS]
        self.assertEqual([list(row) for row in quay.rows(LOG)], [wanted] * 3)

    def test_an_unread_weight_is_never_a_number(self) -> None:
        for number in range(1, 9):
            row, = quay.rows(quay.write_record(quay.RefusalMet(1000, number)))
            self.assertEqual([row[key] for key in WEIGHT_KEYS], [None] * len(WEIGHT_KEYS))
            self.assertEqual(row['refusal'], number)

    def test_bytes_left_over(self) -> None:
        for left in range(1, 20):
            refused = self.refused(10, quay.rows, LOG + LOG[:left])
            self.assertEqual((refused.place, refused.records, refused.rows), (60, RECORDS, quay.rows(LOG)))
            self.assertIn('at byte 60 of the log, behind 3 good records', str(refused))

    def test_a_broken_record_ends_the_log_with_what_stood_before_it(self) -> None:
        for damaged in (LOG[:40] + BROKEN + LOG[40:], LOG[:40] + BROKEN + b'left over'):
            log = quay.read_log(damaged)
            self.assertEqual((log.ending.number, log.ending.place), (11, 40))
            self.assertEqual((log.records, log.rows), (RECORDS[:2], quay.rows(LOG)[:2]))
            self.assertEqual(self.refused(11, quay.rows, damaged).rows, log.rows)

    @unittest.skipUnless(importlib.util.find_spec('pandas'), 'pandas is not installed')
    def test_pandas_takes_the_rows(self) -> None:
        import pandas
        table = pandas.DataFrame(quay.rows(LOG))
        self.assertEqual(list(table['value'].isna()), [False, True, False])
        self.assertEqual(list(table['mode'].isna()), [False, True, False])
        sums = table.groupby('kind')['kilograms'].sum(min_count=1)
        self.assertEqual((sums['gross'], sums['net'], pandas.isna(sums['refusal'])), (25.1, 0, True))
        unread = pandas.DataFrame(quay.rows(quay.write_record(UNREAD)))
        self.assertTrue(pandas.isna(unread['kilograms'].sum(min_count=1)))


class TheListing(RefusedCase):
    def test_the_papers_listing(self) -> None:
        listed = [quay.list_event(number, event) for number, event in enumerate(heard([E3 + E4 + E6]), start=1)]
        self.assertEqual([one.line for one in listed], [
            '1 weight gross 1 + 000251 1 0 0 gross\n', '2 weight net 1 - 000005 1 1 0 gross\n', '3 refused 4\n'])
        self.assertEqual([one.entry for one in listed], [quay.Entry.WEIGHT, quay.Entry.WEIGHT, quay.Entry.REFUSAL])

    def test_the_longest_lines_have_room(self) -> None:
        most = 2**64 - 1
        self.assertEqual(quay.list_total(most, most, most), f'total {most} weights {most} refused {most}\n')
        family, address = quay.Family.OF_001, quay.Address(serial=2**24 - 1)
        frame, = heard([quay.write_message(quay.Role.REPLY, family, address, 0xC3, b'\x99\x99\x99\xb7')], family)
        self.assertEqual(quay.list_event(most, frame).line, f'{most} weight gross 0:16777215 - 999999 7 1 0 scale1\n')

    def test_numbers_that_cannot_cross(self) -> None:
        for number in (-1, 2**64):
            with self.assertRaises(ValueError):
                quay.list_total(number, 0, 0)
            with self.assertRaises(ValueError):
                quay.list_event(number, quay.LineRefusal(4, 0, 0))
        self.refused(8, quay.list_event, 1, quay.LineRefusal(0, 0, 0))


class TheExample(unittest.TestCase):
    def setUp(self) -> None:
        folder = tempfile.TemporaryDirectory()
        self.addCleanup(folder.cleanup)
        self.log = os.path.join(folder.name, 'morning.log')
        self.capture = os.path.join(binding.SAMPLES, 'morning.capture')
        with open(os.path.join(binding.SAMPLES, 'morning.listing'), encoding='ascii') as listing:
            self.listing = listing.read()

    def run_example(self, *arguments: str) -> tuple:
        said, reason = io.StringIO(), io.StringIO()
        with contextlib.redirect_stdout(said), contextlib.redirect_stderr(reason):
            status = example.main(list(arguments))
        return status, said.getvalue(), reason.getvalue()

    def test_its_listing_is_the_samples(self) -> None:
        for block in (1, 7, 64, 4096):
            with mock.patch.object(example, 'BLOCK_BYTES', block):
                self.assertEqual(self.run_example(self.capture), (0, self.listing, ''))

    def test_its_log_has_the_weights_and_refusals_of_the_listing(self) -> None:
        self.assertEqual(self.run_example(self.capture, '--log', self.log), (0, self.listing, ''))
        with open(self.log, 'rb') as log:
            rows = quay.rows(log.read())
        wanted = []
        for line in self.listing.splitlines()[:-1]:
            number, kind, *rest = line.split()
            if kind != 'message':
                time = example.START_TIME + int(number) - 1
                wanted.append((time, *(('refusal', int(rest[0])) if kind == 'refused' else (rest[0], rest[3]))))
        told = [(row['time'], row['kind'], shown_of(row)) for row in rows]
        self.assertEqual(told, wanted)

    def test_each_family_has_its_own_listing_and_log(self) -> None:
        fours = [bytes((0x51, 0x02, 0x00, con)) for con in (0x01, 0x21, 0x41, 0x61)]
        wire = b''.join(quay.write_frame(quay.Address(1), code, four) for code in (0xC2, 0xC3) for four in fours)
        capture = self.log + '.capture'
        with open(capture, 'wb') as made:
            made.write(wire)
        for word, family in example.FAMILIES.items():
            log = f'{self.log}.{word}'
            wanted = model_listing.listing_of(int(family), wire).decode()
            self.assertEqual(self.run_example(capture, '--family', word, '--log', log), (0, wanted, ''))
            with open(log, 'rb') as noted:
                told = [(row['family'], row['mode']) for row in quay.rows(noted.read())]
            lines = [line.split() for line in wanted.splitlines()[:-1]]
            self.assertEqual(told, [(None, None) if words[1] == 'refused' else (word, words[-1]) for words in lines])
        self.assertEqual(self.run_example(capture), self.run_example(capture, '--family', '002'))
        self.assertNotEqual(self.run_example(capture), self.run_example(capture, '--family', '000'))

    def test_a_family_that_is_none_is_not_taken(self) -> None:
        self.assertEqual(sorted(example.FAMILIES), ['000', '001', '002'])
        for wrong in ('003', 'plain', '3', ''):
            with contextlib.redirect_stderr(io.StringIO()), self.assertRaises(SystemExit):
                example.main([self.capture, '--family', wrong])

    def test_what_cannot_be_opened_is_said_and_has_no_total(self) -> None:
        for wrong in ('/nowhere/morning.capture', binding.SAMPLES):
            status, said, reason = self.run_example(wrong, '--log', self.log)
            self.assertEqual((status, said), (1, ''))
            self.assertIn(wrong, reason)
            self.assertFalse(os.path.exists(self.log))

    def test_a_log_that_is_there_is_not_touched(self) -> None:
        with open(self.log, 'wb') as log:
            log.write(LOG)
        status, said, reason = self.run_example(self.capture, '--log', self.log)
        self.assertEqual((status, said), (1, ''))
        self.assertIn(self.log, reason)
        with open(self.log, 'rb') as log:
            self.assertEqual(log.read(), LOG)


if __name__ == '__main__':
    unittest.main()
