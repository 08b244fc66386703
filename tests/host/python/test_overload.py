"""An overloaded bridge has no weight, as the friendly part of the Python binding tells it: what is refused, what is told all the same, and rows
that have no number."""
from __future__ import annotations

import importlib.util
import unittest
from typing import Iterator
from unittest import mock

import binding  # noqa: F401 (puts the binding's folder on the path)
import quay
from test_quay import RefusedCase, heard

OVERLOAD = 0x08
NOTHING, SIXTY_TONNES, MOST = b'\x00\x00\x00', b'\x00\x00\x06', b'\x99\x99\x99'
ONE = quay.Address(1)
LOADS = ((0xC2, quay.Load.NET), (0xC3, quay.Load.GROSS))
NUMBER_KEYS = ('value', 'kilograms', 'kilograms_exact', 'digits')
VALUES = ('value', 'kilograms', 'kilograms_exact')

GOOD = quay.Weight(*SIXTY_TONNES, 0x10, quay.Family.OF_002)
HEAVY = quay.Weight(*SIXTY_TONNES, 0x18, quay.Family.OF_002)


def every_weight() -> Iterator[quay.Weight]:
    """Zero and other digits in every family, with each point, sign and mark, and the overload bit set."""
    for family in quay.Family:
        for digits in (NOTHING, SIXTY_TONNES, MOST):
            for con in range(256):
                if con & OVERLOAD and not (con & 0x40 and family is quay.Family.OF_002):
                    yield quay.Weight(*digits, con, family)


def without_overload(weight: quay.Weight) -> quay.Weight:
    return quay.Weight(weight.w0, weight.w1, weight.w2, weight.con & ~OVERLOAD, weight.family)


def bad_weights() -> Iterator[quay.Weight]:
    """Digits that are none, and bit 6 of 002; each with the overload bit clear and set."""
    for over in (0, OVERLOAD):
        yield quay.Weight(0x5A, 0x02, 0x00, 0x10 | over, quay.Family.OF_001)
        yield quay.Weight(0x51, 0x02, 0xA0, 0x10 | over, quay.Family.PLAIN)
        yield quay.Weight(0x51, 0x02, 0x00, 0x50 | over, quay.Family.OF_002)


class Refusals(RefusedCase):
    def test_no_digits_make_a_value_of_it(self) -> None:
        for weight in every_weight():
            for asked in VALUES:
                self.refused(24, getattr, weight, asked)
            self.refused(24, quay.difference, weight, GOOD)
            self.refused(24, quay.difference, GOOD, weight)
            self.refused(24, quay.difference, weight, weight)

    def test_the_same_bytes_without_the_bit_have_a_value(self) -> None:
        for weight in map(without_overload, every_weight()):
            self.assertEqual(weight.kilograms_exact * 10_000_000, weight.value)
            self.assertEqual(quay.difference(weight, weight), 0)

    def test_8_of_either_weight_goes_before_24_of_either(self) -> None:
        for bad in bad_weights():
            for asked in ('reading', *VALUES):
                self.refused(8, getattr, bad, asked)
            for other in (GOOD, HEAVY, bad):
                self.refused(8, quay.difference, bad, other)
                self.refused(8, quay.difference, other, bad)

    def test_its_meaning(self) -> None:
        self.assertEqual(str(self.refused(24, getattr, HEAVY, 'value')), 'refusal 24: overload, so the reading has no value')


class ToldAllTheSame(RefusedCase):
    def test_the_reading_and_the_bytes(self) -> None:
        for weight in every_weight():
            reading, light = weight.reading, without_overload(weight).reading
            self.assertEqual((reading.overload, light.overload), (True, False))
            self.assertEqual(vars(reading), {**vars(light), 'overload': True})
            self.assertEqual(quay.Weight.from_bytes(bytes(weight), weight.family), weight)

    def test_the_message_and_its_frame(self) -> None:
        for weight in every_weight():
            for code, load in LOADS:
                wire = quay.write_message(quay.Role.REPLY, weight.family, ONE, code, bytes(weight))
                frame, = heard([wire], weight.family)
                message = quay.read_message(frame.body, frame.family)
                self.assertEqual((message.load, message.weight, message.data), (load, weight, bytes(weight)))

    def test_the_record(self) -> None:
        for weight in every_weight():
            for code, load in LOADS:
                frame, = heard([quay.write_frame(ONE, code, bytes(weight))], weight.family)
                record = quay.record_heard(1000, frame)
                self.assertEqual(record, quay.Weighing(1000, load, ONE, weight))
                twenty = quay.write_record(record)
                self.assertEqual(twenty[13:18], bytes([weight.con, weight.w0, weight.w1, weight.w2, weight.family]))
                self.assertEqual(quay.write_record(quay.read_record(twenty)), twenty)

    def test_the_line_has_hyphens_for_its_digits_and_nothing_else_is_changed(self) -> None:
        for weight in every_weight():
            shown, light = (
                quay.list_event(7, heard([quay.write_frame(ONE, 0xC3, bytes(told))], weight.family)[0])
                for told in (weight, without_overload(weight)))
            words = light.line.split(' ')
            self.assertEqual((words[5].isdigit(), words[8].strip()), (True, '0'))
            words[5], words[8] = '------', words[8].replace('0', '1')
            self.assertEqual((shown.line, shown.entry, light.entry), (' '.join(words), quay.Entry.WEIGHT, quay.Entry.WEIGHT))

    def test_no_line_meets_24(self) -> None:
        self.refused(8, quay.list_event, 1, quay.LineRefusal(24, 0, 0))
        self.refused(8, quay.record_heard, 0, quay.LineRefusal(24, 0, 0))
        self.refused(11, quay.write_record, quay.RefusalMet(0, 24))


class Rows(RefusedCase):
    def test_a_row_has_no_number_and_everything_else(self) -> None:
        for weight in every_weight():
            for _, load in LOADS:
                row, light = (quay.row_of(quay.Weighing(1000, load, ONE, told)) for told in (weight, without_overload(weight)))
                self.assertTrue(all(light[key] is not None for key in NUMBER_KEYS))
                self.assertEqual(row, {**light, **dict.fromkeys(NUMBER_KEYS), 'overload': True})
                self.assertEqual(list(row), list(light))

    def test_it_is_no_refusal_that_was_met(self) -> None:
        log = quay.write_record(quay.Weighing(1000, quay.Load.NET, ONE, HEAVY)) + quay.write_record(quay.RefusalMet(1001, 4))
        told = [(row['kind'], row['overload'], row['refusal'], row['address'], row['sign']) for row in quay.rows(log)]
        self.assertEqual(told, [('net', True, None, 1, '+'), ('refusal', None, 4, None, None)])

    def test_no_other_refusal_is_swallowed(self) -> None:
        # Nothing that a log holds is refused so. A record of one's own may be, and a library that refuses what it must not.
        for bad in bad_weights():
            self.refused(8, quay.row_of, quay.Weighing(1000, quay.Load.GROSS, ONE, bad))
        for asked in VALUES:
            with mock.patch.object(quay.Weight, asked, mock.PropertyMock(side_effect=quay.Refused(24))):
                self.refused(24, quay.row_of, quay.Weighing(1000, quay.Load.GROSS, ONE, GOOD))

    @unittest.skipUnless(importlib.util.find_spec('pandas'), 'pandas is not installed')
    def test_it_is_missing_in_pandas_and_no_sum_counts_it(self) -> None:
        import pandas
        heavy = quay.write_record(quay.Weighing(1000, quay.Load.GROSS, ONE, HEAVY))
        good = quay.write_record(quay.Weighing(1001, quay.Load.GROSS, ONE, GOOD))
        mixed = pandas.DataFrame(quay.rows(heavy + good + quay.write_record(quay.RefusalMet(1002, 4))))
        for key in NUMBER_KEYS:
            self.assertEqual(list(mixed[key].isna()), [True, False, True])
        self.assertEqual(mixed['kilograms'].sum(min_count=1), 60_000)
        self.assertEqual((len(mixed[mixed['overload'] == True]), len(mixed[mixed['overload'] == False])), (1, 1))  # noqa: E712 (gaps)
        alone = pandas.DataFrame(quay.rows(heavy))
        for key in ('value', 'kilograms', 'kilograms_exact'):
            self.assertTrue(pandas.isna(alone[key].sum(min_count=1)), key)


if __name__ == '__main__':
    unittest.main()
