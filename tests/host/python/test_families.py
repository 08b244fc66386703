"""Bits 6 and 5 by the families, as the friendly part of the Python binding tells them, beside the second model's answers; and logs from before
there were families."""
from __future__ import annotations

import ctypes
import dataclasses
import importlib.util
import io
import re
import unittest
from fractions import Fraction
from typing import Any, Callable, Iterator, Optional, Tuple

import binding  # puts the binding's folder and the model's on the path
import cases_log
import families
import frame
import line
import listing
import log
import message
import quay
import quay_family
import quay_library
import weight
from test_quay import RefusedCase, heard

DIGITS = b'\x51\x02\x00'
ONE = quay.Address(1)
WEIGHTS = (0xC2, 0xC3)
STRANGE = (4, 5, 255)
NOT_EVEN_BYTES = (-1, 256, 259)

# What is equal to a family's number or is written like one, and is none.
NO_FAMILIES = (0, 1, 2, 3, False, True, *quay.Role, *quay.Load, 3.0, '', '2', '002', 'OF_002', 'plain', b'\x03', None, ONE, quay.Family)
NO_ROLES = (0, 1, False, True, *quay.Family, *quay.Load, 1.0, '', 'reply', 'REPLY', b'\x01', None, quay.Role)

Call = Tuple[Callable[..., Any], Tuple[Any, ...]]


def every_mix() -> Iterator[Tuple[quay.Family, bytes]]:
    """Every family with every status byte: (family, W0 W1 W2 CON)."""
    for family in quay.Family:
        for con in range(256):
            yield family, DIGITS + bytes([con])


def frame_of(code: int, four: bytes, family: quay.Family) -> quay.Frame:
    """A weight as it was heard on a line of a family. Any frame can be written, right for the family or not."""
    heard_frame, = heard([quay.write_frame(ONE, code, four)], family)
    return heard_frame


def calls_saying_a_family(said: Any) -> Tuple[Call, ...]:
    """Every call that is told a family, right in all but, perhaps, the family."""
    four = DIGITS + b'\x01'
    heard_frame = frame_of(0xC3, four, quay.Family.OF_002)
    body, event = heard_frame.body, dataclasses.replace(heard_frame, family=said)
    reading = dataclasses.replace(quay.Weight.from_bytes(four, quay.Family.OF_002).reading, family=said)
    return (
        (quay.Reader, (said,)), (quay.Weight, (*four, said)), (quay.Weight.from_bytes, (four, said)), (quay.read_message, (body, said)),
        (quay.read_message, (body, said, quay.Role.REPLY)), (quay.write_message, (quay.Role.REPLY, said, ONE, 0xC3, four)),
        (quay.record_heard, (0, event)), (quay.list_event, (1, event)), (quay_family.mode_of, (said, True)), (getattr, (reading, 'mode')))


def calls_saying_a_role(said: Any) -> Tuple[Call, ...]:
    """Every call that is told a role, right in all but, perhaps, the role: a body that both may say."""
    family = quay.Family.OF_002
    event = frame_of(0xBF, b'\x13', family)
    return (
        (quay.read_message, (event.body, family, said)), (quay.write_message, (said, family, ONE, 0xBF, b'\x13')),
        (quay.record_heard, (0, event, said)), (quay.record_heard, (0, quay.LineRefusal(4, 6, 3), said)))


def model_mode(reading: weight.Reading) -> Optional[str]:
    """The mode as the model lists it: the word at the end of a weight's line, if there is one."""
    return listing.last_field(reading).strip() or None


class TheFamilies(RefusedCase):
    def test_each_has_the_models_number_and_its_documents_word(self) -> None:
        self.assertEqual([(family.value, family.word) for family in quay.Family], [(0, 'plain'), (1, '000'), (2, '001'), (3, '002')])
        numbers = (families.PLAIN, families.OF_000, families.OF_001, families.OF_002)
        self.assertEqual(tuple(quay.Family), numbers)

    def test_the_numbers_are_those_of_the_c_header(self) -> None:
        with open(binding.HEADER, encoding='utf-8') as header:
            named = re.findall(r'QUAY_FAMILY_(\w+) = (\d+)', header.read())
        self.assertEqual(named, [(family.word.upper(), str(int(family))) for family in quay.Family])

    def test_no_other_number_is_one_and_none_becomes_plain(self) -> None:
        for number in (*STRANGE, *NOT_EVEN_BYTES):
            with self.assertRaises(ValueError, msg=number):
                quay.Family(number)

    def test_the_library_itself_refuses_such_a_number_by_8_in_every_function_that_takes_one(self) -> None:
        body, room = frame_of(0xC3, DIGITS + b'\x01', quay.Family.OF_002).body, ctypes.create_string_buffer(512)
        event, good = quay_library.QuayEvent(10, len(body), 1, 0), quay_library.QuayWeight(*DIGITS, 1, 3)
        called = quay_library.library()
        for number in STRANGE:
            strange = quay_library.QuayWeight(*DIGITS, 1, number)
            answers = (
                called.quay_read_weight(strange), called.quay_value(strange), called.quay_kilograms(strange),
                called.quay_difference(strange, good), called.quay_difference(good, strange),
                called.quay_read_message(1, number, body, len(body)),
                called.quay_write_message(0, number, 1, 0, 0xC3, b'', 0, room, len(room)),
                called.quay_record_heard(0, 1, number, event, body, len(body)),
                called.quay_list_event(1, number, event, body, len(body), room, len(room)))
            self.assertEqual([answer.refusal for answer in answers], [8] * len(answers))
        self.assertEqual(called.quay_value(good).refusal, 0)

    def test_the_caller_must_say_it(self) -> None:
        for call, arguments in (
                (quay.Reader, ()), (quay.Weight, (0, 0, 0, 0)), (quay.Weight.from_bytes, (bytes(4),)), (quay.Frame, (0, 0, b'')),
                (quay.read_message, (b'\x01\xc3\xe3',)), (quay.write_message, (quay.Role.REQUEST, ONE, 0xC3))):
            with self.assertRaises(TypeError):
                call(*arguments)

    def test_a_reader_says_it_once_for_its_line(self) -> None:
        for family in quay.Family:
            reader = quay.Reader(family)
            self.assertIs(reader.family, family)
            told, = reader.feed(quay.write_frame(ONE, 0xC3, DIGITS + b'\x01'))
            self.assertIs(told.family, family)


class SaidByName(unittest.TestCase):
    """A family and a role are said by their names, and by nothing that is equal to their numbers."""

    def not_taken(self, reason: str, calls: Tuple[Call, ...]) -> None:
        for call, arguments in calls:
            with self.assertRaisesRegex(TypeError, reason, msg=f'{call} {arguments}'):
                call(*arguments)

    def test_a_family(self) -> None:
        for family in quay.Family:
            for call, arguments in calls_saying_a_family(family):
                call(*arguments)
        for said in (*NO_FAMILIES, *STRANGE, *NOT_EVEN_BYTES):
            self.not_taken('is not a family: say it by its name', calls_saying_a_family(said))

    def test_a_role(self) -> None:
        for role in quay.Role:
            for call, arguments in calls_saying_a_role(role):
                call(*arguments)
        for said in NO_ROLES:
            self.not_taken('is not a role: say it by its name', calls_saying_a_role(said))

    def test_a_call_from_before_there_were_families_raises(self) -> None:
        role, four = quay.Role.REPLY, DIGITS + b'\x01'
        body = frame_of(0xC3, four, quay.Family.OF_002).body
        self.not_taken('is not a family', ((quay.read_message, (body, role)), (quay.write_message, (role, ONE, 0xC3, four))))


class BothBits(RefusedCase):
    """Each answer beside the model's, for every family and every status byte."""

    def answers(self, wanted: tuple, call: Callable[..., Any], *arguments: Any) -> None:
        """As the model: (0, answer), or a refusal's number alone."""
        if len(wanted) == 1:
            self.refused(wanted[0], call, *arguments)
        else:
            self.assertEqual(call(*arguments), wanted[1])

    def test_readings(self) -> None:
        for family, four in every_mix():
            asked, answer = quay.Weight.from_bytes(four, family), weight.read_reading(int(family), four)
            self.assertEqual(bytes(asked), four)
            if len(answer) == 1:
                for question in ('reading', 'value', 'kilograms', 'kilograms_exact'):
                    self.refused(answer[0], getattr, asked, question)
                continue
            told, reading = asked.reading, answer[1]
            self.assertEqual((told.family, told.bit6, told.bit5), (reading.family, reading.six, reading.five))
            self.assertEqual((told.minus, told.settled, told.overload), (reading.minus, reading.settled, reading.overload))
            self.assertEqual(told.mode, model_mode(reading))
            self.answers(weight.value(reading), getattr, asked, 'value')

    def test_a_mode_is_a_word_or_missing_and_never_false(self) -> None:
        modes = {family: set() for family in quay.Family}
        for family, four in every_mix():
            if not (family is quay.Family.OF_002 and four[3] & 0x40):
                modes[family].add(quay.Weight.from_bytes(four, family).reading.mode)
        scales = {'scale0', 'scale1'}
        self.assertEqual(list(modes.values()), [{None}, {'net', 'gross'}, scales, {'net', 'gross'}])

    def test_differences_of_all_families(self) -> None:
        asked = [(family, DIGITS + bytes([con])) for family in quay.Family for con in (0x01, 0x21, 0x41, 0x61, 0x09, 0x49)]
        for gross_family, gross in asked:
            for net_family, net in asked:
                readings = [weight.read_reading(int(family), four) for family, four in ((gross_family, gross), (net_family, net))]
                pair = quay.Weight.from_bytes(gross, gross_family), quay.Weight.from_bytes(net, net_family)
                both = all(len(answer) == 2 for answer in readings)
                wanted = weight.difference(*(answer[1] for answer in readings)) if both else (8,)
                self.answers(wanted, quay.difference, *pair)

    def test_messages_read_and_written_in_both_roles(self) -> None:
        for family, four in every_mix():
            for code in WEIGHTS:
                body = frame_of(code, four, family).body
                for role, name in zip(quay.Role, message.ROLES):
                    number = message.judge_message(name, int(family), code, four)
                    if number:
                        self.refused(number, quay.read_message, body, family, role)
                        self.refused(number, quay.write_message, role, family, ONE, code, four)
                        continue
                    said = quay.read_message(body, family, role).weight
                    self.assertEqual((bytes(said), said.family), (four, family))
                    self.assertEqual(quay.write_message(role, family, ONE, code, four), frame.frame_of(body))

    def test_lines_and_records_of_what_was_heard(self) -> None:
        for family, four in every_mix():
            for code in WEIGHTS:
                event = frame_of(code, four, family)
                asked = line.Event(0, event.wire, event.kept, event.body)
                self.assertEqual(quay.list_event(7, event).line.encode(), listing.event_line(7, int(family), asked))
                for role, name in zip(quay.Role, message.ROLES):
                    room = bytearray(log.RECORD_LENGTH)
                    log.write_record(log.record_heard(9, name, int(family), asked), room)
                    self.assertEqual(quay.write_record(quay.record_heard(9, event, role)), room)


class RowsByFamily(RefusedCase):
    def test_rows_of_every_record_that_the_model_reads(self) -> None:
        seen = set()
        for name, inputs, answer in cases_log.cases():
            if name != 'read_record':
                continue
            if len(answer) == 1:
                self.refused(answer[0], quay.read_record, *inputs)
                continue
            row, record = quay.rows(*inputs)[0], answer[1]
            noted = log.weight_noted(record)
            weighed = len(noted) == 2
            self.assertEqual(row['family'], quay.Family(record.family).word if weighed else None)
            self.assertEqual(row['mode'], model_mode(noted[1]) if weighed else None)
            valued = weight.value(noted[1]) if weighed else noted
            self.assertEqual(row['value'], valued[1] if len(valued) == 2 else None)
            self.assertEqual(row['overload'], bool(noted[1].overload) if weighed else None)
            seen.add((row['kind'], row['family'], row['mode']))
        modes = {'plain': (None,), '000': ('net', 'gross'), '001': ('scale0', 'scale1'), '002': ('net', 'gross')}
        wanted = {(kind, family, mode) for kind in ('gross', 'net') for family in modes for mode in modes[family]}
        self.assertEqual(seen, wanted | {('refusal', None, None)})

    def test_a_record_breaks_a_rule_by_its_family(self) -> None:
        for family in quay.Family:
            reserved = quay.Weighing(1, quay.Load.GROSS, ONE, quay.Weight(*DIGITS, 0x41, family))
            if family is quay.Family.OF_002:
                self.refused(11, quay.write_record, reserved)
                continue
            self.assertEqual(quay.read_record(quay.write_record(reserved)), reserved)


# A log from before byte 17 had a meaning, and its rows as they were then. Bits 6 and 5 are both set in the first. The last is overloaded: it was a
# weight of 0 then, and has no number now.
OLD_LOG = bytes.fromhex(
    'e803000000000000' '0101000000' '61' '510200' '000000'
    'e903000000000000' '0300000000' '04' '000000' '000000'
    'ea03000000000000' '0200651301' '98' '000000' '000000')
ROWS_BEFORE = [
    {'time': 1000, 'kind': 'gross', 'refusal': None, 'address': 1, 'serial': None, 'value': 251_000_000, 'kilograms': 25.1,
     'kilograms_exact': Fraction(251, 10), 'sign': '+', 'digits': '000251', 'point': 1, 'settled': False, 'overload': False},
    {'time': 1001, 'kind': 'refusal', 'refusal': 4, 'address': None, 'serial': None, 'value': None, 'kilograms': None,
     'kilograms_exact': None, 'sign': None, 'digits': None, 'point': None, 'settled': None, 'overload': None},
    {'time': 1002, 'kind': 'net', 'refusal': None, 'address': None, 'serial': 70501, 'value': None, 'kilograms': None,
     'kilograms_exact': None, 'sign': '-', 'digits': None, 'point': 0, 'settled': True, 'overload': True},
]


class LogsFromBefore(unittest.TestCase):
    def test_the_rows_are_as_before_with_a_plain_family_and_no_mode(self) -> None:
        families_now = ('plain', None, 'plain')
        wanted = [{**row, 'family': family, 'mode': None} for row, family in zip(ROWS_BEFORE, families_now)]
        self.assertEqual(quay.rows(OLD_LOG), wanted)

    def test_it_is_written_again_as_it_was(self) -> None:
        told = quay.read_log(OLD_LOG)
        self.assertIsNone(told.ending)
        self.assertEqual(b''.join(quay.write_record(record) for record in told.records), OLD_LOG)
        self.assertEqual([record.weight.family for record in told.records[::2]], [quay.Family.PLAIN] * 2)

    def test_old_records_and_new_ones_stand_in_one_log(self) -> None:
        new = quay.Weighing(1003, quay.Load.NET, ONE, quay.Weight(*DIGITS, 0x21, quay.Family.OF_002))
        rows = quay.rows(OLD_LOG + quay.write_record(new))
        self.assertEqual([(row['family'], row['mode']) for row in rows], [('plain', None), (None, None), ('plain', None), ('002', 'net')])

    @unittest.skipUnless(importlib.util.find_spec('pandas'), 'pandas is not installed')
    def test_a_missing_mode_stays_missing_in_pandas(self) -> None:
        import pandas
        new = quay.Weighing(1003, quay.Load.NET, ONE, quay.Weight(*DIGITS, 0x21, quay.Family.OF_002))
        table = pandas.DataFrame(quay.rows(OLD_LOG + quay.write_record(new)))
        again = pandas.read_csv(io.StringIO(table.to_csv(index=False)), dtype={'family': str})
        for shown in (table, again):
            self.assertEqual(list(shown['mode'].isna()), [True, True, True, False])
            self.assertEqual(list(shown['family'].isna()), [False, True, False, False])
            self.assertEqual(list(shown['family'].dropna()), ['plain', 'plain', '002'])
            self.assertEqual(dict(shown.groupby('mode').size()), {'net': 1})
        self.assertTrue(pandas.DataFrame(quay.rows(OLD_LOG))['mode'].isna().all())


if __name__ == '__main__':
    unittest.main()
