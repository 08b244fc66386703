"""The friendly part of the Python binding: loading, the line, frames and messages, weights. (Log and listing: test_log.py. Bits 6 and 5 by the
families: test_families.py. Overload: test_overload.py.)"""
from __future__ import annotations

import doctest
import math
import os
import pickle
import random
import re
import tempfile
import types
import unittest
from fractions import Fraction
from unittest import mock

import binding
import quay
import quay_family
import quay_library
import quay_line
import quay_log
import quay_message
import quay_refusal
import quay_weight

E1 = bytes.fromhex('ff01c3e3ffff')
E3 = bytes.fromhex('ff01c351020001deffff')
E4 = bytes.fromhex('ff01c20500009132ffff')
E6 = bytes.fromhex('ff01c3e2ffff')
FAMILY = quay.Family.OF_002
NO_WEIGHT = quay.Weight(0xFF, 0xFF, 0xFF, 0xFF, FAMILY)


def load_tests(loader: unittest.TestLoader, tests: unittest.TestSuite, pattern: str) -> unittest.TestSuite:
    """What the docstrings say is tried too. (The README: session.py.)"""
    for module in (quay, quay_family, quay_refusal, quay_weight, quay_message, quay_line, quay_log):
        tests.addTests(doctest.DocTestSuite(module))
    return tests


class RefusedCase(unittest.TestCase):
    """A test that can ask for a refusal by its number."""

    def refused(self, number: int, call, *arguments) -> quay.Refused:
        with self.assertRaises(quay.Refused) as met:
            call(*arguments)
        self.assertEqual(met.exception.number, number)
        return met.exception


class Loading(unittest.TestCase):
    def test_a_struct_laid_out_otherwise_is_not_loaded(self) -> None:
        for struct, (size, offsets) in quay_library.LAYOUT.items():
            first, last = list(offsets)[0], list(offsets)[-1]
            exchanged = {**offsets, first: offsets[last], last: offsets[first]}
            for wrong in ((size + 8, offsets), (size, {**offsets, last: offsets[last] + 1}), (size, exchanged)):
                with mock.patch.dict(quay_library.LAYOUT, {struct: wrong}):
                    with self.assertRaisesRegex(quay.LibraryNotLoaded, struct.__name__):
                        quay.load_library()

    def test_the_layout_is_that_of_the_c_header(self) -> None:
        with open(binding.HEADER, encoding='utf-8') as header:
            text = header.read()
        renamed = {'from': 'from_', 'short_address': 'short'}  # one is a word of Python, the other of C
        sizes = {name: int(size) for name, size in re.findall(r'QUAY_SIZE\((Quay\w+), (\d+)\)', text)}
        places = {name: {} for name in sizes}
        for name, field, place in re.findall(r'QUAY_AT\((Quay\w+), (\w+), (\d+)\)', text):
            places[name][renamed.get(field, field)] = int(place)
        told = {struct.__name__: layout for struct, layout in quay_library.LAYOUT.items()}
        self.assertEqual(told, {name: (sizes[name], places[name]) for name in sizes})

    def test_every_function_and_struct_is_declared(self) -> None:
        self.assertEqual(len(quay_library.FUNCTIONS), 14)
        answers = {answer for answer, _ in quay_library.FUNCTIONS.values()}
        self.assertLessEqual(answers, set(quay_library.LAYOUT))

    def test_what_cannot_be_loaded_says_what_to_do(self) -> None:
        with tempfile.NamedTemporaryFile() as other:
            other.write(b'not a library')
            other.flush()
            for path in ('/nowhere/libquay.so', other.name):
                with self.assertRaisesRegex(quay.LibraryNotLoaded, f'cannot load {path}.*README.*QUAY_LIBRARY.*load_library'):
                    quay.load_library(path)
        self.assertEqual(quay.Weight(1, 0, 0, 0, FAMILY).value, 10_000_000, 'the library loaded before is still used')

    def test_another_library_is_not_taken(self) -> None:
        with self.assertRaisesRegex(quay.LibraryNotLoaded, 'no function quay_listen'):
            quay_library._declare(types.SimpleNamespace(), 'libother.so')

    def test_a_library_from_before_there_were_families_is_not_taken(self) -> None:
        # It had the refusal where the family is now, and nothing behind it: a good reading is 0 there, a refused one 8.
        for family in (0, 8):
            told = quay_library.QuayReading(family=family)
            older = types.SimpleNamespace(quay_read_weight=lambda weight: told)
            with self.assertRaisesRegex(quay.LibraryNotLoaded, 'libolder.so.*families'):
                quay_library._check_version(older, 'libolder.so')

    def test_a_library_that_gives_an_overloaded_bridge_a_weight_is_not_taken(self) -> None:
        # One from before overload was refused, one that refuses by another number, and this one.
        for refusal, reason in ((0, 'libolder.so.*overloaded'), (8, 'libolder.so.*overloaded'), (24, None)):
            older = types.SimpleNamespace(
                quay_read_weight=lambda weight: quay_library.QuayReading(family=weight.family),
                quay_value=lambda weight: quay_library.QuayValue(0, refusal if weight.con & 0x08 else 0))
            if reason is None:
                quay_library._check_version(older, 'libolder.so')
                continue
            with self.assertRaisesRegex(quay.LibraryNotLoaded, reason):
                quay_library._check_version(older, 'libolder.so')


class Refusals(unittest.TestCase):
    def test_each_has_its_meaning(self) -> None:
        self.assertEqual(sorted(quay.MEANINGS), [*range(1, 12), *range(20, 27), 31])
        self.assertIn('check', quay.Refused(4).meaning)
        self.assertEqual(str(quay.Refused(10)), 'refusal 10: log bytes left over, 1 to 19')

    def test_a_refusal_can_be_handed_to_another_process(self) -> None:
        for refused in (quay.Refused(4), quay.LogRefused(11, 20, (quay.RefusalMet(5, 4),))):
            self.assertEqual(pickle.loads(pickle.dumps(refused)).args, refused.args)


def damaged_wire(seed: int) -> bytes:
    """Frames of every length, with bytes changed, lost and put in."""
    drawn = random.Random(seed)
    wire = bytearray()
    for _ in range(40):
        data = bytes(drawn.choice((0, 1, 0xFE, 0xFF)) for _ in range(drawn.randrange(0, 253)))
        wire += drawn.randbytes(drawn.randrange(3)) + quay.write_frame(quay.Address(drawn.randrange(1, 0xFE)), 0xC3, data)
    for _ in range(20):
        wire[drawn.randrange(len(wire))] = drawn.choice((0, 1, 0xFE, 0xFF))
        del wire[drawn.randrange(len(wire))]
    return bytes(wire)


def heard(blocks: list, family: quay.Family = FAMILY) -> list:
    reader = quay.Reader(family)
    return [event for block in blocks for event in reader.feed(block)]


class TheLine(RefusedCase):
    def test_the_judged_examples(self) -> None:
        self.assertEqual(heard([E1]), [quay.Frame(6, 3, bytes.fromhex('01c3e3'), FAMILY)])
        self.assertEqual(heard([E6]), [quay.LineRefusal(4, 6, 3)])
        self.assertEqual(heard([bytes.fromhex('ff01ffff')]), [quay.LineRefusal(1, 4, 1)])
        self.assertEqual(heard([bytes.fromhex('ff01ff02')]), [quay.LineRefusal(3, 4, 1)])
        longest = quay.write_frame(quay.Address(1), 0, bytes(252))
        self.assertEqual([(event.kept, len(event.body)) for event in heard([longest])], [(255, 255)])
        self.assertEqual(heard([longest[:200] + b'\0' + longest[200:]]), [quay.LineRefusal(2, 257, 255)])

    def test_any_cut_of_blocks_gives_the_same_events(self) -> None:
        for seed in range(3):
            wire = damaged_wire(seed)
            whole = heard([wire])
            self.assertGreater(len({type(event) for event in whole}), 1)
            self.assertEqual(heard([wire[place:place + 1] for place in range(len(wire))]), whole)
            drawn = random.Random(seed)
            for _ in range(20):
                cuts = sorted(drawn.randrange(len(wire) + 1) for _ in range(30))
                blocks = [wire[begin:end] for begin, end in zip([0] + cuts, cuts + [len(wire)])]
                self.assertEqual(heard(blocks), whole)

    def test_a_block_is_taken_though_nobody_asks_for_its_events(self) -> None:
        reader = quay.Reader(FAMILY)
        reader.feed(E1 + E3)
        self.assertEqual((reader.wire, reader.kept, reader.phase), (16, 0, quay.Phase.DELIMITED))
        self.assertEqual(next(reader.feed(E4)).wire, 26)

    def test_bytes_are_taken_from_whatever_holds_them_and_from_nothing_else(self) -> None:
        for block in (E3, bytearray(E3), memoryview(E3)):
            self.assertEqual(len(heard([block])), 1)
        for block in (5, None, 'ff01', [0xFF]):
            with self.assertRaises(TypeError):
                quay.Reader(FAMILY).feed(block)


class FramesAndMessages(RefusedCase):
    def test_the_judged_examples(self) -> None:
        one = quay.Address(1)
        self.assertEqual(quay.write_message(quay.Role.REQUEST, FAMILY, one, 0xC3), E1)
        self.assertEqual(quay.write_message(quay.Role.REPLY, FAMILY, one, 0xC3, bytes.fromhex('51020001')), E3)
        self.assertEqual(quay.write_message(quay.Role.REPLY, FAMILY, one, 0xC2, bytes.fromhex('05000091')), E4)

    def test_an_address_that_is_none_is_refused_and_never_becomes_another(self) -> None:
        wrong = [quay.Address(short) for short in (0, 0xFE, 0xFF, 256, 257, -255, 2**64 + 1)]
        wrong += [quay.Address(serial=serial) for serial in (2**24, 2**32, 2**32 + 1, -1)]
        for address in wrong:
            self.refused(5, quay.write_frame, address, 0xC3)
            self.refused(5, quay.write_message, quay.Role.REQUEST, FAMILY, address, 0xC3)
        for words in ({}, {'short': 1, 'serial': 1}):
            with self.assertRaises(ValueError):
                quay.Address(**words)

    def test_what_is_written_reads_back(self) -> None:
        short = [quay.Address(byte) for byte in (1, 0x9F, 0xA0, 0xA4, 0xF0, 0xFD)]
        for address in (*short, quay.Address(serial=0), quay.Address(serial=2**24 - 1)):
            frame, = heard([quay.write_message(quay.Role.REPLY, FAMILY, address, 0xC2, b'\x05\0\0\x91')])
            message = quay.read_message(frame.body, frame.family)
            self.assertEqual((message.address, message.load, bytes(message.weight)), (address, quay.Load.NET, b'\x05\0\0\x91'))

    def test_the_longest_frame_has_room(self) -> None:
        self.assertEqual(len(heard([quay.write_frame(quay.Address(1), 0xFF, b'\xff' * 252)])[0].body), 255)
        self.refused(2, quay.write_frame, quay.Address(1), 0xFF, b'\xff' * 253)

    def test_refusals_of_messages(self) -> None:
        one, request, reply = quay.Address(1), quay.Role.REQUEST, quay.Role.REPLY
        self.refused(6, quay.write_message, request, FAMILY, one, 0xEE)
        self.refused(7, quay.write_message, reply, FAMILY, one, 0xC3, b'\0\0\0')
        self.refused(8, quay.write_message, reply, FAMILY, one, 0xC3, b'\x0a\0\0\0')
        for number, body in ((2, bytes(256)), (1, b''), (4, b'\1\xc3\xe2'), (7, E1[1:4])):
            self.refused(number, quay.read_message, body, FAMILY)
        for code in (-1, 256, 1.5):
            with self.assertRaises(ValueError):
                quay.write_frame(one, code)

    def test_what_is_said(self) -> None:
        request, reply, says = quay.Role.REQUEST, quay.Role.REPLY, quay.Says
        table = [
            (request, 0xC3, '', says.NOTHING, {}),
            (reply, 0xA1, '651301', says.SERIAL, {'number': 70501}),
            (request, 0xBF, '13', says.NUMBER, {'number': 0x13}),
            (reply, 0xBF, '41', says.STATUS, {'number': 0x41}),
            (reply, 0xC3, '51020001', says.WEIGHT, {'load': quay.Load.GROSS, 'weight': quay.Weight(0x51, 2, 0, 1, FAMILY)}),
            (reply, 0xC4, '0f000080', says.INPUTS, {'number': 0x8000000F, 'on': 5}),
            (reply, 0xC5, '00000000', says.OUTPUTS, {'number': 0}),
            (reply, 0xC6, '1f024f4b', says.TEXT, {'number': 0x1F, 'text': b'OK'}),
            (reply, 0xC7, '01' + '00ff02030405', says.EVENT, {'number': 1, 'text': bytes.fromhex('00ff02030405')}),
            (reply, 0xCC, 'ffffffffff', says.CONVERTER, {'number': 2**40 - 1}),
            (request, 0xD2, '0100', says.TEXT, {'number': 1, 'text': b''}),
            (reply, 0xEE, '05', says.ERROR, {'number': 5}),
        ]
        for role, code, data, kind, rest in table:
            frame, = heard([quay.write_message(role, FAMILY, quay.Address(7), code, bytes.fromhex(data))])
            wanted = quay.Message(quay.Address(7), code, kind, bytes.fromhex(data), **rest)
            self.assertEqual(quay.read_message(frame.body, frame.family, role), wanted)


class Weights(RefusedCase):
    def test_values_and_fractions_are_exact(self) -> None:
        for point in range(8):
            for number, packed in ((0, '000000'), (1, '010000'), (251, '510200'), (999_999, '999999')):
                for sign, bit in ((1, 0), (-1, 0x80)):
                    weight = quay.Weight.from_bytes(bytes.fromhex(packed) + bytes([bit | point]), FAMILY)
                    exact = sign * Fraction(number, 10**point)
                    self.assertEqual(weight.kilograms_exact, exact)
                    self.assertEqual(weight.value, exact * 10_000_000)
                    self.assertEqual(weight.kilograms, float(exact))

    def test_minus_zero_is_nothing_in_value_and_keeps_its_sign_bit(self) -> None:
        weight = quay.Weight(0, 0, 0, 0x90, FAMILY)
        self.assertEqual((weight.value, weight.kilograms_exact, weight.reading.minus), (0, 0, True))
        self.assertEqual(math.copysign(1, weight.kilograms), 1)

    def test_flags(self) -> None:
        heavy = quay.Reading(40960, 0, False, False, False, True, True, FAMILY)
        self.assertEqual(quay.Weight(0x60, 0x09, 0x04, 0x18, FAMILY).reading, heavy)
        light = quay.Reading(1, 3, True, True, True, False, False, quay.Family.OF_001)
        self.assertEqual(quay.Weight(1, 0, 0, 0xE3, quay.Family.OF_001).reading, light)

    def test_a_difference_may_be_negative(self) -> None:
        gross, net = quay.Weight(0x05, 0, 0, 0x91, FAMILY), quay.Weight(0x51, 0x02, 0, 0x01, FAMILY)
        self.assertEqual(quay.exact_kilograms(quay.difference(gross, net)), Fraction(-256, 10))

    def test_a_refused_weight_is_never_a_number(self) -> None:
        good = quay.Weight(0, 0, 0, 0, FAMILY)
        for four in ('0a000000', 'a0000000', '000f0000', '0000f000', 'ffffffff'):
            weight = quay.Weight.from_bytes(bytes.fromhex(four), FAMILY)
            for asked in ('reading', 'value', 'kilograms', 'kilograms_exact'):
                self.refused(8, getattr, weight, asked)
            self.refused(8, quay.difference, weight, good)
            self.refused(8, quay.difference, good, weight)

    def test_bytes_that_are_none(self) -> None:
        for four in ((256, 0, 0, 0), (0, 0, 0, -1), (0, 0.5, 0, 0)):
            with self.assertRaises(ValueError):
                quay.Weight(*four, FAMILY)
        for held in (b'', b'\0\0\0', bytes(5)):
            with self.assertRaises(ValueError):
                quay.Weight.from_bytes(held, FAMILY)


if __name__ == '__main__':
    unittest.main()
