"""The open points of sections 1 and 4, and those of messages in writing.

All is asked of family 002; which answers depend on the family at all is asked
in points_of_families.py.
"""

from families import OF_002
from frame import HIGHEST_SHORT, body_of
from message import ROLES, TABLE, inputs_on, judge_message, read_message, write_message

ONE = ('short', 1)


def judged(role, code, data):
    return judge_message(role, OF_002, code, data)


def read(role, code, data, address=ONE):
    return read_message(role, OF_002, body_of(address, code, data))


def write(role, code, data, address=ONE, length=600):
    return write_message(role, OF_002, address, code, data, bytearray(length))


def test_codes(expect):
    # 1.3 the table speaks, 002 doesn't
    for code in (0xB1, 0xB3, 0xB4, 0xC1, 0xC8, 0xC9, 0xCA, 0xCB, 0xD1, 0xD3, 0xD4, 0xDF, 0xE0, 0xFD):
        for role in ROLES:
            expect('1.3', read(role, code, b''), (6,))
            expect('1.3', write(role, code, b''), (6, 0))
    expect('1.3', bytes(sorted(TABLE)).hex(), 'a1bfc0c2c3c4c5c6c7cccdced0d2ee')
    expect('EE', (read('request', 0xEE, b'\x01'), read('reply', 0xEE, b'\x01')[0]), ((6,), 0))
    # 3.5 every refused write answers number and length 0
    expect('3.5', [write('reply', 0xC3, b''), write('reply', 0xC3, b'\xff' * 4)], [(7, 0), (8, 0)])


def test_hexadecimal(expect):
    # 4.1 numbers without h are hexadecimal
    expect('4.1', [judged('request', 0xBF, bytes([number])) for number in (0x13, 13, 3)], [0, 8, 0])
    expect('4.1', [judged('request', 0xD2, bytes([number, 0])) for number in (0x20, 20)], [0, 8])
    # 4.2 (!) EVENT 70 with seven bytes is 8, with another length 7
    expect('4.2', judged('reply', 0xC7, b'\x70' + bytes(6)), 8)
    expect('4.2', judged('reply', 0xC7, b'\x70' + bytes(9)), 7)
    expect('4.2', judged('reply', 0xC7, bytes([70]) + bytes(6)), 0)


def test_texts(expect):
    # 4.3 (!) C6 in the request role: one byte, NUM as in the reply
    expect('4.3', [judged('request', 0xC6, bytes([number])) for number in
                   (0x01, 0x02, 0x1E, 0x1F, 0x20, 0x21, 0x22)], [8, 8, 8, 0, 0, 0, 8])
    expect('4.3', judged('request', 0xC6, b'\x20\x00'), 7)
    expect('4.3', judged('request', 0xC6, b''), 7)
    # 4.4 (!) 7 before 8; a count of 0 is good
    for role, code in (('reply', 0xC6), ('request', 0xD2)):
        answers = [judged(role, code, data) for data in
                   (b'', b'\x20', b'\x20\x01', b'\x99\x01', b'\x99\x00', b'\x20\x00', b'\x20\x01a',
                    b'\x20\x00a')]
        expect('4.4', answers, [7, 7, 7, 7, 8, 0, 0, 7])
    accepted = [number for number in range(256) if judged('request', 0xD2, bytes([number, 0])) == 0]
    expect('D2', accepted, [1, 2, 3, 0x13, 0x20] + list(range(0xE0, 0x100)))
    # 4.8 (!) a message too long to frame: 7 and 8 right, then 2
    for address, longest in ((ONE, 250), (('serial', 9), 247)):
        for length, answer in ((longest, 0), (longest + 1, 2), (255, 2)):
            data = b'\x20' + bytes([length]) + bytes(length)
            expect('4.8', write('request', 0xD2, data, address)[0], answer)
    expect('4.8', write('request', 0xD2, b'\x99\xff' + bytes(255), length=0), (8, 0))


def test_statuses(expect):
    # 4.5 (!) BF reply: 80 or more is 8, bit 6 is free
    statuses = (0x00, 0x40, 0x7F, 0x80, 0xFF)
    expect('4.5', [judged('reply', 0xBF, bytes([status])) for status in statuses], [0, 0, 0, 8, 8])
    # 4.6 D2's printer numbers and any NER are good
    expect('4.6', [judged('request', 0xD2, bytes([number, 0])) for number in (0x03, 0x13)], [0, 0])
    expect('4.6', {judged('reply', 0xEE, bytes([number])) for number in range(256)}, {0})
    # 4.7 an A1 reply's serial need not be the address's
    expect('4.7', read('reply', 0xA1, b'\x02\x00\x00', ('serial', 1))[4], (2,))


def test_lent_bodies(expect):
    # 4.9 (!) 2 first, even when the check is wrong; empty is 1; FE and FF are 5
    for role in ROLES:
        expect('4.9', read_message(role, OF_002, bytes(256)), (2,))
        expect('4.9', read_message(role, OF_002, b'\x01' * 256), (2,))
        expect('4.9', read_message(role, OF_002, b''), (1,))
        for first in (0xFE, 0xFF):
            expect('4.9', read_message(role, OF_002, body_of(('short', first), 0xC3, b'')), (5,))
        expect('4.9', read_message(role, OF_002, b'\xff\xc3\x00'), (4,))


def test_numbers(expect):
    # 4.10 all four bytes' bits, in a C4 reply only
    expect('4.10', inputs_on(b'\x01\x80\xff\x0f'), 14)
    expect('4.10', read('reply', 0xC4, b'\x01\x80\xff\x0f')[4], (b'\x01\x80\xff\x0f', 14))
    expect('4.10', read('reply', 0xC5, b'\x01\x80\xff\x0f')[4], (b'\x01\x80\xff\x0f',))
    # 4.11 CC: 40 bits, unsigned
    expect('4.11', read('reply', 0xCC, b'\xff' * 5)[4], (2 ** 40 - 1,))


def test_fields(expect):
    """Each row's fields, with bytes that all differ."""
    for role, code, data, fields in (
            ('request', 0xA1, b'', ()), ('reply', 0xA1, b'\x01\x02\x03', (0x030201,)),
            ('request', 0xBF, b'\x13', (0x13,)), ('reply', 0xBF, b'\x41', (0x41,)),
            ('reply', 0xC5, b'\x01\x02\x03\x04', (b'\x01\x02\x03\x04',)),
            ('request', 0xC6, b'\x1f', (0x1F,)), ('reply', 0xC6, b'\x21\x02ab', (0x21, b'ab')),
            ('reply', 0xC7, b'\x01\x02\x03\x04\x05\x06\x07', (1, b'\x02\x03\x04\x05\x06\x07')),
            ('reply', 0xCC, b'\x01\x02\x03\x04\x05', (0x0504030201,)),
            ('request', 0xD0, b'\x01\x02\x03\x04', (b'\x01\x02\x03\x04',)),
            ('request', 0xD2, b'\xe0\x03abc', (0xE0, b'abc')), ('reply', 0xEE, b'\x11', (0x11,))):
        for address in (ONE, ('short', HIGHEST_SHORT), ('serial', 0x030201)):
            expect('fields', read(role, code, data, address), (0, address, code, data, fields))
            expect('fields', write(role, code, data, address)[0], 0)


def test_writing_order(expect):
    """5, 6, 7, 8, 2, 9, each ahead of the next."""
    text = b'\xff' + bytes(255)
    expect('order 5', write('request', 0xEE, b'', ('short', 0)), (5, 0))
    expect('order 6', write('request', 0xEE, b''), (6, 0))
    expect('order 7', write('reply', 0xC6, b'\x99\x01'), (7, 0))
    expect('order 8', write('reply', 0xC6, b'\x99' + text), (8, 0))
    expect('order 2', write('reply', 0xC6, b'\x20' + text, length=0), (2, 0))
    expect('order 9', write('reply', 0xC6, b'\x20\x00', length=7), (9, 0))
    expect('order 0', write('reply', 0xC6, b'\x20\x00', length=8), (0, 8))


TESTS = (test_codes, test_hexadecimal, test_texts, test_statuses, test_lent_bodies, test_numbers,
         test_fields, test_writing_order)
