"""Section 10 of the open points and 02 request 5: the parcel scales.

Bytes and answers are written out by hand. Each expectation names its point, or
what the request says.
"""

from binascii import crc_hqx

from parcel import TABLE, framed, read_parcel, value_of, write_parcel
from parcel_check import check_of, rest_of_division
from parcels_asked import (SEVEN, SIGNED, every_division, every_stable, numbers, some_parcel, weights, whole)
from random_bytes import RandomBytes

wire_of = bytes.fromhex
ASKED_WEIGHT = wire_of('f855ce0100a0a000')
# Each message as it goes out: bytes, code, fields.
WRITTEN = (
    ('f855ce0100a0a000', 0xA0, ()), ('f855ce0500a30d0c0b0a1658', 0xA3, (0x0A0B0C0D,)),
    ('f855ce0500a300000000cce4', 0xA3, (0,)), ('f855ce0500a3e8030000b44d', 0xA3, (1000,)),
    ('f855ce0500a318fcffff7abf', 0xA3, (-1000,)), ('f855ce0100909000', 0x90, ()),
    ('f855ce070010d20400000101f09c', 0x10, (1234, 1, 1)), ('f855ce0700102efbffff0000e29f', 0x10, (-1234, 0, 0)),
    ('f855ce070010eb32a4f80301c689', 0x10, (-123_456_789, 3, 1)),
    ('f855ce0700100000000000005a04', 0x10, (0, 0, 0)), ('f855ce0100121200', 0x12, ()),
    ('f855ce050050785634121fd1', 0x50, (0x12345678,)), ('f855ce05005098badcfee315', 0x50, (0xFEDCBA98,)),
    ('f855ce0100f0f000', 0xF0, ()))


def read(text):
    return read_parcel(wire_of(text))


def written(code, fields, length=40):
    """Number and length, and the room afterwards."""
    room = bytearray(b'\xaa' * length)
    return write_parcel(code, fields, room), bytes(room)


def test_printed_check(expect):
    # 003 section 4.1: the first two bytes go in as they are; then what falls out at the top is folded in
    for text, check in (('', 0), ('00', 0), ('a0', 0x00A0), ('a012', 0xA012), ('010000', 0x1021),
                        ('020000', 0x2042), ('100000', 0x1231), ('800000', 0x9188), ('ff0000', 0x1EF0),
                        ('01000080', 0x33B1), ('313233343536373839', 0xBEEF)):
        expect('003 4.1', check_of(wire_of(text)), check)


def test_two_wordings(expect):
    """The printed code is the division that 02 names. The library's own check of
    this polynomial feeds two zero bytes, so it is asked of all but the last two
    bytes, which then go in as they are."""
    source = RandomBytes(73)
    for length in [*range(40), 255, 256, 257, 1000, 4096]:
        for body in (source.bytes(length), bytes(length), b'\xff' * length):
            expect('printed check and polynomial', check_of(body), rest_of_division(body))
            library = crc_hqx(body[:-2], 0) ^ int.from_bytes(body[-2:], 'big')
            expect('printed check and library', check_of(body), library)


def test_byte_order(expect):
    # 10.1 (!) the check goes low byte first, and no zero bytes are fed
    expect('10.1', framed(b'\xa0').hex(' '), 'f8 55 ce 01 00 a0 a0 00')
    expect('10.1', read('f855ce0100a0a000'), (0, 8, 0xA0, ()))
    expect('10.1', read('f855ce0100a000a0'), (22,))   # the check high byte first, or one zero byte fed
    expect('10.1', read('f855ce0100a0eab5'), (22,))   # two zero bytes fed
    expect('10.1', read('f855ce0001a0a000'), (21,))   # the length high byte first: 256
    expect('10.1', check_of(wire_of('a0a000')), 0x15EA)  # "feeding the check through does not give 0"
    long_body = b'\xa0' + bytes(255)
    expect('10.1', framed(long_body)[:6].hex(), 'f855ce0001a0')
    expect('10.1', [read_parcel(framed(long_body)), read_parcel(framed(long_body)[:-1])], [(7,), (21,)])


def test_missing_bytes(expect):
    # 10.2 (!) one or two right header bytes are 20; three and nothing else are 21
    for text, number in (('', 20), ('f8', 20), ('f855', 20), ('f855ce', 21), ('f855ce01', 21), ('f855ce0100', 21),
                         ('f855ce0100a0', 21), ('f855ce0100a0a0', 21), ('f855cf', 20), ('00f855ce0100a0a000', 20),
                         ('f955ce0100a0a000', 20), ('f854ce0100a0a000', 20), ('f855cf0100a0a000', 20),
                         ('ce55f80100a0a000', 20), ('f855ce000000', 21), ('f855ceffff', 21),
                         ('f855ceffffa0a000', 21), ('f855cefeffa0a000', 21), ('f855cef9ffa0a000', 21)):
        expect('10.2', read(text), (number,))


def test_empty_body(expect):
    # 10.3 (!) its check 00 00 first: else 22, then 6
    for text, number in (('f855ce00000000', 6), ('f855ce00000100', 22), ('f855ce00000001', 22),
                         ('f855ce0000ffff', 22), ('f855ce0000a0a000', 22), ('f855ce00000000a0', 6),
                         ('f855ce000000', 21)):
        expect('10.3', read(text), (number,))


def test_codes(expect):
    # 10.4 one reader for both directions; 6 is a code not among the seven
    expect('10.4', bytes(TABLE).hex(), 'a0a390101250f0')
    for text in ('f855ce0100a1a100', 'f855ce0600110000000000136d', 'f855ce0100000000', 'f855ce020091040491'):
        expect('10.4', read(text), (6,))
    known = [code for code in range(256) if read_parcel(framed(bytes([code]))) != (6,)]
    expect('10.4', known, [0x10, 0x12, 0x50, 0x90, 0xA0, 0xA3, 0xF0])


def test_layouts(expect):
    """"Layouts follow 003": each message both ways, field by field."""
    for text, code, fields in WRITTEN:
        sent = wire_of(text)
        expect('layout', read(text), (0, len(sent), code, fields))
        expect('layout', written(code, fields), ((0, len(sent)), sent + b'\xaa' * (40 - len(sent))))
    expect('layout', [code for code, _ in SEVEN], [0xA0, 0xA3, 0x90, 0x10, 0x12, 0x50, 0xF0])
    for code in TABLE:
        right = {0xA3: 5, 0x10: 7, 0x50: 5}.get(code, 1)
        accepted = [length for length in range(1, 300)
                    if read_parcel(framed(bytes([code]) + bytes(length - 1))) != (7,)]
        expect('7', accepted, [right])


def test_numbers(expect):
    # 10.5 a tare is signed, any value, never 8; the serial is unsigned; neither is turned into another unit
    for text, fields in (('a3ffffffff', (-1,)), ('a3ffffff7f', (2 ** 31 - 1,)), ('a300000080', (-2 ** 31,)),
                         ('50ffffffff', (2 ** 32 - 1,)), ('5000000080', (2 ** 31,)), ('5000000000', (0,)),
                         ('10ffffffff0401', (-1, 4, 1)), ('10000000800000', (-2 ** 31, 0, 0))):
        body = wire_of(text)
        expect('10.5', read_parcel(framed(body)), (0, len(body) + 7, body[0], fields))
        expect('10.5', written(body[0], fields)[1][5:5 + len(body)], body)


def test_fields(expect):
    """Refusal 8: a division above 4, a stable mark above 1, and nothing else."""
    for text, number in (('f855ce070010010000000500ee77', 8), ('f855ce070010010000000402ec76', 8),
                         ('f855ce070010010000000502ec77', 8), ('f855ce070010010000000001ef72', 0)):
        expect('8', read(text)[0], number)
    for division in range(256):
        for stable in (0, 1, 2, 3, 128, 255):
            wanted = 0 if division <= 4 and stable <= 1 else 8
            body = b'\x10\x07\x00\x00\x00' + bytes([division, stable])
            expect('8', read_parcel(framed(body))[0], wanted)
            expect('8', written(0x10, (7, division, stable), 14)[0], (wanted, 0 if wanted else 14))
            expect('8', value_of(7, division, stable)[0], wanted)


def test_reading_order(expect):
    """20, 21, 22, 6, 7, 8, each ahead of the next. A message that would be all of
    these from some place on."""
    for text, number in (('f855cf', 20), ('f855cf0500a0', 20), ('f855cf0100a00000', 20), ('f855cf0100a1a100', 20),
                         ('f855ce0200a0a0', 21), ('f855ce0200a1a100', 21), ('f855ce0100a10000', 22),
                         ('f855ce0100100000', 22), ('f855ce0700100100000005000000', 22),
                         ('f855ce0100111100', 6), ('f855ce0100101000', 7), ('f855ce0100a3a300', 7)):
        expect('reading order', read(text), (number,))
    for data in (bytes(5) + b'\x05', b'\xff' * 5, b'\xff' * 7):
        expect('7 ahead of 8', read_parcel(framed(b'\x10' + data[:5])), (7,))
        expect('7 ahead of 8', read_parcel(framed(b'\x10' + data[:5] + b'\x02\x02')), (7,))


def test_writing(expect):
    # 10.6 "Writing judges 6, 8, 9"; a refused write leaves length 0 and the room as it stood
    expect('10.6', written(0x11, (1, 9, 9), 0), ((6, 0), b''))
    expect('10.6', written(0xA1, (), 8), ((6, 0), b'\xaa' * 8))
    for fields in ((1, 5, 0), (1, 0, 2), (1, 255, 255), (-1, 5, 1)):
        for length in (0, 1, 13, 14, 15):
            expect('10.6', written(0x10, fields, length), ((8, 0), b'\xaa' * length))
    for text, code, fields in WRITTEN:
        sent = wire_of(text)
        for length in range(len(sent)):
            expect('10.6', written(code, fields, length), ((9, 0), b'\xaa' * length))
        for more in range(4):
            expect('10.6', written(code, fields, len(sent) + more), ((0, len(sent)), sent + b'\xaa' * more))


def test_values(expect):
    # 10.7 "100 mg, 1 g, 10 g, 100 g, 1 kg" in tenths of a milligram
    expect('10.7', [value_of(1, division, 0) for division in range(6)],
           [(0, 1000), (0, 10_000), (0, 100_000), (0, 1_000_000), (0, 10_000_000), (8,)])
    for count, division, stable, answer in (
            (1234, 1, 1, (0, 12_340_000)), (-1234, 0, 0, (0, -1_234_000)), (0, 4, 1, (0, 0)),
            (2 ** 31 - 1, 4, 1, (0, 21_474_836_470_000_000)), (-2 ** 31, 4, 0, (0, -21_474_836_480_000_000)),
            (-1, 4, 1, (0, -10_000_000)), (0, 5, 0, (8,)), (0, 0, 2, (8,)), (0, 255, 255, (8,))):
        expect('10.7', value_of(count, division, stable), answer)
    for count in SIGNED:
        for division in range(5):
            expect('10.7', value_of(count, division, 0), value_of(count, division, 1))


def many_parcels():
    """Different messages whose fields are right, their codes and fields."""
    source = RandomBytes(79)
    several = list(SEVEN) + numbers() + [(code, fields) for _, code, fields in WRITTEN]
    several += [message for message in weights() + every_division() + every_stable()
                if message[1][1] <= 4 and message[1][2] <= 1]
    several += [some_parcel(source) for _ in range(1500)]
    return sorted(set(several))


def test_written_reads_back(expect):
    """"reading a written message back": itself, and all of its bytes used, whatever
    stands behind the check."""
    source = RandomBytes(83)
    for code, fields in many_parcels():
        (number, length), room = written(code, fields)
        expect('reads back', number, 0)
        for behind in (b'', b'\xf8', ASKED_WEIGHT, room[length:], source.bytes(9)):
            expect('reads back', read_parcel(room[:length] + behind), (0, length, code, fields))


def test_single_writing(expect):
    """"the single writing of each accepted one": what was read is written as the
    bytes that were used, and two different messages never have one writing."""
    writings = {}
    for code, fields in many_parcels():
        writings.setdefault(whole(code, fields), []).append((code, fields))
    expect('one writing', [both for both in writings.values() if len(both) > 1], [])
    source = RandomBytes(89)
    for _ in range(3000):
        body = bytes([source.choice(bytes(TABLE))]) + source.bytes(source.choice((0, 4, 6)))
        if len(body) == 7:
            body = body[:5] + bytes([source.below(7), source.below(3)])
        lent = framed(body) + source.bytes(source.below(4))
        answer = read_parcel(lent)
        if answer[0] == 0:
            _, used, code, fields = answer
            expect('written again', written(code, fields, used), ((0, used), lent[:used]))
        else:
            expect('a refusal is a number only', (len(answer), answer[0] in (7, 8)), (1, True))


def test_bytes_behind(expect):
    """"Bytes after the check aren't looked at": neither a message nor a refusal
    of 22, 6, 7 or 8 changes by them."""
    for text, number in (('f855ce0100a0a000', 0), ('f855ce0100a0a100', 22), ('f855ce0100a1a100', 6),
                         ('f855ce00000000', 6), ('f855ce0100a3a300', 7), ('f855ce070010010000000500ee77', 8)):
        for behind in (b'', b'\x00', b'\xff' * 9, b'\xf8\x55\xce', ASKED_WEIGHT):
            wanted = (0, 8, 0xA0, ()) if number == 0 else (number,)
            expect('bytes behind', read_parcel(wire_of(text) + behind), wanted)


def test_inner_headers(expect):
    """"Header bytes may recur inside a body, so demand 3 is not claimed here": who
    starts at the inner header may meet another answer."""
    whole_message = wire_of('f855ce07001096f855ce01006767')
    expect('inner header', read_parcel(whole_message + b'\x00'), (0, 14, 0x10, (0xCE55F896 - 2 ** 32, 1, 0)))
    expect('inner header', read_parcel(whole_message[7:]), (21,))
    expect('inner header', read_parcel(whole_message[7:] + b'\x00'), (6,))
    around = framed(b'\xa3' + ASKED_WEIGHT)
    expect('inner header', [read_parcel(around), read_parcel(around[6:])], [(7,), (0, 8, 0xA0, ())])


TESTS = (test_printed_check, test_two_wordings, test_byte_order, test_missing_bytes, test_empty_body,
         test_codes, test_layouts, test_numbers, test_fields, test_reading_order, test_writing, test_values,
         test_written_reads_back, test_single_writing, test_bytes_behind, test_inner_headers)
