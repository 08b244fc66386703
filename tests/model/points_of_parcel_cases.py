"""What the cases of the parcel scales must hold, so that nothing of 02 request 5 goes unasked.

The messages looked for are written out here by hand, not taken from where the
cases have them.
"""

from binascii import crc_hqx
from functools import lru_cache

import cases_parcel
import parcel_vectors

HEADER = b'\xf8\x55\xce'
CODES = bytes.fromhex('a0a390101250f0')
LENGTHS = {0xA3: 5, 0x10: 7, 0x50: 5}  # of a body; of the others it is 1
SEVEN = {text: bytes.fromhex(text) for text in (
    'f855ce0100a0a000', 'f855ce0500a30d0c0b0a1658', 'f855ce0100909000', 'f855ce070010eb32a4f80301c689',
    'f855ce0100121200', 'f855ce05005098badcfee315', 'f855ce0100f0f000')}
ENDS = (0, 1, -1, 2 ** 31 - 1, -2 ** 31)
SERIAL_ENDS = (0, 2 ** 31, 2 ** 32 - 1)
DIVISIONS = (0, 1, 2, 3, 4, 5, 6, 255)
STABLES = (0, 1, 2, 255)


@lru_cache(maxsize=None)
def cases_of(function):
    """{inputs: answer} of the cases of one function."""
    return {inputs: answer for name, inputs, answer in cases_parcel.cases() if name == function}


def is_read(lent):
    return (lent,) in cases_of('read_parcel')


def number_of(lent):
    """The number that the case of these bytes answers, or None where there is none."""
    return cases_of('read_parcel').get((lent,), (None,))[0]


def check_bytes(body):
    """The check by the library: it feeds two zero bytes, so it gets all but the last two."""
    return (crc_hqx(body[:-2], 0) ^ int.from_bytes(body[-2:], 'big')).to_bytes(2, 'little')


def with_length(body, length=None):
    length = len(body) if length is None else length
    return HEADER + length.to_bytes(2, 'little') + body


def right(body):
    return with_length(body) + check_bytes(body)


def test_every_answer(expect):
    """Every refusal of each function, and every message; each number often."""
    for function, numbers in (('read_parcel', [0, 6, 7, 8, 20, 21, 22]), ('parcel_value', [0, 8]),
                              ('write_parcel', [0, 8, 9])):
        given = [answer[0] for answer in cases_of(function).values()]
        expect('answers of ' + function, sorted(set(given)), numbers)
        expect('answers of ' + function, [number for number in numbers if given.count(number) < 50], [])
    read = {answer[2][0] for answer in cases_of('read_parcel').values() if answer[0] == 0}
    written = {code[0] for (code, *_), answer in cases_of('write_parcel').items() if answer[0] == 0}
    expect('messages', (read, written), (set(CODES), set(CODES)))


def test_every_cut(expect):
    """Each of the seven cut behind every byte, from nothing on: 20, then 21, then the whole."""
    for text, message in SEVEN.items():
        expect('cuts of ' + text, [number_of(message[:length]) for length in range(len(message) + 1)],
               [20] * 3 + [21] * (len(message) - 3) + [0])


def test_bytes_behind(expect):
    """Each of the seven alone, followed by 1 to 9 bytes, a header, a refused message
    and each of the seven; the same number of bytes used."""
    for text, message in SEVEN.items():
        behind = [lent[len(message):] for lent, in cases_of('read_parcel') if lent.startswith(message)]
        wanted = [b'', HEADER, b'\xf8', bytes.fromhex('f855ce0100a00100'), *SEVEN.values()]
        expect('behind ' + text, [tail.hex() for tail in wanted if tail not in behind], [])
        expect('behind ' + text, set(range(1, 10)) - {len(tail) for tail in behind}, set())
        used = {cases_of('read_parcel')[(message + tail,)][1] for tail in behind}
        expect('behind ' + text, used, {len(message)})


def test_every_bit(expect):
    """Each of the seven with each bit turned over: alone, and with bytes behind;
    and in the body with a right check. Every refusal is among the answers."""
    numbers = set()
    for text, message in SEVEN.items():
        for place in range(len(message)):
            for bit in range(8):
                changed = bytearray(message)
                changed[place] ^= 1 << bit
                number = number_of(bytes(changed))
                wanted = {20} if place < 3 else {21, 22} if place < 5 else {22}
                expect('changed ' + text, number in wanted, True)
                numbers.add(number)
                if 5 <= place < len(message) - 2:
                    number = number_of(right(bytes(changed[5:-2])))
                    expect('changed with a right check ' + text, number is None, False)
                    numbers.add(number)
                behind = [lent for lent, in cases_of('read_parcel')
                          if len(lent) > 200 and lent.startswith(bytes(changed))] if place in (3, 4) else [None]
                expect('changed, bytes behind ' + text, len(behind) > 0, True)
    expect('changed', numbers, {0, 6, 7, 8, 20, 21, 22})


def test_headers(expect):
    """Every other value of each header byte, all else right: 20. And a header
    ahead of each of the seven that is wrong in one byte or in its order; and each
    of the seven behind other bytes."""
    for place in range(3):
        for byte in range(256):
            lent = bytearray(SEVEN['f855ce0100a0a000'])
            lent[place] = byte
            expect('header', number_of(bytes(lent)), 0 if byte == HEADER[place] else 20)
    for message in SEVEN.values():
        for header in (b'\xce\x55\xf8', b'\xf8\x55\xcf', b'\xf9\x55\xce', b'\xf8\x54\xce', bytes(3)):
            expect('header', number_of(header + message[3:]), 20)
        expect('header', [number_of(front + message) for front in (b'\x00', b'\xff', b'\xf8', b'\xf8\x55')], [20] * 4)


def test_lengths(expect):
    """An empty body with a right and with wrong checks; lengths 1 to 9 of each of
    the seven codes with a right check; the length high byte first; far ones."""
    expect('empty', [number_of(with_length(b'') + check) for check in
                     (b'\x00\x00', b'\x01\x00', b'\x00\x01', b'\xff\xff', b'\xa0\x00')], [6, 22, 22, 22, 22])
    for code in CODES:
        for length in range(1, 10):
            wanted = 0 if length == LENGTHS.get(code, 1) else 7
            expect('length', number_of(right(bytes([code]) + bytes(length - 1))), wanted)
    for text, message in SEVEN.items():
        turned = HEADER + message[4:5] + message[3:4] + message[5:]
        expect('high first ' + text, number_of(turned), 21)
        longer = {answer[0] for (lent,), answer in cases_of('read_parcel').items()
                  if len(lent) > 300 and lent.startswith(turned)}
        expect('high first ' + text, bool(longer & {21, 22}), True)
    for length in range(65_529, 65_536):
        for bytes_behind in range(8):
            expect('far', [answer[0] for (lent,), answer in cases_of('read_parcel').items() if
                           lent.startswith(with_length(b'', length)) and len(lent) == 5 + bytes_behind][:1], [21])


def test_every_code(expect):
    """All 256 codes with a right check and no data, four bytes, six bytes: zeros."""
    for code in range(256):
        for length in (0, 4, 6):
            wanted = 6
            if code in CODES:
                wanted = 0 if length + 1 == LENGTHS.get(code, 1) else 7
            expect('code', number_of(right(bytes([code]) + bytes(length))), wanted)


def test_checks(expect):
    """Each of the seven with its check bytes exchanged, with one and two zero
    bytes fed, with each bit of the check turned over."""
    for message in SEVEN.values():
        body, check = message[5:-2], message[-2:]
        others = [check[::-1], check_bytes(body + b'\x00'), check_bytes(body + b'\x00\x00'),
                  check_bytes(body + b'\x00\x00')[::-1]]
        others += [(int.from_bytes(check, 'big') ^ 1 << bit).to_bytes(2, 'big') for bit in range(16)]
        expect('check', [number_of(with_length(body) + other) for other in others], [22] * len(others))


def test_fields(expect):
    """Both ends of tares, counts and serials, read and written; every division and
    every stable mark, and those of interest with each other."""
    low = lambda number: (number % 2 ** 32).to_bytes(4, 'little')
    for code, ends in ((0xA3, ENDS), (0x50, SERIAL_ENDS)):
        for number in ends:
            expect('fields', number_of(right(bytes([code]) + low(number))), 0)
            written = [answer[0] for (of, fields, _), answer in cases_of('write_parcel').items()
                       if (of[0], fields) == (code, (number,))]
            expect('fields', sorted(set(written)), [0, 9])
    mixes = [(count, division, stable) for count in ENDS for division in DIVISIONS for stable in STABLES]
    for count, division, stable in mixes:
        wanted = 0 if division <= 4 and stable <= 1 else 8
        expect('fields', number_of(right(b'\x10' + low(count) + bytes([division, stable]))), wanted)
        expect('fields', cases_of('parcel_value')[(count, division, stable)][0], wanted)
    for function in ('read_parcel', 'write_parcel', 'parcel_value'):
        asked = list(fields_asked(function))
        for place in (1, 2):
            expect('fields of ' + function, {fields[place] for fields in asked}, set(range(256)))


def fields_asked(function):
    """(count, division, stable) of the weights that are asked of a function."""
    for inputs in cases_of(function):
        if function == 'parcel_value':
            yield inputs
        elif function == 'write_parcel' and inputs[0] == b'\x10':
            yield inputs[1]
        elif function == 'read_parcel' and inputs[0][:6] == b'\xf8\x55\xce\x07\x00\x10' and len(inputs[0]) == 14:
            if right(inputs[0][5:-2]) == inputs[0]:
                yield inputs[0][6:10], inputs[0][10], inputs[0][11]


def test_long_bodies(expect):
    """Lengths in which both bytes matter: a right check, 6 and 7; a wrong one, 22;
    a byte too few, 21."""
    for length in (255, 256, 257, 300, 1000, 4000):
        lents = [(lent, answer[0]) for (lent,), answer in cases_of('read_parcel').items()
                 if lent.startswith(with_length(b'', length)) and len(lent) >= length]
        expect('long %d' % length, {number for _, number in lents}, {6, 7, 21, 22})
        whole = [number for lent, number in lents if len(lent) == length + 7]
        expect('long %d' % length, set(whole), {6, 7, 22})
        short = [number for lent, number in lents if len(lent) == length + 6]
        expect('long %d' % length, set(short), {21})


def test_inner_headers(expect):
    """A tare that holds a header, read from its start and from the inner header
    on; a body that holds a whole message."""
    tares = [lent for lent, in cases_of('read_parcel') if lent[:9] == b'\xf8\x55\xce\x05\x00\xa3' + HEADER]
    expect('inner header', {number_of(lent) for lent in tares} >= {0}, True)
    expect('inner header', [lent.hex() for lent in tares if not is_read(lent[6:])], [])
    for message in SEVEN.values():
        for code, number in ((b'\x00', 6), (b'\xa3', 7)):
            around = right(code + message)
            expect('inner header', (number_of(around), number_of(around[6:])), (number, 0))


def test_rooms(expect):
    """Each of the seven into a room of every length up to three bytes more than it
    needs; 8 in rooms of every kind. The bytes of a room all differ."""
    asked = {}
    for (code, fields, room), answer in cases_of('write_parcel').items():
        asked.setdefault((code[0], answer[0]), set()).add(len(room))
        expect('rooms', len(set(room)), min(len(room), 251))
    for code in CODES:
        need = LENGTHS.get(code, 1) + 7
        expect('rooms', set(range(need)) - asked[code, 9], set())
        expect('rooms', set(range(need, need + 4)) - asked[code, 0], set())
    expect('rooms', {0, 13, 14} - asked[0x10, 8], set())
    for division, stable in ((5, 0), (255, 1), (0, 2), (4, 255), (5, 2)):
        lengths = {len(room) for (code, fields, room) in cases_of('write_parcel')
                   if code == b'\x10' and fields[1:] == (division, stable)}
        expect('8 ahead of 9', {13, 14} - lengths, set())


def test_checked_lengths(expect):
    lengths = [len(body) for body, in cases_of('parcel_check_of')]
    for length in (*range(21), 255, 256, 257, 1000, 4096):
        expect('checks of length %d' % length, lengths.count(length) >= min(3, 256 ** length), True)


# How many different beginnings there are at least of each answer, and messages of each code:
# more than the cases have without those that are drawn.
DIFFERENT = {20: 1000, 21: 600, 22: 900, 6: 1350, 7: 300, 8: 60}
DIFFERENT_READ = {b'\xa3': 75, b'\x10': 250, b'\x50': 75}


def test_random_bytes(expect):
    """Bytes drawn at random are among the cases of every answer."""
    cases = cases_of('read_parcel').items()
    for number, least in DIFFERENT.items():
        started = {lent[:10] for (lent,), answer in cases if answer[0] == number}
        expect('random bytes, answer %d' % number, len(started) >= least, True)
    for code, least in DIFFERENT_READ.items():
        read = {answer[3] for _, answer in cases if answer[0] == 0 and answer[2] == code}
        expect('random messages %02X' % code[0], len(read) >= least, True)


def test_as_they_are_run(expect):
    """Cases as the program reads and answers them."""
    run = {vector.case[:2]: (vector.given.hex(' '), vector.answer) for vector in parcel_vectors.vectors()}
    marked = bytes((place * 7 + 0x31) % 251 for place in range(13))
    for case, given, answer in (
            (('parcel_check_of', (b'\xa0',)), '01 01 00 a0', b'1 160'),
            (('read_parcel', (SEVEN['f855ce0100a0a000'],)), '02 08 00 f8 55 ce 01 00 a0 a0 00', b'2 0 8 0'),
            (('read_parcel', (SEVEN['f855ce070010eb32a4f80301c689'],)),
             '02 0e 00 f8 55 ce 07 00 10 eb 32 a4 f8 03 01 c6 89', b'2 0 14 3 4171510507 3 1'),
            (('read_parcel', (SEVEN['f855ce05005098badcfee315'],)),
             '02 0c 00 f8 55 ce 05 00 50 98 ba dc fe e3 15', b'2 0 12 5 4275878552'),
            (('read_parcel', (b'',)), '02 00 00', b'2 20'),
            (('parcel_value', (-1, 4, 1)), '03 00 00 ff ff ff ff 04 01', b'3 0 ffffffffff676980'),
            (('parcel_value', (1, 5, 0)), '03 00 00 01 00 00 00 05 00', b'3 8'),
            (('write_parcel', (b'\xf0', (), marked[:8])),
             '04 00 00 08 00 31 38 3f 46 4d 54 5b 62 06 00 00 00 00 00 00', b'4 0 8 f855ce0100f0f000'),
            (('write_parcel', (b'\x10', (-1, 255, 2), marked)),
             '04 00 00 0d 00 31 38 3f 46 4d 54 5b 62 69 70 77 7e 85 03 ff ff ff ff ff 02',
             b'4 8 0 31383f464d545b626970777e85'),
            (('write_parcel', (b'\xa3', (0x0A0B0C0D,), b'')), '04 00 00 00 00 01 0d 0c 0b 0a 00 00', b'4 9 0 -')):
        expect('as run', run.get(case), (given, answer))


TESTS = (test_every_answer, test_every_cut, test_bytes_behind, test_every_bit, test_headers, test_lengths,
         test_every_code, test_checks, test_fields, test_long_bodies, test_inner_headers, test_rooms,
         test_checked_lengths, test_random_bytes, test_as_they_are_run)
