"""Cases of a parcel scale's bytes read: every cut, every change, and what stands behind."""

from cases_frame import marked_room
from parcel import HEADER, TABLE, body_of, read_parcel
from parcel_check import check_of
from parcels_asked import (SEVEN, every_division, every_stable, high_first, misread_checks, numbers,
                           put_together, some_parcel, weights, whole)

WHOLE = tuple(whole(code, fields) for code, fields in SEVEN)
ZERO_WEIGHT = bytes(6)  # data of a weight that is right: nothing, division 0, not stable
LONG_LENGTHS = (128, 254, 255, 256, 257, 258, 300, 512, 1000)  # both bytes of the length matter
VERY_LONG = (4000, 4089)  # the last fills the longest text
# Lengths near the end of 16 bits: with the check, or all five other bytes too, they pass it.
FAR_LENGTHS = (0x7FFF, 0x8000, 0xFEFF, 0xFF00, *range(65_527, 65_536))
# A tare and a count that hold a header. Of the last two the inner bytes go on by chance as a length
# that is not far: 00F4, and 0001 with the right check of an unknown code.
INNER = ((0xA3, (0x01CE55F8,)), (0xA3, (0xFFCE55F8 - 2 ** 32,)), (0x50, (0x01CE55F8,)),
         (0x10, (0x00CE55F8, 1, 0)), (0xA3, (0xF4CE55F8 - 2 ** 32,)), (0x10, (0xCE55F896 - 2 ** 32, 1, 0)))


def cuts():
    """Every prefix from no bytes to all, of the seven, of every number and of
    bytes that whole are 6, 7, 8 and 22."""
    several = list(WHOLE) + [whole(*message) for message in numbers()]
    several += [put_together(body) for body in (b'', b'\xa1', b'\xa3\x01', b'\x10' + bytes(4) + b'\x05\x00',
                                                b'\x10' + bytes(5) + b'\x02', b'\x11' + bytes(5))]
    several.append(put_together(b'\xa0', check=1))
    for lent in several:
        for length in range(len(lent) + 1):
            yield lent[:length]


def tails():
    """What may stand behind a check: bytes, headers, part of a message, a message."""
    for length in (*range(1, 10), 100):
        yield marked_room(length)
        yield bytes(length)
        yield b'\xff' * length
    yield HEADER
    yield HEADER[:1]
    yield HEADER[:2]
    yield HEADER + b'\x01\x00'
    yield put_together(b'\xa0', check=1)
    yield put_together(b'')
    yield WHOLE[3][:-1]
    yield from WHOLE
    yield WHOLE[0] + WHOLE[3] + WHOLE[1]


def followed():
    """Each of the seven, and bytes that are refused, followed by each of these."""
    refused = (put_together(b''), put_together(b'\xa1'), put_together(b'\xa3'),
               put_together(b'\x10' + bytes(4) + b'\x05\x00'), put_together(b'\xa0', check=1),
               b'\xf8\x55\xcf\x01\x00\xa0\xa0\x00')
    for lent in WHOLE + refused:
        yield lent
        for tail in tails():
            yield lent + tail


def ahead():
    """A message that does not stand at the front: the header is not searched for."""
    for lent in WHOLE:
        for front in (b'\x00', b'\xff', b'\xf8', b'\xf8\x55', HEADER):
            yield front + lent
        for missing in (1, 2, 3):
            yield lent[missing:]


def flipped(lent, places):
    """Each bit of these bytes turned over, alone."""
    for place in places:
        for bit in range(8):
            yield lent[:place] + bytes([lent[place] ^ 1 << bit]) + lent[place + 1:]


def changes():
    """Each byte of each of the seven changed: every bit, and to other values; and
    the same where bytes stand behind it, so that a longer length finds them. Of a
    tare A3 00 the length 1 finds its right check: refusal 7."""
    for lent in WHOLE + (whole(0xA3, (0x340000A3,)),):
        for changed in flipped(lent, range(len(lent))):
            yield changed
            yield changed + marked_room(300)[40:]
        for place, held in enumerate(lent):
            for byte in (0x00, 0xFF, (held + 1) % 256, (held - 1) % 256, held ^ 0xFF):
                yield lent[:place] + bytes([byte]) + lent[place + 1:]


def bodies_changed():
    """Each bit of each body turned over, with the check of what then stands there."""
    for code, fields in SEVEN:
        body = body_of(code, fields)
        for changed in flipped(body, range(len(body))):
            yield put_together(changed)
    for changed in flipped(b'\x10' + ZERO_WEIGHT, range(7)):
        yield put_together(changed)


def headers():
    """A changed header, all else right; and beside what would be 21, 22, 6."""
    wrong = [HEADER[::-1], b'\xf8\xce\x55', b'\x55\xf8\xce', b'\x55\xce\x01', bytes(3), b'\xff' * 3,
             b'\xf8\xf8\x55', b'\xf8\x55\x55', b'\xff\x55\xce', b'\xf8\x55\xcf', b'\xf9\x55\xce', b'\xf8\x54\xce']
    for header in wrong:
        for code, fields in SEVEN:
            yield put_together(body_of(code, fields), header=header)
        yield put_together(b'\xa0', header=header, length=9)
        yield put_together(b'\xa0', header=header, check=1)
        yield put_together(b'', header=header)
        yield from (header[:length] for length in range(4))
    for place in range(3):
        for byte in range(256):
            yield put_together(b'\xa0', header=HEADER[:place] + bytes([byte]) + HEADER[place + 1:])


def lengths():
    """An empty body with its check 00 00 and others; lengths 1 to 9 of each of the
    seven codes with a right check; lengths put high byte first; one more or less
    than there are bytes."""
    for check in (0, 1, 0x0100, 0x8000, 0x0080, 0xFFFF, 0xA0, 0xA000):
        yield put_together(b'', check=check)
        yield put_together(b'', check=check) + b'\x00' * 9
    for code in TABLE:
        for length in range(1, 10):
            for data in (bytes(length - 1), marked_room(length - 1), b'\x01' * (length - 1)):
                yield put_together(bytes([code]) + data)
    for code, fields in SEVEN:
        body = body_of(code, fields)
        for length in (high_first(len(body)), len(body) + 1, len(body) - 1, len(body) + 2, len(body) + 256,
                       len(body) + 4, len(body) + 7):
            yield put_together(body, length=length)
            yield put_together(body, length=length) + marked_room(600)


def codes(source):
    """All 256 codes with a right check and no data, four bytes and six."""
    for code in range(256):
        for length in (0, 4, 6):
            yield put_together(bytes([code]) + bytes(length))
            if length:
                yield put_together(bytes([code]) + source.bytes(length))


def checks():
    """Checks of each of the seven and of other bodies, as they may be misread."""
    several = [body_of(code, fields) for code, fields in SEVEN]
    several += [b'', b'\x00', b'\x00\x00', b'\xa1', b'\xa3', b'\x10' + bytes(4) + b'\x05\x00', b'\x10' + ZERO_WEIGHT]
    for body in several:
        for check in misread_checks(body):
            yield put_together(body, check=check)


def fields():
    """Every number, division and stable mark of interest, with a right check."""
    for code, held in numbers() + weights() + every_division() + every_stable():
        yield whole(code, held)


def long_bodies(source):
    """Right and wrong checks, a byte too few, bytes behind: 7 of a code of the
    seven, 6 of another; and lengths whose low byte alone, or high byte first,
    would find a message."""
    for length in LONG_LENGTHS + VERY_LONG:
        for code in (0xA0, 0xA3, 0x10, 0x00) if length < 4000 else (0x10, 0x00):
            body = bytes([code]) + source.bytes(length - 1)
            yield put_together(body)
            yield put_together(body)[:-1]
            yield put_together(body, check=check_of(body) ^ 0x0001)
            yield put_together(body, check=check_of(body) ^ 0x8000)
            if length < 4000:
                yield put_together(body) + b'\x00\xf8'
                yield put_together(body)[:-2]
    for code, held in SEVEN:
        body = body_of(code, held)
        inner = body + check_of(body).to_bytes(2, 'little')
        yield put_together(inner + bytes(len(body) + 256 - len(inner)))
        yield put_together(inner + bytes(256 * len(body) - len(inner)))


def far_lengths():
    """Lengths that pass 16 bits with what stands around them, few bytes behind."""
    for length in FAR_LENGTHS:
        for behind in (*range(10), 20, 300):
            yield HEADER + length.to_bytes(2, 'little') + marked_room(behind)
        yield put_together(b'\xa0', length=length)
        yield put_together(b'', length=length)
    yield HEADER + b'\xff\xff' + bytes(4091)


def inner_headers():
    """"Header bytes may recur inside a body": read from the start and from every
    byte on. Bytes behind, where they are wanted, are as many as the inner header's
    length says: a whole body of 244 with its check, or a 00 of a check 67 00."""
    cut = whole(*INNER[4])[-1:] + marked_room(243)
    for lent in [whole(code, held) for code, held in INNER]:
        for start in range(len(lent)):
            yield lent[start:]
        inner = lent.index(HEADER, 1)
        for tail in (b'\x00' + WHOLE[0], cut[1:] + check_of(cut).to_bytes(2, 'little'), marked_room(600)):
            yield lent + tail
            yield lent[inner:] + tail
    for code in (0x00, 0xA3):
        for message in WHOLE:
            around = put_together(bytes([code]) + message)
            for start in range(len(around)):
                yield around[start:]


def drawn(source):
    """Random bytes; behind a header; behind a header and a small length; random
    bodies with a right check; random messages with a byte changed, cut, followed."""
    for _ in range(150):
        yield source.bytes(source.below(24))
        yield HEADER + source.bytes(source.below(20))
        yield HEADER + bytes([source.below(10), 0]) + source.bytes(source.below(20))
        yield put_together(source.bytes(source.below(12)))
        yield put_together(bytes([source.choice(tuple(TABLE))]) + source.bytes(source.below(9)))
        yield put_together(b'\x10' + source.bytes(4) + bytes([source.below(7), source.below(3)]))
    for _ in range(300):
        lent = whole(*some_parcel(source))
        yield lent + source.bytes(source.below(12))
        place = source.below(len(lent))
        yield lent[:place] + source.bytes(1) + lent[place + 1:] + source.bytes(source.below(6))
        yield (lent + whole(*some_parcel(source)))[:source.below(28)]


def lent_bytes(source):
    for group in (cuts, followed, ahead, changes, bodies_changed, headers, lengths, checks, fields, far_lengths,
                  inner_headers):
        yield from group()
    for group in (codes, long_bodies, drawn):
        yield from group(source)


def cases(source):
    for lent in dict.fromkeys(lent_bytes(source)):
        answer = read_parcel(lent)
        if len(answer) > 1:
            number, used, code, held = answer
            answer = (number, used, bytes([code]), held)
        yield ('read_parcel', (lent,), answer)
