"""Messages of the parcel scales, fields and misread checks of interest, for cases.

Which of them are refused stands in `parcel.TABLE` and nowhere here.
"""

import parcel
from parcel_check import check_of

# One message of each code. The bytes of a number all differ, so that their order is seen.
SEVEN = (
    (0xA0, ()), (0xA3, (0x0A0B0C0D,)), (0x90, ()), (0x10, (-123_456_789, 3, 1)), (0x12, ()),
    (0x50, (0xFEDCBA98,)), (0xF0, ()))
SIGNED = (0, 1, -1, 2 ** 31 - 1, -2 ** 31, 255, 256, -256, 65_536, 1000, -1000, 12_345_678)
SERIALS = (0, 1, 255, 256, 65_536, 2 ** 31 - 1, 2 ** 31, 2 ** 32 - 1, 305_419_896)
DIVISIONS = (0, 1, 2, 3, 4, 5, 6, 255)
STABLES = (0, 1, 2, 255)


def weights():
    """Counts, divisions and stable marks, each with each."""
    return [(0x10, (count, division, stable)) for count in SIGNED for division in DIVISIONS
            for stable in STABLES]


def every_division():
    return [(0x10, (-2, division, 1)) for division in range(256)]


def every_stable():
    return [(0x10, (-2, 4, stable)) for stable in range(256)]


def numbers():
    """Tares and serials at and between their ends."""
    return [(0xA3, (tare,)) for tare in SIGNED] + [(0x50, (serial,)) for serial in SERIALS]


def some_number(source):
    """Of 32 bits, signed: small ones are as common as large ones."""
    bits = source.between(1, 32)
    number = source.number() >> 64 - bits
    return number - 2 ** 32 if number >= 2 ** 31 else number * source.choice((1, -1))


def some_parcel(source):
    """A message whose fields are right."""
    code = source.choice(tuple(parcel.TABLE))
    fields = {parcel.TARE: some_number(source), parcel.COUNT: some_number(source),
              parcel.DIVISION: source.below(5), parcel.STABLE: source.below(2),
              parcel.SERIAL: source.number() >> source.between(32, 63)}
    return code, tuple(fields[field] for field in parcel.TABLE[code])


def whole(code, fields):
    """A message as it goes out."""
    return parcel.framed(parcel.body_of(code, fields))


def put_together(body, header=parcel.HEADER, length=None, check=None):
    """The parts of a message; the length and the check are right if they are not said."""
    length = len(body) if length is None else length
    check = check_of(body) if check is None else check
    return header + length.to_bytes(2, 'little') + body + check.to_bytes(2, 'little')


def high_first(number):
    """The number that is read low byte first where this one was put high byte first."""
    return number >> 8 | (number & 0xFF) << 8


def fed_from_all_ones(body):
    """The check with a register that starts at FFFF instead of 0."""
    return check_of(b'\xff\xff' + bytes(len(body))) ^ check_of(body)


def fed_low_bit_first(body):
    """The check with every byte and the register turned round."""
    turned = check_of(bytes(int('{:08b}'.format(byte)[::-1], 2) for byte in body))
    return int('{:016b}'.format(turned)[::-1], 2)


def misread_checks(body):
    """Checks as somebody may work them out who reads 003 or 02 in another way. Some
    are right by chance, as those of zeros."""
    right = check_of(body)
    length = len(body).to_bytes(2, 'little')
    yield high_first(right)
    yield check_of(body + b'\x00')
    yield check_of(body + b'\x00\x00')
    yield high_first(check_of(body + b'\x00\x00'))
    yield check_of(length + body)
    yield check_of(parcel.HEADER + length + body)
    yield check_of(body[1:])
    yield check_of(body[:-1])
    yield fed_from_all_ones(body)
    yield fed_low_bit_first(body)
    yield right ^ 0xFFFF
    yield from (0, 0xFFFF, right & 0x00FF, right & 0xFF00)
    yield from (right ^ 1 << place for place in range(16))
