"""The parcel scales of 02 request 5: their messages read and written, and a weight's value.

"The Massa-K scales speak another frame (documents 003 and 004): F8 55 CE, a
16-bit length, that many body bytes, a 16-bit check". "Numbers go low byte first.
Layouts follow 003." The seven codes differ, so "there is one reader for both
directions" (open point 10.4).

A message is its code and its fields, in the order of the layout. The table is
data: a layout is the fields that follow the byte Command.
"""

from collections import namedtuple

from parcel_check import check_of
from refusals import (ACCEPTED, BYTES_MISSING, CODE_UNKNOWN, FIELD_WRONG, HEADER_WRONG, LENGTH_WRONG,
                      PARCEL_CHECK_WRONG, lend, refused, refused_write)

HEADER = b'\xf8\x55\xce'
LENGTH_WIDTH = 2       # "word Len"
CHECK_WIDTH = 2        # "word CRC"
TENTHS_POWER = 3       # division 0 is 100 mg, 10^3 tenths of a milligram

ANY_VALUE = None       # no value of such a field is refused
Field = namedtuple('Field', 'width signed highest')

TARE = Field(4, True, ANY_VALUE)       # "int32 Tare": "signed, any value, never 8" (open point 10.5)
COUNT = Field(4, True, ANY_VALUE)      # "int Weight": "a signed 32-bit count of divisions"
DIVISION = Field(1, False, 4)          # "codes 0 to 4 are 100 mg, 1 g, 10 g, 100 g, 1 kg"
STABLE = Field(1, False, 1)            # "Stable is 0 or 1"
SERIAL = Field(4, False, ANY_VALUE)    # "dword SerialNum": "The serial is unsigned" (open point 10.5)

WEIGHT = 0x10
TABLE = {                              # "A0, A3 with a four-byte tare, 90, and the answers 10, 12, 50, F0"
    0xA0: (),                          # CMD_GET_WEIGHT
    0xA3: (TARE,),                     # CMD_SET_TARE
    0x90: (),                          # CMD_GET_DEVICE_ID
    WEIGHT: (COUNT, DIVISION, STABLE),  # CMD_ACK_WEIGHT
    0x12: (),                          # CMD_ACK_COMMAND
    0x50: (SERIAL,),                   # CMD_ACK_DEVICE_ID
    0xF0: (),                          # CMD_NACK
}


def low_first(number, width):
    """"Numbers go low byte first", a negative one in two's complement."""
    return (number % 256 ** width).to_bytes(width, 'little')


def data_length(code):
    return sum(field.width for field in TABLE[code])


def fields_of(code, data):
    """The fields that stand one after another in the data."""
    fields, place = [], 0
    for field in TABLE[code]:
        held = data[place:place + field.width]
        fields.append(int.from_bytes(held, 'little', signed=field.signed))
        place += field.width
    return tuple(fields)


def fields_are_right(code, fields):
    """Refusal 8: "a field outside its values"."""
    return all(field.highest is ANY_VALUE or value <= field.highest
               for field, value in zip(TABLE[code], fields))


def body_of(code, fields):
    """The byte Command and the fields behind it."""
    held = (low_first(value, field.width) for field, value in zip(TABLE[code], fields))
    return bytes([code]) + b''.join(held)


def framed(body):
    """Header, length, body, check. The check goes low byte first too (open point 10.1)."""
    return HEADER + low_first(len(body), LENGTH_WIDTH) + body + low_first(check_of(body), CHECK_WIDTH)


def judge_body(body):
    """"6 (also an empty body), 7, 8", in this order."""
    if not body or body[0] not in TABLE:
        return CODE_UNKNOWN
    code, data = body[0], body[1:]
    if len(data) != data_length(code):
        return LENGTH_WRONG
    if not fields_are_right(code, fields_of(code, data)):
        return FIELD_WRONG
    return ACCEPTED


def read_parcel(lent):
    """(0, bytes used, code, fields) or (number,). "Bytes after the check aren't
    looked at; the answer tells how many were used." The order is 20, 21, 22 and
    then that of the body. One or two right header bytes are 20, and three with
    nothing behind them 21 (open point 10.2)."""
    if lent[:len(HEADER)] != HEADER:
        return refused(HEADER_WRONG)
    start = len(HEADER) + LENGTH_WIDTH
    if len(lent) < start:
        return refused(BYTES_MISSING)
    end = start + int.from_bytes(lent[len(HEADER):start], 'little')
    used = end + CHECK_WIDTH
    if len(lent) < used:
        return refused(BYTES_MISSING)
    body = lent[start:end]
    if int.from_bytes(lent[end:used], 'little') != check_of(body):
        return refused(PARCEL_CHECK_WRONG)
    number = judge_body(body)
    if number != ACCEPTED:
        return refused(number)
    return (ACCEPTED, used, body[0], fields_of(body[0], body[1:]))


def write_parcel(code, fields, room):
    """(0, length) with the message in `room`, or (number, 0) with `room` as it
    stood. "writing judges 6, 8, 9". There is no 7: "the writer is given fields,
    not data bytes" (open point 10.6)."""
    if code not in TABLE:
        return refused_write(CODE_UNKNOWN)
    if not fields_are_right(code, fields):
        return refused_write(FIELD_WRONG)
    return lend(framed(body_of(code, fields)), room)


def value_of(count, division, stable):
    """"the value comes out in our tenths of a milligram": (0, value) or (8,). It
    is the count times 10^(3 + code), signed; "asked of a division or a stable
    mark outside its values: 8" (open point 10.7)."""
    if not fields_are_right(WEIGHT, (count, division, stable)):
        return refused(FIELD_WRONG)
    return (ACCEPTED, count * 10 ** (TENTHS_POWER + division))
