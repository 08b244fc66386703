"""The table of messages as data, and messages read and written.

"A message is then judged 6, 7, 8." The roles are 'request' and 'reply'. A row
says three things of its data: whether the length is right (7), whether the
fields are (8), and which fields they are. The last two are asked with the
family of the line, on which a weight alone depends (02 request 4). Later codes
are added as rows.
"""

from collections import namedtuple

import frame
import weight
from refusals import (ACCEPTED, ADDRESS_WRONG, CODE_UNKNOWN, FIELD_WRONG,
                      LENGTH_WRONG, refused, refused_write)

ROLES = ('request', 'reply')
GROSS = 0xC3
NET = 0xC2

Data = namedtuple('Data', 'length_is_right fields_are_right fields')


def low_first(data):
    return int.from_bytes(data, 'little')


def exactly(count):
    return lambda data: len(data) == count


def any_bytes(family, data):
    return True


def is_counted_text(data):
    """"the length is wrong (7) if it is under 2 or isn't 2 plus the count
    byte". "A text may be empty." """
    return len(data) >= 2 and len(data) == 2 + data[1]


def first_is_one_of(numbers):
    return lambda family, data: data[0] in numbers


def first_byte(family, data):
    return (data[0],)


def as_bytes(family, data):
    return (bytes(data),)


def as_number(family, data):
    return (low_first(data),)


def number_and_text(family, data):
    return (data[0], bytes(data[2:]))


PRINTERS = (0x03, 0x13)                    # "NUM 03 or 13"
DISPLAYS = (0x1F, 0x20, 0x21)              # "C6 follows 001: NUM is 1F, 20 or 21"
TEXTS = (0x01, 0x02, 0x03, 0x13, 0x20) + tuple(range(0xE0, 0x100))  # "D2 follows 000 and 001"
SCANNER = 0x70                             # a C7 event left for others

NOT_SPOKEN = None                          # "not a request"
NONE = Data(exactly(0), any_bytes, lambda family, data: ())
SERIAL = Data(exactly(3), any_bytes, as_number)
PRINTER = Data(exactly(1), first_is_one_of(PRINTERS), first_byte)
STATUS = Data(exactly(1), lambda family, data: data[0] < 0x80, first_byte)
WEIGHT = Data(exactly(4), lambda family, data: weight.read_reading(family, data)[0] == ACCEPTED,
              lambda family, data: (weight.read_reading(family, data)[1],))
FOUR_BYTES = Data(exactly(4), any_bytes, as_bytes)
INPUTS = Data(exactly(4), any_bytes, lambda family, data: (bytes(data), inputs_on(data)))
DISPLAY = Data(exactly(1), first_is_one_of(DISPLAYS), first_byte)
DISPLAY_TEXT = Data(is_counted_text, first_is_one_of(DISPLAYS), number_and_text)
EVENT = Data(exactly(7), lambda family, data: data[0] != SCANNER,
             lambda family, data: (data[0], bytes(data[1:])))
FIVE_BYTES = Data(exactly(5), any_bytes, as_number)
TEXT = Data(is_counted_text, first_is_one_of(TEXTS), number_and_text)
ERROR = Data(exactly(1), any_bytes, first_byte)

TABLE = {                                  # code: (request data, reply data)
    0xA1: (NONE, SERIAL),
    0xBF: (PRINTER, STATUS),
    0xC0: (NONE, NONE),
    0xC2: (NONE, WEIGHT),
    0xC3: (NONE, WEIGHT),
    0xC4: (NONE, INPUTS),
    0xC5: (NONE, FOUR_BYTES),
    0xC6: (DISPLAY, DISPLAY_TEXT),
    0xC7: (NONE, EVENT),
    0xCC: (NONE, FIVE_BYTES),
    0xCD: (NONE, NONE),
    0xCE: (NONE, NONE),
    0xD0: (FOUR_BYTES, NONE),
    0xD2: (TEXT, NONE),
    0xEE: (NOT_SPOKEN, ERROR),
}


def row(role, code):
    """The row's data for a role, or None: "6: code not in the table for that
    role" leaves no silence for 002's other codes (open point 1.3)."""
    if code not in TABLE:
        return NOT_SPOKEN
    return TABLE[code][ROLES.index(role)]


def judge_message(role, family, code, data):
    """6, 7, 8, in this order."""
    spoken = row(role, code)
    if spoken is NOT_SPOKEN:
        return CODE_UNKNOWN
    if not spoken.length_is_right(data):
        return LENGTH_WRONG
    if not spoken.fields_are_right(family, data):
        return FIELD_WRONG
    return ACCEPTED


def read_message(role, family, body):
    """(0, address, code, data, fields) or (number,). The reader judges "2
    (over 255 bytes), 1, 4, 5 itself, ahead of 6, and answers a number only".
    "The caller says the family per line"."""
    opened = frame.open_body(body)
    if opened[0] != ACCEPTED:
        return opened
    _, address, code, data = opened
    number = judge_message(role, family, code, data)
    if number != ACCEPTED:
        return refused(number)
    return (ACCEPTED, address, code, data, row(role, code).fields(family, data))


def write_message(role, family, address, code, data, room):
    """(0, length) or (number, 0): "message writing 5, 6, 7, 8, 2, 9". It judges
    8 as the reader does, so it takes the family too (open point 4.12)."""
    if not frame.address_is_legal(address):
        return refused_write(ADDRESS_WRONG)
    number = judge_message(role, family, code, data)
    if number != ACCEPTED:
        return refused_write(number)
    return frame.write_frame(address, code, data, room)


def inputs_on(four):
    """"For C4 the library also tells how many of the 32 inputs are on." """
    return sum(byte >> place & 1 for byte in four for place in range(8))
