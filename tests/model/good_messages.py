"""Right data for every row of the table, drawn from a random source."""

from addresses import BRIDGES, HIGHEST_OF_01
from frame import HIGHEST_SHORT
import message

LONGEST_TEXT = {'short': 250, 'serial': 247}  # open point 4.8

ROWS = tuple((role, code) for code in sorted(message.TABLE) for role in message.ROLES
             if message.row(role, code) is not message.NOT_SPOKEN)


def some_address(source):
    """Both kinds, the boundaries and the bridges often."""
    if source.below(4):
        return ('short', source.choice((1, HIGHEST_OF_01, *BRIDGES, HIGHEST_SHORT,
                                        source.between(1, HIGHEST_SHORT))))
    return ('serial', source.choice((0, 1, 255, 0xFFFF, 0xFF00, 0xFFFFFF, source.below(2 ** 24))))


def decimal_byte(source):
    return source.below(10) << 4 | source.below(10)


def weight_data(source):
    """W0 W1 W2 CON. CON is any byte, also one whose bit 6 family 002 refuses;
    small numbers are as common as large ones."""
    digits = [decimal_byte(source) for _ in range(3)]
    for place in range(source.below(4)):
        digits[2 - place] = 0
    return bytes(digits + [source.byte()])


def text_data(source, numbers, longest):
    length = source.choice((0, 1, 2, source.below(20), source.below(20)))
    if source.one_in(40):
        length = source.between(longest - 2, longest)
    return bytes([source.choice(numbers), length]) + source.bytes(length)


def event_data(source):
    kind = source.byte()
    while kind == message.SCANNER:
        kind = source.byte()
    return bytes([kind]) + source.bytes(6)


def good_data(source, role, code, longest=247):
    """Data that a row accepts in its role, a weight in some family; texts of at
    most `longest`."""
    data = message.row(role, code)
    if data is message.PRINTER:
        return bytes([source.choice(message.PRINTERS)])
    if data is message.STATUS:
        return bytes([source.below(0x80)])
    if data is message.WEIGHT:
        return weight_data(source)
    if data is message.DISPLAY:
        return bytes([source.choice(message.DISPLAYS)])
    if data is message.DISPLAY_TEXT:
        return text_data(source, message.DISPLAYS, longest)
    if data is message.TEXT:
        return text_data(source, message.TEXTS, longest)
    if data is message.EVENT:
        return event_data(source)
    lengths = {message.NONE: 0, message.SERIAL: 3, message.FOUR_BYTES: 4,
               message.INPUTS: 4, message.FIVE_BYTES: 5, message.ERROR: 1}
    return source.bytes(lengths[data])
