"""Addresses, bodies, and frames written into lent room.

"A body is: address, operation code, data, check. It has at most 255 bytes.
Delimiters and inserted FE bytes aren't counted (002)."

An address is ('short', n) or ('serial', n): the caller says which kind he
means, so a short address 0 can be told from serial 0 (open point 3.3).
"""

from check_byte import check_of, register_of
from refusals import (ACCEPTED, ADDRESS_WRONG, BODY_TOO_LONG, BODY_TOO_SHORT,
                      CHECK_WRONG, lend, refused, refused_write)

DELIMITER = 0xFF
INSERTED = 0xFE
LONGEST_BODY = 255
LOWEST_SHORT = 0x01
HIGHEST_SHORT = 0xFD       # 02 request 1: "a short address is 01 to FD"; 01 said 01 to 9F, after 002
HIGHEST_SERIAL = 16_777_215


def address_is_legal(address):
    """Refusal 5 of writing. 02 request 1: "a short address outside 01 to FD or
    a serial too large"; the serial's rule stays 01's, "above 16,777,215"."""
    kind, number = address
    if kind == 'serial':
        return number <= HIGHEST_SERIAL
    return LOWEST_SHORT <= number <= HIGHEST_SHORT


def first_byte_is_legal(first):
    """Refusal 5 of reading: neither 00 nor a short address. 02 request 1 moved
    01's "address not 00 to 9F": FE and FF alone are left, and "on a wire heard
    from fresh it can no longer occur"."""
    return first == 0 or LOWEST_SHORT <= first <= HIGHEST_SHORT


def address_bytes(address):
    """"one byte" for a short address, "or 00 and then three bytes of serial
    number, low byte first"."""
    kind, number = address
    if kind == 'short':
        return bytes([number])
    return b'\x00' + number.to_bytes(3, 'little')


def judge_heard(body):
    """"At a body's end the order is 1, 4, 5." """
    if len(body) < 3:
        return BODY_TOO_SHORT
    if body[0] == 0 and len(body) < 6:
        return BODY_TOO_SHORT
    if register_of(body) != 0:
        return CHECK_WRONG
    if not first_byte_is_legal(body[0]):
        return ADDRESS_WRONG
    return ACCEPTED


def judge_lent(body):
    """Lent body bytes: "2 (over 255 bytes), 1, 4, 5", in this order."""
    if len(body) > LONGEST_BODY:
        return BODY_TOO_LONG
    return judge_heard(body)


def open_body(body):
    """Take a lent body apart: (0, address, code, data) or (number,)."""
    number = judge_lent(body)
    if number != ACCEPTED:
        return refused(number)
    if body[0] != 0:
        return (ACCEPTED, ('short', body[0]), body[1], bytes(body[2:-1]))
    serial = int.from_bytes(body[1:4], 'little')
    return (ACCEPTED, ('serial', serial), body[4], bytes(body[5:-1]))


def body_of(address, code, data):
    """The body with its check, worked out here."""
    unchecked = address_bytes(address) + bytes([code]) + bytes(data)
    return unchecked + bytes([check_of(unchecked)])


def stuffed(body):
    """"After each FF inside the body one FE is inserted." """
    wire = bytearray()
    for byte in body:
        wire.append(byte)
        if byte == DELIMITER:
            wire.append(INSERTED)
    return bytes(wire)


def frame_of(body):
    """"Writing: one FF, the body, two FFs." """
    return bytes([DELIMITER]) + stuffed(body) + bytes([DELIMITER, DELIMITER])


def room_needed(address, code, data):
    """(0, room) or (number, 0), without writing; judges 5, 2.

    "The room needed is body length + 3 + the number of FF bytes in the body."
    The check and the serial's bytes are of the body (open point 3.2).
    """
    if not address_is_legal(address):
        return refused_write(ADDRESS_WRONG)
    if len(address_bytes(address)) + 1 + len(data) + 1 > LONGEST_BODY:
        return refused_write(BODY_TOO_LONG)
    body = body_of(address, code, data)
    return (ACCEPTED, len(body) + 3 + body.count(DELIMITER))


def write_frame(address, code, data, room):
    """(0, length) with the frame in `room`, or (number, 0) with `room` as it
    stood. "Frame writing is given address, code and data bytes, works out the
    check itself, and judges 5, 2, 9". "A frame may carry any code"."""
    number, _ = room_needed(address, code, data)
    if number != ACCEPTED:
        return refused_write(number)
    return lend(frame_of(body_of(address, code, data)), room)
