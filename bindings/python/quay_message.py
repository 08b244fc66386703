"""Frames and messages: addresses, roles, what is said; written into bytes and read from a body."""
from __future__ import annotations

import ctypes
import operator
from dataclasses import dataclass
from enum import IntEnum
from typing import Any, Optional, Tuple

from quay_family import Family, said_family
from quay_library import BODY_BYTES, HIGHEST_BYTE, Bytes, QuayWeight, as_bytes, library, whole_number
from quay_refusal import accepted
from quay_weight import Weight

# The room needed is body length + 3 + the number of FF bytes in the body.
FRAME_ROOM = BODY_BYTES + 3 + BODY_BYTES

HIGHEST_SERIAL_CROSSING = 2**32 - 1

# A short address and a serial at once make no address. The library takes them for the short address 0, which no frame may carry.
NO_ADDRESS = (1, 1)


class Role(IntEnum):
    """Who speaks: the poller requests, the terminal replies."""
    REQUEST = 0
    REPLY = 1


def said_role(said: object) -> Role:
    """A role that a caller said. A number is not taken: a family stands beside the role, and `Family.OF_000` is 1 as `Role.REPLY` is.

    >>> said_role(Family.OF_000)
    Traceback (most recent call last):
    TypeError: <Family.OF_000: 1> is not a role: say it by its name, Role.REQUEST or Role.REPLY
    """
    if not isinstance(said, Role):
        raise TypeError(f'{said!r} is not a role: say it by its name, Role.REQUEST or Role.REPLY')
    return said


class Load(IntEnum):
    """Which weight a terminal told."""
    GROSS = 1
    NET = 2


class Says(IntEnum):
    """What a message says. `CONVERTER` is the number of code CC."""
    NOTHING = 0
    SERIAL = 1
    NUMBER = 2
    STATUS = 3
    WEIGHT = 4
    INPUTS = 5
    OUTPUTS = 6
    TEXT = 7
    EVENT = 8
    CONVERTER = 9
    ERROR = 10


@dataclass(frozen=True)
class Address:
    """A short address, one byte 01 to FD, or a serial number of three bytes: one of the two.

    >>> str(Address(1)), str(Address(serial=70501))
    ('1', '0:70501')
    """
    short: Optional[int] = None
    serial: Optional[int] = None

    def __post_init__(self) -> None:
        if (self.short is None) == (self.serial is None):
            raise ValueError('an address is a short one, Address(1), or a serial number, Address(serial=70501)')

    def __str__(self) -> str:
        return f'{self.short}' if self.serial is None else f'0:{self.serial}'

    def crossing(self) -> Tuple[int, int]:
        """Short and serial as the library takes them. Short 0 says that the serial is the address. What cannot cross as itself
        (the short address 0, numbers too high or below 0) crosses as no address. The library refuses it."""
        if self.serial is not None:
            serial = operator.index(self.serial)
            return (0, serial) if 0 <= serial <= HIGHEST_SERIAL_CROSSING else NO_ADDRESS
        short = operator.index(self.short)
        return (short, 0) if 1 <= short <= HIGHEST_BYTE else NO_ADDRESS


def address_from(short: int, serial: int) -> Address:
    """An address as the library tells it: short 0 says that the serial is the address."""
    return Address(short=short) if short else Address(serial=serial)


@dataclass(frozen=True)
class Message:
    """A message. What its kind does not have is None, not 0.

    `number` is a serial, NUM, status, the bits of inputs or outputs, EVENT, the converter's number or NER. `on` is how many of the 32
    inputs are on. `text` is the characters of a text, or the six bytes of an event. `data` is all data bytes of the body.
    """
    address: Address
    code: int
    says: Says
    data: bytes
    number: Optional[int] = None
    on: Optional[int] = None
    load: Optional[Load] = None
    weight: Optional[Weight] = None
    text: Optional[bytes] = None


def weight_from(weight: QuayWeight) -> Weight:
    """A weight that the library said."""
    return Weight(weight.w0, weight.w1, weight.w2, weight.con, Family(weight.family))


def read_message(body: Bytes, family: Family, role: Role = Role.REPLY) -> Message:
    """The message of a body, of a line of a family, read in a role. A weight that it says carries the family. `Refused` is judged 2, 1, 4,
    5, 6, 7, 8.

    >>> read_message(bytes.fromhex('01c351020001de'), Family.OF_002).weight.kilograms
    25.1
    >>> read_message(bytes.fromhex('01c3e2'), Family.OF_002)
    Traceback (most recent call last):
    quay_refusal.Refused: refusal 4: check not 0
    """
    held = as_bytes(body)
    message = accepted(library().quay_read_message(said_role(role), said_family(family), held, len(held)))
    what, says = message.what, Says(message.what.says)
    weighed = says is Says.WEIGHT
    numbered = says not in (Says.NOTHING, Says.WEIGHT)
    placed = says in (Says.TEXT, Says.EVENT)
    return Message(
        address=address_from(message.short, message.serial),
        code=message.code,
        says=says,
        data=held[message.from_:message.to],
        number=what.number if numbered else None,
        on=what.on if says is Says.INPUTS else None,
        load=Load(what.load) if weighed else None,
        weight=weight_from(what.weight) if weighed else None,
        text=held[what.from_:what.to] if placed else None)


def write_frame(address: Address, code: int, data: Bytes = b'') -> bytes:
    """The frame of an address, a code and data, ready for the wire. A frame may carry any code. `Refused` is judged 5, 2.

    >>> write_frame(Address(1), 0xC3).hex(' ')
    'ff 01 c3 e3 ff ff'
    """
    return _written(library().quay_write_frame, (), address, code, data)


def write_message(role: Role, family: Family, address: Address, code: int, data: Bytes = b'') -> bytes:
    """The frame of a message, in a role, for a line of a family. `Refused` is judged 5, 6, 7, 8, 2; a weight by its family, as it is read.

    >>> write_message(Role.REPLY, Family.OF_002, Address(1), 0xA1, bytes([255, 0, 0])).hex(' ')
    'ff 01 a1 ff fe 00 00 39 ff ff'
    >>> write_message(Role.REQUEST, Family.OF_002, Address(1), 0xEE)
    Traceback (most recent call last):
    quay_refusal.Refused: refusal 6: code not in the table for that role
    """
    return _written(library().quay_write_message, (said_role(role), said_family(family)), address, code, data)


def _written(write: Any, spoken: Tuple[int, ...], address: Address, code: int, data: Bytes) -> bytes:
    """What a function writes. `spoken` is what it is told ahead of the address: role and family, or nothing."""
    held = as_bytes(data)
    code = whole_number('code', code, HIGHEST_BYTE)
    room = ctypes.create_string_buffer(FRAME_ROOM)
    answer = accepted(write(*spoken, *address.crossing(), code, held, len(held), room, FRAME_ROOM))
    return room.raw[:answer.length]
