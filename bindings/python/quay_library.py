"""The library itself: its structs and functions as ctypes sees them, and how it is found and loaded.

Most programs want `quay` instead. Here every answer is the struct that the library gives, refused or not. If its field
`refusal` is not 0, no other field of it can pass for a weight.
"""
from __future__ import annotations

import ctypes
import operator
import os
import platform
from ctypes import c_double, c_int64, c_size_t, c_uint8, c_uint32, c_uint64, c_void_p
from typing import Any, Dict, Optional, Tuple, Type, Union

BODY_BYTES = 255
LIBRARY_NAME = 'libquay.so'
LIBRARY_VARIABLE = 'QUAY_LIBRARY'
MACHINES = ('x86_64', 'AMD64')

# The number of a family that is not plain: plain is 0, as is what nobody wrote.
SOME_FAMILY = 2

# Bit 3 of CON, and what the value of a weight that has it is refused by.
OVERLOAD_BIT = 0x08
OVERLOADED = 24

HIGHEST_BYTE = 2**8 - 1
HIGHEST_COUNT = 2**64 - 1

Bytes = Union[bytes, bytearray, memoryview]


class QuayPlace(ctypes.Structure):
    """Where a reader stands. All zeros are a fresh reader."""
    _fields_ = [('wire', c_uint64), ('kept', c_size_t), ('phase', c_uint8)]


class QuayEvent(ctypes.Structure):
    """An event of the line: kind 0 nothing, 1 a frame, 2 a refusal."""
    _fields_ = [('wire', c_uint64), ('kept', c_size_t), ('kind', c_uint8), ('refusal', c_uint8)]


class QuayWent(ctypes.Structure):
    """The next place, the first event, and how many bytes of the block were taken."""
    _fields_ = [('place', QuayPlace), ('event', QuayEvent), ('used', c_size_t), ('refusal', c_uint8)]


class QuayWritten(ctypes.Structure):
    """What a write answers: its own length, or length 0 beside the refusal's number."""
    _fields_ = [('length', c_size_t), ('refusal', c_uint8)]


class QuayWeight(ctypes.Structure):
    """The four bytes of a weight, and the number of its family. Five times FF is no weight: every use is refused by 8. A family that is left
    out is 0, which is plain."""
    _fields_ = [('w0', c_uint8), ('w1', c_uint8), ('w2', c_uint8), ('con', c_uint8), ('family', c_uint8)]


class QuayReading(ctypes.Structure):
    """What a terminal shows. If refused, the point is 0 and every other field but `refusal` is all ones. If `overload` is 1 it is not refused,
    and its number is no weight."""
    _fields_ = [('number', c_uint32), ('point', c_uint8), ('minus', c_uint8), ('bit6', c_uint8), ('bit5', c_uint8),
                ('settled', c_uint8), ('overload', c_uint8), ('family', c_uint8), ('refusal', c_uint8)]


class QuayValue(ctypes.Structure):
    """A signed whole number of tenths of a milligram. If refused, it is the lowest number there is."""
    _fields_ = [('value', c_int64), ('refusal', c_uint8)]


class QuayKilograms(ctypes.Structure):
    """A weight in kilograms. If refused, it is not a number."""
    _fields_ = [('kilograms', c_double), ('refusal', c_uint8)]


class QuayWhat(ctypes.Structure):
    """What a message says. A number, a count or a weight that its kind does not have is all ones."""
    _fields_ = [('number', c_uint64), ('from_', c_size_t), ('to', c_size_t), ('on', c_uint32), ('weight', QuayWeight),
                ('load', c_uint8), ('says', c_uint8)]


class QuayMessage(ctypes.Structure):
    """A message, or the refusal its body earns. Short 0 says that the serial is the address."""
    _fields_ = [('what', QuayWhat), ('from_', c_size_t), ('to', c_size_t), ('serial', c_uint32), ('short', c_uint8),
                ('code', c_uint8), ('refusal', c_uint8)]


class QuayRecord(ctypes.Structure):
    """A record of a log. Kind 0 is no record: if `refusal` is not 0 the record was refused, otherwise there was none. The family is 0 in a
    record from before there were families, and in kind 3."""
    _fields_ = [('time', c_uint64), ('serial', c_uint32), ('kind', c_uint8), ('address', c_uint8), ('status', c_uint8),
                ('w0', c_uint8), ('w1', c_uint8), ('w2', c_uint8), ('family', c_uint8), ('refusal', c_uint8)]


class QuayStepped(ctypes.Structure):
    """A record and the place after it. Without a record the place is the one handed in."""
    _fields_ = [('item', QuayRecord), ('next', c_size_t)]


class QuayListed(ctypes.Structure):
    """A line's length, and what was listed: 0 nothing, 1 a weight, 2 another message, 3 a refusal."""
    _fields_ = [('length', c_size_t), ('entry', c_uint8), ('refusal', c_uint8)]


# The size of each struct and the places of its fields, by the C rules of x86-64. If a struct were laid out otherwise here, a refusal
# could be taken for a weight. So nothing is loaded then.
LAYOUT: Dict[Type[ctypes.Structure], Tuple[int, Dict[str, int]]] = {
    QuayPlace: (24, {'wire': 0, 'kept': 8, 'phase': 16}),
    QuayEvent: (24, {'wire': 0, 'kept': 8, 'kind': 16, 'refusal': 17}),
    QuayWent: (64, {'place': 0, 'event': 24, 'used': 48, 'refusal': 56}),
    QuayWritten: (16, {'length': 0, 'refusal': 8}),
    QuayWeight: (5, {'w0': 0, 'w1': 1, 'w2': 2, 'con': 3, 'family': 4}),
    QuayReading: (12, {
        'number': 0, 'point': 4, 'minus': 5, 'bit6': 6, 'bit5': 7, 'settled': 8, 'overload': 9, 'family': 10, 'refusal': 11}),
    QuayValue: (16, {'value': 0, 'refusal': 8}),
    QuayKilograms: (16, {'kilograms': 0, 'refusal': 8}),
    QuayWhat: (40, {'number': 0, 'from_': 8, 'to': 16, 'on': 24, 'weight': 28, 'load': 33, 'says': 34}),
    QuayMessage: (64, {'what': 0, 'from_': 40, 'to': 48, 'serial': 56, 'short': 60, 'code': 61, 'refusal': 62}),
    QuayRecord: (24, {
        'time': 0, 'serial': 8, 'kind': 12, 'address': 13, 'status': 14, 'w0': 15, 'w1': 16, 'w2': 17, 'family': 18, 'refusal': 19}),
    QuayStepped: (32, {'item': 0, 'next': 24}),
    QuayListed: (16, {'length': 0, 'entry': 8, 'refusal': 9}),
}

# A lent slice crosses as two arguments: where it begins, which is never null, and its length.
LENT = [c_void_p, c_size_t]

# Each function: what it answers, and its arguments.
FUNCTIONS: Dict[str, Tuple[Type[ctypes.Structure], list]] = {
    'quay_listen': (QuayWent, [QuayPlace, *LENT, c_void_p]),
    'quay_write_frame': (QuayWritten, [c_uint8, c_uint32, c_uint8, *LENT, *LENT]),
    'quay_write_message': (QuayWritten, [c_uint8, c_uint8, c_uint8, c_uint32, c_uint8, *LENT, *LENT]),
    'quay_read_message': (QuayMessage, [c_uint8, c_uint8, *LENT]),
    'quay_read_weight': (QuayReading, [QuayWeight]),
    'quay_value': (QuayValue, [QuayWeight]),
    'quay_difference': (QuayValue, [QuayWeight, QuayWeight]),
    'quay_kilograms': (QuayKilograms, [QuayWeight]),
    'quay_write_record': (QuayWritten, [QuayRecord, *LENT]),
    'quay_read_record': (QuayRecord, [*LENT]),
    'quay_step': (QuayStepped, [*LENT, c_size_t]),
    'quay_record_heard': (QuayRecord, [c_uint64, c_uint8, c_uint8, QuayEvent, *LENT]),
    'quay_list_event': (QuayListed, [c_uint64, c_uint8, QuayEvent, *LENT, *LENT]),
    'quay_list_total': (QuayWritten, [c_uint64, c_uint64, c_uint64, *LENT]),
}


class LibraryNotLoaded(ImportError):
    """The library could not be loaded. The text says where it was looked for, why loading failed and what to do."""


def check_layout() -> None:
    """Compares the structs as ctypes lays them out with the numbers above."""
    for struct, expected in LAYOUT.items():
        offsets = {field[0]: getattr(struct, field[0]).offset for field in struct._fields_}
        found = (ctypes.sizeof(struct), offsets)
        if found != expected:
            raise LibraryNotLoaded(
                f'{struct.__name__} has (size, places of its fields) {found} here, and {expected} in the library. '
                'It is built for 64-bit x86-64 Linux; use such a Python.')


def _not_loaded(path: str, reason: object) -> LibraryNotLoaded:
    text = (f'cannot load {path}: {reason}. Build {LIBRARY_NAME} (bindings/python/README.md says how) and put it beside quay.py, '
            f'or name its path in the environment variable {LIBRARY_VARIABLE}, or call quay.load_library(path).')
    if platform.machine() not in MACHINES:
        text += f' The library is for x86-64, and this Python runs on {platform.machine()}: it needs an x86-64 Python.'
    return LibraryNotLoaded(text)


def _declare(loaded: ctypes.CDLL, path: str) -> None:
    for name, (answer, arguments) in FUNCTIONS.items():
        function = getattr(loaded, name, None)
        if function is None:
            raise _not_loaded(path, f'it has no function {name}, so it is not this version of the quay library')
        function.restype = answer
        function.argtypes = arguments


def _check_version(loaded: Any, path: str) -> None:
    """A library from before there were families has the same functions, with other arguments and structs: a refusal would not be seen. It does
    not tell a family back. One from before overload was refused still gives an overloaded bridge a weight."""
    told = loaded.quay_read_weight(QuayWeight(family=SOME_FAMILY))
    if (told.family, told.refusal) != (SOME_FAMILY, 0):
        raise _not_loaded(path, 'it does not know the families of terminals, so it is not this version of the quay library')
    if loaded.quay_value(QuayWeight(con=OVERLOAD_BIT, family=SOME_FAMILY)).refusal != OVERLOADED:
        raise _not_loaded(path, 'it gives an overloaded bridge a weight, so it is not this version of the quay library')


_loaded: Optional[ctypes.CDLL] = None


def load_library(path: Optional[Union[str, os.PathLike]] = None) -> ctypes.CDLL:
    """Loads the library. From then on every function here uses it.

    Without a path it is the one named in QUAY_LIBRARY. Without that it is libquay.so beside this module.
    """
    global _loaded
    check_layout()
    beside = os.path.join(os.path.dirname(os.path.abspath(__file__)), LIBRARY_NAME)
    chosen = os.path.abspath(os.fspath(path or os.environ.get(LIBRARY_VARIABLE) or beside))
    try:
        loaded = ctypes.CDLL(chosen)
    except OSError as error:
        raise _not_loaded(chosen, error) from error
    _declare(loaded, chosen)
    _check_version(loaded, chosen)
    _loaded = loaded
    return loaded


def library() -> Any:
    """The loaded library. It is loaded when it is first asked for."""
    return _loaded if _loaded is not None else load_library()


def address_of(data: bytes) -> int:
    """Where bytes begin, so that they can be lent from a later place on. They must be held for as long as they are lent."""
    address = ctypes.cast(ctypes.c_char_p(data), c_void_p).value
    assert address, 'bytes always begin somewhere'
    return address


def as_bytes(data: Bytes) -> bytes:
    """Bytes of anything that holds bytes. A number is not taken: `bytes(5)` would be five zeros that nobody heard."""
    return data if isinstance(data, bytes) else bytes(memoryview(data))


def whole_number(name: str, number: int, highest: int) -> int:
    """A number that crosses as it stands. ctypes would cut off its high bits without a word, and 257 would become 1."""
    try:
        whole = operator.index(number)
    except TypeError:
        raise ValueError(f'{name}: {number!r} is not a whole number') from None
    if not 0 <= whole <= highest:
        raise ValueError(f'{name}: {whole} is not in 0 to {highest}')
    return whole
