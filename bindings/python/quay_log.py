"""The log of weighings: records of 20 bytes made, written and read, and a whole log as rows for a table."""
from __future__ import annotations

import ctypes
import operator
from dataclasses import dataclass
from fractions import Fraction
from typing import Dict, List, Optional, Tuple, Union

from quay_family import Family
from quay_library import HIGHEST_BYTE, HIGHEST_COUNT, Bytes, QuayRecord, as_bytes, library, whole_number
from quay_line import Event
from quay_message import Address, Load, Role, address_from, said_role
from quay_refusal import Refused, accepted
from quay_weight import Weight

RECORD_BYTES = 20
REFUSAL_RECORD = 3

# A number that no refusal has. A record that carries it is refused by 11.
NO_REFUSAL = 0

# The weight bytes of a record that is no weighing, and its family: byte 17 is 0 there.
NO_DIGITS = (255, 255, 255)
NO_FAMILY = 0


@dataclass(frozen=True)
class Weighing:
    """A gross or net reply: kind 1 or 2. `time` is in seconds, as the caller gives it. The weight carries the family; in a record from
    before there were families it is `Family.PLAIN`. An overloaded weight is noted with its bytes too, although its value is refused by 24."""
    time: int
    load: Load
    address: Address
    weight: Weight

    def crossing(self) -> QuayRecord:
        """The record as the library takes it."""
        short, serial = self.address.crossing()
        w0, w1, w2, con = bytes(self.weight)
        return QuayRecord(_seconds(self.time), serial, Load(self.load), short, con, w0, w1, w2, self.weight.family, 0)


@dataclass(frozen=True)
class RefusalMet:
    """A refusal met on the line: kind 3. It has the refusal's number, 1 to 8, and neither address nor weight."""
    time: int
    number: int

    def crossing(self) -> QuayRecord:
        """The record as the library takes it. No refusal has a number that is not even a byte."""
        number = operator.index(self.number)
        status = number if 0 <= number <= HIGHEST_BYTE else NO_REFUSAL
        return QuayRecord(_seconds(self.time), 0, REFUSAL_RECORD, 0, status, *NO_DIGITS, NO_FAMILY, 0)


Record = Union[Weighing, RefusalMet]
Cell = Union[None, int, float, bool, str, Fraction]
Row = Dict[str, Cell]


def _seconds(time: int) -> int:
    return whole_number('time', time, HIGHEST_COUNT)


def _told(item: QuayRecord) -> Record:
    """A record that the library told, kind 1 to 3."""
    if item.kind == REFUSAL_RECORD:
        return RefusalMet(item.time, item.status)
    weight = Weight(item.w0, item.w1, item.w2, item.status, Family(item.family))
    return Weighing(item.time, Load(item.kind), address_from(item.address, item.serial), weight)


def record_heard(time: int, event: Event, role: Role = Role.REPLY) -> Optional[Record]:
    """The record that an event makes at a time, its body read in a role and by its family. None if the event makes no record.

    >>> from quay_line import LineRefusal
    >>> record_heard(1000, LineRefusal(4, wire=6, kept=3))
    RefusalMet(time=1000, number=4)
    """
    family, crossing, body = event.crossing()
    item = accepted(library().quay_record_heard(_seconds(time), said_role(role), family, crossing, body, len(body)))
    return _told(item) if item.kind else None


def write_record(record: Record) -> bytes:
    """The 20 bytes of a record. A record that breaks a rule is `Refused` with number 11.

    >>> write_record(RefusalMet(1000, 4)).hex()
    'e803000000000000030000000004000000000000'
    """
    room = ctypes.create_string_buffer(RECORD_BYTES)
    written = accepted(library().quay_write_record(record.crossing(), room, RECORD_BYTES))
    return room.raw[:written.length]


def read_record(twenty: Bytes) -> Record:
    """The record of 20 bytes, or `Refused` with number 11.

    >>> read_record(write_record(RefusalMet(1000, 4)))
    RefusalMet(time=1000, number=4)
    """
    held = as_bytes(twenty)
    return _told(accepted(library().quay_read_record(held, len(held))))


class LogRefused(Refused):
    """A log is not whole: 10 where bytes are left over, 11 where a record breaks a rule. `place` is the byte where the refused part
    begins. `records` and `rows` are all that stood before it."""

    def __init__(self, number: int, place: int, records: Tuple[Record, ...]) -> None:
        super().__init__(number)
        self.args = (number, place, records)
        self.place = place
        self.records = records

    @property
    def rows(self) -> List[Row]:
        return [row_of(record) for record in self.records]

    def __str__(self) -> str:
        return f'{super().__str__()}; at byte {self.place} of the log, behind {len(self.records)} good records'


@dataclass(frozen=True)
class Log:
    """A log as it was read. `ending` is None if the log is whole. Otherwise it says why the log ends where its records end."""
    records: Tuple[Record, ...]
    ending: Optional[LogRefused]

    @property
    def rows(self) -> List[Row]:
        """The records as rows, up to the ending."""
        return [row_of(record) for record in self.records]


def read_log(log: Bytes) -> Log:
    """All records of a log up to its end, or up to what is refused. An empty log is whole. This does not raise: look at `ending`.

    >>> read_log(b'')
    Log(records=(), ending=None)
    >>> log = read_log(write_record(RefusalMet(1000, 4)) + b'left')
    >>> log.records, log.ending.number, log.ending.place
    ((RefusalMet(time=1000, number=4),), 10, 20)
    """
    held, place = as_bytes(log), 0
    step, records = library().quay_step, []
    while True:
        stepped = step(held, len(held), place)
        item = stepped.item
        if item.refusal:
            return Log(tuple(records), LogRefused(item.refusal, place, tuple(records)))
        if not item.kind:
            return Log(tuple(records), None)
        records.append(_told(item))
        place = stepped.next


def rows(log: Bytes) -> List[Row]:
    """The rows of a whole log, one for each record, as `pandas.DataFrame` takes them. A log that is not whole raises `LogRefused`,
    which has the rows before the fault. Add up with `sum(min_count=1)`: if all weights are missing, pandas' plain `sum()` is 0. They are missing
    where nothing was read, and where the bridge was overloaded.

    >>> rows(write_record(RefusalMet(1000, 4)))[0]['value'] is None
    True
    """
    told = read_log(log)
    if told.ending is not None:
        raise told.ending
    return told.rows


def row_of(record: Record) -> Row:
    """A record as a row. Every row has the same keys. What a record does not have is None, which pandas shows as missing. For a
    refusal, everything but `time`, `kind` and `refusal` is None. So an unread weight is never a number.

    Nor is that of an overloaded bridge: `value`, `kilograms`, `kilograms_exact` and `digits` are None, and `overload` is True beside them. It
    is no refusal that was met: its `kind` is `gross` or `net`, its `refusal` is None, and everything else stands as in any weighing.

    >>> row = row_of(Weighing(1000, Load.GROSS, Address(1), Weight.from_bytes(bytes.fromhex('00000618'), Family.OF_002)))
    >>> row['kind'], row['overload'], row['settled'], row['refusal']
    ('gross', True, True, None)
    >>> row['value'], row['kilograms'], row['kilograms_exact'], row['digits']
    (None, None, None, None)

    `value` is in tenths of a milligram; `sign`, `digits` and `point` are as the terminal shows them. `family` is `000`, `001` or `002`, or
    `plain` in a record from before there were families. `mode` is what bit 5 says in that family: `net`, `gross`, `scale0` or `scale1`. A
    plain record has none, and then it is None, not False.
    """
    if isinstance(record, RefusalMet):
        return _row(record.time, 'refusal', refusal=record.number)
    reading = record.weight.reading
    # The flag is asked, and no refusal is caught: any other one must be seen.
    weighed = {} if reading.overload else {
        'value': record.weight.value, 'kilograms': record.weight.kilograms, 'kilograms_exact': record.weight.kilograms_exact,
        'digits': f'{reading.number:06}'}
    return _row(
        record.time, Load(record.load).name.lower(),
        address=record.address.short, serial=record.address.serial,
        sign='-' if reading.minus else '+', point=reading.point,
        settled=reading.settled, overload=reading.overload, family=reading.family.word, mode=reading.mode, **weighed)


def _row(
        time: int, kind: str, *, refusal: Optional[int] = None, address: Optional[int] = None, serial: Optional[int] = None,
        value: Optional[int] = None, kilograms: Optional[float] = None, kilograms_exact: Optional[Fraction] = None,
        sign: Optional[str] = None, digits: Optional[str] = None, point: Optional[int] = None,
        settled: Optional[bool] = None, overload: Optional[bool] = None, family: Optional[str] = None,
        mode: Optional[str] = None) -> Row:
    return {
        'time': time, 'kind': kind, 'refusal': refusal, 'address': address, 'serial': serial,
        'value': value, 'kilograms': kilograms, 'kilograms_exact': kilograms_exact,
        'sign': sign, 'digits': digits, 'point': point, 'settled': settled, 'overload': overload,
        'family': family, 'mode': mode}
