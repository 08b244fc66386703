"""The quay reader for Python: what a weighbridge terminal says on its line (the Tenso-M protocol), as numbers to trust.

A weight that wasn't heard never looks like a weight of nothing. What the library refuses is raised as `Refused`, with the
number of the rules paper's list. Or it is an event or a row of its own, which has no weight.

    reader = quay.Reader(quay.Family.OF_002)      # the family of the line's terminals: 000, 001 or 002
    for event in reader.feed(port.read()):        # Frame or LineRefusal; any cut of blocks gives the same events
        if isinstance(event, quay.Frame):
            try:
                message = quay.read_message(event.body, event.family)
            except quay.Refused as refused:       # an echoed poll is 7: keep what it was refused for, and go on
                print(refused)

    table = pandas.DataFrame(quay.rows(open('august.log', 'rb').read()))

The library (libquay.so) is loaded when it is first used. It is the one named in the environment variable QUAY_LIBRARY, or else the
one beside this module. `load_library(path)` takes another.

The caller says the family by its name. Nothing here has a default for it, and nothing takes a number for it.

>>> weight = Weight.from_bytes(bytes.fromhex('51020021'), Family.OF_002)
>>> weight.value, weight.kilograms_exact, weight.kilograms, weight.reading.mode
(251000000, Fraction(251, 10), 25.1, 'net')
"""
from quay_family import Family
from quay_library import LibraryNotLoaded, load_library
from quay_line import Entry, Event, Frame, LineRefusal, Listed, Phase, Reader, list_event, list_total
from quay_log import (Log, LogRefused, Record, RefusalMet, Row, Weighing, read_log, read_record, record_heard, row_of, rows,
                      write_record)
from quay_message import Address, Load, Message, Role, Says, read_message, write_frame, write_message
from quay_refusal import MEANINGS, Refused, meaning_of
from quay_weight import Reading, Weight, difference, exact_kilograms

__all__ = [
    'LibraryNotLoaded', 'load_library',
    'MEANINGS', 'Refused', 'meaning_of',
    'Family',
    'Entry', 'Event', 'Frame', 'LineRefusal', 'Listed', 'Phase', 'Reader', 'list_event', 'list_total',
    'Address', 'Load', 'Message', 'Role', 'Says', 'read_message', 'write_frame', 'write_message',
    'Reading', 'Weight', 'difference', 'exact_kilograms',
    'Log', 'LogRefused', 'Record', 'RefusalMet', 'Row', 'Weighing', 'read_log', 'read_record', 'record_heard', 'row_of', 'rows',
    'write_record',
]
