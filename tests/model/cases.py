"""Cases for every public function: (function name, inputs, expected answer).

The cases stand in files of one part of the model each, in a stable order. All
formatting is in `line_of`, so that the text of the vector files can be fixed
later without touching the cases.
"""

import cases_bad_bit
import cases_frame
import cases_line
import cases_listing
import cases_log
import cases_message
import cases_parcel
import cases_table
import cases_walker
import cases_weight
import hour_table
import line

PARTS = (
    ('frame', cases_frame.cases), ('line', cases_line.cases), ('weight', cases_weight.cases),
    ('message', cases_message.cases), ('log', cases_log.cases),
    ('listing', cases_listing.cases), ('wires', cases_line.wires), ('walker', cases_walker.cases),
    ('parcel', cases_parcel.cases), ('table', cases_table.cases), ('bad_bit', cases_bad_bit.cases))


def all_cases():
    """Every case of every part."""
    for _, part in PARTS:
        yield from part()


def words_of(thing):
    """A value as words: lowercase words, decimal numbers, hex byte strings,
    and an empty byte string as `-`."""
    if thing is None:
        return ['none']
    if isinstance(thing, str):
        return [thing]
    if isinstance(thing, int):
        return ['%d' % thing]
    if isinstance(thing, (bytes, bytearray)):
        return [thing.hex() or '-']
    if isinstance(thing, line.State):
        return state_words(thing)
    if isinstance(thing, line.Event):
        return event_words(thing)
    if isinstance(thing, hour_table.Table):
        return table_words(thing)
    return [word for part in thing for word in words_of(part)]


def state_words(state):
    """Phase, wire count, kept count, kept bytes. Bytes past the kept count are
    written only if they are marked; zeros follow what is written. A count over
    255 has no kept bytes of its own."""
    marked = len(state.kept.rstrip(b'\x00'))
    length = marked if state.count > len(state.kept) else max(state.count, marked)
    return words_of((state.phase, state.wire, state.count, state.kept[:length]))


def event_words(event):
    if event.number:
        return words_of(('refused', event.number, event.wire, event.count))
    return words_of(('frame', event.wire, event.count, event.body))


def table_words(table):
    """How many cells are not empty, and each of these: weekday, hour, its numbers."""
    told = hour_table.cells_told(table)
    return words_of((len(told), told))


def line_of(case):
    """A case as one line: name, inputs, ` = `, answer."""
    name, inputs, answer = case
    return ' '.join([name] + words_of(inputs) + ['='] + words_of(answer))
