"""Cases as the program `crates/vectors` reads and answers them, which runs them through the proved functions.

A case is bytes: one of its function, its text with two bytes of length ahead,
for a writer the room as it is lent in the same way, and then its numbers, low
byte first. An answer is a line of words. README.md has the layouts.

`RUN` is the one list of what is run: a function of the cases, and under which
number and in which layouts. What is not in it is not run. `parcel_vectors.py`,
`table_vectors.py` and `bit_vectors.py` have the lists of the other programs, in the
same form.
"""

from collections import namedtuple
import struct

import cases_frame
import cases_line
import cases_listing
import cases_log
import cases_message
import cases_walker
import cases_weight
from cases import words_of
from log import Record
import message
from refusals import ACCEPTED
from walker import END

LONGEST = 4096  # of a text, and of a room
FIRST_WRITER = 27  # from this number on a function is lent room: the last of its inputs
PHASES = cases_line.PHASES
BLOCK_SIZES = (0, 1, 2, 7, 64)  # of a capture; 0 is the whole of it at once
NOTHING, TOLD, REFUSED = 0, 1, 2  # how an answer of three kinds starts

# `hand_in` turns the inputs into the text and the numbers, `tell` the answer into what is told of it.
Layout = namedtuple('Layout', 'number hand_in tell')
Vector = namedtuple('Vector', 'case given answer')


# What is handed in: a text, and numbers as bytes.

def half(value):
    return value.to_bytes(2, 'little')


def word(value):
    return value.to_bytes(4, 'little')


def long(value):
    return value.to_bytes(8, 'little')


def string(text):
    return half(len(text)) + text


def text_alone(text):
    return text, b''


def numbers_alone(*numbers):
    return b'', b''.join(numbers)


def address(of):
    """0 or 1 for short or serial, and four bytes of its number."""
    kind, value = of
    return bytes([('short', 'serial').index(kind)]) + word(value)


def role(of):
    return bytes([message.ROLES.index(of)])


def family_byte(of):
    """One byte, its number: 0 plain, 1 to 3 for 000 to 002."""
    return bytes([of])


def reading(of):
    """Minus, four bytes of the number, point, bit 6, bit 5, settled, overload, family."""
    return bytes([of.minus]) + word(of.number) + bytes(of[2:])


def four_to_read(family, four):
    return numbers_alone(family_byte(family), four)


def readings_alone(*readings):
    return numbers_alone(*map(reading, readings))


def place(state):
    return bytes([PHASES.index(state.phase)]) + long(state.wire) + long(state.count)


def kept(state):
    """The 255 bytes of a state handed in, without the zeros at their end."""
    return state.kept.rstrip(b'\x00')


def byte_to_take(before, byte):
    return kept(before), place(before) + byte


def block_to_feed(before, block):
    return kept(before) + block, half(len(kept(before))) + place(before)


def step_to_take(lent, block, at):
    """The front of the 255 lent bytes, and the block behind it."""
    return lent + block, half(len(lent)) + long(at)


def to_write(of, code, data):
    return data, address(of) + code


def body_to_read(spoken, family, body):
    return body, role(spoken) + family_byte(family)


def message_to_write(spoken, family, of, code, data):
    return data, role(spoken) + family_byte(family) + address(of) + code


def event(of):
    """Its refusal or 0 for a frame, and both counts. The body is the text."""
    return bytes([of.number]) + long(of.wire) + long(of.count)


def to_note(time, spoken, family, of):
    return of.body, long(time) + role(spoken) + family_byte(family) + event(of)


def to_list(count, family, of):
    return of.body, long(count) + family_byte(family) + event(of)


def record(time, kind, short, serial, status, weight, byte_17):
    return numbers_alone(long(time), bytes([kind, short]), word(serial), bytes([status]), weight,
                         bytes([byte_17]))


# Answers: what is told, for `words_of`.

def as_it_is(*answer):
    return answer


def byte_told(byte):
    return byte[0]


def or_refused(layout):
    """An answer that is a number alone where something was refused."""
    return lambda refusal, *rest: (refusal, layout(*rest)) if refusal == ACCEPTED else (refusal,)


def address_told(of):
    kind, value = of
    return ('short', 'serial').index(kind), value


def opened(of, code, data):
    return address_told(of), byte_told(code), data


def state_told(of):
    """A state handed back: what lies past its kept bytes is not compared."""
    return PHASES.index(of.phase), of.wire, of.count, of.kept[:of.count]


def event_told(of):
    if of is None:
        return (NOTHING,)
    if of.number:
        return REFUSED, of.number, of.wire, of.count
    return TOLD, of.wire, of.count, of.body


def fed_told(after, taken, given):
    return state_told(after), taken, event_told(given)


def heard_told(count, events):
    return [event_told(of) for of in events], count


def met_told(of):
    """What a step of the walker met: nothing where it says "end"."""
    return (NOTHING,) if of == END else event_told(of)


def walker_stepped(of, after, lent):
    return met_told(of), after, lent


def walked(steps, count, ended, more, after):
    """Each event with the place after it, their number, and the place at "end";
    then the one step more."""
    return [(met_told(of), behind) for of, behind in steps], count, ended, met_told(more), after


def signed(value):
    """A whole number as the float that it is, by its 64 bits: exact below 2^53."""
    assert abs(value) < 2 ** 53
    return struct.pack('>d', value)


def noted(of):
    """No record, a record, or the refusal of what was handed in."""
    if of is None:
        return (NOTHING,)
    return (TOLD, of) if isinstance(of, Record) else (REFUSED, of)


def stepped(kind, *rest):
    if kind == 'end':
        return (NOTHING,)
    return (TOLD, rest) if kind == ACCEPTED else (REFUSED, kind)


def low_first(four):
    return int.from_bytes(four, 'little')


# What a message says, by the data of its row: a tag and the fields.
SAID = {
    message.NONE: lambda: (0,),
    message.SERIAL: lambda serial: (1, serial),
    message.PRINTER: lambda num: (2, num),
    message.DISPLAY: lambda num: (2, num),
    message.STATUS: lambda status: (3, status),
    message.INPUTS: lambda four, on: (5, low_first(four), on),
    message.FOUR_BYTES: lambda four: (6, low_first(four)),
    message.DISPLAY_TEXT: lambda num, text: (7, num, text),
    message.TEXT: lambda num, text: (7, num, text),
    message.EVENT: lambda event_byte, six: (8, event_byte, six),
    message.FIVE_BYTES: lambda value: (9, value),
    message.ERROR: lambda error: (10, error),
}
LOADS = {message.NET: 0, message.GROSS: 1}


def said(spoken, code, fields):
    if spoken == message.WEIGHT:
        return 4, LOADS[code], fields
    return SAID[spoken](*fields)


def messages():
    """The cases of messages, with what a message read says as it is told: that
    goes by its row, and so by the role, which stands in the inputs."""
    for name, inputs, answer in cases_message.cases():
        if name == 'read_message' and answer[0] == ACCEPTED:
            spoken_role, code, fields = inputs[0], answer[2][0], answer[4]
            answer = answer[:4] + (said(message.row(spoken_role, code), code, fields),)
        yield name, inputs, answer


def received(of, code, data, what):
    return opened(of, code, data), what


FRAME_RUN = {
    'fed': [Layout(1, numbers_alone, byte_told)],
    'register_of': [Layout(2, text_alone, byte_told)],
    'check_of': [Layout(3, text_alone, byte_told)],
    'address_is_legal': [Layout(4, lambda of: numbers_alone(address(of)), as_it_is)],
    'judge_lent': [Layout(5, text_alone, as_it_is)],
    'open_body': [Layout(6, text_alone, or_refused(opened))],
    'room_needed': [Layout(7, to_write, or_refused(as_it_is))],
    'write_frame': [Layout(27, to_write, as_it_is)],
}
LINE_RUN = {
    'feed': [Layout(8, byte_to_take, lambda after, given: fed_told(after, 1, given))],
    'feed_block': [Layout(9, block_to_feed, fed_told), Layout(10, block_to_feed, fed_told)],
}
WIRE_RUN = {
    'hear': [Layout(11, lambda capture, size=size: (capture, half(size)), heard_told)
             for size in BLOCK_SIZES],
}
WALKER_RUN = {
    'walker_step': [Layout(24, step_to_take, walker_stepped)],
    'walk': [Layout(25, lambda block, at: (block, long(at)), walked)],
}
WEIGHT_RUN = {
    'read_reading': [Layout(12, four_to_read, as_it_is)],
    'reading_is_right': [Layout(13, readings_alone, as_it_is)],
    'write_reading': [Layout(14, readings_alone, as_it_is)],
    'value': [Layout(15, readings_alone, or_refused(signed))],
    'difference': [Layout(16, readings_alone, or_refused(signed))],
    'kilograms': [Layout(17, readings_alone, as_it_is)],
    'mode': [Layout(26, readings_alone, as_it_is)],
    'inputs_on': [Layout(18, numbers_alone, as_it_is)],
}
MESSAGE_RUN = {
    'read_message': [Layout(19, body_to_read, or_refused(received))],
    'write_message': [Layout(28, message_to_write, as_it_is)],
}
LOG_RUN = {
    'read_record': [Layout(20, text_alone, as_it_is)],
    'record_heard': [Layout(21, to_note, noted)],
    'step': [Layout(22, lambda log, at: (log, long(at)), stepped)],
    'weight_noted': [Layout(23, record, as_it_is)],
    'write_record': [Layout(29, record, as_it_is)],
}
LISTING_RUN = {
    'write_line': [Layout(30, to_list, as_it_is)],
    'write_total': [Layout(31, lambda *counts: numbers_alone(*map(long, counts)), as_it_is)],
}

# The parts that are run. `stuffed` and `frame_of` have no public function of their own
# in the crates: stuffing is seen in what `write_frame` and `write_message` write.
# `listing` is a whole capture, which `crates/list_capture` runs.
RUN = (
    (cases_frame.cases, FRAME_RUN), (cases_line.cases, LINE_RUN), (cases_weight.cases, WEIGHT_RUN),
    (messages, MESSAGE_RUN), (cases_log.cases, LOG_RUN), (cases_listing.cases, LISTING_RUN),
    (cases_line.wires, WIRE_RUN), (cases_walker.cases, WALKER_RUN))


def given(layout, inputs, first_writer):
    """A case as the program reads it."""
    lent = b''
    if layout.number >= first_writer:
        *inputs, room = inputs
        assert len(room) <= LONGEST
        lent = string(room)
    text, numbers = layout.hand_in(*inputs)
    assert len(text) <= LONGEST
    return bytes([layout.number]) + string(text) + lent + numbers


def told(layout, answer):
    """The line that the program must write."""
    return ' '.join(words_of((layout.number, layout.tell(*answer)))).encode('ascii')


def vectors(run=RUN, first_writer=FIRST_WRITER):
    """Every case that is run, with what the program reads and its line. A program
    of its own has its own list, and its own first function that is lent room."""
    for part, layouts in run:
        for case in part():
            name, inputs, answer = case
            for layout in layouts.get(name, ()):
                yield Vector(case, given(layout, inputs, first_writer), told(layout, answer))


def files_of(all_of_them):
    """What the program reads, and what it must write, of its vectors."""
    return (b''.join(vector.given for vector in all_of_them),
            b''.join(vector.answer + b'\n' for vector in all_of_them))
