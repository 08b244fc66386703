"""The listing of a capture: "A capture is read as replies throughout."

"(event; address, or `0:` and the serial, in decimal; sign bit as + or -;
digits; point; settled; overload)". 02 request 4: "The listing adds one field at
the end of a weight line". 02 request 7: "The listing prints six hyphens for the
digits" of an overloaded weight. Every line ends with a newline, the total too
(open point 5.8).
"""

import families
import line
import message
from refusals import ACCEPTED, lend, refused_write

# The last field of a weight line, by what bit 5 is called: where it is clear, where it is set.
LAST_FIELDS = {families.NET_MODE: ('gross', 'net'), families.SCALE_NUMBER: ('scale0', 'scale1')}
NO_DIGITS = '------'  # "six hyphens"
FAMILY_NOT_SAID = families.OF_002  # "where this paper is silent, 002 decides" (open point 5.7)


def address_text(address):
    """`0:` and the serial without a blank or leading zeros (open point 5.3)."""
    kind, number = address
    return '%d' % number if kind == 'short' else '0:%d' % number


def last_field(reading):
    """"`net`, `gross`, or `scale0`, `scale1`", with the blank before it. It
    "comes from bit 5 alone" (open point 5.6). A plain reading has none."""
    called = families.TABLE[reading.family].five
    if called not in LAST_FIELDS:
        return ''
    return ' ' + LAST_FIELDS[called][reading.five]


def weight_text(reading):
    """The sign bit, not the value's sign; six digits and no point in them
    (open point 5.4). An overloaded weight has hyphens there, "sign, point, settled
    and overload as before" (open point 5.5), and its last field (open point 5.6)."""
    sign = '-' if reading.minus else '+'
    digits = NO_DIGITS if reading.overload else '%06d' % reading.number
    return '%s %s %d %d %d%s' % (sign, digits, reading.point, reading.settled,
                                 reading.overload, last_field(reading))


def entry(family, event):
    """('weight' or 'message' or 'refused', the line behind its event number).
    "The caller says the family per line".

    A good frame whose message is refused lists as that refusal, without its
    address (open point 5.2)."""
    number = event.number
    if number == ACCEPTED:
        answer = message.read_message('reply', family, event.body)
        number = answer[0]
    if number != ACCEPTED:
        return 'refused', 'refused %d' % number
    _, address, code, _, fields = answer
    if code not in (message.GROSS, message.NET):
        return 'message', 'message %s %02X' % (address_text(address), code)
    word = 'gross' if code == message.GROSS else 'net'
    return 'weight', 'weight %s %s %s' % (word, address_text(address), weight_text(fields[0]))


def event_line(count, family, event):
    """One line as bytes: the event's number in the listing, then the entry."""
    return b'%d %s\n' % (count, entry(family, event)[1].encode('ascii'))


def total_line(events, weights, refusals):
    """"The total counts all events." """
    return b'total %d weights %d refused %d\n' % (events, weights, refusals)


def write_line(count, family, event, room):
    """An event's line into lent room: (0, length), or (8, 0) of an event whose
    refusal no line can meet ("refusals 1 to 8 all as the third line"), then (9, 0)."""
    number = line.judge_event(event)
    if number != ACCEPTED:
        return refused_write(number)
    return lend(event_line(count, family, event), room)


def write_total(events, weights, refusals, room):
    """The total line into lent room: (0, length), or (9, 0)."""
    return lend(total_line(events, weights, refusals), room)


def lines_of(family, capture):
    """The lines of a capture, the total last. A serial line has one family, so
    a capture has one (open point 5.7)."""
    counts = {'weight': 0, 'message': 0, 'refused': 0}
    events = 0
    for event in line.hear(capture):
        events += 1
        kind, text = entry(family, event)
        counts[kind] += 1
        yield b'%d %s\n' % (events, text.encode('ascii'))
    yield total_line(events, counts['weight'], counts['refused'])


def listing_of(family, capture):
    """The whole listing as bytes."""
    return b''.join(lines_of(family, capture))
