"""The model tests itself: E1 to E8, the paper's listing, the open points, 02 requests 1, 2, 4 to 7 and 9.

    python3 tests/model/selftest.py

prints one line and exits 0, or says what failed and exits 1.
"""

import sys

import captures
import families
import frame
import line
import listing
import log
import message
import points_of_addresses
import points_of_bad_bit_cases
import points_of_bad_bit_stand_ins
import points_of_bad_bits
import points_of_cases
import points_of_families
import points_of_lines
import points_of_messages
import points_of_overload
import points_of_overload_cases
import points_of_parcel_cases
import points_of_parcels
import points_of_table_cases
import points_of_tables
import points_of_walks
import points_of_weights
from check_byte import check_of, register_of
from expecting import Expectations
from random_bytes import RandomBytes
from weight import value

wire_of = bytes.fromhex


def one_event(wire):
    """The only event of a wire."""
    events = list(line.hear(wire))
    return events[0] if len(events) == 1 else None


def test_judged_examples(expect):
    for point, code, text in (('E1', 0xC3, 'ff01c3e3ffff'), ('E2', 0xC2, 'ff01c28affff')):
        event = one_event(wire_of(text))
        for family in families.ALL:
            room = bytearray(6)
            expect(point, message.write_message('request', family, ('short', 1), code, b'', room), (0, 6))
            expect(point, room.hex(), text)
            expect(point, message.read_message('request', family, event.body),
                   (0, ('short', 1), code, b'', ()))
    for point, text, tenths in (('E3', 'ff01c351020001deffff', 251_000_000),
                                ('E4', 'ff01c20500009132ffff', -5_000_000)):
        event = one_event(wire_of(text))
        expect(point, (event.number, event.wire, event.count), (0, 10, 7))
        for family in families.ALL:
            answer = message.read_message('reply', family, event.body)
            expect(point, value(answer[4][0]), (0, tenths))
        expect(point, frame.frame_of(event.body).hex(), text)
    event = one_event(wire_of('ff01a1fffe000039ffff'))
    for family in families.ALL:
        expect('E5', message.read_message('reply', family, event.body),
               (0, ('short', 1), 0xA1, b'\xff\x00\x00', (255,)))
    expect('E5', frame.room_needed(('short', 1), 0xA1, b'\xff\x00\x00'), (0, 10))
    expect('E6', one_event(wire_of('ff01c3e2ffff')), (4, 6, 3, b''))
    expect('E6', one_event(wire_of('ff01ffff')), (1, 4, 1, b''))
    expect('E7', one_event(wire_of('ff01ff02')), (3, 4, 1, b''))


def test_longest_body(expect):
    unchecked = b'\x01' + bytes(253)
    body = unchecked + bytes([check_of(unchecked)])
    event = one_event(frame.frame_of(body))
    expect('E8', (event.number, event.count, event.body), (0, 255, body))
    unchecked += b'\x00'
    event = one_event(frame.frame_of(unchecked + bytes([check_of(unchecked)])))
    expect('E8', event, (2, 257, 255, b''))


def test_paper_listing(expect):
    """01's listing is that of plain bits; 02 request 4 adds the last field."""
    capture = wire_of('ff01c351020001deffff' 'ff01c20500009132ffff' 'ff01c3e2ffff')
    expect('listing', listing.listing_of(families.PLAIN, capture),
           b'1 weight gross 1 + 000251 1 0 0\n2 weight net 1 - 000005 1 1 0\n'
           b'3 refused 4\ntotal 3 weights 2 refused 1\n')
    expect('listing', listing.listing_of(families.OF_002, capture),
           b'1 weight gross 1 + 000251 1 0 0 gross\n2 weight net 1 - 000005 1 1 0 gross\n'
           b'3 refused 4\ntotal 3 weights 2 refused 1\n')


def test_misreadings(expect):
    """"Readings that look right and aren't"."""
    expect('FF FE FE is FF, FE', frame.stuffed(b'\xff\xfe'), b'\xff\xfe\xfe')
    event = one_event(frame.frame_of(frame.body_of(('short', 1), 0xEE, b'\xff\xfe')))
    expect('FF FE FE is FF, FE', frame.open_body(event.body)[3], b'\xff\xfe')
    # The middle of a frame, its first byte behind a stuffed FF, ends well by chance.
    expect('late listener', list(line.hear(b'\xff\xfe\x01\xc3\xe3\xff\xff')), [])
    for family in families.ALL:
        expect('unread weight', log.record_heard(5, 'reply', family, line.Event(4, 6, 3, b'')),
               log.Record(5, 3, 0, 0, 4, b'\x00\x00\x00', 0))


def remainder(sent):
    """Another way to the register: the bytes as one polynomial, the rest left
    by dividing it by 169h."""
    rest = int.from_bytes(sent, 'big')
    while rest.bit_length() > 8:
        rest ^= 0x169 << (rest.bit_length() - 9)
    return rest


def test_check(expect):
    source = RandomBytes(3)
    for length in list(range(40)) + [253, 254]:
        sent = source.bytes(length)
        expect('check', register_of(sent), remainder(sent))
        expect('check', check_of(sent), remainder(sent + b'\x00'))
        expect('check', register_of(sent + bytes([check_of(sent)])), 0)


def test_frames_handed_back(expect):
    """Every frame of a clean wire is heard, in order, from any byte on that
    still has an FF ahead of it, and nothing else is."""
    source = RandomBytes(5)
    for _ in range(25):
        wire, starts, bodies = captures.placed_frames(source)
        for place in range(0, len(wire), 1 if len(wire) < 120 else 7):
            heard = [event.body for event in line.hear(wire[place:])]
            wanted = [body for start, body in zip(starts, bodies) if start > place]
            expect('frames handed back', heard, wanted)


def test_blocks(expect):
    """Feeding blocks gives the events of feeding bytes."""
    source = RandomBytes(9)
    for name, capture in captures.named_captures():
        state, place, heard = line.FRESH, 0, []
        while place < len(capture):
            block = capture[place:place + source.between(1, 40)]
            state, taken, event = line.feed_block(state, block)
            place += taken
            heard += [event] if event is not None else []
        expect('blocks of ' + name, heard, list(line.hear(capture)))
        expect('wire count of ' + name, state.wire, len(capture))


def test_random_source(expect):
    """Frozen numbers: every Python makes the same bytes."""
    source = RandomBytes(1)
    expect('random source', source.bytes(12).hex(), '855214acffcdc43c5679779a')
    expect('random source', [source.below(1000) for _ in range(4)], [73, 528, 824, 687])


TESTS = (test_judged_examples, test_longest_body, test_paper_listing, test_misreadings, test_check,
         test_frames_handed_back, test_blocks, test_random_source) \
    + points_of_lines.TESTS + points_of_messages.TESTS + points_of_weights.TESTS \
    + points_of_addresses.TESTS + points_of_walks.TESTS + points_of_families.TESTS + points_of_cases.TESTS \
    + points_of_parcels.TESTS + points_of_parcel_cases.TESTS + points_of_tables.TESTS + points_of_table_cases.TESTS \
    + points_of_overload.TESTS + points_of_overload_cases.TESTS \
    + points_of_bad_bits.TESTS + points_of_bad_bit_cases.TESTS + points_of_bad_bit_stand_ins.TESTS


def main():
    expectations = Expectations()
    for test in TESTS:
        test(expectations.expect)
    for failure in expectations.failures:
        print(failure)
    if expectations.failures:
        return 1
    print('model: %d expectations hold, E1 to E8, the paper\'s listing and the open points among them'
          % expectations.count)
    return 0


if __name__ == '__main__':
    sys.exit(main())
