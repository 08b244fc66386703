"""The open points of sections 2, 3 and 5: reader, frames, listing.

Each expectation names its point; (!) marks the points a program can be caught
on. Points of requests not yet built are held to what is true before them. The
addresses of 02 request 1 have their own points, in points_of_addresses.py, the
families of 02 request 4 in points_of_families.py, the overload of 02 request 7,
5.5, in points_of_overload.py.
"""

from check_byte import check_of
from families import OF_002
from frame import (HIGHEST_SHORT, body_of, frame_of, judge_heard, judge_lent, open_body, room_needed,
                   write_frame)
from line import FRESH, Event, feed, feed_block, hear, kept_bytes, state_of
from listing import listing_of, write_line, write_total

ONE = ('short', 1)


def after(state, byte):
    """Phase, wire and body counts handed back, and the event."""
    state, event = feed(state, byte)
    return state.phase, state.wire, state.count, event


def full(phase):
    return state_of(phase, 300, 255, b'\x01' * 255)


def test_full_body(expect):
    # 2.1 (!) the 256th byte as a stuffed FF: refusal 2 at the FE
    expect('2.1', after(full('inside'), 0xFF), ('held', 301, 255, None))
    expect('2.1', after(full('held'), 0xFE), ('seeking', 301, 0, Event(2, 301, 255, b'')))
    expect('2.1', after(full('inside'), 0x05), ('seeking', 301, 0, Event(2, 301, 255, b'')))
    # 2.2 (!) Held with 255 kept, then another byte: 3; FF: the body has ended
    expect('2.2', after(full('held'), 0x05), ('seeking', 301, 0, Event(3, 301, 255, b'')))
    expect('2.2', after(full('held'), 0xFF)[3].count, 255)
    # 2.5 (!) one refusal per long body, and the next frame is heard
    long_body = b'\x01' + b'\xff' * 300 + b'\x07'
    events = list(hear(frame_of(long_body) + frame_of(body_of(ONE, 0xCD, b''))))
    expect('2.5', [event.number for event in events], [2, 0])


def test_held(expect):
    # 2.3 the held FF is not counted
    expect('2.3', list(hear(b'\xff\x01\xff\x02')), [Event(3, 4, 1, b'')])
    # 2.4 (!) the byte that gave refusal 3 is used up
    expect('2.4', list(hear(b'\xff\x01\xff\x02\xff\xff')), [Event(3, 4, 1, b'')])
    expect('2.4', after(state_of('held', 3, 1, b'\x01'), 0x02)[0], 'seeking')
    # 2.13 a capture that stops in Held gives no event for it
    expect('2.13', list(hear(b'\xff\x01\xc3\xe3\xff')), [])


def test_states_handed_in(expect):
    # 2.6 over 255 kept: fresh, wire 0, in every phase, and the byte is taken
    for phase in ('seeking', 'delimited', 'inside', 'held'):
        for count in (256, 2 ** 64 - 1):
            over = state_of(phase, 77, count, b'\x01\xc3\xe3')
            expect('2.6', after(over, 0xFF), ('delimited', 1, 0, None))
            expect('2.6', after(over, 0x01), ('seeking', 1, 0, None))
    # 2.7 a seeking or delimited state keeps nothing, whatever it held on entry
    for phase in ('seeking', 'delimited'):
        for byte in (0x00, 0x01, 0xFE, 0xFF):
            expect('2.7', feed(state_of(phase, 4, 3, b'\x05\x06\x07'), byte),
                   feed(state_of(phase, 4, 0, b''), byte))
    ended, _ = feed(state_of('held', 5, 3, b'\x01\xc3\xe3'), 0xFF)
    expect('2.7', (ended.phase, ended.count), ('delimited', 0))
    # 2.8 (!) Inside or Held with nothing kept is used as it stands
    expect('2.8', after(state_of('held', 1, 0, b''), 0xFF), ('delimited', 2, 0, Event(1, 2, 0, b'')))
    kept, _ = feed(state_of('inside', 1, 0, b''), 0xFE)
    expect('2.8', kept_bytes(kept), b'\xfe')
    kept, _ = feed(state_of('held', 1, 0, b''), 0xFE)
    expect('2.8', kept_bytes(kept), b'\xff')
    high = b'\xff\xc3' + bytes([check_of(b'\xff\xc3')])
    expect('2.8', after(state_of('held', 1, 3, high), 0xFF)[3], Event(5, 2, 3, b''))
    # 2.9 the check is that of the kept bytes; the state carries no register
    expect('2.9', after(state_of('held', 5, 3, b'\x01\xc3\xe2'), 0xFF)[3], Event(4, 6, 3, b''))


def test_counts(expect):
    expect('fresh', FRESH, state_of('seeking', 0, 0, b''))
    # 2.10 (!) the wire count's turn: an event may carry wire count 0
    last = state_of('held', 2 ** 64 - 1, 1, b'\x01')
    expect('2.10', after(last, 0xFF), ('delimited', 0, 0, Event(1, 0, 1, b'')))
    expect('2.10', after(FRESH._replace(wire=2 ** 64 - 1), 0x01), ('seeking', 0, 0, None))
    # 2.11 the body count is all bytes kept, check included
    expect('2.11', list(hear(b'\xff\x01\xc3\x00\x00\x11\xff\xff')), [Event(4, 8, 5, b'')])
    # 2.12 order 1, 4, 5
    five = b'\x00\x01\x02\x03'
    expect('2.12', judge_heard(five + bytes([check_of(five)])), 1)
    expect('2.12', judge_heard(five + bytes([check_of(five) ^ 1])), 1)
    expect('2.12', judge_heard(b'\xfe\xc3\x00'), 4)
    expect('2.12', judge_heard(b'\xfe\xc3' + bytes([check_of(b'\xfe\xc3')])), 5)
    # up to and with the first event
    expect('block', feed_block(FRESH, b'\xff\x01\xff\xff\x02')[1:], (4, Event(1, 4, 1, b'')))


def test_lent_bodies(expect):
    # a lent body is judged 2, 1, 4, 5: past 255 bytes it is 2 whatever its check and its address
    for first, at_most in ((0x00, 0), (0x01, 0), (HIGHEST_SHORT, 0), (0xFE, 5), (0xFF, 5)):
        for length in (255, 256, 257, 300, 600):
            unchecked = bytes([first]) + bytes(range(1, 254)) + bytes(length - 255)
            right, wrong = (unchecked + bytes([check_of(unchecked) ^ change]) for change in (0, 1))
            expect('lent body', (len(right), judge_lent(right), judge_lent(wrong)),
                   (length, at_most, 4) if length == 255 else (length, 2, 2))
    expect('lent body', [judge_lent(b''), judge_lent(b'\xfe\xc3'), judge_lent(b'\xfe\xc3\x00')], [1, 1, 4])


def test_frame_writing(expect):
    # 3.1 (!) room equal to the need is enough; nothing past it is touched
    room = bytearray(b'\xaa' * 7)
    expect('3.1', (write_frame(ONE, 0xC3, b'', room), room.hex()), ((0, 6), 'ff01c3e3ffffaa'))
    room = bytearray(b'\xaa' * 6)
    expect('3.1', write_frame(ONE, 0xC3, b'', room), (0, 6))
    room = bytearray(b'\xaa' * 5)
    expect('3.1', (write_frame(ONE, 0xC3, b'', room), room.hex()), ((9, 0), 'aa' * 5))
    # 3.2 FF bytes of the check and of the serial count
    body = body_of(('serial', 0xFFFFFF), 0xFF, b'')
    expect('3.2', room_needed(('serial', 0xFFFFFF), 0xFF, b'')[1], len(body) + 3 + body.count(0xFF))
    last = next(byte for byte in range(256) if body_of(ONE, 0xEE, bytes([byte]))[-1] == 0xFF)
    expect('3.2', room_needed(ONE, 0xEE, bytes([last]))[1], 4 + 3 + 1 + (last == 0xFF))
    # 3.3 (!) short address 0 is 5; serial 0 is legal
    expect('3.3', write_frame(('short', 0), 0xC3, b'', bytearray(20)), (5, 0))
    room = bytearray(9)
    expect('3.3', (write_frame(('serial', 0), 0xC3, b'', room)[0], room[1:5]), (0, bytes(4)))
    expect('3.3', write_frame(('short', 0xFE), 0xC3, b'', bytearray(20)), (5, 0))
    expect('3.3', write_frame(('serial', 16_777_216), 0xC3, b'', bytearray(20)), (5, 0))
    # 3.4 order 5, 2, 9
    expect('3.4', write_frame(('short', 0), 0xC3, bytes(300), bytearray()), (5, 0))
    expect('3.4', write_frame(ONE, 0xC3, bytes(253), bytearray()), (2, 0))
    expect('3.4', write_frame(ONE, 0xC3, bytes(252), bytearray()), (9, 0))
    expect('3.4', write_frame(('serial', 1), 0xC3, bytes(250), bytearray(600)), (2, 0))
    expect('3.4', open_body(body_of(('serial', 1), 0xC3, bytes(249)))[0], 0)


def test_listing(expect):
    def listed(*bodies):
        return listing_of(OF_002, b''.join(frame_of(body) for body in bodies)).decode('ascii').split('\n')

    # 5.1 (!) requests are read as replies
    lines = listed(body_of(ONE, 0xC3, b''), body_of(ONE, 0xC2, b''), body_of(ONE, 0xCD, b''),
                   body_of(ONE, 0xBF, b'\x13'))
    expect('5.1', lines[:4], ['1 refused 7', '2 refused 7', '3 message 1 CD', '4 message 1 BF'])
    # 5.2 (!) refusals of the message layer, without an address
    lines = listed(body_of(ONE, 0xC1, b''), body_of(ONE, 0xC0, b'\x00'), body_of(ONE, 0xBF, b'\x80'),
                   b'\x01' + bytes(253) + bytes([check_of(b'\x01' + bytes(253))]))
    expect('5.2', lines[:5], ['1 refused 6', '2 refused 7', '3 refused 8', '4 refused 6',
                              'total 4 weights 0 refused 4'])
    # 5.3 (!) extended addresses
    lines = listed(body_of(('serial', 255), 0xC3, b'\x51\x02\x00\x01'),
                   body_of(('serial', 0), 0xA1, b'\xff\x00\x00'))
    expect('5.3', lines[:2], ['1 weight gross 0:255 + 000251 1 0 0 gross', '2 message 0:0 A1'])
    # 5.4 the sign bit, six digits, the point behind them
    expect('5.4', listed(body_of(ONE, 0xC2, b'\x00\x00\x00\x87'))[0], '1 weight net 1 - 000000 7 0 0 gross')
    # a line alone is the line in its listing
    event = next(hear(frame_of(body_of(ONE, 0xCD, b''))))
    room = bytearray(b'\xaa' * 16)
    expect('line', (write_line(1, OF_002, event, room), bytes(room)), ((0, 15), b'1 message 1 CD\n\xaa'))
    expect('line', write_line(10, OF_002, event, bytearray(15)), (9, 0))
    room = bytearray(27)
    expect('line', (write_total(3, 2, 1, room), bytes(room)), ((9, 0), bytes(27)))
    expect('line', write_total(3, 2, 1, bytearray(28)), (0, 28))
    # refusals 1 to 8 list, handed in as events too; any other is 8, ahead of 9, and the room stands
    for number in range(1, 9):
        room = bytearray(12)
        expect('met on the line', (write_line(1, OF_002, Event(number, 9, 4, b''), room), bytes(room)),
               ((0, 12), b'1 refused %d\n' % number))
    for number in (9, 10, 11, 20, 21, 22, 23, 24, 25, 26, 31):
        for length in (0, 12, 13, 100):
            room = bytearray(b'\xaa' * length)
            expect('not met on the line', (write_line(1, OF_002, Event(number, 9, 4, b''), room), bytes(room)),
                   ((8, 0), b'\xaa' * length))
    # 5.8 (!) ends
    expect('5.8', listing_of(OF_002, b''), b'total 0 weights 0 refused 0\n')
    expect('5.8', listing_of(OF_002, b'\x01\x02\xfe\xff\xff\xff'), b'total 0 weights 0 refused 0\n')


TESTS = (test_full_body, test_held, test_states_handed_in, test_counts, test_lent_bodies,
         test_frame_writing, test_listing)
