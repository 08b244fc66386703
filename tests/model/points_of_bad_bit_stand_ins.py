"""Programs that have misread 02 request 9: each must answer some case that is run otherwise than the model.

A program that is right by another way, from the powers of x, answers every case.
"""

from functools import lru_cache

from captures import named_captures
from frame import stuffed
from line import FRESH, feed, hear
from points_of_bad_bit_cases import cases_of
from points_of_bad_bits import ALREADY_RIGHT, NONE, NOT_SERVED, POWERS, rest_of, turned
from walker import lent_bytes, put_kept

ILLEGAL = (0xFE, 0xFF)


def finder(powers=POWERS, longest=31, shortest=1, reach=lambda length: 8 * length, of=rest_of):
    """A program that looks a body's register up among powers of x. With nothing said
    it is right."""
    def program(body):
        if not shortest <= len(body) <= longest:
            return NOT_SERVED
        register = of(body)
        if register == 0:
            return ALREADY_RIGHT
        places = [place for place in range(min(reach(len(body)), len(powers))) if powers[place] == register]
        return (0, 1, places[0]) if places else NONE
    return program


right_finder = finder()


def placed(move):
    """A program that tells a bit by another place."""
    def program(body):
        answer = right_finder(body)
        return (0, 1, move(answer[2], len(body))) if answer[:2] == (0, 1) else answer
    return program


def none_as(wrong):
    return lambda body: wrong if right_finder(body) == NONE else right_finder(body)


def unless(holds, wrong):
    """Right, but where something holds of the body mended."""
    def program(body):
        answer = right_finder(body)
        return wrong if answer[:2] == (0, 1) and holds(turned(body, answer[2])) else answer
    return program


def low_bit_first(body):
    return rest_of(bytes(int('{:08b}'.format(byte)[::-1], 2) for byte in body))


def right_before_served(body):
    return ALREADY_RIGHT if rest_of(body) == 0 else right_finder(body)


def cut_length(bits):
    """A length that is kept in so many bits only, and that many bytes looked at."""
    return lambda body: right_finder(body[:len(body) % 2 ** bits])


FINDERS = {
    'counted from the first bit': placed(lambda place, length: 8 * length - 1 - place),
    'counted from the first byte': placed(lambda place, length: 8 * (length - 1 - place // 8) + place % 8),
    'low bit first inside a byte': placed(lambda place, length: place ^ 7),
    'counted from 1': placed(lambda place, length: place + 1),
    'place eight too high': placed(lambda place, length: place + 8),
    'place eight too low': placed(lambda place, length: place - 8),
    'eight too low, but not of the check': placed(lambda place, length: place - 8 if place > 7 else place),
    'the byte alone': placed(lambda place, length: place // 8),
    'the bit in its byte alone': placed(lambda place, length: place % 8),
    'the bit within seven bits': placed(lambda place, length: place % 128),
    'a power past the bits told': finder(reach=lambda length: 255),
    'a power past the bits told, up to 248': finder(reach=lambda length: 248),
    'one bit past told': finder(reach=lambda length: 8 * length + 1),
    'one byte past told': finder(reach=lambda length: 8 * length + 8),
    'the first bit not looked at': finder(reach=lambda length: 8 * length - 1),
    'the first byte not looked at': finder(reach=lambda length: 8 * length - 8),
    'the check not looked at': finder(powers=[0] * 8 + POWERS[8:]),
    'the last bit not looked at': finder(powers=[0] + POWERS[1:]),
    'powers from x on': finder(powers=POWERS[1:] + POWERS[:1]),
    'powers not folded': finder(powers=[1 << place & 0xFF for place in range(255)]),
    'a zero byte fed too': finder(of=lambda body: rest_of(body + b'\x00')),
    'fed low bit first': finder(of=low_bit_first),
    'the check left out': lambda body: right_finder(body[:-1]),
    'the first byte left out': lambda body: right_finder(body[1:]),
    '25 for 26': lambda body: NOT_SERVED if right_finder(body) == ALREADY_RIGHT else right_finder(body),
    '26 before 25': right_before_served,
    '26 before 25 of the empty body': lambda body: ALREADY_RIGHT if body == b'' else right_finder(body),
    '32 bytes let through': finder(powers=POWERS + POWERS[:1], longest=32),
    '32 bytes let through, 248 bits looked at': finder(longest=32, reach=lambda length: min(8 * length, 248)),
    '31 bytes not served': finder(longest=30),
    '25 only for the empty body': finder(longest=4096),
    '25 only for long ones': finder(shortest=0),
    '255 bytes let through': finder(longest=255),
    'one byte not served': finder(shortest=2),
    'under three bytes not served': finder(shortest=3),
    'under three bytes by 1': lambda body: (1,) if len(body) < 3 else right_finder(body),
    'length in eight bits': cut_length(8),
    'length in five bits': cut_length(5),
    'none told as place 0': none_as((0, 1, 0)),
    'none told as place 255': none_as((0, 1, 255)),
    'none told as 26': none_as(ALREADY_RIGHT),
    'none told as 25': none_as(NOT_SERVED),
    'place 0 told as none': lambda body: NONE if right_finder(body) == (0, 1, 0) else right_finder(body),
    'never a bit': lambda body: NONE if right_finder(body)[0] == 0 else right_finder(body),
    'no bit that gives FE or FF': unless(lambda mended: mended[0] in ILLEGAL, NONE),
    'no bit that gives FF': unless(lambda mended: mended[0] == 0xFF, NONE),
    'no bit that gives 00': unless(lambda mended: mended[0] == 0, NONE),
    'no bit that gives 00 and under six': unless(lambda mended: mended[0] == 0 and len(mended) < 6, NONE),
}


def caught(function, program):
    """Whether a program answers some case otherwise."""
    return any(program(*inputs) != answer for inputs, answer in cases_of(function).items())


def test_right_finder(expect):
    expect('a right program', caught('bad_bit', right_finder), False)
    for place in range(248, 255):
        powers = POWERS[:place] + [0] + POWERS[place + 1:]
        expect('powers that no body has a bit for', caught('bad_bit', finder(powers=powers)), False)


def test_finders(expect):
    """Each of them is caught by some case."""
    for what, program in FINDERS.items():
        expect(what, caught('bad_bit', program), True)


def test_one_power_wrong(expect):
    """Any one of the 248 powers that 31 bytes have a bit for: not there, with its last
    or its top bit turned over, not folded or folded where it must not be, or the next
    one. The cases of 31 bytes alone are asked, by their registers."""
    registers = {}
    for (body,), answer in cases_of('bad_bit').items():
        if len(body) == 31 and answer != ALREADY_RIGHT:
            registers.setdefault(rest_of(body), answer)
    expect('registers', len(registers), 255)
    for place in range(248):
        for wrong in (0, POWERS[place] ^ 0x01, POWERS[place] ^ 0x80, POWERS[place] ^ 0x69, POWERS[place + 1]):
            powers = POWERS[:place] + [wrong] + POWERS[place + 1:]
            found = {register: next(((0, 1, at) for at in range(248) if powers[at] == register), NONE)
                     for register in (POWERS[place], wrong)}
            expect('power %d as %02X' % (place, wrong),
                   any(found[register] != registers[register] for register in found if register), True)


@lru_cache(maxsize=None)
def heard_with_room(wire):
    """(event, kept bytes, the room of 255 that they stand at the front of) of each event.
    The room is never cleared: what an older body left stands behind a shorter one."""
    state, room, heard = FRESH, lent_bytes(), []
    for byte in wire:
        after, event = feed(state, byte)
        put_kept(state, after, room)
        if event is not None:
            heard.append((event, state.kept[:state.count], bytes(room)))
        state = after
    return heard


def the_body(body, room):
    return body


def both_counts(event):
    return event.wire, event.count


def handing_on(of=the_body, numbers=(4,), counts=both_counts, find=right_finder):
    """A program that hands bodies on. With nothing said it is right; else it hands other
    bytes on, or after other events, tells other counts, or asks another finder."""
    def program(wire):
        heard = tuple((*counts(event), find(of(body, room)))
                      for event, body, room in heard_with_room(wire) if event.number in numbers)
        return heard, len(heard)
    return program


right_hearer = handing_on()


def changed(change):
    """A program that tells what a right one tells, changed."""
    return lambda wire: change(wire, *right_hearer(wire))


def from_the_last_event(wire, heard, count):
    """Wire counts that start anew behind each refusal 4."""
    starts = (0, *(wire_count for wire_count, *_ in heard))
    return tuple((told[0] - start, *told[1:]) for told, start in zip(heard, starts)), count


def open_at_the_end(wire, heard, count):
    """A body that is not finished, handed on at the end as if it had failed."""
    state = FRESH
    for byte in wire:
        state, _ = feed(state, byte)
    if state.phase not in ('inside', 'held'):
        return heard, count
    return (*heard, (state.wire, state.count, right_finder(state.kept[:state.count]))), count + 1


HEARERS = {
    'one byte too few': handing_on(lambda body, room: body[:-1]),
    'one byte too few in front': handing_on(lambda body, room: body[1:]),
    'one byte too many, an older one': handing_on(lambda body, room: room[:len(body) + 1]),
    'one byte too many, a zero': handing_on(lambda body, room: body + b'\x00'),
    'an FF of the delimiter too': handing_on(lambda body, room: body + b'\xff'),
    'the whole room': handing_on(lambda body, room: room),
    'the front of the room': handing_on(lambda body, room: room[:31]),
    'the front of a long body': handing_on(lambda body, room: body[:31]),
    'the end of a long body': handing_on(lambda body, room: body[-31:]),
    'nothing': handing_on(lambda body, room: b''),
    'inserted FEs too': handing_on(lambda body, room: stuffed(body)),
    'no FFs': handing_on(lambda body, room: body.replace(b'\xff', b'')),
    'frames too': handing_on(numbers=(0, 4)),
    'refusal 1 too': handing_on(numbers=(1, 4)),
    'refusal 2 too': handing_on(numbers=(2, 4)),
    'refusal 3 too': handing_on(numbers=(3, 4)),
    'refusal 1 alone': handing_on(numbers=(1,)),
    'counts exchanged': handing_on(counts=lambda event: (event.count, event.wire)),
    'wire count twice': handing_on(counts=lambda event: (event.wire, event.wire)),
    'wire count from 0': handing_on(counts=lambda event: (event.wire - 1, event.count)),
    'the check not counted': handing_on(counts=lambda event: (event.wire, event.count - 1)),
    'nothing kept any more': handing_on(counts=lambda event: (event.wire, 0)),
    'wire count in eight bits': handing_on(counts=lambda event: (event.wire % 256, event.count)),
    'wire count anew behind each': changed(from_the_last_event),
    'the first alone': changed(lambda wire, heard, count: (heard[:1], min(count, 1))),
    'the last alone': changed(lambda wire, heard, count: (heard[-1:], min(count, 1))),
    'all events counted': changed(lambda wire, heard, count: (heard, len(list(hear(wire))))),
    'long ones left out': changed(lambda wire, heard, count: (
        tuple(told for told in heard if told[1] < 32), sum(told[1] < 32 for told in heard))),
    'what has no bit left out': changed(lambda wire, heard, count: (
        tuple(told for told in heard if told[2] != NONE), sum(told[2] != NONE for told in heard))),
    'a body left open too': changed(open_at_the_end),
}


def test_right_hearer(expect):
    expect('a right program', caught('bad_bits_heard', right_hearer), False)
    for name, wire in named_captures():
        expect('events of ' + name, [event for event, *_ in heard_with_room(wire)], list(hear(wire)))


def test_hearers(expect):
    """Each of them is caught by some case."""
    for what, program in HEARERS.items():
        expect(what, caught('bad_bits_heard', program), True)


def test_finders_heard(expect):
    """What a finder misreads of bodies that can fail on a line is caught there too."""
    for what in ('counted from the first bit', 'low bit first inside a byte', 'place eight too high',
                 'a power past the bits told', 'none told as place 0', '32 bytes let through', '31 bytes not served',
                 'no bit that gives FE or FF', 'no bit that gives 00 and under six'):
        expect('heard: ' + what, caught('bad_bits_heard', handing_on(find=FINDERS[what])), True)


TESTS = (test_right_finder, test_finders, test_one_power_wrong, test_right_hearer, test_hearers, test_finders_heard)
