"""02 request 9, "Which bit went bad", and its open point 11.6.

The rule flips each bit and asks the check. Here it is held to two other ways: to the
powers of x, "each the previous one doubled and folded"; and to a division of
polynomials, where a body is one polynomial and its last bit the lowest.
"""

from bad_bit import failed_bodies, find, find_heard, flipped, mending_places
from captures import PAPER, named_captures
from check_byte import register_of
from frame import frame_of, judge_heard
from line import hear
from random_bytes import RandomBytes

body_of = bytes.fromhex
NOT_SERVED, ALREADY_RIGHT, NONE = (25,), (26,), (0, 0)
POLYNOMIAL = 0x169
# The powers of x that 31 bytes have no bit for, from the 248th on, worked out by hand: 1 is the 255th,
# and each is half of the next, which is folded first where it is odd.
PAST_31_BYTES = (0x4E, 0x9C, 0x51, 0xA2, 0x2D, 0x5A, 0xB4)


def powers_of_x():
    """x^0 to x^254 under the polynomial: "each the previous one doubled and folded"."""
    powers = [1]
    while len(powers) < 255:
        doubled = powers[-1] * 2
        powers.append(doubled ^ POLYNOMIAL if doubled > 0xFF else doubled)
    return powers


POWERS = powers_of_x()


def rest(number):
    """What a polynomial leaves when it is divided by 169h."""
    while number > 0xFF:
        number ^= POLYNOMIAL << number.bit_length() - 9
    return number


def rest_of(body):
    return rest(int.from_bytes(body, 'big'))


def right_body(source, length):
    """Random bytes whose last one makes the rest 0."""
    ahead = source.bytes(length - 1) + b'\x00'
    return ahead[:-1] + bytes([rest_of(ahead)])


def turned(body, *places):
    """The body as one number, with bits of it turned over."""
    number = int.from_bytes(body, 'big')
    for place in places:
        number ^= 1 << place
    return number.to_bytes(len(body), 'big')


def told(place):
    return (0, 1, place)


def by_powers(body):
    """The finding of a wrong body from the place of its rest among the powers."""
    place = POWERS.index(rest_of(body))
    return told(place) if place < 8 * len(body) else NONE


def test_powers(expect):
    """255 different powers, after which 1 comes again; each the rest of a lone bit."""
    expect('powers', (len(set(POWERS)), rest(POWERS[-1] * 2)), (255, 1))
    expect('powers', (POWERS[:8], POWERS[8], POWERS[9]), ([1, 2, 4, 8, 16, 32, 64, 128], 0x69, 0xD2))
    expect('powers', tuple(POWERS[248:]), PAST_31_BYTES)
    for place, power in enumerate(POWERS):
        expect('powers', (rest(1 << place), register_of((1 << place).to_bytes(32, 'big'))), (power, power))


def test_by_hand(expect):
    """Places counted from the last bit as 0, across bytes."""
    for text, answer in (
            ('01c3e3', ALREADY_RIGHT), ('01c3e2', told(0)), ('01c3e1', told(1)), ('01c363', told(7)),  # E1, E6
            ('01c2e3', told(8)), ('0143e3', told(15)), ('00c3e3', told(16)), ('81c3e3', told(23)),
            ('01c351020001de', ALREADY_RIGHT), ('01c351020001df', told(0)), ('01c351020000de', told(8)),
            ('01c350020001de', told(32)), ('41c351020001de', told(54)), ('81c351020001de', told(55)),  # E3
            ('01c3e0', told(16)), ('01c3e6', NONE),  # two bad bits: a third one is told, or none
            ('01a1ff000039', ALREADY_RIGHT), ('01a1fe000039', told(24)), ('01a17f000039', told(31))):  # E5
        expect('by hand', find(body_of(text)), answer)


def test_order(expect):
    # 11.6 25 before 26: the empty body and zeros of any length pass their check
    for length in (0, 32, 33, 64, 255, 256, 257, 287, 4096):
        expect('11.6', (register_of(bytes(length)), find(bytes(length))), (0, NOT_SERVED))
    for length in (32, 33, 255, 256, 287, 288):
        expect('11.6', find(bytes(length - 1) + b'\x01'), NOT_SERVED)
    for length in range(1, 32):
        expect('11.6', find(bytes(length)), ALREADY_RIGHT)
        expect('11.6', find(bytes(length - 1) + b'\x01'), told(0))


def test_short_bodies(expect):
    # 11.6 "a body of one or two bytes is served (no refusal 1)"
    wanted = {0: ALREADY_RIGHT, **{1 << bit: told(bit) for bit in range(8)}}
    for byte in range(256):
        expect('11.6', find(bytes([byte])), wanted.get(byte, NONE))
    for text, answer in (('03', NONE), ('69', NONE), ('0000', ALREADY_RIGHT), ('0169', ALREADY_RIGHT),
                         ('0100', told(8)), ('0069', told(8)), ('0168', told(0)), ('01e9', told(7)),
                         ('8169', told(15)), ('0003', NONE), ('016a', NONE)):
        expect('11.6', find(body_of(text)), answer)
    several = [number.to_bytes(2, 'big') for number in range(0, 65_536, 5)]
    expect('bodies of two bytes', {rest_of(body) for body in several}, set(range(256)))
    differing = [body.hex() for body in several if rest_of(body) and find(body) != by_powers(body)]
    expect('bodies of two bytes', differing, [])


def test_only_the_check_is_asked(expect):
    # 11.6 "told even if flipping it gives an illegal address or a first byte FF"
    source = RandomBytes(101)
    for first in (0x00, 0xFE, 0xFF):
        for length in (2, 3, 4, 5, 6, 7, 31):
            ahead = bytes([first]) + source.bytes(length - 2)
            body = ahead + bytes([rest_of(ahead + b'\x00')])
            expect('11.6', judge_heard(body), 1 if length < 3 or (first == 0 and length < 6) else 5 if first else 0)
            for bit in range(8):
                expect('11.6', find(turned(body, 8 * length - 8 + bit)), told(8 * length - 8 + bit))


def test_none_of_31_bytes(expect):
    # 11.6 "31 bytes are 248 bits, so for 7 of the 255 wrong registers there is no bit"
    source = RandomBytes(103)
    none = set()
    for register in range(1, 256):
        ahead = source.bytes(30)
        body = ahead + bytes([rest_of(ahead + b'\x00') ^ register])
        expect('11.6', find(body), NONE if register in PAST_31_BYTES else told(POWERS.index(register)))
        none.update([register] if find(body) == NONE else [])
    expect('11.6', (len(none), none), (7, set(PAST_31_BYTES)))


def test_at_most_one(expect):
    """"At most one can", up to 31 bytes, whatever the register. At 32 bytes the first
    and the last bit both would: so 25 is asked first."""
    for length in (1, 2, 3, 7, 16, 31):
        counts = [len(mending_places(bytes(length - 1) + bytes([register]))) for register in range(1, 256)]
        expect('at most one', (max(counts), counts.count(0)), (1, 255 - 8 * length))
    expect('two at 32 bytes', mending_places(bytes(31) + b'\x01'), [0, 255])
    expect('two at 32 bytes', rest_of(b'\x80' + bytes(30) + b'\x01'), 0)  # the example of 02 request 8


def test_two_ways(expect):
    """Random bodies of every served length, and right ones with some bits turned over."""
    source = RandomBytes(107)
    for length in range(1, 32):
        several = [source.bytes(length) for _ in range(6)]
        several += [turned(right_body(source, length), *(source.below(8 * length) for _ in range(count)))
                    for count in (1, 2, 3, 4)]
        for body in several:
            expect('powers and division', find(body), by_powers(body) if rest_of(body) else ALREADY_RIGHT)
            expect('check and division', register_of(body), rest_of(body))


def test_one_bad_bit(expect):
    """A right body with one bit turned over: that bit is told. Flipped, the body is
    the right one again."""
    source = RandomBytes(109)
    for length in range(1, 32):
        body = right_body(source, length)
        places = range(8 * length)
        if length not in (1, 2, 7, 31):
            places = {0, 7, 8 * length - 8, 8 * length - 1, *(source.below(8 * length) for _ in range(6))}
        for place in places:
            bad = turned(body, place)
            expect('one bad bit', (find(bad), flipped(bad, place)), (told(place), body))


def test_two_bad_bits(expect):
    """Of two bad bits neither is told: no bit is, or a third one, which makes the body
    pass and not right. x^16 is x + 1, and among 16 bits there is no third one."""
    source = RandomBytes(113)
    pairs = {length: [(low, high) for high in range(8 * length) for low in range(high)] for length in (1, 2, 7)}
    pairs[31] = [(0, 247), *((0, place) for place in range(1, 247, 9)), *((place, 247) for place in range(1, 247, 9))]
    kinds = set()
    for length, several in pairs.items():
        body = right_body(source, length)
        for low, high in several:
            bad = turned(body, low, high)
            third = POWERS.index(POWERS[low] ^ POWERS[high])
            wanted = told(third) if third < 8 * length else NONE
            expect('two bad bits', (find(bad), third in (low, high)), (wanted, False))
            kinds.add((length, wanted[1]))
    expect('two bad bits', kinds, {(1, 0), (2, 0), (7, 0), (7, 1), (31, 0), (31, 1)})


def test_handed_on(expect):
    """A refusal 4, its counts, and the finding of the bytes that were kept."""
    long_body = bytes([1]) + bytes(30)
    for text, heard in (
            ('', ()), ('ff01c3e3ffff', ()), ('ff01c3e2ffff', ((6, 3, told(0)),)),              # E1, E6
            ('ff01ffff', ()), ('ff01ff02', ()), ('ff0100ffff', ()),                            # E6, E7; two bytes are 1
            ('ff00c3e3ffff', ()), ('ff0001020304ffff', ()),                                    # 00 and under six is 1
            ('ff000000000001ffff', ((9, 6, told(0)),)),                                        # six are 4
            ('ff01c3e2ff', ()), ('ff01c3e2', ()), ('01c3e2ffff', ()),                          # not ended, or not begun
            ('ff01a1fffe000038ffff', ((10, 6, told(0)),)),                                     # E5: an FF is one byte
            ('ff01a17f000039ffff', ((9, 6, told(31)),)),                                       # its FF is hit
            ('ff01a1fffe00fffe39ffff', ((11, 6, by_powers(body_of('01a1ff00ff39'))),)),
            ('ff01c351020000deffff' 'ff01c3e2ffff', ((10, 7, told(8)), (16, 3, told(0)))),
            ('ff01c351020000deffff' '01c3e2ffff', ((10, 7, told(8)), (15, 3, told(0)))),       # one FF is shared
            ('ff01c3e2ffff' 'ff01c3e3ffff' 'ff01ffff' 'ff01c3e1ffff', ((6, 3, told(0)), (22, 3, told(1)))),
            (frame_of(turned(long_body, 0)).hex(), ((34, 31, by_powers(turned(long_body, 0))),)),
            (frame_of(long_body + b'\x00').hex(), ((35, 32, NOT_SERVED),)),
            (frame_of(b'\x01' + bytes(254)).hex(), ((258, 255, NOT_SERVED),)),
            (frame_of(b'\x01' + bytes(255)).hex(), ())):                                       # 2
        expect('handed on', find_heard(body_of(text)), heard)


def test_stays_refused(expect):
    """"the frame stays refused": the events of a wire are as before, and each refusal 4
    has its finding. Never 26; 25 exactly if the body has over 31 bytes."""
    for name, wire in named_captures():
        refused = [(event.wire, event.count) for event in hear(wire) if event.number == 4]
        expect('stays refused in ' + name, [counts for *counts, _ in find_heard(wire)], [list(of) for of in refused])
        for event, body in failed_bodies(wire):
            expect('body of ' + name, (len(body), rest_of(body) != 0), (event.count, True))
            expect('finding in ' + name, find(body), NOT_SERVED if len(body) > 31 else by_powers(body))


def test_over_the_wire(expect):
    """A bit turned over in a body, which is then written as a frame: it is told from
    the wire, wherever FFs come or go by it."""
    source = RandomBytes(127)
    bodies = [body_of(text)[1:-2].replace(b'\xff\xfe', b'\xff') for _, text in PAPER[:5]]
    bodies += [right_body(source, length) for length in (6, 15, 31)] + [b'\x01' + b'\xff' * 28 + b'\x00\x00']
    for body in bodies:
        body = body[:-1] + bytes([rest_of(body[:-1] + b'\x00')])
        for place in range(8 * len(body)):
            bad = turned(body, place)
            if judge_heard(bad) == 4 and bad[0] not in (0xFE, 0xFF):
                wire = frame_of(bad)
                expect('over the wire', find_heard(wire), ((len(wire), len(body), told(place)),))


TESTS = (test_powers, test_by_hand, test_order, test_short_bodies, test_only_the_check_is_asked, test_none_of_31_bytes,
         test_at_most_one, test_two_ways, test_one_bad_bit, test_two_bad_bits, test_handed_on, test_stays_refused,
         test_over_the_wire)
