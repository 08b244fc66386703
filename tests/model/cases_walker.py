"""Cases of the capture walker: one step from a place, and a walk to the end.

A step is lent marked bytes, so that a byte changed, moved or cleared is seen.
"""

from addresses import HIGH
from captures import DAMAGES, PAPER, body_with_check_ff, capture, named_captures, weight_from
from cases_frame import marked_room
from frame import LONGEST_BODY, body_of, frame_of
from random_bytes import RandomBytes
from walker import Walker, lent_bytes, step, walk

GROSS, NET, REPLY_GROSS, REPLY_NET, SERIAL, WRONG_CHECK, SHORT_BODY, STRAY_BYTE = (
    bytes.fromhex(text) for _, text in PAPER)
ONE = ('short', 1)
LAST_PLACE = 2 ** 64 - 1
# Past every block here. Cut to 16 or 32 bits, most of them are places inside one.
FAR = (65_536, 65_537, 2 ** 32, 2 ** 32 + 1, 2 ** 53, 2 ** 63, 2 ** 63 + 2, LAST_PLACE - 1, LAST_PLACE)
MARKED = marked_room(LONGEST_BODY)
OTHER_LENT = (b'', marked_room(2), marked_room(LONGEST_BODY - 1), b'\xff' * LONGEST_BODY)
LONGEST_TEXT = 4096  # the lent bytes and the block of a step, or the block of a walk
WALKED_ANYWHERE = tuple(name for name, _ in DAMAGES) + ('noise', 'mixed', 'full')


def step_case(lent, block, place):
    """One step: what was met, the place after it, all 255 lent bytes after it."""
    left = lent_bytes(lent)
    event, after = step(Walker(block, place), left)
    return ('walker_step', (lent, block, place), (event, after.place, bytes(left)))


def walk_case(block, place):
    """Steps until "end", and one step more."""
    lent = lent_bytes()
    steps, ended = walk(Walker(block, place), lent)
    event, after = step(ended, lent)
    return ('walk', (block, place), (tuple(steps), len(steps), ended.place, event, after.place))


def both_cases(block, places):
    for place in places:
        yield step_case(MARKED, block, place)
        yield walk_case(block, place)


def frames_heard(source):
    """Frames alone, in rows, and with FFs in the body."""
    yield REPLY_GROSS + REPLY_NET
    yield GROSS + NET[1:]                                 # a closing FF that also opens
    yield GROSS + b'\xff\xff' + NET + b'\xff'             # more FFs than are needed
    yield frame_of(body_of(ONE, 0xEE, b'\xff\xfe\xfe'))   # FF FE FE FE
    yield frame_of(body_of(ONE, 0xEE, b'\xff\xff'))       # FF FE FF FE
    yield frame_of(body_of(('serial', 0xFFFFFF), 0xA1, b'')) + GROSS
    yield frame_of(body_with_check_ff(source, 4)) + GROSS
    yield b''.join(frame_of(weight_from(first)) for first in HIGH)


def refusals_heard():
    """Refusals 1, 3 and 4 with a frame behind them, and bytes that start no body."""
    yield SHORT_BODY + GROSS[1:]
    yield WRONG_CHECK + GROSS[1:]
    yield STRAY_BYTE + GROSS
    yield b'\xff\x01' + GROSS                             # refusal 3; a frame from behind the FF it held
    yield GROSS[:5] + NET[1:]                             # the same behind a first closing FF
    yield REPLY_GROSS + REPLY_NET + WRONG_CHECK           # the paper's listing
    yield b'\xff\xfe' + GROSS[1:] + NET                   # FE behind FF
    yield GROSS[1:] + NET                                 # joined late
    yield b'\xfe' + GROSS


def stopped_captures():
    """Captures that stop inside a body, or without one."""
    yield GROSS + GROSS[:3]                               # Inside
    yield GROSS + GROSS[:5]                               # Held
    yield SERIAL[:5]                                      # Inside, a stuffed FF kept
    yield SERIAL[:4]                                      # Held, the FF not kept
    yield SERIAL[:9]                                      # Held, behind a stuffed FF
    yield GROSS + b'\xff'
    yield GROSS + b'\xff\xfe'
    for silent in (b'\x01', b'\xfe', b'\xff', b'\xff\xff\xff', b'\x01\x02\xfe', b'\xff\xfe\xff\xfe'):
        yield silent


def small_captures():
    """Wires short enough to be walked from every place."""
    source = RandomBytes(43)
    yield from (bytes.fromhex(text) for _, text in PAPER)
    yield from frames_heard(source)
    yield from refusals_heard()
    yield from stopped_captures()


def every_place_cases():
    """Every place, the end, one past it, and the last there is."""
    for block in small_captures():
        yield from both_cases(block, (*range(len(block) + 2), LAST_PLACE))


def long_captures():
    """Bodies of 255 bytes and of one more, E8 among them; refusal 3 with 255 kept;
    and stops with 255 kept, Inside and Held."""
    named = dict(named_captures())
    for length in (255, 256):
        for filling in ('zeros', 'ff', 'check ff'):
            yield named['body of %d, %s' % (length, filling)]
    yield named['body of 256, stray byte']
    yield named['body of 255, zeros'][:256]
    yield named['body of 255, zeros'][:257]
    yield named['body of 256, ff'][:511]


def chosen_places(block):
    """The front, the middle, where the long body ends, and the block's end."""
    middle, end = len(block) // 2, len(block)
    return (0, 1, 2, middle, middle + 1, *range(end - 14, end - 8), end, end + 1)


def long_cases():
    for block in long_captures():
        yield from both_cases(block, chosen_places(block))
        yield step_case(b'\xff' * LONGEST_BODY, block, 0)


def lent_cases():
    """Other lent bytes: none but zeros, few, all but one, all FF."""
    for block in (REPLY_GROSS, SERIAL, SHORT_BODY, STRAY_BYTE, WRONG_CHECK, b'\xff\xfe' + GROSS[1:],
                  SERIAL[:5], SERIAL[:4], b'\x01\x02\xfe'):
        for lent in OTHER_LENT:
            for place in (0, 1, len(block), len(block) + 1):
                yield step_case(lent, block, place)


def far_cases():
    yield from both_cases(REPLY_GROSS + NET, FAR)


def empty_cases():
    yield from both_cases(b'', (0, 1, 2, *FAR))
    for lent in OTHER_LENT:
        for place in (0, 1, LAST_PLACE):
            yield step_case(lent, b'', place)


def named_cases(source):
    """Every named capture from place 0; the damaged ones from some place too."""
    for name, block in named_captures():
        yield walk_case(block, 0)
        if name.split()[0] in WALKED_ANYWHERE:
            yield walk_case(block, source.below(len(block) + 1))
            yield step_case(source.bytes(source.below(LONGEST_BODY + 1)), block, source.below(len(block) + 1))


def longest_cases(source):
    """Texts as long as a text may be."""
    block = capture(3000, LONGEST_TEXT)
    for place in (0, source.below(len(block)), len(block) - 1, len(block), len(block) + 1):
        yield walk_case(block, place)
    block = block[:LONGEST_TEXT - LONGEST_BODY]
    for place in (0, source.below(len(block)), len(block) - 1, len(block), len(block) + 1):
        yield step_case(MARKED, block, place)


def cases():
    source = RandomBytes(47)
    for group in (every_place_cases, long_cases, lent_cases, far_cases, empty_cases):
        yield from group()
    yield from named_cases(source)
    yield from longest_cases(source)
