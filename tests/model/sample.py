"""Three small wires of a quay, for samples/: what a clerk can list first.

Good frames of several kinds, damage, silence, and a join in the middle of a
frame. Every byte is said here; nothing is random. Each wire has the family that
it is listed as: no byte of it tells the family.
"""

from families import OF_000, OF_001
from frame import body_of, frame_of
from listing import FAMILY_NOT_SAID

LANE_1 = ('short', 1)
LANE_2 = ('short', 2)
RAMP = ('serial', 70_501)  # a terminal that was never given a short address
NORTH = ('short', 0xA4)    # the older bridges of 02 request 1, terminals of documents 000 and 001
SOUTH = ('short', 0xF0)
HALL = ('short', 11)       # terminals of document 001, each with two platforms
SHED = ('short', 12)
SILENCE = bytes([0xFF]) * 24


def weighed(address, code, number, status):
    """A weight reply: six digits packed two to a byte, the low byte first."""
    pairs = bytes(int(str(number).zfill(6)[place:place + 2], 16) for place in (4, 2, 0))
    return frame_of(body_of(address, code, pairs + bytes([status])))


def damaged(frame, place, mask):
    wire = bytearray(frame)
    wire[place] ^= mask
    return bytes(wire)


def morning():
    """The wire from the first byte that was heard."""
    lorry = weighed(LANE_1, 0xC3, 18_420, 0x10)
    return b''.join((
        lorry[5:],                                          # joined late: no frame, and no refusal
        weighed(LANE_1, 0xC3, 18_460, 0x00),                # still rolling
        weighed(LANE_1, 0xC3, 18_440, 0x10),
        weighed(LANE_1, 0xC2, 4_280, 0x10),                 # its freight; 002 has no net mode of weighing
        SILENCE,
        weighed(LANE_2, 0xC3, 12_345, 0x11),                # one digit behind the point
        damaged(weighed(LANE_2, 0xC3, 40_960, 0x10), 4, 8),  # the ramp motor starts: a wrong check
        damaged(weighed(LANE_2, 0xC3, 40_960, 0x10), 5, 1),
        weighed(LANE_2, 0xC3, 40_960, 0x18),                # overloaded: hyphens in place of its digits
        frame_of(body_of(RAMP, 0xA1, b'\x65\x13\x01')),     # a serial number
        frame_of(body_of(RAMP, 0xC4, b'\x0f\x00\x00\x80')),  # the inputs
        weighed(RAMP, 0xC2, 0, 0x90),                       # minus zero, settled: a weight of nothing that was heard
        frame_of(body_of(LANE_1, 0xC3, b'')),               # the poll itself, echoed
        bytes([0xFF, 0x01, 0xFF, 0xFF]),                    # a body of one byte
        bytes([0xFF, 0xC3, 0x01, 0xFF, 0x42]),              # a byte that is neither FE nor FF behind an FF
        frame_of(body_of(LANE_2, 0xEE, b'\x05')),           # the terminal says that it could not
        weighed(LANE_1, 0xC3, 9_980, 0x10),
        weighed(LANE_1, 0xC3, 9_980, 0x10)[:6],             # the capture stops inside a frame
    ))


def older():
    """A wire of two older bridges, from the first byte that was heard."""
    serial = frame_of(body_of(SOUTH, 0xA1, b'\xff\x30\x00'))
    coil = weighed(SOUTH, 0xC3, 8_150, 0x10)
    return b''.join((
        serial[3:],                                         # joined at an FF with its FE: no frame, and no refusal
        weighed(NORTH, 0xC3, 31_960, 0x00),                 # still rolling
        weighed(NORTH, 0xC3, 31_980, 0x10),
        weighed(NORTH, 0xC2, 17_220, 0x30),                 # its freight, in net mode
        weighed(SOUTH, 0xC3, 81_495, 0x11),                 # one digit behind the point
        weighed(SOUTH, 0xC2, 45_815, 0x11),                 # the check is FF: it has an FE behind it
        SILENCE,
        serial,                                             # a serial number with an FF in it
        damaged(serial, 4, 0x40),                           # its FE is hit: neither FE nor FF behind an FF
        damaged(coil, 1, 0x0E),                             # F0 is heard as FE: no body, and no refusal
        damaged(coil, 1, 0x0F),                             # F0 is heard as FF: a body behind it, a wrong check
        damaged(coil, 4, 0x08),                             # a digit is hit: a wrong check
        coil,
        weighed(NORTH, 0xC2, 0, 0x90),                      # minus zero, settled
        frame_of(body_of(SOUTH, 0xC6, b'\x20\x05READY')),   # what its display shows
        frame_of(body_of(NORTH, 0xC3, b'')),                # the poll itself, echoed
        bytes([0xFF, 0xA4, 0xC3, 0xFF, 0xFF]),              # a body of two bytes
        frame_of(body_of(NORTH, 0xEE, b'\x05')),            # the terminal says that it could not
        weighed(SOUTH, 0xC3, 60_000, 0x18),                 # overloaded: the 60 tonnes that are no weight
        weighed(NORTH, 0xC3, 14_760, 0x10),
        weighed(SOUTH, 0xC3, 14_760, 0x10)[:6],             # the capture stops inside a frame
    ))


def platforms():
    """A wire of terminals with two platforms, from the first byte that was heard."""
    trailer = weighed(HALL, 0xC3, 22_380, 0x30)
    return b''.join((
        trailer[5:],                                        # joined late: no frame, and no refusal
        weighed(HALL, 0xC3, 9_740, 0x10),                   # a lorry, on platform 0
        weighed(HALL, 0xC3, 22_360, 0x20),                  # its trailer, on platform 1, still rolling
        damaged(trailer, 6, 0x20),                          # its platform is hit, and would read as 0: a wrong check
        trailer,
        weighed(SHED, 0xC3, 31_505, 0x11),                  # one digit behind the point
        weighed(SHED, 0xC2, 18_220, 0x71),                  # bit 6: an event, as the driver has typed a code
        frame_of(body_of(SHED, 0xC7, b'\x02004711')),       # the code
        weighed(HALL, 0xC3, 0, 0x10),                       # driven off: a weight of nothing that was heard
        weighed(HALL, 0xC3, 0, 0x30)[:6],                   # the capture stops inside a frame
    ))


SAMPLES = (
    ('morning', morning, FAMILY_NOT_SAID),
    ('older', older, OF_000),  # taken as one line of 000: 02 request 1 has bridges of 000 and 001, on two quays
    ('platforms', platforms, OF_001),
)
