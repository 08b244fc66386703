"""The numbers of the paper's list "What the answers mean", and those of 02 requests 5, 6, 7 and 9.

Every answer of the model starts with one of these numbers. A reader that
refuses answers the number and nothing else; a writer that refuses answers
the number and length 0: "A refused write answers length 0 beside its number".
"""

ACCEPTED = 0         # not in the paper's list: nothing was refused
BODY_TOO_SHORT = 1   # body ended with under 3 bytes, or first byte 00 and under 6
BODY_TOO_LONG = 2    # 256th body byte (reading); body would pass 255 (writing)
STRAY_BYTE = 3       # Held, then neither FE nor FF
CHECK_WRONG = 4      # check not 0
ADDRESS_WRONG = 5    # 02 request 1: a short address outside 01 to FD (01 said 9F), or a serial too large
CODE_UNKNOWN = 6     # code not in the table for that role
LENGTH_WRONG = 7     # data length wrong for the code
FIELD_WRONG = 8      # a field outside its values; 02 request 4: also family 002 with bit 6 set
ROOM_SHORT = 9       # lent room shorter than needed
LOG_LEFT_OVER = 10   # log bytes left over, 1 to 19
RECORD_WRONG = 11    # log record breaks a rule; 02 request 4: also one of byte 17
HEADER_WRONG = 20    # 02 request 5: "header wrong or under 3 bytes"
BYTES_MISSING = 21   # 02 request 5: "fewer bytes than length and check need"
PARCEL_CHECK_WRONG = 22  # 02 request 5: "check wrong"
COUNT_FULL = 23      # 02 request 6: "when a count would pass 65,535"
BRIDGE_OVERLOADED = 24  # 02 request 7: "overload, after 8, instead of a value"
BODY_NOT_SERVED = 25  # 02 request 9: "body empty or over 31 bytes"
CHECK_RIGHT = 26     # 02 request 9: "check already right"
SUM_TOO_FAR = 31     # 02 request 6: "a lent cell whose sum, sign aside, is beyond its count times 9,999,990,000,000"

ALL = (BODY_TOO_SHORT, BODY_TOO_LONG, STRAY_BYTE, CHECK_WRONG, ADDRESS_WRONG, CODE_UNKNOWN,
       LENGTH_WRONG, FIELD_WRONG, ROOM_SHORT, LOG_LEFT_OVER, RECORD_WRONG, HEADER_WRONG, BYTES_MISSING,
       PARCEL_CHECK_WRONG, COUNT_FULL, BRIDGE_OVERLOADED, BODY_NOT_SERVED, CHECK_RIGHT, SUM_TOO_FAR)
LINE_REFUSALS = range(1, 9)  # "Kind 3 is a refusal met on the line: status 1 to 8"


def refused(number):
    """A reader's refusal: number only."""
    return (number,)


def refused_write(number):
    """A writer's refusal: number and length 0."""
    return (number, 0)


def lend(wanted, room):
    """Put `wanted` into the lent `room` (a bytearray), judging 9.

    "A refused write ... leaves every lent byte as it stood; an accepted one
    changes only its own length of bytes." Room equal to the need is enough.
    """
    if len(room) < len(wanted):
        return refused_write(ROOM_SHORT)
    for place, byte in enumerate(wanted):
        room[place] = byte
    return (ACCEPTED, len(wanted))
