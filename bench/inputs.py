"""What the works are measured on, a megabyte each: wires for the reader and the listing, bodies for the messages, records for the log,
parcel messages, logs for the table, bodies that failed their check."""

SIZE = 1_000_000


def register_of(data: bytes, top: int = 128, fold: int = 0x69) -> int:
    """The register that bytes make of an empty one: what its top bit counts, and what is folded in where a 1 falls out of it."""
    register = 0
    for byte in data:
        for place in range(7, -1, -1):
            bit = byte >> place & 1
            register = register * 2 + bit if register < top else (register - top) * 2 + bit ^ fold
    return register


def body_of(front: bytes) -> bytes:
    return front + bytes([register_of(front + b"\0")])


def frame_of(front: bytes) -> bytes:
    return b"\xff" + body_of(front).replace(b"\xff", b"\xff\xfe") + b"\xff\xff"


def record_of(time: int, words: str) -> bytes:
    """A record's time, and the ten bytes behind it: kind, address, serial, status, three of weight, family."""
    return time.to_bytes(8, "little") + bytes.fromhex(words) + bytes(2)


def filled(piece: bytes) -> bytes:
    return piece * (SIZE // len(piece))


GROSS = bytes.fromhex("01C351020001")  # E3

WIRES = {
    "frames of 10": filled(frame_of(GROSS)),
    "frames of 257": filled(frame_of(b"\x01\xc3" + b"\x22" * 251)),
    "noise": b"\0" * SIZE,  # Seeking
    "delimiters": b"\xff" * SIZE,  # Delimited
    "long bodies": filled(b"\xff\x01" + b"\x22" * 254 + b"\xff\x02"),  # 255 kept bytes and refusal 3
    "stuffed bodies": filled(b"\xff\x01" + b"\xff\xfe" * 100 + b"\xff\x02"),
}

# each of 7 bytes: what five codes say, a serial for an address, and refusals 4 to 8
MIXED_BODIES = [
    body_of(GROSS),
    body_of(bytes.fromhex("02C29999999B")),
    body_of(bytes.fromhex("03C4FF0081A5")),
    body_of(bytes.fromhex("FDC510000080")),
    body_of(bytes.fromhex("05C61F024F4B")),
    body_of(bytes.fromhex("00651301BF20")),
    body_of(GROSS)[:-1] + b"\0",
    body_of(bytes.fromhex("FEC351020001")),
    body_of(bytes.fromhex("017751020001")),
    body_of(bytes.fromhex("01CC51020001")),
    body_of(bytes.fromhex("01C30A020001")),
    body_of(bytes.fromhex("01C351020041")),
]

BODIES = {"gross weights": filled(body_of(GROSS)), "mixed bodies": filled(b"".join(MIXED_BODIES))}


def turned_over(place: int, body: bytes) -> bytes:
    """A body with one bit turned over: the last bit has place 0."""
    return (int.from_bytes(body, "big") ^ 1 << place).to_bytes(len(body), "big")


def asked(bodies: list[bytes], piece: int = 32) -> bytes:
    """Bodies, each behind its length in a piece."""
    return filled(b"".join((bytes([len(body)]) + body).ljust(piece, b"\0") for body in bodies))


LONGEST_ASKED = body_of(b"\x01\xc3" + b"\x22" * 28)  # 31 bytes

# each of the bits of a body bad in turn; and two of them, for which no single bit would do
FAILED = {
    "weights, one bad bit": asked([turned_over(place, body_of(GROSS)) for place in range(56)]),
    "31 bytes, one bad bit": asked([turned_over(place, LONGEST_ASKED) for place in range(248)]),
    "31 bytes, no single bit": asked([b"\0" * 30 + b"\xb4"]),
}

WEIGHINGS = [record_of(1_754_000_000 + second, "01010000001060840103") for second in range(10)]

MIXED_RECORDS = [
    record_of(1_754_000_000, "01010000001060840103"),
    record_of(1_754_000_060, "02006513015080420002"),
    record_of(1_754_000_120, "03000000000400000000"),
    record_of(1_754_000_180, "01FE0000001060840100"),  # refusal 11: the address
    record_of(1_754_000_240, "0101000000106A840101"),  # refusal 11: a digit
    record_of(1_754_000_300, "01010000005060840103"),  # refusal 11: bit 6 in 002
]

RECORDS = {"weighings": filled(b"".join(WEIGHINGS)), "mixed records": filled(b"".join(MIXED_RECORDS))}


def parcel_of(words: str, piece: int = 14) -> bytes:
    """A message of the parcel scales, with zeros behind it up to the length of a piece: they are not looked at."""
    body = bytes.fromhex(words)
    sent = bytes.fromhex("F855CE") + len(body).to_bytes(2, "little") + body + register_of(body, 0x8000, 0x1021).to_bytes(2, "little")
    return sent.ljust(piece, b"\0")


PARCEL_WEIGHT = parcel_of("10393000000101")  # 12,345 divisions of a gram, stable

# each of the seven, and refusals 20, 21, 22, 6, 7, 8
MIXED_PARCELS = [
    PARCEL_WEIGHT,
    parcel_of("A0"),
    parcel_of("A3FBFFFFFF"),
    parcel_of("90"),
    parcel_of("10FBFFFFFF0200"),
    parcel_of("12"),
    parcel_of("5078563412"),
    parcel_of("F0"),
    b"\0" + PARCEL_WEIGHT[1:],
    PARCEL_WEIGHT[:3] + b"\x08" + PARCEL_WEIGHT[4:],
    PARCEL_WEIGHT[:-1] + b"\0",
    parcel_of("A1"),
    parcel_of("A000"),
    parcel_of("10393000000501"),
]

PARCELS = {"parcel weights": filled(PARCEL_WEIGHT), "mixed parcels": filled(b"".join(MIXED_PARCELS))}

# a record every 20 or 21 minutes: gross, minus, net, unsettled, overloaded, and refusals met on the line
LOGGED = ["01010000001060840103", "01010000009150020003", "02006513015080420002", "01010000000160840103", "01010000001960840103", "03000000000400000000"]

LOGS = {
    "log of gross weights": b"".join(record_of(1_200 * count, LOGGED[0]) for count in range(SIZE // 20)),
    "mixed log": b"".join(record_of(1_260 * count, LOGGED[count % len(LOGGED)]) for count in range(SIZE // 20)),
}
