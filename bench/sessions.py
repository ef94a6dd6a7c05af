"""What the measurements of sessions share: a client's bytes, and the input of ncc_bench's works `requests` and `serve`."""
from measure import pack

# Bolt 4.4 alone is proposed
HANDSHAKE = bytes.fromhex("6060B017 00000404 00000000 00000000 00000000")


def message(tag, *fields):
    """The chunk of a message, and the end behind it."""
    content = bytes([0xB0 + len(fields), tag]) + b"".join(map(pack, fields))
    return len(content).to_bytes(2, "big") + content + b"\0\0"


LOGIN = HANDSHAKE + message(0x01, {"user_agent": "bench/1", "scheme": "none"})
RUN = message(0x10, "RETURN 1", {}, {})
PULL = message(0x3F, {"n": -1})
BEGIN = message(0x11, {})
COMMIT = message(0x12)
STEP = RUN + PULL


def autocommit(count):
    """So many statements, each a transaction by itself."""
    return STEP * count


def transaction(steps):
    """One transaction of so many statements."""
    return BEGIN + STEP * steps + COMMIT


def given(requests, piece):
    """The input of a run: what logs in, the length of a piece, and the requests."""
    return len(LOGIN).to_bytes(4, "big") + LOGIN + piece.to_bytes(4, "big") + requests
