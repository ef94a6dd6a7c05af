"""The bytes of a driver: what it sends, and how it reads what it is answered (see driver.py).

PackStream 1 and the messages of Bolt 4.4, from their public texts, without second/values.py: the member's side reads and writes with that
one, so the two are tried against each other in each script.
"""
import base64
import binascii

LONGEST_MESSAGE, LARGEST_SIZE, DEEPEST = 1_048_576, 16_777_216, 32
SENT = {"HELLO": 0x01, "GOODBYE": 0x02, "RUN": 0x10, "BEGIN": 0x11, "COMMIT": 0x12, "PULL": 0x3F, "ROUTE": 0x66}
HEARD = {0x70: ("SUCCESS", dict), 0x71: ("RECORD", list), 0x7E: ("IGNORED", None), 0x7F: ("FAILURE", dict)}


class BadMessage(Exception):
    """What came is no message of a server."""


class Struct:
    """A node: the three fields of the one structure that there is."""

    def __init__(self, fields):
        self.fields = fields

    def __eq__(self, other):
        return isinstance(other, Struct) and self.fields == other.fields


# What is sent.

def whole(number):
    """The shortest spelling of an integer."""
    if -16 <= number <= 127:
        return bytes([number % 256])
    for marker, size in [(0xC8, 1), (0xC9, 2), (0xCA, 4), (0xCB, 8)]:
        if -(1 << 8 * size - 1) <= number < 1 << 8 * size - 1:
            return bytes([marker]) + (number % 256 ** size).to_bytes(size, "big")
    raise OverflowError(number)


def head(count, tiny, marker):
    """The marker of so many bytes or elements."""
    if tiny is not None and count < 16:
        return bytes([tiny + count])
    for size in (1, 2, 4):
        if count >> 8 * size == 0:
            return bytes([marker + size // 2]) + count.to_bytes(size, "big")
    raise OverflowError(count)


def pack(value):
    if value is None:
        return b"\xC0"
    if isinstance(value, bool):
        return b"\xC3" if value else b"\xC2"
    if isinstance(value, int):
        return whole(value)
    if isinstance(value, str):
        spelled = value.encode()
        return head(len(spelled), 0x80, 0xD0) + spelled
    if isinstance(value, bytes):
        return head(len(value), None, 0xCC) + value
    if isinstance(value, Struct):
        return b"\xB3N" + b"".join(pack(field) for field in value.fields)
    if isinstance(value, (list, tuple)):
        return head(len(value), 0x90, 0xD4) + b"".join(pack(element) for element in value)
    return head(len(value), 0xA0, 0xD8) + b"".join(pack(part) for pair in value.items() for part in pair)


def message(name, *fields):
    """A request in its chunks."""
    left, out = bytes([0xB0 + len(fields), SENT[name]]) + b"".join(pack(field) for field in fields), b""
    while left:
        piece, left = left[:0xFFFF], left[0xFFFF:]
        out += len(piece).to_bytes(2, "big") + piece
    return out + b"\x00\x00"


# What is heard.

def sized(data, at, size):
    """A size of so many bytes at a place, and the place behind it."""
    if at + size > len(data):
        raise BadMessage("short")
    count = int.from_bytes(data[at:at + size], "big")
    if count > LARGEST_SIZE:
        raise BadMessage("too long")
    return count, at + size


def unpack(data, at, around=0):
    """The value at a place, which stands inside so many containers, and the place behind it."""
    if at >= len(data):
        raise BadMessage("short")
    marker, at = data[at], at + 1
    high, low = marker >> 4, marker & 15
    if high < 8 or high == 15:
        return marker - (256 if high == 15 else 0), at
    if marker in b"\xC0\xC2\xC3":
        return (None, None, False, True)[low], at
    if 0xC8 <= marker <= 0xCB:
        end = at + (1 << low - 8)
        if end > len(data):
            raise BadMessage("short")
        return int.from_bytes(data[at:end], "big", signed=True), end
    if 0xCC <= marker <= 0xCE:
        count, at = sized(data, at, 1 << low - 12)
        return raw(data, at, count), at + count
    if marker == 0xB3:
        return node(data, at, around)
    kind = {8: "text", 9: "list", 10: "dictionary"}.get(high)
    if high == 13 and low in (0, 1, 2, 4, 5, 6, 8, 9, 10):
        kind = ("text", "list", "dictionary")[low // 4]
    if kind is None:
        raise BadMessage("marker")
    if kind != "text" and around >= DEEPEST:
        raise BadMessage("too deep")
    count, at = sized(data, at, 1 << low % 4) if high == 13 else (low, at)
    if kind == "text":
        try:
            return raw(data, at, count).decode("utf-8", "strict"), at + count
        except UnicodeDecodeError:
            raise BadMessage("text") from None
    return (elements if kind == "list" else pairs)(data, at, count, around + 1)


def raw(data, at, count):
    if at + count > len(data):
        raise BadMessage("short")
    return bytes(data[at:at + count])


def elements(data, at, count, around):
    found = []
    for _ in range(count):
        value, at = unpack(data, at, around)
        found.append(value)
    return found, at


def pairs(data, at, count, around):
    found = {}
    for _ in range(count):
        key, at = unpack(data, at, around)
        if not isinstance(key, str) or key in found:
            raise BadMessage("key")
        found[key], at = unpack(data, at, around)
    return found, at


def node(data, at, around):
    if data[at:at + 1] != b"N" or around > DEEPEST - 2:  # its labels are a list inside it
        raise BadMessage("structure")
    fields, at = elements(data, at + 1, 3, around + 1)
    number, labels, props = fields
    if isinstance(number, bool) or not isinstance(number, int) or not isinstance(labels, list) or not isinstance(props, dict):
        raise BadMessage("node")
    if not all(isinstance(label, str) for label in labels):
        raise BadMessage("label")
    return Struct(fields), at


def depth(value):
    """How many containers stand one inside the other."""
    if isinstance(value, Struct):
        value = value.fields
    if isinstance(value, dict):
        value = list(value.values())
    return 1 + max((depth(inner) for inner in value), default=0) if isinstance(value, list) else 0


class Stream:
    """What has come down on a link: the handshake's answer and then messages, which are numbered from 0."""

    def __init__(self):
        self.held, self.number, self.shaken, self.parts = bytearray(), 0, b"", bytearray()

    def add(self, piece):
        self.held += piece

    def taken(self, count):
        """The first bytes, or None."""
        if len(self.held) < count:
            return None
        self.shaken = bytes(self.held[:count])
        del self.held[:count]
        return self.shaken

    def message(self):
        """The next message's name and fields, or None."""
        while len(self.held) >= 2:
            size = int.from_bytes(self.held[:2], "big")
            if len(self.parts) + size > LONGEST_MESSAGE:
                raise BadMessage("too long")
            if len(self.held) < 2 + size:
                return None
            self.parts += self.held[2:2 + size]
            del self.held[:2 + size]
            if size == 0 and self.parts:
                said, self.parts = bytes(self.parts), bytearray()
                self.number += 1
                return heard(said)
        return None


def heard(said):
    if said[0] >> 4 != 0xB or len(said) < 2 or said[1] not in HEARD:
        raise BadMessage("marker or tag")
    name, kind = HEARD[said[1]]
    if said[0] & 15 != (0 if kind is None else 1):
        raise BadMessage("fields")
    fields, at = elements(said, 2, said[0] & 15, 0)
    if kind and not isinstance(fields[0], kind) or at != len(said):
        raise BadMessage("kind or rest")
    return name, fields


def place_in(text):
    """The place of a bookmark of this project's form, of whatever cluster, or None."""
    try:
        spelled = base64.b64decode(text[4:], validate=True)
    except (binascii.Error, ValueError):
        return None
    right = text[:4] == "ncc:" and len(text) == 28 and len(spelled) == 18 and spelled[0] == 1 and spelled[-1] == 0
    return int.from_bytes(spelled[9:17], "big") if right else None
