"""PackStream 1, the messages of Bolt 4.4 and the texts of bookmarks, read a second time (see reference.py)."""
import base64
import re
import struct
from collections import namedtuple

MESSAGE = 1_048_576


# PackStream: None, bool, int, bytes, str, list and dict stand for themselves, and Node for a node.

Node = namedtuple("Node", "id labels props")
DEPTH, SIZE = 32, 16_777_216


class Malformed(Exception):
    """Bytes that are no message."""


def sized(size, small, wide):
    """The marker of a size: in its low half, or with 1, 2 or 4 bytes behind it."""
    if small is not None and size < 16:
        return bytes([small | size])
    for step, form in enumerate([">B", ">H", ">I"]):
        if size < 256 ** struct.calcsize(form):
            return bytes([wide + step]) + struct.pack(form, size)
    raise OverflowError


def encode(value):
    """The shortest spelling."""
    if value is None or value is True or value is False:
        return {None: b"\xC0", False: b"\xC2", True: b"\xC3"}[value]
    if isinstance(value, int):
        if -16 <= value <= 127:
            return struct.pack(">b", value)
        for marker, form in [(0xC8, ">b"), (0xC9, ">h"), (0xCA, ">i"), (0xCB, ">q")]:
            half = 256 ** struct.calcsize(form) // 2
            if -half <= value < half:
                return bytes([marker]) + struct.pack(form, value)
    if isinstance(value, bytes):
        return sized(len(value), None, 0xCC) + value
    if isinstance(value, str):
        return sized(len(value.encode()), 0x80, 0xD0) + value.encode()
    if isinstance(value, Node):
        return b"\xB3\x4E" + encode(value.id) + encode(value.labels) + encode(value.props)
    if isinstance(value, list):
        return sized(len(value), 0x90, 0xD4) + b"".join(map(encode, value))
    return sized(len(value), 0xA0, 0xD8) + b"".join(encode(key) + encode(inner) for key, inner in value.items())


class Spelled:
    """Reads the values that bytes spell, from a place on."""

    def __init__(self, data, at):
        self.data, self.at = data, at

    def take(self, count):
        if self.at + count > len(self.data):
            raise Malformed("short")
        self.at += count
        return self.data[self.at - count:self.at]

    def size(self, width):
        size = int.from_bytes(self.take(width), "big")
        if size > SIZE:
            raise Malformed("too long")
        return size

    def text(self, size):
        try:
            return self.take(size).decode()
        except UnicodeDecodeError:
            raise Malformed("no UTF-8") from None

    def value(self, inside=0):
        """The next value, which stands inside so many lists, dictionaries and nodes."""
        marker = self.take(1)[0]
        if marker < 0x80 or marker >= 0xF0:
            return marker if marker < 0x80 else marker - 256
        if marker in (0xC0, 0xC2, 0xC3):
            return {0xC0: None, 0xC2: False, 0xC3: True}[marker]
        if 0xC8 <= marker <= 0xCB:
            return int.from_bytes(self.take(1 << (marker - 0xC8)), "big", signed=True)
        if 0xCC <= marker <= 0xCE:
            return bytes(self.take(self.size(1 << (marker - 0xCC))))
        if marker == 0xB3:
            return self.node(inside)
        for read, small, wide in [(self.text, 0x80, 0xD0), (self.list, 0x90, 0xD4), (self.dictionary, 0xA0, 0xD8)]:
            if small <= marker < small + 16 or wide <= marker < wide + 3:
                if read != self.text and inside >= DEPTH:
                    raise Malformed("too deep")
                size = marker - small if marker < small + 16 else self.size(1 << (marker - wide))
                return read(size) if read == self.text else read(size, inside + 1)
        raise Malformed("bad marker")

    def list(self, size, inside):
        return [self.value(inside) for _ in range(size)]

    def dictionary(self, size, inside):
        pairs = {}
        for _ in range(size):
            key = self.value(inside)
            if not isinstance(key, str) or key in pairs:
                raise Malformed("a key is no text, or is repeated")
            pairs[key] = self.value(inside)
        return pairs

    def node(self, inside):
        if self.take(1) != b"\x4E" or inside >= DEPTH - 1:  # its labels are a list inside it
            raise Malformed("another structure, or too deep")
        number, labels, props = (self.value(inside + 1) for _ in range(3))
        right = type(number) is int and isinstance(labels, list) and isinstance(props, dict)
        if not right or not all(isinstance(label, str) for label in labels):
            raise Malformed("a field of a node")
        return Node(number, labels, props)


def depth(value):
    """How many lists, dictionaries and nodes stand inside one another."""
    inner = value.values() if isinstance(value, dict) else value if isinstance(value, (list, Node)) else None
    return 0 if inner is None else 1 + max(map(depth, inner), default=0)


# Bolt: chunks and messages.

REQUESTS = {0x01: ("HELLO", [dict]), 0x02: ("GOODBYE", []), 0x0F: ("RESET", []), 0x10: ("RUN", [str, dict, dict]),
            0x11: ("BEGIN", [dict]), 0x12: ("COMMIT", []), 0x13: ("ROLLBACK", []), 0x2F: ("DISCARD", [dict]),
            0x3F: ("PULL", [dict]), 0x66: ("ROUTE", [dict, list, dict])}
ANSWERS = {0x70: ("SUCCESS", [dict]), 0x71: ("RECORD", [list]), 0x7E: ("IGNORED", []), 0x7F: ("FAILURE", [dict])}
MAGIC = b"\x60\x60\xB0\x17"
HANDSHAKE = MAGIC + b"\x00\x00\x04\x04" + bytes(12)


def read_message(message, table):
    """The name and the fields of a message."""
    if not message or message[0] & 0xF0 != 0xB0 or len(message) < 2 or message[1] not in table:
        raise Malformed("a marker or a tag")
    name, kinds = table[message[1]]
    if message[0] & 0x0F != len(kinds):
        raise Malformed("a number of fields")
    spelled, fields = Spelled(message, 2), []
    for kind in kinds:
        fields.append(spelled.value())
        if not isinstance(fields[-1], kind):
            raise Malformed("a kind of field")
    if spelled.at < len(message):
        raise Malformed("a rest")
    return name, fields


def chunked(name, fields, table):
    """A message in chunks."""
    tag = next(tag for tag in table if table[tag][0] == name)
    message = bytes([0xB0 | len(fields), tag]) + b"".join(map(encode, fields))
    pieces = [message[at:at + 65535] for at in range(0, len(message), 65535)]
    return b"".join(struct.pack(">H", len(piece)) + piece for piece in pieces) + b"\x00\x00"


def covers(proposal):
    """Whether a proposal of the handshake covers version 4.4."""
    _, below, minor, major = proposal
    return major == 4 and minor >= 4 >= minor - below


# Bookmarks.

def bookmark(cluster, place):
    return "ncc:" + base64.b64encode(b"\x01" + struct.pack(">QQ", cluster, place) + b"\x00").decode()


def place_of(text, cluster):
    """The place that a bookmark of this cluster names, or None."""
    if not re.fullmatch(r"ncc:[A-Za-z0-9+/]{24}", text):
        return None
    place = struct.unpack(">Q", base64.b64decode(text[4:])[9:17])[0]
    return place if text == bookmark(cluster, place) else None
