"""Frames between members as docs/FRAMES.md has them: a writer and a reader apart from the crates'.

Of statements it knows one alone: of an entry with another it cannot say whether it is one.
"""
import struct

MOST = 2_097_152
TERMS = 2 ** 62
EMPTY = b"\xC0"
NO_STEP = b"\x92\x90\x90"
SOURCE = "RETURN $x"
FRONT = b"\x92\x91\x92\x89" + SOURCE.encode() + b"\xA1\x81x"
BACK = b"\x91\x90"


# ---- entries

def text(size):
    """A text of so many letters, in its shortest spelling."""
    letters = b"a" * size
    if size < 16:
        return bytes([0x80 + size]) + letters
    for mark, width in [(0xD0, 1), (0xD1, 2), (0xD2, 4)]:
        if size < 256 ** width:
            return bytes([mark]) + size.to_bytes(width, "big") + letters


def transaction(size):
    """A transaction of so many bytes, or of the next size that there is below."""
    left = size - len(FRONT) - len(BACK)
    for letters in range(left, max(left - 6, -1), -1):
        if len(text(letters)) <= left:
            return FRONT + text(letters) + BACK


class Unknown(Exception):
    """This reader cannot say: a statement that it does not know, a node, or lists that nest deep."""


class NoEntry(Exception):
    pass


class Spelling:
    """Reads values in their shortest spelling in PackStream: null as None, numbers, texts, and the rest in lists and dictionaries."""

    def __init__(self, content):
        self.content, self.at = content, 0

    def take(self, count):
        if self.at + count > len(self.content):
            raise NoEntry
        self.at += count
        return self.content[self.at - count:self.at]

    def size(self, width, least):
        size = int.from_bytes(self.take(width), "big")
        if size < least:
            raise NoEntry
        return size

    def integer(self, width):
        number = int.from_bytes(self.take(width), "big", signed=True)
        least = -16 if width == 1 else -256 ** (width // 2) // 2
        most = 127 if width == 1 else -least - 1
        if least <= number <= most:
            raise NoEntry
        return number

    def text(self, size):
        try:
            return self.take(size).decode("utf-8")
        except UnicodeDecodeError:
            raise NoEntry from None

    def listed(self, size, levels):
        return [self.value(levels - 1) for _ in range(size)]

    def keyed(self, size, levels):
        found = {}
        for _ in range(size):
            key = self.value(levels - 1)
            if not isinstance(key, str) or key in found:
                raise NoEntry
            found[key] = self.value(levels - 1)
        return found

    def value(self, levels=20):
        if levels == 0:
            raise Unknown
        mark = self.take(1)[0]
        if mark < 0x80 or mark >= 0xF0:
            return mark if mark < 0x80 else mark - 256
        if mark in (0xC0, 0xC2, 0xC3):
            return {0xC0: None, 0xC2: False, 0xC3: True}[mark]
        if 0xC8 <= mark <= 0xCB:
            return self.integer(2 ** (mark - 0xC8))
        if 0xCC <= mark <= 0xCE:
            return bytes(self.take(self.size(2 ** (mark - 0xCC), [0, 256, 65_536][mark - 0xCC])))
        if 0xB0 <= mark < 0xC0:
            raise Unknown
        for first, wide, made in [(0x80, 0xD0, lambda size: self.text(size)), (0x90, 0xD4, lambda size: self.listed(size, levels)),
                                  (0xA0, 0xD8, lambda size: self.keyed(size, levels))]:
            if first <= mark < first + 16:
                return made(mark - first)
            if wide <= mark < wide + 3:
                return made(self.size(2 ** (mark - wide), [16, 256, 65_536][mark - wide]))
        raise NoEntry


def is_shaped(value):
    """Whether a value is an entry's, and its statements are known."""
    if value is None:
        return True
    if not isinstance(value, list) or len(value) != 2 or not all(isinstance(part, list) for part in value):
        return False
    steps, told = value
    if len(steps) != len(told):
        return False
    for step in steps:
        if not isinstance(step, list) or len(step) != 2 or not isinstance(step[0], str) or not isinstance(step[1], dict):
            return False
    if not all(isinstance(rows, list) and all(isinstance(row, list) for row in rows) for rows in told):
        return False
    if any(step[0] != SOURCE for step in steps):
        raise Unknown
    return True


def is_entry(spelled):
    """Whether these bytes are an entry, where this reader can say so."""
    try:
        spelling = Spelling(spelled)
        value = spelling.value()
        return spelling.at == len(spelled) and is_shaped(value)
    except NoEntry:
        return False


# ---- the writer

def u64(number):
    return struct.pack(">Q", number)


def u32(number):
    return struct.pack(">I", number)


class Frame:
    """A frame by its fields: numbers in the order of their kind, flags as 0 and 1, and items as terms and entries."""

    def __init__(self, cluster, sender, to, kind, numbers, items=()):
        self.cluster, self.sender, self.to, self.kind, self.numbers, self.items = cluster, sender, to, kind, numbers, items

    def body(self):
        flags = {2: [1], 4: [1]}.get(self.kind, [])
        fields = b"".join(bytes([number]) if place in flags else u64(number) for place, number in enumerate(self.numbers))
        if self.kind not in (3, 6):
            return fields
        return fields + u32(len(self.items)) + b"".join(u64(term) + u32(len(entry)) + entry for term, entry in self.items)

    def spelled(self):
        content = u64(self.cluster) + bytes([self.kind, self.sender, self.to]) + self.body()
        return u32(len(content)) + content


# ---- the reader

class Refused(Exception):
    pass


class Reading:
    def __init__(self, content):
        self.content, self.at = content, 13
        self.end = len(content)

    def refuse(self, at=None):
        raise Refused(f"BadField {self.at if at is None else at}")

    def number(self, width, least, most):
        if self.at + width > self.end:
            self.refuse()
        number = int.from_bytes(self.content[self.at:self.at + width], "big")
        if not least <= number <= most:
            self.refuse()
        self.at += width
        return number

    def term(self):
        return self.number(8, 0, TERMS - 1)

    def any(self):
        return self.number(8, 0, 2 ** 64 - 1)

    def flag(self):
        return self.number(1, 0, 1)

    def items(self, least, most, rising):
        for _ in range(self.number(4, 0, 64)):
            term = self.number(8, least, most)
            least = term if rising else least
            size = self.number(4, 0, 2 ** 32 - 1)
            entry = self.content[self.at:self.at + size]
            if size > 1_048_576 or self.at + size > self.end or not is_entry(entry):
                self.refuse()
            self.at += size

    def body(self, kind):
        if kind == 1:
            self.term(), self.any(), self.term()
        if kind == 2:
            self.term(), self.flag()
        if kind == 3:
            term, _, before, _ = self.term(), self.number(8, 0, TERMS - 1), self.term(), self.any()
            self.items(before, term, True)
        if kind == 4:
            self.term(), self.flag(), self.any()
        if kind == 5:
            self.number(8, 0, TERMS - 1)
        if kind == 6:
            self.number(8, 1, TERMS)
            self.items(0, TERMS - 1, False)


def front(cluster, content):
    """The frame at the front, or a refusal."""
    if len(content) < 4:
        raise Refused("Short")
    size = int.from_bytes(content[:4], "big")
    if size > MOST:
        raise Refused(f"TooLong {size}")
    if len(content) < 4 + size:
        raise Refused("Short")
    if size < 8:
        raise Refused("BadField 4")
    if int.from_bytes(content[4:12], "big") != cluster:
        raise Refused(f"OtherCluster {int.from_bytes(content[4:12], 'big')}")
    if size < 9:
        raise Refused("BadField 12")
    if not 1 <= content[12] <= 6:
        raise Refused("BadKind 12")
    return content[:4 + size]


def judged(cluster, content):
    """What bytes begin with, in the words of ncc_bench."""
    try:
        frame = front(cluster, content)
        reading = Reading(frame)
        reading.number(1, 1, 23), reading.number(1, 1, 23)
        reading.body(frame[12])
        if reading.at < reading.end:
            raise Refused(f"Rest {reading.at}")
    except Refused as refused:
        return str(refused)
    return f"ok {len(frame)}"
