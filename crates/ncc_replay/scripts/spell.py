#!/usr/bin/env python3
"""Spells what clients of a script say, and reads what they are answered.

    ./spell.py fill <SCRIPT         the script, with the bytes of each `bytes` line that stands behind comments that begin with `#>`
    ./spell.py answers <REPORT      the report, with the messages of each `out` line in place of its bytes

Behind `#>` stand messages with `; ` between two of them. A message is `handshake`, `hex` with bytes, or the name of a request with its
fields. A value is null, true, false, a number, "a text", [a list], {a: "dictionary"} whose keys need no quotes where they are names, a
node as (0:Label {key: 1}), or a byte list as <00ff>. In a list, `*N` behind a value stands for N of it.

    #> handshake; HELLO {}
    #> RUN "RETURN $x" {x: 1} {bookmarks: []}; PULL {n: -1}
    bytes 1 6060b017..
"""
import json
import re
import sys

sys.dont_write_bytecode = True
from second.values import ANSWERS, HANDSHAKE, REQUESTS, Node, chunked, encode, read_message  # noqa: E402

TOKEN = re.compile(r"""\s*("(?:[^"\\]|\\.)*"|<[0-9a-f]*>|[0-9A-Fa-f]{2}\b|-?[0-9]+|[A-Za-z_][A-Za-z0-9_]*|.)""", re.DOTALL)
NAMES = {"null": None, "true": True, "false": False}


class Reader:
    """Reads messages and values from a text."""

    def __init__(self, text):
        self.tokens = TOKEN.findall(text.strip())

    def take(self, wanted=None):
        token = self.tokens.pop(0) if self.tokens else "the end"
        if wanted not in (None, token):
            raise SystemExit(f"{wanted} is expected, not {token}")
        return token

    def comes(self, token):
        return self.tokens[:1] == [token]

    def value(self):
        token = self.take()
        if token == "[":
            return self.list()
        if token == "{":
            return self.dictionary()
        if token == "(":
            number = int(self.take())
            labels = [self.take() for _ in iter(lambda: self.comes(":") and self.take(), False)]
            props = self.take() and self.dictionary() if self.comes("{") else {}
            self.take(")")
            return Node(number, labels, props)
        if token[0] == "<":
            return bytes.fromhex(token[1:-1])
        return json.loads(token) if token[0] in '"-0123456789' else NAMES[token]

    def list(self):
        found = []
        while not self.comes("]"):
            value, times = self.value(), 1
            if self.comes("*"):
                self.take()
                times = int(self.take())
            found += [value] * times
            if not self.comes("]"):
                self.take(",")
        self.take("]")
        return found

    def dictionary(self):
        found = {}
        while not self.comes("}"):
            key = self.take()
            self.take(":")
            found[json.loads(key) if key[0] == '"' else key] = self.value()
            if not self.comes("}"):
                self.take(",")
        self.take("}")
        return found

    def messages(self):
        """The bytes of the messages."""
        spelled = b""
        while self.tokens:
            name, fields = self.take(), []
            if name == "hex":
                while self.tokens and not self.comes(";"):
                    spelled += bytes.fromhex(self.take())
            elif name == "handshake":
                spelled += HANDSHAKE
            else:
                while self.tokens and not self.comes(";"):
                    fields.append(self.value())
                spelled += chunked(name, fields, REQUESTS)
            if self.tokens:
                self.take(";")
        return spelled


def fill(script):
    """The script, with the bytes that its comments name."""
    lines, said = [], []
    for line in script.split("\n"):
        if line.startswith("#>"):
            said.append(line[2:].strip())
        elif said and line.startswith("bytes "):
            line = " ".join(line.split(" ")[:2] + [Reader("; ".join(said)).messages().hex()])
        if not line.startswith("#"):
            said = []
        lines.append(line)
    return "\n".join(lines)


def shown(value):
    """A value as it is written here."""
    if isinstance(value, Node):
        return f"({value.id}{''.join(':' + label for label in value.labels)} {shown(value.props)})"
    if isinstance(value, list):
        return "[" + ", ".join(map(shown, value)) + "]"
    if isinstance(value, dict):
        return "{" + ", ".join(f"{key}: {shown(inner)}" for key, inner in value.items()) + "}"
    return f"<{value.hex()}>" if isinstance(value, bytes) else json.dumps(value, ensure_ascii=False)


def answers(report):
    """The report, with messages in place of bytes."""
    lines = []
    for line in report.split("\n"):
        if re.fullmatch("out [0-9]+ [0-9a-f]+", line):
            data = bytes.fromhex(line.split(" ")[2])
            lines.append(line[:line.rindex(" ")] + " " + data[:4].hex())
            at, message = 4, b""
            while at < len(data):
                size = int.from_bytes(data[at:at + 2], "big")
                message += data[at + 2:at + 2 + size]
                at += 2 + size
                if size == 0:
                    name, fields = read_message(message, ANSWERS)
                    lines.append("  " + " ".join([name, *map(shown, fields)]))
                    assert data[:at].endswith(chunked(name, fields, ANSWERS)) and encode(fields)
                    message = b""
        else:
            lines.append(line)
    return "\n".join(lines)


def main():
    works = {"fill": fill, "answers": answers}
    if len(sys.argv) != 2 or sys.argv[1] not in works:
        sys.exit(__doc__)
    text = sys.stdin.buffer.read().decode(errors="surrogateescape")
    sys.stdout.buffer.write(works[sys.argv[1]](text).encode(errors="surrogateescape"))


if __name__ == "__main__":
    main()
