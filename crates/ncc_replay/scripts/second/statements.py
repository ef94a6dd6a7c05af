"""The statements of docs/CYPHER.md, read a second time (see reference.py): how they are parsed, and what they do to a store."""
import re
from collections import namedtuple

from second.values import Node, encode


KEYWORDS = {"CREATE", "MATCH", "MERGE", "SET", "DELETE", "RETURN", "AS", "TRUE", "FALSE", "NULL"}
ESCAPES = {"\\": "\\", "'": "'", '"': '"', "n": "\n", "r": "\r", "t": "\t"}
Token = namedtuple("Token", "kind value at end")
Statement = namedtuple("Statement", "head name label pairs change tail columns")  # change: None, a list or "delete"
TOKEN = re.compile(rb"""(?P<word>[A-Za-z_][A-Za-z0-9_]*)|(?P<number>-?(?:[1-9][0-9]*|0))|(?P<sign>[(){}:,.=+$;])
                    |(?P<text>'(?:[^'\\]|\\[\\'"nrt])*'|"(?:[^"\\]|\\[\\'"nrt])*")""", re.VERBOSE)


class Syntax(Exception):
    """The byte place of the first token that no statement continues."""


class Parser:
    def __init__(self, source):
        self.source, self.name = source.encode(), None
        self.token = self.next(0)

    def next(self, at):
        """The token at a place, behind blanks."""
        while at < len(self.source) and self.source[at] in b" \t\r\n":
            at += 1
        found = TOKEN.match(self.source, at)
        if at == len(self.source) or not found:
            return Token("none", None, at, at)
        kind, value = found.lastgroup, found.group().decode()
        if kind == "word" and value.upper() in KEYWORDS:
            kind, value = "key", value.upper()
        elif kind == "number":
            value = int(value)
            if not -2 ** 63 <= value < 2 ** 63:
                return Token("none", None, at, at)
        elif kind == "text":
            value = re.sub(r"\\(.)", lambda escape: ESCAPES[escape[1]], value[1:-1])
        return Token(kind, value, at, found.end())

    def take(self):
        token = self.token
        self.token, self.last = self.next(token.end), token
        return token

    def at(self, *values):
        """Whether the next token is one of these signs or keywords."""
        return self.token.kind in ("sign", "key") and self.token.value in values

    def skip(self, value):
        """Takes a sign or a keyword where it comes."""
        return self.at(value) and bool(self.take())

    def refuse(self):
        raise Syntax(self.token.at)

    def need(self, value):
        return self.skip(value) or self.refuse()

    def word(self, bound=False):
        """A name, or the bound one."""
        if self.token.kind != "word" or bound and self.token.value != self.name:
            self.refuse()
        return self.take().value

    def statement(self):
        head, label, pairs, change, tail, name = "RETURN", None, [], None, None, None
        if self.at("CREATE", "MATCH", "MERGE"):
            head = self.take().value
            name, label, pairs = self.node(head)
            self.name = name
            if self.name and self.skip("SET"):
                change = self.list(lambda: self.pair("=", bound=True))
            elif self.name and head == "MATCH" and self.skip("DELETE"):
                change = "delete"
                self.word(bound=True)
            elif head == "MATCH" and not self.at("RETURN"):
                self.refuse()
        elif not self.at("RETURN"):
            self.refuse()
        columns = []
        if self.skip("RETURN"):
            tail, columns = self.tail(counts_alone=change == "delete")
        self.skip(";")
        if self.token.kind != "none" or self.token.at < len(self.source):
            self.refuse()
        return Statement(head, name, label, pairs, change, tail, columns)

    def list(self, one):
        found = [one()]
        while self.skip(","):
            found.append(one())
        return found

    def node(self, head):
        """What stands in the parentheses: a name, a label, pairs."""
        self.need("(")
        name = self.word() if self.token.kind == "word" else None
        label, pairs, keys = None, [], []
        if head != "MATCH" or self.at(":"):
            self.need(":")
            label = self.word()
        if head == "MERGE" or self.at("{"):
            self.need("{")
            if head != "CREATE":
                pairs = [self.pair(":")]
            elif not self.at("}"):
                pairs = self.list(lambda: self.pair(":", taken=keys))
            self.need("}")
        self.need(")")
        return name, label, pairs

    def pair(self, between, bound=False, taken=None):
        if bound:
            self.word(bound=True)
            self.need(".")
        if taken is not None and self.token.value in taken:
            self.refuse()
        key = self.word()
        if taken is not None:
            taken.append(key)
        self.need(between)
        return key, self.sum()

    def sum(self):
        terms = [self.term()]
        while self.skip("+"):
            terms.append(self.term())
        return terms

    def term(self):
        if self.token.kind in ("number", "text"):
            return "value", self.take().value
        if self.at("TRUE", "FALSE", "NULL"):
            return "value", {"TRUE": True, "FALSE": False, "NULL": None}[self.take().value]
        if self.skip("$"):
            return "param", self.word()
        self.word(bound=True)
        self.need(".")
        return "prop", self.word()

    def tail(self, counts_alone):
        """The items, or "count", and the columns."""
        counts = self.token.kind == "word" and self.token.value.lower() == "count" and self.name is not None
        if counts and (counts_alone or self.token.value != self.name or self.source[self.next(self.token.end).at:][:1] == b"("):
            start = self.take().at
            self.need("(")
            self.word(bound=True)
            self.need(")")
            return "count", [self.column(start)]
        if counts_alone:
            self.refuse()
        items = self.list(self.item)
        return [item for item, _ in items], [column for _, column in items]

    def item(self):
        start = self.token.at
        bound = self.token.kind == "word" and self.token.value == self.name
        if bound and self.source[self.next(self.token.end).at:][:1] != b".":
            self.take()
            return "node", self.column(start)
        return self.sum(), self.column(start)

    def column(self, start):
        end = self.last.end
        return self.word() if self.skip("AS") else self.source[start:end].decode()


def writes(statement):
    return statement.head in ("CREATE", "MERGE") or statement.change is not None


# Stores. A store is the next id, and label and properties by id, in ascending order of ids.

Store = namedtuple("Store", "next nodes")
Step = namedtuple("Step", "source params statement")


class Fault(Exception):
    """The name of a fault of a run."""


def evaluate(terms, params, props):
    """The sum of terms, taken from the left."""
    total = None
    for number, (kind, found) in enumerate(terms):
        if kind == "param":
            if found not in params:
                raise Fault("missing")
            value = params[found]
            if isinstance(value, (bytes, list, dict, Node)):
                raise Fault("kind")
        else:
            value = found if kind == "value" else props.get(found)
        total = value if number == 0 else plus(total, value)
    return total


def plus(left, right):
    if left is None or right is None:
        return None
    if type(left) is int and type(right) is int:
        if not -2 ** 63 <= left + right < 2 ** 63:
            raise Fault("overflow")
    elif not isinstance(left, str) or not isinstance(right, str):
        raise Fault("kind")
    elif len((left + right).encode()) > 262_144:
        raise Fault("toolong")
    return left + right


def run_step(store, statement, params):
    """The rows of a statement, and the store after it."""
    wanted = {key: evaluate(terms, params, {}) for key, terms in statement.pairs}
    nodes, following = dict(store.nodes), store.next
    if statement.head == "MERGE" and None in wanted.values():
        raise Fault("nullmerge")
    found = []
    if statement.head in ("MATCH", "MERGE"):
        found = [number for number, (label, props) in nodes.items() if statement.label in (None, label)
                 and all(key in props and type(props[key]) is type(value) and props[key] == value
                         for key, value in wanted.items())]
    if statement.head == "CREATE" or statement.head == "MERGE" and not found:
        nodes[following] = statement.label, {key: value for key, value in wanted.items() if value is not None}
        found, following = [following], following + 1
    for number in found:
        if statement.change == "delete":
            del nodes[number]
        elif statement.change:
            label, props = nodes[number][0], dict(nodes[number][1])
            for key, terms in statement.change:
                value = evaluate(terms, params, props)
                props.pop(key, None)
                if value is not None:
                    props[key] = value
            nodes[number] = label, props
    return rows_of(statement, params, nodes, found), Store(following, nodes)


def rows_of(statement, params, nodes, found):
    if statement.tail is None or statement.tail == "count":
        return [] if statement.tail is None else [[len(found)]]
    rows, size = [], 0
    for number in [None] if statement.head == "RETURN" else found:
        label, props = nodes.get(number, (None, {}))
        whole = Node(number, [label], dict(sorted(props.items(), key=lambda pair: pair[0].encode())))
        row = [whole if item == "node" else evaluate(item, params, props) for item in statement.tail]
        size += len(encode(row))
        if len(encode(row)) > 1_048_000:
            raise Fault("toolong")
        if len(rows) == 10_000 or size > 16_777_216:
            raise Fault("toomany")
        rows.append(row)
    return rows


def run(store, steps):
    """The rows of each step, and the store after the last."""
    rows = []
    for step in steps:
        told, store = run_step(store, step.statement, step.params)
        rows.append(told)
    return rows, store


def entry_value(steps, told):
    return [[[step.source, step.params] for step in steps], told]
