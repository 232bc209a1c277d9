"""Names for the rule table's numbers, and the making of its bytes.

Used by every script that makes tables. It checks nothing: scripts make faulty tables too.
"""

import struct
from dataclasses import dataclass, field

# Kinds of reading.
NUMBERS = 1
PORT_SETS = 2

MOST_SWITCHES = 16
MOST_NODES = 48
MOST_RULES = 16
REGISTERS = 8

# Node kinds. 0 to 12 are truth nodes, 20 to 24 are reading nodes.
TRUTH = 0
NOT = 1
AND = 2
OR = 3
IMPLIES = 4
EQUAL = 5
PREVIOUSLY = 6
ONCE = 7
ALWAYS = 8
SINCE = 9
TRUTH_AT = 10
WITHIN = 11
SAME = 12
CONSTANT = 20
REGISTER = 21
JOIN = 22
CUT = 23
READING_AT = 24


def encode_words(*words):
    """The words as fields of 4 bytes, high byte first."""
    return struct.pack(f">{len(words)}I", *words)


@dataclass
class Table:
    """A table's fields. Nodes are (kind, a, b); rules are (switch, node)."""

    code: int
    switches: int
    nodes: list = field(default_factory=list)
    rules: list = field(default_factory=list)
    starts: list = field(default_factory=list)

    def words(self):
        """The fields in order, each array after its count."""
        return [
            self.code,
            self.switches,
            len(self.nodes),
            *(word for node in self.nodes for word in node),
            len(self.rules),
            *(word for rule in self.rules for word in rule),
            len(self.starts),
            *self.starts,
        ]

    def encode(self):
        return encode_words(*self.words())


class TableBuilder:
    """Builds a table node by node. Each node method answers the new node's number."""

    def __init__(self, code, switches):
        self.table = Table(code, switches, starts=[0] * (REGISTERS * switches))

    def node(self, kind, a=0, b=0):
        self.table.nodes.append((kind, a, b))
        return len(self.table.nodes) - 1

    def truth(self, value):
        return self.node(TRUTH, int(value))

    def negation(self, a):
        return self.node(NOT, a)

    def both(self, a, b):
        return self.node(AND, a, b)

    def either(self, a, b):
        return self.node(OR, a, b)

    def implies(self, a, b):
        return self.node(IMPLIES, a, b)

    def equal(self, a, b):
        return self.node(EQUAL, a, b)

    def previously(self, a):
        return self.node(PREVIOUSLY, a)

    def once(self, a):
        return self.node(ONCE, a)

    def always(self, a):
        return self.node(ALWAYS, a)

    def since(self, a, b):
        return self.node(SINCE, a, b)

    def truth_at(self, switch, b):
        return self.node(TRUTH_AT, switch, b)

    def within(self, a, b):
        return self.node(WITHIN, a, b)

    def same(self, a, b):
        return self.node(SAME, a, b)

    def constant(self, word):
        return self.node(CONSTANT, word)

    def register(self, number):
        return self.node(REGISTER, number)

    def join(self, a, b):
        return self.node(JOIN, a, b)

    def cut(self, a, b):
        return self.node(CUT, a, b)

    def reading_at(self, switch, b):
        return self.node(READING_AT, switch, b)

    def rule(self, switch, node):
        self.table.rules.append((switch, node))

    def start(self, switch, register, word):
        self.table.starts[REGISTERS * switch + register] = word


def three_switches():
    """Switch 1 keeps: what it knows of switch 0's register 0 was always within its own."""
    t = TableBuilder(NUMBERS, switches=3)
    own = t.register(0)
    known = t.reading_at(0, own)
    t.rule(1, t.always(t.within(known, own)))
    t.start(0, 0, 5)
    t.start(1, 0, 7)
    return t.table
