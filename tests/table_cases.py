#!/usr/bin/env python3
"""Cases for every rule of the rule table, with answers worked out by hand.

Usage: table_cases.py TABLE_CHECK_BATCH

Both the reference and the static library are held to the answers, which neither computes.
"""

import sys
from typing import NamedTuple

from reference.table_format import Table, encode_words, three_switches
from reference.table_library import Tally, library_answers
from reference.table_reference import judge

ACCEPTED = (0, 0)


class Case(NamedTuple):
    what: str
    data: bytes
    answer: tuple  # (number, place)


# The table of three switches has its fields at these offsets. It is 172 bytes.
FIELDS = [
    ("code", 0),
    ("number of switches", 4),
    ("number of nodes", 8),
    ("node 0, kind", 12),
    ("node 0, a", 16),
    ("node 0, b", 20),
    ("node 1, kind", 24),
    ("node 1, a", 28),
    ("node 1, b", 32),
    ("node 2, kind", 36),
    ("node 2, a", 40),
    ("node 2, b", 44),
    ("node 3, kind", 48),
    ("node 3, a", 52),
    ("node 3, b", 56),
    ("number of rules", 60),
    ("rule 0, switch", 64),
    ("rule 0, node", 68),
    ("number of starting words", 72),
    ("switch 0, register 0", 76),
    ("switch 0, register 1", 80),
    ("switch 0, register 2", 84),
    ("switch 0, register 3", 88),
    ("switch 0, register 4", 92),
    ("switch 0, register 5", 96),
    ("switch 0, register 6", 100),
    ("switch 0, register 7", 104),
    ("switch 1, register 0", 108),
    ("switch 1, register 1", 112),
    ("switch 1, register 2", 116),
    ("switch 1, register 3", 120),
    ("switch 1, register 4", 124),
    ("switch 1, register 5", 128),
    ("switch 1, register 6", 132),
    ("switch 1, register 7", 136),
    ("switch 2, register 0", 140),
    ("switch 2, register 1", 144),
    ("switch 2, register 2", 148),
    ("switch 2, register 3", 152),
    ("switch 2, register 4", 156),
    ("switch 2, register 5", 160),
    ("switch 2, register 6", 164),
    ("switch 2, register 7", 168),
]


def missing_field_cases():
    """The table ends in front of a field, or with 1, 2 or 3 of its bytes."""
    data = three_switches().encode()
    for name, offset in FIELDS:
        for got in range(4):
            yield Case(f"{name} has {got} bytes", data[: offset + got], (1, offset))


def left_over_cases():
    data = three_switches().encode()
    yield Case("the table of three switches", data, ACCEPTED)
    for more in (1, 2, 3, 4, 172):
        yield Case(f"{more} bytes left", data + bytes(more), (1, 172))
    yield Case("the table twice", data + data, (1, 172))


# A field of the table of three switches set to another word.
FIELD_CHANGES = [
    # offset, word, answer
    (0, 0, (2, 0)),
    (0, 1, ACCEPTED),
    (0, 2, ACCEPTED),
    (0, 3, (2, 0)),
    (0, 255, (2, 0)),
    (0, 257, (2, 0)),
    (0, 0x01000000, (2, 0)),
    (0, 0x80000001, (2, 0)),
    (0, 0xFFFFFFFF, (2, 0)),
    (4, 0, (2, 4)),
    (4, 17, (2, 4)),
    (4, 0x00010003, (2, 4)),
    (4, 0x03000000, (2, 4)),
    (4, 0xFFFFFFFF, (2, 4)),
    (4, 2, (2, 72)),  # 24 starting words, 16 wanted
    (4, 4, (2, 72)),  # 24 starting words, 32 wanted
    (4, 16, (2, 72)),  # 24 starting words, 128 wanted
    (4, 1, (4, 0)),  # rule 0 names switch 1
    (8, 0, (2, 8)),
    (8, 49, (2, 8)),
    (8, 0x00000104, (2, 8)),
    (8, 0x04000000, (2, 8)),
    (8, 0xFFFFFFFF, (2, 8)),
    (8, 3, (4, 0)),  # node 3's words are read as 8 rules, the first (2, 0); node 0 is a reading
    (8, 5, (3, 4)),  # the rule's words are read as node 4: (1, 1, 3)
    (60, 0, (2, 64)),  # the rule's switch, 1, is read as the number of starting words
    (60, 2, (4, 1)),  # the number of starting words is read as the switch of rule 1
    (60, 17, (2, 60)),
    (60, 0x01000000, (2, 60)),
    (60, 0xFFFFFFFF, (2, 60)),
    (64, 0, ACCEPTED),
    (64, 2, ACCEPTED),
    (64, 3, (4, 0)),
    (64, 0x00000100, (4, 0)),
    (64, 0xFFFFFFFF, (4, 0)),
    (68, 0, (4, 0)),  # a register
    (68, 1, (4, 0)),  # a reading at a switch
    (68, 2, ACCEPTED),
    (68, 4, (4, 0)),  # there are 4 nodes
    (68, 48, (4, 0)),
    (68, 0x00000103, (4, 0)),
    (68, 0xFFFFFFFF, (4, 0)),
    (72, 0, (2, 72)),
    (72, 3, (2, 72)),
    (72, 23, (2, 72)),
    (72, 25, (2, 72)),
    (72, 0x18000000, (2, 72)),
    (72, 0xFFFFFFFF, (2, 72)),
    (76, 0xFFFFFFFF, ACCEPTED),
    (140, 0x80000000, ACCEPTED),
    (168, 0x7FFFFFFF, ACCEPTED),
]


def field_change_cases():
    data = three_switches().encode()
    for offset, word, answer in FIELD_CHANGES:
        changed = data[:offset] + encode_words(word) + data[offset + 4 :]
        yield Case(f"the field at {offset} is {word}", changed, answer)


# The node tried is number 2 of a table of 2 switches. Around it stand the truth nodes 0 and 3
# and the reading nodes 1 and 4.
BEFORE = [(0, 1, 0), (20, 7, 0)]
AFTER = [(0, 0, 0), (21, 0, 0)]
BAD = (3, 2)

NODES = [
    # node, answer
    # Constant truth.
    ((0, 0, 0), ACCEPTED),
    ((0, 1, 0), ACCEPTED),
    ((0, 2, 0), BAD),
    ((0, 256, 0), BAD),
    ((0, 0xFFFFFFFF, 0), BAD),
    ((0, 0, 1), BAD),
    ((0, 1, 1), BAD),
    # Not.
    ((1, 0, 0), ACCEPTED),
    ((1, 1, 0), BAD),
    ((1, 2, 0), BAD),
    ((1, 3, 0), BAD),
    ((1, 5, 0), BAD),
    ((1, 0xFFFFFFFF, 0), BAD),
    ((1, 0, 1), BAD),
    # And.
    ((2, 0, 0), ACCEPTED),
    ((2, 1, 0), BAD),
    ((2, 2, 0), BAD),
    ((2, 3, 0), BAD),
    ((2, 5, 0), BAD),
    ((2, 0xFFFFFFFF, 0), BAD),
    ((2, 0, 1), BAD),
    ((2, 0, 2), BAD),
    ((2, 0, 3), BAD),
    ((2, 0, 5), BAD),
    ((2, 0, 0xFFFFFFFF), BAD),
    # Or.
    ((3, 0, 0), ACCEPTED),
    ((3, 1, 0), BAD),
    ((3, 2, 0), BAD),
    ((3, 3, 0), BAD),
    ((3, 5, 0), BAD),
    ((3, 0, 1), BAD),
    ((3, 0, 2), BAD),
    ((3, 0, 3), BAD),
    ((3, 0, 5), BAD),
    # Implies.
    ((4, 0, 0), ACCEPTED),
    ((4, 1, 0), BAD),
    ((4, 2, 0), BAD),
    ((4, 3, 0), BAD),
    ((4, 5, 0), BAD),
    ((4, 0, 1), BAD),
    ((4, 0, 2), BAD),
    ((4, 0, 3), BAD),
    ((4, 0, 5), BAD),
    # Equal truth.
    ((5, 0, 0), ACCEPTED),
    ((5, 1, 0), BAD),
    ((5, 2, 0), BAD),
    ((5, 3, 0), BAD),
    ((5, 5, 0), BAD),
    ((5, 0, 1), BAD),
    ((5, 0, 2), BAD),
    ((5, 0, 3), BAD),
    ((5, 0, 5), BAD),
    # Previously.
    ((6, 0, 0), ACCEPTED),
    ((6, 1, 0), BAD),
    ((6, 2, 0), BAD),
    ((6, 3, 0), BAD),
    ((6, 5, 0), BAD),
    ((6, 0, 1), BAD),
    # Once.
    ((7, 0, 0), ACCEPTED),
    ((7, 1, 0), BAD),
    ((7, 2, 0), BAD),
    ((7, 3, 0), BAD),
    ((7, 5, 0), BAD),
    ((7, 0, 1), BAD),
    # Always.
    ((8, 0, 0), ACCEPTED),
    ((8, 1, 0), BAD),
    ((8, 2, 0), BAD),
    ((8, 3, 0), BAD),
    ((8, 5, 0), BAD),
    ((8, 0, 1), BAD),
    # Since.
    ((9, 0, 0), ACCEPTED),
    ((9, 1, 0), BAD),
    ((9, 2, 0), BAD),
    ((9, 3, 0), BAD),
    ((9, 5, 0), BAD),
    ((9, 0, 1), BAD),
    ((9, 0, 2), BAD),
    ((9, 0, 3), BAD),
    ((9, 0, 5), BAD),
    # A truth at a switch.
    ((10, 0, 0), ACCEPTED),
    ((10, 1, 0), ACCEPTED),
    ((10, 2, 0), BAD),
    ((10, 16, 0), BAD),
    ((10, 0xFFFFFFFF, 0), BAD),
    ((10, 0, 1), BAD),
    ((10, 0, 2), BAD),
    ((10, 0, 3), BAD),
    ((10, 0, 5), BAD),
    ((10, 0, 0xFFFFFFFF), BAD),
    # Within.
    ((11, 1, 1), ACCEPTED),
    ((11, 0, 1), BAD),
    ((11, 2, 1), BAD),
    ((11, 4, 1), BAD),
    ((11, 5, 1), BAD),
    ((11, 0xFFFFFFFF, 1), BAD),
    ((11, 1, 0), BAD),
    ((11, 1, 2), BAD),
    ((11, 1, 4), BAD),
    ((11, 1, 5), BAD),
    ((11, 1, 0xFFFFFFFF), BAD),
    # Same.
    ((12, 1, 1), ACCEPTED),
    ((12, 0, 1), BAD),
    ((12, 2, 1), BAD),
    ((12, 4, 1), BAD),
    ((12, 5, 1), BAD),
    ((12, 1, 0), BAD),
    ((12, 1, 2), BAD),
    ((12, 1, 4), BAD),
    ((12, 1, 5), BAD),
    # No kind has these numbers.
    ((13, 0, 0), BAD),
    ((14, 0, 0), BAD),
    ((15, 0, 0), BAD),
    ((16, 0, 0), BAD),
    ((17, 0, 0), BAD),
    ((18, 0, 0), BAD),
    ((19, 0, 0), BAD),
    ((25, 0, 0), BAD),
    ((26, 1, 1), BAD),
    ((32, 0, 0), BAD),
    ((256, 0, 0), BAD),
    ((0x14000000, 0, 0), BAD),
    ((0x80000000, 0, 0), BAD),
    ((0xFFFFFFFF, 0, 0), BAD),
    # Constant reading.
    ((20, 0, 0), ACCEPTED),
    ((20, 2, 0), ACCEPTED),
    ((20, 0x80000000, 0), ACCEPTED),
    ((20, 0xFFFFFFFF, 0), ACCEPTED),
    ((20, 0, 1), BAD),
    ((20, 7, 0xFFFFFFFF), BAD),
    # Register.
    ((21, 0, 0), ACCEPTED),
    ((21, 7, 0), ACCEPTED),
    ((21, 8, 0), BAD),
    ((21, 16, 0), BAD),
    ((21, 0xFFFFFFFF, 0), BAD),
    ((21, 0, 1), BAD),
    # Join.
    ((22, 1, 1), ACCEPTED),
    ((22, 0, 1), BAD),
    ((22, 2, 1), BAD),
    ((22, 4, 1), BAD),
    ((22, 5, 1), BAD),
    ((22, 1, 0), BAD),
    ((22, 1, 2), BAD),
    ((22, 1, 4), BAD),
    ((22, 1, 5), BAD),
    # Cut.
    ((23, 1, 1), ACCEPTED),
    ((23, 0, 1), BAD),
    ((23, 2, 1), BAD),
    ((23, 4, 1), BAD),
    ((23, 5, 1), BAD),
    ((23, 1, 0), BAD),
    ((23, 1, 2), BAD),
    ((23, 1, 4), BAD),
    ((23, 1, 5), BAD),
    # A reading at a switch.
    ((24, 0, 1), ACCEPTED),
    ((24, 1, 1), ACCEPTED),
    ((24, 2, 1), BAD),
    ((24, 16, 1), BAD),
    ((24, 0xFFFFFFFF, 1), BAD),
    ((24, 0, 0), BAD),
    ((24, 0, 2), BAD),
    ((24, 0, 4), BAD),
    ((24, 0, 5), BAD),
    ((24, 0, 0xFFFFFFFF), BAD),
]


def node_cases():
    for code in (1, 2):
        for node, answer in NODES:
            table = Table(code, 2, BEFORE + [node] + AFTER, [], [0] * 16)
            yield Case(f"node 2 is {node}, code {code}", table.encode(), answer)


# Node 0 has no lower node to name.
FIRST_NODES = [
    ((0, 1, 0), ACCEPTED),
    ((20, 0, 0), ACCEPTED),
    ((21, 7, 0), ACCEPTED),
    ((1, 0, 0), (3, 0)),
    ((2, 0, 0), (3, 0)),
    ((3, 0, 0), (3, 0)),
    ((4, 0, 0), (3, 0)),
    ((5, 0, 0), (3, 0)),
    ((6, 0, 0), (3, 0)),
    ((7, 0, 0), (3, 0)),
    ((8, 0, 0), (3, 0)),
    ((9, 0, 0), (3, 0)),
    ((10, 0, 0), (3, 0)),
    ((11, 0, 0), (3, 0)),
    ((12, 0, 0), (3, 0)),
    ((22, 0, 0), (3, 0)),
    ((23, 0, 0), (3, 0)),
    ((24, 0, 0), (3, 0)),
]


def first_node_cases():
    for node, answer in FIRST_NODES:
        yield Case(f"node 0 is {node}", Table(1, 1, [node], [], [0] * 8).encode(), answer)


TRUE = (0, 1, 0)
ZERO = (20, 0, 0)


def size_cases():
    """The limits of each array, from both sides."""

    def case(what, answer, switches=1, nodes=1, rules=0, starts=None):
        starts = 8 * switches if starts is None else starts
        table = Table(1, switches, [TRUE] * nodes, [(0, 0)] * rules, [0] * starts)
        return Case(what, table.encode(), answer)

    yield case("1 switch, 1 node, no rules", ACCEPTED)
    yield case("16 switches, 48 nodes", ACCEPTED, switches=16, nodes=48)
    yield case("16 switches, 48 nodes, 16 rules", ACCEPTED, switches=16, nodes=48, rules=16)
    yield case("15 switches, 47 nodes, 15 rules", ACCEPTED, switches=15, nodes=47, rules=15)
    yield case("no switches", (2, 4), switches=0)
    yield case("17 switches", (2, 4), switches=17)
    yield case("no nodes", (2, 8), nodes=0)
    yield case("49 nodes", (2, 8), nodes=49)
    yield case("1 node, 17 rules", (2, 24), rules=17)  # 12 + 12
    yield case("48 nodes, 17 rules", (2, 588), nodes=48, rules=17)  # 12 + 48 * 12
    yield case("7 starting words, 1 switch", (2, 28), starts=7)
    yield case("9 starting words, 1 switch", (2, 28), starts=9)
    yield case("no starting words", (2, 28), starts=0)
    yield case("1 starting word for each of 8 switches", (2, 28), switches=8, starts=8)
    yield case("127 starting words, 16 switches", (2, 28), switches=16, starts=127)
    yield case("129 starting words, 16 switches", (2, 28), switches=16, starts=129)
    yield case("7 starting words, 16 rules", (2, 156), rules=16, starts=7)  # 28 + 16 * 8
    largest = case("", ACCEPTED, switches=16, nodes=48, rules=16).data
    yield Case("the largest, 1 byte short", largest[:-1], (1, 1232))
    yield Case("the largest, 1 byte left", largest + b"\0", (1, 1236))


def last_number_cases():
    """Places and names at the far end: the last switch, node and rule."""

    def case(what, answer, nodes, rules, switches=16):
        return Case(what, Table(2, switches, nodes, rules, [0] * 8 * switches).encode(), answer)

    filled = [TRUE] * 46 + [ZERO]
    at_last = (15, 45)
    yield case("node 47 names node 46", ACCEPTED, filled + [(24, 15, 46)], [])
    yield case("node 47 names node 45", ACCEPTED, filled + [(10, 15, 45)], [])
    yield case("node 47 names itself", (3, 47), filled + [(6, 47, 0)], [])
    yield case("node 47 names node 48", (3, 47), filled + [(6, 48, 0)], [])
    yield case("node 47 is at switch 16", (3, 47), filled + [(10, 16, 45)], [])
    yield case("node 46 names node 47", (3, 46), [TRUE] * 46 + [(6, 47, 0), TRUE], [])
    yield case("16 rules at the last switch", ACCEPTED, filled, [at_last] * 16)
    yield case("rule 15 at switch 16", (4, 15), filled, [at_last] * 15 + [(16, 45)])
    yield case("rule 15 names a reading", (4, 15), filled, [at_last] * 15 + [(15, 46)])
    yield case("rule 15 names node 47 of 47", (4, 15), filled, [at_last] * 15 + [(15, 47)])
    yield case("rule 7 names a reading", (4, 7), filled, [at_last] * 7 + [(0, 46)] + [at_last])
    yield case("a rule names node 48 of 48", (4, 0), filled + [TRUE], [(0, 48)])
    yield case("a rule names node 47 of 48", ACCEPTED, filled + [TRUE], [(0, 47)])
    yield case("a rule at switch 1 of 1", (4, 0), [TRUE], [(1, 0)], switches=1)
    yield case("a rule at switch 0 of 1", ACCEPTED, [TRUE], [(0, 0)], switches=1)


# A node of every kind, to be named by rule 1 and as an operand by node 3. It is node 2, between
# the nodes of BEFORE and AFTER.
TRUTH_NODES = [
    (0, 0, 0),
    (1, 0, 0),
    (2, 0, 0),
    (3, 0, 0),
    (4, 0, 0),
    (5, 0, 0),
    (6, 0, 0),
    (7, 0, 0),
    (8, 0, 0),
    (9, 0, 0),
    (10, 1, 0),
    (11, 1, 1),
    (12, 1, 1),
]
READING_NODES = [
    (20, 1, 0),
    (21, 1, 0),
    (22, 1, 1),
    (23, 1, 1),
    (24, 1, 1),
]


def named_node_cases():
    def named_by_rule(node, answer):
        table = Table(1, 2, BEFORE + [node] + AFTER, [(0, 0), (1, 2)], [0] * 16)
        return Case(f"rule 1 names {node}", table.encode(), answer)

    def named_by_node(by, node, answer):
        table = Table(1, 2, BEFORE + [node, by], [], [0] * 16)
        return Case(f"{by} names {node}", table.encode(), answer)

    for node in TRUTH_NODES:
        yield named_by_rule(node, ACCEPTED)
        yield named_by_node((1, 2, 0), node, ACCEPTED)
        yield named_by_node((9, 0, 2), node, ACCEPTED)
        yield named_by_node((10, 1, 2), node, ACCEPTED)
        yield named_by_node((11, 2, 1), node, (3, 3))
        yield named_by_node((22, 1, 2), node, (3, 3))
        yield named_by_node((24, 1, 2), node, (3, 3))
    for node in READING_NODES:
        yield named_by_rule(node, (4, 1))
        yield named_by_node((1, 2, 0), node, (3, 3))
        yield named_by_node((9, 0, 2), node, (3, 3))
        yield named_by_node((10, 1, 2), node, (3, 3))
        yield named_by_node((11, 2, 1), node, ACCEPTED)
        yield named_by_node((22, 1, 2), node, ACCEPTED)
        yield named_by_node((24, 1, 2), node, ACCEPTED)


def order_cases():
    """Two or more faults: the first in reading order is answered."""

    def words(what, answer, *fields, more=b""):
        return Case(what, encode_words(*fields) + more, answer)

    starts = [8] + [0] * 8
    yield words("no bytes", (1, 0))
    yield words("3 bytes of a foreign code", (1, 0), more=b"\xff\xff\xff")
    yield words("foreign code, then nothing", (2, 0), 9)
    yield words("foreign code, and no switches", (2, 0), 9, 0)
    yield words("code, then nothing", (1, 4), 1)
    yield words("no switches, then nothing", (2, 4), 1, 0)
    yield words("17 switches, and 49 nodes", (2, 4), 1, 17, 49)
    yield words("switches, then 2 bytes", (1, 8), 1, 1, more=b"\0\0")
    yield words("no nodes, then nothing", (2, 8), 1, 1, 0)
    yield words("49 nodes, then nothing", (2, 8), 1, 1, 49)
    yield words("unknown kind, no a", (1, 16), 1, 1, 1, 99)
    yield words("unknown kind, 3 bytes of a", (1, 16), 1, 1, 1, 99, more=b"\0\0\0")
    yield words("wrong a, no b", (1, 20), 1, 1, 1, 21, 8)
    yield words("wrong a, 1 byte of b", (1, 20), 1, 1, 1, 21, 8, more=b"\0")
    yield words("wrong node, then nothing", (3, 0), 1, 1, 1, 21, 8, 0)
    yield words("wrong node 0, and cut node 1", (3, 0), 1, 1, 2, 21, 8, 0, 0)
    yield words("wrong nodes 0 and 1", (3, 0), 1, 1, 2, 21, 8, 0, 99, 0, 0)
    yield words("good node 0, wrong node 1", (3, 1), 1, 1, 2, 21, 7, 0, 99, 0, 0)
    yield words("good node 0, no node 1", (1, 24), 1, 1, 2, 21, 7, 0)
    yield words("wrong node 1, and 17 rules", (3, 1), 1, 1, 2, *TRUE, 1, 1, 0, 17)
    yield words("no number of rules", (1, 24), 1, 1, 1, *TRUE)
    yield words("17 rules, then nothing", (2, 24), 1, 1, 1, *TRUE, 17)
    yield words("rule at switch 1 of 1, no node", (1, 32), 1, 1, 1, *TRUE, 1, 1)
    yield words("rule at switch 1 of 1, then nothing", (4, 0), 1, 1, 1, *TRUE, 1, 1, 0)
    yield words("wrong rule 0, and no rule 1", (4, 0), 1, 1, 1, *TRUE, 2, 0, 1)
    yield words("wrong rules 0 and 1", (4, 0), 1, 1, 1, *TRUE, 2, 0, 1, 1, 0)
    yield words("good rule 0, wrong rule 1", (4, 1), 1, 1, 1, *TRUE, 2, 0, 0, 1, 0)
    yield words("good rule 0, no rule 1", (1, 36), 1, 1, 1, *TRUE, 2, 0, 0)
    yield words("wrong rule, and wrong number of words", (4, 0), 1, 1, 1, *TRUE, 1, 1, 0, 7)
    yield words("no number of words", (1, 28), 1, 1, 1, *TRUE, 0)
    yield words("wrong number of words, then nothing", (2, 28), 1, 1, 1, *TRUE, 0, 9)
    yield words("number of words, then nothing", (1, 32), 1, 1, 1, *TRUE, 0, 8)
    yield words("wrong rule, bytes left", (4, 0), 1, 1, 1, *TRUE, 1, 1, 0, *starts, 0)
    yield words("wrong node, bytes left", (3, 0), 1, 1, 1, 0, 2, 0, 0, *starts, 0)
    yield words("foreign code, bytes left", (2, 0), 3, 1, 1, *TRUE, 0, *starts, 0)
    yield words("sound, bytes left", (1, 64), 1, 1, 1, *TRUE, 0, *starts, 0)
    yield words("sound", ACCEPTED, 1, 1, 1, *TRUE, 0, *starts)


def all_cases():
    for cases in (
        missing_field_cases,
        left_over_cases,
        field_change_cases,
        node_cases,
        first_node_cases,
        size_cases,
        last_number_cases,
        named_node_cases,
        order_cases,
    ):
        yield from cases()


def main(batch):
    tally = Tally("written cases")
    cases = list(all_cases())
    answers = library_answers(batch, [case.data for case in cases])
    for case, answer in zip(cases, answers):
        tally.expect(f"{case.what}, reference", case.answer, judge(case.data))
        tally.expect(f"{case.what}, library", case.answer, answer)
    tally.finish()


if __name__ == "__main__":
    main(sys.argv[1])
