"""An independent judge of rule tables.

The format is written down as the list of all conditions in reading order, and the judgement
is the first that fails. No state is kept between conditions: each looks up the fields it
speaks of by their offset in the bytes.
"""

from typing import NamedTuple

ACCEPTED = (0, 0)

READING_KINDS = {1: "numbers", 2: "port sets"}

# What a and b of a node must be, by the node's kind.
OPERANDS = {
    0: ("bit", "unused"),
    1: ("truth", "unused"),
    2: ("truth", "truth"),
    3: ("truth", "truth"),
    4: ("truth", "truth"),
    5: ("truth", "truth"),
    6: ("truth", "unused"),
    7: ("truth", "unused"),
    8: ("truth", "unused"),
    9: ("truth", "truth"),
    10: ("switch", "truth"),
    11: ("reading", "reading"),
    12: ("reading", "reading"),
    20: ("word", "unused"),
    21: ("register", "unused"),
    22: ("reading", "reading"),
    23: ("reading", "reading"),
    24: ("switch", "reading"),
}
TRUTH_KINDS = range(0, 13)
READING_NODE_KINDS = range(20, 25)

# Offsets of the first fields, and sizes in bytes.
CODE, SWITCHES, NODE_COUNT, NODES = 0, 4, 8, 12
NODE_SIZE, RULE_SIZE, WORD_SIZE = 12, 8, 4


class Figures(NamedTuple):
    kind: str
    switches: int
    nodes: int
    rules: int
    bytes: int


def word_at(data, offset):
    return int.from_bytes(data[offset : offset + WORD_SIZE], "big")


def kind_of(data, node):
    return word_at(data, NODES + NODE_SIZE * node)


def operand_holds(data, role, value, node):
    """Whether `value` may stand where a node numbered `node` wants `role`."""
    return {
        "unused": lambda: value == 0,
        "bit": lambda: value in (0, 1),
        "word": lambda: True,
        "register": lambda: value < 8,
        "switch": lambda: value < word_at(data, SWITCHES),
        "truth": lambda: value < node and kind_of(data, value) in TRUTH_KINDS,
        "reading": lambda: value < node and kind_of(data, value) in READING_NODE_KINDS,
    }[role]()


def node_holds(data, node):
    offset = NODES + NODE_SIZE * node
    kind, a, b = (word_at(data, offset + WORD_SIZE * i) for i in range(3))
    if kind not in OPERANDS:
        return False
    role_a, role_b = OPERANDS[kind]
    return operand_holds(data, role_a, a, node) and operand_holds(data, role_b, b, node)


def front_conditions(data):
    """Every condition on a table at the front of the bytes in reading order, as (holds, number, place).

    Conditions after the first that fails mean nothing and must not be asked for.
    """

    def present(*offsets):
        for offset in offsets:
            yield offset + WORD_SIZE <= len(data), 1, offset

    yield from present(CODE)
    yield word_at(data, CODE) in READING_KINDS, 2, CODE

    yield from present(SWITCHES)
    switches = word_at(data, SWITCHES)
    yield 1 <= switches <= 16, 2, SWITCHES

    yield from present(NODE_COUNT)
    nodes = word_at(data, NODE_COUNT)
    yield 1 <= nodes <= 48, 2, NODE_COUNT
    for node in range(nodes):
        offset = NODES + NODE_SIZE * node
        yield from present(offset, offset + 4, offset + 8)
        yield node_holds(data, node), 3, node

    rule_count = rule_count_offset(data)
    yield from present(rule_count)
    rules = word_at(data, rule_count)
    yield rules <= 16, 2, rule_count
    for rule in range(rules):
        offset = rule_count + WORD_SIZE + RULE_SIZE * rule
        yield from present(offset, offset + 4)
        at, node = word_at(data, offset), word_at(data, offset + 4)
        yield at < switches and node < nodes and kind_of(data, node) in TRUTH_KINDS, 4, rule

    start_count = start_count_offset(data)
    yield from present(start_count)
    yield word_at(data, start_count) == 8 * switches, 2, start_count
    yield from present(*range(start_count + WORD_SIZE, table_end(data), WORD_SIZE))


def rule_count_offset(data):
    return NODES + NODE_SIZE * word_at(data, NODE_COUNT)


def start_count_offset(data):
    rule_count = rule_count_offset(data)
    return rule_count + WORD_SIZE + RULE_SIZE * word_at(data, rule_count)


def table_end(data):
    """The length of the table at the front, by its own counts."""
    return start_count_offset(data) + WORD_SIZE + WORD_SIZE * 8 * word_at(data, SWITCHES)


def conditions(data):
    """The same on a table that is all of the bytes."""
    yield from front_conditions(data)
    yield len(data) <= table_end(data), 1, table_end(data)


def first_refusal(checks):
    """(0, 0) where all conditions hold, else the number and place of the first that fails."""
    return next(((number, place) for holds, number, place in checks if not holds), ACCEPTED)


def judge(data):
    """(0, 0) for a sound table, else the refusal's (number, place)."""
    return first_refusal(conditions(data))


def figures(data):
    """The figures of a sound table."""
    assert judge(data) == ACCEPTED
    nodes = word_at(data, NODE_COUNT)
    return Figures(
        kind=READING_KINDS[word_at(data, CODE)],
        switches=word_at(data, SWITCHES),
        nodes=nodes,
        rules=word_at(data, NODES + NODE_SIZE * nodes),
        bytes=len(data),
    )
