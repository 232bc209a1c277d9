"""Random rule tables that are sound by the way they are made."""

from .table_format import (
    ALWAYS,
    AND,
    CONSTANT,
    CUT,
    EQUAL,
    IMPLIES,
    JOIN,
    MOST_NODES,
    MOST_RULES,
    MOST_SWITCHES,
    NOT,
    NUMBERS,
    ONCE,
    OR,
    PORT_SETS,
    PREVIOUSLY,
    READING_AT,
    REGISTER,
    REGISTERS,
    SAME,
    SINCE,
    TRUTH,
    TRUTH_AT,
    WITHIN,
    Table,
)

LEAVES = (TRUTH, CONSTANT, REGISTER)
OVER_TRUTHS = (NOT, AND, OR, IMPLIES, EQUAL, PREVIOUSLY, ONCE, ALWAYS, SINCE, TRUTH_AT)
OVER_READINGS = (WITHIN, SAME, JOIN, CUT, READING_AT)

# Words at the edges of signed and unsigned ranges, and at those of the table's own numbers.
EDGE_WORDS = (0, 1, 2, 7, 8, 12, 13, 15, 16, 17, 19, 20, 24, 25, 47, 48, 49, 255, 256,
              0x7FFFFFFF, 0x80000000, 0xFFFFFFFE, 0xFFFFFFFF)  # fmt: skip


def random_word(rng):
    return rng.choice(EDGE_WORDS) if rng.random() < 0.5 else rng.getrandbits(32)


def random_node(rng, switches, truths, readings):
    """A node over the lower truth and reading nodes given by their numbers."""
    kinds = LEAVES + (OVER_TRUTHS if truths else ()) + (OVER_READINGS if readings else ())
    kind = rng.choice(kinds)
    if kind == TRUTH:
        return kind, rng.randrange(2), 0
    if kind == CONSTANT:
        return kind, random_word(rng), 0
    if kind == REGISTER:
        return kind, rng.randrange(REGISTERS), 0
    if kind in (NOT, PREVIOUSLY, ONCE, ALWAYS):
        return kind, rng.choice(truths), 0
    if kind in (AND, OR, IMPLIES, EQUAL, SINCE):
        return kind, rng.choice(truths), rng.choice(truths)
    if kind == TRUTH_AT:
        return kind, rng.randrange(switches), rng.choice(truths)
    if kind == READING_AT:
        return kind, rng.randrange(switches), rng.choice(readings)
    return kind, rng.choice(readings), rng.choice(readings)


def random_table(rng):
    switches = rng.choice((1, MOST_SWITCHES, rng.randint(1, MOST_SWITCHES)))
    node_count = rng.choice((1, MOST_NODES, rng.randint(1, MOST_NODES)))
    nodes, truths, readings = [], [], []
    for number in range(node_count):
        node = random_node(rng, switches, truths, readings)
        (truths if node[0] < CONSTANT else readings).append(number)
        nodes.append(node)
    rule_count = rng.choice((0, MOST_RULES, rng.randint(0, MOST_RULES))) if truths else 0
    return Table(
        code=rng.choice((NUMBERS, PORT_SETS)),
        switches=switches,
        nodes=nodes,
        rules=[(rng.randrange(switches), rng.choice(truths)) for _ in range(rule_count)],
        starts=[random_word(rng) for _ in range(REGISTERS * switches)],
    )
