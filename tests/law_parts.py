#!/usr/bin/env python3
"""No part of the law of a list of calls is superfluous.

The law has four parts: verdict, counts, passed through, same everywhere. Each is checked on random listings, of the
right program and of wrong ones. The right program must keep all four on every listing, and for each part there must be
a wrong program that keeps the other three on every listing and that this part refuses.

Usage: law_parts.py [--listings N] [--seed N]
"""

import argparse
import random
import sys
from typing import NamedTuple

from reference.fleet_model import (
    COUNT_AT_ITS_END,
    LARGEST_WORD,
    NO_SPACE,
    NO_SUCH_REGISTER,
    NO_SUCH_SWITCH,
    NOT_HELD,
    Accepted,
    Fleet,
    Receive,
    Refused,
    Retire,
    Send,
    Set,
)
from reference.run_law import PARTS, Run, all_orders, in_order, record
from reference.table_format import (
    ALWAYS,
    CONSTANT,
    NUMBERS,
    ONCE,
    PORT_SETS,
    PREVIOUSLY,
    READING_AT,
    REGISTER,
    REGISTERS,
    SAME,
    SINCE,
    TRUTH_AT,
    WITHIN,
    Table,
    three_switches,
)
from reference.table_generator import random_node
from reference.wrong_fleets import NO_PART, ONE_PART, SEVERAL_PARTS

SMALL_WORDS = (0, 1, 3, 5, 0x7FFFFFFF, 0x80000000, 0xFFFFFFFF)


class Listing(NamedTuple):
    table: Table
    capacity: int
    calls: list


# Line 10 is refused. Each event happens before the next.
WORKED = Listing(
    three_switches(),
    16,
    [Set(0, 0, 9), Send(0), Set(0, 0, 4), Send(0), Receive(2, 1), Send(2)]
    + [Receive(1, 2), Receive(1, 0), Set(1, 0, 3), Receive(1, 7)],
)
# Its events with the two of switch 2 exchanged, which leaves several orders open.
EXCHANGED = Listing(
    three_switches(),
    16,
    [Set(0, 0, 9), Send(0), Set(0, 0, 4), Send(0), Send(2), Receive(2, 1)]
    + [Receive(1, 2), Receive(1, 0), Set(1, 0, 3)],
)
# The other order of these events that docs/law-orders.svg draws, by lines.
DRAWN_ORDER = [5, 7, 1, 2, 8, 9, 3, 4, 6]
# Switch 1 judges what was so at switch 0 one event before, switch 0 what was so two events before. Line 2 is refused.
ONE_AND_TWO_BEFORE = Listing(
    Table(
        NUMBERS,
        2,
        [(REGISTER, 0, 0), (CONSTANT, 5, 0), (SAME, 0, 1), (PREVIOUSLY, 2, 0), (PREVIOUSLY, 3, 0), (TRUTH_AT, 0, 3)],
        [(0, 4), (1, 5)],
        [5] + [0] * 15,
    ),
    1,
    [Set(0, 0, 6), Receive(0, 0), Send(0), Receive(1, 0)],
)

# A copy is retired, and its space is used again under a new number. Line 6 is refused.
RETIRED = Listing(
    three_switches(),
    1,
    [Send(0), Receive(1, 0), Retire(0), Set(0, 0, 9), Send(0), Receive(1, 0), Receive(1, 1)],
)


# Random listings.


def random_past_or_elsewhere(rng, switches, truths):
    """A node over the past or over another switch."""
    a, b = rng.choice(truths), rng.choice(truths)
    return rng.choice(
        ((PREVIOUSLY, a, 0), (ONCE, a, 0), (ALWAYS, a, 0), (SINCE, a, b), (TRUTH_AT, rng.randrange(switches), b))
    )


def random_small_table(rng):
    """A register and what is known of it elsewhere are compared, and a few random nodes and rules stand on that."""
    switches = rng.randint(2, 3)
    nodes = [(REGISTER, rng.randrange(3), 0), (READING_AT, rng.randrange(switches), 0)]
    nodes.append((rng.choice((WITHIN, SAME)), *rng.sample((0, 1), 2)))
    truths, readings = [2], [0, 1]
    for number in range(3, rng.randint(3, 6)):
        if rng.random() < 0.6:
            node = random_past_or_elsewhere(rng, switches, truths)
        else:
            node = random_node(rng, switches, truths, readings)
        (truths if node[0] < CONSTANT else readings).append(number)
        nodes.append(node)
    rules = [(rng.randrange(switches), rng.choice(truths)) for _ in range(rng.randint(1, 4))]
    starts = [rng.choice(SMALL_WORDS) for _ in range(REGISTERS * switches)]
    return Table(rng.choice((NUMBERS, PORT_SETS)), switches, nodes, rules, starts)


def random_switch(rng, table):
    """The switch that node 1 looks at, another one, or now and then one that there is not."""
    choice = rng.random()
    if choice < 0.4:
        return table.nodes[1][1]
    return rng.randrange(table.switches) if choice < 0.98 else table.switches


def random_call(rng, table, carrier):
    """A call, mostly one that is accepted and that matters: of a register that is read, of a number that was sent, and
    by a switch other than its sender."""
    switch = random_switch(rng, table)
    choice = rng.random()
    if choice < 0.3:
        read = [a for kind, a, _ in table.nodes if kind == REGISTER]
        register = rng.choice(read) if rng.random() < 0.8 else rng.randrange(REGISTERS + 1)
        return Set(switch, register, rng.choice(SMALL_WORDS))
    if choice < 0.6 or (not carrier.held and rng.random() < 0.7):
        return Send(switch)
    if choice > 0.96 or not carrier.held or rng.random() < 0.15:
        number = rng.randrange(carrier.next + 1)
        return Retire(number) if choice > 0.96 else Receive(switch, number)
    number, copy = rng.choice(list(carrier.held.items()))
    return Receive((copy[0] + rng.randint(1, table.switches - 1)) % table.switches, number)


def random_listing(rng):
    """Half of the listings begin with a set that node 1 looks at, and that another switch hears of."""
    table = random_small_table(rng)
    capacity = rng.choice((1, 2, 16, 16))
    fleet = Fleet(table, capacity)
    calls = []
    if rng.random() < 0.5:
        watched = table.nodes[1][1]
        listener = (watched + rng.randint(1, table.switches - 1)) % table.switches
        calls = [Set(watched, table.nodes[0][1], rng.choice(SMALL_WORDS)), Send(watched), Receive(listener, 0)]
    for call in calls:
        fleet.call(call)
    for _ in range(rng.randint(1, 9 - len(calls))):
        calls.append(random_call(rng, table, fleet.carrier))
        fleet.call(calls[-1])
    return Listing(table, capacity, calls)


# What the model must do itself.


def expect(name, expected, found):
    if expected != found:
        sys.exit(f"{name}: expected {expected}, found {found}")


def check_worked_listing():
    run = Run(Fleet, *WORKED)
    numbers = {2: 0, 4: 1, 6: 2}
    shown = [(1, 0), (2, 0), (3, 0), (4, 0), (1, 0), (2, 0), (1, 0), (2, 0), (3, 1)]
    events = [Accepted(count, mask, numbers.get(line)) for line, (count, mask) in enumerate(shown, 1)]
    expect("worked listing", [*events, Refused(NOT_HELD)], run.answers)

    def known(line, s, j):
        return record(run.table, run.memories[line - 1], s, j)

    expect("words of switch 0 after line 1", [9, 9, 1, 1], known(1, 0, 0)[1:])
    expect("words of switch 1 after line 7", [7, 4, 1, 1], known(7, 1, 1)[1:])
    expect("count of switch 1 for switch 0 after line 8", 4, known(8, 1, 0)[0])
    expect("words of switch 1 after line 9", [3, 4, 0, 0], known(9, 1, 1)[1:])


def check_previous_words():
    """One switch, and a node that holds what another one was before."""
    nodes = [(REGISTER, 0, 0), (CONSTANT, 5, 0), (SAME, 0, 1), (PREVIOUSLY, 2, 0)]
    fleet = Fleet(Table(NUMBERS, 1, nodes, [], [5] + [0] * 7), 1)
    found = [fleet.memory[1:5]]
    for call in (Set(0, 0, 6), Send(0)):
        fleet.call(call)
        found.append(fleet.memory[1:5])
    expect("words at states 0 to 2", [[5, 5, 1, 1], [6, 5, 0, 1], [6, 5, 0, 0]], found)


def check_refusals():
    fleet = Fleet(WORKED.table, 1)
    fleet.call(Send(0))
    fleet.memory[fleet.block_length + fleet.record_length] = LARGEST_WORD
    cases = [
        (Set(3, 8, 0), NO_SUCH_SWITCH),
        (Set(1, 8, 0), NO_SUCH_REGISTER),
        (Set(1, 7, 0), COUNT_AT_ITS_END),
        (Send(1), COUNT_AT_ITS_END),
        (Receive(1, 7), COUNT_AT_ITS_END),
        (Send(0), NO_SPACE),
        (Receive(0, 1), NOT_HELD),
        (Retire(1), NOT_HELD),
    ]
    before = list(fleet.memory)
    for call, reason in cases:
        expect(f"{call}", Refused(reason), fleet.call(call))
    expect("memory after refused calls", before, fleet.memory)


def check_drawn_orders():
    """The worked listing has one allowed order, its own; the drawn order of the other one answers the same."""
    worked = Run(Fleet, *WORKED)
    expect("orders of the worked listing", [worked.events], list(all_orders(worked, frozenset(worked.events))))
    run = Run(Fleet, *EXCHANGED)
    order = [line - 1 for line in DRAWN_ORDER]
    allowed = list(all_orders(run, frozenset(run.events)))
    expect("number of allowed orders", 104, len(allowed))
    expect("drawn order is allowed", True, order in allowed)
    fleet = Fleet(EXCHANGED.table, 3)
    for e, call in zip(order, in_order(run, order)):
        expect(f"drawn order, line {e + 1}", run.answers[e][:2], fleet.call(call)[:2])
    expect("drawn order, memory", run.last_memory, fleet.memory)


# The table of programs and parts.


def refusals(program, listings, seed):
    """For each part, how many listings it refuses of a program."""
    rng = random.Random(seed)
    runs = [Run(program, *listing) for listing in listings]
    return {part: sum(not check(run, rng) for run in runs) for part, check in PARTS.items()}


def print_row(name, cells):
    print(f"{name:<66}" + "".join(f"{cell:<16}" for cell in cells).rstrip())


def judged(name, program, refused_by, listings, seed):
    """Prints a program's row; answers the parts that refuse it, and whether these are the ones it says."""
    found = refusals(program, listings, seed)
    print_row(name, [f"refused {n}" if n else "holds" for n in found.values()])
    refused = {part for part, n in found.items() if n}
    if refused != refused_by:
        print(f"    expected refusals: {sorted(refused_by)}")
    return refused, refused == refused_by


def main():
    parser = argparse.ArgumentParser(description=__doc__, formatter_class=argparse.RawDescriptionHelpFormatter)
    parser.add_argument("--listings", type=int, default=300)
    parser.add_argument("--seed", type=int, default=20)
    options = parser.parse_args()
    for check in (check_worked_listing, check_previous_words, check_refusals, check_drawn_orders):
        check()
    rng = random.Random(options.seed)
    listings = [WORKED, EXCHANGED, ONE_AND_TWO_BEFORE, RETIRED]
    listings += [random_listing(rng) for _ in range(options.listings)]

    print(f"{len(listings)} listings; a number is how many of them a part refuses\n")
    print_row("program", PARTS)
    _, sound = judged("the right program", Fleet, set(), listings, options.seed)
    alone = set()
    for heading, programs in (
        ("refused by one part only", ONE_PART),
        ("refused by several parts", SEVERAL_PARTS),
        ("refused by none, but against what each call itself promises", NO_PART),
    ):
        print(f"\n{heading}")
        for program in programs:
            refused, as_said = judged(f"  {program.name}", program, program.refused_by, listings, options.seed)
            sound &= as_said
            alone |= refused if len(refused) == 1 else set()
    missing = set(PARTS) - alone
    print(f"\nparts that refuse no wrong program alone: {sorted(missing) if missing else 'none'}")
    sys.exit(0 if sound and not missing else 1)


if __name__ == "__main__":
    main()
