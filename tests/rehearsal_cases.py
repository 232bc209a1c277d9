#!/usr/bin/env python3
"""Rehearsal files with what the program prints for each, worked out by hand.

Usage: rehearsal_cases.py PROGRAM

The reference has to agree with every case too.
"""

import sys

from reference.rehearsal_format import (
    MOST_CALLS,
    POOL_COPIES,
    RECEIVE,
    RETIRE,
    SEND,
    SET,
    encode_calls,
    receive,
    retire,
    send,
    set_register,
)
from reference.rehearsal_program import expect_outcome, run_program
from reference.rehearsal_reference import Outcome, rehearse
from reference.table_format import (
    NUMBERS,
    PORT_SETS,
    TableBuilder,
    encode_words,
    three_switches,
)
from reference.table_library import Tally

HEADING = "line switch count broken number\n"

# The table of three switches has 172 bytes: the count of the calls is at 172, and call i at 176 + 16i.
THREE = three_switches().encode()
COUNT = 172
FIRST = 176
MINUS_ONE = 2**32 - 1


def listing(*lines):
    """An accepted input's listing. Lines are given without their number."""
    return Outcome(0, HEADING + "".join(f"{i} {line}\n" for i, line in enumerate(lines, 1)))


def events_refused(place):
    return Outcome(1, f"events refused 13 {place}\n")


def table_refused(number, place):
    return Outcome(1, f"table refused {number} {place}\n")


def of_three(*calls):
    return THREE + encode_calls(calls)


def bad_call(*words):
    """The table of three switches with one call of the given words."""
    return THREE + encode_words(1, *words)


def worked():
    """Knowledge travels by way of switch 2, and an older copy changes nothing."""
    calls = (
        set_register(0, 0, 9),
        send(0),
        set_register(0, 0, 4),
        send(0),
        receive(2, 1),
        send(2),
        receive(1, 2),
        receive(1, 0),
        set_register(1, 0, 3),
        receive(1, 7),
    )
    yield (
        "the worked listing",
        of_three(*calls),
        listing(
            "0 1 0 -",
            "0 2 0 0",
            "0 3 0 -",
            "0 4 0 1",
            "2 1 0 -",
            "2 2 0 2",
            "1 1 0 -",
            "1 2 0 -",
            "1 3 1 -",
            "refused 10",
        ),
    )


def counts():
    yield "no calls", of_three(), listing()
    most = [set_register(0, 0, 1)] * MOST_CALLS
    lines = (f"0 {state} 0 -" for state in range(1, MOST_CALLS + 1))
    yield "1,024 calls", of_three(*most), listing(*lines)
    yield "1,025 calls", of_three(*most, set_register(0, 0, 1)), events_refused(COUNT)
    yield "a count of 1,025 alone", THREE + encode_words(1025), events_refused(COUNT)
    yield "the largest count", THREE + encode_words(MINUS_ONE), events_refused(COUNT)


def missing_words():
    yield "no count", THREE, events_refused(COUNT)
    for length in (1, 2, 3):
        yield f"{length} bytes of the count", THREE + bytes(length), events_refused(COUNT)
    whole = of_three(set_register(0, 0, 1), send(0))
    for word in range(8):
        place = FIRST + 4 * word
        for length in range(4):
            cut = whole[: place + length]
            yield f"word {word} cut to {length} bytes", cut, events_refused(place)
    yield "a count of 1,024 with one call", THREE + encode_words(1024, *send(0)), events_refused(FIRST + 16)
    # The value of a word is judged before the next word is missed.
    yield "operation 0 and no more", THREE + encode_words(1, 0), events_refused(FIRST)
    yield "a retire at a switch and no more", THREE + encode_words(1, RETIRE, 1), events_refused(FIRST + 4)
    yield "a send with a and no more", THREE + encode_words(1, SEND, 0, 1), events_refused(FIRST + 8)


def bad_words():
    for operation in (0, 5, 6, 255, 2**24, MINUS_ONE):
        yield f"operation {operation}", bad_call(operation, 0, 0, 0), events_refused(FIRST)
    yield "operation 0 in the second call", of_three(send(0), (0, 0, 0, 0)), events_refused(FIRST + 16)
    for word in (1, 2**31, MINUS_ONE):
        yield f"send with a = {word}", bad_call(SEND, 0, word, 0), events_refused(FIRST + 8)
        yield f"send with b = {word}", bad_call(SEND, 0, 0, word), events_refused(FIRST + 12)
        yield f"receive with b = {word}", bad_call(RECEIVE, 0, 0, word), events_refused(FIRST + 12)
        yield f"retire with switch {word}", bad_call(RETIRE, word, 0, 0), events_refused(FIRST + 4)
        yield f"retire with b = {word}", bad_call(RETIRE, 0, 0, word), events_refused(FIRST + 12)
    yield "send with a and b", bad_call(SEND, 0, 1, 1), events_refused(FIRST + 8)
    yield "retire with switch and b", bad_call(RETIRE, 1, 0, 1), events_refused(FIRST + 4)
    yield "a bad word in the last of 1,024 calls", (
        of_three(*[send(0)] * 1023, (RECEIVE, 0, 0, 1))
    ), events_refused(FIRST + 16 * 1023 + 12)
    # Every word of a set is used; a switch or register that is too large is refused when it runs.
    yield "a set with the largest words", bad_call(SET, MINUS_ONE, MINUS_ONE, MINUS_ONE), listing("refused 7")


def bytes_left():
    for length in (1, 3, 4, 16):
        yield f"{length} bytes after no calls", of_three() + bytes(length), events_refused(FIRST)
        yield f"{length} bytes after a call", of_three(send(0)) + bytes(length), events_refused(FIRST + 16)
    # Left-over bytes come last.
    yield "operation 0 and bytes left", bad_call(0, 0, 0, 0) + b"\1", events_refused(FIRST)


def tables():
    yield "no bytes", b"", table_refused(1, 0)
    yield "half a table", THREE[:60], table_refused(1, 60)
    yield "a foreign code", encode_words(3) + of_three()[4:], table_refused(2, 0)
    # Node 2 of kind 13, at offset 36.
    yield "a bad node", THREE[:36] + encode_words(13) + THREE[40:] + encode_words(0), table_refused(3, 2)
    yield "a rule at switch 3", THREE[:64] + encode_words(3) + THREE[68:] + encode_words(0), table_refused(4, 0)
    # The table is judged before the calls, which are wrong too.
    yield "17 switches and no calls", THREE[:4] + encode_words(17) + THREE[8:], table_refused(2, 4)


def refused_calls():
    yield (
        "switch before register, before the carrier",
        of_three(
            set_register(3, 0, 0),
            set_register(0, 8, 0),
            set_register(3, 8, 0),
            set_register(MINUS_ONE, 0, 0),
            set_register(2, MINUS_ONE, 0),
            send(3),
            receive(3, 0),
            receive(0, 0),
            retire(0),
            set_register(0, 7, 1),
        ),
        listing(
            "refused 7",
            "refused 8",
            "refused 7",
            "refused 7",
            "refused 8",
            "refused 7",
            "refused 7",
            "refused 10",
            "refused 10",
            "0 1 0 -",
        ),
    )


def full_pool():
    """16 copies fill the pool. A retire makes space, and its number is never given again."""
    calls = [send(0)] * POOL_COPIES + [
        send(0),
        send(3),
        retire(3),
        retire(3),
        send(2),
        send(2),
        receive(1, 3),
        receive(1, 16),
        retire(16),
        receive(1, 16),
        send(1),
        receive(0, 17),
    ]
    lines = [f"0 {state} 0 {state - 1}" for state in range(1, POOL_COPIES + 1)] + [
        "refused 9",
        "refused 7",
        "retired 3",
        "refused 10",
        "2 1 0 16",
        "refused 9",
        "refused 10",
        "1 1 0 -",
        "retired 16",
        "refused 10",
        "1 2 0 17",
        "0 17 0 -",
    ]
    yield "a full pool", of_three(*calls), listing(*lines)


def own_copy():
    """A switch receives what it sent itself: one event more, and nothing else."""
    yield (
        "a switch's own copy",
        of_three(set_register(1, 0, 5), send(1), set_register(1, 0, 4), receive(1, 0)),
        listing("1 1 0 -", "1 2 0 0", "1 3 1 -", "1 4 1 -"),
    )


def previously():
    """Whether register 0 was 5 one state before. State 0 has no state before it and asks itself."""
    t = TableBuilder(NUMBERS, switches=1)
    t.rule(0, t.previously(t.same(t.register(0), t.constant(5))))
    t.start(0, 0, 5)
    calls = (set_register(0, 0, 6), send(0), set_register(0, 0, 5), send(0))
    yield "previously", t.table.encode() + encode_calls(calls), listing("0 1 0 -", "0 2 1 0", "0 3 1 -", "0 4 0 1")


def past_time():
    """a is 'register 0 is 1', b is 'register 1 is 1'. Bits: 1 a since b, 2 once b, 4 always a, 8 previously b."""
    t = TableBuilder(NUMBERS, switches=1)
    one = t.constant(1)
    a = t.same(t.register(0), one)
    b = t.same(t.register(1), one)
    for node in (t.since(a, b), t.once(b), t.always(a), t.previously(b)):
        t.rule(0, node)
    t.start(0, 0, 1)
    calls = (
        send(0),
        set_register(0, 1, 1),
        set_register(0, 1, 0),
        set_register(0, 0, 0),
        set_register(0, 0, 1),
        set_register(0, 1, 1),
        send(0),
    )
    # State 0: a holds and b does not, so since, once and previously are false and always is true.
    yield "past time", t.table.encode() + encode_calls(calls), listing(
        "0 1 11 0",  # b is still false, and was
        "0 2 8 -",  # b holds now, and did not before
        "0 3 0 -",  # b held before, a holds since
        "0 4 13 -",  # a fails: since and always end, and b was false before
        "0 5 13 -",  # a holds again: always stays false, since has no b
        "0 6 12 -",  # b holds again
        "0 7 4 1",
    )


def truths():
    """All truth kinds of no time. Bit 2 × kind is its value false; register 0 is p and register 1 is q."""
    t = TableBuilder(NUMBERS, switches=1)
    one = t.constant(1)
    p = t.same(t.register(0), one)
    q = t.same(t.register(1), one)
    nodes = (
        t.truth(True),
        t.truth(False),
        t.negation(p),
        t.both(p, q),
        t.either(p, q),
        t.implies(p, q),
        t.equal(p, q),
        t.within(t.register(0), t.register(1)),
    )
    for node in nodes:
        t.rule(0, node)
    calls = (set_register(0, 0, 0), set_register(0, 0, 1), set_register(0, 1, 1), set_register(0, 0, 0))
    false = 2
    yield "truths", t.table.encode() + encode_calls(calls), listing(
        f"0 1 {false + 8 + 16} -",  # p and q false: and, or
        f"0 2 {false + 4 + 8 + 32 + 64 + 128} -",  # p alone: not, and, implies, equal, within
        f"0 3 {false + 4} -",  # both: not
        f"0 4 {false + 8 + 64} -",  # q alone: and, equal
    )


def ends_of_the_range():
    """Sums and differences stay at the ends: the largest plus 1 is the largest, the least minus 1 the least."""
    t = TableBuilder(NUMBERS, switches=1)
    largest = t.constant(2**31 - 1)
    least = t.constant(2**31)
    one = t.constant(1)
    t.rule(0, t.same(t.join(largest, one), largest))
    t.rule(0, t.same(t.cut(least, one), least))
    t.rule(0, t.within(least, largest))
    t.rule(0, t.within(largest, least))
    yield "ends of the range", t.table.encode() + encode_calls([send(0)]), listing("0 1 8 0")


def port_sets():
    """Ports {0, 1, 2} without {1} are {0, 2}; the last rule fails once port 31 is set."""
    t = TableBuilder(PORT_SETS, switches=1)
    three = t.constant(7)
    second = t.constant(2)
    others = t.constant(5)
    own = t.register(0)
    t.rule(0, t.same(t.cut(three, second), others))
    t.rule(0, t.same(t.join(others, second), three))
    t.rule(0, t.within(others, three))
    t.rule(0, t.within(three, others))
    t.rule(0, t.within(own, three))
    calls = (set_register(0, 0, 6), set_register(0, 0, 2**31 + 2))
    yield "port sets", t.table.encode() + encode_calls(calls), listing("0 1 8 -", "0 2 24 -")


def at_a_switch():
    """Switch 1 watches whether switch 0 was ever 1, as it knows, and switch 0 watches its own newest state.

    Rule 0, at switch 1: not (once register 0 is 1) at switch 0. Rule 1, at switch 0: register 0 at
    switch 0 is register 0.
    """
    t = TableBuilder(NUMBERS, switches=2)
    own = t.register(0)
    once = t.once(t.same(own, t.constant(1)))
    t.rule(1, t.negation(t.truth_at(0, once)))
    t.rule(0, t.same(t.reading_at(0, own), own))
    calls = (
        send(0),
        set_register(0, 0, 1),
        set_register(0, 0, 0),
        send(0),
        receive(1, 0),
        receive(1, 1),
        receive(1, 0),
        set_register(1, 0, 0),
    )
    yield "at a switch", t.table.encode() + encode_calls(calls), listing(
        "0 1 0 0",
        "0 2 0 -",
        "0 3 0 -",
        "0 4 0 1",
        "1 1 0 -",  # the first copy is from before the 1
        "1 2 1 -",  # the second knows of it
        "1 3 1 -",  # the first again takes nothing back
        "1 4 1 -",
    )


def knowledge():
    """What every switch knows at the end of a short rehearsal of three switches.

    Nodes: register 0, register 0 at switch 0, whether that is within the own one, whether it always was.
    """
    calls = (set_register(0, 0, 9), send(0), receive(1, 0))
    listed = listing("0 1 0 -", "0 2 0 0", "1 1 1 -")
    known = (
        "0 0 2 9 9 1 1",
        "0 1 0 7 5 1 1",
        "0 2 0 0 5 0 0",
        "1 0 2 9 9 1 1",
        "1 1 1 7 9 0 0",
        "1 2 0 0 5 0 0",
        "2 0 0 5 5 1 1",
        "2 1 0 7 5 1 1",
        "2 2 0 0 5 0 0",
    )
    text = listed.text + "\nswitch of count words\n" + "".join(f"{line}\n" for line in known)
    yield "knowledge", of_three(*calls), Outcome(0, text)


CASES = (
    worked,
    counts,
    missing_words,
    bad_words,
    bytes_left,
    tables,
    refused_calls,
    full_pool,
    own_copy,
    previously,
    past_time,
    truths,
    ends_of_the_range,
    port_sets,
    at_a_switch,
)
KNOWING_CASES = (knowledge,)


def main(program):
    tally = Tally("rehearsal cases")
    for cases, arguments in ((CASES, ()), (KNOWING_CASES, ("--knows",))):
        for name, data, wanted in (case for make in cases for case in make()):
            said = rehearse(data, knows=bool(arguments))
            tally.expect(f"{name}, reference", (wanted.status, wanted.text), (said.status, said.text))
            expect_outcome(tally, name, wanted, run_program(program, data, *arguments))
    # A refused input prints no more with the flag.
    expect_outcome(tally, "refused with the flag", events_refused(COUNT), run_program(program, THREE, "--knows"))
    tally.finish()


if __name__ == "__main__":
    main(sys.argv[1])
