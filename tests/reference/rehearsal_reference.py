"""An independent reference for rehearsals, by the definition of the logic over the history.

It keeps the events and which happens before which, and works out a node's value at a state by
the recursive definition. It keeps no records, copies nothing from switch to switch and merges
nothing: what one switch knows of another is only ever read off "happens before".
"""

from dataclasses import dataclass
from typing import NamedTuple, Optional

from .table_reference import (
    ACCEPTED,
    NODE_COUNT,
    NODE_SIZE,
    NODES,
    RULE_SIZE,
    SWITCHES,
    WORD_SIZE,
    first_refusal,
    front_conditions,
    rule_count_offset,
    start_count_offset,
    table_end,
    word_at,
)

SET, SEND, RECEIVE, RETIRE = range(1, 5)
MOST_CALLS = 1024
CALL_WORDS = 4
REGISTERS = 8
POOL_COPIES = 16

# Numbers of the refusals of a call and of the events.
NO_SWITCH, NO_REGISTER, FULL, NOT_HELD, EVENTS = 7, 8, 9, 10, 13

LEAST, MOST = -(2**31), 2**31 - 1


def event_conditions(data, start):
    """Every condition on the events at offset `start`, as those of a table."""

    def present(offset):
        return offset + WORD_SIZE <= len(data), EVENTS, offset

    yield present(start)
    count = word_at(data, start)
    yield count <= MOST_CALLS, EVENTS, start
    for call in range(count):
        first = start + WORD_SIZE + CALL_WORDS * WORD_SIZE * call
        operation, switch, a, b = (first + WORD_SIZE * word for word in range(CALL_WORDS))
        yield present(operation)
        named = word_at(data, operation)
        yield named in (SET, SEND, RECEIVE, RETIRE), EVENTS, operation
        yield present(switch)
        yield named != RETIRE or word_at(data, switch) == 0, EVENTS, switch
        yield present(a)
        yield named != SEND or word_at(data, a) == 0, EVENTS, a
        yield present(b)
        yield named == SET or word_at(data, b) == 0, EVENTS, b
    end = start + WORD_SIZE + CALL_WORDS * WORD_SIZE * count
    yield len(data) <= end, EVENTS, end


def calls_of(data, start):
    """The calls of sound events, each as its four words."""
    first = start + WORD_SIZE
    words = [word_at(data, offset) for offset in range(first, len(data), WORD_SIZE)]
    return [tuple(words[i : i + CALL_WORDS]) for i in range(0, len(words), CALL_WORDS)]


class Numbers:
    """A word as a number in two's complement."""

    @staticmethod
    def reading(word):
        return word - 2**32 if word > MOST else word

    @staticmethod
    def word(reading):
        return reading % 2**32

    @staticmethod
    def join(a, b):
        return max(LEAST, min(MOST, a + b))

    @staticmethod
    def cut(a, b):
        return max(LEAST, min(MOST, a - b))

    @staticmethod
    def within(a, b):
        return a <= b


class Ports:
    """A word as a set of ports."""

    @staticmethod
    def reading(word):
        return frozenset(port for port in range(32) if word >> port & 1)

    @staticmethod
    def word(reading):
        return sum(2**port for port in reading)

    @staticmethod
    def join(a, b):
        return a | b

    @staticmethod
    def cut(a, b):
        return a - b

    @staticmethod
    def within(a, b):
        return a <= b


KINDS = {1: Numbers, 2: Ports}


class Rules:
    """What a sound table at the front of the bytes says."""

    def __init__(self, data):
        self.kind = KINDS[word_at(data, 0)]
        self.switches = word_at(data, SWITCHES)
        self.nodes = [
            tuple(word_at(data, NODES + NODE_SIZE * node + WORD_SIZE * i) for i in range(3))
            for node in range(word_at(data, NODE_COUNT))
        ]
        first = rule_count_offset(data)
        self.rules = [
            (word_at(data, offset), word_at(data, offset + WORD_SIZE))
            for offset in range(first + WORD_SIZE, start_count_offset(data), RULE_SIZE)
        ]
        first = start_count_offset(data) + WORD_SIZE
        self.starts = [word_at(data, offset) for offset in range(first, table_end(data), WORD_SIZE)]


@dataclass(frozen=True)
class Event:
    """An accepted set, send or receive. It makes state (switch, state)."""

    switch: int
    state: int
    # Register and word of a set.
    register: Optional[int] = None
    word: Optional[int] = None
    # The send of the copy that a receive takes.
    source: Optional[int] = None


class History:
    """The events so far, by their number, and which happens before which."""

    def __init__(self, switches):
        self.events = []
        # The numbers of each switch's events, in their order.
        self.of_switch = [[] for _ in range(switches)]
        # For each event the set of those that happen before it, one bit for each.
        self.before = []

    def states(self, switch):
        """The number of the switch's events, which is that of its newest state."""
        return len(self.of_switch[switch])

    def add(self, switch, **details):
        """Adds an event of the switch and answers its number."""
        direct = list(self.of_switch[switch][-1:])
        if details.get("source") is not None:
            direct.append(details["source"])
        number = len(self.events)
        self.events.append(Event(switch, self.states(switch) + 1, **details))
        self.of_switch[switch].append(number)
        chains = 0
        for event in direct:
            chains |= self.before[event] | 1 << event
        self.before.append(chains)
        return number

    def event(self, switch, state):
        return self.of_switch[switch][state - 1]

    def latest(self, other, switch, state):
        """The newest state of `other` that is state (switch, state) or happens before it; or 0."""
        if state == 0:
            return 0
        here = self.event(switch, state)
        reached = self.before[here] | 1 << here
        own = reversed(self.of_switch[other])
        return next((self.events[e].state for e in own if reached >> e & 1), 0)


class Meaning:
    """The value of each node at each state, by the recursive definition."""

    def __init__(self, rules, history):
        self.rules = rules
        self.history = history
        self.known = {}
        self.held = {}

    def register(self, switch, state, number):
        """The word in a register: the last one set, or the starting word."""
        key = switch, state, number
        if key not in self.held:
            if state == 0:
                word = self.rules.starts[REGISTERS * switch + number]
            else:
                event = self.history.events[self.history.event(switch, state)]
                own = event.register == number
                word = event.word if own else self.register(switch, state - 1, number)
            self.held[key] = word
        return self.held[key]

    def value(self, node, switch, state):
        key = node, switch, state
        if key not in self.known:
            self.known[key] = self.defined(node, switch, state)
        return self.known[key]

    def defined(self, node, switch, state):
        kind, a, b = self.rules.nodes[node]
        reading = self.rules.kind

        def now(other):
            return self.value(other, switch, state)

        def before(other):
            return self.value(other, switch, state - 1)

        def at(other, node):
            return self.value(node, other, self.history.latest(other, switch, state))

        first = state == 0
        return {
            0: lambda: a == 1,
            1: lambda: not now(a),
            2: lambda: now(a) and now(b),
            3: lambda: now(a) or now(b),
            4: lambda: not now(a) or now(b),
            5: lambda: now(a) == now(b),
            6: lambda: now(a) if first else before(a),
            7: lambda: now(a) if first else now(a) or before(node),
            8: lambda: now(a) if first else now(a) and before(node),
            9: lambda: now(b) if first else now(b) or (now(a) and before(node)),
            10: lambda: at(a, b),
            11: lambda: reading.within(now(a), now(b)),
            12: lambda: now(a) == now(b),
            20: lambda: reading.reading(a),
            21: lambda: reading.reading(self.register(switch, state, a)),
            22: lambda: reading.join(now(a), now(b)),
            23: lambda: reading.cut(now(a), now(b)),
            24: lambda: at(a, b),
        }[kind]()

    def word(self, node, switch, state):
        """The value as a record has it: 0 or 1 for a truth, else the reading's word."""
        value = self.value(node, switch, state)
        return int(value) if isinstance(value, bool) else self.rules.kind.word(value)

    def broken(self, switch, state):
        """The rules at the switch whose node is false, one bit for each."""
        return sum(
            2**number
            for number, (at, node) in enumerate(self.rules.rules)
            if at == switch and not self.value(node, switch, state)
        )


class Line(NamedTuple):
    """One line of the listing. An event has switch, count and mask, and a send its number."""

    text: str
    switch: Optional[int] = None
    count: Optional[int] = None
    broken: Optional[int] = None
    number: Optional[int] = None


class Rehearsal:
    """Runs calls one after another."""

    def __init__(self, rules):
        self.rules = rules
        self.history = History(rules.switches)
        self.meaning = Meaning(rules, self.history)
        # The send of each held copy, by the copy's number.
        self.copies = {}
        self.next = 0

    def refusal(self, operation, switch, a):
        """The number of the refusal, or None. Switch, then register, then the carrier."""
        if operation == RETIRE:
            return None if a in self.copies else NOT_HELD
        if switch >= self.rules.switches:
            return NO_SWITCH
        if operation == SET and a >= REGISTERS:
            return NO_REGISTER
        if operation == SEND and len(self.copies) == POOL_COPIES:
            return FULL
        if operation == RECEIVE and a not in self.copies:
            return NOT_HELD
        return None

    def accept(self, operation, switch, a, b):
        """Adds the event and answers its number, and that of a send's copy."""
        if operation == SET:
            return self.history.add(switch, register=a, word=b), None
        if operation == RECEIVE:
            return self.history.add(switch, source=self.copies[a]), None
        event = self.history.add(switch)
        copy, self.next = self.next, self.next + 1
        self.copies[copy] = event
        return event, copy

    def run(self, line, call):
        operation, switch, a, b = call
        number = self.refusal(operation, switch, a)
        if number is not None:
            return Line(f"{line} refused {number}")
        if operation == RETIRE:
            del self.copies[a]
            return Line(f"{line} retired {a}")
        event, copy = self.accept(operation, switch, a, b)
        state = self.history.events[event].state
        # Every node is worked out as soon as the state is there, so that no recursion gets deep.
        for node in range(len(self.rules.nodes)):
            self.meaning.value(node, switch, state)
        broken = self.meaning.broken(switch, state)
        shown = "-" if copy is None else copy
        return Line(f"{line} {switch} {state} {broken} {shown}", switch, state, broken, copy)

    def knowledge(self):
        """What each switch knows of each at the end, a line for each pair."""
        for switch in range(self.rules.switches):
            state = self.history.states(switch)
            for other in range(self.rules.switches):
                count = self.history.latest(other, switch, state)
                nodes = range(len(self.rules.nodes))
                words = (self.meaning.word(node, other, count) for node in nodes)
                yield " ".join(str(x) for x in (switch, other, count, *words))


HEADING = "line switch count broken number"
KNOWS_HEADING = "switch of count words"


class Outcome(NamedTuple):
    """What the program prints, and the lines of the calls where the input is sound."""

    status: int
    text: str
    lines: tuple = ()


def refused(what, verdict):
    number, place = verdict
    return Outcome(1, f"{what} refused {number} {place}\n")


def rehearse(data, knows=False):
    """The outcome of a rehearsal file."""
    verdict = first_refusal(front_conditions(data))
    if verdict != ACCEPTED:
        return refused("table", verdict)
    start = table_end(data)
    verdict = first_refusal(event_conditions(data, start))
    if verdict != ACCEPTED:
        return refused("events", verdict)
    rehearsal = Rehearsal(Rules(data))
    lines = [rehearsal.run(i, call) for i, call in enumerate(calls_of(data, start), 1)]
    text = [HEADING, *(line.text for line in lines)]
    if knows:
        text += ["", KNOWS_HEADING, *rehearsal.knowledge()]
    return Outcome(0, "".join(f"{line}\n" for line in text), tuple(lines))
