"""The four parts of the law of a list of calls on a new fleet, each as a check of one run.

The checks see a program only through its calls' answers and its memory: record j of block s is what s knows of j.
What they hold the program to is worked out from the calls and from happens-before alone.
"""

from functools import lru_cache

from .fleet_model import Accepted, Receive, Retire, Send, Set
from .table_format import (
    ALWAYS,
    AND,
    CONSTANT,
    CUT,
    EQUAL,
    IMPLIES,
    JOIN,
    NOT,
    NUMBERS,
    ONCE,
    OR,
    PREVIOUSLY,
    READING_AT,
    REGISTER,
    REGISTERS,
    SAME,
    SINCE,
    TRUTH,
    TRUTH_AT,
    WITHIN,
)

# All allowed orders are tried where there are at most so many, else so many random ones.
MOST_ORDERS = 60


class Run:
    """A program run on a list of calls, with the events of the list and which of them happens before which.

    An event goes by its place in the list. `state` gives its switch and which event of that switch it is, from 1.
    """

    def __init__(self, program, table, capacity, calls):
        self.program = program
        self.table = table
        self.calls = calls
        self.answers = []
        self.memories = []
        fleet = program(table, capacity)
        for call in calls:
            self.answers.append(fleet.call(call))
            self.memories.append(list(fleet.memory))
        self.last_memory = fleet.memory
        self.find_events()
        self.find_directly_before()
        self.find_before()

    def find_events(self):
        self.events = []
        self.state = {}
        self.event_of = {}
        counts = {}
        for place, (call, answer) in enumerate(zip(self.calls, self.answers)):
            if isinstance(answer, Accepted) and not isinstance(call, Retire):
                n = counts[call.switch] = counts.get(call.switch, 0) + 1
                self.events.append(place)
                self.state[place] = call.switch, n
                self.event_of[call.switch, n] = place

    def find_directly_before(self):
        """The event before it at its switch, and for a receive each send that answered the number received."""
        self.directly_before = {}
        for e in self.events:
            s, n = self.state[e]
            near = {self.event_of[s, n - 1]} if n > 1 else set()
            if isinstance(self.calls[e], Receive):
                near |= {i for i in self.sends() if self.answers[i].number == self.calls[e].number}
            self.directly_before[e] = near

    def find_before(self):
        """Chains of one or more steps: the closure, found by going on until nothing is added."""
        self.before = {e: set(near) for e, near in self.directly_before.items()}
        added = True
        while added:
            added = False
            for e, past in self.before.items():
                wider = past.union(*(self.before[i] for i in past))
                if len(wider) > len(past):
                    self.before[e] = wider
                    added = True

    def sends(self):
        return [e for e in self.events if isinstance(self.calls[e], Send)]

    def heard(self, j, e):
        """Which events of j are e or happen before it."""
        return {n for s, n in (self.state[i] for i in self.before[e] | {e}) if s == j}

    def latest(self, j, e):
        return max(self.heard(j, e), default=0)

    def circular(self):
        return any(e in past for e, past in self.before.items())


def record(table, memory, s, j):
    """Record j of block s."""
    length = 1 + len(table.nodes)
    start = s * (table.switches * length + REGISTERS) + j * length
    return memory[start : start + length]


# The verdict.


class NumberReadings:
    """Numbers as integers, held at the ends of their range."""

    def reading(self, word):
        return word - 2**32 if word >> 31 else word

    def held(self, value):
        return sorted((-(2**31), value, 2**31 - 1))[1]

    def join(self, a, b):
        return self.held(a + b)

    def cut(self, a, b):
        return self.held(a - b)

    def within(self, a, b):
        return a <= b


class PortReadings:
    """Port sets as sets of ports."""

    def reading(self, word):
        return frozenset(port for port in range(32) if word >> port & 1)

    def join(self, a, b):
        return a.union(b)

    def cut(self, a, b):
        return a.difference(b)

    def within(self, a, b):
        return a.issubset(b)


class Logic:
    """The value of each node at each state, by the logic's recursive definition over the history."""

    def __init__(self, run):
        self.run = run
        self.nodes = run.table.nodes
        self.kind = NumberReadings() if run.table.code == NUMBERS else PortReadings()
        self.value = lru_cache(None)(self.value)

    def register(self, s, k, register):
        """The last word set at s up to state k, or the starting word."""
        word = self.run.table.starts[REGISTERS * s + register]
        for n in range(1, k + 1):
            call = self.run.calls[self.run.event_of[s, n]]
            if isinstance(call, Set) and call.register == register:
                word = call.word
        return self.kind.reading(word)

    def value_at(self, j, s, k, node):
        """The value at the latest state of j that is state (s, k) or happens before it."""
        return self.value(j, self.run.latest(j, self.run.event_of[s, k]) if k > 0 else 0, node)

    def value(self, s, k, node):
        kind, a, b = self.nodes[node]
        if kind == TRUTH:
            return a == 1
        if kind == CONSTANT:
            return self.kind.reading(a)
        if kind == REGISTER:
            return self.register(s, k, a)
        if kind in (TRUTH_AT, READING_AT):
            return self.value_at(a, s, k, b)
        if kind in (PREVIOUSLY, ONCE, ALWAYS, SINCE):
            return self.past_value(s, k, node)
        first = self.value(s, k, a)
        if kind == NOT:
            return not first
        second = self.value(s, k, b)
        return {
            AND: lambda: first and second,
            OR: lambda: first or second,
            IMPLIES: lambda: second or not first,
            EQUAL: lambda: first == second,
            WITHIN: lambda: self.kind.within(first, second),
            SAME: lambda: first == second,
            JOIN: lambda: self.kind.join(first, second),
            CUT: lambda: self.kind.cut(first, second),
        }[kind]()

    def past_value(self, s, k, node):
        kind, a, b = self.nodes[node]
        if kind == PREVIOUSLY:
            return self.value(s, max(k - 1, 0), a)
        if k == 0:
            return self.value(s, 0, b if kind == SINCE else a)
        if kind == ONCE:
            return self.value(s, k, a) or self.value(s, k - 1, node)
        if kind == ALWAYS:
            return self.value(s, k, a) and self.value(s, k - 1, node)
        return self.value(s, k, b) or (self.value(s, k, a) and self.value(s, k - 1, node))


def verdict(run, rng):
    """The mask of each event has exactly the rules at its switch that are false at the state that it makes.

    Where an event happens before itself the definition has no beginning, so no mask is right."""
    if run.circular():
        return False
    logic = Logic(run)
    for e in run.events:
        s, n = run.state[e]
        rules = enumerate(run.table.rules)
        false = {r for r, (at, node) in rules if at == s and not logic.value(s, n, node)}
        mask = run.answers[e].mask
        if {r for r in range(mask.bit_length()) if mask >> r & 1} != false:
            return False
    return True


# Counts.


def counts(run, rng):
    """The n-th event of a switch answers n; just after an event, its switch's count for j reaches l exactly when j's
    l-th event is this one or before it."""
    for e in run.events:
        s, n = run.state[e]
        if run.answers[e].count != n:
            return False
        for j in range(run.table.switches):
            count = record(run.table, run.memories[e], s, j)[0]
            if set(range(1, count + 1)) != run.heard(j, e):
                return False
    return True


# Allowed orders.


def ready(run, among, placed):
    """The events that may stand next."""
    return [e for e in among if e not in placed and run.directly_before[e] <= placed]


def all_orders(run, among, placed=frozenset()):
    """All orders of the events `among`, after those that are placed."""
    if placed >= among:
        yield []
    for e in ready(run, sorted(among), placed):
        for rest in all_orders(run, among, placed | {e}):
            yield [e, *rest]


def one_order(run, among, placed, choose):
    """One order of the events `among`, after those that are placed, or none where there is none."""
    order = []
    while len(order) < len(among):
        choice = ready(run, sorted(among), placed | set(order))
        if not choice:
            return None
        order.append(choose(choice))
    return order


def first_order(run, among, placed):
    return one_order(run, among, placed, lambda choice: choice[0])


def orders(run, among, rng):
    """All orders of these events where there are few, else random ones."""
    few = []
    for order in all_orders(run, frozenset(among)):
        few.append(order)
        if len(few) > MOST_ORDERS:
            return [one_order(run, among, set(), rng.choice) for _ in range(MOST_ORDERS)]
    return few


def new_number(run, order, number):
    """The number of the send that answered this one, on a new carrier: how many sends stand before it."""
    before = 0
    for e in order:
        if isinstance(run.calls[e], Send):
            if run.answers[e].number == number:
                break
            before += 1
    return before


def in_order(run, order):
    """The calls that an order makes: a receive names its send's new number."""
    return [
        Receive(call.switch, new_number(run, order, call.number)) if isinstance(call, Receive) else call
        for call in (run.calls[e] for e in order)
    ]


def new_fleet(run, rng):
    """A new fleet of the same program and table, with space for all sends, and now and then for more."""
    return run.program(run.table, max(1, len(run.sends())) + rng.choice((0, 3)))


# Passed through.


def passed_through(run, rng):
    """Some allowed order begins with exactly what happens before e and then e; and a new fleet that has run any such
    order so far has, as each switch's record of itself, what e's switch knew of that switch just after e."""
    for e in run.events:
        past = frozenset(run.before[e])
        rest = first_order(run, frozenset(run.events) - past - {e}, past | {e})
        if e in past or rest is None or first_order(run, past, set()) is None:
            return False
        for front in orders(run, past, rng):
            fleet = new_fleet(run, rng)
            for call in in_order(run, [*front, e, *rest])[: len(front) + 1]:
                fleet.call(call)
            if not same_knowledge(run, e, fleet.memory):
                return False
    return True


def same_knowledge(run, e, memory):
    s, _ = run.state[e]
    return all(
        record(run.table, memory, j, j) == record(run.table, run.memories[e], s, j) for j in range(run.table.switches)
    )


# Same everywhere.


def same_everywhere(run, rng):
    """In every allowed order each event is accepted with the same answer, a copy's number apart, and the memory ends
    the same."""
    for order in orders(run, run.events, rng):
        fleet = new_fleet(run, rng)
        for e, call in zip(order, in_order(run, order)):
            answer = fleet.call(call)
            if not isinstance(answer, Accepted) or answer[:2] != run.answers[e][:2]:
                return False
        if fleet.memory != run.last_memory:
            return False
    return True


PARTS = {
    "verdict": verdict,
    "counts": counts,
    "passed through": passed_through,
    "same everywhere": same_everywhere,
}
