"""A small model of a fleet: blocks of records and registers, a carrier of copies, and the four calls.

`Fleet` is the right program. Each step that a wrong program may get wrong is a method of its own.
"""

from typing import NamedTuple

from .table_format import (
    ALWAYS,
    AND,
    CONSTANT,
    CUT,
    IMPLIES,
    JOIN,
    NOT,
    NUMBERS,
    ONCE,
    OR,
    PREVIOUSLY,
    READING_AT,
    REGISTER,
    REGISTERS,
    SAME,
    SINCE,
    TRUTH,
    TRUTH_AT,
    WITHIN,
)

# Refusals.
NO_SUCH_SWITCH = 7
NO_SUCH_REGISTER = 8
NO_SPACE = 9
NOT_HELD = 10
COUNT_AT_ITS_END = 11

LARGEST_WORD = 2**32 - 1


class Set(NamedTuple):
    switch: int
    register: int
    word: int


class Send(NamedTuple):
    switch: int


class Receive(NamedTuple):
    switch: int
    number: int


class Retire(NamedTuple):
    number: int


class Accepted(NamedTuple):
    """What an accepted call answers; only a send answers a copy's number."""

    count: int = 0
    mask: int = 0
    number: int | None = None


class Refused(NamedTuple):
    reason: int


def signed(word):
    return word - 2**32 if word >= 2**31 else word


def number_word(value):
    return max(-(2**31), min(2**31 - 1, value)) % 2**32


class NumberWords:
    """What the kind of numbers makes of words."""

    join = staticmethod(lambda a, b: number_word(signed(a) + signed(b)))
    cut = staticmethod(lambda a, b: number_word(signed(a) - signed(b)))
    within = staticmethod(lambda a, b: signed(a) <= signed(b))


class PortWords:
    """What the kind of port sets makes of words."""

    join = staticmethod(lambda a, b: a | b)
    cut = staticmethod(lambda a, b: a & ~b)
    within = staticmethod(lambda a, b: a & ~b == 0)


class Carrier:
    """Copies held under rising numbers. A copy is its sender and then the records."""

    def __init__(self, capacity):
        self.capacity = capacity
        self.next = 0
        self.held = {}

    def full(self):
        return len(self.held) == self.capacity or self.next == LARGEST_WORD

    def put(self, copy):
        number = self.next
        self.held[number] = copy
        self.next += 1
        return number

    def fetch(self, number):
        return self.held[number]

    def holds(self, number):
        return number in self.held

    def retire(self, number):
        del self.held[number]


class Fleet:
    """A new live fleet on a new carrier with space for `capacity` copies."""

    def __init__(self, table, capacity):
        self.table = table
        self.words = NumberWords if table.code == NUMBERS else PortWords
        self.record_length = 1 + len(table.nodes)
        self.records_length = table.switches * self.record_length
        self.block_length = self.records_length + REGISTERS
        self.carrier = self.new_carrier(capacity)
        self.hand = [0] * (1 + self.records_length)
        self.memory = self.first_memory()

    def new_carrier(self, capacity):
        return Carrier(capacity)

    # Opening.

    def start_registers(self, s):
        return self.table.starts[REGISTERS * s : REGISTERS * (s + 1)]

    def first_memory(self):
        """In every block, record j has the count 0 and j's words at its state 0."""
        switches = range(self.table.switches)
        words = [[] for _ in switches]

        def known(j, b):
            return words[j][b]

        for number in range(len(self.table.nodes)):
            for j in switches:
                words[j].append(self.node_word(number, words[j], None, known, self.start_registers(j)))
        records = [word for j in switches for word in [0, *words[j]]]
        return [word for s in switches for word in records + self.start_registers(s)]

    # Places in the memory.

    def block(self, s):
        """A copy of block s."""
        return self.memory[s * self.block_length : (s + 1) * self.block_length]

    def put_block(self, s, block):
        self.memory[s * self.block_length : (s + 1) * self.block_length] = block

    def record(self, records, j):
        return records[j * self.record_length : (j + 1) * self.record_length]

    def put_record(self, block, j, record):
        block[j * self.record_length : (j + 1) * self.record_length] = record

    # Calls.

    def call(self, call):
        """Runs one call and answers it. A refused call leaves everything as it was."""
        reason = self.refusal(call)
        if reason is not None:
            return Refused(reason)
        if isinstance(call, Retire):
            self.carrier.retire(call.number)
            return Accepted()
        return self.event(call)

    def refusal(self, call):
        """The first reason that applies, or none."""
        if isinstance(call, Retire):
            return None if self.carrier.holds(call.number) else NOT_HELD
        if call.switch >= self.table.switches:
            return NO_SUCH_SWITCH
        if isinstance(call, Set) and call.register >= REGISTERS:
            return NO_SUCH_REGISTER
        if self.record(self.block(call.switch), call.switch)[0] == LARGEST_WORD:
            return COUNT_AT_ITS_END
        if isinstance(call, Send) and self.carrier.full():
            return NO_SPACE
        if isinstance(call, Receive) and not self.carrier.holds(call.number):
            return NOT_HELD
        return None

    def event(self, call):
        s = call.switch
        before = self.block(s)
        block = list(before)
        if isinstance(call, Set):
            self.set_register(block, call.register, call.word)
        elif isinstance(call, Receive):
            self.hand = self.fetched(call.number)
            self.take_over(s, block, self.hand)
        mask = self.advance(s, block)
        self.put_block(s, block)
        number = None
        if isinstance(call, Send):
            self.hand = self.copy_of(s, before, block)
            number = self.carrier.put(self.hand)
        return self.answer(self.record(block, s)[0], mask, number)

    def answer(self, count, mask, number):
        return Accepted(count, mask, number)

    def fetched(self, number):
        return self.carrier.fetch(number)

    def copy_of(self, s, before, after):
        """The copy that a send puts, from its block before and after the step."""
        return [s, *after[: self.records_length]]

    # The step.

    def set_register(self, block, register, word):
        block[self.records_length + register] = word

    def take_over(self, s, block, copy):
        """Takes over the records of other switches that are newer in the copy."""
        records = copy[1:]
        for j in range(self.table.switches):
            if j != s and self.record(records, j)[0] > self.record(block, j)[0]:
                self.take_record(block, j, self.record(records, j))

    def take_record(self, block, j, record):
        self.put_record(block, j, record)

    def next_count(self, count):
        return count + 1

    def advance(self, s, block):
        """The own count grows, the own words are worked out anew, and the broken mask is answered."""
        count, *old = self.record(block, s)
        own = self.own_words(s, block, old)
        self.put_record(block, s, [self.next_count(count), *own])
        return sum(1 << r for r, (at, node) in enumerate(self.table.rules) if at == s and own[node] == 0)

    def own_words(self, s, block, old):
        own = []
        registers = block[self.records_length :]

        def known(j, b):
            return self.own_at(own, old, b) if j == s else self.record(block, j)[1 + b]

        for number in range(len(self.table.nodes)):
            own.append(self.node_word(number, own, old, known, registers))
        return own

    def own_at(self, own, old, b):
        """What node b "at" the own switch reads."""
        return own[b]

    # The word of one node: own has the new words of the nodes below it, old all words from before the call, or is None
    # at state 0, and known answers the word of a node in a switch's record.

    def node_word(self, number, own, old, known, registers):
        kind, a, b = self.table.nodes[number]
        if kind == CONSTANT:
            return a
        if kind == REGISTER:
            return registers[a]
        if kind == JOIN:
            return self.words.join(own[a], own[b])
        if kind == CUT:
            return self.words.cut(own[a], own[b])
        if kind == READING_AT:
            return known(a, b)
        if kind in (PREVIOUSLY, ONCE, ALWAYS, SINCE):
            return self.truth_word(self.past_truth(number, own, old))
        return self.truth_word(self.present_truth(number, own, known))

    def truth_word(self, truth):
        return 1 if truth else 0

    def present_truth(self, number, own, known):
        kind, a, b = self.table.nodes[number]
        if kind == TRUTH:
            return a == 1
        if kind == TRUTH_AT:
            return known(a, b) != 0
        if kind == WITHIN:
            return self.words.within(own[a], own[b])
        if kind == SAME:
            return own[a] == own[b]
        if kind == NOT:
            return own[a] == 0
        if kind == AND:
            return own[a] != 0 and own[b] != 0
        if kind == OR:
            return own[a] != 0 or own[b] != 0
        if kind == IMPLIES:
            return own[a] == 0 or own[b] != 0
        return (own[a] != 0) == (own[b] != 0)

    def past_truth(self, number, own, old):
        kind, a, b = self.table.nodes[number]
        if old is None:
            return own[b if kind == SINCE else a] != 0
        if kind == PREVIOUSLY:
            return old[a] != 0
        if kind == ONCE:
            return own[a] != 0 or old[number] != 0
        if kind == ALWAYS:
            return own[a] != 0 and old[number] != 0
        return own[b] != 0 or (own[a] != 0 and old[number] != 0)
