"""Random rehearsal files that are sound by the way they are made, and allowed orders of their events."""

from .rehearsal_format import (
    MOST_CALLS,
    POOL_COPIES,
    RECEIVE,
    RETIRE,
    SEND,
    SET,
    receive,
    retire,
    send,
    set_register,
)
from .table_format import REGISTERS
from .table_generator import random_table, random_word


def random_switch(rng, switches):
    """A switch that there is, or now and then one that there is not."""
    if rng.random() < 0.02:
        return rng.choice((switches, switches + 1, 16, 2**32 - 1))
    return rng.randrange(switches)


def random_register(rng):
    if rng.random() < 0.02:
        return rng.choice((REGISTERS, REGISTERS + 1, 2**32 - 1))
    return rng.randrange(REGISTERS)


def random_setting(rng):
    """A word for a register. Small words meet each other more often."""
    return rng.randrange(8) if rng.random() < 0.6 else random_word(rng)


def random_number(rng, made):
    """The number of a copy that was made, or now and then of none."""
    if not made or rng.random() < 0.05:
        return rng.choice((made, made + 1, 2**32 - 1))
    # Newer copies are the likelier ones.
    return max(rng.randrange(made), rng.randrange(made))


class Style:
    """How a file's calls are spread. Each file has a style of its own."""

    def __init__(self, rng):
        self.weights = [rng.choice((1, 2, 4)) for _ in range(3)] + [rng.choice((0, 0, 1, 2))]
        # With few registers in use, one call overwrites what another wrote.
        self.few_switches = rng.random() < 0.3

    def operation(self, rng):
        return rng.choices((SET, SEND, RECEIVE, RETIRE), self.weights)[0]


def random_calls(rng, switches, count):
    style = Style(rng)
    reach = min(switches, 3) if style.few_switches else switches
    calls, made = [], 0
    for _ in range(count):
        operation = style.operation(rng)
        switch = random_switch(rng, reach)
        if operation == SET:
            calls.append(set_register(switch, random_register(rng), random_setting(rng)))
        elif operation == SEND:
            calls.append(send(switch))
            made += 1
        elif operation == RECEIVE:
            calls.append(receive(switch, random_number(rng, made)))
        else:
            calls.append(retire(random_number(rng, made)))
    return calls


def random_rehearsal(rng, most_calls=MOST_CALLS):
    """A random sound table with random calls."""
    table = random_table(rng)
    count = rng.randint(0, most_calls)
    return table, random_calls(rng, table.switches, count)


class Accepted:
    """An accepted event: its call, the line that it has, and the send whose copy a receive takes."""

    def __init__(self, line, call, source):
        self.line = line
        self.call = call
        self.source = source


def accepted_events(calls, lines):
    """The accepted events in order; `lines` are the reference's."""
    events, senders = [], {}
    for call, line in zip(calls, lines):
        if line.count is None:
            continue
        event = Accepted(line, call, senders[call[2]] if call[0] == RECEIVE else None)
        if call[0] == SEND:
            senders[line.number] = event
        events.append(event)
    return events


def random_order(rng, events):
    """The events in a random order that keeps each switch's order and a receive after its send."""
    waiting = {}
    for event in events:
        waiting.setdefault(event.call[1], []).append(event)
    for queue in waiting.values():
        queue.reverse()
    placed, order = set(), []
    while waiting:
        ready = [s for s, queue in waiting.items() if queue[-1].source is None or queue[-1].source in placed]
        switch = rng.choice(ready)
        event = waiting[switch].pop()
        if not waiting[switch]:
            del waiting[switch]
        placed.add(event)
        order.append(event)
    return order


def reordered_calls(order):
    """The calls of the order. A receive names the number that its send gets there."""
    numbers, calls = {}, []
    for event in order:
        operation, switch, a, b = event.call
        if operation == SEND:
            numbers[event] = len(numbers)
        if operation == RECEIVE:
            a = numbers[event.source]
        calls.append((operation, switch, a, b))
    return calls


def fits_pool(events):
    """Whether the pool can hold every copy, so that none need be retired."""
    return sum(event.call[0] == SEND for event in events) <= POOL_COPIES
