#!/usr/bin/env python3
"""Writes the example tables and rehearsal files next to this script. The same bytes every time."""

import sys
from pathlib import Path

HERE = Path(__file__).resolve().parent
sys.dont_write_bytecode = True
sys.path.insert(0, str(HERE.parent / "tests"))

from reference.rehearsal_format import (  # noqa: E402
    encode_rehearsal,
    receive,
    retire,
    send,
    set_register,
)
from reference.table_format import (  # noqa: E402
    ALWAYS,
    NUMBERS,
    PORT_SETS,
    TableBuilder,
    encode_words,
    three_switches,
)


def four_nodes():
    """One switch: register 0 was 5 in the state before this one."""
    t = TableBuilder(NUMBERS, switches=1)
    value = t.register(0)
    five = t.constant(5)
    t.rule(0, t.previously(t.same(value, five)))
    t.start(0, 0, 5)
    return t.table


def temperature_limit():
    """Four switches in one cabinet watch their own and each other's temperature.

    Registers: 0 temperature and 1 limit in tenths of a degree, 2 fan speed in percent,
    3 is 1 while the switch sheds load.
    """
    temperature_register, limit_register, fan_register, shedding_register = range(4)
    t = TableBuilder(NUMBERS, switches=4)

    temperature = t.register(temperature_register)
    limit = t.register(limit_register)
    fan = t.register(fan_register)
    shedding = t.register(shedding_register)
    one = t.constant(1)
    fan_high = t.constant(80)
    margin = t.constant(50)

    cool = t.within(temperature, limit)
    hot = t.negation(cool)
    fan_is_high = t.within(fan_high, fan)
    is_shedding = t.same(shedding, one)

    # One event may pass between a switch getting hot and its fan running high.
    hot_twice = t.both(hot, t.previously(hot))
    fan_follows = t.always(t.implies(hot_twice, fan_is_high))

    # A switch that was ever hot has shed load since, or has been cool since it shed load.
    cool_since_shedding = t.since(cool, is_shedding)
    sheds_after_heat = t.implies(t.once(hot), t.either(is_shedding, cool_since_shedding))

    # Well below the limit, the fan need not run high.
    well_below = t.within(t.join(temperature, margin), limit)
    fan_rests = t.implies(t.always(well_below), t.negation(fan_is_high))

    # Switch 0 sits above switch 3 and is at most 5 degrees warmer than it.
    below = t.reading_at(3, temperature)
    rise_is_small = t.within(t.cut(temperature, below), margin)

    # Switch 2 sheds load whenever it knows switch 1 to be shedding.
    neighbour_sheds = t.truth_at(1, is_shedding)
    sheds_together = t.implies(neighbour_sheds, is_shedding)

    # Switch 3 runs its fan high unless all that it knows of the others is cool.
    others_cool = t.both(t.truth_at(0, cool), t.both(t.truth_at(1, cool), t.truth_at(2, cool)))
    fan_or_others_cool = t.either(fan_is_high, others_cool)

    for switch in range(4):
        t.rule(switch, fan_follows)
    for switch in range(4):
        t.rule(switch, sheds_after_heat)
    t.rule(3, fan_rests)
    t.rule(0, rise_is_small)
    t.rule(2, sheds_together)
    t.rule(3, fan_or_others_cool)

    for switch, start in enumerate((412, 398, 405, 377)):
        t.start(switch, temperature_register, start)
        t.start(switch, limit_register, 650)
        t.start(switch, fan_register, 30)
    return t.table


def ports(*numbers):
    """The word of a port set."""
    return sum(1 << number for number in set(numbers))


def vlan_ports():
    """Three switches joined by trunks.

    Registers: 0 forwarding ports, 1 blocked ports, 2 trunk ports, 3 ports of VLAN 10.
    """
    forwarding_register, blocked_register, trunk_register, vlan_register = range(4)
    t = TableBuilder(PORT_SETS, switches=3)

    forwarding = t.register(forwarding_register)
    blocked = t.register(blocked_register)
    trunks = t.register(trunk_register)
    vlan = t.register(vlan_register)
    nothing = t.constant(ports())
    uplinks = t.constant(ports(30, 31))

    # A blocked port is never among the forwarding ports.
    apart = t.always(t.same(t.cut(forwarding, blocked), forwarding))

    # Every port of the VLAN forwards or is blocked.
    vlan_placed = t.within(vlan, t.join(forwarding, blocked))

    # The uplinks are trunks, and were so in the state before.
    uplinks_are_trunks = t.within(uplinks, trunks)
    uplinks_stay = t.both(uplinks_are_trunks, t.previously(uplinks_are_trunks))

    # What is known of switch 1's trunks stays a subset of the own ones.
    neighbour_trunks = t.reading_at(1, trunks)
    neighbour_within = t.always(t.within(neighbour_trunks, trunks))

    # Nothing is blocked here unless something was once blocked at switch 0, as known here.
    some_blocked = t.negation(t.same(blocked, nothing))
    root_once_blocked = t.truth_at(0, t.once(some_blocked))
    blocked_after_root = t.implies(some_blocked, root_once_blocked)

    for switch in range(3):
        t.rule(switch, apart)
    for switch in range(3):
        t.rule(switch, vlan_placed)
    for switch in range(3):
        t.rule(switch, uplinks_stay)
    t.rule(0, neighbour_within)
    t.rule(2, neighbour_within)
    t.rule(1, blocked_after_root)
    t.rule(2, blocked_after_root)

    access = range(0, 8)
    for switch in range(3):
        t.start(switch, forwarding_register, ports(*access, 30, 31))
        t.start(switch, blocked_register, ports(8, 9))
        t.start(switch, trunk_register, ports(30, 31))
        t.start(switch, vlan_register, ports(0, 1, 2, 8))
    t.start(0, trunk_register, ports(28, 29, 30, 31))
    return t.table


def largest():
    """As many switches, nodes and rules as a table can have.

    Registers: 0 load, 1 jobs waiting, 2 jobs running.
    """
    switches = 16
    t = TableBuilder(NUMBERS, switches)

    load = t.register(0)
    limit = t.constant(100)
    light = t.within(load, limit)

    # All switches are light, as far as this one knows.
    known_light = [t.truth_at(switch, light) for switch in range(switches)]
    all_light = known_light[0]
    for other in known_light[1:]:
        all_light = t.both(all_light, other)
    always_light = t.always(all_light)

    waiting = t.register(1)
    zero = t.constant(0)
    idle = t.same(waiting, zero)
    busy = t.negation(idle)
    once_busy = t.once(busy)
    busy_before = t.previously(busy)
    light_since_busy = t.since(light, busy)
    light_once_busy = t.implies(once_busy, light_since_busy)
    running = t.register(2)
    jobs_few = t.within(t.join(waiting, running), limit)
    busy_and_before = t.both(busy, busy_before)
    few_when_busy = t.implies(busy_and_before, jobs_few)

    watched = (always_light, light_once_busy, few_when_busy, jobs_few)
    for switch in range(switches):
        t.rule(switch, watched[switch % len(watched)])
        t.start(switch, 0, 10 + switch)
        t.start(switch, 2, 1)
    return t.table


def changed(offset, word):
    """The table of three switches with the field at `offset` set to `word`."""
    data = three_switches().encode()
    return data[:offset] + encode_words(word) + data[offset + 4 :]


def reading_node_as_truth_node():
    """Always node 1, which is a reading."""
    table = three_switches()
    table.nodes[3] = (ALWAYS, 1, 0)
    return table.encode()


def second_rule_names_reading_node():
    table = three_switches()
    table.rules.append((2, 0))
    return table.encode()


def low_byte_first():
    data = three_switches().encode()
    return b"".join(data[i : i + 4][::-1] for i in range(0, len(data), 4))


# Name and table.
ACCEPTED = {
    "three-switches": three_switches(),
    "four-nodes": four_nodes(),
    "temperature-limit": temperature_limit(),
    "vlan-ports": vlan_ports(),
    "largest": largest(),
}

# Name, bytes, and the refusal's number and place, worked out by hand.
REFUSED = [
    ("empty", b"", 1, 0),
    ("cut-inside-last-word", three_switches().encode()[:170], 1, 168),
    ("cut-after-nodes", three_switches().encode()[:60], 1, 60),
    ("one-byte-left", three_switches().encode() + b"\0", 1, 172),
    ("foreign-code", changed(0, 3), 2, 0),
    ("low-byte-first", low_byte_first(), 2, 0),
    ("no-switches", changed(4, 0), 2, 4),
    ("17-switches", changed(4, 17), 2, 4),
    ("49-nodes", changed(8, 49), 2, 8),
    ("17-rules", changed(60, 17), 2, 60),
    ("starting-words-one-short", changed(72, 23), 2, 72),
    ("unknown-node-kind", changed(12, 13), 3, 0),
    ("register-8", changed(16, 8), 3, 0),
    ("node-at-switch-out-of-range", changed(28, 3), 3, 1),
    ("node-names-itself", changed(40, 2), 3, 2),
    ("reading-node-as-truth-node", reading_node_as_truth_node(), 3, 3),
    ("unused-word-not-0", changed(56, 1), 3, 3),
    ("rule-at-switch-out-of-range", changed(64, 3), 4, 0),
    ("second-rule-names-reading-node", second_rule_names_reading_node(), 4, 1),
]


# Rehearsals: the table, the calls, and the lines of the listing, worked out by hand.

HEADING = "line switch count broken number"


def three_switches_rehearsal():
    """Switch 0's newest reading reaches switch 1 by way of switch 2, before an older copy does."""
    steps = (
        (set_register(0, 0, 9), "0 1 0 -"),
        (send(0), "0 2 0 0"),
        (set_register(0, 0, 4), "0 3 0 -"),
        (send(0), "0 4 0 1"),
        (receive(2, 1), "2 1 0 -"),
        (send(2), "2 2 0 2"),
        (receive(1, 2), "1 1 0 -"),
        (receive(1, 0), "1 2 0 -"),
        # Below the 4 that switch 1 knows of.
        (set_register(1, 0, 3), "1 3 1 -"),
        (receive(1, 7), "refused 10"),
    )
    return three_switches(), steps


def vlan_ports_rehearsal():
    """A trunk is added at switch 1, and a port is blocked there that still forwards."""
    forwarding, blocked, trunks, vlan = range(4)
    steps = (
        (send(0), "0 1 0 0"),
        (receive(1, 0), "1 1 0 -"),
        (set_register(1, trunks, ports(29, 30, 31)), "1 2 0 -"),
        (send(1), "1 3 0 1"),
        # Port 29 is no trunk of switch 2: rule 10 is broken, and as it says "always", it stays so.
        (receive(2, 1), f"2 1 {2**10} -"),
        (set_register(2, trunks, ports(29, 30, 31)), f"2 2 {2**10} -"),
        # It is a trunk of switch 0.
        (receive(0, 1), "0 2 0 -"),
        # Port 7 forwards and is blocked: rule 1, likewise for good.
        (set_register(1, blocked, ports(7, 8, 9)), f"1 4 {2**1} -"),
        (set_register(1, forwarding, ports(*range(7), 30, 31)), f"1 5 {2**1} -"),
        (retire(0), "retired 0"),
        (receive(2, 0), "refused 10"),
        # Port 10 of the VLAN neither forwards nor is blocked: rule 5, as long as it is so.
        (set_register(2, vlan, ports(0, 1, 2, 8, 10)), f"2 3 {2**10 + 2**5} -"),
        (set_register(2, forwarding, ports(*range(8), 10, 30, 31)), f"2 4 {2**10} -"),
    )
    return vlan_ports(), steps


def full_pool_rehearsal():
    """The pool holds 16 copies. A retire makes space, and a retired number is never held again."""
    steps = (
        *((send(0), f"0 {state} 0 {state - 1}") for state in range(1, 17)),
        (send(1), "refused 9"),
        (retire(3), "retired 3"),
        (send(1), "1 1 0 16"),
        (receive(1, 3), "refused 10"),
        (receive(1, 15), "1 2 0 -"),
        (retire(3), "refused 10"),
        (set_register(3, 8, 0), "refused 7"),
        (set_register(2, 8, 0), "refused 8"),
        (receive(3, 99), "refused 7"),
        (set_register(1, 0, 4), "1 3 1 -"),
    )
    return three_switches(), steps


REHEARSALS = {
    "three-switches": three_switches_rehearsal(),
    "vlan-ports": vlan_ports_rehearsal(),
    "full-pool": full_pool_rehearsal(),
}


def cut_rehearsal():
    """The worked rehearsal without the last byte of its last word, which starts at 172 + 4 + 9 * 16 + 12."""
    table, steps = REHEARSALS["three-switches"]
    return encode_rehearsal(table, [call for call, _ in steps])[:-1]


# Name, bytes and what is printed.
REFUSED_REHEARSALS = [
    ("no-calls-at-all", three_switches().encode(), "events refused 13 172"),
    ("cut-inside-last-word", cut_rehearsal(), "events refused 13 332"),
    ("operation-5", encode_rehearsal(three_switches(), [send(0), (5, 0, 0, 0)]), "events refused 13 192"),
    ("send-with-number", encode_rehearsal(three_switches(), [(2, 0, 1, 0)]), "events refused 13 184"),
    ("retire-at-switch-1", encode_rehearsal(three_switches(), [(4, 1, 0, 0)]), "events refused 13 180"),
    ("table-of-code-3", changed(0, 3), "table refused 2 0"),
]


def rehearsals():
    """Every example rehearsal as (path, bytes, text, status)."""
    for name, (table, steps) in REHEARSALS.items():
        lines = (f"{number} {line}" for number, (_, line) in enumerate(steps, 1))
        text = "".join(f"{line}\n" for line in (HEADING, *lines))
        yield HERE / f"{name}.rehearsal", encode_rehearsal(table, [call for call, _ in steps]), text, 0
    for name, data, text in REFUSED_REHEARSALS:
        yield HERE / "refused" / f"{name}.rehearsal", data, f"{text}\n", 1


def files():
    """Every example table as (path, bytes, number, place); accepted ones have 0 and 0."""
    for name, table in ACCEPTED.items():
        yield HERE / f"{name}.table", table.encode(), 0, 0
    for name, data, number, place in REFUSED:
        yield HERE / "refused" / f"{name}.table", data, number, place


def main():
    (HERE / "refused").mkdir(exist_ok=True)
    for path, data, _, _ in files():
        path.write_bytes(data)
    for path, data, text, status in rehearsals():
        path.write_bytes(data)
        if status == 0:
            path.with_suffix(".listing").write_text(text)


if __name__ == "__main__":
    main()
