#!/usr/bin/env python3
"""Random rehearsal files: the program prints what the reference does, to the byte.

Usage: rehearsal_random.py PROGRAM [--files N] [--seed N]

Each sound file is run as it is and with `--knows`; cut at a random place; and with words of its
events or of its table scrambled. Where the pool can hold all of its copies, its accepted events
are run again in a random allowed order: each event must give the same count and mask.
"""

import argparse
import random
from collections import Counter

from reference.rehearsal_format import CALL_WORDS, encode_calls, encode_rehearsal
from reference.rehearsal_generator import (
    accepted_events,
    fits_pool,
    random_order,
    random_rehearsal,
    reordered_calls,
)
from reference.rehearsal_program import expect_outcome, run_program
from reference.rehearsal_reference import rehearse
from reference.table_format import encode_words
from reference.table_generator import random_word
from reference.table_library import Tally

# Most files are short; now and then one is as long as a file can be.
LENGTHS = (4, 12, 12, 40, 40, 40, 120)
LONG_EVERY = 60


def with_word(data, offset, word):
    return data[:offset] + encode_words(word) + data[offset + 4 :]


def cut(rng, table, data):
    return data[: rng.randrange(len(data))]


def cut_in_events(rng, table, data):
    return data[: rng.randint(len(table), len(data) - 1)]


def bytes_left(rng, table, data):
    return data + rng.randbytes(rng.randint(1, 17))


def table_scrambled(rng, table, data):
    return with_word(data, 4 * rng.randrange(len(table) // 4), random_word(rng))


def events_scrambled(rng, table, data):
    """Some words of the events or of their count, changed to ones that are often allowed elsewhere."""
    for _ in range(rng.randint(1, 3)):
        offset = rng.randrange(len(table), len(data), 4)
        data = with_word(data, offset, rng.choice((0, 1, 2, 3, 4, 5, 1024, 1025, random_word(rng))))
    return data


def call_repeated(rng, table, data):
    """Bytes of one call more than the count says."""
    return data + data[-4 * CALL_WORDS :]


MUTATIONS = (cut, cut_in_events, bytes_left, table_scrambled, events_scrambled, call_repeated)


class Trial:
    """Runs one program on many files."""

    def __init__(self, program, tally):
        self.program = program
        self.tally = tally
        self.met = Counter()

    def run(self, what, data, knows=False):
        """Runs a file, expects what the reference says, and answers that."""
        wanted = rehearse(data, knows)
        run = run_program(self.program, data, *(["--knows"] if knows else []))
        expect_outcome(self.tally, what, wanted, run)
        if wanted.status:
            self.met["refused " + wanted.text.split()[0]] += 1
        for line in wanted.lines:
            words = line.text.split()
            self.met["event" if line.count is not None else " ".join(words[1:3] if words[1] == "refused" else words[1:2])] += 1
        return wanted

    def reordered(self, rng, what, table, calls, wanted):
        """A random allowed order of the accepted events gives each event its count and mask."""
        events = accepted_events(calls, wanted.lines)
        if not fits_pool(events):
            return
        order = random_order(rng, events)
        again = self.run(f"{what}, another order", encode_rehearsal(table, reordered_calls(order)))
        self.met["orders"] += 1
        self.tally.expect(f"{what}, events of the other order", len(events), len(again.lines))
        for event, line in zip(order, again.lines):
            same = (event.line.switch, event.line.count, event.line.broken)
            self.tally.expect(f"{what}, event of another order", same, line[1:4])


def main():
    parser = argparse.ArgumentParser()
    parser.add_argument("program", help="the program rehearse")
    parser.add_argument("--files", type=int, default=2000, help="number of sound files")
    parser.add_argument("--seed", type=int, default=1)
    options = parser.parse_args()

    rng = random.Random(options.seed)
    tally = Tally("random rehearsals")
    trial = Trial(options.program, tally)
    for file in range(options.files):
        long = file % LONG_EVERY == LONG_EVERY - 1
        table, calls = random_rehearsal(rng, 1024 if long else rng.choice(LENGTHS))
        encoded = table.encode()
        data = encoded + encode_calls(calls)
        what = f"seed {options.seed}, file {file}"
        wanted = trial.run(what, data, knows=rng.random() < 0.3)
        tally.expect(f"{what}, made sound", 0, wanted.status)
        trial.reordered(rng, what, table, calls, wanted)
        for mutate in rng.sample(MUTATIONS, 2):
            trial.run(f"{what}, {mutate.__name__}", mutate(rng, encoded, data))
    wanted_kinds = ("event", "retired", "refused 7", "refused 8", "refused 9", "refused 10", "refused table", "refused events", "orders")
    for kind in wanted_kinds:
        tally.expect(f"{kind} was met", True, trial.met[kind] > 0)
    counts = ", ".join(f"{trial.met[kind]} {kind}" for kind in wanted_kinds)
    tally.finish(f" ({counts})")


if __name__ == "__main__":
    main()
