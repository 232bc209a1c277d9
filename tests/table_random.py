#!/usr/bin/env python3
"""Random tables, sound and mutated: the static library answers as the reference does.

Usage: table_random.py TABLE_CHECK_BATCH [--tables N] [--seed N]
"""

import argparse
import random
from collections import Counter

from reference.table_format import encode_words
from reference.table_generator import EDGE_WORDS, random_table, random_word
from reference.table_library import Tally, library_answers
from reference.table_reference import ACCEPTED, judge


def with_word(data, index, word):
    return data[: 4 * index] + encode_words(word) + data[4 * index + 4 :]


def cut(rng, data):
    return data[: rng.randrange(len(data))]


def bytes_left(rng, data):
    return data + rng.randbytes(rng.randint(1, 9))


def foreign_code(rng, data):
    code = random_word(rng)
    return with_word(data, 0, code if code not in (1, 2) else 3)


def bit_flipped(rng, data):
    mutated = bytearray(data)
    mutated[rng.randrange(len(data))] ^= 1 << rng.randrange(8)
    return bytes(mutated)


def one_word_scrambled(rng, data):
    return with_word(data, rng.randrange(len(data) // 4), random_word(rng))


def one_word_nearby(rng, data):
    """A word one more or one less, which finds limits that are off by one."""
    index = rng.randrange(len(data) // 4)
    word = int.from_bytes(data[4 * index : 4 * index + 4], "big")
    return with_word(data, index, (word + rng.choice((-1, 1))) % 2**32)


def several_words_scrambled(rng, data):
    for _ in range(rng.randint(2, 5)):
        data = with_word(data, rng.randrange(len(data) // 4), rng.choice(EDGE_WORDS))
    return data


def scrambled_and_cut(rng, data):
    return cut(rng, one_word_scrambled(rng, data))


def word_dropped(rng, data):
    index = rng.randrange(len(data) // 4)
    return data[: 4 * index] + data[4 * index + 4 :]


def words_swapped(rng, data):
    words = [data[i : i + 4] for i in range(0, len(data), 4)]
    a, b = rng.randrange(len(words)), rng.randrange(len(words))
    words[a], words[b] = words[b], words[a]
    return b"".join(words)


def in_rules(change):
    """The change, made to the rule array of the table or to its count."""

    def changed(rng, data):
        first = 12 + 12 * int.from_bytes(data[8:12], "big")
        rules = int.from_bytes(data[first : first + 4], "big")
        end = first + 4 + 8 * rules
        return data[:first] + change(rng, data[first:end]) + data[end:]

    return changed


MUTATIONS = (
    cut,
    bytes_left,
    foreign_code,
    bit_flipped,
    one_word_scrambled,
    one_word_nearby,
    several_words_scrambled,
    scrambled_and_cut,
    word_dropped,
    words_swapped,
    in_rules(one_word_nearby),
    in_rules(one_word_scrambled),
)


def random_cases(rng, tables):
    """Each sound table, mutated once in every way, and one run of random bytes."""
    for _ in range(tables):
        data = random_table(rng).encode()
        yield "sound", data
        for mutate in MUTATIONS:
            yield "mutated", mutate(rng, data)
        yield "random bytes", rng.randbytes(rng.randrange(64))


def main():
    parser = argparse.ArgumentParser()
    parser.add_argument("batch", help="the program table_check_batch")
    parser.add_argument("--tables", type=int, default=2000, help="number of sound tables")
    parser.add_argument("--seed", type=int, default=1)
    options = parser.parse_args()

    tally = Tally("random tables")
    cases = list(random_cases(random.Random(options.seed), options.tables))
    answers = library_answers(options.batch, [data for _, data in cases])
    met = Counter()
    for (how, data), answer in zip(cases, answers):
        wanted = judge(data)
        met[wanted[0]] += 1
        tally.expect(f"seed {options.seed}, {how}, {data.hex()}", wanted, answer)
        if how == "sound":
            tally.expect(f"a table made sound, {data.hex()}", ACCEPTED, wanted)
    for number in range(5):
        tally.expect(f"number {number} was met", True, met[number] > 0)
    counts = ", ".join(f"{met[number]} of number {number}" for number in range(1, 5))
    tally.finish(f" ({met[0]} accepted, {counts})")


if __name__ == "__main__":
    main()
