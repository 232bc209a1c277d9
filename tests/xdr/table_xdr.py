#!/usr/bin/env python3
"""The rule table's bytes against an XDR library: rpcgen's codec on libtirpc.

Usage: table_xdr.py TABLE_XDR [--tables N] [--seed N]
"""

import argparse
import random
import sys
from collections import Counter
from pathlib import Path

TESTS = Path(__file__).resolve().parent.parent
sys.path[:0] = [str(TESTS), str(TESTS.parent / "examples")]

import make  # noqa: E402
from reference.table_generator import random_table  # noqa: E402
from reference.table_library import Tally, run, split_answer  # noqa: E402
from reference.table_reference import judge  # noqa: E402


def check_decoding(tally, program, tables):
    """libtirpc finds the values meant, and encodes them to the same bytes."""
    encoded = [table.encode() for table in tables]
    lines = run([program, "decode"], encoded)
    tally.expect("tables decoded", len(tables), len(lines))
    for table, data, line in zip(tables, encoded, lines):
        values = " ".join(str(word) for word in table.words())
        tally.expect(f"decoding {data.hex()}", f"{values} = {data.hex()}", line)


def check_cuts(tally, program, tables):
    """The C program ends with a failure at the first cut that is not as it should be."""
    encoded = [table.encode() for table in tables]
    cuts = sum(int(line) for line in run([program, "cuts"], encoded))
    tally.expect("cuts", sum(len(data) for data in encoded), cuts)
    return cuts


def check_building(tally, program, seed, count):
    """Tables that libtirpc encoded are judged as the C program meant, and by the reference."""
    lines = run([program, "build", str(seed), str(count)])
    tally.expect("tables built", count, len(lines))
    met = Counter()
    for line in lines:
        data, meant, answer = line.split(" ")
        answer = split_answer(int(answer))
        met[answer[0]] += 1
        tally.expect(f"built {data}", split_answer(int(meant)), answer)
        tally.expect(f"built {data}, reference", judge(bytes.fromhex(data)), answer)
    for number in (0, 2, 3, 4):
        tally.expect(f"number {number} was met", True, met[number] > 0)


def main():
    parser = argparse.ArgumentParser()
    parser.add_argument("program", help="the program table_xdr")
    parser.add_argument("--tables", type=int, default=1000)
    parser.add_argument("--seed", type=int, default=1)
    options = parser.parse_args()

    rng = random.Random(options.seed)
    examples = list(make.ACCEPTED.values())
    tables = examples + [random_table(rng) for _ in range(options.tables)]

    tally = Tally("XDR library")
    check_decoding(tally, options.program, tables)
    cuts = check_cuts(tally, options.program, examples + tables[-20:])
    check_building(tally, options.program, options.seed, options.tables)
    tally.finish(f" ({cuts} cuts)")


if __name__ == "__main__":
    main()
