#!/usr/bin/env python3
"""The example files are what their script makes, and are judged as it says.

Usage: table_examples.py TABLE_CHECK_BATCH
"""

import sys
from pathlib import Path

EXAMPLES = Path(__file__).resolve().parent.parent / "examples"
sys.path.insert(0, str(EXAMPLES))

import make  # noqa: E402
from reference.table_library import Tally, library_answers  # noqa: E402
from reference.table_reference import judge  # noqa: E402


def main(batch):
    tally = Tally("examples")
    files = list(make.files())
    answers = library_answers(batch, [data for _, data, _, _ in files])
    for (path, data, number, place), answer in zip(files, answers):
        tally.expect(f"{path.name}, up to date", True, path.read_bytes() == data)
        tally.expect(f"{path.name}, reference", (number, place), judge(data))
        tally.expect(f"{path.name}, library", (number, place), answer)
    tally.expect("files present", {path for path, _, _, _ in files}, set(EXAMPLES.rglob("*.table")))
    tally.finish()


if __name__ == "__main__":
    main(sys.argv[1])
