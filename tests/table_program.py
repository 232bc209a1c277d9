#!/usr/bin/env python3
"""The program's answer for every example table, by file name and on standard input.

Usage: table_program.py PROGRAM

Looks at the status and at the first line. Of an accepted table it also wants the figures
somewhere in what is printed.
"""

import re
import subprocess
import sys
from pathlib import Path

EXAMPLES = Path(__file__).resolve().parent.parent / "examples"
sys.path.insert(0, str(EXAMPLES))

import make  # noqa: E402
from reference.table_library import Tally  # noqa: E402
from reference.table_reference import figures  # noqa: E402


def run_program(command, data=None):
    """The exit status and what is printed."""
    done = subprocess.run(command, input=data, stdout=subprocess.PIPE, check=False)
    return done.returncode, done.stdout.decode()


def check_accepted(tally, name, data, text):
    tally.expect(f"{name}, first words", "table accepted", text[: len("table accepted")])
    numbers = re.findall("[0-9]+", text)
    for figure in figures(data)[1:]:
        tally.expect(f"{name}, {figure} is printed", True, str(figure) in numbers)
    tally.expect(f"{name}, kind is printed", True, figures(data).kind in text)


def main(program):
    tally = Tally("program")
    for path, data, number, place in make.files():
        for how, (status, text) in (
            ("by name", run_program([program, str(path)])),
            ("on standard input", run_program([program], data)),
        ):
            name = f"{path.name} {how}"
            tally.expect(f"{name}, status", 0 if number == 0 else 1, status)
            if number == 0:
                check_accepted(tally, name, data, text)
            else:
                first_line = text.partition("\n")[0]
                tally.expect(name, f"table refused {number} {place}", first_line)
    tally.finish()


if __name__ == "__main__":
    main(sys.argv[1])
