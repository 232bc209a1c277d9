#!/usr/bin/env python3
"""The example rehearsals are what their script makes, and the program prints what it says.

Usage: rehearsal_program.py PROGRAM

Each is run by file name and on standard input. Then come wrong uses, a file that is not there, and
want of memory.
"""

import resource
import subprocess
import sys
from pathlib import Path

EXAMPLES = Path(__file__).resolve().parent.parent / "examples"
sys.path.insert(0, str(EXAMPLES))

import make  # noqa: E402
from reference.rehearsal_program import Run, expect_outcome, run_program  # noqa: E402
from reference.rehearsal_reference import Outcome, rehearse  # noqa: E402
from reference.table_library import Tally  # noqa: E402


def run_on_file(program, *arguments):
    done = subprocess.run([program, *arguments], stdin=subprocess.DEVNULL, capture_output=True, check=False)
    return Run(done.returncode, done.stdout.decode(), done.stderr.decode())


def check_examples(tally, program):
    for path, data, text, status in make.rehearsals():
        tally.expect(f"{path.name}, up to date", True, path.read_bytes() == data)
        if status == 0:
            tally.expect(f"{path.name}, listing up to date", text, path.with_suffix(".listing").read_text())
        wanted = Outcome(status, text)
        said = rehearse(data)
        tally.expect(f"{path.name}, reference", (status, text), (said.status, said.text))
        expect_outcome(tally, f"{path.name} by name", wanted, run_on_file(program, str(path)))
        expect_outcome(tally, f"{path.name} on standard input", wanted, run_program(program, data))
        known = rehearse(data, knows=True)
        expect_outcome(tally, f"{path.name}, knowledge", known, run_on_file(program, "--knows", str(path)))
        expect_outcome(tally, f"{path.name}, flag last", known, run_on_file(program, str(path), "--knows"))
    made = {path for path, _, _, _ in make.rehearsals()}
    tally.expect("files present", made, set(EXAMPLES.rglob("*.rehearsal")))


def check_failures(tally, program):
    """A failure that is no refusal: no output, a message, and a failing status."""
    example = str(EXAMPLES / "three-switches.rehearsal")
    for name, arguments in (
        ("a file that is not there", (str(EXAMPLES / "absent.rehearsal"),)),
        ("a directory", (str(EXAMPLES),)),
        ("an unknown option", ("--know", example)),
        ("two files", (example, example)),
    ):
        run = run_on_file(program, *arguments)
        tally.expect(f"{name}, output", "", run.text)
        tally.expect(f"{name}, fails", True, run.status != 0)
        tally.expect(f"{name}, says so", True, run.errors.startswith("rehearse: "))


def check_memory(tally, program):
    """An input that finds no memory: no output, a message, and a failing status."""
    table = make.three_switches().encode()

    def limit():
        resource.setrlimit(resource.RLIMIT_AS, (64 * 2**20, 64 * 2**20))

    data = table + bytes(256 * 2**20)
    done = subprocess.run([program], input=data, capture_output=True, check=False, preexec_fn=limit)
    tally.expect("want of memory, output", b"", done.stdout)
    tally.expect("want of memory, fails", True, done.returncode > 0)
    tally.expect("want of memory, says so", True, done.stderr.startswith(b"rehearse: "))


def main(program):
    tally = Tally("rehearsals")
    check_examples(tally, program)
    check_failures(tally, program)
    check_memory(tally, program)
    tally.finish()


if __name__ == "__main__":
    main(sys.argv[1])
