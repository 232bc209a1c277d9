"""Runs the program rehearse on the bytes of a rehearsal file."""

import subprocess
from typing import NamedTuple


class Run(NamedTuple):
    status: int
    text: str
    errors: str


def run_program(program, data, *arguments):
    """What the program does with `data` on standard input."""
    done = subprocess.run([program, *arguments], input=data, capture_output=True, check=False)
    return Run(done.returncode, done.stdout.decode(), done.stderr.decode())


def expect_outcome(tally, what, wanted, run):
    """The status and the text are as wanted, and standard error is empty."""
    tally.expect(f"{what}, output", wanted.text, run.text)
    tally.expect(f"{what}, status", wanted.status, run.status)
    tally.expect(f"{what}, standard error", "", run.errors)
