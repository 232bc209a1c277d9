"""Runs the static library's table_check on many tables, through a C program."""

import struct
import subprocess
import sys


def records(tables):
    """The tables as the C programs read them: each its length, then its bytes."""
    return b"".join(struct.pack(">I", len(data)) + data for data in tables)


def run(command, tables=()):
    """What the C program writes for the tables, as lines."""
    done = subprocess.run(command, input=records(tables), stdout=subprocess.PIPE, check=True)
    return done.stdout.decode().splitlines()


def split_answer(answer):
    """place * 256 + number as (number, place)."""
    return answer % 256, answer // 256


def library_answers(program, tables):
    """table_check's (number, place) for each table; `program` is table_check_batch."""
    answers = [split_answer(int(line)) for line in run([program], tables)]
    assert len(answers) == len(tables), "the C program answered for fewer tables"
    return answers


class Tally:
    """Counts checks, prints each fault, and ends the test with one line."""

    def __init__(self, name):
        self.name = name
        self.checks = 0
        self.faults = 0

    def expect(self, what, wanted, got):
        self.checks += 1
        if wanted != got:
            self.faults += 1
            print(f"{self.name}: {what}: wanted {wanted}, got {got}", file=sys.stderr)

    def finish(self, remark=""):
        print(f"{self.name}: {self.checks} checks, {self.faults} faults{remark}")
        sys.exit(1 if self.faults else 0)
