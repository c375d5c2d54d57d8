#!/usr/bin/env python3
"""Runs scripts through the compiled program and through the second machine, and compares what they print.

    python3 bench/second_machine/compare.py [PROGRAM] [COUNT] [SEED]

PROGRAM is what `rt run` leaves in crates/kernel_cli/out if none is given. COUNT random scripts (500), from the
SEED (1) on, are compared, as many with a few bytes changed, and all hand-made ones. Ends with status 1 where any
differ.
"""
import functools
import os
import subprocess
import sys
from dataclasses import dataclass

sys.dont_write_bytecode = True      # the modules beside this one leave nothing in the repository

import hand_made_scripts
import limit_scripts
from byte_changes import changed
from journal import RecordingHost
from machine import Machine
from random_host import RandomHost
from random_scripts import ScriptGenerator
from script_reader import ScriptFault, read_script
from shrink import Shrinker

HERE = os.path.dirname(os.path.abspath(__file__))
DEFAULT_PROGRAM = os.path.join(os.path.dirname(os.path.dirname(HERE)), "crates", "kernel_cli", "out", "kernel_cli")
SECONDS = 300
MOST_SHOWN = 3
MOST_LINE = 300
MOST_SCRIPT = 4_000
SCRIPT_STATUS = 2


@dataclass
class Outcome:
    """How a run ended: its status, what it printed, and its message."""
    status: int
    output: bytes
    message: str

    def count_lines(self):
        return self.output.count(b"\n")


@dataclass
class RandomCase:
    """A script and a host of one seed."""
    name: str
    script: bytes
    host: object


def random_cases(count, seed):
    for number in range(seed, seed + count):
        script = ScriptGenerator(number).script()
        yield RandomCase(f"seed {number}", script, functools.partial(RandomHost, number))


def changed_cases(count, seed):
    for case in random_cases(count, seed):
        yield RandomCase(case.name, changed(case.script, case.name), case.host)


def hand_made_cases(_count, _seed):
    yield from hand_made_scripts.cases()
    yield from limit_scripts.cases()


KINDS = (("random scripts", random_cases), ("scripts with a byte changed", changed_cases),
         ("hand-made scripts", hand_made_cases))


def run_second_machine(script, host):
    """The outcome, and the journal from which the program can replay the run."""
    recording = RecordingHost(host)
    try:
        outcome = Outcome(0, Machine(read_script(script), recording).run(), "")
    except ScriptFault as fault:
        outcome = Outcome(SCRIPT_STATUS, b"", f"kernel_cli: script: line {fault.line}")
    return outcome, recording.journal(script)


def run_program(program, script, journal):
    """Replays what may start a child, so that no real one ever runs; None where the time is up."""
    command, data = ("replay", journal) if b"start-process" in script else ("run", script)
    try:
        done = subprocess.run([program, command], input=data, capture_output=True, timeout=SECONDS, check=False)
    except subprocess.TimeoutExpired:
        return None
    return Outcome(done.returncode, done.stdout, done.stderr.decode("utf-8", "replace").strip())


def outcomes(program, script, make_host):
    expected, journal = run_second_machine(script, make_host())
    return expected, run_program(program, script, journal)


def differs(program, make_host, status, script):
    """Whether the machines part over this script, which ends with that status in the second machine."""
    expected, got = outcomes(program, script, make_host)
    return expected.status == status and got is not None and got != expected


def show_difference(program, case, expected, got):
    """Shrinks the script, and shows the first line on which the two machines part."""
    if got is None:
        print(f"  {case.name}: no end within {SECONDS} seconds\n{text(case.script[:MOST_SCRIPT])}")
        return
    script = Shrinker(functools.partial(differs, program, case.host, expected.status)).shrink(case.script)
    expected, got = outcomes(program, script, case.host)
    print(f"  {case.name} differs; shrunk script:\n{text(script[:MOST_SCRIPT])}")
    if got is None or (got.status, got.message) != (expected.status, expected.message):
        print(f"  second machine: {expected.status} {expected.message}\n  program: {got and (got.status, got.message)}")
    else:
        show_first_line(expected.output.split(b"\n"), got.output.split(b"\n"))


def show_first_line(expected, got):
    """One list may be the beginning of the other, whose next line is shown then."""
    length = min(len(expected), len(got))
    place = next((index for index in range(length) if expected[index] != got[index]), length)
    for name, lines in (("second machine", expected), ("program", got)):
        line = text(lines[place][:MOST_LINE]) if place < len(lines) else "(no more lines)"
        print(f"  line {place + 1}, {name}: {line}")


def text(data):
    return data.decode("utf-8", "backslashreplace")


def compare_kind(name, cases, program):
    """How many of the cases differ."""
    scripts = lines = different = 0
    for case in cases:
        expected, got = outcomes(program, case.script, case.host)
        scripts += 1
        lines += expected.count_lines()
        if got != expected:
            different += 1
            if different <= MOST_SHOWN:
                show_difference(program, case, expected, got)
    print(f"{name}: {scripts} scripts, {lines} lines, {different} differ", flush=True)
    return different


def main(program=DEFAULT_PROGRAM, count="500", seed="1"):
    if not os.access(program, os.X_OK):
        return f"no program at {program}"
    different = [compare_kind(name, cases(int(count), int(seed)), program) for name, cases in KINDS]
    return 1 if any(different) else 0


if __name__ == "__main__":
    sys.exit(main(*sys.argv[1:]))
