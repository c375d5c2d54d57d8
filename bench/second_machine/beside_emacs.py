#!/usr/bin/env python3
"""Runs random scripts in the second machine and in GNU Emacs, and compares the lines.

    python3 bench/second_machine/beside_emacs.py [COUNT] [SEED]

Of COUNT random scripts (200), from the SEED (1) on, those that start no child are compared, and those that may start one
with children that write once at most and end. Emacs does the forms by bench/beside_emacs.el, whose head says what is masked.
Ends with status 1 where a script differs.
"""
import os
import random
import re
import shutil
import subprocess
import sys
import tempfile

sys.dont_write_bytecode = True      # the modules beside this one leave nothing in the repository

from machine import Machine
from random_scripts import ScriptGenerator
from script_reader import ScriptFault, read_script
from shrink import Shrinker

BENCH = os.path.dirname(os.path.dirname(os.path.abspath(__file__)))
EMACS = (shutil.which(os.environ.get("EMACS", "emacs")), "-Q", "--batch", "-l", os.path.join(BENCH, "beside_emacs.el"),
         "-f", "beside-emacs")
SECONDS = 60
MOST_SHOWN = 5
MOST_LINE = 200
# What a child writes, and how it ends.
CHILDREN = {
    "printf hello": (b"hello", ("code", 0)),
    "echo abc; exit 3": (b"abc\n", ("code", 3)),
    "printf 'é€x'": ("é€x".encode("utf-8"), ("code", 0)),
    "printf xy; kill -15 $$": (b"xy", ("signal",)),
    "true": (b"", ("code", 0)),
    "exit 255": (b"", ("code", 255)),
    "kill -9 $$": (b"", ("signal",))}
CHILD = re.compile(rb'"prog" "-x"')


class ShellHost:
    """Answers as the shell's children do."""

    def __init__(self):
        self.children = []

    def __call__(self, asked):
        return getattr(self, asked[0])(*asked[1:])

    def spawn(self, _program, arguments):
        command = arguments[-1].decode("utf-8") if arguments else None
        if command not in CHILDREN:
            return ("refused",)
        output, end = CHILDREN[command]
        self.children.append(([output] if output else [], end))
        return "started", len(self.children) - 1

    def read(self, child):
        pieces = self.children[child][0]
        return ("bytes", pieces.pop()) if pieces else ("end",)

    def end(self, child):
        return self.children[child][1]

    def kill(self, _child):
        return ("killed",)


def random_script(seed):
    """A script with the shell's children, or None where it sends something: whether that arrives is chance."""
    script = ScriptGenerator(seed).script()
    chance = random.Random(f"{seed} children")
    commands = list(CHILDREN)

    def child(_match):
        return f'"sh" "-c" "{chance.choice(commands)}"'.encode("utf-8")

    return None if b"process-send" in script else CHILD.sub(child, script)


def second_machine(script):
    """The lines, or None where the bytes are no script."""
    try:
        return Machine(read_script(script), ShellHost()).run().split(b"\n")
    except ScriptFault:
        return None


def emacs(script):
    """The lines of Emacs, to which the shell is the only program that there is."""
    with tempfile.TemporaryDirectory() as folder:
        names = [os.path.join(folder, name) for name in ("script", "lines")]
        os.symlink(shutil.which("sh"), os.path.join(folder, "sh"))
        with open(names[0], "wb") as file:
            file.write(script)
        try:
            # with its signals as here, Emacs isn't ended by that of a pipe that a child doesn't read
            done = subprocess.run([*EMACS, *names], capture_output=True, timeout=SECONDS, check=False,
                                  restore_signals=False, env={**os.environ, "PATH": folder})
        except subprocess.TimeoutExpired:
            return [b"(no end)"]
        if done.returncode:
            return [b"(Emacs failed) " + done.stderr[-MOST_LINE:]]
        with open(names[1], "rb") as file:
            return file.read().split(b"\n")


def compared(script):
    """Whether the two give the same lines, or None where the bytes are no script."""
    ours = second_machine(script)
    return None if ours is None else ours == emacs(script)


def show(seed, script):
    script = Shrinker(lambda part: compared(part) is False).shrink(script)
    ours, theirs = second_machine(script), emacs(script)
    length = min(len(ours), len(theirs))
    place = next((index for index in range(length) if ours[index] != theirs[index]), length)
    print(f"  seed {seed} differs; shrunk script:\n{text(script)}")
    for name, lines in (("second machine", ours), ("Emacs", theirs)):
        line = text(lines[place][:MOST_LINE]) if place < len(lines) else "(no more lines)"
        print(f"  line {place + 1}, {name}: {line}")


def text(data):
    return data.decode("utf-8", "backslashreplace")


def main(count="200", seed="1"):
    found = {True: 0, False: 0}
    for number in range(int(seed), int(seed) + int(count)):
        script = random_script(number)
        is_same = compared(script) if script else None
        if is_same is not None:
            found[is_same] += 1
        if is_same is False and found[False] <= MOST_SHOWN:
            show(number, script)
    print(f"{sum(found.values())} scripts: {found[True]} the same, {found[False]} differ", flush=True)
    return 1 if found[False] else 0


if __name__ == "__main__":
    sys.exit(main(*sys.argv[1:]))
