#!/usr/bin/env python3
"""Real children under load: runs the compiled program with many of them at once, and with a child that writes a great deal.

    python3 bench/children.py [PROGRAM] [COUNT] [MIB]

PROGRAM is what `rt run` leaves in crates/kernel_cli/out if none is given. COUNT children (200) run at once. MIB (1024) are
written by children whose filter drops it and is off and on meanwhile; as a run makes at most 65,536 exchanges of 4,096 bytes, this
takes several runs.

Of the many a sixth each

- write some lines and end;
- write a line, close their output early, and end with code 3 a little later;
- write a line and are killed by a signal of their own;
- send back what they are sent, until their input is closed;
- never read what they are sent, and sleep until they are deleted;
- never write, close their output at once, and end.

Of each run is judged: its status; how each process ended; that the entries of each filter spell just what that child writes; that
a last child finds no other child of the program, alive or dead, and no descriptor but its own pipes; that the program leaves no
child behind; and its peak of memory. One child more is sent a text longer than its pipe holds and never reads it: `process-send-string` waits
then until that child has gone. Each run has a time limit of its own.

Ends with status 1 where something is judged wrong.
"""
import collections
import ctypes
import os
import re
import resource
import signal
import subprocess
import sys
import tempfile
import time

TOP = os.path.dirname(os.path.dirname(os.path.abspath(__file__)))
PROGRAM = os.path.abspath(sys.argv[1] if len(sys.argv) > 1 else f"{TOP}/crates/kernel_cli/out/kernel_cli")
COUNT = int(sys.argv[2]) if len(sys.argv) > 2 else 200
MIB = int(sys.argv[3]) if len(sys.argv) > 3 else 1024

SECONDS = 600
# What a run may take: the bytes in all exchanges (256 MiB), twice as the room for them grows, and the rest.
MOST_MEMORY = 640 << 20
# What a child of one run writes: a fifth of 1 GiB, in about 52,429 of the 65,536 exchanges.
MOST_BYTES = 214_748_368

# What each kind runs, what it writes, and how it ends as the dump says it.
LINES = "".join(f"{n}\n" for n in range(1, 3001))
KINDS = [
    ("exec seq 1 3000", LINES, "exit 0"),
    ("echo early; exec >&-; sleep 0.3; exit 3", "early\n", "exit 3"),
    ("echo dying; kill -SIGNAL $$", "dying\n", "signal nil"),
    ("exec cat", "given\n" * 50, "exit 0"),
    ("exec sleep 1000", "", "run 0"),
    ("exec >&-; exit 0", "", "exit 0"),
]
SENT = 3
SILENT = 4
SIGNALS = ["KILL", "TERM", "HUP", "SEGV", "ABRT"]

# Lists the other children of the program, and its descriptors.
LOOK = """me=$$; for f in /proc/[0-9]*/stat; do read pid name state parent rest 2>/dev/null < $f || continue; \
[ "$parent" = "$PPID" ] && [ "$pid" != "$me" ] && echo "child $pid $state"; done; \
for f in /proc/$PPID/fd/*; do echo "descriptor ${f##*/}"; done; echo seen"""

wrong = 0


def judge(holds, what):
    global wrong
    if not holds:
        wrong += 1
        print(f"    WRONG: {what}")


def string(text):
    return '"' + text.replace("\\", "\\\\").replace('"', '\\"').replace("\n", "\\n") + '"'


def start(register, name, shell):
    return f'(setq {register} (start-process {string(name)} nil "sh" "-c" {string(shell)}))'


class Run:
    """What the program wrote on a script: the texts of all filter entries by the name of the process, or their length alone for those
    named in `long`; how each process ended; how often each reply came. And its seconds, those of a processor, and its peak of memory."""

    def __init__(self, script, long=()):
        self.entered, self.length, self.ends, self.replies = {}, {}, {}, collections.Counter()
        with tempfile.TemporaryFile() as given, tempfile.TemporaryFile() as said:
            given.write(script.encode())
            given.seek(0)
            began = time.time()
            process = subprocess.Popen([PROGRAM, "run"], stdin=given, stdout=subprocess.PIPE, stderr=said)
            signal.signal(signal.SIGALRM, lambda *_: process.kill())
            signal.alarm(SECONDS)
            for line in process.stdout:
                self.take(line, long)
            _, status, used = os.wait4(process.pid, 0)
            signal.alarm(0)
            process.returncode = os.waitstatus_to_exitcode(status)
            said.seek(0)
            judge(process.returncode == 0, f"status {process.returncode}: {said.read(1000)}")
        self.seconds, self.processor = time.time() - began, used.ru_utime + used.ru_stime
        self.peak = used.ru_maxrss << 10
        judge(self.peak <= MOST_MEMORY, f"{self.peak >> 20} MiB")

    def take(self, line, long):
        if found := re.match(rb'^ *> filter \S+ #<process (\S+)> "', line):
            name = found[1].decode()
            if name in long:
                self.length[name] = self.length.get(name, 0) + len(line) - found.end() - len(b'"\n')
            else:
                text = line[found.end():-2].decode().replace("\\n", "\n").replace("\\t", "\t")
                self.entered[name] = self.entered.get(name, "") + text
        elif found := re.match(rb"^process \d+ #<process (\S+)> (.*)$", line):
            self.ends[found[1].decode()] = found[2].decode()
        elif line[:2] in (b"= ", b"! "):
            self.replies[line.decode(errors="replace").rstrip("\n")] += 1


def judge_left():
    """Whatever the program left behind is ours now, since this process takes up orphans."""
    left = []
    while True:
        try:
            pid, _ = os.waitpid(-1, os.WNOHANG)
        except ChildProcessError:
            break
        if pid == 0:
            alive = subprocess.run(["ps", "-o", "pid=,args=", "--ppid", str(os.getpid())], capture_output=True, text=True).stdout
            left = [line for line in alive.splitlines() if " ps " not in f"{line} "]
            for line in left:
                os.kill(int(line.split()[0]), signal.SIGKILL)
                os.waitpid(int(line.split()[0]), 0)
            break
    judge(not left, f"left behind: {left}")


def judge_last(run):
    """What the last child saw: no other child, and besides the standard ones the descriptors of its own two pipes."""
    seen = run.entered.get("last", "").splitlines()
    judge(bool(seen) and seen[-1] == "seen", "the last child saw nothing")
    judge(not any(line.startswith("child") for line in seen), f"children are left: {seen}")
    count = sum(line.startswith("descriptor") for line in seen)
    judge(count == 5, f"{count} descriptors in place of 5")


def crowd():
    forms = ["(defhandler f (p s))", "(defhandler s (p m))"]
    for i in range(COUNT):
        shell, _, _ = KINDS[i % len(KINDS)]
        forms.append(start("p", f"c{i}", shell.replace("SIGNAL", SIGNALS[i % len(SIGNALS)])))
        forms.append("(set-process-filter p 'f)(set-process-sentinel p 's)")
        if i % len(KINDS) == SENT:
            forms += ['(process-send-string p "given\\n")'] * 50 + ["(process-send-eof p)"]
        if i % len(KINDS) == SILENT:
            forms.append(f"(process-send-string p {string('x' * 4000)})(set-process-filter p t)")
    forms += ["(accept-process-output)"] * (20 * COUNT + 20)
    # The silent ones are deleted, so that the last child is alone.
    forms += [f'(delete-process "c{i}")' for i in range(COUNT) if i % len(KINDS) == SILENT]
    forms.append(start("p", "last", LOOK) + "(set-process-filter p 'f)" + "(accept-process-output p)" * 40)
    # And one more is left for the kill at the end.
    forms.append(start("p", "left", "exec sleep 1000"))
    run = Run("\n".join(forms))
    for i in range(COUNT):
        _, written, ended = KINDS[i % len(KINDS)]
        ended = "signal nil" if i % len(KINDS) == SILENT else ended
        judge(run.entered.get(f"c{i}", "") == written, f"c{i}: {run.entered.get(f'c{i}', '')[:80]!r}")
        judge(run.ends.get(f"c{i}") == ended, f"c{i} ended by {run.ends.get(f'c{i}')}")
    judge(run.ends.get("left") == "run 0", f"the child that is left: {run.ends.get('left')}")
    judge_last(run)
    judge_left()
    print(f"{COUNT} children at once: {run.seconds:.2f} s, {run.processor:.2f} s of a processor, peak {run.peak >> 20} MiB")


def unread():
    """A text that the pipe can't hold waits for the child, and is told as broken once it has gone."""
    text = string("x" * 1000)
    forms = [start("p", "deaf", "exec sleep 1")] + [f"(process-send-string p {text})"] * 200
    run = Run("\n".join(forms))
    sent, broken = run.replies["= nil"], run.replies["! 11 broken-pipe"]
    judge(sent + broken == 200 and sent >= 4 and broken >= 1, f"{sent} sent, {broken} broken")
    judge(run.seconds >= 0.9, f"no wait: {run.seconds:.2f} s")
    judge_left()
    print(f"a child that never reads: {sent} texts of 1,000 bytes went into its pipe, then {broken} were broken; {run.seconds:.2f} s")


def dropped():
    """Children whose output goes to a filter that does nothing, and that is off for every 201st wait."""
    left, largest = MIB << 20, 0
    runs, used, spent = 0, 0.0, 0.0
    while left > 0:
        size = min(left, MOST_BYTES)
        waits = "(set-process-filter p t)(accept-process-output p)(set-process-filter p 'f)" + "(accept-process-output p)" * 200
        run = Run("\n".join([
            "(defhandler f (q s))(defhandler s (q m))",
            f"(defhandler h (b e) {waits})",
            start("p", "c", f"head -c {size} /dev/zero | tr '\\0' a"),
            "(set-process-filter p 'f)(set-process-sentinel p 's)(add-hook 'before-change-functions 'h)",
            '(insert "a")' * (size // 4096 // 200 * 5 // 4 + 2),
            "(remove-hook 'before-change-functions 'h)",
            start("p", "last", LOOK) + "(set-process-filter p 'f)" + "(accept-process-output p)" * 40,
        ]), long=("c",))
        read = run.length.get("c", 0)
        judge(read == size, f"{read} bytes in place of {size}")
        judge(run.ends.get("c") == "exit 0", f"the child ended by {run.ends.get('c')}")
        judge_last(run)
        judge_left()
        left, largest = left - size, max(largest, run.peak)
        runs, used, spent = runs + 1, used + run.processor, spent + run.seconds
    print(f"{MIB} MiB dropped in {runs} runs: {spent:.2f} s, {used:.2f} s of a processor, peak {largest >> 20} MiB")


# Orphans come to this process, so that it sees what the program leaves behind.
ctypes.CDLL(None, use_errno=True).prctl(36, 1, 0, 0, 0)
soft, hard = resource.getrlimit(resource.RLIMIT_NOFILE)
resource.setrlimit(resource.RLIMIT_NOFILE, (min(hard, max(soft, 4096)), hard))
crowd()
unread()
dropped()
print("nothing is judged wrong" if not wrong else f"{wrong} judged WRONG")
sys.exit(1 if wrong else 0)
