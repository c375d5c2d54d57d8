#!/usr/bin/env python3
"""Longer work of the whole program, beside the same work in Emacs where that is installed: 200,000 insertions that a hook
function makes, 65,536 records undone in one call, output of a child of 64 MiB through a filter that inserts and marks, and the
pieces of a drill from a real child. Of each, the processor's seconds of the program alone (not of its children), those of half the
work, its peak of memory, and how many times as long Emacs takes; of a few runs, the least.

Emacs evaluates the same forms, its handlers byte-compiled, and prints a line for each answer at each depth, as the kernel does.
Where `rustc` is installed, `plain_edits.rs` and `plain_output.rs` show what plain loops take for some of this.

    bench/whole.py [PROGRAM] [RUNS]     (what `rt run` leaves in crates/kernel_cli/out, and 3, if none is given)
"""
import os
import random
import resource
import shutil
import subprocess
import sys
import tempfile

HERE = os.path.dirname(os.path.abspath(__file__))
PROGRAM = sys.argv[1] if len(sys.argv) > 1 else f"{HERE}/../crates/kernel_cli/out/kernel_cli"
RUNS = int(sys.argv[2]) if len(sys.argv) > 2 else 3

# Emacs's reading of a script: each form evaluated, its answer told, and each form of a handler, too.
EMACS = r"""
(defvar told-depth 0)
(defun told (answer)
  (princ (make-string (* 2 told-depth) ?\s)) (princ "= ") (prin1 answer) (terpri)
  answer)
(defmacro defhandler (name parameters &rest forms)
  `(progn
     (defun ,name (&optional ,@parameters &rest _)
       (let ((told-depth (1+ told-depth)))
         ,@(mapcar (lambda (form) `(told ,form)) forms)))
     (byte-compile ',name)))
(setq process-connection-type nil read-process-output-max 4096)
(let ((script (generate-new-buffer "script")) (form nil))
  (with-current-buffer script (insert-file-contents (getenv "SCRIPT")))
  (with-current-buffer "*scratch*"
    (buffer-enable-undo)
    (setq undo-limit 100000000 undo-strong-limit 100000000 undo-outer-limit nil)
    (while (setq form (ignore-errors (read script)))
      (if (eq (car form) 'defhandler)
          (eval form)
        (told (eval form))))
    (prin1 (buffer-string))))
(dolist (process (process-list)) (set-process-query-on-exit-flag process nil))
"""

TEXT = '(insert "%s")\n' % ("x" * 8192)


def by_hook(forms, times, before=""):
    """A script in which each change of the top level makes these forms."""
    body = "\n".join(forms)
    return f"{TEXT}{before}(defhandler h (start end length)\n{body})\n(add-hook 'after-change-functions 'h)\n" + '(insert "a")\n' * times


def at_places(places):
    return [form for place in places for form in (f"(goto-char {place})", '(insert "a")')]


def wandering(count):
    place, places = 4096, []
    for _ in range(count):
        place = max(1, min(8000, place + random.randint(-20, 20)))
        places.append(place)
    return places


def anywhere(count):
    return [random.randint(1, 8192) for _ in range(count)]


def undone(times):
    """Each insertion at another place is a record; behind 65,535 of them, which 522 times make, all are undone."""
    places = at_places([1 + 2 * n for n in range(125)])
    return by_hook(places, times) + "(remove-hook 'after-change-functions 'h)\n(undo-start)\n(undo-more 1)\n"


# What it inserts and marks stays small, as a log view keeps its last lines.
HEARD = """(defhandler f (process text)
(goto-char 1)
(insert text)
(setq end (point))
(put-text-property 1 end 'face 'bold)
(setq m (process-mark process))
(set-marker m end)
(erase-buffer))
"""


def output(waits):
    """A command that writes as many reads of 4,096 bytes, but for some waits more than they need."""
    return f"yes aaaaaaa | head -c {waits * 16384 // 17000 * 4096}"


def loud(waits):
    """The output of this command, heard by a filter that inserts and marks."""
    start = f'(setq p (start-process "c" "*scratch*" "sh" "-c" "{output(waits)}"))\n'
    return HEARD + start + "(set-process-filter p 'f)\n" + "(accept-process-output p)\n" * waits


# A child that writes a drill's output in its pieces, each when it is asked.
PIECES = r"""import sys, os
output = "".join(f"é {n}\n" for n in range(9500)).encode()
at, size = 0, 1
while at < len(output) and os.read(0, 1):
    os.write(1, output[at : at + size])
    at, size = at + size, size % 7 + 1
"""
DRILL = """(defhandler f (process text)
(setq b (process-buffer process))
(set-buffer b)
(setq m (process-mark process))
(goto-char m)
(insert text)
(setq e (point))
(put-text-property m e 'n 'out)
(set-marker m e)
(undo-boundary))
"""


def drill(pieces, count):
    start = f'(setq p (start-process "drill" "out" "python3" "{pieces}"))\n'
    waits = '(process-send-string p "x")\n(accept-process-output p)\n' * count
    return DRILL + start + "(set-process-filter p 'f)\n" + waits


def seconds(words, script, environment):
    """The processor's seconds of the program alone: `time` would count its children, too."""
    with open(script) as given:
        started = subprocess.Popen(words, stdin=given, stdout=subprocess.DEVNULL, stderr=subprocess.DEVNULL, env={**os.environ, **environment})
        return own_time(started)


def own_time(started):
    """Waits for its end, and reads what it took by itself while it can still be asked."""
    os.waitid(os.P_PID, started.pid, os.WEXITED | os.WNOWAIT)
    with open(f"/proc/{started.pid}/schedstat") as stat:
        worked = int(stat.read().split()[0])
    _, status, usage = os.wait4(started.pid, 0)
    if status:
        sys.exit(f"it ended with {status}")
    return worked / 1e9, usage.ru_maxrss // 1024


def least(words, text, environment={}):
    """The least of some runs on a script of this text."""
    with tempfile.NamedTemporaryFile("w", suffix=".el") as script:
        script.write(text)
        script.flush()
        return min(seconds(words, script.name, {**environment, "SCRIPT": script.name}) for _ in range(RUNS))


def plain_loops(work):
    """The plain loops, made, by the names of the works that they do."""
    if not shutil.which("rustc"):
        return {}
    for name in "plain_edits", "plain_output":
        subprocess.run(["rustc", "-O", "--edition", "2021", "-o", f"{work}/{name}", f"{HERE}/{name}.rs"], check=True)
    edits = ["insertions at the end", "wandering", "at random places", "with 1,000 markers"]
    return {**{name: [f"{work}/plain_edits"] for name in edits}, "64 MiB of a child": [f"{work}/plain_output", "loud", output(17000)]}


def main():
    random.seed(1)
    work = tempfile.mkdtemp(prefix="noonwool_whole_")
    try:
        with open(f"{work}/pieces.py", "w") as it:
            it.write(PIECES)
        with open(f"{work}/script.el", "w") as it:
            it.write(EMACS)
        markers = "".join(f"(copy-marker {1 + 8 * n})\n" for n in range(1000))
        runs = "".join(f"(put-text-property {1 + 2 * n} {2 + 2 * n} 'face 'bold)\n" for n in range(4096))
        works = {
            "insertions at the end": lambda part: by_hook(['(insert "a")'] * 250, 800 // part),
            "wandering": lambda part: by_hook(at_places(wandering(125)), 1600 // part),
            "at random places": lambda part: by_hook(at_places(anywhere(125)), 1600 // part),
            "with 1,000 markers": lambda part: by_hook(at_places(wandering(125)), 1600 // part, markers),
            "with 4,096 runs": lambda part: by_hook(at_places(wandering(125)), 1600 // part, runs),
            "65,536 records undone": lambda part: undone(522 // part),
            "64 MiB of a child": lambda part: loud(17000 // part),
            "a drill of a child": lambda part: drill(f"{work}/pieces.py", 18724 // part),
        }
        plain = plain_loops(work)
        for name, script in works.items():
            half, _ = least([PROGRAM, "run"], script(2))
            whole = script(1)
            ours, memory = least([PROGRAM, "run"], whole)
            told = f"{name:24} half {half:7.3f} s; kernel {ours:7.3f} s, {memory:4} MiB"
            if shutil.which("emacs"):
                theirs, memory = least(["emacs", "-Q", "--batch", "-l", f"{work}/script.el"], whole)
                told += f"; emacs {theirs:6.2f} s, {memory:4} MiB; {theirs / max(ours, 0.001):.1f} times as long"
            if name in plain:
                told += f"; a plain loop {least(plain[name], whole)[0]:7.3f} s"
            print(told, flush=True)
    finally:
        shutil.rmtree(work)


main()
