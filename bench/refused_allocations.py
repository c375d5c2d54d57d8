#!/usr/bin/env python3
"""Refuses each allocation in turn, one a run, and judges what each run answers and writes.

    python3 bench/refused_allocations.py [WORD]     (the runs whose names have this word, all if none is given)

The runs are made by one program, which is proved and built first; from nothing that takes as long as the proofs of all that it
stands on. A library that is loaded before libc counts its allocations from the start of the run on, and refuses the one whose number
is given. A text in blocks is tried by `rt try`, which proves nothing, refuses an allocation by its number, too, and sees a wrong use of memory.

The runs are those that `kernel_rows` works out, and some more: each a script, with a source, a sink and a
host in memory. What a run writes and asks where memory is ample is what the tests compare. Where an allocation is refused it
must answer

- Done, with all lines and all exchanges, or
- NoMemory, with whole lines that are a front of all lines; its exchanges are a front of all exchanges, and behind them
  a kill of each child that lives by these, by rising number, and nothing else; and the entries of filters among its
  lines spell just what was read.

A text in blocks is made to grow, changed, copied and read. Where one of these is refused the text must be as it was,
with as many blocks lent out as before, and a second try, for which there is memory, must succeed; in the end the text
must be what it is without refusals, and all blocks given back.

Prints what became of the allocations of each run, and ends with status 1 where a run answers otherwise.
"""
import collections
import os
import re
import shutil
import subprocess
import sys
import tempfile
from concurrent.futures import ThreadPoolExecutor

TOP = os.path.dirname(os.path.dirname(os.path.abspath(__file__)))
TESTS = f"{TOP}/crates/kernel_rows/src"
WORD = sys.argv[1] if len(sys.argv) > 1 else ""
TEXT_ALLOCATIONS = 110

# The tests' tables of runs.
TABLES = ["edits", "undos", "hooks", "waits", "filters", "reentry", "codings", "read_only"]

# More runs: the name, the script, and what the child gives at each read.
MORE = [
    ("a longer insertion", '(insert "hello")(goto-char 2)(insert "abcdefghijklmnopqrstuvwxyz")(insert "")', []),
    ("a child without a buffer", '(start-process "c" nil "cat")(insert "ab")(accept-process-output)(accept-process-output)',
     [b"ab\n"]),
    ("a child that lives at the end, with a character cut across its reads",
     '(start-process "c" "*scratch*" "cat" "x" "y")' + "(accept-process-output)" * 4,
     [b"a\xE2", b"\x82", b"\xAC\xF0\x9F", b"\xFF"]),
    ("a sentinel that starts its successor",
     """(defhandler s (p m) (setq p (start-process "c" "out" "cat"))(set-process-sentinel p 's))
(setq p (start-process "c" "out" "cat"))(set-process-sentinel p 's)(accept-process-output nil 9)""", [b"a"]),
    ("properties, overlays and a killed buffer",
     """(get-buffer-create "w")(set-buffer "w")(insert #("abcd" 1 3 (face bold)))(setq o (make-overlay 2 4))
(overlay-put o 'face 'inner)(add-text-properties 1 3 '(x (a b)))(save-excursion (erase-buffer))(undo-start)(undo-more 1)
(buffer-undo-list)(get-char-property 2 'face)(kill-buffer)""", []),
    ("filters inside one another, a deleted process and a killed buffer",
     """(defhandler f (p s) (setq d (start-process "d" nil "d"))(set-process-sentinel d 's)(delete-process d))
(defhandler s (p m) (setq k (start-process "k" "b" "k"))(kill-buffer "b"))
(setq c (start-process "c" nil "c"))(set-process-filter c 'f)(accept-process-output c)""", [b"a"]),
    ("the drill of ten lines", "drill", [b"\xC3", b"\xA9 0\n\xC3\xA9 ", b"1\n\xC3\xA9 2\n\xC3\xA9 3\n", b"\xC3\xA9 4\n"]),
]

ROW_PROGRAM = r"""//! One run of the tests' tables, by its number on the command line.
#![tactic(auto)]

MODULES

use ek_types::{ListOf, MemorySink, MemorySource};
use handler_code::NoNatives;
use host_link::{Answer, Answers, Ask, Ended, Exchange, Host, MemoryHost, Play};
use kernel_top::run;
use playing::{Child, Row};
use std::alloc::Global;
use std::env;
use std::io::{self, Read, Write};
use std::test::Fail;

fn say(rt: &HostRuntime, bytes: &[u8]) {
    let _ = io::writer(rt).write_all(bytes);
}

fn show_ask(rt: &HostRuntime, ask: &Ask) -> io::Result<()> {
    match ask {
        Ask::Spawn(_, _) => print!(rt; "spawn x"),
        Ask::Read(child) => print!(rt; "read {child}"),
        Ask::End(child) => print!(rt; "end {child}"),
        Ask::Send(child, _) => print!(rt; "send {child}"),
        Ask::Close(child) => print!(rt; "close {child}"),
        Ask::Kill(child) => print!(rt; "kill {child}"),
    }
}

fn show_bytes(rt: &HostRuntime, bytes: &[u8]) -> io::Result<()> {
    print!(rt; "bytes")?;
    for byte in bytes {
        print!(rt; " {byte}")?;
    }
    Ok(())
}

fn show_answer(rt: &HostRuntime, answer: &Answer) -> io::Result<()> {
    match answer {
        Answer::Started(child) => print!(rt; "started {child}"),
        Answer::Refused => print!(rt; "refused"),
        Answer::Bytes(bytes) => show_bytes(rt, bytes.as_slice()),
        Answer::Nothing => print!(rt; "nothing"),
        Answer::End => print!(rt; "end"),
        Answer::Code(code) => print!(rt; "code {code}"),
        Answer::Signal => print!(rt; "signal"),
        Answer::Running => print!(rt; "running"),
        Answer::Killed => print!(rt; "killed"),
        Answer::Sent => print!(rt; "sent"),
        Answer::Closed => print!(rt; "closed"),
        _ => print!(rt; "another"),
    }
}

fn show(rt: &HostRuntime, exchange: &Exchange) -> io::Result<()> {
    show_ask(rt, &exchange.ask)?;
    print!(rt; ": ")?;
    show_answer(rt, &exchange.answer)?;
    print!(rt; "\n")
}

fn ended(ended: Ended) -> Answer {
    match ended {
        Ended::Code(code) => Answer::Code(code),
        Ended::Signal => Answer::Signal,
        Ended::Running => Answer::Running,
        Ended::Failed => Answer::Failed,
    }
}

fn play(alloc: Global, child: &Child) -> Result<Play, Fail> {
    let mut reads: Answers = ListOf::new(alloc);
    for given in child.reads {
        let mut bytes = ListOf::new(alloc);
        for byte in *given {
            bytes.push(*byte)?;
        }
        reads.push(Answer::Bytes(bytes))?;
    }
    let mut ends: Answers = ListOf::new(alloc);
    for end in child.ends {
        ends.push(ended(*end))?;
    }
    Ok(Play { reads, ends })
}

fn words_of(alloc: Global, script: &str) -> Result<Vec<String>, Fail> {
    let mut words = Vec::new(alloc);
    if script == "drill" {
        words.push(String::from_str(alloc, "drill")?)?;
        words.push(String::from_str(alloc, "10")?)?;
    } else {
        words.push(String::from_str(alloc, "run")?)?;
    }
    Ok(words)
}

fn run_row(rt: &HostRuntime, row: &Row) -> Result<(), Fail> {
    let alloc = rt.alloc();
    let mut plays = Vec::new(alloc);
    for child in row.children {
        plays.push(play(alloc, child)?)?;
    }
    let words = words_of(alloc, row.script)?;
    let mut source = MemorySource::new(row.script.as_bytes().to_vec(alloc)?, 1000, Vec::new(alloc));
    let mut sink = MemorySink::new(alloc, 100_000, 1000, Vec::new(alloc))?;
    let mut host = MemoryHost::new(plays, Vec::new(alloc));
    say(rt, b"set up\n");
    let status = run(
        alloc,
        words.as_slice(),
        &mut source,
        &mut sink,
        &mut host,
        &NoNatives,
    );
    say(rt, b"ran\n");
    println!(rt; "{status:?}")?;
    if let Some(told) = host.told() {
        for exchange in told.as_slice() {
            show(rt, exchange)?;
        }
    }
    say(rt, b"written\n");
    say(rt, sink.bytes());
    say(rt, b"whole\n");
    Ok(())
}

fn row_in(rows: &'static [Row], which: usize) -> Option<&'static Row> {
    rows.get(which)
}

fn row_at(which: usize) -> Option<&'static Row> {
    let mut left = which;
    for table in TABLES {
        if left < table.len() {
            return row_in(table, left);
        }
        left -= table.len();
    }
    None
}

const TABLES: [&[Row]; TABLE_COUNT] = [TABLE_NAMES];

fn main(rt: HostRuntime) -> Result<(), Fail> {
    for word in env::args(&rt)? {
        if let Ok(which) = word.parse::<usize>() {
            if let Some(row) = row_at(which) {
                run_row(&rt, row)?;
            }
        }
    }
    Ok(())
}
"""

# Loaded before libc: counts allocations between the two lines that the program writes, refuses one by its number, and tells the count.
REFUSING = r"""
#define _GNU_SOURCE
#include <errno.h>
#include <stdio.h>
#include <stdlib.h>
#include <string.h>
#include <sys/syscall.h>
#include <unistd.h>

extern void *__libc_malloc(size_t);
extern void *__libc_realloc(void *, size_t);
extern void *__libc_calloc(size_t, size_t);
extern void *__libc_memalign(size_t, size_t);

static int counting;
static long count, number;

static int refused(void) { return counting && ++count == number && (errno = ENOMEM); }

void *malloc(size_t size) { return refused() ? 0 : __libc_malloc(size); }
void *realloc(void *old, size_t size) { return refused() ? 0 : __libc_realloc(old, size); }
void *calloc(size_t many, size_t size) { return refused() ? 0 : __libc_calloc(many, size); }
void *aligned_alloc(size_t by, size_t size) { return refused() ? 0 : __libc_memalign(by, size); }
int posix_memalign(void **to, size_t by, size_t size) {
    return refused() || !(*to = __libc_memalign(by, size)) ? ENOMEM : 0;
}

ssize_t write(int to, const void *bytes, size_t size) {
    if (size >= 4 && !memcmp(bytes, "ran\n", 4)) {
        char line[40];
        counting = 0;
        syscall(SYS_write, 2, line, snprintf(line, sizeof line, "%ld allocations\n", count));
    }
    long wrote = syscall(SYS_write, to, bytes, size);
    if (size >= 7 && !memcmp(bytes, "set up\n", 7)) {
        number = getenv("REFUSED") ? atol(getenv("REFUSED")) : 0;
        counting = 1;
    }
    return wrote;
}
"""

PLAYING = """//! What the tables of runs are made of.
use host_link::Ended;

#[derive(Clone, Copy)]
pub struct Child {
    pub reads: &'static [&'static [u8]],
    pub ends: &'static [Ended],
}

pub const UNREAD: Child = Child {
    reads: &[],
    ends: &[],
};

pub struct Row {
    pub shows: &'static str,
    pub script: &'static str,
    pub children: &'static [Child],
    pub lines: &'static str,
    pub exchanges: &'static [u8],
}
"""

TEXT_PROGRAM = r"""//! A text in blocks where one allocation is refused: standard input has the number of the allocation.
#![tactic(auto)]

use ek_types::{Ch, Chars, Mem};
use gap_text::Text;
use std::alloc::Global;
use std::io::{self, Read, Write};
use std::test::Fail;
use text_pool::Pool;

/// The allocation that is refused, counted from the beginning of the program.
const REFUSED: usize = 1000;

fn say(rt: &HostRuntime, line: &[u8]) {
    let _ = io::writer(rt).write_all(line);
}

fn check(rt: &HostRuntime, holds: bool) {
    if holds {
        say(rt, b"  and all is as it should be\n");
    } else {
        say(rt, b"WRONG\n");
    }
}

fn letters(alloc: Global, n: usize) -> Mem<Chars> {
    let mut text = Chars::new(alloc);
    for i in 0..n {
        if i % 7 == 3 {
            text.push(Ch::Raw(0x80 + (i % 128) as u8))?;
        } else {
            text.push(Ch::Scalar(char::from(b'a' + (i % 26) as u8)))?;
        }
    }
    Ok(text)
}

fn add(to: &mut Chars, from: &Chars, start: usize, end: usize) -> Mem<()> {
    for i in start..end {
        to.push(from.at(i))?;
    }
    Ok(())
}

/// The letters with all of them put in at `place`.
fn put_in(alloc: Global, letters: &Chars, place: usize) -> Mem<Chars> {
    let mut text = Chars::new(alloc);
    add(&mut text, letters, 0, place)?;
    add(&mut text, letters, 0, letters.len())?;
    add(&mut text, letters, place, letters.len())?;
    Ok(text)
}

fn without(alloc: Global, all: &Chars, from: usize, to: usize) -> Mem<Chars> {
    let mut text = Chars::new(alloc);
    add(&mut text, all, 0, from)?;
    add(&mut text, all, to, all.len())?;
    Ok(text)
}

fn holds(pool: &Pool, text: &Text, wanted: &Chars) -> bool {
    if text.len() != wanted.len() {
        return false;
    }
    for i in 0..wanted.len() {
        if text.at(pool, i) != wanted.at(i) {
            return false;
        }
    }
    true
}

/// Makes the spare at least `n`, at the second try where the first is refused.
fn grow(rt: &HostRuntime, pool: &mut Pool, text: &mut Text, wanted: &Chars, n: usize) {
    let spare = text.spare();
    let live = pool.live();
    if text.reserve(pool, n).is_err() {
        say(rt, b"room refused\n");
        check(rt, text.spare() == spare && pool.live() == live && holds(pool, text, wanted));
        check(rt, text.reserve(pool, n).is_ok());
    }
    check(rt, text.spare() >= n && 256 * pool.live() == text.len() + text.spare() && holds(pool, text, wanted));
}

/// Copies the text, and gives the copy back.
fn copies(rt: &HostRuntime, pool: &mut Pool, text: &Text, wanted: &Chars) -> bool {
    let live = pool.live();
    match text.copy(pool) {
        Ok(copy) => {
            check(rt, holds(pool, &copy, wanted) && holds(pool, text, wanted));
            copy.release(pool);
            check(rt, pool.live() == live && holds(pool, text, wanted));
            true
        }
        Err(_) => {
            say(rt, b"copy refused\n");
            check(rt, pool.live() == live && holds(pool, text, wanted));
            false
        }
    }
}

fn reads(rt: &HostRuntime, pool: &Pool, text: &Text, wanted: &Chars) -> bool {
    match text.copy_out(pool, 10, 450) {
        Ok(part) => {
            let mut same = part.len() == 440;
            for i in 0..part.len() {
                same &= part.at(i) == wanted.at(10 + i);
            }
            check(rt, same);
            true
        }
        Err(_) => {
            say(rt, b"characters refused\n");
            check(rt, holds(pool, text, wanted));
            false
        }
    }
}

fn texts(rt: &HostRuntime) -> Result<(), Fail> {
    let alloc = rt.alloc();
    let nothing = Chars::new(alloc);
    let first = letters(alloc, 300)?;
    let second = put_in(alloc, &first, 150)?;
    let third = without(alloc, &second, 100, 200)?;
    say(rt, b"set up\n");
    let mut pool = Pool::new(alloc);
    let mut text = Text::new(alloc);
    grow(rt, &mut pool, &mut text, &nothing, 300);
    text.insert(&mut pool, 0, &first);
    check(rt, holds(&pool, &text, &first));
    grow(rt, &mut pool, &mut text, &first, 300);
    text.insert(&mut pool, 150, &first);
    check(rt, holds(&pool, &text, &second));
    text.delete(&mut pool, 100, 200);
    check(rt, holds(&pool, &text, &third));
    grow(rt, &mut pool, &mut text, &third, 10_000);
    if !copies(rt, &mut pool, &text, &third) {
        check(rt, copies(rt, &mut pool, &text, &third));
    }
    if !reads(rt, &pool, &text, &third) {
        check(rt, reads(rt, &pool, &text, &third));
    }
    text.release(&mut pool);
    check(rt, pool.live() == 0);
    say(rt, b"whole\n");
    Ok(())
}

fn main(rt: HostRuntime) -> Result<(), Fail> {
    let mut number = 0usize;
    let mut line = [0u8; 16];
    let Ok(count) = rt.reader().read(&mut line) else {
        return Ok(());
    };
    for digit in &line[..count] {
        number = number * 10 + (*digit - b'0') as usize;
    }
    for _ in number..REFUSED {
        let one: Result<Vec<u8>, _> = Vec::with_capacity(rt.alloc(), 1);
        if one.is_err() {
            say(&rt, b"refused too early\n");
        }
    }
    texts(&rt)
}
"""


def rust_string(text):
    return '"' + text.replace("\\", "\\\\").replace('"', '\\"').replace("\n", "\\n") + '"'


def rust_bytes(given):
    return 'b"' + "".join(f"\\x{byte:02X}" for byte in given) + '"'


def more_table():
    """The further runs as a table like those of the tests; their lines and exchanges aren't compared."""
    rows = ""
    for shows, script, reads in MORE:
        child = f"Child {{ reads: &[{', '.join(map(rust_bytes, reads))}], ends: &[] }}"
        children = f"&[{child}, {child}]" if reads else "&[]"
        rows += f"    Row {{ shows: {rust_string(shows)}, script: {rust_string(script)}, children: {children}, "
        rows += 'lines: "", exchanges: b"" },\n'
    return f"use super::playing::{{Child, Row}};\n\npub const ROWS: [Row; {len(MORE)}] = [\n{rows}];\n"


def test_table(name):
    """The table of a test, without what uses it."""
    code = open(f"{TESTS}/{name}.rt").read()
    code = code[:code.index("\n];\n", code.index("pub const ROWS")) + 4]
    head, body = code.split("\n\n", 2)[0], code[re.search(r"^(///|const|pub const)", code, re.M).start():]
    uses = [word for word in ("Child", "Row", "UNREAD") if re.search(rf"\b{word}\b", body)]
    imports = f"use super::playing::{{{', '.join(uses)}}};\n" + ("use host_link::Ended;\n" if "Ended" in body else "")
    return f"{head}\n{imports}\n{body}\n"


def names_of(tables):
    return [re.sub(r"\s+", " ", name) for table in tables for name in re.findall(r'\bshows: "([^"]*)"', table)]


def copy_crates(work, needed):
    """The crates that a program needs and what they stand on, with a line for each."""
    lines = dict(re.findall(r"^(\w+):(.*)$", open(f"{TOP}/crates.txt").read(), re.M))
    wanted, found = list(needed), []
    while wanted:
        name = wanted.pop()
        if name in lines and name not in found:
            found.append(name)
            wanted += lines[name].split()
    for name in found:
        for part in ("src", "specs", "proofs"):
            if os.path.isdir(f"{TOP}/crates/{name}/{part}"):
                shutil.copytree(f"{TOP}/crates/{name}/{part}", f"{work}/crates/{name}/{part}")
    with open(f"{work}/crates.txt", "w") as out:
        for name in found:
            out.write(f"{name}:{lines[name]}\n")
        out.write(f"refused: {' '.join(needed)}\n")


def put_together(work, needed, files):
    """The folder of a program `refused`, with the crates that it needs beside it."""
    copy_crates(work, needed)
    os.makedirs(f"{work}/crates/refused/src")
    for name, code in files.items():
        with open(f"{work}/crates/refused/src/{name}.rt", "w") as out:
            out.write(code)
    return f"{work}/crates/refused"


def said_in(command, folder):
    """What a command prints in a folder. Where it fails, its last words end all."""
    ran = subprocess.run(command, cwd=folder, stdout=subprocess.PIPE, stderr=subprocess.STDOUT)
    if ran.returncode:
        sys.exit(ran.stdout.decode(errors="replace")[-3000:])
    return ran.stdout


def outputs(needed, files, inputs, refused):
    """What the unproved program prints, by its standard input, where the allocation of this number is refused."""
    with tempfile.TemporaryDirectory(prefix="refused_allocations") as work:
        folder = put_together(work, needed, files)
        os.makedirs(f"{work}/cases")
        for given in inputs:
            with open(f"{work}/cases/{given}", "w") as out:
                out.write(given)
        said = said_in(["rt", "try", "--fail-alloc", str(refused), "--cases", "../../cases"], folder)
    print(said.decode(errors="replace").splitlines()[-1], flush=True)
    parts = re.split(rb"^== ([0-9]+)\n", said, flags=re.M)
    return {name.decode(): out for name, out in zip(parts[1::2], parts[2::2])}


class Program:
    """The proved program of all rows, and the library that refuses."""

    def __init__(self, work, needed, files):
        folder = put_together(work, needed, files)
        self.library = f"{work}/refusing.so"
        with open(f"{work}/refusing.c", "w") as out:
            out.write(REFUSING)
        said_in(["cc", "-O2", "-shared", "-fPIC", "-o", self.library, "refusing.c"], work)
        os.environ["RT_SECONDS"] = "7200"
        said_in(["rt", "fmt"], folder)
        said_in(["rt", "run"], folder)
        self.path = f"{folder}/out/refused"

    def run(self, row, number):
        """What a run prints where the allocation of this number is refused, none for 0, and how many allocations it made."""
        env = os.environ | {"LD_PRELOAD": self.library, "REFUSED": str(number)}
        ran = subprocess.run([self.path, str(row)], env=env, stdout=subprocess.PIPE, stderr=subprocess.PIPE)
        counted = re.search(rb"^(\d+) allocations$", ran.stderr, re.M)
        return ran.stdout, int(counted[1]) if counted else 0


Ran = collections.namedtuple("Ran", "status exchanges written")


def parsed(output):
    """The status, the exchanges and the bytes written; None where a run came to no end."""
    found = re.search(rb"^set up\nran\n(\w+)\n((?:[^\n]*: [^\n]*\n)*)written\n(.*?)whole\n", output, re.M | re.S)
    if not found:
        return None
    return Ran(found[1].decode(), found[2].decode().splitlines(), found[3].decode())


CODINGS = ["utf-8-unix", "utf-8-dos", "latin-1-unix"]


def shown(text):
    """Characters as a string prints them."""
    escapes = {"\n": "\\n", "\t": "\\t", '"': '\\"', "\\": "\\\\"}
    return "".join(escapes.get(c, f"\\{ord(c):03o}" if ord(c) < 32 or ord(c) == 127 else c) for c in text)


def spelled(read, ended, coding):
    """The characters that filters are entered with after these bytes, as entries print them."""
    if coding == "latin-1-unix":
        return shown(read.decode("latin-1"))
    if coding == "utf-8-dos":
        read = read.replace(b"\r\n", b"\n")
        read = read[:-1] if read.endswith(b"\r") and not ended else read
    text, at = "", 0
    while at < len(read):
        for size in range(1, 5):
            try:
                text += shown(read[at:at + size].decode())
                at += size
                break
            except UnicodeDecodeError as fault:
                if fault.reason == "unexpected end of data" and at + size >= len(read) and not ended:
                    return text
        else:
            text += f"\\{read[at]:o}"
            at += 1
    return text


def living(exchanges):
    """The children that live by these exchanges, by rising number."""
    lives = []
    for it in exchanges:
        ask, answer = it.rsplit(": ", 1)
        word, child = ask.split()[0], ask.split()[-1]
        if answer.startswith("started "):
            lives.append(int(answer.split()[1]))
        elif word == "kill" or (word == "end" and answer != "running"):
            lives.remove(int(child))
    return sorted(lives)


def same_front(one, other):
    """How many exchanges at the front are the same."""
    return next((i for i, (x, y) in enumerate(zip(one, other)) if x != y), min(len(one), len(other)))


def heard(exchanges, child, coding):
    """What filters are entered with of a child."""
    mine = [it.split(": ", 1)[1] for it in exchanges if it.startswith(f"read {child}: ")]
    read = b"".join(bytes(map(int, it.split()[1:])) for it in mine if it.startswith("bytes"))
    return spelled(read, any(it in ("end", "another") for it in mine), coding)


def entered(ran, name):
    """What the filters of the processes of a name were entered with."""
    entries = re.findall(r'^ *> filter \S+ #<process (\S+)> "(.*)"$', ran.written, re.M)
    return "".join(text for of, text in entries if of == name)


def spells(ran, name, names, coding):
    """Whether the filter entries of a name spell what was read from its children, decoded in a coding."""
    children = [child for child, of in enumerate(names) if of == name]
    return entered(ran, name) == "".join(heard(ran.exchanges, child, coding) for child in children)


def entries_spell(ran, whole, names):
    """Whether the filter entries of each name spell what was read from the children of that name, in a coding in which they do
    where memory is ample."""
    return all(
        any(spells(whole, name, names, it) and spells(ran, name, names, it) for it in CODINGS) for name in {*names}
    )


def verdict(ran, whole, names):
    if ran is None:
        return "WRONG: no end"
    if ran.status == "Done":
        return "Done" if ran == whole else "WRONG: Done without all"
    if ran.status != "NoMemory":
        return f"WRONG: {ran.status}"
    faults = []
    if not whole.written.startswith(ran.written) or (ran.written and not ran.written.endswith("\n")):
        faults.append("no front of whole lines")
    front = same_front(ran.exchanges, whole.exchanges)
    if ran.exchanges[front:] != [f"kill {child}: killed" for child in living(ran.exchanges[:front])]:
        faults.append("not a front of the exchanges and the kills of living children")
    if not entries_spell(ran, whole, names):
        faults.append("the entries don't spell what was read")
    return "WRONG: NoMemory, " + ", ".join(faults) if faults else "NoMemory"


def told_of(program, row, name):
    """Refuses each allocation of a run in turn; answers how many these are, and whether all was as it must be."""
    said, count = program.run(row, 0)
    ample = parsed(said)
    processes = re.findall(r"^process \d+ #<process (\S+)> ", ample.written, re.M)
    with ThreadPoolExecutor(os.cpu_count()) as lanes:
        runs = lanes.map(lambda number: program.run(row, number)[0], range(1, count + 1))
        whats = [verdict(parsed(said), ample, processes) for said in runs]
    told = ", ".join(f"{many} {what}" for what, many in collections.Counter(whats).items())
    print(f"{name}: {len(ample.written.splitlines())} lines, {len(ample.exchanges)} exchanges: {told}", flush=True)
    return count, ample.status == "Done" and not any(what.startswith("WRONG") for what in whats)


def try_rows():
    tables = {name: test_table(name) for name in TABLES} | {"more": more_table()}
    names = names_of(tables.values())
    wanted = [row for row, name in enumerate(names) if WORD in name]
    program = ROW_PROGRAM.replace("MODULES", "\n".join(f"mod {name};" for name in [*tables, "playing"]))
    program = program.replace("TABLE_COUNT", str(len(tables)))
    program = program.replace("TABLE_NAMES", ", ".join(f"&{name}::ROWS" for name in tables))
    files = tables | {"main": program, "playing": PLAYING}
    with tempfile.TemporaryDirectory(prefix="refused_allocations") as work:
        made = Program(work, ["ek_types", "handler_code", "host_link", "kernel_top"], files)
        told = [told_of(made, row, names[row]) for row in wanted]
    right = all(holds for _, holds in told)
    print(f"{len(told)} runs, {sum(count for count, _ in told)} refused allocations: {'none' if right else 'SOME'} judged wrong")
    return right


def text_verdict(output):
    lines = output.decode(errors="replace").splitlines()
    if "set up" not in lines:
        return "refused before the run"
    refused = [line for line in lines if line.endswith(" refused")]
    if "WRONG" in lines or "whole" not in lines:
        return f"WRONG: {', '.join(refused) or 'nothing refused'}"
    return f"Done{', though ' + ', '.join(refused) + ' at first' if refused else ', nothing refused'}"


def try_texts():
    inputs = [f"{n}" for n in range(1, TEXT_ALLOCATIONS + 1)]
    said = outputs(["ek_types", "text_pool", "gap_text"], {"main": TEXT_PROGRAM}, inputs, 1000)
    whats = [text_verdict(said[n]) for n in inputs]
    print("a text in blocks: " + "; ".join(f"{count} {what}" for what, count in collections.Counter(whats).items()))
    return whats[-1] == "Done, nothing refused" and not any(what.startswith("WRONG") for what in whats)


sys.exit(0 if (bool(WORD) or try_texts()) & try_rows() else 1)
