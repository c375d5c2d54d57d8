#!/bin/sh
# The processor time of the dump of one buffer of CHARACTERS characters, in which the properties change at each 32nd, and
# that of COUNT lines of replies. The sink counts the bytes and the calls of `write` and drops them. The same with half
# as many shows how the times grow. `emacs -Q --batch` prints the same by `prin1` and `terpri` where it is installed.
#
#     bench/trace_print.sh [CHARACTERS [COUNT]]        (4194304 and 1000000 if none is given)
set -eu

. "$(dirname "$0")/common.sh"
characters=${1:-4194304}
count=${2:-1000000}

scratch_program bench_print ek_types ek_call buffer_table process_table trace_print <<'PROGRAM'
//! The dump of a long text with many runs, and many lines of replies.
#![tactic(auto)]

use buffer_table::Editor;
use ek_call::{Reply, Value};
use ek_types::{Ch, Chars, Mem, Piece, PropSet, PropVal, Sink, Sym, Symbols, Wrote};
use process_table::Processes;
use bench_clock::used;
use std::alloc::Global;
use std::{env, io, slice};
use trace_print::{Names, dump, reply};

/// Counts what is written, and keeps nothing.
#[derive(Drop)]
struct Counting {
    bytes: u64,
    writes: u64,
}

impl Sink for Counting {
    ghost use Rattle.std.specs.Prelude.{None};

    ghost state = { λ s. record { held = None; faults = 0; room = 0 } };

    fn write(&mut self, from: &[u8]) -> Wrote {
        self.bytes = self.bytes.saturating_add(from.len() as u64);
        self.writes = self.writes.saturating_add(1);
        Wrote::Bytes(from.len())
    }
}

/// 1,024 characters in 32 runs, each with another face than the one in front of it.
fn chunk(alloc: Global, face: Sym) -> Mem<Piece> {
    let mut text = Chars::new(alloc);
    for i in 0..1024u32 {
        text.push(Ch::Scalar(if i % 64 == 63 { '\n' } else { 'x' }))?;
    }
    let mut piece = Piece::plain(alloc, text)?;
    for run in 0..32u32 {
        let set = PropSet::empty(alloc).with(face, &PropVal::Int(i64::from(run)))?;
        let from = run as usize * 32;
        if from + 32 <= piece.len() {
            piece.put(from, from + 32, &set)?;
        }
    }
    Ok(piece)
}

fn fill(editor: &mut Editor, alloc: Global, face: Sym, characters: usize) -> Mem<()> {
    let piece = chunk(alloc, face)?;
    for _ in 0..characters / 1024 {
        let end = editor.size(0);
        if editor.is_live(0) {
            editor.replace(0, end, end, slice::from_ref(&piece), false)?;
        }
    }
    Ok(())
}

fn report(rt: &HostRuntime, what: &str, of: usize, start: u64, sink: &Counting) -> io::Result<()> {
    let micros = used(rt)?.saturating_sub(start) / 1000;
    let bytes = sink.bytes;
    let writes = sink.writes;
    println!(rt; "trace_print {what} {of}: {micros} us, {bytes} bytes, {writes} writes")
}

fn run(rt: &HostRuntime, editor: &mut Editor, characters: usize, count: usize) -> io::Result<()> {
    let Ok(mut symbols) = Symbols::new(rt.alloc()) else {
        return Ok(());
    };
    if symbols.count() > 100 {
        return Ok(());
    }
    let Ok(face) = symbols.intern("face") else {
        return Ok(());
    };
    if fill(editor, rt.alloc(), face, characters).is_err() {
        return Ok(());
    }
    let processes = Processes::new(rt.alloc());
    let names = Names { editor, processes: &processes, symbols: &symbols };
    let start = used(rt)?;
    let mut sink = Counting { bytes: 0, writes: 0 };
    let _ = dump(&names, &mut sink);
    report(rt, "dump of characters", characters, start, &sink)?;
    let start = used(rt)?;
    let mut sink = Counting { bytes: 0, writes: 0 };
    for i in 0..count {
        let _ = reply(1, &Reply::Value(Value::Int((i % 1_000_000) as i64)), &names, &mut sink);
    }
    report(rt, "lines of replies", count, start, &sink)
}

fn main(rt: HostRuntime) -> io::Result<()> {
    let mut numbers = [0usize; 2];
    let mut i = 0;
    for word in env::args(&rt)? {
        if let Ok(n) = word.parse::<usize>() {
            if i < 2 {
                numbers[i] = n;
                i += 1;
            }
        }
    }
    let [characters, count] = numbers;
    for (characters, count) in [(characters / 2, count / 2), (characters, count)] {
        if let Ok(mut editor) = Editor::new(rt.alloc()) {
            let done = run(&rt, &mut editor, characters, count);
            editor.close();
            done?;
        }
    }
    Ok(())
}
PROGRAM

proved "$characters" "$count"

if command -v emacs > /dev/null; then
    times_over emacs -Q --batch --eval "
(let ((text (make-string $characters ?x)) (start nil))
  (dotimes (run (/ $characters 32))
    (put-text-property (* 32 run) (+ 32 (* 32 run)) 'face (mod run 32) text))
  (setq start (float-time (get-internal-run-time)))
  (prin1 text)
  (terpri)
  (message \"emacs dump of characters $characters: %d ms\" (* 1000 (- (float-time (get-internal-run-time)) start)))
  (setq start (float-time (get-internal-run-time)))
  (dotimes (i $count)
    (prin1 i)
    (terpri))
  (message \"emacs lines of replies $count: %d ms\" (* 1000 (- (float-time (get-internal-run-time)) start))))" > /dev/null
else
    echo "emacs is not installed here"
fi
