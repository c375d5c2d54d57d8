#!/bin/sh
# The processor time of insertions in front of many runs: a text of RUNS characters, each with a property of its own, and COUNT
# times one plain character put in front of it, after each the set asked that stands RUNS/2 places in front of the end.
# The first insertion makes a run, and each later one makes it longer. The same with half the runs shows how the time
# grows with their number. `emacs -Q --batch` does the same insertions beside it where it is installed.
#
#     bench/prop_intervals.sh [COUNT]        (2000000 if none is given)
set -eu

. "$(dirname "$0")/common.sh"
count=${1:-2000000}

scratch_program bench_sets ek_types prop_intervals <<'PROGRAM'
//! Plain characters put in front of a text of many runs.
#![tactic(auto)]
ghost use Rattle.std.specs.Prelude.{◌≡◌, ◌+◌, ◌<◌, ◌≤◌, ◌^◌, length, IfOk};

use bench_clock::used;
use ek_types::{Ch, Chars, Mem, Piece, PropSet, PropVal, Sym};
use prop_intervals::Props;
use std::alloc::Global;
use std::{env, io, slice};

const FACE: Sym = Sym(20);

const RUNS: usize = 131_072;

/// Characters without properties.
fn bare_text(alloc: Global, size: usize) -> Mem<Piece>
    ensures { IfOk result (λ p. length p ≡ size) }
{
    let mut text = Chars::new(alloc);
    for _ in 0..size {
        text.push(Ch::Scalar('x'))?;
    }
    Piece::plain(alloc, text)
}

/// A text of as many characters, each with a face of its own, counted from 1.
fn own_faces(alloc: Global, runs: usize) -> Mem<Props>
    requires { runs < 2 ^ 32 }
    ensures { IfOk result (λ p. length p ≡ runs) }
{
    let mut text = bare_text(alloc, runs)?;
    for i in 0..runs {
        let face = PropSet::empty(alloc).with(FACE, &PropVal::Int(i as i64 + 1))?;
        text.put(i, i + 1, &face)?;
    }
    let mut props = Props::new(alloc);
    props.splice(0, 0, slice::from_ref(&text))?;
    Ok(props)
}

/// The face of a set, and 0 where it has none.
fn face_of(set: &PropSet) -> i64 {
    match set.get(FACE) {
        Some(PropVal::Int(value)) => *value,
        _ => 0,
    }
}

/// One character put in front, and then the face that stands `asked` places in front of the end.
fn put_in_front(props: &mut Props, x: &Piece, size: usize, asked: usize) -> Mem<i64>
    requires one { length x.now ≡ 1 }
    requires size { size ≡ length props.old }
    requires some { 0 < asked }
    requires long { asked ≤ size }
    requires fits { size < 2 ^ 40 }
    ensures { IfOk result (λ _. length props.new ≡ size + 1) }
{
    props.splice(0, 0, slice::from_ref(x))?;
    Ok(face_of(props.at(size + 1 - asked)))
}

/// How many of the questions were answered by the set that stood there at first.
fn insertions(props: &mut Props, x: &Piece, runs: usize, asked: usize, count: usize) -> Mem<u64>
    requires one { length x.now ≡ 1 }
    requires size { runs ≡ length props.old }
    requires some { 0 < asked }
    requires long { asked ≤ runs }
    requires fits { runs + count < 2 ^ 40 }
{
    let face = (runs - asked) as i64 + 1;
    let mut same = 0u64;
    for k in 0..count {
        if put_in_front(props, x, runs + k, asked)? == face {
            same = same.saturating_add(1);
        }
    }
    Ok(same)
}

/// How many answers were right, and the milliseconds of all insertions.
fn timed(rt: &HostRuntime, runs: usize, asked: usize, count: usize) -> io::Result<(u64, u64)>
    requires some { 0 < asked }
    requires long { asked ≤ runs }
    requires runs { runs < 2 ^ 32 }
    requires count { count < 2 ^ 32 }
{
    let Ok(mut props) = own_faces(rt.alloc(), runs) else {
        return Ok((0, 0));
    };
    let Ok(x) = bare_text(rt.alloc(), 1) else {
        return Ok((0, 0));
    };
    let start = used(rt);
    let same = insertions(&mut props, &x, runs, asked, count).unwrap_or(0);
    Ok((same, used(rt)?.saturating_sub(start?) / 1_000_000))
}

fn measured(rt: &HostRuntime, runs: usize, asked: usize, count: usize) -> io::Result<()>
    requires some { 0 < asked }
    requires long { asked ≤ runs }
    requires runs { runs < 2 ^ 32 }
    requires count { count < 2 ^ 32 }
{
    let (same, time) = timed(rt, runs, asked, count)?;
    println!(rt; "prop_intervals {runs:6} runs: {count} insertions in front and questions {time} ms, {same} answers right")
}

fn main(rt: HostRuntime) -> io::Result<()> {
    for word in env::args(&rt)? {
        if let Ok(count) = word.parse::<u32>() {
            measured(&rt, RUNS, RUNS / 2, count as usize)?;
            measured(&rt, RUNS / 2, RUNS / 4, count as usize)?;
        }
    }
    Ok(())
}
PROGRAM

# proof FUNCTION: its invariant, from standard input
proof() {
    mkdir -p "proofs/$1"
    {
        echo 'use Rattle.std.proofs.Common.{◌≡◌, ◌+◌, length}'
        echo "use Rattle.bench_sets.proofs.$1.Given as goal"
        echo
        cat
    } > "proofs/$1/Invariants.antt"
}

proof bare_text <<'PROOF'
abbrev pub invariant-loop : goal.invariant-loop
invariant-loop l = length l.text.items ≡ l.counter
PROOF

proof own_faces <<'PROOF'
abbrev pub invariant-loop-i : goal.invariant-loop-i
invariant-loop-i l = length l.text ≡ l.runs
PROOF

proof insertions <<'PROOF'
abbrev pub invariant-loop-k : goal.invariant-loop-k
invariant-loop-k l = length l.props ≡ l.runs + l.k
PROOF

proved "$count"

if command -v emacs > /dev/null; then
    cat > "$work/sets.el" <<'LISP'
(defun insertions (runs count)
  (with-temp-buffer
    (buffer-disable-undo)
    (dotimes (i runs) (insert (propertize "x" 'face (1+ i))))
    (let ((asked (/ runs 2)) (same 0) (start (float-time (get-internal-run-time))))
      (dotimes (_ count)
        (goto-char (point-min))
        (insert "x")
        (when (equal (get-text-property (- (point-max) asked) 'face) (1+ asked)) (setq same (1+ same))))
      (princ (format "emacs          %6d runs: %d insertions in front and questions %d ms, %d answers right\n"
                     runs count (* 1000 (- (float-time (get-internal-run-time)) start)) same)))))
(byte-compile 'insertions)
(insertions 131072 (string-to-number (getenv "COUNT")))
(insertions 65536 (string-to-number (getenv "COUNT")))
LISP
    export COUNT="$count"
    times_over emacs -Q --batch -l "$work/sets.el"
else
    echo "emacs is not installed here"
fi
