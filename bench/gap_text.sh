#!/bin/sh
# How the processor time of insertions grows with their number: at a place that moves along, at one that wanders by up to 20, and
# at random places. A text of a gap takes the distance between two insertions, so twice as many take twice as long at
# the first two, and four times as long at random places. The same is done by `emacs -Q --batch` where it is installed.
#
#     bench/gap_text.sh [COUNT ..]        (200000 and 400000 if none is given)
set -eu

. "$(dirname "$0")/common.sh"
counts=${*:-200000 400000}

scratch_program bench_texts ek_types text_pool gap_text <<'PROGRAM'
//! Insertions into a text, one character at a time.
#![tactic(auto)]
ghost use Rattle.std.specs.Prelude.{◌≤◌};

use bench_clock::used;
use ek_types::{Ch, Chars};
use gap_text::Text;
use std::{env, io};
use text_pool::Pool;

#[derive(Clone, Copy)]
enum Way {
    Along,
    Wandering,
    Random,
}

fn next(seed: u64) -> u64 {
    seed.wrapping_mul(6364136223846793005).wrapping_add(1442695040888963407)
}

/// Where the next character goes in a text of `len`.
fn place(way: Way, seed: u64, last: usize, len: usize) -> usize
    ensures { result ≤ len }
{
    let chance = (seed >> 33) as usize;
    let wanted = match way {
        Way::Along => len,
        Way::Wandering => last.saturating_add(chance % 41).saturating_sub(20),
        Way::Random => chance % len.saturating_add(1),
    };
    wanted.min(len)
}

fn insertions(rt: &HostRuntime, way: Way, count: usize) -> io::Result<()> {
    let mut pool = Pool::new(rt.alloc());
    let mut text = Text::new(rt.alloc());
    let mut one = Chars::new(rt.alloc());
    if one.push(Ch::Scalar('x')).is_err() {
        text.release(&mut pool);
        return Ok(());
    }
    let mut seed = 1;
    let mut last = 0usize;
    let start = used(rt);
    'inserting: for _ in 0..count {
        seed = next(seed);
        let len = text.len();
        last = place(way, seed, last, len);
        if text.reserve(&mut pool, 1).is_err() {
            break;
        }
        text.insert(&mut pool, last, &one);
    }
    let name = match way {
        Way::Along => "along",
        Way::Wandering => "wandering",
        Way::Random => "random",
    };
    let end = used(rt);
    let blocks = pool.live();
    text.release(&mut pool);
    let time = end?.saturating_sub(start?) / 1_000_000;
    println!(rt; "gap_text {name} {count}: {time} ms, {blocks} blocks")
}

fn main(rt: HostRuntime) -> io::Result<()> {
    for word in env::args(&rt)? {
        if let Ok(count) = word.parse::<usize>() {
            insertions(&rt, Way::Along, count)?;
            insertions(&rt, Way::Wandering, count)?;
            insertions(&rt, Way::Random, count)?;
        }
    }
    Ok(())
}
PROGRAM

mkdir -p proofs/insertions
cat > proofs/insertions/Invariants.antt <<'PROOF'

use Rattle.gap_text.specs.Text.{LiesIn}
use Rattle.bench_texts.proofs.insertions.Given as goal

abbrev pub invariant-inserting : goal.invariant-inserting
invariant-inserting l = LiesIn l.pool l.text
PROOF

proved $counts

if command -v emacs > /dev/null; then
    for way in along wandering random; do
        for count in $counts; do
            times_over emacs -Q --batch --eval "
(with-temp-buffer
  (buffer-disable-undo)
  (random \"1\")
  (let ((place 0) (start (float-time (get-internal-run-time))))
    (dotimes (len $count)
      (setq place (cond ((string= \"$way\" \"along\") len)
                        ((string= \"$way\" \"random\") (random (1+ len)))
                        (t (max 0 (min len (+ place (- (random 41) 20)))))))
      (goto-char (1+ place))
      (insert \"x\"))
    (princ (format \"emacs $way $count: %d ms\\n\" (* 1000 (- (float-time (get-internal-run-time)) start))))))"
        done
    done
else
    echo "emacs is not installed here"
fi
