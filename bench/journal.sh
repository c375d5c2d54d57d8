#!/bin/sh
# The processor time in which a journal of COUNT reads of 4,096 bytes is read, and written to a sink that counts, in
# microseconds and megabytes a second. Then a script whose child writes 16 MiB, run, recorded, replayed from its session, and
# checked: the lines of the run are claimed of the journal. Each has its processor time and its peak of memory. Then the same
# of a script of 48,000 short calls, which asks nothing. A check should take less than three times as long as a replay.
#
#     bench/journal.sh [COUNT ..]        (2048 4096 8192 if none is given)
#     PROGRAM=FILE bench/journal.sh      (what `rt run` leaves in crates/kernel_cli/out if none is given)
set -eu

. "$(dirname "$0")/common.sh"
counts=${*:-2048 4096 8192}

scratch_program bench_journal ek_types host_link journal_text <<'PROGRAM'
//! A journal read, and written.
#![tactic(auto)]

use bench_clock::used;
use ek_types::{Sink, Wrote};
use journal_text::{LONGEST_SESSION, read_journal, write_journal};
use std::alloc::{AllocError, Global};
use std::{env, io};

/// Takes all bytes, and counts them.
#[derive(Drop)]
struct Counting {
    bytes: u64,
}

impl Sink for Counting {
    ghost use Rattle.std.specs.Prelude.{None};

    ghost state = { λ _. record { held = None; faults = 0; room = 0 } };

    fn write(&mut self, from: &[u8]) -> Wrote {
        self.bytes = self.bytes.saturating_add(from.len() as u64);
        Wrote::Bytes(from.len())
    }
}

/// A journal of so many reads, with its last line.
fn session(alloc: Global, count: usize) -> Result<String, AllocError> {
    let mut text = String::from_str(alloc, "spawn 636174 -> started 0\n")?;
    let hex = "c3a92078".repeat(alloc, 1024)?;
    for _ in 0..count {
        text.push_str("read 0 -> bytes ")?;
        text.push_str(hex.as_str())?;
        text.push_str("\n")?;
    }
    text.push_str("script\n")?;
    Ok(text)
}

fn report(rt: &HostRuntime, what: &str, count: usize, bytes: usize, start: u64) -> io::Result<()> {
    let micros = (used(rt)?.saturating_sub(start) / 1000).max(1);
    println!(rt; "journal {what} {count}: {micros} us, {} MB/s", bytes as u64 / micros)
}

fn measure(rt: &HostRuntime, count: usize) -> io::Result<()> {
    let Ok(text) = session(rt.alloc(), count) else {
        return Ok(());
    };
    if text.len() > LONGEST_SESSION {
        return Ok(());
    }
    let start = used(rt)?;
    let Ok((list, _)) = read_journal(rt.alloc(), text.as_bytes()) else {
        return Ok(());
    };
    report(rt, "read", count, text.len(), start)?;
    let start = used(rt)?;
    let mut sink = Counting { bytes: 0 };
    let _ = write_journal(&list, &mut sink);
    report(rt, "written", count, text.len(), start)
}

fn main(rt: HostRuntime) -> io::Result<()> {
    for word in env::args(&rt)? {
        if let Ok(count) = word.parse::<usize>() {
            measure(&rt, count)?;
        }
    }
    Ok(())
}
PROGRAM

# shellcheck disable=SC2086
proved $counts

# timed NAME FILE WORD: runs the word on the file, and says how long it took
timed() {
    /usr/bin/time -f "$1, $3: %U s, %M KiB" "$program" "$3" < "$2" > "$work/$3"
}

# transcript SCRIPT: the session of $work/record, with the lines of $work/run claimed
transcript() {
    journal=$(($(wc -c < "$work/record") - $(wc -c < "$1") - 7))
    head -c "$journal" "$work/record"
    echo "lines $(wc -c < "$work/run")"
    cat "$work/run"
    echo script
    cat "$1"
}

# words NAME SCRIPT: all four words
words() {
    timed "$1" "$2" run
    timed "$1" "$2" record
    timed "$1" "$work/record" replay
    transcript "$2" > "$work/transcript"
    timed "$1" "$work/transcript" check
    cat "$work/check"
}

program=${PROGRAM:-$top/crates/kernel_cli/out/kernel_cli}
if [ -x "$program" ]; then
    {
        echo '(setq p (start-process "c" nil "head" "-c" "16777216" "/dev/zero"))'
        for _ in $(seq 5000); do
            echo '(accept-process-output p)'
        done
    } > "$work/reads"
    words "16 MiB read" "$work/reads"
    for _ in $(seq 12000); do
        echo '(insert "a")(goto-char 1)(put-text-property 1 2 (quote k) 3)(point)'
    done | sed "s/(quote k)/'k/" > "$work/calls"
    words "48,000 calls" "$work/calls"
fi
