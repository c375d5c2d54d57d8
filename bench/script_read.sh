#!/bin/sh
# The processor time of reading a script ten times, and how it grows with the length: short forms, one long string, and
# bodies of blocks 16 deep, each at half the length and at the whole. Where emacs is installed, `emacs -Q --batch` reads the
# same text by `read` until its end, ten times too.
#
#     bench/script_read.sh [BYTES]        (1048576 if none is given)
set -eu

. "$(dirname "$0")/common.sh"
bytes=${1:-1048576}

# forms SIZE: short forms of this many bytes or a few less
forms() {
    yes '(goto-char 1)' | head -n $(($1 / 14))
}

# string SIZE: one call whose string fills the script
string() {
    printf '(insert "'
    head -c $(($1 - 12)) /dev/zero | tr '\0' a
    printf '")\n'
}

# nested SIZE: bodies of blocks 16 deep
nested() {
    yes '(save-excursion (save-excursion (save-excursion (save-excursion (save-excursion (save-excursion (save-excursion (save-excursion (save-excursion (save-excursion (save-excursion (save-excursion (save-excursion (save-excursion (save-excursion (save-excursion (point)))))))))))))))))' |
        head -n $(($1 / 282))
}

for way in forms string nested; do
    $way $((bytes / 2)) > "$work/$way.half"
    $way "$bytes" > "$work/$way.whole"
done

scratch_program bench_scripts ek_types ek_call script_read <<'PROGRAM'
//! Scripts that are read, each ten times.
#![tactic(auto)]

use bench_clock::used;
use script_read::read;
use std::{env, fs, io};

const TIMES: u32 = 10;

fn reading(rt: &HostRuntime, path: &str) -> io::Result<()> {
    let bytes = fs::read(rt, path)?;
    let start = used(rt)?;
    let mut scripts = 0u32;
    for _ in 0..TIMES {
        if read(rt.alloc(), bytes.as_slice()).is_ok() {
            scripts = scripts.saturating_add(1);
        }
    }
    let time = used(rt)?.saturating_sub(start) / 1000;
    println!(rt; "{path}: {} bytes, {scripts} times read in {time} us", bytes.len())
}

fn main(rt: HostRuntime) -> io::Result<()> {
    for path in env::args(&rt)? {
        reading(&rt, path.as_str())?;
    }
    Ok(())
}
PROGRAM

for way in forms string nested; do
    proved "$work/$way.half" "$work/$way.whole"
done

if command -v emacs > /dev/null; then
    for way in forms string nested; do
        for part in half whole; do
            export SCRIPT="$work/$way.$part"
            times_over emacs -Q --batch --eval '
(with-temp-buffer
  (insert-file-contents (getenv "SCRIPT"))
  (let ((start (float-time (get-internal-run-time))))
    (dotimes (_ 10)
      (goto-char 1)
      (while (ignore-errors (read (current-buffer)))))
    (princ (format "emacs %s: %d us\n" (getenv "SCRIPT")
                   (* 1000000 (- (float-time (get-internal-run-time)) start))))))'
        done
    done
else
    echo "emacs is not installed here"
fi
