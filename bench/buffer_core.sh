#!/bin/sh
# The processor time of changes of one buffer, and of undoing them, and how it grows. COUNT insertions of a character, with
# undo on, in the middle of 8,192 characters: alone, with undo off, with 1,000 markers, and with 4,096 property runs. Then the
# same characters deleted one by one. Then 16,384 to 65,536 records of one group undone in one call. Where emacs is installed,
# `emacs -Q --batch` does the same in byte code.
#
#     bench/buffer_core.sh [COUNT ..]        (50000 100000 200000 if none is given)
set -eu

. "$(dirname "$0")/common.sh"
counts=${*:-50000 100000 200000}

scratch_program bench_buffer ek_types buffer_table <<'PROGRAM'
//! Insertions and deletions in one buffer, and records undone.
#![tactic(auto)]

use bench_clock::used;
use buffer_table::Editor;
use ek_types::{Ch, Chars, Mem, Piece, PropSet, PropVal, Sym};
use std::alloc::Global;
use std::{env, io, slice};

const BASE: usize = 8_192;

/// So many letters; every other one has a face where `runs` is said.
fn letters(alloc: Global, count: usize, runs: bool) -> Mem<Piece> {
    let mut chars = Chars::new(alloc);
    for _ in 0..count {
        chars.push(Ch::Scalar('x'))?;
    }
    let mut piece = Piece::plain(alloc, chars)?;
    if runs {
        let face = PropSet::empty(alloc).with(Sym(14), &PropVal::Truth)?;
        for i in 0..count {
            if i % 2 == 0 && i < piece.len() {
                piece.put(i, i + 1, &face)?;
            }
        }
    }
    Ok(piece)
}

fn put(editor: &mut Editor, at: usize, piece: &Piece) -> bool {
    let size = editor.size(0);
    if !editor.is_live(0) || at > size {
        return false;
    }
    editor.replace(0, at, at, slice::from_ref(piece), false).is_ok()
}

fn take(editor: &mut Editor, at: usize) -> bool {
    let size = editor.size(0);
    if !editor.is_live(0) || at >= size {
        return false;
    }
    editor.replace(0, at, at + 1, &[], false).is_ok()
}

/// One marker, where there is room.
fn with_marker(editor: &mut Editor, place: usize) -> Mem<()> {
    if editor.marker_count() >= 65_536 {
        return Ok(());
    }
    let k = editor.make_marker()?;
    let size = editor.size(0);
    if editor.is_live(0) && place <= size && k < editor.marker_count() {
        editor.set_marker(k, Some((0, place)));
    }
    Ok(())
}

/// The first text with markers, and whether it was made.
fn begun(editor: &mut Editor, alloc: Global, markers: usize, runs: bool, undo: bool) -> Mem<bool> {
    let base = letters(alloc, BASE, runs)?;
    let done = put(editor, 0, &base);
    for i in 0..markers {
        with_marker(editor, i.saturating_mul(8))?;
    }
    if editor.is_live(0) {
        editor.undo_enable(0, undo);
    }
    Ok(done)
}

/// The time of `count` insertions and that of as many deletions, in microseconds, and whether all were made.
fn changes(rt: &HostRuntime, editor: &mut Editor, count: usize) -> io::Result<(u64, u64, bool)> {
    let alloc = rt.alloc();
    let Ok(one) = letters(alloc, 1, false) else {
        return Ok((0, 0, false));
    };
    let mut done = true;
    let start = used(rt)?;
    for i in 0..count {
        done &= put(editor, i.saturating_add(BASE / 2), &one);
    }
    let inserting = used(rt)?.saturating_sub(start) / 1000;
    let start = used(rt)?;
    for i in 0..count {
        done &= take(editor, (count - 1 - i).saturating_add(BASE / 2));
    }
    let deleting = used(rt)?.saturating_sub(start) / 1000;
    Ok((inserting, deleting, done))
}

fn round(
    rt: &HostRuntime,
    count: usize,
    markers: usize,
    runs: bool,
    undo: bool,
) -> io::Result<()> {
    let Ok(mut editor) = Editor::new(rt.alloc()) else {
        return Ok(());
    };
    let ready = begun(&mut editor, rt.alloc(), markers, runs, undo);
    let timed = changes(rt, &mut editor, count);
    editor.close();
    let (inserting, deleting, done) = timed?;
    let done = done && ready == Ok(true);
    println!(rt; "buffer_core {count} insertions {inserting} us, deletions {deleting} us; \
{markers} markers, runs {runs}, undo {undo}, done {done}")
}

/// Undoes all that there is by one call.
fn undone(editor: &mut Editor) -> Mem<bool> {
    if !editor.is_live(0) || editor.undo_start(0).is_err() {
        return Ok(false);
    }
    let Ok(plan) = editor.undo_plan(0, 1)? else {
        return Ok(false);
    };
    if !editor.is_live(0) {
        return Ok(false);
    }
    editor.apply_plan(0, &plan)?;
    Ok(true)
}

/// The time that one call takes to undo the records of `count` insertions in front of one another, in microseconds.
fn undoing(rt: &HostRuntime, count: usize) -> io::Result<()> {
    let Ok(mut editor) = Editor::new(rt.alloc()) else {
        return Ok(());
    };
    if let Ok(one) = letters(rt.alloc(), 1, false) {
        for _ in 1..count {
            put(&mut editor, 0, &one);
        }
    }
    let records = editor.undo_len(0);
    let start = used(rt);
    let done = undone(&mut editor);
    let end = used(rt);
    let left = editor.size(0);
    editor.close();
    let time = end?.saturating_sub(start?) / 1000;
    let done = done == Ok(true);
    println!(rt; "buffer_core {records} records undone in one call: {time} us, {left} characters left, done {done}")
}

fn main(rt: HostRuntime) -> io::Result<()> {
    for word in env::args(&rt)? {
        if let Ok(count) = word.parse::<usize>() {
            round(&rt, count, 0, false, true)?;
            round(&rt, count, 0, false, false)?;
            round(&rt, count, 1_000, false, true)?;
            round(&rt, count, 0, true, true)?;
        }
    }
    undoing(&rt, 16_384)?;
    undoing(&rt, 32_768)?;
    undoing(&rt, 65_536)
}
PROGRAM

proved $counts

if command -v emacs > /dev/null; then
    cat > "$work/changes.el" <<'LISP'
;; -*- lexical-binding: t -*-
(setq undo-limit most-positive-fixnum undo-strong-limit most-positive-fixnum undo-outer-limit nil)
(defun used () (float-time (get-internal-run-time)))
(defun micros (start) (round (* 1000000 (- (used) start))))
(defun changes (count markers runs undo)
  (with-current-buffer (generate-new-buffer "changes")
    (insert (make-string 8192 ?x))
    (when runs
      (dotimes (i 4096)
        (put-text-property (1+ (* 2 i)) (+ 2 (* 2 i)) 'face t)))
    (unless undo (buffer-disable-undo))
    (let ((kept nil) (start nil) (inserting nil))
      (dotimes (i markers)
        (push (copy-marker (1+ (* 8 i))) kept))
      (garbage-collect)
      (setq start (used))
      (dotimes (i count)
        (goto-char (+ 4097 i))
        (insert "x"))
      (setq inserting (micros start) start (used))
      (dotimes (i count)
        (let ((at (- (+ 4096 count) i)))
          (delete-region at (1+ at))))
      (princ (format "emacs %d insertions %d us, deletions %d us; %d markers, runs %s, undo %s\n"
                     count inserting (micros start) markers runs undo)))
    (kill-buffer)))
(defun undoing (count)
  (with-current-buffer (generate-new-buffer "undoing")
    (dotimes (_ (1- count))
      (goto-char 1)
      (insert "x"))
    (garbage-collect)
    (let ((records (length buffer-undo-list)) (start (used)))
      (primitive-undo 1 buffer-undo-list)
      (princ (format "emacs %d records undone in one call: %d us, %d characters left\n"
                     records (micros start) (buffer-size))))
    (kill-buffer)))
(mapc #'byte-compile '(used micros changes undoing))
(dolist (count (mapcar #'string-to-number (split-string (getenv "COUNTS"))))
  (changes count 0 nil t)
  (changes count 0 nil nil)
  (changes count 1000 nil t)
  (changes count 0 t t))
(mapc #'undoing '(16384 32768 65536))
LISP
    export COUNTS="$counts"
    times_over emacs -Q --batch -l "$work/changes.el"
else
    echo "emacs is not installed here"
fi
