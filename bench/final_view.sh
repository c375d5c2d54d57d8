#!/bin/sh
# The processor time of the view of one buffer with COUNT overlays, each with a string in front of it and one behind it, over 16
# times as many characters. Every eighth overlay hides what it covers. The overlays stand apart, each over 8 characters, made
# from the last to the first; or nested, each in the one before; or all at one place. The sink counts the bytes and drops them.
# Twice as many take about twice as long.
#
#     bench/final_view.sh [COUNT ..]        (16384 32768 65536 if none is given)
set -eu

. "$(dirname "$0")/common.sh"
counts=${*:-16384 32768 65536}

scratch_program bench_view ek_types buffer_table final_view <<'PROGRAM'
//! The view of a long text with many overlays.
#![tactic(auto)]

use bench_clock::used;
use buffer_table::Editor;
use ek_types::{Ch, Chars, Mem, Piece, PropVal, Sink, Sym, Wrote};
use final_view::view;
use std::alloc::Global;
use std::rc::Rc;
use std::{env, io};

const INVISIBLE: Sym = Sym(11);

const BEFORE_STRING: Sym = Sym(12);

const AFTER_STRING: Sym = Sym(13);

/// How overlays stand.
#[derive(Clone, Copy)]
enum Shape {
    Apart,
    Nested,
    Together,
}

impl Shape {
    fn name(self) -> &'static str {
        match self {
            Shape::Apart => "apart",
            Shape::Nested => "nested",
            Shape::Together => "at one place",
        }
    }

    /// Where the overlay made as number `k` of `count` begins and ends.
    fn places(self, k: usize, count: usize) -> (usize, usize) {
        let left = count.saturating_sub(k).saturating_sub(1);
        match self {
            Shape::Apart => (left.saturating_mul(16), left.saturating_mul(16).saturating_add(8)),
            Shape::Nested => (k, count.saturating_add(left)),
            Shape::Together => (count, count.saturating_add(8)),
        }
    }
}

/// Counts what is written, and keeps nothing.
#[derive(Drop)]
struct Counting {
    bytes: u64,
}

impl Sink for Counting {
    ghost use Rattle.std.specs.Prelude.{None};

    ghost state = { λ s. record { held = None; faults = 0; room = 0 } };

    fn write(&mut self, from: &[u8]) -> Wrote {
        self.bytes = self.bytes.saturating_add(from.len() as u64);
        Wrote::Bytes(from.len())
    }
}

fn letters(alloc: Global, c: char, count: usize) -> Mem<Chars> {
    let mut text = Chars::new(alloc);
    for _ in 0..count {
        text.push(Ch::Scalar(c))?;
    }
    Ok(text)
}

fn fill(editor: &mut Editor, alloc: Global, count: usize) -> Mem<()> {
    let piece = Piece::plain(alloc, letters(alloc, 'x', 1024)?)?;
    for _ in 0..count / 64 {
        let end = editor.size(0);
        if editor.is_live(0) {
            editor.replace(0, end, end, &piece, false)?;
        }
    }
    Ok(())
}

fn put(editor: &mut Editor, k: u32, name: Sym, value: &PropVal) -> Mem<()> {
    if k < editor.overlay_count() {
        editor.put_overlay(k, name, Some(value))?;
    }
    Ok(())
}

/// An overlay with strings, where it can stand there.
fn lay(editor: &mut Editor, alloc: Global, from: usize, to: usize, hides: bool) -> Mem<()> {
    let size = editor.size(0);
    if editor.overlay_count() < 65_536 && editor.is_live(0) && from <= to && to <= size {
        let k = editor.make_overlay(0, from, to, false, false)?;
        put(editor, k, BEFORE_STRING, &PropVal::Text(Rc::new(alloc, letters(alloc, '[', 1)?)?))?;
        put(editor, k, AFTER_STRING, &PropVal::Text(Rc::new(alloc, letters(alloc, ']', 1)?)?))?;
        if hides {
            put(editor, k, INVISIBLE, &PropVal::Truth)?;
        }
    }
    Ok(())
}

fn furnish(editor: &mut Editor, alloc: Global, shape: Shape, count: usize) -> Mem<()> {
    fill(editor, alloc, count)?;
    for k in 0..count {
        let (from, to) = shape.places(k, count);
        lay(editor, alloc, from, to, k % 8 == 7)?;
    }
    Ok(())
}

/// The time of one view in microseconds, and the bytes that it wrote.
fn viewed(rt: &HostRuntime, editor: &Editor) -> io::Result<(u64, u64)> {
    let mut sink = Counting { bytes: 0 };
    let start = used(rt)?;
    if editor.is_live(0) {
        let _ = view(editor, 0, &mut sink);
    }
    let micros = used(rt)?.saturating_sub(start) / 1000;
    Ok((micros, sink.bytes))
}

fn round(rt: &HostRuntime, shape: Shape, count: usize) -> io::Result<()> {
    let Ok(mut editor) = Editor::new(rt.alloc()) else {
        return Ok(());
    };
    let ready = furnish(&mut editor, rt.alloc(), shape, count).is_ok();
    let made = editor.overlay_count();
    let characters = editor.size(0);
    let timed = viewed(rt, &editor);
    editor.close();
    let (micros, bytes) = timed?;
    let name = shape.name();
    println!(rt; "final_view {made} overlays {name}, {characters} characters: {micros} us, {bytes} bytes, done {ready}")
}

fn main(rt: HostRuntime) -> io::Result<()> {
    for word in env::args(&rt)? {
        if let Ok(count) = word.parse::<usize>() {
            for shape in [Shape::Apart, Shape::Nested, Shape::Together] {
                round(&rt, shape, count)?;
            }
        }
    }
    Ok(())
}
PROGRAM

proved $counts
