#!/bin/sh
# Refuses each allocation in turn, one a run, while an editor is taken through its calls: from the first insertion over
# properties, markers, overlays, undo and undo of that undo to the death of its last buffer. What is refused must leave the
# whole editor as it was: texts with properties, accessible portions, flags, undo records, names, markers, overlays, the
# newest kept place, and a register. A second try must succeed, and behind each call all must be as without refusals.
#
#     bench/refused_edits.sh [LAST]        (allocations 1 to 500 if no number is given)
#
# It uses `rt try`, which proves nothing and refuses the allocation of a given number. So that all runs need one build, that
# number is fixed, and each run first makes and drops so many others that the wanted one comes to it. Ends with status 1
# where a run is wrong, or where allocations come behind the last one tried.
set -eu

. "$(dirname "$0")/common.sh"
last=${1:-500}

scratch_program refused ek_types ek_call narrow_region prop_intervals undo_list buffer_table <<'PROGRAM'
//! An editor where one allocation is refused: standard input has the number of the allocation.
#![tactic(auto)]

use buffer_table::Editor;
use ek_call::Value;
use ek_types::{Ch, Chars, Mem, Piece, PropSet, PropVal, Sym, SymList};
use narrow_region::Saved;
use prop_intervals::PropEdit;
use std::alloc::Global;
use std::io::{self, Read, Write};
use std::rc::Rc;
use std::slice;
use std::test::Fail;
use undo_list::Rec;

/// The allocation that is refused, counted from the beginning of the program.
const REFUSED: usize = 1000;

const FACE: Sym = Sym(14);

const STEPS: usize = 24;

fn say(rt: &HostRuntime, line: &[u8]) {
    let _ = io::writer(rt).write_all(line);
}

fn say_number(rt: &HostRuntime, n: u64) {
    let mut digits = [0u8; 20];
    let mut at = 20;
    let mut left = n;
    loop {
        at -= 1;
        digits[at] = b'0' + (left % 10) as u8;
        left /= 10;
        if left == 0 {
            break;
        }
    }
    say(rt, &digits[at..]);
}

/// A number for all that there is, made without memory.
#[derive(Drop)]
struct Sum {
    value: u64,
}

impl Sum {
    fn add(&mut self, n: u64) {
        self.value = (self.value ^ n).wrapping_mul(0x0000_0100_0000_01B3).rotate_left(5);
    }

    fn add_place(&mut self, place: usize) {
        self.add(place as u64);
    }

    fn add_signed(&mut self, n: i64) {
        self.add(n.unsigned_abs());
        self.add(u64::from(n < 0));
    }

    fn add_chars(&mut self, chars: &Chars) {
        self.add_place(chars.len());
        for i in 0..chars.len() {
            self.add(u64::from(chars.at(i).code()));
        }
    }

    fn add_value(&mut self, value: &PropVal) {
        match value {
            PropVal::Truth => self.add(1),
            PropVal::Int(i) => self.add_signed(*i),
            PropVal::Sym(name) => self.add(u64::from(name.0)),
            PropVal::Syms(names) => self.add_place(names.len()),
            PropVal::Text(text) => self.add_chars(text.as_ref()),
        }
    }

    fn add_set(&mut self, set: &PropSet) {
        self.add_place(set.len());
        for i in 0..set.len() {
            let (name, value) = set.at(i);
            self.add(u64::from(name.0));
            self.add_value(value);
        }
    }

    fn add_piece(&mut self, piece: &Piece) {
        self.add_chars(piece.text());
        for i in 0..piece.len() {
            self.add_set(piece.props(i));
        }
    }

    fn add_record(&mut self, rec: &Rec) {
        match rec {
            Rec::Boundary => self.add(1),
            Rec::Point(p) => self.add_place(*p),
            Rec::Inserted(from, to) => self.add_place(*from * 1000 + *to),
            Rec::Deleted(piece, at) => {
                self.add_piece(piece);
                self.add_place(*at);
            }
            Rec::Prop(name, old, from, to) => {
                self.add(u64::from(name.0));
                if let Some(value) = old {
                    self.add_value(value);
                }
                self.add_place(*from * 1000 + *to);
            }
            Rec::First => self.add(2),
            Rec::Moved(k, by) => {
                self.add(u64::from(*k));
                self.add_signed(*by);
            }
        }
    }

    fn add_buffer(&mut self, editor: &Editor, id: u32) {
        let Some(text) = editor.text(id) else {
            self.add(0);
            return;
        };
        self.add_chars(text.name());
        for i in 0..text.len() {
            self.add(u64::from(text.ch(i).code()));
            self.add_set(text.props(i));
        }
        self.add_place(text.begin());
        self.add_place(text.end());
        self.add_place(text.point());
        self.add(u64::from(text.modified()));
        let undo = text.undo();
        for i in 0..undo.len() {
            let (rec, serial) = undo.at(i);
            self.add_record(rec);
            self.add(serial);
        }
    }

    fn add_marks(&mut self, editor: &Editor) {
        let marks = editor.marks();
        for k in 0..marks.markers.count() {
            if let Some((buffer, place)) = marks.markers.place(k) {
                self.add_place(buffer as usize * 1000 + place);
            }
            self.add(u64::from(marks.markers.kind(k)));
        }
        for k in 0..marks.overlays.count() {
            if let Some((buffer, from, to)) = marks.overlays.span(k) {
                self.add_place(buffer as usize * 1000 + from);
                self.add_place(to);
            }
            self.add_set(marks.overlays.props(k));
        }
        match editor.last_saved() {
            Some(Saved::Excursion(buffer, place)) => self.add_place(buffer as usize * 1000 + place),
            Some(_) => self.add(7),
            None => self.add(3),
        }
    }
}

fn sum(editor: &Editor) -> u64 {
    let mut sum = Sum { value: 17 };
    sum.add(u64::from(editor.current()));
    for id in 0..editor.count() {
        sum.add_buffer(editor, id);
    }
    sum.add_marks(editor);
    match editor.register(FACE) {
        Some(Value::Str(piece)) => sum.add_piece(piece),
        Some(_) => sum.add(5),
        None => sum.add(6),
    }
    sum.value
}

/// What the calls are given.
#[derive(Drop)]
struct Given {
    styled: Piece,
    add: PropEdit,
    remove: PropEdit,
    replace: PropEdit,
    first: Chars,
    second: Chars,
}

fn chars(alloc: Global, n: usize) -> Mem<Chars> {
    let mut text = Chars::new(alloc);
    for i in 0..n {
        text.push(Ch::Scalar(char::from(b'a' + (i % 26) as u8)))?;
    }
    Ok(text)
}

fn given(alloc: Global) -> Mem<Given> {
    let mut styled = Piece::plain(alloc, chars(alloc, 300)?)?;
    let one = PropSet::empty(alloc).with(FACE, &PropVal::Int(1))?;
    let two = one.copy()?.with(Sym(3), &PropVal::Text(Rc::new(alloc, chars(alloc, 3)?)?))?;
    styled.put(10, 200, &one)?;
    styled.put(50, 60, &two)?;
    let mut names = SymList::new(alloc);
    names.push(FACE)?;
    let mut gone = SymList::new(alloc);
    gone.push(Sym(3))?;
    Ok(Given {
        styled,
        add: PropEdit::Add(two.copy()?, names),
        remove: PropEdit::Remove(gone),
        replace: PropEdit::Replace(one),
        first: chars(alloc, 5)?,
        second: chars(alloc, 7)?,
    })
}

/// Undoes groups of what is pending.
fn undo(editor: &mut Editor, groups: u32) -> Mem<()> {
    match editor.undo_plan(0, groups)? {
        Ok(plan) => editor.apply_plan(0, &plan),
        Err(_) => Ok(()),
    }
}

fn step(editor: &mut Editor, given: &Given, i: usize) -> Mem<()> {
    match i {
        0 => editor.replace(0, 0, 0, slice::from_ref(&given.styled), false),
        1 | 2 => editor.make_marker().map(|_| ()),
        3 => editor.make_overlay(0, 30, 45, false, true).map(|_| ()),
        4 => editor.put_overlay(0, Sym(2), Some(&PropVal::Truth)),
        5 => editor.undo_boundary(0),
        6 => editor.replace(0, 150, 150, slice::from_ref(&given.styled), true),
        7 => editor.replace(0, 5, 200, &[], false),
        8 => editor.reprop(0, 10, 160, &given.add).map(|_| ()),
        9 => editor.reprop(0, 0, 50, &given.remove).map(|_| ()),
        10 => editor.reprop(0, 100, 120, &given.replace).map(|_| ()),
        11 => editor.undo_boundary(0),
        12 => editor.substring(0, 10, 250).map(|_| ()),
        13 | 15 => undo(editor, 2),
        14 => editor.undo_boundary(0),
        16 => editor.make(&given.first).map(|_| ()),
        17 => editor.rename(1, &given.second),
        18 => editor.set_register(FACE, Value::Str(given.styled.copy()?)),
        19 => editor.replace(1, 0, 0, slice::from_ref(&given.styled), false),
        20 => editor.move_overlay(0, 1, 2, 5),
        21 => editor.push_saved(Saved::Excursion(1, 30)),
        22 => editor.kill(1),
        23 => editor.kill(0),
        _ => Ok(()),
    }
}

/// What needs no memory and comes in front of a step.
fn before(editor: &mut Editor, i: usize) {
    if i == 13 || i == 15 {
        let _ = editor.undo_start(0);
    }
    if i == 3 {
        editor.set_marker(0, Some((0, 20)));
        editor.set_marker(1, Some((0, 40)));
        editor.set_marker_kind(1, true);
    }
    if i == 22 {
        let _ = editor.pop_saved();
    }
}

fn calls(rt: &HostRuntime, editor: &mut Editor, given: &Given) {
    for i in 0..STEPS {
        before(editor, i);
        let stood = sum(editor);
        if step(editor, given, i).is_err() {
            say(rt, b"step ");
            say_number(rt, i as u64);
            say(rt, b" refused\n");
            if sum(editor) != stood || step(editor, given, i).is_err() {
                say(rt, b"WRONG\n");
            }
        }
        say(rt, b"sum ");
        say_number(rt, sum(editor));
        say(rt, b"\n");
    }
}

fn main(rt: HostRuntime) -> Result<(), Fail> {
    let mut number = 0usize;
    let mut line = [0u8; 16];
    let Ok(count) = rt.reader().read(&mut line) else {
        return Ok(());
    };
    for digit in &line[..count] {
        number = number * 10 + (*digit - b'0') as usize;
    }
    for _ in number..REFUSED {
        let one: Result<Vec<u8>, _> = Vec::with_capacity(rt.alloc(), 1);
        if one.is_err() {
            say(&rt, b"refused too early\n");
        }
    }
    let given = given(rt.alloc())?;
    let mut editor = Editor::new(rt.alloc())?;
    say(&rt, b"set up\n");
    calls(&rt, &mut editor, &given);
    if editor.pool_live() != 0 {
        say(&rt, b"WRONG\n");
    }
    editor.close();
    say(&rt, b"whole\n");
    Ok(())
}
PROGRAM

mkdir "$work/cases"
for number in $(seq 1 "$last") 999; do
    printf %s "$number" > "$work/cases/$number"
done
rt try --fail-alloc 1000 --cases ../../cases > "$work/said" 2> "$work/log" || tail -n 20 "$work/log" >&2

python3 - "$work/said" "$last" <<'VERDICT'
import collections
import re
import sys

said, last = open(sys.argv[1]).read(), int(sys.argv[2])
parts = re.split(r"^== ([0-9]+)\n", said, flags=re.M)
runs = dict(zip(map(int, parts[1::2]), parts[2::2]))
if len(runs) < last or "whole" not in runs[999]:
    sys.exit(said[-3000:])


def sums(run):
    return re.findall(r"^sum .*$", run, re.M)


def verdict(run):
    if "set up" not in run:
        return "refused before the first call"
    refused = re.findall(r"^step (\d+) refused$", run, re.M)
    right = "WRONG" not in run and "whole" in run and sums(run) == sums(runs[999])
    what = f"refused in step {refused[0]}, then made" if refused else UNNOTICED
    return what if right else "WRONG: " + what


UNNOTICED = "refused, and the call found room all the same"
found = [verdict(runs[number]) for number in range(1, last + 1)]
while found and found[-1] == UNNOTICED:
    found.pop()
counts = collections.Counter(found)
for what, count in counts.items():
    print(f"{count:4} from {found.index(what) + 1:3} on: {what}")
print(f"{len(found):4} allocations")
if len(found) == last:
    print("WRONG: there may be more")
sys.exit(len(found) == last or any("WRONG" in what for what in counts))
VERDICT
