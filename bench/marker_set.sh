#!/bin/sh
# How much processor time changes take among many markers, and how it grows with their number.
#
# The markers of one buffer stand at places that rise, that fall, in no order, or all at one place. Among them, 10,000
# times each: one character put in before all of them, behind all, and at places in turn; a question for the markers
# between two places that lie 64 apart; a deletion of 64 characters, which takes the markers there to one place; and a
# marker set to another place. Then 10,000 insertions into another buffer, which has 64 markers; and 64 times the whole text
# deleted in 16 stretches, each of which cuts many parts of markers.
#
# `emacs -Q --batch` does the insertions in front beside it where it is installed.
#
#     bench/marker_set.sh [COUNT ..]        (8192 16384 32768 65536 if none is given)
set -eu

. "$(dirname "$0")/common.sh"
counts=${*:-8192 16384 32768 65536}

scratch_program bench_markers text_model ek_types marker_set <<'PROGRAM'
//! Changes among many markers.
#![tactic(auto)]
ghost use Rattle.std.specs.Prelude.{◌≤◌, ◌<◌, ◌+◌, ◌^◌, All, OnOk, IfOk};
ghost use Rattle.bench_markers.specs.Upto.{PlaceUpto};

use bench_clock::used;
use ek_types::{Mem, NoMemory};
use marker_set::Markers;
use std::{env, io};

const TIMES: usize = 10_000;

const FEW: usize = 64;

const COPIES: usize = 64;

const STRETCHES: usize = 16;

/// How markers stand.
#[derive(Clone, Copy)]
enum Shape {
    Rising,
    Falling,
    Scattered,
    Together,
}

impl Shape {
    /// The place of marker `k` of `count`.
    fn place(self, k: usize, count: usize) -> usize
        ensures { result ≤ count }
    {
        let place = match self {
            Shape::Rising => k,
            Shape::Falling => count.saturating_sub(k),
            Shape::Scattered => k.wrapping_mul(2_654_435_761) % count.max(1),
            Shape::Together => count / 2,
        };
        place.min(count)
    }

    fn name(self) -> &'static str {
        match self {
            Shape::Rising => "rising",
            Shape::Falling => "falling",
            Shape::Scattered => "scattered",
            Shape::Together => "together",
        }
    }
}

/// Where characters are put in.
#[derive(Clone, Copy)]
enum Way {
    Front,
    End,
    InTurn,
    Elsewhere,
}

impl Way {
    fn buffer(self) -> u32 {
        match self {
            Way::Elsewhere => 1,
            _ => 0,
        }
    }

    fn place(self, i: usize, most: usize) -> usize {
        match self {
            Way::Front | Way::Elsewhere => 0,
            Way::End => most,
            Way::InTurn => i.wrapping_mul(7_919) % most.max(1),
        }
    }

    fn name(self) -> &'static str {
        match self {
            Way::Front => "insertions in front",
            Way::End => "insertions behind all",
            Way::InTurn => "insertions in turn",
            Way::Elsewhere => "insertions in another buffer",
        }
    }
}

/// One more marker of a buffer, where no place is behind `most`.
fn add(markers: &mut Markers, buffer: u32, place: usize, most: usize) -> Mem<()>
    requires upto { All (PlaceUpto most) markers.old }
    requires place { place ≤ most }
    ensures { OnOk result (All (PlaceUpto most) markers.new) }
{
    if markers.count() == u32::MAX {
        return Err(NoMemory);
    }
    let k = markers.make()?;
    markers.set(k, Some((buffer, place)));
    Ok(())
}

/// Markers of buffer 0, at places up to their number, and then a few of buffer 1.
fn markers_of(rt: &HostRuntime, shape: Shape, count: usize) -> Mem<Markers>
    ensures { IfOk result (λ markers. All (PlaceUpto count) markers) }
{
    let mut markers = Markers::new(rt.alloc());
    for k in 0..count {
        add(&mut markers, 0, shape.place(k, count), count)?;
    }
    for _i in 0..FEW {
        add(&mut markers, 1, 0, count)?;
    }
    Ok(markers)
}

/// One character put in where no place is behind `most`.
fn put_in(markers: &mut Markers, buffer: u32, at: usize, most: usize)
    requires upto { All (PlaceUpto most) markers.old }
    requires room { most < 2 ^ 33 }
    ensures { All (PlaceUpto (most + 1)) markers.new }
{
    markers.note_insert(buffer, at, 1, false);
}

fn say(rt: &HostRuntime, shape: Shape, count: usize, what: &str, micros: u64) -> io::Result<()> {
    println!(rt; "marker_set {} {count}: {TIMES} {what} {micros} us", shape.name())
}

fn insertions(rt: &HostRuntime, shape: Shape, count: usize, way: Way) -> io::Result<()>
    requires { count < 2 ^ 32 }
{
    let Ok(mut markers) = markers_of(rt, shape, count) else {
        return println!(rt; "no memory");
    };
    let start = used(rt)?;
    for i in 0..TIMES {
        let most = count + i;
        put_in(&mut markers, way.buffer(), way.place(i, most), most);
    }
    say(rt, shape, count, way.name(), used(rt)?.saturating_sub(start) / 1000)
}

fn questions(rt: &HostRuntime, shape: Shape, count: usize) -> io::Result<()> {
    let Ok(markers) = markers_of(rt, shape, count) else {
        return println!(rt; "no memory");
    };
    let mut found = 0usize;
    let start = used(rt)?;
    for i in 0..TIMES {
        let from = Way::InTurn.place(i, count);
        if let Ok(numbers) = markers.within(0, from, from.saturating_add(64)) {
            found = found.saturating_add(numbers.len());
        }
    }
    let micros = used(rt)?.saturating_sub(start) / 1000;
    println!(rt; "marker_set {} {count}: {TIMES} questions {micros} us, {found} found", shape.name())
}

fn deletions(rt: &HostRuntime, shape: Shape, count: usize) -> io::Result<()> {
    let Ok(mut markers) = markers_of(rt, shape, count) else {
        return println!(rt; "no memory");
    };
    let start = used(rt)?;
    for i in 0..TIMES {
        let from = Way::InTurn.place(i, count);
        markers.note_delete(0, from, from.saturating_add(64));
    }
    say(rt, shape, count, "deletions", used(rt)?.saturating_sub(start) / 1000)
}

/// All of the text deleted in stretches that cut many parts, the last first, and this over and over with a copy of the
/// same markers.
fn wide_deletions(rt: &HostRuntime, shape: Shape, count: usize) -> io::Result<()> {
    let Ok(markers) = markers_of(rt, shape, count) else {
        return println!(rt; "no memory");
    };
    let mut micros = 0u64;
    for _i in 0..COPIES {
        if let Ok(mut copy) = markers.copy() {
            let start = used(rt)?;
            for k in 0..STRETCHES {
                let width = count / STRETCHES;
                let to = count.saturating_sub(width.saturating_mul(k));
                copy.note_delete(0, to.saturating_sub(width), to);
            }
            micros = micros.saturating_add(used(rt)?.saturating_sub(start) / 1000);
        }
    }
    let name = shape.name();
    println!(rt; "marker_set {name} {count}: {COPIES} times all deleted in {STRETCHES} stretches {micros} us")
}

fn settings(rt: &HostRuntime, shape: Shape, count: usize) -> io::Result<()> {
    let Ok(mut markers) = markers_of(rt, shape, count) else {
        return println!(rt; "no memory");
    };
    let start = used(rt)?;
    for i in 0..TIMES as u32 {
        if i < markers.count() {
            markers.set(i, Some((0, Way::InTurn.place(i as usize, count))));
        }
    }
    say(rt, shape, count, "settings", used(rt)?.saturating_sub(start) / 1000)
}

fn making(rt: &HostRuntime, shape: Shape, count: usize) -> io::Result<()> {
    let start = used(rt)?;
    let made = markers_of(rt, shape, count).is_ok();
    let micros = used(rt)?.saturating_sub(start) / 1000;
    println!(rt; "marker_set {} {count}: made {micros} us, done {made}", shape.name())
}

fn measured(rt: &HostRuntime, shape: Shape, count: usize) -> io::Result<()>
    requires { count < 2 ^ 32 }
{
    making(rt, shape, count)?;
    insertions(rt, shape, count, Way::Front)?;
    insertions(rt, shape, count, Way::End)?;
    insertions(rt, shape, count, Way::InTurn)?;
    insertions(rt, shape, count, Way::Elsewhere)?;
    questions(rt, shape, count)?;
    deletions(rt, shape, count)?;
    wide_deletions(rt, shape, count)?;
    settings(rt, shape, count)
}

fn main(rt: HostRuntime) -> io::Result<()> {
    for word in env::args(&rt)? {
        if let Ok(count) = word.parse::<u32>() {
            measured(&rt, Shape::Rising, count as usize)?;
            measured(&rt, Shape::Falling, count as usize)?;
            measured(&rt, Shape::Scattered, count as usize)?;
            measured(&rt, Shape::Together, count as usize)?;
        }
    }
    Ok(())
}
PROGRAM

mkdir -p specs proofs/put_in proofs/add proofs/markers_of proofs/insertions
cat > specs/Lib.antt <<'PROOF'
pub mod Upto
PROOF
cat > specs/Upto.antt <<'PROOF'
-- Markers whose places are at most some number.
use Rattle.std.specs.Prelude.{ℕ, ◌≤◌, IfSome}
use Rattle.text_model.specs.Marks.{Marker}

abbrev pub PlaceUpto : (most : ℕ) → Marker → Type 0
PlaceUpto most m = IfSome m.spot (λ s. s.place ≤ most)
PROOF
cat > proofs/Lib.antt <<'PROOF'
pub mod UptoLemmas
PROOF
cat > proofs/UptoLemmas.antt <<'PROOF'
-- Places after an insertion of one character.
use Rattle.std.proofs.Common.{◌≡◌, ℕ, ◌+◌, ◌≤◌, ◌<◌, Bool, true, false, nat_lt, ◌==◌, ◌||◌, List, [], ◌∷◌, ◌++◌, map, length, slice_set, All, IfSome, Option, Some, None, option_map, if◌then◌else◌, refl, ap, sym, ◌∙◌, subst, arith}
use Rattle.std.proofs.lemmas.List.Elements.{All-map, All-push, All-set, All-weaker}
use Rattle.std.proofs.lemmas.Bool.{ltb-false}
use Rattle.text_model.specs.Places.{after_insert}
use Rattle.text_model.specs.Marks.{Marker, Spot, move_marker, insertion}
use Rattle.marker_set.specs.Numbered.{HasRoomFor, nowhere, marker_at, spot_of}
use Rattle.bench_markers.specs.Upto.{PlaceUpto}

place_upto : (at : ℕ) (advances : Bool) (p most : ℕ) → p ≤ most → after_insert at 1 advances p ≤ most + 1
place_upto at advances p most h = by_tests (nat_lt p at) (nat_lt at p) advances refl refl
  where
    by_tests : (s t a : Bool) → nat_lt p at ≡ s → nat_lt at p ≡ t → (if s then p else (if t then p + 1 else (if a then at + 1 else p))) ≤ most + 1
    by_tests true t a k l = omega arith
    by_tests false true a k l = omega arith
    by_tests false false false k l = omega arith
    by_tests false false true k l = let low : at ≤ p = ltb-false p at k in omega arith

marker_upto : (b at most : ℕ) (m : Marker) → PlaceUpto most m → PlaceUpto (most + 1) (move_marker b false (insertion at 1) m)
marker_upto b at most m h = by_spot m.spot h
  where
    by_spot : (t : Option Spot) → IfSome t (λ s. s.place ≤ most) → IfSome (option_map (λ (s : Spot). if s.buffer == b then record s { place = after_insert at 1 (m.advances || false) s.place } else s) t) (λ s. s.place ≤ most + 1)
    by_spot None k = tt
    by_spot (Some s) k = by_buffer (s.buffer == b)
      where
        by_buffer : (u : Bool) → (if u then record s { place = after_insert at 1 (m.advances || false) s.place } else s).place ≤ most + 1
        by_buffer true = place_upto at (m.advances || false) s.place most k
        by_buffer false = omega (arith, k)

pub all_upto : (b at most : ℕ) (ms : List Marker) → All (PlaceUpto most) ms → All (PlaceUpto (most + 1)) (map (move_marker b false (insertion at 1)) ms)
all_upto b at most ms h = All-map (PlaceUpto (most + 1)) (move_marker b false (insertion at 1)) ms (All-weaker (PlaceUpto most) (λ m. PlaceUpto (most + 1) (move_marker b false (insertion at 1) m)) (λ m k. marker_upto b at most m k) ms h)

room_one : (b most : ℕ) (m : Marker) → most < 0xffff_ffff_ffff_ffff → PlaceUpto most m → HasRoomFor b 1 m
room_one b most m large h = by_spot m.spot h
  where
    by_spot : (t : Option Spot) → IfSome t (λ s. s.place ≤ most) → IfSome t (λ s. s.buffer ≡ b → 1 + s.place ≤ 0xffff_ffff_ffff_ffff)
    by_spot None k = tt
    by_spot (Some s) k = λ own. omega (arith, k)

pub all_room : (b most : ℕ) (ms : List Marker) → most < 0xffff_ffff_ffff_ffff → All (PlaceUpto most) ms → All (HasRoomFor b 1) ms
all_room b most ms large h = All-weaker (PlaceUpto most) (HasRoomFor b 1) (λ m k. room_one b most m large k) ms h

pub added : (most place buffer k : ℕ) (olds made news : List Marker) → place ≤ most → All (PlaceUpto most) olds → made ≡ olds ++ nowhere ∷ [] → news ≡ slice_set made k (record (marker_at made k) { spot = spot_of (Some (buffer, place)) }) → All (PlaceUpto most) news
added most place buffer k olds made news low h m n =
    subst (All (PlaceUpto most)) (sym n)
    (All-set (PlaceUpto most) made k (record (marker_at made k) { spot = spot_of (Some (buffer, place)) }) low
    (subst (All (PlaceUpto most)) (sym m) (All-push (PlaceUpto most) olds nowhere h tt)))
PROOF
cat > proofs/put_in/Answers.antt <<'PROOF'
use Rattle.std.proofs.Common.{All, arith}
use Rattle.bench_markers.proofs.UptoLemmas.{all_upto, all_room}
use Rattle.bench_markers.proofs.put_in.Goals as goal

pub note_insert-requires : goal.note_insert-requires
note_insert-requires c = all_room c.args.buffer c.args.most c.args.markers.now (omega (arith, c.requires.room)) c.requires.upto

pub returns : goal.returns
returns c = rw c.note_insert.ensures (all_upto c.args.buffer c.args.at c.args.most c.args.markers.now c.requires.upto)
PROOF
cat > proofs/add/Answers.antt <<'PROOF'
use Rattle.bench_markers.proofs.UptoLemmas.{added}
use Rattle.bench_markers.proofs.add.Goals as goal

pub returns : goal.returns
returns c = added c.args.most c.args.place c.args.buffer c.in_ok-k.k c.args.markers.now c.make.new.self c.set.new.self c.requires.place c.requires.upto c.in_ok-k.ensures.ok c.set.ensures
PROOF
cat > proofs/markers_of/Invariants.antt <<'PROOF'
use Rattle.std.proofs.Common.{All}
use Rattle.bench_markers.specs.Upto.{PlaceUpto}
use Rattle.bench_markers.proofs.markers_of.Given as goal

abbrev pub invariant-loop-k : goal.invariant-loop-k
invariant-loop-k l = All (PlaceUpto l.count) l.markers

abbrev pub invariant-loop-i : goal.invariant-loop-i
invariant-loop-i l = All (PlaceUpto l.count) l.markers
PROOF
cat > proofs/insertions/Invariants.antt <<'PROOF'
use Rattle.std.proofs.Common.{All, ◌+◌}
use Rattle.bench_markers.specs.Upto.{PlaceUpto}
use Rattle.bench_markers.proofs.insertions.Given as goal

abbrev pub invariant-loop-i : goal.invariant-loop-i
invariant-loop-i l = All (PlaceUpto (l.count + l.i)) l.markers
PROOF

proved $counts

if ! command -v emacs > /dev/null; then
    echo "emacs is not installed here"
    exit 0
fi
for count in $counts; do
    times_over emacs -Q --batch --eval "
(with-temp-buffer
  (insert (make-string (1+ $count) ?x))
  (let ((markers (make-vector $count nil)))
    (dotimes (k $count)
      (aset markers k (copy-marker (1+ k))))
    (let ((start (float-time (get-internal-run-time))))
      (dotimes (i 10000)
        (goto-char (point-min))
        (insert \"x\"))
      (princ (format \"emacs rising $count: 10000 insertions in front %d us, last marker at %d\n\"
                     (* 1000000 (- (float-time (get-internal-run-time)) start)) (marker-position (aref markers (1- $count))))))))"
done
