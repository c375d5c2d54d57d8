#!/bin/sh
# How much processor time questions and changes of many overlays take, and how it grows with their number.
#
# The overlays of one buffer stand apart, from k to k + 1; nested, each in the one before; or together, all at one place.
# Among them:
#
# - winners: 2,000,000 calls of `winner` for a property that each has, at the places in turn, where they stand apart; else
#   64 in the middle, each of which goes over all overlays, since they cover it.
# - insertions of one character, 10,000 times: in front of all overlays, behind all, and where they stand apart at places
#   that wander in the middle; else in the middle 64 times, since each goes through all overlays, which it cuts.
# - deletions of 64 characters, 64 times, in the middle: each cuts 64 overlays that stand apart, and all others.
#
# Twice as many overlays take twice as long where a call goes over all of them, and hardly longer elsewhere.
#
# `emacs -Q --batch` and `nvim` do some of it beside it where they are installed, of 8,192 and 16,384 overlays: Emacs all
# but fewer times, Neovim the changes of extmarks that stand apart.
#
#     bench/overlay_set.sh [COUNT ..]        (16384 32768 65536 if none is given)
set -eu

. "$(dirname "$0")/common.sh"
counts=${*:-16384 32768 65536}

scratch_program bench_overlays text_model ek_types overlay_set <<'PROGRAM'
//! Questions and changes of many overlays.
#![tactic(auto)]
ghost use Rattle.std.specs.Prelude.{◌≤◌, ◌<◌, ◌+◌, ◌-◌, ◌^◌, All, IfOk};
ghost use Rattle.bench_overlays.specs.Upto.{EndsUpto};

use bench_clock::used;
use ek_types::{Mem, NoMemory, PropVal, Sym};
use overlay_set::Overlays;
use std::{env, io};

const FACE: Sym = Sym(14);

const FEW: usize = 64;

/// How overlays stand.
#[derive(Clone, Copy)]
enum Shape {
    Apart,
    Nested,
    Together,
}

impl Shape {
    /// Where overlay `k` of `count` begins and ends.
    fn places(self, k: usize, count: usize) -> (usize, usize)
        requires within { k < count }
        requires small { count < 2 ^ 32 }
        ensures ordered { result.0 ≤ result.1 }
        ensures upto { result.1 ≤ count + count }
    {
        match self {
            Shape::Apart => (k, k + 1),
            Shape::Nested => (k, count + (count - k)),
            Shape::Together => (count / 2, count / 2 + 1),
        }
    }

    /// A place in the middle of the overlays of `count`.
    fn middle(self, count: usize) -> usize {
        match self {
            Shape::Nested => count,
            _ => count / 2,
        }
    }

    fn name(self) -> &'static str {
        match self {
            Shape::Apart => "apart",
            Shape::Nested => "nested",
            Shape::Together => "together",
        }
    }
}

/// Where characters are put in.
#[derive(Clone, Copy)]
enum Way {
    Front,
    End,
    Middle,
}

impl Way {
    /// A place among the overlays of `count`, where none is behind `most`.
    fn place(self, shape: Shape, i: usize, count: usize, most: usize) -> usize {
        let middle = shape.middle(count);
        match self {
            Way::Front => 0,
            Way::End => most,
            Way::Middle => match shape {
                Shape::Apart => middle
                    .saturating_add(i.wrapping_mul(7) % 41)
                    .saturating_sub(20),
                _ => middle,
            },
        }
    }

    fn name(self) -> &'static str {
        match self {
            Way::Front => "insertions in front",
            Way::End => "insertions behind all",
            Way::Middle => "insertions in the middle",
        }
    }
}

/// One more overlay with a face.
fn with_face(overlays: &mut Overlays, from: usize, to: usize) -> Mem<()> {
    if overlays.count() == u32::MAX || from > to {
        return Err(NoMemory);
    }
    let k = overlays.make(0, from, to, false, false)?;
    overlays.put(k, FACE, Some(&PropVal::Truth))
}

fn faces(rt: &HostRuntime, shape: Shape, count: usize) -> Mem<Overlays>
    requires { count < 2 ^ 32 }
{
    let mut overlays = Overlays::new(rt.alloc());
    for k in 0..count {
        let (from, to) = shape.places(k, count);
        with_face(&mut overlays, from, to)?;
    }
    Ok(overlays)
}

/// The same without faces, and no place behind twice their number.
fn plain(rt: &HostRuntime, shape: Shape, count: usize) -> Mem<Overlays>
    requires { count < 2 ^ 32 - 1 }
    ensures { IfOk result (λ overlays. All (EndsUpto (count + count)) overlays) }
{
    let mut overlays = Overlays::new(rt.alloc());
    for k in 0..count {
        let (from, to) = shape.places(k, count);
        overlays.make(0, from, to, false, false)?;
    }
    Ok(overlays)
}

/// One character put in where no place is behind `most`.
fn put_in(overlays: &mut Overlays, at: usize, most: usize)
    requires upto { All (EndsUpto most) overlays.old }
    requires room { most < 2 ^ 34 }
    ensures { All (EndsUpto (most + 1)) overlays.new }
{
    overlays.note_insert(0, at, 1, false);
}

fn say(
    rt: &HostRuntime,
    shape: Shape,
    count: usize,
    times: usize,
    what: &str,
    start: u64,
) -> io::Result<()> {
    let micros = used(rt)?.saturating_sub(start) / 1000;
    println!(rt; "overlay_set {} {count}: {times} {what} {micros} us", shape.name())
}

fn winners(rt: &HostRuntime, shape: Shape, count: usize, times: usize) -> io::Result<()>
    requires { count < 2 ^ 32 }
{
    let start = used(rt)?;
    let Ok(overlays) = faces(rt, shape, count) else {
        return println!(rt; "no memory");
    };
    say(rt, shape, count, count, "made", start)?;
    let mut found = 0usize;
    let start = used(rt)?;
    for i in 0..times {
        let place = match shape {
            Shape::Apart => i % count.max(1),
            _ => shape.middle(count),
        };
        if overlays.winner(0, place, FACE).is_some() {
            found = found.saturating_add(1);
        }
    }
    say(rt, shape, count, found, "winners", start)
}

fn insertions(
    rt: &HostRuntime,
    shape: Shape,
    count: usize,
    way: Way,
    times: usize,
) -> io::Result<()>
    requires count { count < 2 ^ 32 - 1 }
    requires times { times < 2 ^ 32 }
{
    let Ok(mut overlays) = plain(rt, shape, count) else {
        return println!(rt; "no memory");
    };
    let start = used(rt)?;
    for i in 0..times {
        let most = count + count + i;
        put_in(&mut overlays, way.place(shape, i, count, most), most);
    }
    say(rt, shape, count, times, way.name(), start)
}

fn deletions(rt: &HostRuntime, shape: Shape, count: usize) -> io::Result<()>
    requires { count < 2 ^ 32 }
{
    let Ok(mut overlays) = faces(rt, shape, count) else {
        return println!(rt; "no memory");
    };
    let from = shape.middle(count).saturating_sub(32);
    let start = used(rt)?;
    for _i in 0..FEW {
        overlays.note_delete(0, from, from.saturating_add(64));
    }
    say(rt, shape, count, FEW, "deletions", start)
}

fn measured(
    rt: &HostRuntime,
    shape: Shape,
    count: usize,
    questions: usize,
    cuts: usize,
) -> io::Result<()>
    requires count { count < 2 ^ 32 - 1 }
    requires cuts { cuts < 2 ^ 32 }
{
    winners(rt, shape, count, questions)?;
    insertions(rt, shape, count, Way::Front, 10_000)?;
    insertions(rt, shape, count, Way::End, 10_000)?;
    insertions(rt, shape, count, Way::Middle, cuts)?;
    deletions(rt, shape, count)
}

fn main(rt: HostRuntime) -> io::Result<()> {
    for word in env::args(&rt)? {
        let Ok(count) = word.parse::<u32>() else {
            continue;
        };
        if count < u32::MAX {
            measured(&rt, Shape::Apart, count as usize, 2_000_000, 10_000)?;
            measured(&rt, Shape::Nested, count as usize, FEW, FEW)?;
            measured(&rt, Shape::Together, count as usize, FEW, FEW)?;
        }
    }
    Ok(())
}
PROGRAM

mkdir -p specs proofs/put_in proofs/plain proofs/insertions
cat > specs/Lib.antt <<'PROOF'
pub mod Upto
PROOF
cat > specs/Upto.antt <<'PROOF'
-- Overlays whose places are at most some number.
use Rattle.std.specs.Prelude.{ℕ, ◌≤◌, IfSome}
use Rattle.text_model.specs.Marks.{Overlay}

abbrev pub EndsUpto : (most : ℕ) → Overlay → Type 0
EndsUpto most o = IfSome o.span (λ s. (s.start ≤ most) × (s.end ≤ most))
PROOF
cat > proofs/Lib.antt <<'PROOF'
pub mod UptoLemmas
PROOF
cat > proofs/UptoLemmas.antt <<'PROOF'
-- Places after an insertion of one character.
use Rattle.std.proofs.Common.{◌≡◌, ℕ, ◌+◌, ◌≤◌, ◌<◌, Bool, true, false, nat_lt, ◌==◌, ◌||◌, List, map, length, get_or, slice_set, All, IfSome, Option, Some, None, option_map, if◌then◌else◌, refl, ap, sym, ◌∙◌, subst, arith}
use Rattle.std.proofs.lemmas.List.Elements.{All-map, All-set, All-weaker, All-get_or}
use Rattle.std.proofs.lemmas.Bool.{ltb-false, eqb-true}
use Rattle.text_model.specs.Places.{after_insert}
use Rattle.text_model.specs.Marks.{Overlay, Span, move_overlay, insertion, start_advances}
use Rattle.overlay_set.specs.Numbered.{HasRoomFor, overlay_at}
use Rattle.bench_overlays.specs.Upto.{EndsUpto}

place_upto : (at : ℕ) (advances : Bool) (p most : ℕ) → p ≤ most → after_insert at 1 advances p ≤ most + 1
place_upto at advances p most h = by_tests (nat_lt p at) (nat_lt at p) advances refl refl
  where
    by_tests : (s t a : Bool) → nat_lt p at ≡ s → nat_lt at p ≡ t → (if s then p else (if t then p + 1 else (if a then at + 1 else p))) ≤ most + 1
    by_tests true t a k l = omega arith
    by_tests false true a k l = omega arith
    by_tests false false false k l = omega arith
    by_tests false false true k l = let low : at ≤ p = ltb-false p at k in omega arith

overlay_upto : (b at most : ℕ) (o : Overlay) → EndsUpto most o → EndsUpto (most + 1) (move_overlay b false (insertion at 1) o)
overlay_upto b at most o h = by_span o.span h
  where
    by_span : (t : Option Span) → IfSome t (λ s. (s.start ≤ most) × (s.end ≤ most)) → IfSome (option_map (λ (s : Span). if s.buffer == b then record s { start = after_insert at 1 (start_advances false o s) s.start; end = after_insert at 1 (o.rear_advance || false) s.end } else s) t) (λ s. (s.start ≤ most + 1) × (s.end ≤ most + 1))
    by_span None k = tt
    by_span (Some s) k = by_buffer (s.buffer == b) refl
      where
        by_buffer : (u : Bool) → (s.buffer == b) ≡ u → ((if u then record s { start = after_insert at 1 (start_advances false o s) s.start; end = after_insert at 1 (o.rear_advance || false) s.end } else s).start ≤ most + 1) × ((if u then record s { start = after_insert at 1 (start_advances false o s) s.start; end = after_insert at 1 (o.rear_advance || false) s.end } else s).end ≤ most + 1)
        by_buffer true e = (place_upto at (start_advances false o s) s.start most k.0, place_upto at (o.rear_advance || false) s.end most k.1)
        by_buffer false e = let low = k.0 in let high = k.1 in (omega arith, omega arith)

pub all_upto : (b at most : ℕ) (os : List Overlay) → All (EndsUpto most) os → All (EndsUpto (most + 1)) (map (move_overlay b false (insertion at 1)) os)
all_upto b at most os h = All-map (EndsUpto (most + 1)) (move_overlay b false (insertion at 1)) os (All-weaker (EndsUpto most) (λ o. EndsUpto (most + 1) (move_overlay b false (insertion at 1) o)) (λ o k. overlay_upto b at most o k) os h)

room_one : (b most : ℕ) (o : Overlay) → most < 0xffff_ffff_ffff_ffff → EndsUpto most o → HasRoomFor b 1 o
room_one b most o large h = by_span o.span h
  where
    by_span : (t : Option Span) → IfSome t (λ s. (s.start ≤ most) × (s.end ≤ most)) → IfSome t (λ s. s.buffer ≡ b → (1 + s.start ≤ 0xffff_ffff_ffff_ffff) × (1 + s.end ≤ 0xffff_ffff_ffff_ffff))
    by_span None k = tt
    by_span (Some s) k = λ own. (let low = k.0 in omega arith, let high = k.1 in omega arith)

pub all_room : (b most : ℕ) (os : List Overlay) → most < 0xffff_ffff_ffff_ffff → All (EndsUpto most) os → All (HasRoomFor b 1) os
all_room b most os large h = All-weaker (EndsUpto most) (HasRoomFor b 1) (λ o k. room_one b most o large k) os h
PROOF
cat > proofs/put_in/Answers.antt <<'PROOF'
use Rattle.std.proofs.Common.{All, arith}
use Rattle.bench_overlays.proofs.UptoLemmas.{all_upto, all_room}
use Rattle.bench_overlays.proofs.put_in.Goals as goal

pub note_insert-requires : goal.note_insert-requires
note_insert-requires c = all_room 0 c.args.most c.args.overlays.now (omega (arith, c.requires.room)) c.requires.upto

pub returns : goal.returns
returns c = rw c.note_insert.ensures (all_upto 0 c.args.at c.args.most c.args.overlays.now c.requires.upto)
PROOF
cat > proofs/plain/Invariants.antt <<'PROOF'
use Rattle.std.proofs.Common.{◌≡◌, ◌+◌, All, length}
use Rattle.bench_overlays.specs.Upto.{EndsUpto}
use Rattle.bench_overlays.proofs.plain.Given as goal

abbrev pub invariant-loop-k : goal.invariant-loop-k
invariant-loop-k l = record { made : length l.overlays ≡ l.k; upto : All (EndsUpto (l.count + l.count)) l.overlays }
PROOF
cat > proofs/insertions/Invariants.antt <<'PROOF'
use Rattle.std.proofs.Common.{All, ◌+◌}
use Rattle.bench_overlays.specs.Upto.{EndsUpto}
use Rattle.bench_overlays.proofs.insertions.Given as goal

abbrev pub invariant-loop-i : goal.invariant-loop-i
invariant-loop-i l = All (EndsUpto (l.count + l.count + l.i)) l.overlays
PROOF

proved $counts

if command -v emacs > /dev/null; then
    cat > "$work/overlays.el" <<'LISP'
;; -*- lexical-binding: t -*-
(defun places (shape k count)
  (pcase shape
    ('apart (cons (+ k 1) (+ k 2)))
    ('nested (cons (+ k 1) (1+ (- (* 2 count) k))))
    ('together (cons (1+ (/ count 2)) (+ (/ count 2) 2)))))

(defun in-the-middle (shape count)
  (1+ (if (eq shape 'nested) count (/ count 2))))

(defun made (shape count)
  (erase-buffer)
  (remove-overlays)
  (insert (make-string (* 2 count) ?x))
  (dotimes (k count)
    (let ((place (places shape k count)))
      (overlay-put (make-overlay (car place) (cdr place)) 'face t))))

(defmacro told (shape count times what &rest body)
  `(let ((start (float-time (get-internal-run-time))))
     ,@body
     (princ (format "emacs %s %d: %d %s %d us\n" ,shape ,count ,times ,what
                    (* 1000000 (- (float-time (get-internal-run-time)) start))))))

(defun measured (shape count winners insertions cuts)
  (with-temp-buffer
    (buffer-disable-undo)
    (told shape count count "made" (made shape count))
    (told shape count winners "winners"
          (dotimes (i winners)
            (get-char-property (if (eq shape 'apart) (1+ (% i count)) (in-the-middle shape count)) 'face)))
    (dolist (way '(front end middle))
      (made shape count)
      (let ((times (if (eq way 'middle) cuts insertions))
            (middle (in-the-middle shape count)))
        (told shape count times (format "insertions (%s)" way)
              (dotimes (i times)
                (goto-char (pcase way
                             ('front (point-min))
                             ('end (point-max))
                             (_ (if (eq shape 'apart) (+ middle (% (* 7 i) 41) -20) middle))))
                (insert "x")))))
    (made shape count)
    (let ((from (- (in-the-middle shape count) 32)))
      (told shape count 64 "deletions"
            (dotimes (_ 64)
              (delete-region from (+ from 64)))))))

(mapc #'byte-compile '(places in-the-middle made measured))
(dolist (count '(8192 16384))
  (measured 'apart count 2000 1000 1000)
  (measured 'nested count 64 1000 64)
  (measured 'together count 64 1000 64))
LISP
    times_over emacs -Q --batch -l "$work/overlays.el"
else
    echo "emacs is not installed here"
fi

if command -v nvim > /dev/null; then
    cat > "$work/overlays.lua" <<'LUA'
local space = vim.api.nvim_create_namespace('bench')

local function told(count, times, what, work)
  local start = os.clock()
  for i = 1, times do
    work(i)
  end
  io.write(string.format('nvim apart %d: %d %s %d us\n', count, times, what, (os.clock() - start) * 1000000))
end

local function with_marks(count)
  local buffer = vim.api.nvim_create_buf(false, true)
  vim.bo[buffer].undolevels = -1
  vim.api.nvim_buf_set_lines(buffer, 0, -1, false, { string.rep('x', 2 * count) })
  return buffer
end

local function mark(buffer, k)
  vim.api.nvim_buf_set_extmark(buffer, space, 0, k, { end_row = 0, end_col = k + 1, hl_group = 'Search' })
end

local function marked(count)
  local buffer = with_marks(count)
  for k = 0, count - 1 do
    mark(buffer, k)
  end
  return buffer
end

for _, count in ipairs({ 8192, 16384 }) do
  local buffer = with_marks(count)
  told(count, count, 'made', function(k) mark(buffer, k - 1) end)
  local places = {
    { 'front', function() return 0 end },
    { 'end', function(i) return 2 * count + i - 1 end },
    { 'middle', function(i) return count / 2 + (7 * i) % 41 - 20 end },
  }
  for _, place in ipairs(places) do
    local changed = marked(count)
    told(count, 1000, 'insertions (' .. place[1] .. ')', function(i)
      local at = place[2](i)
      vim.api.nvim_buf_set_text(changed, 0, at, 0, at, { 'x' })
    end)
  end
  local cut = marked(count)
  told(count, 64, 'deletions', function()
    vim.api.nvim_buf_set_text(cut, 0, count / 2 - 32, 0, count / 2 + 32, {})
  end)
end
LUA
    times_over nvim --clean --headless -l "$work/overlays.lua"
else
    echo "nvim is not installed here"
fi
