#!/bin/sh
# How the processor time of recording and of undoing grows. COUNT pushes, first in groups of two records (so that past 65,536
# records each push cuts one old group now and then), then as one long group (so that it is dropped whole, and seldom):
# twice as many take twice as long. Then lists of 16,384 to 65,536 records in small groups are planned and passed whole,
# a group at a time, and all groups by one call: each takes twice as long where there are twice as many records. The
# time of a plan of one group alone hardly grows with the list.
#
#     bench/undo_list.sh [COUNT ..]        (50000 100000 200000 if none is given)
set -eu

. "$(dirname "$0")/common.sh"
counts=${*:-50000 100000 200000}

scratch_program bench_undo ek_types undo_list <<'PROGRAM'
//! Pushes, cuts, plans and passes.
#![tactic(auto)]

use bench_clock::used;
use ek_types::Mem;
use std::{env, io};
use undo_list::{Rec, Refused, Undo};

/// `count` records; a boundary stands behind each in small groups.
fn pushed(undo: &mut Undo, count: usize, small: bool) -> Mem<()> {
    for place in 0..count {
        undo.push(Rec::Point(place))?;
        if small {
            undo.boundary()?;
        }
    }
    Ok(())
}

fn pushes(rt: &HostRuntime, count: usize, small: bool) -> io::Result<()> {
    let mut undo = Undo::new(rt.alloc());
    let start = used(rt)?;
    let done = pushed(&mut undo, count, small).is_ok();
    let time = used(rt)?.saturating_sub(start) / 1000;
    let left = undo.len();
    let groups = if small { "groups of one record" } else { "one group" };
    println!(rt; "undo_list {count} pushes in {groups}: {time} us, {left} records left, done {done}")
}

/// All groups, one by one: how many plans there were.
fn one_by_one(undo: &mut Undo, most: usize) -> usize {
    for i in 0..most {
        match undo.plan(1, 0, usize::MAX) {
            Ok(Ok(plan)) => undo.pass(&plan),
            Ok(Err(Refused::Nothing)) => return i,
            _ => return 0,
        }
    }
    most
}

fn undoings(rt: &HostRuntime, count: usize) -> io::Result<()> {
    let mut undo = Undo::new(rt.alloc());
    let done = pushed(&mut undo, count / 2, true).is_ok();
    let _ = undo.start();

    let start = used(rt)?;
    let plans = one_by_one(&mut undo, count);
    let single = used(rt)?.saturating_sub(start) / 1000;

    let _ = undo.start();
    let start = used(rt)?;
    let whole = match undo.plan(u32::MAX, 0, usize::MAX) {
        Ok(Ok(plan)) => {
            undo.pass(&plan);
            plan.count
        }
        _ => 0,
    };
    let all = used(rt)?.saturating_sub(start) / 1000;

    let start = used(rt)?;
    for _ in 0..1000 {
        let _ = undo.start();
        let _ = undo.plan(1, 0, usize::MAX);
    }
    let thousand = used(rt)?.saturating_sub(start) / 1000;
    println!(rt; "undo_list {count} records, pushed {done}: {plans} plans of a group {single} us; one plan of all {whole} {all} us; 1,000 times the newest group {thousand} us")
}

fn main(rt: HostRuntime) -> io::Result<()> {
    for word in env::args(&rt)? {
        if let Ok(count) = word.parse::<usize>() {
            pushes(&rt, count, true)?;
            pushes(&rt, count, false)?;
        }
    }
    undoings(&rt, 16_384)?;
    undoings(&rt, 32_768)?;
    undoings(&rt, 65_536)
}
PROGRAM

proved $counts
