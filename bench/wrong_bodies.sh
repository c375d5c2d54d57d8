#!/bin/sh
# Tries the wrong bodies that the gate leaves out: the prover must refuse each, as it must those in crates/CRATE/must-fail/.
# The gate tries those of 19 crates that tell most (docs/PROMISES.md); what the edits of a crate begin with costs its proof once more.
#
#     bench/wrong_bodies.sh [CRATE ..]        (all crates that have some here if none is named)
#
# They are edits of the files in crates/CRATE/, in the form that `rt must-fail` reads. This works on a copy, and ends with
# status 1 where one is not refused.
set -eu

. "$(dirname "$0")/common.sh"
edits=$top/bench/wrong_bodies

[ $# -gt 0 ] || set -- $(ls "$edits")
cp "$top/HANDLES" "$work/"
for crate in "$@"; do
    with_crate "$crate"
    mkdir -p "$work/crates/$crate/must-fail"
    cp "$edits/$crate"/*.edit "$work/crates/$crate/must-fail/"
done
mkdir "$work/.git"
cd "$work"
rt must-fail "$@"
