#!/bin/bash
# Runs a script in the program and in GNU Emacs, and shows where their lines differ:
#
#     bench/beside_emacs.sh SCRIPT [PROGRAM]     (what `rt run` leaves in crates/kernel_cli/out if none is given)
#
# It needs GNU Emacs 28 or later, by the name `emacs` or as EMACS says. In front of a line of the program stands `<`, and
# `>` in front of one of Emacs. The status is 0 where all lines are the same, and 1 where some differ.
#
# Emacs does the forms by its own functions (`beside_emacs.el`). What docs/EMACS.md tells is masked there, done by the
# kernel's rule; the head of that file says what is masked and what isn't. Numbers of exchanges aren't compared.
set -u

. "$(dirname "$0")/common.sh"
emacs=${EMACS:-emacs}
script=${1:?a script is wanted}
program=${2:-$top/crates/kernel_cli/out/kernel_cli}

command -v "$emacs" > "$work/which" || { echo "GNU Emacs isn't here: $emacs" >&2; exit 2; }
[ -x "$program" ] || { echo "the program isn't here: $program" >&2; exit 2; }

"$program" run < "$script" > "$work/ours" || exit 2
# in batch mode a child that doesn't take its input would end Emacs by a signal
trap '' PIPE
"$emacs" -Q --batch -l "$top/bench/beside_emacs.el" -f beside-emacs "$script" "$work/emacs" 2> "$work/log" ||
    { tail -n 5 "$work/log" >&2; exit 2; }
diff "$work/ours" "$work/emacs"
