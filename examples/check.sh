#!/bin/bash
# Runs the program on each example and compares what it writes, on sessions and their lines, on two of the most bytes and one more, on views, on three
# drills, on a line session, and on standard streams that fail: examples/check.sh [PROGRAM]
set -u
here="$(cd "$(dirname "$0")" && pwd)"
program="${1:-$here/../crates/kernel_cli/out/kernel_cli}"
failed=0
if [ ! -x "$program" ]; then
    echo "no program: $program (crates/kernel_cli builds it by \`rt run -- run < ../../examples/child.el\`)"
    exit 2
fi
for script in "$here"/*.el; do
    name="$(basename "$script" .el)"
    if ! "$program" run < "$script" 2> /dev/null | cmp -s - "$here/$name.out"; then
        echo "differs: $name"
        failed=1
    fi
done
for session in "$here"/*.session; do
    name="$(basename "$session" .session)"
    if ! "$program" replay < "$session" 2> /dev/null | cmp -s - "$here/$name.out"; then
        echo "differs: the replay of $name"
        failed=1
    fi
    if ! "$program" record < "$here/$name.el" 2> /dev/null | cmp -s - "$session"; then
        echo "differs: the session of $name"
        failed=1
    fi
    # The lines of the run, claimed of its journal.
    told="$({
        sed '/^script$/,$d' "$session"
        echo "lines $(wc -c < "$here/$name.out")"
        cat "$here/$name.out"
        sed -n '/^script$/,$p' "$session"
    } | "$program" check 2>&1)"
    if [ "$? $told" != "0 yes" ]; then
        echo "differs: the check of $name"
        failed=1
    fi
done
for view in "$here"/*.view; do
    name="$(basename "$view" .view)"
    if ! "$program" view < "$here/$name.el" 2> /dev/null | cmp -s - "$view"; then
        echo "differs: the view of $name"
        failed=1
    fi
done
# A session may have 268,435,456 bytes. So many are read, though what stands behind the line `script` is too long for one.
while read -r bytes status line; do
    told="$({ echo script; head -c "$((bytes - 7))" /dev/zero; } | "$program" replay 2>&1)"
    if [ "$? $told" != "$status $line" ]; then
        echo "differs: a session of $bytes bytes"
        failed=1
    fi
done << 'SESSIONS'
268435456 2 kernel_cli: script: line 0
268435457 6 kernel_cli: journal: line 0
SESSIONS
# A run whose session would be longer: its child writes 134,217,728 bytes, and each of them has two digits. Each entry of the
# filter waits twice, so that few forms read all.
told="$("$program" record 2>&1 << 'SCRIPT'
(defhandler more (process text)
  (accept-process-output process)
  (accept-process-output process))
(setq zeros (start-process "zeros" nil "head" "-c" "134217728" "/dev/zero"))
(set-process-filter zeros 'more)
(accept-process-output zeros)
SCRIPT
)"
if [ "$? $told" != "7 kernel_cli: journal too long" ]; then
    echo "differs: a session that is too long"
    failed=1
fi
while read -r number line; do
    if [ "$("$program" drill "$number" < /dev/null 2> /dev/null)" != "$line" ]; then
        echo "differs: drill $number"
        failed=1
    fi
done << 'DRILLS'
0 drill 0: 12 lines, 3 exchanges, 0 characters
1 drill 1: 37 lines, 6 exchanges, 4 characters
9999 drill 9999: 236588 lines, 19725 exchanges, 68883 characters
DRILLS
# Standard streams that fail: a full device, a closed output, a pipe that nobody reads any more, a closed input.
ends_with() { # STATUS WHAT
    if [ "$?" != "$1" ]; then
        echo "differs: $2"
        failed=1
    fi
}
"$program" run < "$here/first.el" > /dev/full 2> /dev/null
ends_with 4 "a full device"
"$program" run < "$here/first.el" >&- 2> /dev/null
ends_with 4 "a closed output"
many="$(mktemp)"
yes '(insert "line")' | head -n 20000 > "$many"
"$program" run < "$many" 2> /dev/null | true
(exit "${PIPESTATUS[0]}")
ends_with 4 "a closed pipe"
rm -f "$many"
"$program" run <&- > /dev/null 2>&1
ends_with 3 "a closed input"
# A child that ends well the third time, by what it finds in a file.
tries="$(mktemp)"
lines="$("$program" session 5 sh -c 'echo x >> "$1"; cat "$1"; printf .; test "$(wc -l < "$1")" -eq 3' sh "$tries" < /dev/null 2> /dev/null)"
if [ "$lines" != $'x\n.\nx\nx\n.\nx\nx\nx\n.' ]; then
    echo "differs: the line session"
    failed=1
fi
rm -f "$tries"
exit "$failed"
