#!/bin/sh
# How long the whole program takes, and its peak of memory: on 70,000 short forms, on the longest script of insertions, and
# with a child that writes 8 MiB. The child is heard once into the buffer, whose text ends at 4,194,304 characters, so
# that what comes later is refused, and once with no buffer; and 4,194,303 bytes of it with no records of undo, which shows
# what memory a text takes. Where `rustc` is installed, `plain_forms.rs` shows the least that forms and insertions take, and
# `plain_output.rs` what a plain loop takes for a child's output. Where emacs is installed, `emacs -Q --batch` does the same
# work beside it: it evaluates the same forms and prints the same answers, or takes the same output into a buffer. The
# ratio is that of the processor's seconds, which other work on the machine changes little.
#
#     bench/kernel.sh [PROGRAM]     (what `rt run` leaves in crates/kernel_cli/out if none is given)
set -eu

. "$(dirname "$0")/common.sh"
program=${1:-$top/crates/kernel_cli/out/kernel_cli}

if [ ! -x "$program" ]; then
    (cd "$top/crates/kernel_cli" && rt run -- run < /dev/null > /dev/null)
fi

# repeated COUNT FORM
repeated() {
    yes "$2" | head -n "$1"
}

output='head -c 8388608 /dev/zero | tr -c a a'

# A read takes at most 4,096 bytes, so these are more waits than 8 MiB need; those past the child's end ask nothing.
with_child() {
    echo "(start-process \"c\" $1 \"sh\" \"-c\" \"$output\")"
    repeated 8000 '(accept-process-output)'
}

# text_alone: all of a text of the greatest length, put in by the default filter
text_alone() {
    echo '(buffer-disable-undo)'
    echo '(start-process "c" "*scratch*" "sh" "-c" "head -c 4194303 /dev/zero | tr -c a a")'
    repeated 4200 '(accept-process-output)'
}

repeated 70000 '(goto-char 1)' > "$work/forms"
repeated 80659 '(insert "a")' > "$work/insertions"
with_child '"*scratch*"' > "$work/child"
with_child nil > "$work/unkept"
text_alone > "$work/text"

cat > "$work/forms.el" <<'LISP'
(let ((script (generate-new-buffer "script")) (form nil))
  (with-current-buffer script (insert-file-contents (getenv "SCRIPT")))
  (with-current-buffer "*scratch*"
    (while (setq form (ignore-errors (read script)))
      (princ (format "= %S\n" (eval form))))
    (prin1 (buffer-string))))
LISP

cat > "$work/output.el" <<'LISP'
(let* ((process-connection-type nil)
       (kept (unless (string= (getenv "SCRIPT") "unkept") "*scratch*"))
       (child (start-process "c" kept "sh" "-c" (getenv "OUTPUT"))))
  (set-process-query-on-exit-flag child nil)
  (unless kept (set-process-filter child (lambda (_ text) (prin1 text))))
  (while (process-live-p child) (accept-process-output child))
  (when kept (with-current-buffer kept (prin1 (buffer-string)))))
LISP

# measured SCRIPT COMMAND ..: how many seconds the command took, how many of them some processor's, and its peak of memory
# in MiB. What its own children took doesn't count: it is asked before it is waited for.
measured() {
    python3 -c 'import os, subprocess, sys, time
start = time.time()
with open(sys.argv[1]) as given:
    ran = subprocess.Popen(sys.argv[2:], stdin=given, stdout=subprocess.DEVNULL, stderr=subprocess.DEVNULL)
os.waitid(os.P_PID, ran.pid, os.WEXITED | os.WNOWAIT)
with open(f"/proc/{ran.pid}/schedstat") as stat:
    worked = int(stat.read().split()[0]) / 1e9
_, status, usage = os.wait4(ran.pid, 0)
if status:
    sys.exit(f"{sys.argv[2]}: status {status}")
print(f"{time.time() - start:.2f} {worked:.4f} {usage.ru_maxrss // 1024}")' "$@"
}

# plain NAME SCRIPT COMMAND ..: what a plain loop takes for the work of this name
plain() {
    printf '%-11s plain  %6s s, %6s s of a processor, %4s MiB\n' "$1" $(shift; measured "$@")
}

# compared NAME LISP [SCRIPT]: the program on the script of this name, and the Lisp, if any, beside it on that script or
# another
compared() {
    ours=$(measured "$work/$1" "$program" run)
    printf '%-11s kernel %6s s, %6s s of a processor, %4s MiB' "$1" ${ours}
    if [ -n "$2" ] && command -v emacs > /dev/null; then
        theirs=$(SCRIPT=${3:-$work/$1} OUTPUT=$output measured /dev/null emacs -Q --batch -l "$work/$2")
        printf '; emacs %6s s, %6s s, %4s MiB' ${theirs}
        echo "$ours $theirs" | awk '{ printf "; emacs takes %.1f times as long", $5 / ($2 ? $2 : 0.001) }'
    fi
    echo
}

compared forms forms.el
compared insertions forms.el
compared child output.el child
compared unkept output.el unkept
compared text ""
if command -v rustc > /dev/null; then
    for name in plain_forms plain_output; do
        rustc -O --edition 2021 -o "$work/$name" "$top/bench/$name.rs"
    done
    plain forms "$work/forms" "$work/plain_forms"
    plain insertions "$work/insertions" "$work/plain_forms"
    plain child /dev/null "$work/plain_output" kept "$output"
    plain unkept /dev/null "$work/plain_output" unkept "$output"
fi
command -v emacs > /dev/null || echo "emacs is not installed here"
