#!/bin/sh
# How long the largest drill takes, and its peak of memory, beside the same work in Emacs where that is installed: a filter of
# the same nine calls on the same 19,714 pieces of text, byte-compiled. Emacs makes the pieces itself and calls the filter
# on each, with no child and no wait, so that it has less to do. Beside each stands what it takes to do nothing: the drill
# of no lines, and a start of Emacs. The ratio is that of the processor's seconds without these. Where `rustc` is installed,
# `drill_lines.rs` shows the least that it takes: a plain loop that puts the same lines together over a `Vec`.
#
#     bench/drill.sh [PROGRAM]     (what `rt run` leaves in crates/kernel_cli/out if none is given)
set -eu

. "$(dirname "$0")/common.sh"
program=${1:-$top/crates/kernel_cli/out/kernel_cli}

if [ ! -x "$program" ]; then
    (cd "$top/crates/kernel_cli" && rt run -- run < /dev/null > /dev/null)
fi

cat > "$work/drill.el" <<'LISP'
(defun drill-filter (p s)
  (let (b m e)
    (setq b (process-buffer p))
    (set-buffer b)
    (setq m (process-mark p))
    (goto-char m)
    (insert s)
    (setq e (point))
    (put-text-property m e 'n 'out)
    (set-marker m e)
    (undo-boundary)))

(defun drill (lines)
  (let ((p (make-pipe-process :name "drill" :buffer "out" :noquery t))
        (output (encode-coding-string
                 (mapconcat (lambda (k) (format "é %d\n" k)) (number-sequence 0 (1- lines)) "") 'utf-8))
        (at 0) (size 1) (held "") (entries 0))
    (with-current-buffer "out" (buffer-enable-undo))
    (while (< at (length output))
      (let* ((end (min (+ at size) (length output)))
             (bytes (concat held (substring output at end)))
             (cut (= (aref bytes (1- (length bytes))) #xC3)))
        (setq held (if cut "\xC3" ""))
        (when cut (setq bytes (substring bytes 0 -1)))
        (unless (string= bytes "")
          (setq entries (1+ entries))
          (drill-filter p (decode-coding-string bytes 'utf-8)))
        (setq at end size (1+ (% size 7)))))
    (princ (format "drill %d: %d entries, %d characters\n" lines entries (with-current-buffer "out" (buffer-size))))))

(byte-compile 'drill-filter)
(byte-compile 'drill)
LISP

# measured COMMAND ..: the processor's seconds of the command and its peak of memory in MiB; its first line goes to standard
# error
measured() {
    python3 -c 'import resource, subprocess, sys
before = resource.getrusage(resource.RUSAGE_CHILDREN)
said = subprocess.run(sys.argv[1:], stdin=subprocess.DEVNULL, stdout=subprocess.PIPE, check=True).stdout
sys.stderr.write(said.decode())
took = resource.getrusage(resource.RUSAGE_CHILDREN)
processor = took.ru_utime + took.ru_stime - before.ru_utime - before.ru_stime
print(f"{processor:.3f} {took.ru_maxrss // 1024}")' "$@"
}

# told NAME SECONDS MIB SECONDS MIB: what some work took, and what doing nothing takes
told() {
    printf '%-7s %s s of a processor, %s MiB; with nothing to do %s s, %s MiB\n' "$@"
}

ours=$(measured "$program" drill 9999)
told kernel ${ours} $(measured "$program" drill 0 2> /dev/null)
if command -v emacs > /dev/null; then
    theirs=$(measured emacs -Q --batch -l "$work/drill.el" --eval '(drill 9999)')
    idle=$(measured emacs -Q --batch -l "$work/drill.el")
    told emacs ${theirs} ${idle}
    echo "${ours} $(measured "$program" drill 0 2> /dev/null) ${theirs} ${idle}" |
        awk '{ ours = $1 - $3; theirs = $5 - $7; printf "emacs takes %.1f times as long\n", theirs / (ours > 0 ? ours : 0.001) }'
else
    echo "emacs is not installed here"
fi
if command -v rustc > /dev/null; then
    rustc -O --edition 2021 -o "$work/drill_lines" "$top/bench/drill_lines.rs"
    told plain $(measured "$work/drill_lines" 9999) $(measured "$work/drill_lines" 0 2> /dev/null)
fi
