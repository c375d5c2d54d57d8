# What the scripts beside it share. Each begins with
#
#     . "$(dirname "$0")/common.sh"
#
# and has then `top`, this repository, and `work`, a folder that is removed when the script ends. With TIMES=3 in the
# environment each program of a script that measures processor time runs three times; the least of its times disturbs least.

top=$(cd "$(dirname "$0")/.." && pwd)
work=$(mktemp -d "${TMPDIR:-/tmp}/noonwool_bench.XXXXXX")
trap 'rm -rf "$work"' EXIT
trap 'exit 1' HUP INT TERM

# with_crate NAME: copies the crate, and those that it stands on, into the scratch repository $work; one of the kit has
# no folder here, and needs none. What checks kept stays behind: rt finds it in other copies on this machine.
with_crate() {
    if [ -d "$work/crates/$1" ] || [ ! -d "$top/crates/$1" ]; then
        return 0
    fi
    mkdir -p "$work/crates/$1"
    for part in src specs proofs; do
        [ ! -d "$top/crates/$1/$part" ] || cp -R "$top/crates/$1/$part" "$work/crates/$1/"
    done
    grep "^$1:" "$top/crates.txt" >> "$work/crates.txt"
    for below in $(sed -n "s/^$1://p" "$top/crates.txt"); do
        with_crate "$below"
    done
}

# with_clock: puts a crate `bench_clock` into the scratch repository, whose `used` is the processor time that the program has
# taken, in nanoseconds. Other work on the machine changes it little.
with_clock() {
    mkdir -p "$work/crates/bench_clock/src"
    echo "bench_clock:" >> "$work/crates.txt"
    cat > "$work/crates/bench_clock/src/lib.rt" <<'CLOCK'
//! The processor time of this program.
#![tactic(auto)]

use std::{fs, io};

/// The nanoseconds that some processor has worked for this program, as Linux counts them.
pub fn used(rt: &HostRuntime) -> io::Result<u64> {
    let text = fs::read_to_string(rt, "/proc/self/schedstat")?;
    let mut nanos = 0u64;
    for byte in text.as_bytes() {
        if *byte < b'0' || *byte > b'9' {
            break;
        }
        nanos = nanos.wrapping_mul(10).wrapping_add(u64::from(*byte - b'0'));
    }
    Ok(nanos)
}
CLOCK
}

# scratch_program NAME CRATE ..: puts a program that calls these crates, and `bench_clock`, into the scratch repository, its
# main.rt from standard input, and goes to its folder. There `rt try` runs it unproved, and `rt run` proves it first.
scratch_program() {
    name=$1
    shift
    for crate in "$@"; do
        with_crate "$crate"
    done
    with_clock
    echo "$name: $* bench_clock" >> "$work/crates.txt"
    cp "$top/HANDLES" "$work/"
    mkdir -p "$work/crates/$name/src"
    cat > "$work/crates/$name/src/main.rt"
    cd "$work/crates/$name"
}

# quietly COMMAND ..: what the command writes to standard error is shown only where it fails
quietly() {
    "$@" 2> "$work/log" || {
        grep -vE '^(library|statements) ' "$work/log" | tail -n 20 >&2
        exit 1
    }
}

# times_over COMMAND ..: runs it TIMES times, once if no number is given
times_over() {
    for _ in $(seq "${TIMES:-1}"); do
        "$@"
    done
}

# proved ARGUMENT ..: proves, builds and runs the program in this folder, TIMES times
proved() {
    RT_SECONDS=3600 quietly rt run -- "$@"
    for _ in $(seq 2 "${TIMES:-1}"); do
        "out/$name" "$@"
    done
}
