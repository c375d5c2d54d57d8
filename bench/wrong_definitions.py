#!/usr/bin/env python3
"""Change the definitions in telling ways, one at a time, and see that a law or a computed row no longer holds.

    python3 bench/wrong_definitions.py            all of them, a minute or two each
    python3 bench/wrong_definitions.py tail       those whose names have this word

Each change is made on a copy of the repository in a temporary folder. The definitions themselves must still check; then the
laws and rows named with the change must be refused. docs/PROMISES.md tells what each change means. RT may name another
command in the place of `rt`.
"""

import os
import pathlib
import re
import shutil
import subprocess
import sys
import tempfile

from wrong_rules import RULES

ROOT = pathlib.Path(__file__).resolve().parent.parent
RT = os.environ.get("RT", "rt").split()
ENTRIES = ["filters_hear_what_was_read"]
COMPOSED = "crates/plain_machine/proofs/Composed.antt"
OVER_RUNS = "-- what each step keeps holds over a run"
# These laws hold whatever the steps are, and don't use the lemma on what each step keeps: a wrong run would break it first.
OF_ANY_STEP = {
    "one_run_over_the_same_exchanges",
    "one_end_over_the_same_exchanges",
    "computed_runs_are_runs",
    "runs_are_computed",
}

# an insertion, and one that also extends the insertion behind a boundary
IN_FRONT = """abbrev pub in_front : Rec → ℕ → List Entry → List Entry
in_front r serial [] = record { what = r; serial = serial } ∷ []
in_front (Inserted from to) serial (e ∷ entries) = elim e.what [
"""
MERGED_BEHIND = """abbrev pub apart : (from to serial : ℕ) → Entry → List Entry → List Entry
apart from to serial e entries = record { what = Inserted from to; serial = serial } ∷ e ∷ entries

abbrev pub merged_behind : (from to serial : ℕ) → Entry → List Entry → List Entry
merged_behind from to serial e [] = apart from to serial e []
merged_behind from to serial e (f ∷ more) = elim f.what [
  | Inserted b p ↦ if p == from then e ∷ record f { what = Inserted b to } ∷ more else apart from to serial e (f ∷ more)
  | _ ↦ apart from to serial e (f ∷ more)
]

"""

# name, file, old text, new text, the laws that fail
CHANGES = [
    (
        "tail dropped at the end of the output",
        "plain_machine/specs/Waits.antt",
        "(more_characters (decoded x.coding (read_so_far x)) (all_decoded x.coding (read_so_far x)))",
        "(more_characters (decoded x.coding (read_so_far x)) (decoded x.coding (read_so_far x)))",
        ENTRIES,
    ),
    (
        "output entered once more at its end",
        "plain_machine/specs/Waits.antt",
        "(more_characters (decoded x.coding (read_so_far x)) (all_decoded x.coding (read_so_far x)))",
        "(all_decoded x.coding (read_so_far x))",
        ENTRIES,
    ),
    (
        "bytes of a read in the place of the earlier ones",
        "plain_machine/specs/Waits.antt",
        "(λ y. record y { bytes = Some (read_so_far x ++ bytes) })",
        "(λ y. record y { bytes = Some bytes })",
        ENTRIES,
    ),
    (
        "coding set although bytes were read",
        "plain_machine/specs/Calls.antt",
        "with_coding c x = elim x.bytes [ Some bytes ↦ x | None ↦ record x { coding = c } ]",
        "with_coding c x = record x { coding = c }",
        ["codings_stay", "filters_hear_what_was_read"],
    ),
    (
        "end asked before the output has ended",
        "plain_machine/specs/Waits.antt",
        "ask_next false s w target rest p x = Asks (Read x.child) (read_answer s w target rest p x)\n"
        "ask_next true s w target rest p x = Asks (AskEnd x.child) (end_answer s w target rest p x)",
        "ask_next false s w target rest p x = Asks (AskEnd x.child) (end_answer s w target rest p x)\n"
        "ask_next true s w target rest p x = Asks (Read x.child) (read_answer s w target rest p x)",
        ["ends_are_asked_after_output", "sentinels_come_after_output"],
    ),
    (
        "sentinel entered before the tail",
        "plain_machine/specs/Waits.antt",
        "(entry_of s p x (more_characters (decoded x.coding (read_so_far x)) (all_decoded x.coding (read_so_far x)))\n    (Wait w target ∷ rest))",
        "(Enter (OfSentinel p) x.sentinel (TheProcess p ∷ Str [] ∷ [])"
        " ∷ entry_of s p x (more_characters (decoded x.coding (read_so_far x)) (all_decoded x.coding (read_so_far x)))\n    (Wait w target ∷ rest))",
        ["sentinels_come_last", "sentinels_come_after_output"],
    ),
    (
        "sentinel of an ended process entered again",
        "plain_machine/specs/Waits.antt",
        "delete_running _ s p x rest = on s rest",
        "delete_running _ s p x rest = on s (Enter (OfSentinel p) x.sentinel (TheProcess p ∷ Str [] ∷ []) ∷ rest)",
        ["sentinels_come_last"],
    ),
    (
        "ended processes killed at the end",
        "plain_machine/specs/Waits.antt",
        "finish_running program _ s p x = on s (Finish (p + 1) ∷ [])",
        "finish_running program _ s p x = Asks (Kill x.child) (kill_answer (says program s (KilledLast p) s (Finish (p + 1) ∷ [])))",
        ["kills_come_once", "kills_are_left"],
    ),
    (
        "rounds that don't grow fewer",
        "plain_machine/specs/Waits.antt",
        "on s (Wait (record w { rounds = rounds; asking = p ∷ more }) target ∷ rest)",
        "on s (Wait (record w { rounds = suc rounds; asking = p ∷ more }) target ∷ rest)",
        ["runs_stop"],
    ),
    (
        "sends not counted",
        "plain_machine/specs/Calls.antt",
        "sent_answer s target rest size Sent =\n    Some (silent (record s { asked = s.asked + 1; sent = s.sent + size })",
        "sent_answer s target rest size Sent =\n    Some (silent (record s { sent = s.sent + size })",
        ["exchanges_stay_few"],
    ),
    (
        "buffer made although no child was started",
        "plain_machine/specs/Calls.antt",
        "spawned s target rest name b Answer.Refused =\n    Some (silent (record s { asked = s.asked + 1 })",
        "spawned s target rest name b Answer.Refused = Some (silent (record s { editor = with_process_buffer b s.editor; asked = s.asked + 1 })",
        ["refusals_leave_the_state"],
    ),
    (
        "hooks inside hooks",
        "plain_machine/specs/Forms.antt",
        "∷ saved_of s) s) { inhibited = true })\n    (bracket",
        "∷ saved_of s) s) { inhibited = false })\n    (bracket",
        ["handlers_stay_shallow", "runs_stop"],
    ),
    (
        "refused commit leaves its kept ends",
        "plain_machine/specs/Forms.antt",
        "after_commit new (Failed f) s c rest = on (popped s) (Refuse f ∷ rest)",
        "after_commit new (Failed f) s c rest = on s (Refuse f ∷ rest)",
        ["refusals_leave_the_state", "refused_calls_leave_the_state"],
    ),
    (
        "waits one level deeper than the bound",
        "plain_machine/specs/Refusals.antt",
        "must_nest bound s = refuse Nesting (nat_lt s.depth bound)",
        "must_nest bound s = refuse Nesting (nat_lt s.depth (bound + 1))",
        ["handlers_stay_shallow"],
    ),
    (
        "refused call keeps its new state",
        "editor_model/specs/Answers.antt",
        "applied_of (Some f) old new v = record { editor = old; reply = Refused f }",
        "applied_of (Some f) old new v = record { editor = new; reply = Refused f }",
        ["refusals_leave_the_state"],
    ),
    (
        "properties lost when a deletion is undone",
        "text_model/specs/Commit.antt",
        "let after : Site = inserted id place piece false false (set_point place site) in",
        "let after : Site = inserted id place (map (λ c. (c.0, [])) piece) false false (set_point place site) in",
        ["undoing_keeps_boundaries", "undo_returns"],
    ),
    (
        "insertion merged across a boundary",
        "text_model/specs/Undo.antt",
        IN_FRONT,
        MERGED_BEHIND + IN_FRONT + "  | Boundary ↦ merged_behind from to serial e entries\n",
        ["replacing_keeps_boundaries", "undo_returns"],
    ),
    (
        "pending records kept by another change",
        "text_model/specs/Undo.antt",
        "without_pending u = record u { pending_below = 0 }",
        "without_pending u = u",
        ["replacing_keeps_boundaries", "changing_properties_keeps_boundaries", "undo_returns"],
    ),
    (
        "cut list loses a record in its middle",
        "text_model/specs/Undo.antt",
        "if has_boundary entries then e ∷ without_oldest_group entries else []",
        "if has_boundary entries then without_oldest_group entries else []",
        ["replacing_keeps_boundaries", "undo_returns"],
    ),
]


def check(crate, *words):
    run = subprocess.run([*RT, "check", *words], cwd=crate, stdout=subprocess.PIPE, stderr=subprocess.STDOUT, text=True)
    return run.stdout


def is_row(refuser):
    return "." in refuser


def row_holds(log, row):
    """Whether the lemma of a computed row stands: no error names it."""
    file, lemma = row.split(".")
    return not re.search(rf"proofs/{file}\.antt:\d+:\d+: error: .*`{lemma}`", log)


def held(copy, refusers):
    """The laws and rows of these that hold all the same, or why nothing can be told of them. Rows are quicker to check."""
    laws = [r for r in refusers if not is_row(r)]
    rows = [r for r in refusers if is_row(r)]
    still = []
    if rows:
        log = check(copy / "crates" / "worked_rows")
        if re.search(r"^\S*specs/.* error:", log, re.M):
            return "a row doesn't check"
        still += [row for row in rows if row_holds(log, row)]
    for law in laws:
        log = check(copy / "crates" / "machine_laws", "--only", f"machine_laws::{law}")
        if re.search(r"^\S*specs/.* error:", log, re.M):
            return "a statement of a law doesn't check"
        tried = re.search(rf"^fn machine_laws::{law}: (.*)$", log, re.M)
        if not tried:
            return f"{law} wasn't tried"
        still += [law] if tried.group(1).startswith("proved") else []
    return "still held: " + ", ".join(still) if still else None


def refused(copy, file, old, new, refusers):
    """Nothing where all of these refuse the change, and else what is wrong with it."""
    path = copy / "crates" / file
    text = path.read_text()
    if text.count(old) != 1:
        return f"the text to change stands {text.count(old)} times in {file}"
    composed = copy / COMPOSED
    lemmas = composed.read_text()
    path.write_text(text.replace(old, new))
    if set(refusers) <= OF_ANY_STEP:
        composed.write_text(lemmas[: lemmas.index(OVER_RUNS)])
    try:
        return held(copy, refusers)
    finally:
        path.write_text(text)
        composed.write_text(lemmas)


def cut_down(copy):
    """Leave out the lemmas on how forms, calls and handlers end, which no law uses: they would break first."""
    path = copy / COMPOSED
    text = path.read_text()
    path.write_text(text[: text.index("-- THE FORMS OF A BODY")] + text[text.index(OVER_RUNS) :])


def main():
    words = sys.argv[1:]
    failed = 0
    with tempfile.TemporaryDirectory() as folder:
        copy = pathlib.Path(folder) / "copy"
        shutil.copytree(ROOT, copy, ignore=shutil.ignore_patterns("out", ".git"))
        cut_down(copy)
        for name, file, old, new, refusers in CHANGES + RULES:
            if words and not any(word in name for word in words):
                continue
            wrong = refused(copy, file, old, new, refusers)
            print(f"{'NOT REFUSED' if wrong else 'refused':12} {name}: {wrong or ', '.join(refusers)}", flush=True)
            failed += bool(wrong)
    return 1 if failed else 0


if __name__ == "__main__":
    sys.exit(main())
