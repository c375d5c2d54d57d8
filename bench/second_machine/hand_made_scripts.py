"""Hand-made scripts: handlers beside narrowing, marks, read-only text and killed buffers; hooks beside changes."""
import itertools

from scripted_host import case

PIECES = (b"ab", b"cd", b"ef")
START = '(setq p (start-process "p" "out" "c"))'
WAIT = "(accept-process-output p)"
MARK = "(setq m (process-mark p))"
HELLO = '(set-buffer "out")(insert "hello")'
BEFORE = "(add-hook 'before-change-functions 'h)"
EVENTS = '(get-buffer-create "*events*")(set-buffer "*events*")'


def cases():
    return [*examples(), *note_sentinel(), *insert_filter(), *default_handlers(), *default_in_narrowing(),
            *read_only_output(), *killed_buffers(), *undo_beside_hooks(), *changes_beside_hooks()]


def examples():
    """Small scripts, one for each part of the machine."""
    filtered = "(defhandler f (p s))" + START + "(set-process-filter p 'f)"
    nested = "(defhandler f (p s) (accept-process-output p))" + START + "(set-process-filter p 'f)" + WAIT
    return [
        case("marker types", '(insert "abcd")(copy-marker 2)(copy-marker 2 t)(goto-char 2)(insert "xy")'),
        case("adjacent overlays", '(insert "abcd")(make-overlay 1 3)(make-overlay 3 5)(goto-char 3)'
             '(insert-before-markers "xy")'),
        case("empty overlays", '(insert "abcd")(make-overlay 3 3 nil nil nil)(make-overlay 3 3 nil nil t)'
             '(make-overlay 3 3 nil t t)(make-overlay 3 3 nil t nil)(goto-char 3)(insert "xy")'),
        case("stickiness", '(insert #("ab" 0 1 (face bold rear-nonsticky (face)) 1 2 (face italic front-sticky t)))'
             '(goto-char 2)(insert-and-inherit "x")'),
        case("evaporation", "(insert \"abcd\")(setq o (make-overlay 2 4))(overlay-put o 'evaporate t)"
             "(setq q (make-overlay 1 3))(overlay-put q 'evaporate t)(delete-region 2 4)"),
        case("change in a hook", '(defhandler h (b e) (delete-region 1 2))(insert "abcd")' + BEFORE +
             "(delete-region 3 4)"),
        case("kill in a hook", '(defhandler h (b e) (kill-buffer))(get-buffer-create "w")(set-buffer "w")'
             '(insert "ab")(setq m (point-marker))(make-overlay 1 2)' + BEFORE + '(insert "c")(marker-buffer m)'),
        case("fault in a hook", "(defhandler h (b e) (goto-char unset))" + BEFORE + '(insert "a")(insert "b")'),
        case("split character", filtered + WAIT + WAIT + WAIT, (b"\xe2", b"\x82", b"\xac")),
        case("unfinished character", filtered + "(set-process-sentinel p 'f)" + WAIT + WAIT, (b"\xe2\x82",)),
        case("line ends", filtered + "(set-process-coding-system p 'utf-8-dos)" + WAIT + WAIT +
             "(set-process-coding-system p 'latin-1-unix)" + WAIT, (b"a\r", b"\nb\r")),
        case("nested waits", nested, (b"a", b"b")),
        case("nesting too deep", nested, (b"a",) * 17),
        case("filter off", START + "(set-process-filter p t)" + WAIT + "(set-process-filter p nil)" + WAIT,
             (b"ab",)),
        case("undo and redo", "(insert \"abcd\")(undo-boundary)(insert \"xy\")(put-text-property 1 3 'face 'bold)"
             "(delete-region 2 4)(undo-boundary)" + "(undo-start)(undo-more 2)(buffer-string)(undo-boundary)" * 2),
        case("undo outside", '(insert "abcd")(undo-start)(narrow-to-region 1 2)(undo-more 1)'),
        case("marker in a deletion", '(insert "abcd")(copy-marker 3)(undo-boundary)(delete-region 2 4)'
             "(buffer-undo-list)"),
        case("priority", "(insert #(\"abcd\" 0 4 (face plain)))(setq a (make-overlay 1 5))(overlay-put a 'face 'outer)"
             "(setq b (make-overlay 2 4))(overlay-put b 'face 'inner)(get-char-property 2 'face)"
             "(overlay-put a 'priority 1)(get-char-property 2 'face)(get-char-property 5 'face)"),
        case("read-only text", "(insert \"abcd\")(put-text-property 2 3 'read-only t)(delete-region 1 3)(goto-char 3)"
             '(insert "x")(goto-char 2)(insert "y")(set-buffer-read-only t)(insert "z")'
             '(inhibit-read-only (insert "w"))(buffer-read-only-p)'),
    ]


def note_sentinel():
    watched = START + "(set-process-sentinel p 'note-sentinel)(accept-process-output)"
    many = "".join(f'(get-buffer-create "x{number}")' for number in range(255))
    scripts = {
        "read-only": EVENTS + '(insert "xy")(set-buffer-read-only t)' + watched,
        "narrowed": EVENTS + '(insert "xyz")(narrow-to-region 1 3)' + watched,
        "hidden by the script": "(defhandler note-sentinel (p s) (insert s))" + watched,
        "killed by a hook": '(defhandler h () (kill-buffer "*events*"))' + EVENTS + BEFORE + watched,
        "no buffer left": many + watched.replace('"out"', "nil"),
    }
    return [case(f"note-sentinel: {name}", script, ()) for name, script in scripts.items()]


def insert_filter():
    filtered = START + "(set-process-filter p 'insert-filter)"
    marked = filtered + HELLO + MARK
    hooked = filtered + '(set-buffer "out")' + BEFORE + WAIT + WAIT
    scripts = {
        "killed buffer": filtered + '(kill-buffer "w")(get-buffer-create "z")' + MARK +
        '(set-process-buffer p "z")(kill-buffer "z")' + WAIT,
        "no buffer": filtered.replace('"out"', "nil") + WAIT,
        "no mark": filtered + MARK + "(set-marker m nil)" + WAIT,
        "point after the mark": marked + "(set-marker m 3)" + WAIT + WAIT + "(goto-char 1)" + WAIT,
        "point at the mark": marked + "(set-marker m 3)(goto-char 3)" + WAIT + WAIT,
        "mark after the narrowing": marked + "(set-marker m 5)(narrow-to-region 2 3)" + WAIT + WAIT,
        "mark before the narrowing": marked + "(set-marker m 1)(narrow-to-region 2 4)(goto-char 4)" + WAIT + WAIT,
        "mark in another buffer": marked + '(set-buffer "*scratch*")(insert "abcdefghijk")(set-marker m 9)'
        '(set-buffer "out")(goto-char 2)' + WAIT + WAIT,
        "read-only": filtered + '(set-buffer "out")(set-buffer-read-only t)' + WAIT +
        "(inhibit-read-only " + WAIT + ")",
        "hook that kills": '(defhandler h (b e) (kill-buffer "out"))' + hooked,
        "hook that inserts": '(defhandler h (b e) (insert "zz")(goto-char 1))' + hooked,
    }
    return [case(f"insert-filter: {name}", script, PIECES) for name, script in scripts.items()]


def default_handlers():
    hooked = '(set-buffer "out")' + BEFORE + WAIT + WAIT + "(process-buffer p)(process-status p)"
    other = '(get-buffer-create "k")(setq k (get-buffer "k"))'
    scripts = {
        "killed by name": START + '(set-process-buffer p "*scratch*")(kill-buffer "*scratch*")' + WAIT + WAIT,
        "killed by handle": START + other + "(set-process-buffer p k)(kill-buffer k)(process-buffer p)" + WAIT + WAIT,
        "another process": other + '(setq q (start-process "q" nil "c"))' + START +
        '(kill-buffer "out")(process-list)(accept-process-output)(process-buffer p)',
        "hook that kills": '(defhandler h (b e) (kill-buffer "out"))' + START + hooked,
        "hook that kills after another buffer is set":
        '(defhandler h (b e) (set-process-buffer p nil)(kill-buffer "out"))' + START + hooked,
        "hooks that move the mark": '(defhandler h (b e) (set-marker m 1)(insert "Q"))' + START + MARK + HELLO +
        "(set-marker m 4)" + BEFORE + "(add-hook 'after-change-functions 'h)" + WAIT + WAIT,
    }
    return [case(f"default: {name}", script, PIECES, PIECES) for name, script in scripts.items()]


def default_in_narrowing():
    """Output at a mark and with point before, in and after the accessible part."""
    spans = ((1, 1), (1, 3), (2, 4), (3, 3), (4, 6), (6, 6))
    made = []
    for (start, end), mark, point in itertools.product(spans, (1, 3, 6), (1, 3, 6)):
        script = (START + MARK + HELLO + f"(set-marker m {mark})(narrow-to-region {start} {end})(goto-char {point})" +
                  WAIT + f"(point)(save-excursion (goto-char {mark})" + WAIT +
                  "(point))(point)(delete-process p)(widen)(buffer-undo-list)")
        made.append(case(f"default: narrowed {start} {end}, mark {mark}, point {point}", script, PIECES))
    return made


def read_only_output():
    fixed = START + '(set-buffer "out")(insert #("hello" 0 5 (%s)))' + MARK
    plain, sticky = fixed % "read-only t", fixed % "read-only t front-sticky t rear-nonsticky t"
    scripts = {
        "buffer": START + '(set-buffer "out")(set-buffer-read-only t)' + WAIT + '(insert "z")' + WAIT,
        "text": plain + "(set-marker m 3)" + WAIT + "(inhibit-read-only " + WAIT + ")(set-marker m 1)" + WAIT +
        "(delete-process p)",
        "narrowed text": plain + "(set-marker m 6)(narrow-to-region 1 2)" + WAIT + "(narrow-to-region 1 6)" + WAIT +
        "(narrow-to-region 1 5)" + WAIT + "(delete-process p)",
        "sticky text": sticky + "(set-marker m 6)" + WAIT + "(set-marker m 1)" + WAIT + "(set-marker m 3)" + WAIT +
        "(narrow-to-region 2 4)(set-marker m 1)" + WAIT,
    }
    return [case(f"default: read-only {name}", script, (b"a",) * 6) for name, script in scripts.items()]


def killed_buffers():
    """A buffer with three processes is killed, and a sentinel interferes."""
    start = "".join(f'(setq {name} (start-process "{name}" "out" "c"))' for name in "pqr")
    interference = (
        "", "(delete-process r)", '(kill-buffer "out")', "(set-process-buffer r nil)",
        '(setq z (start-process "z" "out" "c"))', "(set-process-sentinel r nil)",
        '(set-buffer "out")(kill-buffer)', "(goto-char unset)", '(kill-buffer "out")(get-buffer-create "out")',
        '(set-buffer "out")(rename-buffer "zz")')
    made = []
    for forms, current in itertools.product(interference, ("*scratch*", "out")):
        script = (f"(defhandler h (p s) (current-buffer){forms})" + start +
                  f"(set-process-sentinel p 'h)(set-process-sentinel r 'h)(set-buffer \"{current}\")" + MARK +
                  "(setq b (process-buffer p))(kill-buffer b)(process-list)(process-status r)(buffer-list)"
                  "(current-buffer)")
        made.append(case(f"kill-buffer in {current}: {forms}", script, (), (), (), (), failing=(4,)))
    return made


def undo_beside_hooks():
    """Hook functions interfere with an undo, before it and after it."""
    changes = '(insert "abcdef")(undo-boundary)(delete-region 2 4)(undo-boundary)(insert "XY")(undo-boundary)'
    interference = (
        '(insert "h")', "(undo-start)", '(insert "h")(undo-start)', "(buffer-disable-undo)",
        "(buffer-disable-undo)(buffer-enable-undo)", "(narrow-to-region 1 1)", "(kill-buffer)", "(undo-more 1)",
        "(undo-more 9)", "(goto-char unset)", "(undo-boundary)(undo-start)",
        '(insert "h")(undo-boundary)(undo-start)', "(erase-buffer)(undo-start)", "(set-buffer-read-only t)",
        "(widen)(goto-char 3)")
    made = []
    for forms, groups in itertools.product(interference, (1, 2, 3, 9)):
        handlers = f"(defhandler h (b e n) {forms})(defhandler g (b e n) (buffer-string))" + changes
        before = (BEFORE + "(add-hook 'after-change-functions 'g)(undo-start)(undo-more 1)"
                  f"(undo-more {groups})(inhibit-hooks (undo-more 1))")
        after = ("(add-hook 'after-change-functions 'g)(add-hook 'after-change-functions 'h)(undo-start)"
                 f"(undo-more {groups})(undo-more 1)")
        for when, hooks in (("before", before), ("after", after)):
            script = handlers + hooks + "(buffer-undo-list)(buffer-string)"
            made.append(case(f"{forms} {when} an undo of {groups}", script))
    return made


def changes_beside_hooks():
    """Each kind of change, while a hook before it does something to the text, the bounds or the buffer."""
    changes = (
        "(delete-region 2 4)", "(delete-and-extract-region 2 4)", "(put-text-property 2 4 'face 'x)",
        "(add-text-properties 2 4 '(face x n 1))", "(remove-text-properties 2 4 '(k nil))",
        "(set-text-properties 2 4 '(n 3))", "(erase-buffer)", '(insert "Z")', '(insert-before-markers "Z")',
        '(insert-and-inherit "Z")', '(insert-buffer-substring "w" 1 3)')
    interference = (
        "(delete-region 1 5)", "(delete-region 2 4)", "(erase-buffer)", "(put-text-property 1 5 'face 'x)",
        "(set-text-properties 1 6 nil)", "(set-text-properties 1 6 '(n 3))", '(goto-char 3)(insert "mm")',
        '(goto-char 2)(insert "mm")', '(goto-char 4)(insert-before-markers "mm")', "(narrow-to-region 1 2)",
        "(narrow-to-region 5 5)", '(set-buffer "w")', "(set-buffer-read-only t)", "(undo-start)",
        "(buffer-disable-undo)", "(set-buffer-modified-p nil)",
        "(save-restriction (narrow-to-region 2 3)(erase-buffer))",
        "(remove-hook 'before-change-functions 'h)(remove-hook 'after-change-functions 'g)", '(kill-buffer "w")',
        "(put-text-property 1 3 'read-only t)", '(insert-buffer-substring "*scratch*" 1 3)')
    made = []
    for change, forms in itertools.product(changes, interference):
        script = ('(get-buffer-create "w")(set-buffer "w")(insert "wwww")(set-buffer "*scratch*")'
                  f"(defhandler h (b e) {forms})(defhandler g (b e n) (point))"
                  '(insert #("abcdef" 0 3 (k 1) 3 6 (face y)))(copy-marker 3)(copy-marker 3 t)(goto-char 3)'
                  "(undo-boundary)(narrow-to-region 1 6)(undo-start)" + BEFORE +
                  "(add-hook 'after-change-functions 'g)" + change +
                  "(undo-more 1)(widen)(inhibit-hooks (undo-more 1))(buffer-undo-list)")
        made.append(case(f"{change} beside {forms}", script))
    return made
