"""Hand-made scripts at the limits: of scripts, names, buffers, processes, nesting and exchanges."""
from scripted_host import case

SIZE = 1_048_576
NAME = "a" * 256
FILL_BUFFERS = "".join(f'(get-buffer-create "x{number}")' for number in range(255))
WAIT = "(accept-process-output p)"

# Pieces of scripts, each at an edge of what is well made.
PIECES = r"""
(insert "a\40")
(insert "\400")
(insert "\377\200\177")
(insert "\8")
(insert "a
(insert "\
;x
(goto-char '5)
(insert ' "a")
(point);
(point)x
)
(
()
( point )
(insert # ("a"))
(insert #( "a" ))
(insert #("a" 0 1 (a b) ))
(insert #("a" 0 1 '(a b)))
(insert #("a" 0 1))
(insert #("a" 0 0 (a b)))
(insert #("ab" 1 2 (a b) 0 1 (a b)))
(insert #("ab" 0 1 (a b) 1 2 (a (b c) d ())))
(insert #("ab" 0 1 (a b) 1 3 (a b)))
(insert #("ab" -0 1 (a b)))
(insert #("ab" 0 1 (t b)))
(insert #("ab" 0 1 (a t nil b)))
(insert #("ab" 0 1 (a #("x"))))
(when-eq 'a 'a (point))
(when-eq a)
(defhandler nil ())
(defhandler t ())
(defhandler a (t))
(defhandler a (nil))
(defhandler a)
(defhandler a ()
(defhandler a b (point))
(save-excursion (defhandler a ()))
(setq a (save-excursion))
(setq (point))
(setq a)
(setq a 1)
(setq a (point) (point))
point
(POINT)
(point 1)
(goto-char)
(insert "a"1)
(goto-char 1.5)
(goto-char +1)
(goto-char 1-)
(goto-char -)
(goto-char a-)
(goto-char -a)
(goto-char a_b)
(goto-char é)
(goto-char "é")
(goto-char '(a . b))
(goto-char '(a 'b))
(goto-char '((a) (b c) () 1 "x" t nil))
(goto-char '((a (b))))
(goto-char '((nil)))
(insert-buffer-substring "a" 1 2 3)
(make-overlay 1 2 nil nil nil nil)
(start-process "a" nil)
(inhibit-read-only)(inhibit-hooks)(save-excursion)(save-restriction)(save-current-buffer)
(goto-char''a)
(when-eq'a'a(point))
(when-eq()())
(when-eq 1-1 0)
(when-eq"a""a"(point))
(setq insert (point))(goto-char insert)
(defhandler setq (insert) (goto-char insert))(add-hook 'before-change-functions 'setq)(insert "a")
(goto-char 999999999999999999)(goto-char -999999999999999999)(goto-char 000000000000000001)(goto-char -0)
(goto-char 0000000000000000001)
""".strip().split("\n")

# Pieces that hold newlines or bytes that the list above cannot.
RAW_PIECES = (
    b";x\n(point", b"(point;c\n)", b"(setq a;\n(;\npoint;)\n));(", b"\x0c(point)", b"\r\t(point)\r",
    b'(insert "\r\t\n")', b"\n\n(point)\n;c\n\n(poin)\n", b"\n(point)\n\n;x\n (point) (",
    b'(insert "\x00")', b'(insert "\xe9")',
    b"(goto-char \xe9)")


def cases():
    return [*pieces(), *script_limits(), *word_limits(), *script_sizes(), *buffer_limits(), *name_limits(),
            *process_limits(), *nesting_limits(), *exchange_limits()]


def pieces():
    texts = [*(piece.encode("utf-8") for piece in PIECES), *RAW_PIECES]
    return [case(f"piece {text!r}", text) for text in texts]


def script_limits():
    """One below or at each limit, and one past it."""
    registers = "\n".join(f"(setq r{number} (point))" for number in range(256))
    assignment = "(setq a (point))"
    made = []
    for count in (256, 257):
        nested = f"(save-excursion {assignment * (count - 2)}(when-eq 1 1))"
        scripts = {
            "handlers": "\n".join(f"(defhandler h{number} ())" for number in range(count)),
            "void variables": "\n".join(f"(when-eq r{number} nil)" for number in range(count)),
            "forms of a handler": f"\n(defhandler h () {assignment * count})",
            "nested forms of a handler": f"\n(defhandler h () {nested})",
        }
        made += [case(f"{count} {name}", script) for name, script in scripts.items()]
    for depth in (16, 17):
        made.append(case(f"{depth} blocks", "\n" + "(when-eq 1 1 " * depth + "(point)" + ")" * depth))
        blocks = "(save-restriction " * depth + assignment + ")" * depth
        made.append(case(f"{depth} blocks of a handler", f"\n(defhandler h () {blocks})"))
    made.append(case("256 registers", registers + "(goto-char r0)"))
    made.append(case("257 registers", registers + "\n(goto-char q)"))
    made.append(case("256 registers and a parameter", registers + "\n(defhandler h (q) (goto-char q)(setq q (point)))"))
    made.append(case("300 forms in a block", f"(save-excursion {'(point)' * 300})"))
    return made


def word_limits():
    made = []
    for count in (64, 65):
        made.append(case(f"{count} strings", "(insert" + ' "a"' * count + ")"))
        made.append(case(f"{count} words of a process", "(start-process" + ' "a"' * count + ")", ()))
        made.append(case(f"a name of {count} letters", f"(setq {'a' * count} (point))"))
    for count in (8, 9):
        made.append(case(f"{count} parameters", f"(defhandler h ({' '.join('abcdefghi'[:count])}))"))
    return made


def script_sizes():
    return [case("the longest script", "(point)" + " " * (SIZE - 7)),
            case("one byte too long", "(point)" + " " * (SIZE - 6)),
            case("the longest script, not well made", "(poin" + "\n" * (SIZE - 5))]


def buffer_limits():
    """No more buffers can be made, and none can be killed that must be replaced."""
    kill_all = "".join(f'(kill-buffer "x{number}")' for number in range(255))
    kill_but_first = kill_all.replace('(kill-buffer "x0")', "")
    watched = '(setq p (start-process "p" "*scratch*" "c"))(set-process-sentinel p \'h)(kill-buffer "*scratch*")'
    told = "(process-status p)(buffer-list)(process-list)(kill-buffer)"
    start = '(start-process "a" "new" "b")(start-process "a" "x1" "b")(start-process "a" nil "b")'
    return [
        case("256 buffers", FILL_BUFFERS + '(get-buffer-create "y")(generate-new-buffer "z")(get-buffer-create "x3")'
             '(kill-buffer "x3")(get-buffer-create "x3")(buffer-list)' + start +
             '(rename-buffer "k")(current-buffer)', *[[b""]] * 9),
        case("the last of 256 buffers", FILL_BUFFERS + kill_all +
             '(kill-buffer)(buffer-list)(kill-buffer "*scratch*")(kill-buffer "x1")'),
        case("a sentinel kills all other buffers", '(defhandler h (p s) (kill-buffer "x0")(buffer-list))' +
             FILL_BUFFERS + kill_but_first + watched + told, [b""]),
    ]


def name_limits():
    long = (f'"{NAME}"', f'"{NAME}b"', f'"{NAME}<2>"')
    calls = ("get-buffer-create", "generate-new-buffer", "get-buffer", "set-buffer", "rename-buffer")
    scripts = "".join(f"({call} {name})" for call in calls for name in long)
    processes = "".join(f'(start-process {name} {buffer} "c")' for name in long for buffer in (*long, "nil"))
    return [case("longest names", scripts + processes + "(process-list)(buffer-list)", *[[b""]] * 16)]


def process_limits():
    start = '(start-process "p" nil "c")'
    return [
        case("256 processes", start * 258 + '(process-list)(delete-process "p<4>")' + start +
             "(accept-process-output nil 1)", *[()] * 260),
        case("names of processes", start * 6 + '(delete-process "p<2>")(delete-process "p")' + start * 3 +
             '(start-process "p<1>" nil "c")(process-list)(delete-process "p<1>")(process-name "p<1><1>")',
             *[()] * 260),
    ]


def nesting_limits():
    """Handlers nest to the limit: waits, deletions and kills are refused there, and hooks still run."""
    children = '(setq p (start-process "p" nil "c"))(setq o (start-process "q" "out" "c"))(set-process-filter p \'f)'
    hook = "(defhandler g (b e) (accept-process-output p 1)(point))(add-hook 'before-change-functions 'g)"
    bodies = {
        "everything": f'(insert "k"){WAIT}(delete-process o)(kill-buffer "out")(insert s)',
        "deletion": f"{WAIT}(delete-process o)",
        "killing": f'{WAIT}(kill-buffer "out")(kill-buffer "none")',
        "any child": "(accept-process-output)",
    }
    return [case(f"nested {name}", f'(defhandler f (p s) {body}){hook}(get-buffer-create "none"){children}{WAIT}',
                 [b"a"] * 20, [b"b"] * 8)
            for name, body in bodies.items()]


def exchange_limits():
    """The last exchange is made, and the next is refused."""
    script = ('(setq p (start-process "c" nil "cat"))' + "(accept-process-output p 1000)" * 65 +
              '(accept-process-output p 534)(process-send-eof p)(process-send-string p "x")(delete-process p)' +
              WAIT + '(start-process "d" nil "e")')
    return [case("one exchange left", script, [b""] * 65_535)]
