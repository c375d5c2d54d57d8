"""Changes of a few bytes that leave a script well made, or else make the reader refuse it at some line."""
import random

TOKENS = (
    b"(", b")", b'"', b"'", b"#(", b" ", b"\n", b";", b"\\", b"nil", b"t", b"-", b"1", b"1234567890123456789", b"\\400",
    b"\\12", b"'()", b"()", b"(a b)", b"\xff", b"\xc3\xa9", b"setq", b"(setq x (point))", b"(point)", b".", b"a" * 65,
    b"a" * 64, b"-5", b'#("ab" 1 0 (a b))', b'#("ab" 0 1 (a b) 0 2 (c d))', b'#("ab" 0 1 (a b)1 2(c d))', b"\\q",
    b"\x00", b"\r", b"(defhandler h0 () )", b"(defhandler default ())", b"'5", b"' x", b"# (", b"(defhandler zz (a a))",
    b"12a", b"'(a 1 (b c))", b"-0", b"--1", b"(when-eq 1 1)", b"(insert)", b"(save-excursion)", b"'((a))", b"'((1))",
    b"'(nil t)", b"'(() a)", b'#("a" 0 1 ())', b'#("a" 0 1 nil)', b'#("a" 0 1 (a))', b'#("a" 0 1 (a b a c))',
    b"(defhandler yy (a b c d e f g h))", b"(defhandler xx (a b c d e f g h i))", b"(inhibit-read-only)",
    b"(inhibit-hooks", b"(Point)", b"(setq t (point))", b"(setq a b)", b"(setq a (setq b (point)))", b"(when-eq x)",
    b"(insert \"a\"'b)", b'(insert"a""b")', b'(goto-char 1"a")', b";c\n", b";")
TELLING_BYTES = b"()\"'#; \n-at1"


def changed(script, seed):
    chance = random.Random(f"{seed} bytes")
    data = bytearray(script)
    for _ in range(chance.choice((1, 1, 1, 2, 3))):
        change_once(data, chance)
    return bytes(data)


def change_once(data, chance):
    """Drops a byte or a few, puts in a token, or puts another byte in the place of one."""
    place = chance.randrange(len(data) + 1)
    kind = chance.choice(("drop", "token", "token", "drop some", "replace"))
    if kind == "token":
        data[place:place] = chance.choice(TOKENS)
    elif kind == "replace":
        data[place:place + 1] = bytes([chance.choice([*TELLING_BYTES, chance.randrange(256)])])
    else:
        size = 1 if kind == "drop" else chance.randrange(1, 6)
        del data[place:place + size]
