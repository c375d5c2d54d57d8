"""A host whose answers come from a seed: the same asks, counted by kind and child, get the same answers."""
import collections
import random

# Bytes of output: whole characters, parts of them, and what belongs to none.
PIECES = (
    b"a", b"xy", b"\xe2\x82\xac", b"\xe2", b"\x82", b"\xac", b"\xf0\x9d", b"\x84\x9e", b"\xc3", b"\xa9", b"\r", b"\n",
    b"\r\n", b"\xff", b"\xed\xa0\x80", b"\xf4\x90\x80", b"\xc0\x80", b"\xe0\x80", b"\xed", b"\xf4\x8f", b"\xf0\x80",
    b"A", b"\x00", b"hello\n", b"\r\r\n", b"\xe0\xa0", b"\xf1\x80\x80", b"\xc2\r", b"\xe2\x82\r\n", b'"\\')
EXIT_CODES = (1, 3, 255, -1, -2147483648, 2147483647)
MOST_RUNNING = 5


class RandomHost:
    """After so many reads a child's output ends; the share tells how many of them bring bytes."""

    def __init__(self, seed):
        chance = random.Random(f"{seed} reads")
        self.seed = seed
        self.most_reads = chance.choice((2, 4, 8, 24, 40))
        self.share = chance.choice((0.5, 0.7, 0.8))
        self.counts = collections.Counter()
        self.started = 0

    def __call__(self, asked):
        kind = asked[0]
        key = (kind,) if kind == "spawn" else asked[:2]
        count = self.counts[key]
        self.counts[key] += 1
        chance = random.Random(f"{self.seed} {key} {count}")
        return getattr(self, kind)(chance, count)

    def spawn(self, chance, _count):
        if chance.random() < 0.06:
            return ("refused",)
        self.started += 1
        return "started", self.started - 1

    def read(self, chance, count):
        share = chance.random()
        if count >= self.most_reads:
            return ("end",)
        if share < self.share:
            return "bytes", self.output(chance)
        if share < self.share + 0.2:
            return ("nothing",)
        return (chance.choice(("end", "end", "end", "end", "failed")),)

    @staticmethod
    def output(chance):
        output = b"".join(chance.choice(PIECES) for _ in range(chance.choice((1, 1, 1, 2, 3))))
        if chance.random() < 0.01:
            return (output * 4096)[:chance.choice((4096, 4095, 4094))]
        return output

    @staticmethod
    def end(chance, count):
        share = chance.random()
        if share < 0.25 and count < MOST_RUNNING:
            return ("running",)
        if share < 0.75:
            return "code", 0 if share < 0.55 else chance.choice(EXIT_CODES)
        return ("signal",) if share < 0.9 else ("failed",)

    @staticmethod
    def send(chance, _count):
        return (chance.choice(("sent", "sent", "sent", "sent", "broken")),)

    @staticmethod
    def close(_chance, _count):
        return ("closed",)

    @staticmethod
    def kill(chance, _count):
        return (chance.choice(("killed", "killed", "killed", "killed", "failed")),)
