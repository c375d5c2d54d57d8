"""The shrinker: drops forms from a script, outer ones first, while the difference stays."""
import re

MOST_TRIES = 400
# A string, or a parenthesis outside of strings.
MARK = re.compile(rb'"(?:[^"\\]|\\.)*"?|[()]', re.DOTALL)


def forms(script):
    """For each form: the depth of its opening parenthesis, where it starts, and where it ends."""
    found, opened = [], []
    for mark in MARK.finditer(script):
        if mark.group() == b"(":
            opened.append(mark.start())
        elif mark.group() == b")" and opened:
            found.append((len(opened) - 1, opened.pop(), mark.end()))
    return found


class Shrinker:
    def __init__(self, differs):
        self.differs = differs
        self.tries = 0

    def still_differs(self, script):
        self.tries += 1
        return self.tries <= MOST_TRIES and self.differs(script)

    def shrink(self, script):
        return self.drop_inner(self.drop_outer(script))

    def drop_outer(self, script):
        """Drops runs of top-level forms: halves of them first, single ones last."""
        kept = [script[start:end] for depth, start, end in sorted(forms(script)) if depth == 0]
        if not self.still_differs(b"\n".join(kept)):
            return script
        size = (len(kept) + 1) // 2
        while size > 0:
            kept = self.drop_runs(kept, size)
            size //= 2
        return b"\n".join(kept)

    def drop_runs(self, kept, size):
        place = 0
        while place < len(kept):
            fewer = kept[:place] + kept[place + size:]
            if self.still_differs(b"\n".join(fewer)):
                kept = fewer
            else:
                place += size
        return kept

    def drop_inner(self, script):
        """Drops inner forms, the longest first, and starts anew after each that could go."""
        inner = sorted((start - end, start, end) for depth, start, end in forms(script) if depth > 0)
        for _, start, end in inner:
            fewer = script[:start] + script[end:]
            if self.still_differs(fewer):
                return self.drop_inner(fewer)
        return script
