"""The journal of a run: a line for each exchange with a host, and then the script."""


class RecordingHost:
    """Keeps each exchange that another host answers."""

    def __init__(self, host):
        self.host = host
        self.exchanges = []

    def __call__(self, asked):
        answer = self.host(asked)
        self.exchanges.append((asked, answer))
        return answer

    def journal(self, script):
        lines = "".join(exchange_line(asked, answer) for asked, answer in self.exchanges)
        return lines.encode("ascii") + b"script\n" + script


def exchange_line(asked, answer):
    kind, *details = asked
    if kind == "spawn":
        program, arguments = details
        details = [word.hex() or "-" for word in (program, *arguments)]
    return f"{words(kind, *details)} -> {words(*answer)}\n"


def words(*parts):
    return " ".join(part.hex() if isinstance(part, bytes) else str(part) for part in parts)
