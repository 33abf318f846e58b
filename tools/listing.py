"""A listing, as the schedule program prints it, read one event at a time."""


class Event:
    """A line of the listing. `grant` says whether it gave the free word to a port."""

    __slots__ = ("number", "letter", "port", "answer", "point", "taken", "owner", "spin", "cached", "distributed", "grant")

    def __init__(self, line, taken):
        """The line's event; before it the word was taken or not."""
        number, self.letter, port, answer, point, _, word, cached, distributed = line.rstrip("\n").split(" ")
        self.number, self.port, self.answer = int(number), int(port), int(answer)
        self.point = None if point == "-" else int(point)
        self.taken, self.owner, self.spin = map(int, word.split("."))
        self.cached, self.distributed = int(cached), int(distributed)
        self.grant = self.taken == 1 and not taken


class Listing:
    """The events of a listing, from a fresh table on. Read to its end, `bad` is the malformed line that ended it, if one did."""

    def __init__(self, lines):
        self.lines, self.bad = lines, None

    def __iter__(self):
        number, taken = 0, 0
        for line in self.lines:
            if self.bad is not None:
                raise ValueError("a line after BAD")
            try:
                if line.startswith("BAD "):
                    self.bad = int(line[4:])
                    continue
                event = Event(line, taken)
            except ValueError:
                raise ValueError(f"no line of a listing, as ./run prints it: {line.rstrip()}") from None
            number, taken = number + 1, event.taken
            if event.number != number:
                raise ValueError(f"event {event.number} stands where {number} should: a listing is read from its first line on")
            yield event
