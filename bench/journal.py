"""A script that is made line by line, with the journal that it has to give."""


class Journal:
    """A script, and the journal that it has to give."""

    def __init__(self):
        self.setup = ["machine tiles 16 memory 4096"]
        self.grants = []
        self.events, self.entries = [], []
        self.bytes = 0
        self.flights = {}

    def line(self, text):
        self.setup.append(text)

    def grant(self, text):
        self.line(text)
        self.grants.append(text)
        return len(self.grants)

    def flight(self, act):
        """The name of this activity's next flight."""
        self.flights[act] = self.flights.get(act, 0) + 1
        return f"{act}.{self.flights[act]}"

    def event(self, text, outcome):
        self.events.append(text)
        self.entries.append(f"{text}: {outcome}")
        self.bytes += len(text) + 1

    def script(self):
        return "\n".join([*self.setup, "begin", *self.events, ""]).encode()

    def text(self, audit):
        return "\n".join(["m3x journal 1", *self.setup, "begin", *self.entries, "end", *audit, ""]).encode()

    def head(self):
        """How many bytes stand before the first event."""
        return len("\n".join([*self.setup, "begin", ""]))
