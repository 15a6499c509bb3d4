"""Messages: sends, landings, answers and fetches, between events that are idle or refused.

Each credit of each send endpoint is spent once, and spread evenly, so about one event in six is part of a message.
"""
from journal import Journal

KIB = 1024
ACTIVITIES = 14
# Endpoints 0 to 6 of each activity receive, 7 to 13 send, 14 sends with a credit that is spent at once, 15 is free.
RECEIVING = 7
SPENT, FREE = 14, 15
SLOTS = CREDITS = 32
SIZE = 64


def home(act):
    return act + 2


def receiver(act, lane):
    """The activity that this activity sends to through its endpoint RECEIVING + lane; no two senders share an endpoint."""
    return (act + lane + 1) % ACTIVITIES


class Messages(Journal):
    def __init__(self):
        super().__init__()
        self.tokens, self.sent = {}, {}

    def message(self, act, ep, to, to_ep, label, payload):
        """One send, its landing, its answer and its fetch."""
        flight = self.flight(act)
        token = self.tokens.get((to, to_ep), 0)
        self.tokens[to, to_ep] = token + 1
        self.sent[act, ep] = self.sent.get((act, ep), 0) + 1
        self.event(f"do {act} send {ep} {payload}", f"flying {flight}")
        self.event(f"take {home(to)} {home(act)}", f"landed {flight}")
        self.event(f"take {home(act)} {home(to)}", f"answered {flight} sent")
        self.event(f"do {to} fetch {to_ep}", f"message {token} from {act} label {label} {payload}")


def label_of(act, lane):
    return 1000 * act + lane


def setup():
    """The journal before its first event, and (activity, endpoint, credits) for each send grant by its number."""
    made, receives, sends = Messages(), {}, {}
    for act in range(ACTIVITIES):
        made.line(f"act {act} tile {home(act)}")
    for act in range(ACTIVITIES):
        for ep in range(RECEIVING):
            receives[act, ep] = made.grant(f"recv {act} {ep} slots {SLOTS} size {SIZE}")
    for act in range(ACTIVITIES):
        for lane in range(RECEIVING):
            of = receives[receiver(act, lane), lane]
            text = f"send {act} {RECEIVING + lane} of {of} label {label_of(act, lane)} credits {CREDITS}"
            sends[made.grant(text)] = (act, RECEIVING + lane, CREDITS)
    of = receives[1, 0]
    sends[made.grant(f"send 0 {SPENT} of {of} label 1 credits 1")] = (0, SPENT, 1)
    return made, sends


def filler(made, n):
    """The n-th of the events that change nothing."""
    act = n % ACTIVITIES
    kind = n % 5
    if kind == 0:
        made.event(f"do {act} fetch {n % RECEIVING}", "none")
    elif kind == 1:
        made.event(f"do 0 send {SPENT} 00", "refused 2 no-credits")
    elif kind == 2:
        made.event(f"do {act} send {FREE} 00", "refused 1 no-endpoint")
    else:
        made.event(f"take {home(act)} {home((act + n) % ACTIVITIES)}", "idle empty-link")


def audit_of(made, sends):
    lines = []
    for grant in sorted(sends):
        act, ep, limit = sends[grant]
        sent = made.sent.get((act, ep), 0)
        lines.append(f"audit credit {grant} held {limit - sent} flying 0 queued {sent} limit {limit}")
    for tile in range(2, ACTIVITIES + 2):
        lines.append(f"audit tile {tile} act {tile - 2}")
    return [*lines, "audit flights 0", "audit quiet yes"]


def make(size):
    """A script of at most this many bytes, its journal's text, and the number of its events."""
    made, sends = setup()
    head = made.head()
    # One slot of the receiver at (1, 0) is for the message that spends the credit of endpoint SPENT.
    made.message(0, SPENT, 1, 0, 1, "00")
    rounds = [(act, lane, n) for n in range(CREDITS - 1) for lane in range(RECEIVING) for act in range(ACTIVITIES)]
    # a script of half the size has half the messages
    rounds = rounds[: len(rounds) * size // (KIB * KIB)]
    filled = 0
    for done, (act, lane, n) in enumerate(rounds):
        payload = bytes((act + 16 * lane + n + i) % 256 for i in range(16)).hex()
        made.message(act, RECEIVING + lane, receiver(act, lane), lane, label_of(act, lane), payload)
        while head + made.bytes < size * (done + 1) // len(rounds) - 100:
            filler(made, filled)
            filled += 1
    while head + made.bytes < size - 40:
        filler(made, filled)
        filled += 1
    script = made.script()
    assert size - 100 <= len(script) <= size, len(script)
    return script, made.text(audit_of(made, sends)), len(made.events)
