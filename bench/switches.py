"""Tiles that are switched there and back, and a message that finds its reader away each time."""
from journal import Journal

SENDERS = 7
SHARING = 8


def reader(sender):
    """The first of the activities that share the tile that this sender's messages go to."""
    return SENDERS + SHARING * sender


def make(size):
    """A script of at most this many bytes, its journal's text, and the number of its events."""
    made, sends = Journal(), {}
    for act in range(SENDERS):
        made.line(f"act {act} tile {act + 2}")
    for act in range(SENDERS, SENDERS + SHARING * SENDERS):
        made.line(f"act {act} tile {2 + SENDERS + (act - SENDERS) // SHARING}")
    for sender in range(SENDERS):
        of = made.grant(f"recv {reader(sender)} 0 slots 2 size 64")
        sends[sender] = made.grant(f"send {sender} 0 of {of} label {sender} credits 2")
    head, n, longest = made.head(), 0, 0
    while head + made.bytes + longest < size:
        sender, token, before = n % SENDERS, n // SENDERS, made.bytes
        here, there, grant = reader(sender), sender + 2, sends[sender]
        tile, other = 2 + SENDERS + sender, here + 1 + token % (SHARING - 1)
        text = bytes([n % 256] * 16).hex()
        made.event(f"switch {tile} {other}", f"save {here}")
        made.event(f"take {tile} 0", f"saving {here}")
        made.event(f"take 0 {tile}", f"saved {here} restore {other}")
        made.event(f"take {tile} 0", f"current {other}")
        flight = made.flight(sender)
        made.event(f"do {sender} send 0 {text}", f"flying {flight}")
        made.event(f"take {tile} {there}", f"bounced {flight}")
        made.event(f"take 0 {tile}", f"held {flight} {here}")
        made.event(f"switch {tile} {here}", f"save {other}")
        made.event(f"take {tile} 0", f"saving {other}")
        made.event(f"take 0 {tile}", f"saved {other}")
        made.event(f"tend {here}", f"landed {flight} restore {here}")
        made.event(f"take {tile} 0", f"current {here}")
        made.event(f"take {there} 0", f"answered {flight} sent")
        made.event(f"do {here} fetch 0", f"message {token} from {sender} label {sender} {text}")
        credit = made.flight(here)
        made.event(f"do {here} ack 0 {token}", f"acknowledged credit {credit}")
        made.event(f"take {there} {tile}", f"credited {credit} {grant}")
        longest, n = max(longest, made.bytes - before + 32), n + 1
    audit = [f"audit credit {g} held 2 flying 0 queued 0 limit 2" for g in sorted(sends.values())]
    audit += [f"audit tile {t + 2} act {t}" for t in range(SENDERS)]
    audit += [f"audit tile {2 + SENDERS + t} act {reader(t)}" for t in range(SENDERS)]
    audit += ["audit flights 0", "audit quiet yes"]
    return made.script(), made.text(audit), len(made.events)
