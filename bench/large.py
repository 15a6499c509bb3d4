"""Messages of 512 bytes, the most that one has, each acknowledged before the next."""
from journal import Journal

PAIRS = 7
SIZE = 512


def tile(act):
    return act + 2


def message(made, act, to, grant, n):
    text = bytes((n + i) % 256 for i in range(SIZE)).hex()
    flight = made.flight(act)
    made.event(f"do {act} send 0 {text}", f"flying {flight}")
    made.event(f"take {tile(to)} {tile(act)}", f"landed {flight}")
    made.event(f"take {tile(act)} {tile(to)}", f"answered {flight} sent")
    made.event(f"do {to} fetch 0", f"message {n} from {act} label {grant} {text}")
    credit = made.flight(to)
    made.event(f"do {to} ack 0 {n}", f"acknowledged credit {credit}")
    made.event(f"take {tile(act)} {tile(to)}", f"credited {credit} {grant}")


def make(size):
    """A script of at most this many bytes, its journal's text, and the number of its events."""
    made, sends = Journal(), []
    for act in range(2 * PAIRS):
        made.line(f"act {act} tile {tile(act)}")
    for pair in range(PAIRS):
        of = made.grant(f"recv {2 * pair + 1} 0 slots 2 size {SIZE}")
        sends.append(made.grant(f"send {2 * pair} 0 of {of} label {of + 1} credits 2"))
    head, n, longest = made.head(), 0, 0
    while head + made.bytes + longest < size:
        pair, before = n % PAIRS, made.bytes
        message(made, 2 * pair, 2 * pair + 1, sends[pair], n // PAIRS)
        longest, n = max(longest, made.bytes - before + 16), n + 1
    audit = [f"audit credit {g} held 2 flying 0 queued 0 limit 2" for g in sorted(sends)]
    audit += [f"audit tile {t} act {t - 2}" for t in range(2, 2 + 2 * PAIRS)]
    audit += ["audit flights 0", "audit quiet yes"]
    return made.script(), made.text(audit), len(made.events)
