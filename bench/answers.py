"""Questions with their replies, acknowledgements with their credits, and what is written and read again."""
from journal import Journal

PAIRS = 7
SIZE = 64
RANGE = 512


def tile(act):
    return act + 2


def question(made, act, to, grant, n, token):
    """A message that is replied to: the reply brings the credit back."""
    asked, told = bytes([n % 256] * 16).hex(), bytes([255 - n % 256] * 16).hex()
    flight = made.flight(act)
    made.event(f"do {act} send 0 {asked} reply 1", f"flying {flight}")
    made.event(f"take {tile(to)} {tile(act)}", f"landed {flight}")
    made.event(f"take {tile(act)} {tile(to)}", f"answered {flight} sent")
    made.event(f"do {to} fetch 0", f"message {2 * n} from {act} label {grant} {asked}")
    flight = made.flight(to)
    made.event(f"do {to} reply 0 {2 * n} {told}", f"flying {flight}")
    made.event(f"take {tile(act)} {tile(to)}", f"landed {flight}")
    made.event(f"take {tile(to)} {tile(act)}", f"answered {flight} replied")
    made.event(f"do {act} fetch 1", f"reply {n} from {to} label {grant} {told}")
    made.event(f"do {act} ack 1 {n}", "acknowledged")


def notice(made, act, to, grant, n):
    """A message that is acknowledged: a packet of its own brings the credit back."""
    text = bytes([n % 256] * 16).hex()
    flight = made.flight(act)
    made.event(f"do {act} send 0 {text}", f"flying {flight}")
    made.event(f"take {tile(to)} {tile(act)}", f"landed {flight}")
    made.event(f"take {tile(act)} {tile(to)}", f"answered {flight} sent")
    made.event(f"do {to} fetch 0", f"message {2 * n + 1} from {act} label {grant} {text}")
    credit = made.flight(to)
    made.event(f"do {to} ack 0 {2 * n + 1}", f"acknowledged credit {credit}")
    made.event(f"take {tile(act)} {tile(to)}", f"credited {credit} {grant}")


def note(made, act, n):
    """Bytes that are written to memory, and read again."""
    text, at = bytes((n + i) % 256 for i in range(16)).hex(), 16 * (n % (RANGE // 16))
    flight = made.flight(act)
    made.event(f"do {act} write 2 {at} {text}", f"flying {flight}")
    made.event(f"take 1 {tile(act)}", f"landed {flight}")
    made.event(f"take {tile(act)} 1", f"answered {flight} written")
    flight = made.flight(act)
    made.event(f"do {act} read 2 {at} 16", f"flying {flight}")
    made.event(f"take 1 {tile(act)}", f"landed {flight}")
    made.event(f"take {tile(act)} 1", f"answered {flight} bytes {text}")


def make(size):
    """A script of at most this many bytes, its journal's text, and the number of its events."""
    made, sends = Journal(), {}
    for act in range(2 * PAIRS):
        made.line(f"act {act} tile {tile(act)}")
    for pair in range(PAIRS):
        act, to = 2 * pair, 2 * pair + 1
        of = made.grant(f"recv {to} 0 slots 2 size {SIZE}")
        made.grant(f"recv {act} 1 slots 1 size {SIZE}")
        number = len(made.grants) + 1
        sends[pair] = made.grant(f"send {act} 0 of {of} label {number} credits 2")
        made.grant(f"range {act} 2 at {RANGE * pair} len {RANGE} perm rw")
    head, n, longest = made.head(), 0, 0
    while head + made.bytes + longest < size:
        pair, before = n % PAIRS, made.bytes
        act, to, grant = 2 * pair, 2 * pair + 1, sends[pair]
        question(made, act, to, grant, n // PAIRS, n)
        notice(made, act, to, grant, n // PAIRS)
        note(made, act, n // PAIRS)
        longest, n = max(longest, made.bytes - before + 16), n + 1
    audit = [f"audit credit {g} held 2 flying 0 queued 0 limit 2" for g in sorted(sends.values())]
    audit += [f"audit tile {t} act {t - 2}" for t in range(2, 16)]
    audit += ["audit flights 0", "audit quiet yes"]
    return made.script(), made.text(audit), len(made.events)
