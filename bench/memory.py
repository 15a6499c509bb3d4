"""Bytes that are written to memory and read again, 16 at a time, or read alone, 4,096 at a time."""
from journal import Journal

ACTIVITIES = 14
MEMORY = 4096
RANGE = 256


def tile(act):
    return act + 2


def setup(length, perm):
    """The journal before its first event: each activity has a range of this length at its endpoint 0."""
    made = Journal()
    for act in range(ACTIVITIES):
        made.line(f"act {act} tile {tile(act)}")
    for act in range(ACTIVITIES):
        made.grant(f"range {act} 0 at {length * act % MEMORY} len {length} perm {perm}")
    return made


def command(made, act, text, answer):
    """A command to memory: the flight out and the answer back."""
    flight = made.flight(act)
    made.event(f"do {act} {text}", f"flying {flight}")
    made.event(f"take 1 {tile(act)}", f"landed {flight}")
    made.event(f"take {tile(act)} 1", f"answered {flight} {answer}")


def write_and_read(made, act, n):
    text, at = bytes((n + i) % 256 for i in range(16)).hex(), 16 * (n % (RANGE // 16))
    command(made, act, f"write 0 {at} {text}", "written")
    command(made, act, f"read 0 {at} 16", f"bytes {text}")


def fill(made, size, put):
    """Puts rounds until the script has this size; then its text, its journal's, and the number of its events."""
    head, n, longest = made.head(), 0, 0
    while head + made.bytes + longest < size:
        before = made.bytes
        put(made, n % ACTIVITIES, n // ACTIVITIES)
        longest, n = max(longest, made.bytes - before + 8), n + 1
    audit = [f"audit tile {t} act {t - 2}" for t in range(2, 2 + ACTIVITIES)]
    audit += ["audit flights 0", "audit quiet yes"]
    return made.script(), made.text(audit), len(made.events)


def make(size):
    """Writes and reads of 16 bytes in a script of at most this many bytes."""
    return fill(setup(RANGE, "rw"), size, write_and_read)


def make_reads(size):
    """Reads of 4,096 bytes, which are zero."""
    return fill(setup(MEMORY, "r"), size, lambda made, act, n: command(made, act, f"read 0 0 {MEMORY}", "bytes " + "00" * MEMORY))
