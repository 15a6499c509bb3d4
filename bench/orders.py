"""Parts of memory that are granted, granted on, and revoked, with a refusal of each kind beside them."""
from journal import Journal

HOLDERS = 13
MOST_GRANTS = 4096


def life(made, n, grant):
    """A grant and one below it, from their making to their end. They have this number and the next."""
    a, b = n % HOLDERS, (n + 1) % HOLDERS
    below = grant + 1
    install, install_below = made.flight("k"), made.flight("k")
    made.event(f"grant part {a} 0 of 2 at 0 len 64 perm rw", f"granted {grant} {install} routed")
    made.event(f"take {a + 2} 0", f"installed {install} {grant}")
    made.event(f"grant part {b} 1 of {grant} at 8 len 8 perm r", f"granted {below} {install_below} routed")
    made.event(f"take {b + 2} 0", f"installed {install_below} {below}")
    made.event(f"grant part {a} 2 of 1 at 0 len 1 perm r", "refused no-grant")
    made.event(f"grant send {a} 2 of {grant} label 0 credits 1", "refused no-grant")
    made.event(f"grant part {a} 0 of 2 at 0 len 1 perm r", "refused slot-taken")
    made.event(f"grant range {a} 2 at 4000 len 97 perm r", "refused outside-parent")
    made.event(f"grant part {a} 2 of {grant} at 60 len 5 perm r", "refused outside-parent")
    made.event(f"grant part {a} 2 of {below} at 0 len 1 perm w", "refused more-permission")
    made.event(f"revoke {grant}", f"revoking {grant}")
    made.event(f"revoke {below}", "refused closing")
    made.event(f"grant part {a} 2 of {grant} at 0 len 1 perm r", "refused closing")
    close_below = made.flight("k")
    made.event("close", f"close {below} {close_below} routed")
    made.event("close", "idle nothing-to-close")
    made.event(f"take {b + 2} 0", f"closed {close_below} {below}")
    made.event(f"take 0 {b + 2}", f"done {below}")
    close = made.flight("k")
    made.event("close", f"close {grant} {close} routed")
    made.event(f"take {a + 2} 0", f"closed {close} {grant}")
    made.event(f"take 0 {a + 2}", f"done {grant} revoked {grant}")
    made.event(f"revoke {grant}", "refused no-grant")


def full(made, n):
    """What is asked of a kernel that has made all the grants that it ever makes."""
    made.event(f"grant part {n % HOLDERS} 0 of 2 at 0 len 64 perm rw", "refused too-many")


def make(size):
    """A script of at most this many bytes, its journal's text, and the number of its events."""
    made = Journal()
    for act in range(HOLDERS + 1):
        made.line(f"act {act} tile {act + 2}")
    made.grant(f"recv {HOLDERS} 0 slots 2 size 64")
    made.grant(f"range {HOLDERS} 1 at 0 len 4096 perm rw")
    head, n, longest, grant = made.head(), 0, 0, 3
    while head + made.bytes + longest < size:
        before = made.bytes
        if grant < MOST_GRANTS:
            life(made, n, grant)
            grant += 2
        else:
            full(made, n)
        longest, n = max(longest, made.bytes - before + 32), n + 1
    audit = [f"audit tile {t + 2} act {t}" for t in range(HOLDERS + 1)]
    audit += ["audit flights 0", "audit quiet yes"]
    return made.script(), made.text(audit), len(made.events)
