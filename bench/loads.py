"""Loads for the driver: what they read, and what there is to know of what they write.

A load comes made, and as the same load written out, so that its journal can be counted. A third script alternates two
tiles between two activities each, so nearly every message finds its receiver away: it bounces, is held by the kernel,
and lands there before the receiver comes back.
"""


def payload(act, k):
    """What an activity sends in a round."""
    return ((1103515245 * (k + 1000 * act) + 12345) % 2**32).to_bytes(4, "little").hex()


def script(rounds):
    """The load of so many rounds as a script for the driver."""
    lines = ["machine tiles 6 memory 65536"]
    lines += [f"act {a} tile {2 + a % 4}" for a in range(8)] + ["quantum 4"]
    lines += [f"recv {a} 0 slots 4 size 8" for a in range(4, 8)]
    lines += [f"recv {a} 1 slots 4 size 8" for a in range(4)]
    lines += [f"send {a} 0 of {1 + (a + 1) % 4} label {100 + a} credits 2" for a in range(4)]
    for a in range(4):
        for k in range(rounds):
            lines += [f"prog {a} send 0 {payload(a, k)} reply 1", f"prog {a} await 1"]
            lines += [f"prog {a} fetch 1", f"prog {a} ack 1 {k}"]
    for a in range(4, 8):
        for k in range(rounds):
            lines += [f"prog {a} await 0", f"prog {a} fetch 0", f"prog {a} reply 0 {k} {payload(a, k)}"]
    return "".join(line + "\n" for line in lines + ["begin"]).encode()


def alternating(rounds):
    """Two clients on tile 2 and their servers on tile 3, so many rounds of a message, its reply and its fetch."""
    lines = ["machine tiles 4 memory 64", "quantum 2"]
    lines += [f"act {a} tile {2 + a % 2}" for a in range(4)]
    for client in (0, 2):
        lines += [f"recv {client + 1} 0 slots 2 size 4", f"recv {client} 1 slots 2 size 4"]
    lines += ["send 0 0 of 1 label 10 credits 1", "send 2 0 of 3 label 12 credits 1"]
    for client in (0, 2):
        for k in range(rounds):
            lines += [f"prog {client} send 0 {k % 256:02x} reply 1", f"prog {client} await 1"]
            lines += [f"prog {client} fetch 1", f"prog {client} ack 1 {k}"]
            lines += [f"prog {client + 1} await 0", f"prog {client + 1} fetch 0", f"prog {client + 1} reply 0 {k} 01"]
    return "".join(line + "\n" for line in lines + ["begin"]).encode()


def entries_in(output):
    return output.partition(b"\nbegin\n")[2].partition(b"\nend\n")[0].decode().split("\n")


def summary(rounds):
    """The judge of a load's summary: eight messages are fetched in each round, all credits are held, and it ends quiet."""
    credits = [f"audit credit {g} held 2 flying 0 queued 0 limit 2" for g in range(9, 13)]
    wanted = [f"load {rounds}", f"fetched {8 * rounds}", *credits, "audit flights 0", "audit quiet yes"]

    def judge(output):
        lines = output.decode().splitlines()
        missing = [line for line in wanted if line not in lines]
        return f"no line {missing[0]!r}" if missing else None, int(lines[1].removeprefix("entries "))

    return judge


def journal(grants, credits, fetches, least):
    """The judge of a driver's journal: so many fetches gave a message or a reply, at least `least` messages bounced and
    were held, each of these grants holds all its credits, and it ends quiet."""

    def judge(output):
        entries = entries_in(output)
        fetched = sum(": message " in e or ": reply " in e for e in entries)
        bounced, held = (sum(word in e for e in entries) for word in (": bounced ", ": held "))
        back = all(f"audit credit {g} held {credits} flying 0 queued 0 limit {credits}\n".encode() in output for g in grants)
        right = fetched == fetches and min(bounced, held) >= least and back and output.endswith(b"audit quiet yes\n")
        return None if right else f"{fetched} fetched, {bounced} bounced, {held} held, {output[-200:]!r}", len(entries)

    return judge


def make(rounds):
    """No input, and the judge of the load's summary."""
    return b"", summary(rounds)


def make_script(rounds):
    """The load written out for the driver, and the judge of its journal."""
    return script(rounds), journal(range(9, 13), 2, 8 * rounds, 0)


def make_alternating(rounds):
    """A script in which nearly every message finds its receiver away, and the judge of its journal."""
    return alternating(rounds), journal((5, 6), 1, 4 * rounds, rounds)
