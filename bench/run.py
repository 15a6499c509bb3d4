#!/usr/bin/env python3
"""Measures the built program on inputs of two sizes, the second twice the first.

    python3 bench/run.py [PROGRAM]

PROGRAM is crates/m3x/out/m3x where it is left out (.ci/run builds it). Each input is run, shown or checked once, and
its whole output compared with the journal, the lines or the verdict that its maker works out for itself; the driver's
runs are judged by their counts and their audits. Then it is run five times against the clock, with the output thrown
away. Printed are the best times, what they come to in bytes and in events, entries or packets a second, the most memory
that the process held, its page faults, and the instructions that valgrind's callgrind counts in it, whole and for each
event, entry or packet; where valgrind isn't installed the instructions are left out. The ratios of times and of
instructions are the second input's to the first's: near 2 is linear. Times depend on what else runs on the machine, and
instructions don't.
"""
import ctypes
import os
import re
import shutil
import subprocess
import sys
import tempfile
import time

import answers
import journals
import large
import loads
import memory
import messages
import orders
import packets
import switches

TOP = os.path.dirname(os.path.dirname(os.path.abspath(__file__)))
KIB = 1024
RUNS = 5
PR_SET_CHILD_SUBREAPER = 36


def whole(make):
    """A maker whose output is known whole."""

    def made(size):
        data, wanted, count = make(size)
        assert len(data) <= size, len(data)
        return data, lambda output: (difference(output, wanted), count)

    return made


# the words before an input, what it is made of, its maker, and the larger of its two sizes: bytes, or rounds of a load.
# A maker gives the input, and a judge, who says of an output what is wrong with it and how many events, entries or
# packets it is of.
MAKERS = (
    (lambda size: ["run"], "messages", whole(messages.make), 1024 * KIB),
    (lambda size: ["run"], "answers", whole(answers.make), 1024 * KIB),
    (lambda size: ["run"], "switches", whole(switches.make), 1024 * KIB),
    (lambda size: ["run"], "orders", whole(orders.make), 1024 * KIB),
    (lambda size: ["run"], "memory", whole(memory.make), 1024 * KIB),
    (lambda size: ["run"], "512 bytes", whole(large.make), 1024 * KIB),
    (lambda size: ["run"], "reads", whole(memory.make_reads), 256 * KIB),
    (lambda size: ["show"], "packets", whole(packets.make), 1024 * KIB),
    (lambda size: ["show"], "small", whole(packets.make_small), 1024 * KIB),
    (lambda size: ["show"], "large", whole(packets.make_large), 1024 * KIB),
    (lambda rounds: ["load", str(rounds)], "load", loads.make, 500),
    (lambda rounds: ["auto"], "the load", loads.make_script, 500),
    (lambda rounds: ["auto"], "alternate", loads.make_alternating, 500),
    (lambda size: ["check"], "text", whole(journals.make), 8192 * KIB),
    (lambda size: ["check"], "JSON", whole(journals.make_json), 8192 * KIB),
)


def run(words, data, stdout):
    return subprocess.run(words, input=data, stdout=stdout, stderr=subprocess.PIPE)


def difference(output, wanted):
    """Where an output isn't the wanted one, or None."""
    if output == wanted:
        return None
    got, want = output.split(b"\n"), wanted.split(b"\n")
    at = next((n for n, (g, w) in enumerate(zip(got, want)) if g != w), min(len(got), len(want)))
    return f"line {at + 1} is {got[at:at + 1]} and should be {want[at:at + 1]}"


def best(words, data):
    """The least wall time of RUNS runs, in seconds."""
    times = []
    for _ in range(RUNS):
        begun = time.perf_counter()
        run(words, data, subprocess.DEVNULL)
        times.append(time.perf_counter() - begun)
    return min(times)


def footprint(words, path):
    """The most memory that a run held, in KB, and its page faults.

    A process counts what it held before its `exec` too, so the run is the child of a small shell and not of this one;
    when the shell has ended, the run is this process's child, and tells what it used.
    """
    ctypes.CDLL(None).prctl(PR_SET_CHILD_SUBREAPER, 1)
    shell = ["sh", "-c", 'path=$0; "$@" <"$path" >/dev/null & echo $!', path, *words]
    child = int(subprocess.run(shell, stdout=subprocess.PIPE, check=True).stdout)
    used = os.wait4(child, 0)[2]
    return used.ru_maxrss, used.ru_minflt


def instructions(words, path):
    """The instructions of a run, or None where valgrind isn't installed."""
    if not shutil.which("valgrind"):
        return None
    counted = ["valgrind", "--tool=callgrind", "--callgrind-out-file=/dev/null", *words]
    with open(path, "rb") as data:
        ran = subprocess.run(counted, stdin=data, stdout=subprocess.DEVNULL, stderr=subprocess.PIPE, check=True)
    return int(re.search(rb"Collected : (\d+)", ran.stderr)[1])


def measure(program, words_of, name, make, size):
    """Prints what the inputs of one maker take. What is wrong with a run, or None."""
    times, counts = [], []
    for part in (size // 2, size):
        words = [program, *words_of(part)]
        data, judge = make(part)
        ran = run(words, data, subprocess.PIPE)
        if ran.returncode or ran.stderr:
            return f"{name}: status {ran.returncode}, {ran.stdout[:200]!r}, standard error {ran.stderr[:200]!r}"
        wrong, count = judge(ran.stdout)
        if wrong:
            return f"{name}, {len(data)} bytes: {wrong}"
        least = best(words, data)
        times.append(least)
        with tempfile.NamedTemporaryFile() as kept:
            kept.write(data)
            kept.flush()
            held, faults = footprint(words, kept.name)
            done = instructions(words, kept.name)
        counted = "" if done is None else f"  {done / 1e6:>7.1f}  {done / count:>8.0f}"
        counts += [] if done is None else [done]
        rate = f"{len(data) / least / 1e6:.1f} MB"
        print(
            f"{name:>9}  {len(data):>9}  {count:>7}  {len(ran.stdout):>9}  {least * 1000:>7.1f} ms  {rate:>8}"
            f"  {count / least:>9.0f}  {held:>7}  {faults:>7}{counted}",
            flush=True,
        )
    more = f", of the instructions: {counts[1] / counts[0]:.2f}" if counts else ""
    print(f"{name:>9}  ratio of the times: {times[1] / times[0]:.2f}{more}", flush=True)
    return None


def main(words):
    program = os.path.abspath(words[0]) if words else f"{TOP}/crates/m3x/out/m3x"
    if not os.access(program, os.X_OK):
        print(f"{program} isn't built: .ci/run builds it", file=sys.stderr)
        return 2
    counted = f"  {'million':>7}  {'instr. a':>8}" if shutil.which("valgrind") else ""
    print(
        f"{'of':>9}  {'input':>9}  {'count':>7}  {'output':>9}  {'best of ' + str(RUNS):>10}  {'input/s':>8}"
        f"  {'count/s':>9}  {'KB held':>7}  {'faults':>7}{counted}"
    )
    if not counted:
        print("valgrind isn't installed, so the instructions are not counted")
    for words_of, name, make, size in MAKERS:
        wrong = measure(program, words_of, name, make, size)
        if wrong:
            print(wrong, file=sys.stderr)
            return 1
    return 0


if __name__ == "__main__":
    sys.exit(main(sys.argv[1:]))
