#!/usr/bin/env python3
"""Measures the check of journals near the longest that there may be, as text and as JSON.

    python3 bench/check.py [PROGRAM] [MIB]

PROGRAM is crates/m3x/out/m3x where it is left out (.ci/run builds it), and MIB, the most megabytes of a journal, 64.
The journals are of questions, replies, acknowledgements, reads and writes, with an entry for each of their events, so
each has a step or two of the ideal machine; each is found legal. Then one digit of the last fetched message is changed,
and the check has to name that entry; and a byte more than the limit is too long. Printed are the best times of three
runs, from the start of the process to its end, the bytes a second, and the most memory that was held; and beside them,
in the same run, the time of a plain copy of the same bytes by `cat` from a file to a file, as a yardstick of the
machine at that moment.
"""
import os
import subprocess
import sys
import tempfile
import time

import journals
from run import TOP, footprint

RUNS = 3
MIB = 1024 * 1024
LIMIT = 64 * MIB


def best(words, path, out):
    """The least wall time of RUNS runs on the bytes of a file, in seconds."""
    times = []
    for _ in range(RUNS):
        with open(path, "rb") as given, open(out, "wb") as taken:
            begun = time.perf_counter()
            subprocess.run(words, stdin=given, stdout=taken, check=False)
            times.append(time.perf_counter() - begun)
    return min(times)


def answer(program, path):
    with open(path, "rb") as given:
        ran = subprocess.run([program, "check"], stdin=given, stdout=subprocess.PIPE, stderr=subprocess.PIPE, check=False)
    return ran.returncode, ran.stdout, ran.stderr


def last_message(data):
    """Where the number of the last fetched message's token begins."""
    return data.rindex(b": message ") + len(b": message ")


def measure(program, name, data, verdict, count, folder):
    """Prints what the check of a journal takes. What is wrong with an answer, or None."""
    path, out = os.path.join(folder, name), os.path.join(folder, "out")
    with open(path, "wb") as file:
        file.write(data)
    got = answer(program, path)
    if got != (0, verdict, b""):
        return f"{name}: {got} and not {verdict}"
    least, plain = best([program, "check"], path, out), best(["cat"], path, out)
    held, faults = footprint([program, "check"], path)
    print(
        f"{name:>5}  {len(data):>9}  {count:>8}  {least * 1000:>8.1f} ms  {len(data) / least / 1e6:>7.1f} MB/s"
        f"  {held:>8} KB  {faults:>7}  copy {plain * 1000:>6.1f} ms  {len(data) / plain / 1e6:>7.1f} MB/s",
        flush=True,
    )
    at = last_message(data)
    changed = data[:at] + (b"1" if data[at : at + 1] != b"1" else b"2") + data[at + 1 :]
    with open(path, "wb") as file:
        file.write(changed)
    status, line, _ = answer(program, path)
    if status != 7 or not line.endswith(b" reply\n"):
        return f"{name}, changed: status {status}, {line}"
    return None


def main(words):
    program = os.path.abspath(words[0]) if words else f"{TOP}/crates/m3x/out/m3x"
    size = (int(words[1]) if len(words) > 1 else 64) * MIB
    if not os.access(program, os.X_OK):
        print(f"{program} isn't built: .ci/run builds it", file=sys.stderr)
        return 2
    print(f"{'of':>5}  {'bytes':>9}  {'entries':>8}  {'best of ' + str(RUNS):>11}  {'bytes':>12}  {'held':>11}  {'faults':>7}")
    with tempfile.TemporaryDirectory() as folder:
        path = os.path.join(folder, "long")
        for count, wanted in ((LIMIT, (2, b"bad line 1: form\n", b"")), (LIMIT + 1, (8, b"too long\n", b""))):
            with open(path, "wb") as file:
                file.write(b"a" * count)
            got = answer(program, path)
            if got != wanted:
                print(f"{count} letters: {got} and not {wanted}", file=sys.stderr)
                return 1
        for name, make in (("text", journals.make), ("JSON", journals.make_json)):
            wrong = measure(program, name, *make(size), folder)
            if wrong:
                print(wrong, file=sys.stderr)
                return 1
    return 0


if __name__ == "__main__":
    sys.exit(main(sys.argv[1:]))
