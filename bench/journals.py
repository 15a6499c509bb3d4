"""Journals to be checked: what a script of answers has to give, as text and as JSON, and the verdict."""
import json

import answers

# a journal of answers has so many times the bytes of its script, and somewhat fewer in small ones
GROWTH = 2.37


def text(size):
    """A journal of at most `size` bytes, and nearly that many, and its number of entries."""
    script = int(size / GROWTH)
    while True:
        _, data, count = answers.make(script)
        if len(data) <= size:
            return data, count
        script = int(script * size / len(data)) - 1024


def as_json(data):
    """The JSON of a journal, in one line."""
    lines = data.decode().splitlines()
    begin, end = lines.index("begin"), lines.index("end")
    value = {"audit": lines[end + 1 :], "entries": lines[begin + 1 : end], "m3x": 1, "setup": lines[1:begin]}
    return json.dumps(value, separators=(",", ":")).encode() + b"\n"


def make(size):
    data, count = text(size)
    return data, b"legal %d\n" % count, count


def make_json(size):
    """JSON of at most `size` bytes: each line has two quotes and a comma in the place of its newline."""
    room = size
    while True:
        data, count = text(room)
        written = as_json(data)
        if len(written) <= size:
            return written, b"legal %d\n" % count, count
        room = int(room * size / len(written)) - 1024
