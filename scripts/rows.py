#!/usr/bin/env python3
"""Compares rows, those of crates/esec_rows/stdin or of the files that are named, with the model in plain Python.

A row of requests is answered by `model.py`, a row that is a schedule by `drill.py`, which also counts the bytes that
have to be read. Each line that differs is printed with the one of the model, with status 1. Rows with raw bytes, with
calls that fail in the middle of something or with bytes that are due are passed over, and counted.
"""

import base64
import re
import sys
from pathlib import Path

from drill import drill, output_of, read_by
from model import ZEROS, Node
from records import LAST_MOMENT

TOP = Path(__file__).resolve().parent.parent
FILE = TOP / "crates/esec_rows/stdin"
REPEATED = re.compile(r"\^\((.*?)\^\*([0-9]+)\)", re.DOTALL)
LIMITS = [200_000, 512]
PASSED_OVER = ("raw", "out", "failing-writes")
ROOM = 4_194_304


def unescaped(text):
    """The bytes that a text stands for."""
    parts = REPEATED.split(text)
    done = [plain(parts[0])]
    for at in range(1, len(parts), 3):
        done += [plain(parts[at]) * int(parts[at + 1]), plain(parts[at + 2])]
    return b"".join(done)


def plain(text):
    return re.sub(rb"\^(x([0-9a-f]{2})|.)", byte_of, text.encode())


def byte_of(found):
    marks = {b"r": b"\r", b"n": b"\n", b"t": b"\t", b"^": b"^", b"e": b""}
    return bytes.fromhex(found[2].decode()) if found[2] else marks[found[1]]


def rows_in(text):
    """The lines of each row, cut into the word and what stands behind it; a line `again` is the lines it stands for."""
    rows = []
    for line in text.split("\n"):
        if line.startswith(("row ", "drill ")):
            rows.append([])
        if rows and line and not line.startswith("#"):
            word, _, rest = line.partition(" ")
            rows[-1] += once_more(rows[-1], int(rest)) if word == "again" else [(word, rest)]
    return rows


def once_more(lines, times):
    """The last request and its response so many times more, each at the next place."""
    ask, got = ([rest for word, rest in lines if word == looked][-1] for looked in ("ask", "got"))
    status, place, body = (got.split(" ", 2) + [""])[:3]
    for number in range(1, times + 1):
        yield "ask", ask
        yield "got", f"{status} {int(place) + number} {body}"


def options_of(row):
    limits, clock, draws = LIMITS, 7, None
    for word, rest in row:
        if word == "limits":
            limits = [int(part) for part in rest.split(" ")]
        if word == "clock":
            clock = int(rest)
        if word == "draws":
            draws = [None if part == "failed" else bytes.fromhex(part) for part in rest.split(" ")]
    return limits, clock, draws


# ---- rows of requests


def request_of(rest, fields):
    who, method, target, body = (rest.split(" ", 3) + [""])[:4]
    target = unescaped(target).decode(errors="surrogateescape")
    looked_at = {}
    for field in fields:
        name, _, value = unescaped(field).decode(errors="surrogateescape").partition(":")
        looked_at.setdefault(name.lower(), []).append(value)
    if who != "-":
        looked_at.setdefault("authorization", []).insert(0, "Bearer " + base64.b64encode(who.encode()).decode())
    return method, target, looked_at, unescaped(body)


def answers_of(row):
    """What the model answers to each request, as the row's lines have it, and how the run ends."""
    (entries, _), clock, draws = options_of(row)
    node, fields, due, receipts = Node(entries=entries), [], [], []
    for word, rest in row:
        if word == "with":
            fields.append(rest)
        if word != "ask":
            continue
        method, target, looked_at, body = request_of(rest, fields)
        drawn = ZEROS if draws is None else draws[0] if draws else None
        before, fields, moment = node.place, [], min(clock + len(receipts), LAST_MOMENT)
        status, reply, allow = node.answer(method, target, looked_at, body, moment, drawn)
        if draws and takes_a_draw(method, target, status, reply):
            draws = draws[1:]
        due += [("allow", allow.encode())] if allow else []
        due.append(("got", f"{status} {node.place} ".encode() + reply))
        receipts.append(f"place {node.place} moment {moment} {'changed' if node.place > before else 'same'}")
    return due, f"Done receipts {len(receipts)} place {node.place}", receipts


def takes_a_draw(method, target, status, reply):
    """Each request that creates a key does, but for one that its own text is refused for."""
    of_text = (b"bad_json", b"bad_body", b"bad_header", b"bad_parameter")
    is_creation = method in ("POST", "PUT") and target == "/_security/api_key"
    return is_creation and not (status == 400 and any(kind in reply for kind in of_text))


def differences(row):
    due, end, receipts = answers_of(row)
    told = [(word, unescaped(rest)) for word, rest in row if word in ("got", "last", "allow")]
    yield from pairs_that_differ([("got" if word == "last" else word, rest) for word, rest in told], due)
    yield from pairs_that_differ([("end", rest.encode()) for word, rest in row if word == "end"], [("end", end.encode())])
    kept = [("receipt", rest.encode()) for word, rest in row if word == "receipt"]
    if kept:
        yield from pairs_that_differ(kept, [("receipt", text.encode()) for text in receipts])


# ---- rows that are schedules


def drill_differences(row):
    (entries, roles), _, _ = options_of(row)
    parts = [unescaped(rest) + b"\n" * (word == "take") for word, rest in row if word in ("take", "bytes")]
    schedule, is_failing = b"".join(parts), False
    for word, rest in row:
        if word == "failing-reads":
            piece = int(dict(row).get("pieces", "1").split(" ")[0])
            schedule, is_failing = schedule[: piece * (int(rest.split(" ")[0]) - 1)], True
    printed, end = drill(schedule, entries=entries, roles=roles, is_failing=is_failing)
    assert len(output_of(printed)) <= room_of(row), "the sink of this row takes less"
    due = [line for word, rest in row if word == "due" for line in unescaped(rest).split(b"\n")]
    yield from pairs_that_differ([("due", line) for line in due], [("due", line) for line in printed])
    done = [("done", rest.encode()) for word, rest in row if word == "done"]
    yield from pairs_that_differ(done, [("done", " ".join(map(str, end)).encode())])
    read = [("read", rest.encode()) for word, rest in row if word == "read"]
    if read:
        yield from pairs_that_differ(read, [("read", str(read_by(schedule, end)).encode())])


def room_of(row):
    return next((int(rest) for word, rest in row if word == "room"), ROOM)


def pairs_that_differ(told, due):
    for number in range(max(len(told), len(due))):
        pair = [part[number] if number < len(part) else None for part in (told, due)]
        if pair[0] != pair[1]:
            yield pair


def main():
    seen = lines = passed_over = differing = 0
    for path in map(Path, sys.argv[1:] or [FILE]):
        for row in rows_in(path.read_text()):
            words = {word for word, _ in row}
            is_drill = row[0][0] == "drill"
            is_short_of_memory = any("out_of_memory" in rest for _, rest in row)
            is_cut = not is_drill and words & {"failing-reads", "room"}
            if words & set(PASSED_OVER) or is_short_of_memory or is_cut:
                passed_over += 1
                continue
            seen += 1
            lines += sum(word in ("got", "last", "due") for word, _ in row)
            found = list((drill_differences if is_drill else differences)(row))
            differing += bool(found)
            for told, due in found[:3]:
                print(f"{row[0][1]}\n  row   {shown(told)}\n  model {shown(due)}")
    print(f"rows {seen} of {lines} answers, differing {differing}, passed over {passed_over}")
    return int(differing > 0)


def shown(pair):
    return "nothing" if pair is None else f"{pair[0]} {pair[1][:600].decode(errors='replace')}"


if __name__ == "__main__":
    sys.exit(main())
