#!/usr/bin/env python3
"""Compares the tables of keys and records of crates/esec_key_tables/stdin with a model in plain Python.

The tables of bodies, of requests, of records and of drops, and the credentials of crates/esec_tables/stdin, are computed
by `records.py`. Each line whose answer differs is printed with the answer of the model, with status 1. With `--fill` the
answers `?` are replaced by those of the model.
"""

import re
import sys
from pathlib import Path

import records
from trees import tree_in

TOP = Path(__file__).resolve().parent.parent
FILES = [TOP / "crates/esec_key_tables/stdin", TOP / "crates/esec_tables/stdin"]

# ---- lines


def unescaped(text):
    """The bytes that a cell stands for."""
    repeated = re.sub(r"\^\((.*?)\^\*([0-9]+)\)", lambda found: found[1] * int(found[2]), text)
    return re.sub(rb"\^(x([0-9a-f]{2})|.)", byte_of, repeated.encode())


def byte_of(found):
    """The byte that an escape stands for, if it stands for one."""
    marks = {b"r": b"\r", b"n": b"\n", b"t": b"\t", b"^": b"^", b"e": b""}
    return bytes.fromhex(found[2].decode()) if found[2] else marks[found[1]]


def escaped(data):
    """The bytes as a cell, all but printed letters of ASCII by their digits."""
    marks = {13: "^r", 10: "^n", 94: "^^"}
    text = "".join(marks.get(b, chr(b) if 32 <= b <= 126 else f"^x{b:02x}") for b in data)
    return text or "^e"


# ---- tables of credentials and bodies


def credentials(cells):
    if not cells:
        return "absent"
    said = records.credentials(cells[0])
    return "malformed" if said is None else ("key " if said[0] == "key" else "") + "|".join(said[1:])


def new_key(cells):
    return records.body(records.new_key, lambda tree: records.text_of(records.asked(tree)), cells[0])


def invalidation(cells):
    return records.body(records.invalidation, lambda tree: records.text_of(records.asked_ids(tree)), cells[0])


# ---- tables of records


def texts(cells):
    return [cell.decode() for cell in cells]


def cut(text):
    word, _, rest = text.partition(" ")
    return word, rest


def names_in(text):
    return text.split(",") if text else []


def asking_in(text):
    """The credentials, the target and the moment of who asks, and what stands behind them."""
    found = re.fullmatch(r"(\S+)(?: as (\S+))? at ([0-9]+)(?: (.*))?", text, re.DOTALL)
    field, run_as, moment, rest = found.groups()
    said = None if field == "absent" else records.credentials(field.replace(":", " ", 1).encode())
    return said, run_as, int(moment), rest or ""


def made_by(kept, subject, moment, text):
    found = re.fullmatch(r"place ([0-9]+) (.*)", text, re.DOTALL)
    return kept.make(subject, moment, int(found[1]), tree_in(found[2].encode()))


def change(kept, step):
    """The change that a step makes of the records, as `drops` wants it."""
    verb, rest = cut(step)
    what, rest_of_it = cut(rest)
    name, body = cut(rest_of_it)
    if verb == "put" and what == "role":
        kept.put_role(name, tree_in(body.encode()))
        return "role", name
    if verb == "put":
        kept.put_user(name, tree_in(body.encode()))
        return "user", name
    if verb == "delete":
        (kept.roles if what == "role" else kept.users).pop(rest_of_it, None)
        return what, rest_of_it
    if verb == "create":
        said, run_as, moment, text = asking_in(rest)
        key = made_by(kept, kept.subject(said, run_as, moment), moment, text)
        kept.keys[key["id"]] = key
        return "create", key["id"]
    if verb == "invalidate":
        kept.invalidate(names_in(rest))
        return "invalidate", rest
    assert verb == "clear", step
    return "clear", None if rest == "*" else names_in(rest)


def records_after(*cells):
    kept = records.Records()
    for cell in cells:
        for step in cell.split(" ; ") if cell else []:
            change(kept, step)
    return kept


def half_text(half):
    kind, named = half
    return " ".join([kind, ",".join(named) if kind == "names" else named]).rstrip()


def half_in(text):
    kind, named = cut(text)
    return kind, names_in(named) if kind == "names" else named


def truth(holds):
    return "true" if holds else "false"


def request(cells):
    first, second, asking, asked = texts(cells)
    kept = records_after(first, second)
    said, run_as, moment, _ = asking_in(asking)
    subject = kept.subject(said, run_as, moment)
    return "none" if subject is None else told(kept, subject, moment, asked)


def told(kept, subject, moment, asked):
    word, rest = cut(asked)
    action, index = cut(rest)
    if word == "who":
        return records.subject_text(subject) + " as an unknown user" * (subject.target is records.UNKNOWN)
    if word == "acting":
        return records.text_of(records.acting(subject))
    if word == "halves":
        return "; ".join(map(half_text, records.halves(subject)))
    if word == "limits":
        return records.text_of(kept.limits_for(subject))
    if word == "make":
        key = made_by(kept, subject, moment, rest)
        return "derived key" if key is None else records.key_text(key)
    if word == "run":
        return truth(records.may_run(kept, subject))
    if word == "permit":
        return records.permitted(kept, subject, action, index)
    halves = kept.acting_halves(subject)
    if word == "cluster":
        return truth(halves and all(records.grants_cluster(half, action) for half in halves))
    assert word == "index", asked
    return truth(halves and all(records.grants(half, action, index) for half in halves))


def standing(cells):
    first, second, asked = texts(cells)
    kept = records_after(first, second)
    word, rest = cut(asked)
    name, other = cut(rest)
    if word == "keys":
        return " ".join(key + "-" * kept.keys[key]["invalidated"] for key in sorted(kept.keys))
    if word in ("key", "limits", "assigned", "owner"):
        if rest not in kept.keys:
            return "none"
        return records.key_text(kept.keys[rest]) if word == "key" else records.text_of(kept.keys[rest][word])
    if word == "user":
        return records.text_of(kept.users[rest]["person"]) if rest in kept.users else "none"
    if word == "role":
        return records.text_of(kept.roles[rest]) if rest in kept.roles else "none"
    if word == "named":
        named = [f"{records.text_of(part)}:{records.text_of(kept.roles[part])}" for part in names_in(rest) if part in kept.roles]
        return "{" + ",".join(named) + "}"
    if word == "grants":
        parts = kept.descriptors(half_in(other))
        found = [action for action in records.GRANTING if records.grants(parts, action, name)]
        return " ".join(found + [action for action in records.CLUSTER_GRANTING if records.grants_cluster(parts, action)])
    assert word == "invalidation", asked
    found = kept.found_by(None if name == "*" else names_in(name), None if other == "*" else other)
    return "; ".join(" ".join([word, *ids]) for word, ids in zip(("newly", "previously"), found))


def dropped(cells):
    steps, step, halves = texts(cells)
    made = change(records_after(steps), step)
    return "; ".join(half for half in halves.split("; ") if records.drops(made, half_in(half)))


TABLES = {
    "credentials": credentials,
    "body that asks for a key": new_key,
    "body of an invalidation": invalidation,
    "request": request,
    "records": standing,
    "drops": dropped,
}


def computed(table, head, line):
    """The line's last cell, and the one of the model, both escaped; None where the model doesn't know the table."""
    if table not in TABLES:
        return None
    *asked, due = [*head, *line.split(" => ")]
    answer = TABLES[table]([unescaped(cell) for cell in asked])
    return due, escaped(answer.encode())


def main():
    fills = "--fill" in sys.argv[1:]
    seen = differing = 0
    for path in FILES:
        table, head, out = None, [], []
        for line in path.read_text().split("\n"):
            out.append(line)
            if line.startswith("table "):
                table, *head = line.removeprefix("table ").split(" => ")
            elif line and not line.startswith("#") and (found := computed(table, head, line)):
                due, answer = found
                seen += 1
                if due == "?" and fills:
                    out[-1] = line[: -len("?")] + answer
                elif due == "?" or escaped(unescaped(due)) != answer:
                    differing += 1
                    print(f"{path.parent.name}, {table}, at {line}\n  model {answer}")
        if fills:
            path.write_text("\n".join(out))
    print(f"lines {seen}, differing {differing}")
    sys.exit(differing > 0)


if __name__ == "__main__":
    main()
