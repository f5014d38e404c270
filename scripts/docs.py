#!/usr/bin/env python3
"""Compares the table "Who may do what" of docs/API.md with a row that the gate runs.

The row of crates/esec_rows/stdin has each request of the table, sent by a user without roles, and the denial that names
the action and the privileges of the table. It is printed as it has to be where it differs, with status 1.
"""

import json
import re
import sys
from pathlib import Path

TOP = Path(__file__).resolve().parent.parent
NAME = "who may do what, as the page of the interface has it"
BODIES = {"/_security/user/{name}": '{"secret":"s","roles":[]}', "/_security/api_key": '{"name":"k"}'}


def table():
    """Each method and path with what its body says, its action, what it is on, and the privileges, as the page has them."""
    page = (TOP / "docs/API.md").read_text()
    part = page.split("### Who may do what", 1)[1].split("\n\n| Reply", 1)[0]
    for line in part.splitlines():
        cells = [cell.strip() for cell in line.strip("|").split("|")]
        found = re.match(r"`(\w+)` on the (index|cluster)$", cells[1]) if len(cells) == 3 else None
        if found:
            words = re.findall(r"`([^`]+)`", cells[0])
            said = [word for word in words if word.startswith('"')]
            *methods, (last, path) = [word.split() for word in words if not word.startswith('"')]
            for method in [*(method for (method,) in methods), last]:
                yield method, path, "{" + ",".join(said) + "}", found[1], found[2], re.findall(r"`([^`]+)`", cells[2])


def row():
    yield f"row {NAME}"
    yield 'ask elastic:s3cret PUT /_security/user/none {"secret":"s","roles":[]}'
    yield 'got 200 2 {"created":true}'
    count = 1
    for method, path, said, action, kind, privileges in table():
        target = path.format(index="hr", id="1", name="a", names="a,b")
        body = BODIES.get(path, "{}") if method in ("PUT", "POST") else ""
        if method == "DELETE" and path == "/_security/api_key":
            body = said if said != "{}" else '{"ids":["a"]}'
        where = " on index [hr]" if kind == "index" else ""
        reason = (
            f"action [{action}]{where} is unauthorized for user [none], "
            f"this action is granted by the {kind} privileges [{','.join(privileges)}]"
        )
        error = {"error": {"reason": reason, "type": "security_exception"}, "status": 403}
        yield f"ask none:s {method} {target} {body}".rstrip()
        yield "got 403 2 " + json.dumps(error, separators=(",", ":"))
        count += 1
    yield f"end Done receipts {count} place 2"


def main():
    due = list(row())
    came = (TOP / "crates/esec_rows/stdin").read_text().split("\n\n")
    if any("\n".join(due) in part for part in came):
        print(f"the page and the row agree on {len(due) // 2 - 1} requests")
        return 0
    print("\n".join(due))
    return 1


if __name__ == "__main__":
    sys.exit(main())
