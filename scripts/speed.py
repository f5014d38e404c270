#!/usr/bin/env python3
"""Measures puts and gets a second of `esec run`, with few and with many documents in one index.

Each reply is compared with the one that is due. The requests are made before the clock starts. With
`--before` another program (an earlier build, say) is measured in the same run, in turns with this one.
With `--roles` gets are measured alone: by the user `elastic`, by a user of one role of ten members with
queries and rules over fields, and by one of thirty such roles.
"""

import argparse
import base64
import json
import random
import sys
import time
from pathlib import Path

from model import SECRET, Node, response
from program import Running, add_program_option

CREDENTIALS = "Bearer ZWxhc3RpYzpzM2NyZXQ="
PIECE = 65536
SECONDS = 1800
# as many changes as a node may accept; an earlier build has no such option and no such limit
ALL_CHANGES = ("run", "--journal", "200000")


class Batch:
    """Requests and the responses that are due."""

    def __init__(self, node, credentials=CREDENTIALS):
        self.node = node
        self.credentials = credentials
        self.count = 0
        self.sent = bytearray()
        self.due = bytearray()
        self.got = {}

    def add(self, method, target, body=b""):
        head = f"{method} {target} HTTP/1.1\r\ncontent-length: {len(body)}\r\nauthorization: {self.credentials}\r\n\r\n"
        self.sent += head.encode() + body
        status, reply, allow = self.node.answer(method, target, {"authorization": [self.credentials]}, body)
        self.due += response(status, self.node.place, reply, False, allow)
        self.count += 1

    def add_get(self, target):
        """A get in a batch of gets alone, in which the replies to one target are the same."""
        if target not in self.got:
            before = len(self.sent), len(self.due)
            self.add("GET", target)
            self.got[target] = bytes(self.sent[before[0] :]), bytes(self.due[before[1] :])
            return
        sent, due = self.got[target]
        self.sent += sent
        self.due += due
        self.count += 1

    def run(self, running, last=False):
        """Requests a second."""
        pieces = [bytes(self.sent[at : at + PIECE]) for at in range(0, len(self.sent), PIECE)]
        began = time.monotonic()
        running.send(pieces, last)
        got = running.read(len(self.due))
        seconds = time.monotonic() - began
        running.writer.join()
        if got != self.due:
            sys.exit(f"another reply than is due, or the program ended: {len(got)} of {len(self.due)} bytes came")
        return self.count / seconds


def document(r):
    return b'{"dept":"ops","hired":"2024-02-29","pay":%d}' % r.randrange(10**6)


def measure(options, program, documents):
    r = random.Random(documents)
    running = Running(program, SECRET, SECONDS, ALL_CHANGES if program == options.program else ("run",))
    node = Node(entries=200000)
    fill, puts, gets = Batch(node), Batch(node), Batch(node)
    fill.add("PUT", "/hr")
    for number in range(documents):
        fill.add("PUT", f"/hr/_doc/{number}", document(r))
    for _ in range(options.requests):
        puts.add("PUT", f"/hr/_doc/{r.randrange(documents)}", document(r))
    for _ in range(options.requests):
        gets.add_get(f"/hr/_doc/{r.randrange(documents)}")
    rates = [fill.run(running), puts.run(running), gets.run(running, last=True)]
    if running.end() != 0:
        sys.exit("the program didn't end with status 0")
    print(f"{program}: {documents} documents: {rates[0]:.0f} first puts, {rates[1]:.0f} puts, {rates[2]:.0f} gets a second")
    return rates


# ---- gets by users with restricted roles

ROLES, MEMBERS = 30, 10
DOCUMENTS = 1000
FIELDS = {"dept": "keyword", "hired": "date", "pay": "long", "boss.name": "keyword"}


def member_of(role, number):
    """A member of `indices` with a query and a rule; one of the ten has a template."""
    queries = [
        {"term": {"dept": f"d{role}.{number}"}},
        {"range": {"pay": {"gte": 1000 * role + 10 * number, "lt": 1000 * role + 10 * number + 10}}},
        {"bool": {"filter": [{"exists": {"field": "hired"}}, {"terms": {"boss.name": [f"b{role}.{number}", "b"]}}]}},
    ]
    query = queries[number % 3] if number < MEMBERS - 1 else {"template": {"source": {"term": {"dept": "{{_user.metadata.dept}}"}}}}
    rule = {"grant": ["dept", "boss.*", f"more.{number}*"], "except": ["*.secret"]}
    return {"names": ["hr*"], "privileges": ["read"], "field_security": rule, "query": query}


def seen_document(r):
    tree = {
        "dept": r.choice(["ops", f"d{r.randrange(ROLES)}.{r.randrange(MEMBERS)}"]),
        "hired": "2024-02-29",
        "pay": r.randrange(1000 * ROLES),
        "boss": {"name": r.choice(["b", "c", f"b{r.randrange(ROLES)}.2"]), "secret": "x"},
        "more": {str(n): n for n in range(10)},
    }
    return json.dumps(tree).encode()


def measure_roles(options):
    """Gets a second by each of the users."""
    r = random.Random(ROLES)
    node = Node(entries=200000)
    fill = Batch(node)
    fields = {path: {"type": kind} for path, kind in FIELDS.items()}
    fill.add("PUT", "/hr", json.dumps({"mappings": {"properties": fields}}).encode())
    for number in range(DOCUMENTS):
        fill.add("PUT", f"/hr/_doc/{number}", seen_document(r))
    for role in range(ROLES):
        members = [member_of(role, number) for number in range(MEMBERS)]
        fill.add("PUT", f"/_security/role/r{role}", json.dumps({"indices": members}).encode())
    batches = {"elastic": Batch(node)}
    for name, count in (("one", 1), ("thirty", ROLES)):
        user = {"secret": "s", "roles": [f"r{role}" for role in range(count)], "metadata": {"dept": "ops"}}
        fill.add("PUT", f"/_security/user/{name}", json.dumps(user).encode())
        batches[name] = Batch(node, "Bearer " + base64.b64encode(f"{name}:s".encode()).decode())
    for batch in batches.values():
        for _ in range(options.requests):
            batch.add_get(f"/hr/_doc/{r.randrange(DOCUMENTS)}")
    running = Running(options.program, SECRET, SECONDS, ALL_CHANGES)
    fill.run(running)
    rates = {name: batch.run(running, last=name == "thirty") for name, batch in batches.items()}
    if running.end() != 0:
        sys.exit("the program didn't end with status 0")
    seen = {name: sum(b" 200 OK" in due for _, due in batch.got.values()) for name, batch in batches.items()}
    for name, title in (("elastic", "the user elastic"), ("one", "a user of one role of 10 members"), ("thirty", "a user of 30 such roles")):
        print(f"{title}: {rates[name]:.0f} gets a second, {seen[name]} of {len(batches[name].got)} documents seen")
    print(f"elastic by one role: {rates['elastic'] / rates['one']:.2f}, elastic by 30 roles: {rates['elastic'] / rates['thirty']:.2f}")


def main():
    parser = argparse.ArgumentParser(description=__doc__.splitlines()[0])
    parser.add_argument("--requests", type=int, default=90000, help="puts, and gets, that are measured")
    parser.add_argument("--documents", type=int, nargs=2, default=[1000, 100000], metavar=("FEW", "MANY"))
    parser.add_argument("--before", type=Path, help="another program to compare with")
    parser.add_argument("--roles", action="store_true", help="gets by users with restricted roles alone")
    add_program_option(parser)
    options = parser.parse_args()
    if options.roles:
        measure_roles(options)
        return
    few, many = (measure(options, options.program, documents) for documents in options.documents)
    print(f"few by many: {few[1] / many[1]:.2f} for puts, {few[2] / many[2]:.2f} for gets")
    if options.before:
        turns = [(measure(options, options.before, n), measure(options, options.program, n)) for n in options.documents * 2]
        for n in options.documents:
            both = [turn for turn, count in zip(turns, options.documents * 2) if count == n]
            rates = [max(before[i] for before, _ in both) / max(after[i] for _, after in both) for i in (1, 2)]
            print(f"{n} documents, the other program by this one: {rates[0]:.2f} for puts, {rates[1]:.2f} for gets")


if __name__ == "__main__":
    main()
