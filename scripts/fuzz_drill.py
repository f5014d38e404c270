#!/usr/bin/env python3
"""Sends random schedules in random pieces to `esec drill`, and compares every byte with a model.

Each schedule is one run of the program: calls of a few actors, their jobs left in the middle and stepped by turns, with
small caches of roles and small journals among them, and an end of its own now and then: a line that is none, an actor
that is busy or idle. What the program prints, and the status that it ends with, have to be those of `drill.py`; the
first difference is printed, and ends the run with status 1.
"""

import argparse
import base64
import collections
import json
import random
import re
import sys
import time

from drill import FAULTS, LENGTH, STATUSES, Fault, State, drill, last_notes_in, output_of, words_in
from fuzz import body_of, descriptor_of, document_of, mapping_of, spelled_of, user_of
from model import ENTRIES, SECRET
from program import Running, add_program_option, is_missing

SECONDS_EACH = 60
LONGEST = 45
ACTORS = "ABEZ"
ROLES = ["ra", "rb", "rc"]
USERS = ["ann", "bo", "cy"]
INDICES = ["hr", "pay"]
IDS = ["1", "2", "a%2Fb"]
SECRETS = ["s", "t"]
MAPPING = {"mappings": {"properties": {"dept": {"type": "keyword"}, "pay": {"type": "long"}}}}
CLUSTER = [[], [], ["manage_own_api_key"], ["manage_api_key"], ["manage_security"], ["all"], ["all"], ["monitor"]]
PRIVILEGES = [["read"], ["read", "write"], ["all"], ["all"], ["all"], ["index"], ["create_doc"], ["delete"], ["manage"], []]
PRIVILEGES += [["view_index_metadata", "read"]]
QUERIES = [
    {"term": {"dept": "ops"}},
    {"match_none": {}},
    {"range": {"pay": {"gt": 5}}},
    {"template": {"source": {"term": {"dept": "{{_user.username}}"}}}},
    {"template": {"source": {"terms": {"dept": "{{#toJson}}_user.roles{{/toJson}}"}}}},
]
EXPIRATIONS = ["1ms", "999ms", "1s", "2s", "5s", "9s", "20s", "1m", "1d", "11574074d", "0s", "11574075d", "1 s"]
RULES = [{"grant": ["dept"]}, {"except": ["p*"]}, {"grant": ["*"], "except": ["dept"]}, {"grant": []}]
NO_CREDENTIALS = ["-", "-", "Bearer:", "ApiKey:", "Bearer:x", "Bearer:ZWxhc3RpYzp3cm9uZw==", "ApiKey:ZWxhc3RpYzpzM2NyZXQ="]
NO_CREDENTIALS += ["Bearer:ZWxhc3RpYzpzM2NyZXQ=:", "Bearer::ZWxhc3RpYzpzM2NyZXQ="]
OTHER_TARGETS = ["/", "x", "/_search", "/hr/_search", "/hr/", "/-a", "/HR", "/h\u00e9", "/hr?x", "/%ff/_doc/1", "/hr\t"]
OTHER_TARGETS += ["/_security/role/_a", "/hr/_doc/1?refresh"]
OTHER_METHODS = ["GET", "PUT", "POST", "DELETE", "HEAD", "X"]
NO_LINES = [
    b"",
    b" ",
    b"\r",
    b"call",
    b"call A",
    b"call A GET",
    b"call A GET /hr",
    b"call A GET /hr ",
    b"call a GET /hr -",
    b"call AB GET /hr -",
    b"call 1 GET /hr -",
    b"call  A GET /hr -",
    b"call A  GET /hr -",
    b"call A GET  /hr -",
    b"call A GET /hr  -",
    b"call A get /hr -",
    b"call A GET1 /hr -",
    b"call A G-T /hr -",
    b"call A GET /h r -",
    b"call A GET /hr Bearer",
    b"call A GET /hr bearer:x",
    b"call A GET /hr Basic:x",
    b"call A GET /hr Bearer x",
    b"call A GET /hr --",
    b"call A GET /hr -\r",
    b"call A GET /hr -\t{}",
    b"call A GET /hr\t-",
    b"Call A GET /hr -",
    b" call A GET /hr -",
    b"call A GET /\xff -",
    b"call A PUT /hr/_doc/1 - {\"a\":\"\xed\xa0\x80\"}",
    b"\xef\xbb\xbfcall A GET /hr -",
    b"step",
    b"step ",
    b"step a",
    b"step AB",
    b"step  A",
    b"step A ",
    b"step A\r",
    b"step\tA",
    b"Step A",
    b"run",
    b"run A B",
    b"run A ",
    b"runA",
    b"run \xc3",
    b"go A",
    b"stop A",
    b"\x00",
]


def token(name, secret):
    return base64.b64encode(f"{name}:{secret}".encode()).decode()


def some(r, names, most):
    return r.sample(names, r.randrange(most + 1))


class Asking:
    """Who asks, and what is asked, of a node in which a few roles, users, keys, indices and documents come and go."""

    def __init__(self, r, node):
        self.r = r
        self.node = node
        self.keys = []

    def credential(self, target):
        r, kind = self.r, self.r.random()
        if kind < 0.04:
            return r.choice(NO_CREDENTIALS)
        if self.keys and (kind < 0.25 or "api_key" in target and kind < 0.4):
            return "ApiKey:" + r.choice(self.keys)
        known = [name for name in self.node.users if name != "elastic"]
        if known and kind < 0.62:
            name = r.choice(known if r.random() < 0.95 else USERS)
            secret = self.node.users[name]["secret"] if name in known else "s"
            return "Bearer:" + token(name, secret if r.random() < 0.97 else r.choice(SECRETS))
        return "Bearer:" + token("elastic", SECRET)

    def asked(self):
        draws = [
            (3, self.role),
            (3, self.user),
            (2, self.index),
            (4, self.document),
            (1, self.authenticate),
            (3, self.new_key),
            (1, self.list_of_keys),
            (1, self.invalidation),
            (1, self.clearing),
            (0.5, self.other),
        ]
        return self.r.choices([draw for _, draw in draws], [weight for weight, _ in draws])[0]()

    def json(self, tree):
        if self.r.random() < 0.02:
            return body_of(self.r)
        return json.dumps(tree, ensure_ascii=False, separators=self.r.choice([(",", ":"), (", ", ": ")])).encode()

    def group(self):
        r = self.r
        group = {"names": r.choice([["*"], ["hr"], ["h*"], ["pay"], ["?*"]]), "privileges": r.choice(PRIVILEGES)}
        if r.random() < 0.3:
            group["query"] = r.choice(QUERIES)
        if r.random() < 0.3:
            group["field_security"] = r.choice(RULES)
        return group

    def descriptor(self):
        r = self.r
        tree = {"cluster": r.choice(CLUSTER), "indices": [self.group() for _ in range(r.choice([0, 1, 1, 1, 2]))]}
        if r.random() < 0.1:
            tree["run_as"] = ["*"]
        return {name: part for name, part in tree.items() if r.random() < 0.8}

    def role(self):
        r = self.r
        target = f"/_security/role/{r.choice(ROLES)}"
        kind = r.random()
        if kind < 0.1:
            return "GET", target, b""
        if kind < 0.3:
            return "DELETE", target, b""
        body = spelled_of(r, descriptor_of(r)) if kind < 0.35 else self.json(self.descriptor())
        return r.choice(["PUT", "POST"]), target, body

    def user(self):
        r = self.r
        target = f"/_security/user/{r.choice(USERS)}"
        kind = r.random()
        if kind < 0.1:
            return "GET", target, b""
        if kind < 0.2:
            return "DELETE", target, b""
        tree = {"secret": r.choice(SECRETS), "roles": some(r, ROLES, 2) + r.choice([[], [], [], ["later"], ["superuser"]])}
        if r.random() < 0.3:
            tree["metadata"], tree["full_name"] = {"dept": ["ops"]}, "ops"
        return r.choice(["PUT", "POST"]), target, spelled_of(r, user_of(r)) if kind < 0.25 else self.json(tree)

    def index(self):
        r, target = self.r, f"/{self.r.choice(INDICES)}"
        kind = r.random()
        if kind < 0.2:
            return "DELETE", target, b""
        if kind < 0.4:
            return "GET", target + "/_mapping", b""
        if kind < 0.5:
            return "PUT", target, self.json({"mappings": mapping_of(r)})
        return "PUT", target, self.json(MAPPING) if kind < 0.9 else b""

    def document(self):
        r = self.r
        target = f"/{r.choice(INDICES)}/_doc/{r.choice(IDS)}"
        kind = r.random()
        if kind < 0.5:
            return "GET", target, b""
        if kind < 0.6:
            return "DELETE", target, b""
        if kind < 0.65:
            return "PUT", target, document_of(r, self.node, target)
        tree = {"dept": r.choice(["ops", "ann", ["ra", "x"]]), "pay": r.choice([0, 7, "8", "x", None])}
        tree = {name: part for name, part in tree.items() if r.random() < 0.8}
        return r.choice(["PUT", "POST"]), target.replace("_doc", r.choice(["_doc", "_doc", "_create"])), self.json(tree)

    def authenticate(self):
        return "GET", "/_security/_authenticate", b""

    def new_key(self):
        r = self.r
        tree = {"name": r.choice(["k", "l", "\u00e9", "", "n" * 255, "n" * 256]) if r.random() < 0.1 else "k"}
        if r.random() < 0.3:
            tree["expiration"] = r.choice(EXPIRATIONS)
        kind = r.random()
        if kind < 0.5:
            names = r.sample(["x", "y", "\u00e9"], r.choice([0, 1, 1, 2]))
            tree["role_descriptors"] = {name: r.choice([{}, self.descriptor(), {"metadata": {"a": 1}}]) for name in names}
        elif kind < 0.52:
            tree["role_descriptors"] = {"": {}, "x": descriptor_of(r)}
        if r.random() < 0.2:
            tree["metadata"] = {"a": [1, {}]}
        return r.choice(["PUT", "POST"]), "/_security/api_key", self.json(tree)

    def list_of_keys(self):
        return "GET", "/_security/api_key" + self.r.choice(["", "?owner=true", "?owner=true", "?owner=false"]), b""

    def invalidation(self):
        r = self.r
        ids = [base64.b64decode(key).decode().partition(":")[0] for key in self.keys] + ["key-000000000003", "x"]
        tree = {"ids": r.choices(ids, k=r.choice([1, 1, 2, 3])), "owner": r.random() < 0.5}
        return "DELETE", "/_security/api_key", self.json({name: part for name, part in tree.items() if r.random() < 0.8})

    def clearing(self):
        r = self.r
        names = r.choice(["*", "*", "superuser", "*,ra", ",".join(r.choices(ROLES + ["later", "none"], k=r.choice([1, 2, 3])))])
        return r.choice(["PUT", "POST"]), f"/_security/role/{names}/_clear_cache", b""

    def other(self):
        r = self.r
        return r.choice(OTHER_METHODS), r.choice(OTHER_TARGETS), r.choice([b"", b"{}", b"{", body_of(r)])


class Schedule(Asking):
    """A schedule as it is drawn, beside a model that takes each line, so that what is drawn fits what stands."""

    def __init__(self, r):
        self.entries = ENTRIES if r.random() < 0.75 else r.choice([1, 4, 7, 10, r.randrange(1, 20)])
        self.roles = r.choice([512, 512, 512, 1, 1, 2, 2, 3, 4])
        self.actors = ACTORS[: r.choice([2, 3, 4, 4])]
        self.state = State(SECRET, self.entries, self.roles)
        super().__init__(r, self.state.node)
        self.lines, self.printed = [], []
        self.queue = []
        self.end = ("Done",)
        self.patience = r.choice([0.3, 0.5, 0.7])
        self.is_sound = r.random() < 0.6
        self.prepare()
        count = r.randrange(1, LONGEST - len(self.lines))
        while count > 0 and self.end == ("Done",):
            self.add(self.line())
            count -= 1
        self.ends_in_line_feed = self.r.random() < 0.85 or self.lines[-1] == b""

    def options(self):
        words = [] if self.entries == ENTRIES else ["--journal", str(self.entries)]
        return words + ([] if self.roles == 512 else ["--role-cache", str(self.roles)])

    def input(self):
        return b"\n".join(self.lines) + b"\n" * self.ends_in_line_feed

    def add(self, line):
        """Takes a line; behind one that is refused none is taken."""
        self.lines.append(line)
        number = len(self.lines)
        try:
            came = self.state.take(number, line)
        except Fault as fault:
            self.end = "BadSchedule", number, str(fault)
            self.printed.append(f"line {number}: {FAULTS[str(fault)]}".encode())
            return
        self.printed += came
        for text in came:
            self.keys += re.findall(r'"encoded":"([^"]+)"', text.decode())

    # -- lines

    def prepare(self):
        """Some calls by elastic, so that what comes then finds an index, roles and users."""
        r, draws = self.r, [self.index, self.role, self.user, self.user, self.document]
        for draw in draws[: r.choice([0, 3, 4, 5, 5])]:
            method, target, body = draw()
            while method not in ("PUT", "POST") or not body.startswith(b"{"):
                method, target, body = draw()
            credential = token("elastic", SECRET)
            for line in (f"call E {method} {target} Bearer:{credential} ".encode() + body.replace(b"\n", b" "), b"run E"):
                if self.end == ("Done",):
                    self.add(line)

    def line(self):
        r, going = self.r, sorted(self.state.jobs)
        resting = [actor for actor in self.actors if actor not in going]
        if self.queue:
            return self.queue.pop(0)
        kind = 1 if self.is_sound else r.random()
        if kind < 0.006:
            return r.choice(NO_LINES)
        if kind < 0.008:
            return self.damaged(self.call(r.choice(self.actors)))
        if kind < 0.010:
            return self.long_line(r.choice(self.actors))
        if kind < 0.018:
            return b"%s %c" % (r.choice([b"step", b"run"]), ord(r.choice(resting or [*self.actors, "Q"])))
        if kind < 0.022 and going:
            return self.call(r.choice(going))
        looked = [job for job in self.state.jobs.values() if job.todo and job.todo[0] not in (job.look, job.seen)]
        if resting and looked and r.random() < 0.25 and self.against(r.choice(looked), r.choice(resting)):
            return self.queue.pop(0)
        if not resting or (going and r.random() < self.patience):
            word = b"step" if r.random() < 0.8 else b"run"
            return b"%s %c" % (word, ord(r.choice(going)))
        return self.call(r.choice(resting))

    def against(self, job, actor):
        """Queues a change by elastic of what the job's look found, and tells whether there is one to make."""
        r, (kind, name, _) = self.r, job.asked.said
        if kind == "key":
            method, target, tree = "DELETE", "/_security/api_key", {"ids": [name]}
        elif name == "elastic" or name not in self.node.users:
            return False
        else:
            role = r.choice(self.node.users[name]["person"]["roles"] or ROLES)
            method, target, tree = r.choice(
                [
                    ("PUT", f"/_security/role/{role}", {}),
                    ("PUT", f"/_security/role/{role}", self.descriptor()),
                    ("DELETE", f"/_security/role/{role}", {}),
                    ("PUT", f"/_security/user/{name}", {"secret": r.choice(SECRETS), "roles": some(r, ROLES, 2)}),
                    ("DELETE", f"/_security/user/{name}", {}),
                    ("PUT", f"/_security/role/{role}/_clear_cache", {}),
                ]
            )
        line = f"call {actor} {method} {target} Bearer:{token('elastic', SECRET)} {json.dumps(tree)}"
        self.queue = [line.encode(), b"run " + actor.encode()]
        return True

    def damaged(self, line):
        line = bytearray(line)
        at = self.r.randrange(len(line))
        line[at : at + 1] = self.r.choice([b"", b" ", bytes([self.r.randrange(256)]), line[at : at + 1] * 2])
        return bytes(line).replace(b"\n", b" ")

    def long_line(self, actor):
        """A line that is as long as it may be, or one byte longer, or nearly so."""
        front = f'call {actor} PUT /hr/_doc/1 Bearer:{token("elastic", SECRET)} {{"a":"'.encode()
        length = LENGTH + self.r.choice([-1, 0, 1])
        return front + b"x" * (length - len(front) - 2) + b'"}'

    def call(self, actor):
        method, target, body = self.asked()
        line = f"call {actor} {method} {target} {self.credential(target)}".encode()
        body = body.replace(b"\n", b" ")
        if body:
            return line + b" " + self.r.choice([b"", b"", b"", b"", b"", b" ", b"\t"]) + body
        return line + self.r.choice([b"", b"", b" ", b" {", b"  "])


def pieces(r, data):
    """The bytes cut at random, now and then between a line and its line feed."""
    most, at = r.choice([1, 10, 100, 1000, 100000]), 0
    most = max(most, len(data) // 2000)
    while at < len(data):
        size = r.randrange(1, most + 1)
        yield data[at : at + size]
        at += size


def difference(schedule, got, status):
    """What is printed where the output or the status isn't as it has to be."""
    due = output_of(schedule.printed)
    due_status = STATUSES[schedule.end[0]]
    if got == due and status == due_status:
        return None
    came, count = got.split(b"\n"), 0
    lines = due.split(b"\n")
    while count < min(len(came), len(lines)) and came[count] == lines[count]:
        count += 1
    shown = "".join(f"  {number}: {line[:1500]!r}\n" for number, line in enumerate(schedule.lines, 1))
    return (
        f"options {schedule.options()}, status {due_status} is due, and {status} came\n{shown}"
        f"at line {count + 1} of the output\n  due  {lines[count : count + 3]!r}\n  came {came[count : count + 3]!r}"
    )


def run(options, number):
    """A schedule, and its difference, if there is one."""
    r = random.Random(f"{options.seed}/{number}")
    schedule = Schedule(r)
    data = schedule.input()
    printed, end = drill(data, SECRET, schedule.entries, schedule.roles)
    assert (printed, end) == (schedule.printed, schedule.end), number
    if options.model_alone:
        return schedule, None
    running = Running(options.program, SECRET, SECONDS_EACH, ["drill", *schedule.options()])
    running.send(pieces(r, data), last=True)
    got = running.read(len(output_of(printed)) + 100000)
    status = running.end()
    if running.hung:
        return schedule, f"the program didn't end in {SECONDS_EACH} seconds, after {len(got)} bytes"
    return schedule, difference(schedule, got, status)


def counted(counts):
    return ", ".join(f"{word}: {counts[word]}" for word in sorted(counts))


def main():
    parser = argparse.ArgumentParser(description=__doc__.splitlines()[0])
    parser.add_argument("--schedules", type=int, default=20000)
    parser.add_argument("--seed", type=int, default=1)
    parser.add_argument("--model-alone", action="store_true", help="only draw schedules, and count what the model prints")
    add_program_option(parser)
    options = parser.parse_args()
    if not options.model_alone and is_missing(options.program):
        return 0
    began = time.monotonic()
    words, last, ends = collections.Counter(), collections.Counter(), collections.Counter()
    lines = pushed_out = dropped = left = 0
    for number in range(options.schedules):
        schedule, found = run(options, number)
        if found:
            print(f"seed {options.seed}, schedule {number}: {found}")
            return 1
        words += words_in(schedule.printed)
        last += last_notes_in(schedule.printed)
        ends[schedule.end[-1]] += 1
        lines += len(schedule.lines)
        pushed_out += schedule.state.cache.pushed_out
        dropped += schedule.state.cache.dropped
        left += len(schedule.state.jobs)
    seconds = time.monotonic() - began
    print(f"{options.schedules} schedules of {lines} lines, {seconds:.1f} seconds, no difference")
    print("lines printed: " + counted(words))
    print("last notes and replies: " + counted(last))
    print(f"ends: {counted(ends)}; {left} jobs left unfinished")
    print(f"halves in the cache: {dropped} dropped by changes, {pushed_out} pushed out of a full one")
    return 0


if __name__ == "__main__":
    sys.exit(main())
