#!/usr/bin/env python3
"""Talks to `esec run` about keys, one random request after the other, and compares every byte with a model.

What is drawn for a key, and the moment at which it is made, are known from the reply that tells them alone, so each
request is sent when the one before is answered. Users and keys run as others, and make, list, invalidate and use keys;
each key that is made expires, much later than the talk ends. The first difference is printed, and ends with status 1.
"""

import argparse
import base64
import collections
import json
import random
import sys
import time

from drill import READS
from fuzz import any_case
from fuzz_drill import ROLES, USERS, Asking, token
from model import SECRET, ZEROS, Node, Refusal, call_of, response
from program import Running, add_program_option
from records import duration_of

SECONDS_EACH = 300
SLACK = 60_000
DURATIONS = ["1d", "2h", "999999999999999ms", "11574074d"]


class Talk(Asking):
    """A talk with one run of the program."""

    def __init__(self, r, running):
        super().__init__(r, Node())
        self.running = running
        self.statuses = collections.Counter()
        self.granted = {}
        self.drawn = set()

    def descriptor(self):
        tree = super().descriptor()
        if self.r.random() < 0.4:
            tree["run_as"] = self.r.choice([["*"], ["c?"], ["bo"], ["a*", "elastic"]])
        return tree

    def new_key(self):
        """A request that makes a key, with an expiration where it may be accepted."""
        method, target, body = super().new_key()
        try:
            tree = json.loads(body)
        except (ValueError, RecursionError):
            return method, target, body
        if isinstance(tree, dict) and "name" in tree:
            tree["expiration"] = self.r.choice(DURATIONS)
            body = json.dumps(tree, ensure_ascii=False).encode()
        return method, target, body

    def fields(self, target):
        r, fields = self.r, {}
        credential = self.credential(target)
        if credential != "-":
            fields["authorization"] = [credential.replace(":", " ", 1)]
        if r.random() < 0.35:
            fields["es-security-runas-user"] = [r.choice([*USERS, *self.node.users, "elastic", "nobody", ""])]
        if r.random() < 0.03:
            fields["esec-seen"] = [str(self.node.place + r.choice([0, 0, 1]))]
        return fields

    def read(self):
        """One response, or what comes of one before the output ends."""
        got = b""
        while b"\r\n\r\n" not in got:
            part = self.running.read(1)
            if not part:
                return got
            got += part
        head, _, _ = got.partition(b"\r\n\r\n")
        lengths = [line[16:] for line in head.split(b"\r\n") if line.startswith(b"content-length: ")]
        return got + self.running.read(int(lengths[0]) if lengths and lengths[0].isdigit() else 0)

    def drawn_request(self):
        """The method, the target, the body and the fields of a request that can stand in a head."""
        method, target, body = self.asked()
        while "\t" in target or not target.isascii():
            method, target, body = self.asked()
        return method, target, body, self.fields(target)

    def ask(self, method, target, body, fields):
        """Sends a request, and tells the difference of its response, if there is one."""
        lines = [any_case(self.r, name) + ": " + value for name, values in fields.items() for value in values]
        head = "\r\n".join([f"{method} {target} HTTP/1.1", *lines, f"content-length: {len(body)}"]) + "\r\n\r\n"
        now = time.time_ns() // 1_000_000
        self.running.send([head.encode() + body], last=False)
        got = self.read()
        self.running.writer.join()
        made = self.made_in(got, method, target, body)
        moment, drawn = made or (now, ZEROS)
        if made and (abs(moment - now) > SLACK or drawn in self.drawn):
            return f"a key was made at {moment} of {drawn.hex()}, now it is {now}\n  sent {head!r}\n  came {got!r}"
        self.drawn |= {drawn} if made else set()
        self.note(method, target, fields, body, moment)
        status, reply, allow = self.node.answer(method, target, fields, body, moment, drawn)
        due = response(status, self.node.place, reply, False, allow)
        if got != due:
            return f"sent {head.encode() + body!r}\n  due  {due!r}\n  came {got!r}"
        self.statuses[f"{status} as another" if "es-security-runas-user" in fields else str(status)] += 1
        if made:
            self.keys = (self.keys + [json.loads(reply)["encoded"]])[-12:]
        return None

    def made_in(self, got, method, target, body):
        """The moment at which a key was made and what was drawn for it, where the response tells of one."""
        head, _, reply = got.partition(b"\r\n\r\n")
        if not head.startswith(b"HTTP/1.1 200 ") or method not in ("POST", "PUT") or target != "/_security/api_key":
            return None
        try:
            tree = json.loads(reply)
            drawn = base64.urlsafe_b64decode(tree["api_key"] + "==")
            return tree["expiration"] - duration_of(json.loads(body)["expiration"]), drawn
        except (ValueError, KeyError, TypeError):
            return None

    def note(self, method, target, fields, body, moment):
        """Counts who is granted something, as another or not, and whether it is a read."""
        try:
            call = call_of(method, target, fields, body, moment)
            subject, _ = self.node.decide(call)
        except Refusal:
            return
        who = subject.kind + " as another" * (subject.target is not None)
        self.granted.setdefault(who, collections.Counter())["read" if call.kind in READS else "change"] += 1


def first_requests(talk):
    """Roles and users by elastic, of whom some may run as others and make keys."""
    by_elastic = {"authorization": ["Bearer " + token("elastic", SECRET)]}
    bodies = {
        f"/_security/role/{ROLES[0]}": {"cluster": ["manage_own_api_key"], "run_as": ["*"], "indices": []},
        f"/_security/role/{ROLES[1]}": {"cluster": ["manage_api_key"], "run_as": ["c?"], "indices": [talk.group()]},
        f"/_security/user/{USERS[0]}": {"secret": "s", "roles": ROLES[:1]},
        f"/_security/user/{USERS[1]}": {"secret": "s", "roles": ROLES[:2]},
        "/hr": {},
    }
    return [("PUT", target, json.dumps(tree).encode(), by_elastic) for target, tree in bodies.items()]


def run(options, number):
    """A talk, and its difference, if there is one."""
    running = Running(options.program, SECRET, SECONDS_EACH)
    talk = Talk(random.Random(f"{options.seed}/{number}"), running)
    first = first_requests(talk)
    found = None
    for at in range(options.each):
        found = found or talk.ask(*(first[at] if at < len(first) else talk.drawn_request()))
    if found:
        running.stop()
    running.send([], last=True)
    left = running.read(1000)
    status = running.end()
    if found or not left and status == 0:
        return talk, found
    return talk, f"behind the last response {left!r} came, and status {status}"


def main():
    parser = argparse.ArgumentParser(description=__doc__.splitlines()[0])
    parser.add_argument("--requests", type=int, default=20000)
    parser.add_argument("--each", type=int, default=400, help="requests of one run of the program")
    parser.add_argument("--seed", type=int, default=1)
    add_program_option(parser)
    options = parser.parse_args()
    began = time.monotonic()
    statuses, granted, keys, count, number = collections.Counter(), {}, 0, 0, 0
    while count < options.requests:
        talk, found = run(options, number)
        if found:
            print(f"seed {options.seed}, talk {number}, place {talk.node.place}: {found}")
            return 1
        statuses += talk.statuses
        keys += len(talk.drawn)
        for who, counts in talk.granted.items():
            granted[who] = granted.get(who, collections.Counter()) + counts
        count += options.each
        number += 1
    seconds = time.monotonic() - began
    print(f"{count} requests in {number} talks, {keys} keys made, {seconds:.1f} seconds, no difference")
    print("replies: " + ", ".join(f"{status}: {statuses[status]}" for status in sorted(statuses)))
    told = (f"{who}: {counts['read']} reads and {counts['change']} changes" for who, counts in sorted(granted.items()))
    print("granted: " + ", ".join(told))
    return 0


if __name__ == "__main__":
    sys.exit(main())
