#!/usr/bin/env python3
"""What `esec drill` prints, in plain Python: a model to compare the program with.

A schedule comes from standard input, the lines that are due go to standard output, and the status is that of the
program. `model.py` answers each call; here are the lines of a schedule, the steps of a call, and the cache of composed
roles, of which only the names are kept, since its content is never other than what the names stand for.
"""

import argparse
import collections
import re
import sys

from model import ENTRIES, SECRET, Node, Refusal, call_of
from records import credentials, drops, halves

LINES = 1_000_000
LENGTH = 1_100_000
ROLES = 512
CALL = re.compile(r"call ([A-Z]) ([A-Z]+) ([^ ]+) (-|(?:Bearer|ApiKey):[^ ]*)(?: (.*))?", re.DOTALL)
STEP = re.compile(r"(step|run) ([A-Z])")
STATUSES = {"Done": 0, "ReadFault": 3, "Spent": 8, "BadSchedule": 10}
FAULTS = {"bad": "bad line", "idle": "idle actor", "busy": "busy actor"}
READS = ("authenticate", "get", "get_mapping", "get_role", "get_user", "list_keys")


class Fault(Exception):
    """What a line is refused for: `bad`, `idle` or `busy`."""


class RoleCache:
    """The names of the halves whose roles are composed, most recent first."""

    def __init__(self, capacity):
        self.capacity = capacity
        self.names = []
        self.pushed_out = self.dropped = 0

    def has_all(self, names):
        return all(name in self.names for name in names)

    def bring(self, name):
        """Makes a name the first one. Only one that is new drops the last of a full cache."""
        if name in self.names:
            self.names.remove(name)
        elif len(self.names) == self.capacity:
            self.names.pop()
            self.pushed_out += 1
        self.names.insert(0, name)

    def drop(self, change):
        """Takes out what the change of an entry drops, if it changes users, roles or keys or clears the cache."""
        kept = [name for name in self.names if change is None or not drops(change, name)]
        self.dropped += len(self.names) - len(kept)
        self.names = kept


class Job:
    """A call, or the refusal that its own text gets, on its way: the steps that are still to do, and the reply."""

    def __init__(self, state, asked):
        self.state = state
        self.asked = asked
        self.reply = None
        self.todo = [self.seen if isinstance(asked, Refusal) else self.look]

    def step(self):
        """Makes the next step, and tells its note. The reply is due when there is nothing left to do."""
        return self.todo.pop(0)()

    def answered(self, place, status, body):
        self.reply = f"reply {status} {place} ".encode() + body

    def seen(self):
        place = self.state.node.place
        self.answered(place, *self.asked.reply[:2])
        return f"seen {place}"

    def look(self):
        """Finds who asks and what it is to be decided by, all of it as it stands now."""
        stood, cache, call = self.state.stands(), self.state.cache, self.asked
        subject = stood.records.subject(call.said, call.run_as, call.moment)
        self.answer_at(stood)
        if subject is None:
            return f"unknown {stood.place}"
        names = [(kind, tuple(named) if kind == "names" else named) for kind, named in halves(subject)]
        found = cache.has_all(names)
        for name in names:
            if found:
                cache.bring(name)
            else:
                self.todo.append(lambda name=name: self.publish(name, stood.count))
        if self.reply is None:
            self.todo.append(self.change)
        return f"{'hit' if found else 'miss'} {stood.place} {stood.count}"

    def answer_at(self, stood):
        """The reply where it depends on what stood alone; that to a change that is granted there doesn't."""
        try:
            if self.asked.kind in READS:
                self.answered(stood.place, *stood.answer_call(self.asked))
            else:
                stood.decide(self.asked)
        except Refusal as refusal:
            self.answered(stood.place, *refusal.reply[:2])

    def publish(self, name, began):
        stands = self.state.node.count
        if began != stands:
            return f"stale {began} {stands}"
        self.state.cache.bring(name)
        return "published"

    def change(self):
        node = self.state.node
        before = node.place
        word = "refused"
        try:
            reply = node.answer_call(self.asked)
        except Refusal as refusal:
            reply = refusal.reply[:2]
            word = "full" if refusal.kind == "journal_full" else word
        if node.place > before:
            word = "changed"
            self.state.cache.drop(node.change)
        self.answered(node.place, *reply)
        return f"{word} {node.place}"


class State:
    """A node with its cache, and the jobs of the actors."""

    def __init__(self, secret, entries, roles):
        self.node = Node(secret, entries)
        self.cache = RoleCache(roles)
        self.jobs = {}
        self.kept = None

    def stands(self):
        """The node as it stands; looks at one place share it."""
        if self.kept is None or self.kept.place != self.node.place:
            self.kept = self.node.frozen()
        return self.kept

    def take(self, number, line):
        """Takes a line, and gives the lines that it prints."""
        try:
            text = line.decode() if len(line) <= LENGTH else ""
        except UnicodeDecodeError:
            raise Fault("bad") from None
        called = CALL.fullmatch(text)
        if called:
            self.start(number, *called.groups(default=""))
            return []
        stepped = STEP.fullmatch(text)
        if not stepped:
            raise Fault("bad")
        word, actor = stepped.groups()
        if actor not in self.jobs:
            raise Fault("idle")
        return self.steps(actor, only_one=word == "step")

    def start(self, number, actor, method, target, credential, body):
        if actor in self.jobs:
            raise Fault("busy")
        said = None if credential == "-" else credentials(credential.replace(":", " ", 1).encode())
        try:
            asked = call_of(method, target, {}, body.encode(), 1000 * number)._replace(said=said)
        except Refusal as refusal:
            asked = refusal
        self.jobs[actor] = Job(self, asked)

    def steps(self, actor, only_one):
        job, mark = self.jobs[actor], actor.encode() + b" "
        printed = [mark + job.step().encode()]
        while job.todo and not only_one:
            printed.append(mark + job.step().encode())
        if not job.todo:
            del self.jobs[actor]
            printed.append(mark + job.reply)
        return printed


def lines_in(schedule, is_failing):
    """The lines of a schedule; the last may lack its line feed, but where reading fails behind it."""
    at = 0
    while at < len(schedule):
        end = schedule.find(b"\n", at)
        if end < 0 and is_failing:
            return
        end = len(schedule) if end < 0 else end
        yield schedule[at:end]
        at = end + 1


def drill(schedule, secret=SECRET, entries=ENTRIES, roles=ROLES, is_failing=False):
    """The lines that are due, and how it ends: a word, and for a bad schedule the line's number and its fault."""
    state, printed = State(secret, entries, roles), []
    for number, line in enumerate(lines_in(schedule, is_failing), 1):
        if number > LINES:
            return printed, ("Spent",)
        try:
            printed += state.take(number, line)
        except Fault as fault:
            what = str(fault)
            return [*printed, f"line {number}: {FAULTS[what]}".encode()], ("BadSchedule", number, what)
    return printed, ("ReadFault",) if is_failing else ("Done",)


def read_by(schedule, end):
    """How many bytes of what there is have to be read for this end: those that show how the last line ends, or all."""
    if end[0] in ("Done", "ReadFault"):
        return len(schedule)
    at = 0
    for _ in range(LINES if end[0] == "Spent" else end[1] - 1):
        at = schedule.index(b"\n", at) + 1
    if end[0] == "Spent":
        return at + 1
    feed = schedule.find(b"\n", at)
    return min(len(schedule) if feed < 0 else feed + 1, at + LENGTH + 1)


def output_of(printed):
    return b"".join(line + b"\n" for line in printed)


def told_in(printed):
    """The word of each note, and the word and the status of each reply."""
    told = [line.decode().split(" ", 3)[1:3] for line in printed if not line.startswith(b"line ")]
    return [" ".join(words) if words[0] == "reply" else words[0] for words in told]


def words_in(printed):
    return collections.Counter(told_in(printed))


def last_notes_in(printed):
    """How often each status of a reply came behind each note."""
    told = told_in(printed)
    pairs = zip(told, told[1:])
    return collections.Counter(f"{note} {reply.removeprefix('reply ')}" for note, reply in pairs if reply.startswith("reply"))


def main():
    parser = argparse.ArgumentParser(description=__doc__.splitlines()[0])
    parser.add_argument("command", nargs="?", choices=["drill"], help="taken and passed over, as the program has it")
    parser.add_argument("--admin", required=True, metavar="SECRET")
    parser.add_argument("--journal", type=int, default=ENTRIES)
    parser.add_argument("--role-cache", type=int, default=ROLES)
    options = parser.parse_args()
    printed, end = drill(sys.stdin.buffer.read(), options.admin, options.journal, options.role_cache)
    sys.stdout.buffer.write(output_of(printed))
    return STATUSES[end[0]]


if __name__ == "__main__":
    sys.exit(main())
