"""Patterns, values, queries, templates and rules over fields, in plain Python, as docs/API.md states them.

A query is kept as its canonical tree, a template as `{"template": {"source": TREE}}`. A clause over fields is `ALL`, or
a list of pairs of patterns that grant and patterns that except; a rule has two clauses, which both have to grant.
"""

import collections
import re

from trees import NoTree, and_then, compact, each_member, first_names, if_wrong, is_text, items, leaves, members
from trees import no_members, one_field, one_or, only_member, tree_in

ALL = "all"

# ---- patterns


def is_pattern(text):
    """1 to 255 characters, no slash at the front, no lone backslash at the end."""
    return 1 <= len(text) <= 255 and text[0] != "/" and re.fullmatch(r"(?:[^\\]|\\.)*", text, re.DOTALL) is not None


def fits(pattern, text):
    """Whether a pattern stands for the text: all places that it can have reached are followed at once."""
    places, escaped = {0}, False
    for mark in pattern:
        if escaped or mark not in "*?\\":
            places = {at + 1 for at in places if text[at : at + 1] == mark}
            escaped = False
        elif mark == "\\":
            escaped = True
        elif mark == "?":
            places = {at + 1 for at in places if at < len(text)}
        elif places:
            places = set(range(min(places), len(text) + 1))
    return len(text) in places


# ---- values by types


def number_of(text):
    """The 64-bit whole number that a text of an optional sign and 1 to 19 digits is."""
    if re.fullmatch(r"-?[0-9]{1,19}", text) and -(2**63) <= int(text) < 2**63:
        return int(text)
    return None


DATE = re.compile(
    r"([0-9]{4})(?:-([0-9]{2})(?:-([0-9]{2})"
    r"(?:T([0-9]{2}):([0-9]{2})(?::([0-9]{2})(?:\.([0-9]{1,3}))?)?(?:Z|([+-])([0-9]{2}):([0-9]{2}))?)?)?)?"
)


def is_leap(year):
    return year % 4 == 0 and (year % 100 != 0 or year % 400 == 0)


def days_before(year, month):
    """The days from the first one of the year 0 to the first one of the month."""
    months = [31, 29 if is_leap(year) else 28, 31, 30, 31, 30, 31, 31, 30, 31, 30, 31]
    return 365 * year + (year + 3) // 4 - (year + 99) // 100 + (year + 399) // 400 + sum(months[: month - 1])


def moment_of(text):
    """The moment that a date is, in milliseconds since 1970; four digits are a year, others are milliseconds."""
    found = DATE.fullmatch(text)
    if found is None:
        return number_of(text)
    year, month, day = int(found[1]), int(found[2] or 1), int(found[3] or 1)
    hour, minute, second = (int(part or 0) for part in found.group(4, 5, 6))
    milliseconds = int((found[7] or "0").ljust(3, "0"))
    ahead = [int(part or 0) for part in found.group(9, 10)]
    if not 1 <= month <= 12 or hour > 23 or minute > 59 or second > 59 or ahead[0] > 23 or ahead[1] > 59:
        return None
    last = days_before(year, month + 1) if month < 12 else days_before(year + 1, 1)
    if not 1 <= day <= last - days_before(year, month):
        return None
    days = days_before(year, month) + day - 1 - days_before(1970, 1)
    minutes = (days * 24 + hour) * 60 + minute - (ahead[0] * 60 + ahead[1]) * (-1 if found[8] == "-" else 1)
    return (minutes * 60 + second) * 1000 + milliseconds


def typed(kind, scalar):
    """The scalar's value as that of a field of the type, or None."""
    if scalar is None or isinstance(scalar, (dict, list)):
        return None
    if kind == "keyword":
        return scalar if isinstance(scalar, str) else text_in(scalar)
    if isinstance(scalar, bool):
        return None
    if isinstance(scalar, int):
        return scalar
    return number_of(scalar) if kind == "long" else moment_of(scalar)


# ---- queries

SCALARS = (str, int, bool)
CLAUSE_LISTS = ["filter", "must", "must_not", "should"]


def query(tree):
    """The first fault of a query."""
    return only_member(CLAUSES)(tree)


is_scalar = if_wrong(lambda tree: isinstance(tree, SCALARS))
is_scalar_or_null = if_wrong(lambda tree: tree is None or isinstance(tree, SCALARS))
is_count = if_wrong(lambda tree: isinstance(tree, int) and not isinstance(tree, bool) and tree >= 0)


def term_value(tree):
    """A scalar, or an object that has it as `value`."""
    return members({"value": is_scalar}, required=["value"])(tree) if isinstance(tree, dict) else is_scalar(tree)


def is_bounds(tree):
    return bool(tree) and not {"gt", "gte"} <= set(tree) and not {"lt", "lte"} <= set(tree)


bounds = and_then(each_member(dict.fromkeys(["gt", "gte", "lt", "lte"], is_scalar_or_null).get), is_bounds)
queries = one_or(query, least=0)
CLAUSES = {
    "match_all": no_members,
    "match_none": no_members,
    "term": one_field(term_value),
    "terms": one_field(items(is_scalar_or_null)),
    "range": one_field(bounds),
    "exists": members({"field": is_text}, required=["field"]),
    "bool": members({**dict.fromkeys(CLAUSE_LISTS, queries), "minimum_should_match": is_count}),
}


def listed(value):
    return value if isinstance(value, list) else [value]


def canonical(tree):
    """The one tree of a sound query that all its spellings print as."""
    ((kind, inside),) = tree.items()
    if kind == "term":
        ((field, value),) = inside.items()
        return {"term": {field: value["value"] if isinstance(value, dict) else value}}
    if kind == "bool":
        clauses = {name: [canonical(part) for part in listed(inside[name])] for name in CLAUSE_LISTS if name in inside}
        clauses = {name: parts for name, parts in clauses.items() if parts}
        if "minimum_should_match" in inside:
            clauses["minimum_should_match"] = inside["minimum_should_match"]
        return {"bool": clauses}
    return tree


def holds(tree, fields, document):
    """Whether a canonical query holds on a document that was put under a mapping, a dictionary of types by paths."""
    at = collections.defaultdict(list)
    for path, scalar in leaves(document):
        if path in fields and (value := typed(fields[path], scalar)) is not None:
            at[path].append(value)
    return meets(tree, fields, at)


def meets(tree, fields, at):
    ((kind, inside),) = tree.items()
    if kind == "bool":
        return meets_clauses(inside, fields, at)
    if kind in ("match_all", "match_none"):
        return kind == "match_all"
    if kind == "exists":
        return bool(at[inside["field"]])
    ((field, asked),) = inside.items()
    if field not in fields:
        return False
    if kind == "range":
        return meets_range({name: typed(fields[field], bound) for name, bound in asked.items()}, at[field])
    wanted = [typed(fields[field], scalar) for scalar in (asked if kind == "terms" else [asked])]
    return any(value in at[field] for value in wanted if value is not None)


COMPARES = {"gt": lambda a, b: a > b, "gte": lambda a, b: a >= b, "lt": lambda a, b: a < b, "lte": lambda a, b: a <= b}


def meets_range(limits, values):
    if None in limits.values():
        return False
    return any(all(COMPARES[name](value, limit) for name, limit in limits.items()) for value in values)


def meets_clauses(clauses, fields, at):
    met = {name: [meets(part, fields, at) for part in clauses.get(name, [])] for name in CLAUSE_LISTS}
    is_choice = bool(met["should"]) and not met["must"] and not met["filter"]
    least = clauses.get("minimum_should_match", int(is_choice))
    return all(met["must"] + met["filter"]) and not any(met["must_not"]) and sum(met["should"]) >= least


# ---- templates

TAG = re.compile(r"\{\{([^{}]*)\}\}")
JSON_TAG = re.compile(r"\{\{#toJson\}\}([^{}]*)\{\{/toJson\}\}")
STRING_OR_JSON_TAG = re.compile(r'"(?:[^"\\]|\\.)*(?:"|\Z)|' + JSON_TAG.pattern, re.DOTALL)
KNOWN = ["_user.username", "_user.full_name", "_user.email", "_user.roles"]
METADATA = "_user.metadata."


def is_known(name):
    return name in KNOWN or (name.startswith(METADATA) and all(name[len(METADATA) :].split(".")))


def pieces_of(text):
    """The name of a hole, or a list of plain texts and, in pairs of one, names of tags; None where a tag is none."""
    found = JSON_TAG.fullmatch(text)
    if found:
        name = found[1].strip(" ")
        return name if is_known(name) else None
    pieces, at = [], 0
    while (begin := text.find("{{", at)) >= 0:
        found = TAG.match(text, begin)
        if not found or not is_known(found[1].strip(" ")):
            return None
        pieces += [text[at:begin], (found[1].strip(" "),)]
        at = found.end()
    return pieces + [text[at:]]


def tagged(tree):
    """The first fault of a template's tree."""
    if isinstance(tree, dict):
        for name in first_names(tree):
            place = [] if "{{" in name else tagged(tree[name])
            if place is not None:
                return [name] + place
        return None
    if isinstance(tree, list):
        return items(tagged)(tree)
    return [] if isinstance(tree, str) and pieces_of(tree) is None else None


def object_in(text):
    """The object that a text is as JSON, or None."""
    try:
        tree = tree_in(text.encode())
    except NoTree:
        return None
    return tree if isinstance(tree, dict) else None


def in_quotes(found):
    return found[0] if found[0].startswith('"') else compact(found[0]).decode()


def object_of(source):
    """The object that a template's source is, or None."""
    if isinstance(source, str):
        return object_in(STRING_OR_JSON_TAG.sub(in_quotes, source))
    return source if isinstance(source, dict) else None


def source_form(tree):
    tree = object_of(tree)
    return [] if tree is None else tagged(tree)


def without_spaces(tree):
    """The tree of a sound source, without the spaces next to the names in its tags."""
    if isinstance(tree, dict):
        return {name: without_spaces(part) for name, part in tree.items()}
    if isinstance(tree, list):
        return [without_spaces(part) for part in tree]
    if not isinstance(tree, str):
        return tree
    pieces = pieces_of(tree)
    if isinstance(pieces, str):
        return "{{#toJson}}" + pieces + "{{/toJson}}"
    return "".join("{{%s}}" % piece if isinstance(piece, tuple) else piece for piece in pieces)


def value_of(name, person):
    """What a name stands for of a person: a dictionary as PERSON prints it. None where it has no such value."""
    if not name.startswith(METADATA):
        return person[name.removeprefix("_user.")]
    value = person["metadata"]
    for part in name[len(METADATA) :].split("."):
        value = value.get(part) if isinstance(value, dict) else None
    return value


def text_in(value):
    """What a value is inside of a text."""
    if isinstance(value, str):
        return value
    return "" if value is None else compact(value).decode()


def filled(tree, person):
    """The tree of a template with the person's values in place of tags."""
    if isinstance(tree, dict):
        return {name: filled(part, person) for name, part in tree.items()}
    if isinstance(tree, list):
        return [filled(part, person) for part in tree]
    if not isinstance(tree, str):
        return tree
    pieces = pieces_of(tree)
    if isinstance(pieces, str):
        return value_of(pieces, person)
    return "".join(text_in(value_of(*piece, person)) if isinstance(piece, tuple) else piece for piece in pieces)


# ---- queries of roles

ROLE_CLAUSES = {**CLAUSES, "template": members({"source": source_form}, required=["source"])}


def role_query(tree):
    """The first fault of a role's query: a query or a template, or a text that is one as JSON."""
    if isinstance(tree, str):
        tree = object_in(tree)
    return only_member(ROLE_CLAUSES)(tree)


def role_query_tree(tree):
    """What a role's sound query prints as."""
    if isinstance(tree, str):
        tree = object_in(tree)
    if "template" in tree:
        return {"template": {"source": without_spaces(object_of(tree["template"]["source"]))}}
    return canonical(tree)


def query_for(person, tree):
    """The query that a role's query is for a person. A template that gives none gives the one that never holds."""
    if "template" not in tree:
        return tree
    tree = filled(tree["template"]["source"], person)
    return canonical(tree) if query(tree) is None else {"match_none": {}}


# ---- rules over fields

pattern_list = items(if_wrong(lambda tree: isinstance(tree, str) and is_pattern(tree)))
field_security = and_then(members({"except": pattern_list, "grant": pattern_list}), bool)


def pair_of(tree):
    """The patterns that grant and those that except."""
    return tree.get("grant", ["*"]), tree.get("except", [])


def is_granted(clauses, path):
    def by_pair(grant, excepted):
        return any(fits(p, path) for p in grant) and not any(fits(p, path) for p in excepted)

    return all(clause == ALL or any(by_pair(*pair) for pair in clause) for clause in clauses)


def project(clauses, document):
    """What the rule leaves of a document."""
    if all(clause == ALL for clause in clauses):
        return document
    left = left_of(clauses, document, ())
    return {} if left is NOTHING else left


NOTHING = object()


def left_of(clauses, tree, names):
    """What is left of a tree at a path, or NOTHING; no list and no object is left without a member."""
    if isinstance(tree, dict):
        parts = {name: left_of(clauses, part, (*names, name)) for name, part in tree.items()}
        return {name: part for name, part in parts.items() if part is not NOTHING} or NOTHING
    if isinstance(tree, list):
        parts = [left_of(clauses, part, names) for part in tree]
        return [part for part in parts if part is not NOTHING] or NOTHING
    return tree if is_granted(clauses, ".".join(names)) else NOTHING


def project_fields(clauses, fields):
    """The fields of a mapping that the rule grants."""
    return {path: kind for path, kind in fields.items() if is_granted(clauses, path)}


# ---- permissions


def permission(counting, person):
    """Whether it is granted, the documents and the fields that the members of `indices` that count permit together."""
    documents, pairs = ALL, ALL
    if all("query" in group for group in counting):
        documents = [query_for(person, group["query"]) for group in counting]
    if all("field_security" in group for group in counting):
        pairs = [pair_of(group["field_security"]) for group in counting]
    return bool(counting), documents, pairs


def is_permitted(documents, fields, document):
    return documents == ALL or any(holds(tree, fields, document) for tree in documents)
