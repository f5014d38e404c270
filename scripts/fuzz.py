#!/usr/bin/env python3
"""Sends random requests in random pieces to `esec run`, and compares every byte with a model.

Each connection is one run of the program with a part of the requests, valid ones and others, of
several users whose roles come and go and show them parts of the documents, and an end of its own:
the end of the input, a request that asks for the close, a request that is cut off, or bytes that no
request begins with. What the program writes, and the status that it ends with, have to be those of
the model; the first difference is printed, and ends the run with status 1.
"""

import argparse
import base64
import collections
import json
import random
import sys
import time

from bodies import CLUSTER_PRIVILEGES, INDEX_PRIVILEGES
from model import FIXED_400, SECRET, Node, response
from program import Running, add_program_option

REQUESTS_EACH = 2000
SECONDS_EACH = 300

# ---- what is drawn

INDEX_NAMES = ["hr", "pay", "0", "z", "a.b", "a-_.9", "0__", "x" * 255]
NO_INDEX_NAMES = ["", ".a", "-a", "_a", "_all", "A", "hR", "a+b", "a*", "a%20", "h\u00e9", "x" * 256]
IDS = ["1", "01", "a", "A", "-", "_", "_doc", "aZ09-_", "i" * 512]
ODD_IDS = [".", "a.b", "a+b", "a%20", "%31", "%3", "%", "%zz", "a%2Fb", "%c3%a9", "%F0%9F%98%80", "%25", "*", "%00", "i" * 509 + "%c3%a9"]
NO_IDS = ["", "a/", "a/b", "a?b", "\u00e9", "%ff", "%c3", "%c3/%a9", "%ed%a0%80", "i" * 513, "i" * 511 + "%c3%a9", "%69" * 513]
OTHER_TARGETS = ["/", "*", "hr", "//", "///", "/?", "/hr/", "/hr//", "/hr?", "/hr??", "/hr/_doc", "/hr/_doc/", "/hr/_docs/1", "/hr/_Doc/1", "/hr/_search"]
OTHER_TARGETS += ["/_doc/1", "/_search", "/_search?q=a", "/_search/", "/_bulk", "/hr/_bulk", "/_all/_search", "/_all,hr/_search", "/_all", "/_allx", "/_all/_doc/1"]
OTHER_TARGETS += ["/_security", "/_security/", "/_security/role", "/_security/role/", "/_security/api_key", "/_security/api_key?owner=true", "/_security/api_key/a"]
OTHER_TARGETS += ["/_security/_authenticate", "/_security/user/_has_privileges", "/_security/role/_has_privileges", "/_security/role/a/_clear_cache"]
OTHER_TARGETS += ["/_security/user/a/_clear_cache", "/_Security/role/a", "/%5fsearch", "/%5Fall", "/hr/%5fdoc/1", "/_mapping", "/hr/_mapping/a", "/hr/_create", "http://h/hr"]
QUERIES = ["", "refresh", "refresh=true", "refresh=false", "refresh=wait_for", "refresh=", "refresh=True", "refresh&refresh", "pretty", "a?b", "%72efresh", "owner=true"]
OTHER_METHODS = ["POST", "DELETE", "GET", "PUT", "HEAD", "PATCH", "put", "get", "Put", "OPTIONS", "PUTS", "GE"]
TOKEN = "ZWxhc3RpYzpzM2NyZXQ="
SPELLINGS = ["Bearer %s", "bearer %s", "BEARER   %s", " Bearer %s \t"]
NO_CREDENTIALS = [
    [],
    ["Bearer"],
    ["Bearer !!"],
    [f"Bearer{TOKEN}"],
    [f"Basic {TOKEN}"],
    [TOKEN],
    ["Bearer ZWxhc3RpYzp3cm9uZw=="],
    ["Bearer bm9ib2R5Ong="],
    ["Bearer ZWxhc3RpYzpzM2NyZXQ"],
    ["Bearer ZWxhc3RpYzpzM2NyZXR="],
    [f"Bearer {TOKEN}", f"Bearer {TOKEN}"],
    [f"ApiKey {TOKEN}"],
    [f"apikey  {TOKEN}"],
    ["ApiKey"],
    ["Bearer Y3k6"],
    ["Bearer OnMzY3JldA=="],
    ["Bearer ZWxhc3RpYzpzM2NyZXQAAA=="],
    ["Bearer ZWxhc3RpYw=="],
    ["Bearer /zpzM2NyZXQ="],
]
USER_NAMES = ["cy", "ann", "a b", "~", "x/y", "u" * 255, "Cy"]
ROLE_NAMES = ["rd", "wr", "a/b", "all of it", "r%", "r" * 255, "later"]
NO_NAMES = ["", "_a", "%5Fa", "%20a", "a%20", "a:b", "a%3ab", "a,b", "%00", "%7f", "\u00e9", "a/b", "a?b", "x" * 256]
SECRETS = ["c1", "c2", "~", "!", ":", "a:b", "s" * 128]
NO_SECRETS = ["", " ", "a b", "\u00e9", "s" * 129]
PATTERNS = ["*", "h*", "hr", "?", "??", "*r", "p?y", "a.b", "a-*9", "n*", "n?", "n1*", "x*", "*x*x*x"]
PATTERNS += ["\\h\\r", "z\\*", "**", "0", "a/", "\\\\", "h" * 255]
NO_PATTERNS = ["", "/a/", "/", "a\\", "\\", "x" * 256]
OTHER_FIELDS = ["host: 127.0.0.1", "accept: */*", "expect: 100-continue", "esec-see: 99", "content-encoding: identity", "x:", "Connection: keep-alive"]
SEEN = ["0", "1", "000000000000000001", " 1 ", "999999999999999999"]
NO_SEEN = ["", "-1", "+1", "1.0", "1 1", "0x1", "0000000000000000001", "9999999999999999999", "\u0661"]
RUN_AS = ["cy", "ann", "eve", "dan", "elastic", "u" * 255, "", "nobody", "\u00e9"]
CLEARED = ["*", "a", "a,b", "rd", "*,rd", "rd,*", "a,", ",", "_a", "a,_b,_c", "rd,%20a", "r%25,all%20of%20it", "superuser"]
BAD_HEADS = [
    b"GET /x y\n",
    b"GET /x y HTTP/1.1\r\n\r\n",
    b"PUT /hr HTTP/2.0\r\n\r\n",
    b"PUT /hr HTTP/1.1\r\ntransfer-encoding: chunked\r\n\r\n",
    b"PUT /hr HTTP/1.1\r\ncontent-encoding: gzip\r\n\r\n",
    b"PUT /hr HTTP/1.1\r\ncontent-length: 2\r\ncontent-length: 2\r\n\r\n{}",
    b"PUT /hr HTTP/1.1\r\ncontent-length: +2\r\n\r\n{}",
    b"PUT /hr HTTP/1.1\r\ncontent-length: 1048577\r\n\r\n",
    b"PUT /hr HTTP/1.1\r\ncontent-length: 0000000000000000002\r\n\r\n{}",
    b"PUT /hr HTTP/1.1\r\ncontent-length:\r\n\r\n",
    b"PUT /hr HTTP/1.1\r\nhost : a\r\n\r\n",
    b"PUT /hr HTTP/1.1\r\nhost: a\r\n b\r\n\r\n",
    b"PUT /hr HTTP/1.1\r\nhost: a\x00\r\n\r\n",
    b"PUT /hr HTTP/1.1\r\nhost\r\n\r\n",
    b"GET /\xff HTTP/1.1\r\n\r\n",
    b"PUT /hr HTTP/1.1\r\n" + b"a: b\r\n" * 101 + b"\r\n",
    b"GET /" + b"x" * 16379,
]
BAD_BODIES = [
    "",
    " ",
    "{",
    "}",
    "nul",
    "'a'",
    '{"a"}',
    '{"a":1,}',
    '{"a":1}{}',
    '{"a":01}',
    '{"a":+1}',
    '{"a":1.}',
    '{"a":NaN}',
    '{"a":1e999}',
    '{"a":"\\ud800"}',
    '{"a":"\\x"}',
    '{"a":"\x01"}',
    '{"a":1e999,"a":1}',
    '\ufeff{}',
    "[]",
    "[{}]",
    '"{}"',
    "7",
    "null",
    "true",
    "1.5",
]
NUMBERS = ["1.5", "1.0", "1e3", "1E0", "-0", "-0.0", "0.0", "1e-999", "1e300", "9223372036854775808", "-9223372036854775809", "18446744073709551615", "18446744073709551616", "1" + "0" * 300]
SPACES = ["", "", "", "", " ", "\t", "\r\n", "  \n"]
CHARACTERS = 'abcXYZ09_-./ "\\\b\f\n\r\t\x00\x1f\x7f\u00e9\u20ac\U0001f600'


ESCAPES = {'"': '"', "\\": "\\", "/": "/", "\b": "b", "\f": "f", "\n": "n", "\r": "r", "\t": "t"}


def text_of(r, count):
    """A JSON text, its characters spelled in one of the ways."""
    parts = []
    for _ in range(r.randrange(count)):
        c = r.choice(CHARACTERS)
        plain = c not in '"\\' and c >= " "
        if plain and r.random() < 0.8:
            parts.append(c)
        elif c in ESCAPES and r.random() < 0.8:
            parts.append("\\" + ESCAPES[c])
        else:
            units = c.encode("utf-16-be")
            codes = [units[i] << 8 | units[i + 1] for i in range(0, len(units), 2)]
            parts += [r.choice(["\\u%04x", "\\u%04X"]) % code for code in codes]
    return '"' + "".join(parts) + '"'


def space(r):
    return r.choice(SPACES)


def value_of(r, depth, faulty):
    """A JSON value's text, with a number that is refused in it now and then where it is to be faulty."""
    kind = r.random()
    if depth > 0 and kind < 0.25:
        return object_of(r, depth - 1, faulty)
    if depth > 0 and kind < 0.45:
        parts = [space(r) + value_of(r, depth - 1, faulty) + space(r) for _ in range(r.randrange(4))]
        return "[" + (",".join(parts) or space(r)) + "]"
    if kind < 0.65:
        if faulty and r.random() < 0.5:
            return r.choice(NUMBERS)
        return str(r.choice([0, 1, -1, r.randrange(1000), 2**63 - 1, -(2**63), r.randrange(-(2**63), 2**63)]))
    if kind < 0.85:
        return text_of(r, 12)
    return r.choice(["null", "true", "false"])


def object_of(r, depth, faulty=False):
    members = []
    for _ in range(r.randrange(5)):
        name = r.choice(['"a"', '"b"', '""', '"pay"', text_of(r, 6)])
        members.append(space(r) + name + space(r) + ":" + space(r) + value_of(r, depth, faulty) + space(r))
    return "{" + (",".join(members) or space(r)) + "}"


def nested_of(r):
    """An object with about as many levels as are permitted, or as are read."""
    count = r.choice([28, 29, 30, 31, 125, 126, 127, 128, 1000])
    inside = r.choice(["", "1", "1.5", "{}"])
    front, back = r.choice([("[", "]"), ('{"a":', "}")])
    if front != "[" and not inside:
        inside = "1"
    nested = front * count + inside + back * count
    return r.choice(['{"a":%s}', '{"a":%s,"a":1}', "[%s]"]) % nested


def damaged_of(r):
    """A sound body with one byte dropped, changed or doubled."""
    body = bytearray(object_of(r, 3).encode())
    at = r.randrange(len(body))
    body[at : at + 1] = r.choice([b"", bytes([r.randrange(256)]), body[at : at + 1] * 2])
    return bytes(body)


def body_of(r):
    kind = r.random()
    if kind < 0.70:
        return object_of(r, 4).encode()
    if kind < 0.78:
        return object_of(r, 3, faulty=True).encode()
    if kind < 0.86:
        return r.choice(BAD_BODIES).encode()
    if kind < 0.91:
        return nested_of(r).encode()
    if kind < 0.97:
        return damaged_of(r)
    if kind < 0.99:
        return bytes(r.randrange(256) for _ in range(r.randrange(40)))
    return ('{"a":"%s"}' % ("x" * r.randrange(30000))).encode()


# ---- mappings, and documents under them

FIELDS = ["a", "b", "pay", "dept", "hired", "a.b", "tag.name", "\u00e9"]
LONGS = [0, -1, 2**63 - 1, "7", "-0", "9223372036854775808", "007", "1" * 19, "-", "", "1e3", " 1", True, None, [1, "2"], [], {}]
DATES = [0, -1, "2020", "2020-02-29", "2021-02-29", "2020-13", "2020-00-01", "2020-01-01T00:00", "2020-01-01T24:00", "2020-01-01T00:00Z", "2020-01-01T00:00:00.1234"]
DATES += ["2020-01-01T00:00:60", "2020-01-01T23:59:59.999+23:59", "2020-01-01T00:00-24:00", "2020-01-01t00:00", "0000", "12345", "-5", "2020-1-1", "2020-01-01T00", None]
KEYWORDS = ["ops", "dev", "cy", "ann", "", 5, -(2**63), True, None, ["a", None, 1], {"b": 1}]


def field_of(r, depth):
    kind = r.random()
    if depth > 0 and kind < 0.3:
        inside = {r.choice(FIELDS + ["name"]): field_of(r, depth - 1) for _ in range(r.randrange(3))}
        tree = {"properties": inside}
        return {"type": "object", **tree} if r.random() < 0.3 else tree
    tree = {"type": r.choice(["keyword", "long", "date"] if kind < 0.97 else ["object", "text", "Long", "", None])}
    if r.random() < 0.02:
        tree[r.choice(["properties", "index", "a"])] = {}
    return faulty_value(r, tree)


def mapping_of(r):
    fields = {r.choice(FIELDS[:5] if r.random() < 0.9 else FIELDS + ["", "a.", ".a", "a..b", ".".join("x" * 30), ".".join("x" * 31)]): field_of(r, 2) for _ in range(r.randrange(5))}
    tree = {"dynamic": r.choice([False, "false"]), "properties": faulty_value(r, fields)}
    if r.random() < 0.02:
        tree["dynamic"] = r.choice([True, "true", None, "strict"])
    return drop_some(r, {"dynamic": 0.8, "properties": 0.05}, tree)


def creation_of(r):
    tree = {"mappings": mapping_of(r), "settings": faulty_value(r, {"number_of_shards": 1})}
    return spelled_of(r, drop_some(r, {"mappings": 0.1, "settings": 0.7}, tree))


def value_for(r, kind):
    return r.choice({"long": LONGS, "date": DATES, "keyword": KEYWORDS}[kind])


def document_of(r, node, target):
    """A document with values for the fields of its index, right ones and wrong ones."""
    name = target.split("/")[1]
    fields = node.indices[name][0] if name in node.indices else {"a": "long", "pay": "keyword"}
    tree = {}
    for path in r.sample(list(fields), min(len(fields), r.randrange(4))):
        value = value_for(r, fields[path] if r.random() < 0.8 else "keyword")
        if "." in path and r.random() < 0.7:
            front, last = path.split(".", 1)
            value, path = {last: value}, front
        tree[path] = [value] if r.random() < 0.1 else value
    return spelled_of(r, tree)


# ---- rules over fields, queries and templates

FIELD_PATTERNS = FIELDS + ["*", "a*", "*e", "?", "tag.*", "a.?", "x*x", "a\\.b", "", "/a", "a\\", "x" * 256]
PROPERTIES = ["username", "full_name", "email", "roles", "metadata.dept", "metadata.max", "metadata.a", "metadata.a.b"]
PROPERTIES += ["metadata.depts", "metadata.q", "metadata.none", "metadata.t.0", "metadata.x y"]
NO_TAGS = ["{{", "{{x}}", "{{_user.username}", "{{{_user.username}}}", "{{_user.metadata}}", "{{_user.metadata..a}}", "{{#toJson}}x{{/toJson}}"]
NO_TAGS += ["{{#toJson}}_user.email{{/toJson}} ", "{{\t_user.email}}", "{{#toJson}}_user.email", "{{_user.Email}}", "{{ #toJson}}_user.email{{/toJson}}"]
TEXTS = ["ops", "dev", "cy", "a", "", "5", "2020", "2020-02-29", "x\",\"dept\":\"ops", "}}", "{", "\u00e9", "a\\b", "\x01\n", "true"]
DEPTS = ["ops", "dev", "cy", "ann", "a"]


def rule_of(r):
    """A `field_security`."""
    tree = {name: some_of(r, 4, lambda: r.choice(FIELD_PATTERNS[: -4 if r.random() < 0.99 else None])) for name in ("grant", "except")}
    if r.random() < 0.05:
        tree["grant"] = []
    if r.random() < 0.75:
        del tree[r.choice(["grant", "except", "except"])]
    return drop_some(r, {"grant": 0.01, "except": 0.01}, tree)


def scalar_of(r):
    return r.choice([r.choice(DEPTS), r.choice(DEPTS), r.choice(TEXTS), 5, 0, -1, r.randrange(100), True, "7", "1970"])


def tag_of(r):
    """A text of a template: a hole, or tags between other characters."""
    if r.random() < 0.02:
        return r.choice(NO_TAGS)
    spaces = r.choice(["", "", "", " ", "  "])
    tag = spaces + "_user." + r.choice(PROPERTIES) + r.choice(["", spaces])
    if r.random() < 0.3:
        return "{{#toJson}}" + tag + "{{/toJson}}"
    return r.choice(["", "", "", "", "o", "}}", "{ "]) + "{{" + tag + "}}" + r.choice(["", "", "", "", "s", "}"])


def query_of(r, depth, value):
    """A query, with values as they are drawn."""
    kind = r.random()
    field = r.choice(FIELDS[:5] if r.random() < 0.9 else FIELDS)
    if depth > 0 and kind < 0.25:
        tree = {name: [query_of(r, depth - 1, value) for _ in range(r.randrange(3))] for name in r.sample(["must", "filter", "should", "must_not"], r.randrange(1, 4))}
        tree = {name: parts[0] if parts and r.random() < 0.3 else parts for name, parts in tree.items()}
        if r.random() < 0.2:
            tree["minimum_should_match"] = r.randrange(3)
        tree = {"bool": faulty_value(r, tree)}
    elif kind < 0.4:
        tree = {"match_all" if r.random() < 0.7 else "match_none": {}}
    elif kind < 0.7:
        tree = {"term": {field: r.choice([value(), {"value": value()}])}}
    elif kind < 0.8:
        values = [value() for _ in range(r.randrange(4))]
        tree = {"terms": {field: values + [None] if r.random() < 0.1 else values}}
    elif kind < 0.92:
        bounds = {name: value() for name in [r.choice(["gt", "gte"]), r.choice(["lt", "lte"])]}
        if r.random() < 0.5:
            del bounds[r.choice(list(bounds))]
        tree = {"range": {field: bounds}}
    else:
        tree = {"exists": {"field": field}}
    if r.random() < 0.01:
        tree[r.choice(["match", "match_all", "term", "template", ""])] = r.choice([{}, 1, {"source": {}}])
    return faulty_value(r, tree) if r.random() < 0.1 else tree


def source_of(r):
    """The source of a template, a tree or a text; in a text holes stand outside of strings too."""
    tree = query_of(r, 2, lambda: tag_of(r) if r.random() < 0.7 else scalar_of(r))
    if r.random() < 0.03:
        tree = {r.choice(["a", "{{x}}", "{{_user.username}}", "bool"]): tree}
    if r.random() < 0.6:
        return tree
    text = json.dumps(tree, ensure_ascii=r.random() < 0.5)
    if r.random() < 0.6:
        for mark in ("{{#toJson}}", "{{/toJson}}"):
            text = text.replace('"' + mark, mark).replace(mark + '"', mark)
    if r.random() < 0.03:
        at = r.randrange(len(text))
        text = text[:at] + r.choice(["", "{", '"', "}", "\\"]) + text[at + 1 :]
    return text


def role_query_of(r):
    """A query or a template, or a text that is one as JSON."""
    if r.random() < 0.4:
        tree = {"template": drop_some(r, {"source": 0.01}, {"source": source_of(r)})}
    else:
        tree = query_of(r, 3, lambda: scalar_of(r))
    if r.random() < 0.8:
        return tree
    text = json.dumps(tree, ensure_ascii=r.random() < 0.5, separators=r.choice([(",", ":"), (" , ", ": ")]))
    return text if r.random() < 0.97 else text[: r.randrange(len(text) + 1)]


def metadata_of(r):
    drawn = {
        "dept": scalar_of(r),
        "depts": r.choice([[scalar_of(r) for _ in range(r.randrange(4))], {}, None]),
        "max": r.choice([r.randrange(100), "5", -1, "2020"]),
        "a": r.choice([{"b": scalar_of(r)}, scalar_of(r), [{"b": 1}], None]),
        "q": query_of(r, 1, lambda: scalar_of(r)),
        "t": [1],
        "x y": r.choice(TEXTS),
        "a.b": 1,
    }
    return {name: value for name, value in drawn.items() if r.random() < 0.6}


# ---- roles and users


def name_of(r, names):
    """A name as a segment of a path, in one of its spellings."""
    if r.random() < 0.05:
        return r.choice(NO_NAMES)
    name = r.choice(names)
    if name == "r%" and r.random() < 0.5:
        return name  # a lone percent sign stands for itself
    return "".join(encoded_of(r, c) if c in ' /?#%"<>' or r.random() < 0.05 else c for c in name)


def encoded_of(r, c):
    return r.choice(["%%%02x", "%%%02X"]) % ord(c)


def faulty_value(r, wanted):
    """A value that may be of no form, in place of the one that is wanted."""
    if r.random() < 0.96:
        return wanted
    others = [None, True, False, 0, "", "x", "none", [], {}, [[]], [None], ["x", 1], {"a": 1}]
    return r.choice(others + [wanted, [wanted]])


def pattern_of(r):
    return r.choice(PATTERNS if r.random() < 0.98 else NO_PATTERNS)


def some_of(r, most, draw):
    return [faulty_value(r, draw()) for _ in range(r.randrange(most))]


def privilege_of(r):
    if r.random() < 0.6:
        return r.choice(["read", "write", "index", "create_doc", "create_index", "delete", "manage", "view_index_metadata", "all"])
    return r.choice(INDEX_PRIVILEGES)


def drop_some(r, chances, tree):
    """The members, each left out by its chance, and now and then one that isn't known."""
    kept = {name: value for name, value in tree.items() if r.random() >= chances.get(name, 0.7)}
    if r.random() < 0.02:
        unknown = ["", "a", "namez", "indicez", "field_securitz", "query", "zz", "\u00e9", "a.b"]
        kept[r.choice(unknown)] = r.choice([0, {}])
    return kept


def group_of(r):
    names = some_of(r, 4, lambda: pattern_of(r))
    privileges = some_of(r, 4, lambda: privilege_of(r))
    group = {
        "names": r.choice([names or ["*"], pattern_of(r)]) if r.random() < 0.99 else names,
        "privileges": r.choice([privileges, privilege_of(r)]),
        "allow_restricted_indices": r.random() < 0.1,
    }
    if r.random() < 0.4:
        group["field_security"] = rule_of(r)
    if r.random() < 0.45:
        group["query"] = role_query_of(r)
    group = {name: value if r.random() < 0.6 else faulty_value(r, value) for name, value in group.items()}
    return drop_some(r, {"names": 0.005, "privileges": 0.005, "allow_restricted_indices": 0.9, "field_security": 0, "query": 0}, group)


def descriptor_of(r):
    tree = {
        "cluster": some_of(r, 3, lambda: r.choice(CLUSTER_PRIVILEGES)),
        "indices": some_of(r, 4, lambda: group_of(r)),
        "run_as": some_of(r, 3, lambda: pattern_of(r)),
        "metadata": {"a": [1, {"b": None}]},
        "transient_metadata": {},
        "description": "what it is for",
        "applications": [],
        "remote_indices": [],
        "remote_cluster": [],
        "global": r.choice([[], {}]),
    }
    tree = {name: faulty_value(r, value) for name, value in tree.items()}
    return drop_some(r, {"indices": 0.05, "cluster": 0.3}, tree)


def user_of(r):
    tree = {
        "secret": r.choice(SECRETS if r.random() < 0.98 else NO_SECRETS),
        "roles": some_of(r, 4, lambda: r.choice(ROLE_NAMES + ["superuser", "nobody's"])),
        "full_name": r.choice(["Ann", None, *TEXTS]),
        "email": r.choice(["ann@example.org", None, *DEPTS]),
        "metadata": metadata_of(r),
    }
    tree = {name: faulty_value(r, value) for name, value in tree.items()}
    return drop_some(r, {"secret": 0.02, "roles": 0.02, "full_name": 0.4, "email": 0.5, "metadata": 0.2}, tree)


def spelled_of(r, tree):
    """The tree's text, its members in some order, now and then with one of them twice or a byte damaged."""
    text = json.dumps(tree, ensure_ascii=r.random() < 0.5, separators=r.choice([(",", ":"), (", ", " : ")]))
    if isinstance(tree, dict) and r.random() < 0.1:
        names = r.sample(list(tree), len(tree))
        parts = [json.dumps(name) + ":" + json.dumps(tree[name]) for name in names]
        if parts and r.random() < 0.3:
            parts.insert(0, json.dumps(r.choice(names)) + ":" + r.choice(["1", "1.5", "[]", '"x"']))
        text = "{" + ",".join(parts) + "}"
    body = bytearray(text.encode())
    if r.random() < 0.01:
        body[r.randrange(len(body))] = r.randrange(256)
    return bytes(body)


def security_of(r):
    """The method, the target and the body of a request on a role or a user, or of who asks who it is."""
    kind = r.random()
    if kind < 0.05:
        return "GET", "/_security/_authenticate", b""
    if kind < 0.09:
        return r.choice(["POST", "PUT"]), f"/_security/role/{r.choice(CLEARED)}/_clear_cache", b""
    if kind < 0.12:
        return "GET", "/_security/api_key" + r.choice(["", "?owner=true", "?owner=false", "?owner", "?owner=True"]), b""
    if kind < 0.15:
        asked = {"ids": r.choice([["a"], ["a", "a", "b"], [], [1], "a"]), "owner": r.choice([True, False, True, False, None])}
        return "DELETE", "/_security/api_key", spelled_of(r, drop_some(r, {"ids": 0.4, "owner": 0.4}, asked))
    method = r.choice(["PUT", "POST"]) if kind < 0.75 else r.choice(["GET", "GET", "GET", "DELETE", "DELETE", "Post", "HEAD"])
    if r.random() < 0.55:
        names, kind, tree = ROLE_NAMES, "role", descriptor_of(r)
    else:
        names, kind, tree = USER_NAMES, "user", user_of(r)
    if r.random() < 0.03:
        names = ["superuser", "elastic"]
    body = spelled_of(r, tree) if r.random() < 0.96 else body_of(r)
    return method, f"/_security/{kind}/{name_of(r, names)}", body


def credentials_of(r, node):
    """The values of the fields `authorization`: of the user `elastic`, of another one, or of nobody."""
    if r.random() < 0.08:
        return r.choice(NO_CREDENTIALS)
    if r.random() < 0.35:
        name, secret = "elastic", SECRET
    else:
        name = r.choice(list(node.users) if r.random() < 0.95 else USER_NAMES)
        secret = node.users[name]["secret"] if name in node.users else "c1"
        if r.random() < 0.05:
            secret = r.choice(SECRETS + NO_SECRETS)
    token = base64.b64encode(f"{name}:{secret}".encode()).decode()
    return [r.choice(SPELLINGS) % token]


def target_of(r):
    name = r.choice(INDEX_NAMES if r.random() < 0.95 else NO_INDEX_NAMES)
    if r.random() < 0.1:
        name = f"n{r.randrange(500)}"
    if r.random() < 0.01:
        name = "".join(encoded_of(r, c) if r.random() < 0.5 else c for c in name if c.isascii())
    if r.random() < 0.12:
        return "/" + name
    if r.random() < 0.07:
        return f"/{name}/_mapping"
    if r.random() < 0.04:
        return r.choice(OTHER_TARGETS)
    known = r.choice(IDS) if r.random() < 0.5 else str(r.randrange(30))
    if r.random() < 0.06:
        known = r.choice(ODD_IDS + NO_IDS)
    return f"/{name}/{'_doc' if r.random() < 0.85 else '_create'}/{known}"


def any_case(r, name):
    return r.choice([name, name.title(), name.upper()])


def fields_of(r, node):
    """The values of the fields that a node looks at, by their names."""
    fields = {"authorization": credentials_of(r, node)}
    if r.random() < 0.04:
        seen = r.choice([SEEN, NO_SEEN, [str(node.place)], [str(node.place + 1)]])
        fields["esec-seen"] = r.choices(seen, k=r.choice([1, 1, 1, 2]))
    if r.random() < 0.08:
        fields["es-security-runas-user"] = r.choices(RUN_AS + ["\udcff"], k=r.choice([1, 1, 1, 2]))
    return fields


def drawn_of(r, node):
    """The method, the target, the fields, and the body."""
    if r.random() < 0.4:
        return shown_of(r, node)
    fields = fields_of(r, node)
    if r.random() < 0.25:
        method, target, body = security_of(r)
        return method, with_query(r, target), fields, body
    target = target_of(r)
    is_document = "/_doc/" in target or "/_create/" in target
    methods = ["PUT", "POST", "GET", "DELETE"] if is_document else ["GET"] if target.endswith("_mapping") else ["PUT", "PUT", "PUT", "DELETE"]
    method = r.choices(methods, [6, 2, 6, 2][: len(methods)])[0] if r.random() < 0.96 else r.choice(OTHER_METHODS)
    body = b""
    if is_document and method in ("PUT", "POST") and r.random() < 0.97:
        body = body_of(r) if r.random() < 0.4 else document_of(r, node, target)
    elif not is_document and method == "PUT" and r.random() < 0.6:
        body = creation_of(r) if r.random() < 0.95 else body_of(r)
    elif r.random() < 0.05:
        body = body_of(r)
    return method, with_query(r, target), fields, body


def with_query(r, target):
    return target if r.random() < 0.95 else target + "?" + r.choice(QUERIES)


def request_of(r, method, target, looked_at, body, last):
    """The request's bytes, in one of the spellings of its head."""
    fields = [any_case(r, name) + ":" + r.choice(["", " "]) + value for name, values in looked_at.items() for value in values]
    if body or r.random() < 0.3:
        zeros = r.choice(["", "", "", "000"])
        fields.append(any_case(r, "content-length") + f": {zeros}{len(body)}")
    fields += r.sample(OTHER_FIELDS, r.choice([0, 0, 0, 1, 2]))
    version = "1.1"
    if last and r.random() < 0.5:
        version = "1.0"
    elif last:
        fields.append("connection: " + r.choice(["close", "Close", "x , CLOSE", "keep-alive,\tclose"]))
    r.shuffle(fields)
    line_end = r.choice(["\r\n", "\r\n", "\n"])
    front = r.choice(["", "", "", "", "\r\n"])
    head = line_end.join([f"{method} {target} HTTP/{version}"] + fields) + line_end * 2
    return front.encode() + head.encode(errors="surrogateescape") + body


# ---- what users with restricted roles see

SHOWN_INDEX = "hr"
SHOWN_ROLES = ["qa", "qb", "qc", "qd"]
SHOWN_USERS = ["eve", "dan", "mia"]
SHOWN_MAPPING = {"dept": "keyword", "pay": "long", "hired": "date", "a": "keyword", "b": "long", "tag.name": "keyword"}
SHOWN_IDS = ["1", "2", "3", "4"]


def shown_role_of(r):
    """A role that reads, with rules and queries in most of its members."""
    groups = []
    for _ in range(r.choice([1, 1, 1, 2, 3])):
        group = {"names": r.choice(["hr", "h*", ["x", "?r"]]), "privileges": r.choice(["read", ["read", "view_index_metadata"], ["view_index_metadata"], "all"])}
        if r.random() < 0.75:
            group["field_security"] = rule_of(r)
        if r.random() < 0.8:
            group["query"] = role_query_of(r)
        groups.append(group)
    return {"indices": groups}


def shown_document_of(r):
    tree = {
        "dept": r.choice([r.choice(DEPTS), r.choice(TEXTS), [r.choice(DEPTS), "z"], None, True]),
        "pay": r.choice([0, 5, 50, "7", [1, 99], None]),
        "hired": r.choice(["2020", "2020-02-29", 5, "1970"]),
        "tag": r.choice([{"name": r.choice(DEPTS), "x": 1}, [{"name": "a"}, {"y": []}], {}]),
        "tag.name": r.choice(DEPTS),
        "a": r.choice([{"b": 1, "c": [{}]}, "x", [], 5]),
        "e": r.choice([{}, [[]], [1, {}], "e"]),
    }
    return {name: value for name, value in tree.items() if r.random() < 0.7}


def credentials_named(name, secret):
    return {"authorization": ["Bearer " + base64.b64encode(f"{name}:{secret}".encode()).decode()]}


def shown_of(r, node):
    """A request that prepares what such users see, or a get by one of them."""
    kind = r.random()
    elastic = credentials_named("elastic", SECRET)
    name = r.choice(SHOWN_USERS)
    if kind < 0.08 or not set(SHOWN_ROLES) & set(node.roles):
        return "PUT", f"/_security/role/{r.choice(SHOWN_ROLES)}", elastic, spelled_of(r, shown_role_of(r))
    if kind < 0.12 or name not in node.users:
        roles = r.sample(SHOWN_ROLES, r.choice([1, 1, 2, 3])) + r.choice([[], [], [], ["later"], ["rd"]])
        tree = {"secret": "c1", "roles": roles, "full_name": r.choice(TEXTS), "email": r.choice(DEPTS), "metadata": metadata_of(r)}
        return "PUT", f"/_security/user/{name}", elastic, spelled_of(r, tree)
    if kind < 0.14 or SHOWN_INDEX not in node.indices:
        properties = {path: {"type": kind} for path, kind in SHOWN_MAPPING.items() if r.random() < 0.9}
        method = "PUT" if SHOWN_INDEX not in node.indices else "DELETE" if r.random() < 0.2 else "PUT"
        return method, f"/{SHOWN_INDEX}", elastic, json.dumps({"mappings": {"properties": properties}}).encode()
    if kind < 0.25:
        return "PUT", f"/{SHOWN_INDEX}/_doc/{r.choice(SHOWN_IDS)}", elastic, spelled_of(r, shown_document_of(r))
    fields = credentials_named(name, "c1")
    if kind < 0.35:
        return "GET", f"/{SHOWN_INDEX}/_mapping", fields, b""
    if kind < 0.37:
        return r.choice(["PUT", "DELETE"]), f"/{SHOWN_INDEX}/_doc/{r.choice(SHOWN_IDS)}", fields, spelled_of(r, shown_document_of(r))
    return "GET", f"/{SHOWN_INDEX}/_doc/{r.choice(SHOWN_IDS)}", fields, b""


# ---- one connection


class Connection:
    """The bytes that go in, those that have to come out, and the status."""

    def __init__(self, r, requests):
        self.sent = bytearray()
        self.due = bytearray()
        self.marks = []  # where each request begins, in both
        self.statuses = collections.Counter()
        self.end = r.choice(["done", "done", "close", "cut", "bad"])
        self.status = {"done": 0, "close": 0, "cut": 5, "bad": 6}[self.end]
        node = Node()
        for number in range(requests):
            self.add(r, node, last=self.end == "close" and number + 1 == requests)
        self.place = node.place
        self.finish(r)

    def add(self, r, node, last):
        method, target, fields, body = drawn_of(r, node)
        self.marks.append((len(self.sent), len(self.due)))
        self.sent += request_of(r, method, target, fields, body, last)
        status, reply, allow = node.answer(method, target, fields, body)
        self.due += response(status, node.place, reply, last, allow)
        self.statuses[status] += 1

    def finish(self, r):
        self.marks.append((len(self.sent), len(self.due)))
        if self.end == "bad":
            self.sent += r.choice(BAD_HEADS)
            self.due += FIXED_400
        if self.end == "cut":
            body = object_of(r, 3).encode()
            request = request_of(r, "PUT", "/hr/_doc/1", {"authorization": [f"Bearer {TOKEN}"]}, body, False).lstrip()
            self.sent += request[: r.randrange(1, len(request))]
        if self.end == "close":
            self.sent += request_of(r, "PUT", "/hr", {"authorization": [f"Bearer {TOKEN}"]}, b"", False) + b"and more"

    def pieces(self, r):
        at = 0
        while at < len(self.sent):
            size = r.randrange(1, r.choice([3, 20, 300, 5000, 70000]))
            yield bytes(self.sent[at : at + size])
            at += size

    def difference(self, got, status):
        """What is printed where the output or the status isn't as it has to be."""
        if got == self.due and status == self.status:
            return None
        if got == self.due:
            return f"the end is {self.end}: status {self.status} is due, and {status} came"
        same = 0
        while same < min(len(got), len(self.due)) and got[same] == self.due[same]:
            same += 1
        number = max(i for i, mark in enumerate(self.marks) if mark[1] <= same)
        begin, due = self.marks[number]
        after = self.marks[number + 1] if number + 1 < len(self.marks) else (len(self.sent), len(self.due))
        return "\n".join(
            [
                f"request {number} ({self.end} at the end, status {status}), at byte {same - due} of its response:",
                f"  sent {bytes(self.sent[begin:after[0]])[:2500]!r}",
                f"  due  {bytes(self.due[due:after[1]])[:2500]!r}",
                f"  came {bytes(got[due:after[1] + 200])[:2500]!r}",
                f"  from that byte on, due {bytes(self.due[same:same + 40])!r}, came {bytes(got[same:same + 40])!r}",
            ]
        )


def run(options, number, requests):
    """A connection's difference, if there is one."""
    r = random.Random(f"{options.seed}/{number}")
    connection = Connection(r, requests)
    running = Running(options.program, SECRET, SECONDS_EACH)
    running.send(connection.pieces(r), last=True)
    got = running.read(len(connection.due) + 100000)
    status = running.end()
    if running.hung:
        return connection, f"the program didn't end in {SECONDS_EACH} seconds, after {len(got)} of {len(connection.due)} bytes"
    return connection, connection.difference(got, status)


def main():
    parser = argparse.ArgumentParser(description=__doc__.splitlines()[0])
    parser.add_argument("--requests", type=int, default=100000)
    parser.add_argument("--seed", type=int, default=1)
    add_program_option(parser)
    options = parser.parse_args()
    began = time.monotonic()
    statuses, ends, count, changes, number = collections.Counter(), collections.Counter(), 0, 0, 0
    while count < options.requests:
        requests = min(REQUESTS_EACH, options.requests - count)
        connection, difference = run(options, number, requests)
        if difference:
            print(f"seed {options.seed}, connection {number}: {difference}")
            return 1
        statuses += connection.statuses
        ends[f"{connection.end} {connection.status}"] += 1
        count += requests
        changes += connection.place - 1
        number += 1
    seconds = time.monotonic() - began
    print(f"{count} requests on {number} connections, {changes} accepted changes, {seconds:.1f} seconds, no difference")
    print("replies: " + ", ".join(f"{status}: {statuses[status]}" for status in sorted(statuses)))
    print("ends and statuses: " + ", ".join(f"{end}: {ends[end]}" for end in sorted(ends)))
    return 0


if __name__ == "__main__":
    sys.exit(main())
