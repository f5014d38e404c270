"""What `esec` answers, in plain Python: a model to compare the program with.

It knows the routes, the grammars and the denials of docs/API.md, and is written from that page and from the papers
behind it alone. A node is records, indices and a place; every answer is computed with the `json` module, and a
decision asks every privilege, pattern and query of every role anew. `trees.py` has JSON trees, `queries.py` has
queries, templates and rules over fields, `bodies.py` has names and the bodies of roles and users, and `records.py` has
users, roles and keys.
"""

import collections
import copy
import re
from urllib.parse import unquote_to_bytes

from bodies import descriptor, is_name, user
from queries import is_permitted, project, project_fields, typed
from records import CLUSTER_GRANTING, GRANTING, LAST_MOMENT, Records, acting, acts_as_key, caller_text, credentials, encoded
from records import grants_cluster, invalidation, key_tree, may_run, new_key, permissions, secret_of, subject_text
from trees import NoTree, compact, first_names, if_wrong, is_object, leaves, members, texts, tree_in

SECRET = "s3cret"
FIXED_400 = (
    b"HTTP/1.1 400 Bad Request\r\nconnection: close\r\ncontent-length: 61\r\n"
    b"content-type: application/json\r\n\r\n"
    b'{"error":{"reason":"bad head","type":"framing"},"status":400}'
)
PHRASES = {
    200: "OK",
    201: "Created",
    400: "Bad Request",
    401: "Unauthorized",
    403: "Forbidden",
    404: "Not Found",
    405: "Method Not Allowed",
    409: "Conflict",
    501: "Not Implemented",
    503: "Service Unavailable",
}

# Each path and what its methods ask; a piece in braces is a parameter.
ROUTES = {
    "_bulk": {"POST": "bulk"},
    "_search": {"GET": "search", "POST": "search"},
    "_security/_authenticate": {"GET": "authenticate"},
    "_security/api_key": {"DELETE": "invalidate", "GET": "list_keys", "POST": "create_key", "PUT": "create_key"},
    "_security/api_key/{}": {"PUT": "update_key"},
    "_security/role/{}": {"DELETE": "delete_role", "GET": "get_role", "POST": "put_role", "PUT": "put_role"},
    "_security/role/{}/_clear_cache": {"POST": "clear_cache", "PUT": "clear_cache"},
    "_security/user/_has_privileges": {"GET": "has_privileges", "POST": "has_privileges"},
    "_security/user/{}": {"DELETE": "delete_user", "GET": "get_user", "POST": "put_user", "PUT": "put_user"},
    "{}": {"DELETE": "delete_index", "PUT": "create_index"},
    "{}/_bulk": {"POST": "bulk"},
    "{}/_mapping": {"GET": "get_mapping", "PUT": "put_mapping"},
    "{}/_search": {"GET": "search", "POST": "search"},
    "{}/_create/{}": {"POST": "create", "PUT": "create"},
    "{}/_doc/{}": {"DELETE": "delete", "GET": "get", "POST": "put", "PUT": "put"},
}
LITERALS_FIRST = sorted(((path.split("/"), methods) for path, methods in ROUTES.items()), key=lambda route: route[0].count("{}"))
BUILT = (
    "create_index delete_index get_mapping put create get delete put_role get_role delete_role "
    "put_user get_user delete_user clear_cache create_key list_keys invalidate authenticate"
).split()
OWNERS = ["owner=true", "owner=false"]
REFRESHING = ["refresh", "refresh=true", "refresh=false", "refresh=wait_for"]
INDEX_NAME = re.compile(r"[a-z0-9][a-z0-9._-]{0,254}")
ENTRIES = 100_000
WEIGHT = 134_217_728
WEIGHT_OF_ENTRY = 512
ZEROS = bytes(16)
WRITES_OF_NAMES = ("put_role", "delete_role", "put_user", "delete_user")


class Refusal(Exception):
    """An error's status, type and reason, and the methods that a 405 allows."""

    def __init__(self, status, kind, reason, allow=""):
        super().__init__(status, kind, reason)
        self.kind = kind
        self.reply = status, compact({"error": {"reason": reason, "type": kind}, "status": status}), allow


# ---- bodies


def read(form, body):
    """The body's tree, where it is of the form."""
    try:
        tree = tree_in(body)
    except NoTree as fault:
        raise Refusal(400, "bad_json", str(fault)) from None
    place = form(tree)
    if place is not None:
        raise Refusal(400, "bad_body", f"bad value at [{'.'.join(place)}]")
    return tree


# ---- mappings


def field(tree):
    """The first fault of a field of a mapping."""
    place = members({"properties": properties, "type": texts(["keyword", "long", "date", "object"].__contains__)})(tree)
    if place is not None:
        return place
    kind = tree.get("type", "object")
    return None if ("properties" in tree) == (kind == "object") else []


def properties(tree):
    if not isinstance(tree, dict):
        return []
    for name in first_names(tree):
        place = field(tree[name])
        if place is not None:
            return [name] + place
    return None


def fields_of(tree, names=()):
    """The paths and the types of the fields in `properties`."""
    for name, part in tree.items():
        if "properties" in part:
            yield from fields_of(part["properties"], (*names, name))
        else:
            yield ".".join((*names, name)), part["type"]


def mapping(tree):
    """The first fault of a mapping: a member's, or a rule on its paths."""
    place = members({"dynamic": if_wrong(lambda value: value is False or value == "false"), "properties": properties})(tree)
    if place is not None:
        return place
    paths = [path for path, kind in fields_of(tree.get("properties", {}))]
    known = set(paths)
    if len(known) < len(paths):
        return []
    for path in paths:
        pieces = path.split(".")
        if "" in pieces or len(pieces) > 30 or any(".".join(pieces[:n]) in known for n in range(1, len(pieces))):
            return []
    return None


creation = members({"mappings": mapping, "settings": is_object})


def printed(fields):
    """A mapping as it is printed, its paths cut at their dots."""
    tree = {}
    for path, kind in fields.items():
        inside = tree
        *above, last = path.split(".")
        for name in above:
            inside = inside.setdefault(name, {"properties": {}})["properties"]
        inside[last] = {"type": kind}
    return {"properties": tree}


# ---- routes


def row_of(segments):
    """The pieces of the path that these segments are, and its methods; a literal goes before a parameter."""
    first = segments[0]
    is_of_cluster = first.startswith("_") and first != "_all" and not first.startswith("_all,")
    for pieces, methods in LITERALS_FIRST:
        if is_of_cluster == (pieces[0] != "{}") and len(pieces) == len(segments):
            if all(segment == piece or (piece == "{}" and segment) for piece, segment in zip(pieces, segments)):
                return pieces, methods
    return None


def decoded(segment):
    try:
        return unquote_to_bytes(segment).decode()
    except UnicodeDecodeError:
        raise Refusal(400, "bad_path", "the path is not readable") from None


def route_of(method, target):
    """What is asked, and the parameters, by the target and the method alone."""
    if not target.startswith("/") or not target.isascii():
        raise Refusal(400, "bad_path", "the path is not readable")
    path, _, query = target.partition("?")
    segments = path[1:].split("/")
    row = row_of(segments)
    if row is None:
        raise Refusal(404, "no_route", f"no route for [{path}]")
    pieces, methods = row
    parameters = [decoded(segment) for piece, segment in zip(pieces, segments) if piece == "{}"]
    if method not in methods:
        reason = f"method [{method}] is not allowed for [{path}]"
        raise Refusal(405, "method_not_allowed", reason, ", ".join(sorted(methods)))
    kind = methods[method]
    if kind not in BUILT:
        raise Refusal(501, "not_built", "not built")
    takes = REFRESHING if kind in ("put", "create", "delete") else OWNERS if kind == "list_keys" else []
    if query and query not in takes:
        raise Refusal(400, "bad_parameter", f"bad query string [{query}]")
    return kind, [query] if kind == "list_keys" else parameters


def check_names(kind, parameters):
    """Names by their rules, and then those that are reserved."""
    word = kind.rpartition("_")[2]
    if word in ("role", "user"):
        if not is_name(parameters[0]):
            raise Refusal(400, "bad_name", f"bad {word} name [{parameters[0]}]")
        if kind in WRITES_OF_NAMES and parameters[0] == {"role": "superuser", "user": "elastic"}[word]:
            raise Refusal(400, "reserved", f"[{parameters[0]}] is reserved")
        return
    if kind == "clear_cache":
        for name in [] if parameters[0] == "*" else parameters[0].split(","):
            if not is_name(name):
                raise Refusal(400, "bad_name", f"bad role name [{name}]")
        return
    if kind in ("authenticate", "create_key", "list_keys", "invalidate"):
        return
    if not INDEX_NAME.fullmatch(parameters[0]):
        raise Refusal(400, "bad_name", f"bad index name [{parameters[0]}]")
    if len(parameters) > 1 and len(parameters[1].encode()) > 512:
        raise Refusal(400, "bad_name", f"bad document id [{parameters[1]}]")


def seen_in(fields):
    """The place that the fields name, and the user as whom the caller asks to act."""
    seen = [value.strip(" \t") for value in fields.get("esec-seen", [])]
    if len(seen) > 1 or not all(re.fullmatch(r"[0-9]{1,18}", value) for value in seen):
        raise Refusal(400, "bad_header", "bad header [esec-seen]")
    run_as = fields.get("es-security-runas-user", [])
    if len(run_as) > 1 or any("\udc80" <= c <= "\udcff" for value in run_as for c in value):
        raise Refusal(400, "bad_header", "bad header [es-security-runas-user]")
    return int(seen[0]) if seen else 0, run_as[0].strip(" \t") if run_as else None


FORMS = {
    "put": is_object,
    "create": is_object,
    "put_role": descriptor,
    "put_user": user,
    "create_key": new_key,
    "invalidate": invalidation,
}


def body_of(kind, body):
    if kind == "create_index":
        return read(creation, body) if body else {}
    return read(FORMS[kind], body) if kind in FORMS else None


def said_by(fields):
    """What the fields `authorization` say, or None where there isn't one field of the form."""
    return credentials(fields[0].strip(" \t").encode(errors="surrogateescape")) if len(fields) == 1 else None


Call = collections.namedtuple("Call", "kind parameters tree said run_as seen moment draw weight")


def call_of(method, target, fields, body, moment=0, draw=ZEROS):
    """What a request asks; what its own text is refused for is raised. A draw that failed is None."""
    kind, parameters = route_of(method, target)
    check_names(kind, parameters)
    seen, run_as = seen_in(fields)
    tree = body_of(kind, body)
    said = said_by(fields.get("authorization", []))
    return Call(kind, parameters, tree, said, run_as, seen, min(moment, LAST_MOMENT), draw, len(body) + WEIGHT_OF_ENTRY)


def action_of(call):
    """The action that a call needs, if it needs one, and the index that it is on, if it is on one."""
    if call.kind == "authenticate":
        return None, None
    if call.kind == "create_key":
        return "own_keys", None
    if call.kind in ("list_keys", "invalidate"):
        return "own_keys" if of_owner(call) else "any_keys", None
    if call.kind.rpartition("_")[2] in ("role", "user", "cache"):
        return "security", None
    return call.kind, call.parameters[0]


def of_owner(call):
    return call.parameters == ["owner=true"] if call.kind == "list_keys" else call.tree.get("owner", False)


# ---- the node


class Node:
    """The records, the indices, and the journal: its length, which is the place, and its weight, each within its limit.

    `count` is the number of entries that may have changed what roles are composed of, and `change` says what the last
    entry did to users, roles, keys or the cache, as `records.drops` wants it.
    """

    def __init__(self, secret=SECRET, entries=ENTRIES):
        self.entries = entries
        self.place, self.weight, self.count, self.change = 1, 0, 0, None
        self.indices = {}
        self.records = Records(secret)

    @property
    def users(self):
        return self.records.users

    @property
    def roles(self):
        return self.records.roles

    def frozen(self):
        """The node as it stands, which later changes of this one don't reach."""
        kept = copy.copy(self)
        kept.records = self.records.copy()
        kept.indices = {name: (fields, dict(documents)) for name, (fields, documents) in self.indices.items()}
        return kept

    def answer(self, method, target, fields, body, moment=0, draw=ZEROS):
        """The status, the body and the field `allow` of the reply. The fields are lists of values by names in small letters."""
        try:
            return (*self.answer_call(call_of(method, target, fields, body, moment, draw)), "")
        except Refusal as refusal:
            return refusal.reply

    def answer_call(self, call):
        """The status and the body of the reply, or the refusal that is raised."""
        subject, shown = self.decide(call)
        return getattr(self, call.kind)(call, subject, shown)

    def decide(self, call):
        """Who asks, and what each half that decides lets it see of an index, where it may do what it asks."""
        if call.seen > self.place:
            raise Refusal(409, "place_not_reached", f"place [{self.place}] has not reached [{call.seen}]")
        subject = self.records.subject(call.said, call.run_as, call.moment)
        if subject is None:
            raise Refusal(401, "security_exception", "missing or invalid credentials")
        if not may_run(self.records, subject):
            reason = f"{caller_text(subject)} is not permitted to run as [{call.run_as}]"
            raise Refusal(403, "security_exception", reason)
        action, index = action_of(call)
        if action is None:
            return subject, None
        if index is None:
            shown, where, names = None, "", CLUSTER_GRANTING[action]
            granted = all(grants_cluster(half, action) for half in self.records.acting_halves(subject))
        else:
            shown, where, names = permissions(self.records, subject, action, index), f" on index [{index}]", GRANTING[action]
            granted = all(half[0] for half in shown)
        if granted:
            return subject, shown
        raise Refusal(
            403,
            "security_exception",
            f"action [{action}]{where} is unauthorized for {subject_text(subject)}, this action is granted by the "
            f"{'cluster' if index is None else 'index'} privileges [{','.join(names)}]",
        )

    def accept(self, call, change=None):
        """Adds the call's entry, where there is room for it and what it draws was drawn."""
        if self.place + 1 > self.entries:
            raise Refusal(503, "journal_full", f"journal holds [{self.place}] of [{self.entries}] entries")
        if self.weight + call.weight > WEIGHT:
            reason = f"journal holds [{self.weight}] of [{WEIGHT}] bytes, [{call.weight}] asked"
            raise Refusal(503, "journal_full", reason)
        if call.kind == "create_key" and call.draw is None:
            raise Refusal(503, "no_entropy", "no random bytes")
        self.place += 1
        self.weight += call.weight
        self.count += change is not None
        self.change = change

    # -- who asks, and keys

    def authenticate(self, _call, subject, _shown):
        tree = {"authentication_type": "token", **acting(subject)}
        if acts_as_key(subject):
            key = {name: subject.record[name] for name in ("id", "name")}
            tree = {**tree, "api_key": key, "authentication_type": "api_key", "roles": []}
        return 200, compact(tree)

    def create_key(self, call, subject, _shown):
        key = self.records.make(subject, call.moment, self.place + 1, call.tree, call.draw or ZEROS)
        if key is None:
            raise Refusal(400, "derived_key", "a key made by a key may hold no privilege")
        self.accept(call, ("create", key["id"]))
        self.records.keys[key["id"]] = key
        secret = secret_of(call.draw)
        reply = {"api_key": secret, "encoded": encoded(key["id"], secret), "id": key["id"], "name": key["name"]}
        if key["expiration"] is not None:
            reply["expiration"] = key["expiration"]
        return 200, compact(reply)

    def list_keys(self, call, subject, _shown):
        keys = [self.records.keys[key] for key in first_names(self.records.keys)]
        name = acting(subject)["username"]
        return 200, compact({"api_keys": [key_tree(key) for key in keys if not of_owner(call) or key["owner"]["username"] == name]})

    def invalidate(self, call, subject, _shown):
        """An invalidation is a change, also where it finds nothing."""
        owner = acting(subject)["username"] if of_owner(call) else None
        newly, previously = self.records.found_by(call.tree.get("ids"), owner)
        self.accept(call, ("invalidate", newly))
        self.records.invalidate(newly)
        reply = {"error_count": 0, "invalidated_api_keys": newly, "previously_invalidated_api_keys": previously}
        return 200, compact(reply)

    # -- roles and users

    def clear_cache(self, call, _subject, _shown):
        names = call.parameters[0]
        self.accept(call, ("clear", None if names == "*" else names.split(",")))
        return 200, compact({"acknowledged": True})

    def get_role(self, call, _subject, _shown):
        name = call.parameters[0]
        return (200, compact({name: self.roles[name]})) if name in self.roles else (404, compact({}))

    def get_user(self, call, _subject, _shown):
        name = call.parameters[0]
        return (200, compact({name: self.users[name]["person"]})) if name in self.users else (404, compact({}))

    def put_role(self, call, _subject, _shown):
        name = call.parameters[0]
        created = name not in self.roles
        self.accept(call, ("role", name))
        self.records.put_role(name, call.tree)
        return 200, compact({"role": {"created": created}})

    def put_user(self, call, _subject, _shown):
        name = call.parameters[0]
        created = name not in self.users
        self.accept(call, ("user", name))
        self.records.put_user(name, call.tree)
        return 200, compact({"created": created})

    def delete_role(self, call, _subject, _shown):
        return self.delete_named(call, "role", self.roles)

    def delete_user(self, call, _subject, _shown):
        return self.delete_named(call, "user", self.users)

    def delete_named(self, call, kind, stored):
        name = call.parameters[0]
        if name not in stored:
            return 404, compact({"found": False})
        self.accept(call, (kind, name))
        del stored[name]
        return 200, compact({"found": True})

    # -- indices and documents

    def index(self, call):
        """The fields and the documents of the index that the call names."""
        name = call.parameters[0]
        if name not in self.indices:
            raise Refusal(404, "index_not_found_exception", f"no such index [{name}]")
        return self.indices[name]

    def create_index(self, call, _subject, _shown):
        name = call.parameters[0]
        if name in self.indices:
            raise Refusal(400, "resource_already_exists_exception", f"index [{name}] already exists")
        self.accept(call)
        fields = dict(fields_of(call.tree.get("mappings", {}).get("properties", {})))
        self.indices[name] = fields, {}
        return 200, compact({"acknowledged": True, "index": name})

    def delete_index(self, call, _subject, _shown):
        self.index(call)
        self.accept(call)
        del self.indices[call.parameters[0]]
        return 200, compact({"acknowledged": True})

    def get_mapping(self, call, _subject, shown):
        fields, _ = self.index(call)
        left = project_fields([pairs for _, _, pairs in shown], fields)
        return 200, compact({call.parameters[0]: {"mappings": printed(left)}})

    def create(self, call, subject, shown):
        _, documents = self.index(call)
        key = call.parameters[1]
        if key in documents:
            raise Refusal(409, "version_conflict_engine_exception", f"[{key}]: version conflict, document already exists")
        return self.put(call, subject, shown)

    def put(self, call, _subject, _shown):
        fields, documents = self.index(call)
        for path, scalar in leaves(call.tree):
            if path in fields and scalar is not None and typed(fields[path], scalar) is None:
                reason = f"failed to parse field [{path}] of type [{fields[path]}]"
                raise Refusal(400, "document_parsing_exception", reason)
        self.accept(call)
        name, key = call.parameters
        version = documents[key][0] + 1 if key in documents else 1
        documents[key] = version, call.tree, fields
        result = "created" if version == 1 else "updated"
        reply = {"_id": key, "_index": name, "_version": version, "result": result}
        return (201 if version == 1 else 200), compact(reply)

    def get(self, call, _subject, shown):
        _, documents = self.index(call)
        name, key = call.parameters
        if key in documents:
            version, tree, fields = documents[key]
            if all(is_permitted(queries, fields, tree) for _, queries, _ in shown):
                source = project([pairs for _, _, pairs in shown], tree)
                reply = {"_id": key, "_index": name, "_source": source, "_version": version, "found": True}
                return 200, compact(reply)
        return 404, compact({"_id": key, "_index": name, "found": False})

    def delete(self, call, _subject, _shown):
        _, documents = self.index(call)
        name, key = call.parameters
        if key not in documents:
            return 404, compact({"_id": key, "_index": name, "result": "not_found"})
        self.accept(call)
        version, *_ = documents.pop(key)
        return 200, compact({"_id": key, "_index": name, "_version": version + 1, "result": "deleted"})


def response(status, place, body, close, allow=""):
    lines = [f"HTTP/1.1 {status} {PHRASES[status]}"]
    if allow:
        lines.append(f"allow: {allow}")
    if close:
        lines.append("connection: close")
    lines += [f"content-length: {len(body)}", "content-type: application/json", f"esec-place: {place}"]
    if status == 401:
        lines.append("www-authenticate: Bearer, ApiKey")
    return "\r\n".join(lines).encode() + b"\r\n\r\n" + body
