"""Users, roles and API keys, and what is decided of who asks, in plain Python: a model to compare tables with.

Credentials, bodies that ask for keys and invalidations, the records after changes, subjects, their halves and decisions,
and which halves a change drops, each computed anew from three dictionaries. A subject is a pair of a caller and a
target: a caller is `("user", NAME)` or `("key", ID)`, with what stood of it when it asked; a target is None, a user, or
`UNKNOWN`. A half is a pair of its kind and what it names.
"""

import base64
import binascii
import collections
import copy
import hashlib
import re

from bodies import SECRETS, descriptor, user
from queries import fits, listed, pair_of, permission, role_query_tree
from trees import NoTree, and_then, compact, first_names, if_wrong, is_object, is_text, items, members, texts, tree_in

GRANTING = {
    "get": ["read", "all"],
    "search": ["read", "all"],
    "put": ["index", "write", "all"],
    "create": ["create_doc", "index", "write", "all"],
    "delete": ["delete", "write", "all"],
    "create_index": ["create_index", "manage", "all"],
    "delete_index": ["delete_index", "manage", "all"],
    "get_mapping": ["view_index_metadata", "manage", "all"],
    "put_mapping": ["manage", "all"],
}
CLUSTER_GRANTING = {
    "security": ["manage_security", "all"],
    "own_keys": ["manage_own_api_key", "manage_api_key", "manage_security", "all"],
    "any_keys": ["manage_api_key", "manage_security", "all"],
}
UNITS = {"ms": 1, "s": 1000, "m": 60_000, "h": 3_600_000, "d": 86_400_000}
LONGEST = 1_000_000_000_000_000
LAST_MOMENT = 4_000_000_000_000_000
UNKNOWN = "unknown"
"""The target of a name that no user has."""


def text_of(tree):
    return compact(tree).decode()


# ---- credentials


def credentials(field):
    """The kind, the name or id, and the secret that the field's bytes say, or None where they are malformed."""
    found = re.fullmatch(rb"(bearer|apikey) +([A-Za-z0-9+/]*=*)", field, re.IGNORECASE)
    if not found:
        return None
    try:
        decoded = base64.b64decode(found[2], validate=True)
        text = decoded.decode()
    except (binascii.Error, ValueError):
        return None
    if base64.b64encode(decoded) != found[2] or ":" not in text:
        return None
    name, _, secret = text.partition(":")
    return "key" if found[1].lower() == b"apikey" else "user", name, secret


def digest(name, secret):
    return hashlib.sha256(name.encode() + b"\0" + secret.encode()).digest()


def secret_of(drawn):
    """The secret of a key for which these bytes were drawn."""
    return base64.urlsafe_b64encode(drawn).decode().rstrip("=")


def encoded(key, secret):
    return base64.b64encode(f"{key}:{secret}".encode()).decode()


# ---- bodies


def duration_of(text):
    """The milliseconds that a text says, if it is a duration."""
    found = re.fullmatch(r"([1-9][0-9]{0,14})(ms|s|m|h|d)", text, re.ASCII)
    value = int(found[1]) * UNITS[found[2]] if found else None
    return value if found and value <= LONGEST else None


def is_key_name(text):
    return 1 <= len(text.encode()) <= 255


def named_descriptors(tree):
    """The first fault of an object of descriptors: of a name, then of what stands behind it."""
    if not isinstance(tree, dict):
        return []
    for name in first_names(tree):
        place = descriptor(tree[name]) if is_key_name(name) else []
        if place is not None:
            return [name, *place]
    return None


new_key = members(
    {
        "name": texts(is_key_name),
        "expiration": texts(lambda text: duration_of(text) is not None),
        "role_descriptors": named_descriptors,
        "metadata": is_object,
    },
    required=["name"],
)


invalidation = and_then(
    members({"ids": and_then(items(is_text), bool), "owner": if_wrong(lambda value: isinstance(value, bool))}),
    lambda tree: "ids" in tree or tree.get("owner", False),
)


def body(form, told, given):
    """What is told of a body of the form, or the status and the body of its refusal."""
    try:
        tree = tree_in(given)
    except NoTree as fault:
        kind, reason = "bad_json", str(fault)
    else:
        place = form(tree)
        if place is None:
            return told(tree)
        kind, reason = "bad_body", f"bad value at [{'.'.join(place)}]"
    return f"400 {text_of({'error': {'reason': reason, 'type': kind}, 'status': 400})}"


def asked(tree):
    """A key that is asked for, its descriptors as they print."""
    return {
        "expiration": duration_of(tree["expiration"]) if "expiration" in tree else None,
        "metadata": tree.get("metadata", {}),
        "name": tree["name"],
        "role_descriptors": {name: printed(part) for name, part in tree.get("role_descriptors", {}).items()},
    }


def asked_ids(tree):
    return {"ids": tree.get("ids"), "owner": tree.get("owner", False)}


# ---- descriptors


def printed_group(group):
    tree = {"names": listed(group["names"]), "privileges": listed(group["privileges"])}
    if "field_security" in group:
        grant, excepted = pair_of(group["field_security"])
        tree["field_security"] = {"except": excepted, "grant": grant}
    if "query" in group:
        tree["query"] = role_query_tree(group["query"])
    return tree


def printed(tree):
    """A sound descriptor as it prints."""
    return {
        "applications": [],
        "cluster": tree.get("cluster", []),
        "indices": [printed_group(group) for group in tree.get("indices", [])],
        "metadata": tree.get("metadata", {}),
        "run_as": tree.get("run_as", []),
    }


SUPERUSER = printed({"cluster": ["all"], "indices": [{"names": ["*"], "privileges": ["all"]}], "run_as": ["*"]})


def grants(roles, action, index):
    return any(counting(roles, action, index))


def counting(roles, action, index):
    """The members of `indices` that count for the action on the index."""
    for role in roles:
        for group in role["indices"]:
            if any(fits(name, index) for name in group["names"]) and set(group["privileges"]) & set(GRANTING[action]):
                yield group


def grants_cluster(roles, action):
    return any(set(role["cluster"]) & set(CLUSTER_GRANTING[action]) for role in roles)


def runs_as(roles, name):
    return any(fits(pattern, name) for role in roles for pattern in role["run_as"])


def grants_nothing(role):
    return not role["cluster"] and not role["indices"] and not role["run_as"]


# ---- records

Subject = collections.namedtuple("Subject", "kind record target")


class Records:
    """Users, roles and keys, each a dictionary of what is printed of it and what else is kept.

    A change puts another dictionary in place of one of these, and alters none, so a copy keeps what stood.
    """

    def __init__(self, secret="s3cret"):
        self.users, self.roles, self.keys = {}, {"superuser": SUPERUSER}, {}
        self.put_user("elastic", {"secret": secret, "roles": ["superuser"]})

    def copy(self):
        kept = copy.copy(self)
        kept.users, kept.roles, kept.keys = dict(self.users), dict(self.roles), dict(self.keys)
        return kept

    # -- changes

    def put_user(self, name, tree):
        assert user(tree) is None, tree
        person = {
            "email": tree.get("email"),
            "full_name": tree.get("full_name"),
            "metadata": tree.get("metadata", {}),
            "roles": first_names(set(tree["roles"])),
            "username": name,
        }
        self.users[name] = {"person": person, "secret": tree["secret"], "digest": digest(name, tree["secret"])}

    def put_role(self, name, tree):
        assert descriptor(tree) is None, tree
        self.roles[name] = printed(tree)

    def invalidate(self, ids):
        for name in ids:
            if name in self.keys:
                self.keys[name] = {**self.keys[name], "invalidated": True}

    # -- who asks

    def subject(self, said, run_as, moment):
        """Who asks with these credentials at the moment, or None."""
        if said is None or not SECRETS.fullmatch(said[2]):
            return None
        kind, name, secret = said
        found = (self.users if kind == "user" else self.keys).get(name)
        if found is None or found["digest"] != digest(name, secret):
            return None
        if kind == "key" and (found["invalidated"] or (found["expiration"] is not None and moment >= found["expiration"])):
            return None
        target = None if run_as is None else self.users.get(run_as, UNKNOWN)
        return Subject(kind, found, target)

    def named(self, names):
        return {name: self.roles[name] for name in names if name in self.roles}

    def parts(self, names):
        return [self.roles[name] for name in names if name in self.roles]

    def own_halves(self, subject):
        """The descriptors of the caller's halves: the first one, and the one that limits it."""
        if subject.kind == "user":
            return [self.parts(subject.record["person"]["roles"])]
        assigned, limits = subject.record["assigned"], subject.record["limits"]
        return [list(assigned.values()), list(limits.values())] if assigned else [list(limits.values())]

    def acting_halves(self, subject):
        if subject.target is None:
            return self.own_halves(subject)
        return [] if subject.target is UNKNOWN else [self.parts(subject.target["person"]["roles"])]

    def limits_for(self, subject):
        """The limits of a key that the subject makes."""
        if acts_as_key(subject):
            return subject.record["limits"]
        return {} if subject.target is UNKNOWN else self.named(acting(subject)["roles"])

    def make(self, subject, moment, place, tree, drawn=bytes(16)):
        """The key that the subject makes, or None where it may not."""
        assert new_key(tree) is None, tree
        wanted = asked(tree)
        assigned = wanted["role_descriptors"]
        if acts_as_key(subject) and not (assigned and all(map(grants_nothing, assigned.values()))):
            return None
        key = f"key-{place:012}"
        return {
            "id": key,
            "name": wanted["name"],
            "digest": digest(key, secret_of(drawn)),
            "owner": acting(subject),
            "made": moment,
            "expiration": None if wanted["expiration"] is None else moment + wanted["expiration"],
            "invalidated": False,
            "assigned": assigned,
            "limits": self.limits_for(subject),
            "metadata": wanted["metadata"],
        }

    def descriptors(self, half):
        """The descriptors that a half stands for."""
        kind, named = half
        if kind == "names":
            return self.parts(named)
        return list(self.keys[named][kind].values()) if named in self.keys else []

    def found_by(self, ids, owner):
        """The ids that an invalidation finds newly, and those that it finds invalidated."""
        wanted = [key for key in first_names(self.keys) if ids is None or key in ids]
        wanted = [key for key in wanted if owner is None or self.keys[key]["owner"]["username"] == owner]
        return tuple([key for key in wanted if self.keys[key]["invalidated"] is was] for was in (False, True))


def acts_as_key(subject):
    return subject.kind == "key" and subject.target is None


def acting(subject):
    """The person that acts: the target, or else the user or the key's owner as it was."""
    if subject.target is not None and subject.target is not UNKNOWN:
        return subject.target["person"]
    return subject.record["person" if subject.kind == "user" else "owner"]


def caller_text(subject):
    if subject.kind == "user":
        return f"user [{subject.record['person']['username']}]"
    return f"API key id [{subject.record['id']}] of user [{subject.record['owner']['username']}]"


def subject_text(subject):
    if subject.target is None or subject.target is UNKNOWN:
        return caller_text(subject)
    return f"{caller_text(subject)} run as [{subject.target['person']['username']}]"


def halves(subject):
    """The names of the halves of the subject's decisions."""
    if subject.kind == "user":
        names = [("names", subject.record["person"]["roles"])]
    else:
        key = subject.record["id"]
        names = [("assigned", key)] * bool(subject.record["assigned"]) + [("limits", key)]
    if subject.target is not None and subject.target is not UNKNOWN:
        names.append(("names", subject.target["person"]["roles"]))
    return names


def key_tree(key):
    """A key as it is listed."""
    tree = {
        "creation": key["made"],
        "id": key["id"],
        "invalidated": key["invalidated"],
        "metadata": key["metadata"],
        "name": key["name"],
        "role_descriptors": key["assigned"],
        "username": key["owner"]["username"],
    }
    if key["expiration"] is not None:
        tree["expiration"] = key["expiration"]
    return tree


def key_text(key):
    return text_of(key_tree(key))


def may_run(records, subject):
    if subject.target is None:
        return True
    if subject.target is UNKNOWN:
        return False
    return all(runs_as(half, subject.target["person"]["username"]) for half in records.own_halves(subject))


def permissions(records, subject, action, index):
    """For each half that decides, whether it grants the action on the index, and the documents and fields that it permits."""
    return [permission(list(counting(half, action, index)), acting(subject)) for half in records.acting_halves(subject)]


def permitted(records, subject, action, index):
    """What a permission says: its first clauses alone where both second ones are `all`."""
    found = permissions(records, subject, action, index) or [(False, [], [])]
    granted = all(part[0] for part in found)
    documents, pairs = [part[1] for part in found], [clause_of(part[2]) for part in found]
    if documents[1:] in ([], ["all"]) and pairs[1:] in ([], ["all"]):
        documents, pairs = documents[0], pairs[0]
    return text_of({"documents": documents, "fields": pairs, "granted": granted})


def clause_of(pairs):
    return pairs if pairs == "all" else [{"except": excepted, "grant": grant} for grant, excepted in pairs]


# ---- changes and what they drop


def drops(change, half):
    """Whether the change drops the half: `("role", NAME)`, `("clear", NAMES)` where None is every name, or another one."""
    kind, named = change
    if half[0] != "names" or kind not in ("role", "clear"):
        return False
    return named is None or any(name in half[1] for name in ([named] if kind == "role" else named))
