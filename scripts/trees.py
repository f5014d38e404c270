"""JSON trees: reading with its three faults, printing, leaves, and forms of values with the places of their faults.

A tree is what the `json` module gives, but that its numbers are whole. A form answers the place of a tree's first
fault, as a list of names and numbers, or None.
"""

import json
import math
import re

NOT_JSON = "the body is not JSON"
TOO_DEEP = "the body is nested too deeply"
NOT_WHOLE = "the body has a number that is not a 64-bit whole number"


class NoTree(Exception):
    """Why bytes are no tree."""


def compact(value):
    """Compact JSON, members in the order of their names."""
    text = json.dumps(value, ensure_ascii=False, separators=(",", ":"), sort_keys=True)
    return text.encode()


# ---- reading


class Number(str):
    """A number's text."""


class Members(list):
    """An object's members as they were written, repeated names included."""


def refuse_constant(text):
    raise ValueError(text)


def levels_as_written(text):
    """How many lists and objects stand inside one another at the most, in sound JSON."""
    deepest = level = 0
    for mark in re.findall(r'"(?:[^"\\]|\\.)*"|[\[\]{}]', text, re.DOTALL):
        if mark in "[{":
            level += 1
            deepest = max(deepest, level)
        elif mark in "]}":
            level -= 1
    return deepest


def is_sound(value):
    """No text has half of a surrogate pair, and no number is beyond a float's range."""
    if isinstance(value, Number):
        return not math.isinf(float(value))
    if isinstance(value, str):
        return not any("\ud800" <= c <= "\udfff" for c in value)
    if isinstance(value, Members):
        return all(is_sound(name) and is_sound(part) for name, part in value)
    if isinstance(value, list):
        return all(is_sound(part) for part in value)
    return True


def tree_of(value):
    """The value in which the last of the members of one name counts."""
    if isinstance(value, Members):
        return {name: tree_of(part) for name, part in dict(value).items()}
    if isinstance(value, list):
        return [tree_of(part) for part in value]
    return value


def levels(tree):
    if isinstance(tree, dict):
        return 1 + max(map(levels, tree.values()), default=0)
    if isinstance(tree, list):
        return 1 + max(map(levels, tree), default=0)
    return 0


def whole(tree):
    """The tree with its numbers; a number that isn't a 64-bit whole number is refused."""
    if isinstance(tree, Number):
        if not re.fullmatch(r"-?[0-9]+", tree) or tree == "-0" or len(tree) > 20:
            raise NoTree(NOT_WHOLE)
        if not -(2**63) <= int(tree) < 2**63:
            raise NoTree(NOT_WHOLE)
        return int(tree)
    if isinstance(tree, dict):
        return {name: whole(part) for name, part in tree.items()}
    if isinstance(tree, list):
        return [whole(part) for part in tree]
    return tree


def json_of(body):
    try:
        text = body.decode()
        value = json.loads(
            text,
            parse_int=Number,
            parse_float=Number,
            parse_constant=refuse_constant,
            object_pairs_hook=Members,
        )
    except (ValueError, RecursionError):
        return None, False
    return value, levels_as_written(text) <= 127 and is_sound(value)


def tree_in(body):
    """The tree that the bytes are, or why they are none."""
    value, sound = json_of(body)
    if not sound:
        raise NoTree(NOT_JSON)
    tree = tree_of(value)
    if levels(tree) > 30:
        raise NoTree(TOO_DEEP)
    return whole(tree)


# ---- walking


def first_names(tree):
    """The names of an object's members, in the order of their bytes."""
    return sorted(tree, key=str.encode)


def leaves(tree, names=()):
    """The scalars with their paths, members in the order of their names."""
    if isinstance(tree, dict):
        for name in first_names(tree):
            yield from leaves(tree[name], (*names, name))
    elif isinstance(tree, list):
        for part in tree:
            yield from leaves(part, names)
    else:
        yield ".".join(names), tree


# ---- forms


def if_wrong(is_right):
    return lambda tree: None if is_right(tree) else []


def anything(_tree):
    return None


is_object = if_wrong(lambda tree: isinstance(tree, dict))
is_text = if_wrong(lambda tree: isinstance(tree, str))
is_text_or_null = if_wrong(lambda tree: tree is None or isinstance(tree, str))
is_false = if_wrong(lambda tree: tree is False)
is_empty_list = if_wrong(lambda tree: tree == [] and isinstance(tree, list))


def texts(is_right):
    return if_wrong(lambda tree: isinstance(tree, str) and is_right(tree))


def is_empty(tree):
    """An empty list or object."""
    if isinstance(tree, dict):
        return no_members(tree)
    return None if tree == [] else []


def no_members(tree):
    """An object without members; its first one is the fault."""
    if not isinstance(tree, dict):
        return []
    return [first_names(tree)[0]] if tree else None


def items(form):
    def list_form(tree):
        if not isinstance(tree, list):
            return []
        for number, item in enumerate(tree):
            place = form(item)
            if place is not None:
                return [str(number)] + place
        return None

    return list_form


def one_or(form, least):
    """A value of the form, or a list of at least so many."""

    def one_or_list(tree):
        if isinstance(tree, list):
            return [] if len(tree) < least else items(form)(tree)
        return form(tree)

    return one_or_list


def each_member(form):
    """An object each of whose members is of the form that its name has; without one it is a fault."""

    def object_form(tree):
        if not isinstance(tree, dict):
            return []
        for name in first_names(tree):
            inside = form(name)
            place = [] if inside is None else inside(tree[name])
            if place is not None:
                return [name] + place
        return None

    return object_form


def and_then(form, is_right):
    """A value of the form that the rule holds on, too; a broken rule is a fault of the value itself."""

    def both(tree):
        place = form(tree)
        if place is not None:
            return place
        return None if is_right(tree) else []

    return both


def members(forms, required=()):
    """An object of these members, among them those that are required."""
    return and_then(each_member(forms.get), lambda tree: all(name in tree for name in required))


def only_member(forms):
    """An object with one member, which is one of these."""
    return and_then(each_member(forms.get), lambda tree: len(tree) == 1)


def one_field(form):
    """An object with one member of whatever name."""
    return and_then(each_member(lambda name: form), lambda tree: len(tree) == 1)
