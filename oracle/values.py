"""Types and values.

A type is a word or a tuple: 'int', 'bool', 'text', 'call', ('tuple', types), ('list', T), ('ref', T), ('map', K, V).
A value is an integer, a truth, a Text, or one of the tuples below.
"""
from collections import namedtuple

from trees import Text, Word, is_integer

Tuple = namedtuple("Tuple", "items")
List = namedtuple("List", "items")
# The keys rise, each with its value.
Map = namedtuple("Map", "entries")
# The result of the command of that number, not known yet.
Variable = namedtuple("Variable", "number")
# The result of the command of that number, and its value.
Reference = namedtuple("Reference", "number value")
Call = namedtuple("Call", "operation arguments")

LEAST, GREATEST = -(2**63), 2**63 - 1
MOST_ITEMS, MOST_KEYS = 65_536, 4_096


def type_of_tree(tree):
    if isinstance(tree, Word):
        return str(tree)
    head, *parts = tree
    types = tuple(map(type_of_tree, parts))
    return ("tuple", types) if head == "tuple" else (str(head), *types)


def holds(kind, words):
    """Whether one of these words stands in the type."""
    if isinstance(kind, str):
        return kind in words
    head, *parts = kind
    parts = parts[0] if head == "tuple" else parts
    return head in words or any(holds(part, words) for part in parts)


def parts_of(value):
    """The values directly inside of a value, its keys aside."""
    if isinstance(value, (Tuple, List)):
        return value.items
    if isinstance(value, Map):
        return tuple(part for _, part in value.entries)
    return ()


def with_parts(value, change):
    """The value with each variable in it replaced by what `change` gives."""
    if isinstance(value, Variable):
        return change(value)
    if isinstance(value, (Tuple, List)):
        return type(value)(tuple(with_parts(part, change) for part in value.items))
    if isinstance(value, Map):
        return Map(tuple((key, with_parts(part, change)) for key, part in value.entries))
    return value


def variables_in(value):
    if isinstance(value, Variable):
        return [value.number]
    return [number for part in parts_of(value) for number in variables_in(part)]


def fits(value, kind, results):
    """Whether a value has the type where the commands so far have results of these types."""
    if isinstance(value, bool):
        return kind == "bool"
    if isinstance(value, int):
        return kind == "int"
    if isinstance(value, Text):
        return kind == "text" and len(value) <= MOST_ITEMS
    if isinstance(value, Variable):
        return 1 <= value.number <= len(results) and kind == ("ref", results[value.number - 1])
    if isinstance(value, Tuple):
        return kind[0] == "tuple" and len(kind[1]) == len(value.items) and all(
            fits(part, of, results) for part, of in zip(value.items, kind[1]))
    if isinstance(value, List):
        return kind[0] == "list" and len(value.items) <= MOST_ITEMS and all(
            fits(part, kind[1], results) for part in value.items)
    return isinstance(value, Map) and kind[0] == "map" and len(value.entries) <= MOST_KEYS and all(
        fits(key, kind[1], results) and fits(part, kind[2], results) for key, part in value.entries)


def tree_of_value(value):
    if isinstance(value, bool):
        return Word("true" if value else "false")
    if isinstance(value, int):
        return Word(value)
    if isinstance(value, Text):
        return value
    if isinstance(value, Variable):
        return Word(f"${value.number}")
    if isinstance(value, Map):
        return [Word("map")] + [[tree_of_value(key), tree_of_value(part)] for key, part in value.entries]
    return [Word("tuple" if isinstance(value, Tuple) else "list")] + [tree_of_value(part) for part in value.items]


class NoValue(Exception):
    """A tree that spells no value."""


def value_of_tree(tree, has_maps, may_have_variables):
    if isinstance(tree, Text):
        return tree
    if isinstance(tree, Word):
        return value_of_word(tree, may_have_variables)
    head = tree[0] if tree and isinstance(tree[0], Word) else ""
    if head in ("tuple", "list"):
        parts = tuple(value_of_tree(part, has_maps, may_have_variables) for part in tree[1:])
        return Tuple(parts) if head == "tuple" else List(parts)
    if head == "map" and has_maps:
        return map_of_trees(tree[1:], may_have_variables)
    raise NoValue


def value_of_word(word, may_have_variables):
    if is_integer(word) and LEAST <= int(word) <= GREATEST:
        return int(word)
    if word in ("true", "false"):
        return word == "true"
    if may_have_variables and word[0] == "$" and 2 <= len(word) <= 5 and all("0" <= digit <= "9" for digit in word[1:]):
        return Variable(int(word[1:]))
    raise NoValue


def map_of_trees(trees, may_have_variables):
    entries = []
    for tree in trees:
        if not isinstance(tree, list) or len(tree) != 2:
            raise NoValue
        key = value_of_tree(tree[0], True, False)
        if not isinstance(key, (int, Text)):
            raise NoValue
        entries.append((key, value_of_tree(tree[1], True, may_have_variables)))
    keys = [key for key, _ in entries]
    if len({type(key) for key in keys}) > 1 or any(not a < b for a, b in zip(keys, keys[1:])):
        raise NoValue
    return Map(tuple(entries))
