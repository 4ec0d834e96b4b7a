"""What a damage is, and how it finds the part of an encoding that it damages."""
from typing import Callable, NamedTuple

from trees import OAEP, OAEP_ALGORITHM, PKCS8, PSS, PSS_ALGORITHM, PUBLIC, PRIVATE, MULTI_PRIME, TYPES

KEYS = (PUBLIC, PRIVATE, MULTI_PRIME)
ALGORITHMS = (PSS_ALGORITHM, OAEP_ALGORITHM)
OF_PSS = (PSS, PSS_ALGORITHM)
PARAMETERS = (PSS, PSS_ALGORITHM, OAEP, OAEP_ALGORITHM)
WITH_NUMBERS = (*KEYS, *OF_PSS, PKCS8)
WITH_IDENTIFIERS = (*PARAMETERS, PKCS8)


class Damage(NamedTuple):
    name: str
    rule: str  # what says that this is no encoding, or who doesn't read it
    make: Callable  # (tree, rng, kind): damages the tree, or returns octets
    kinds: tuple = TYPES  # the types whose encodings it damages
    group: str = ""  # damages of one group share a line of the table; else it has a line of its own
    is_der: bool = False  # what it makes is DER of the type still
    is_full: bool = False  # parameters have all fields


class NoSuchPart(Exception):
    """This encoding has no part that the damage could change."""


def walk(node):
    """The nodes of a tree, but not those in attributes, which no type says more of."""
    yield node
    if isinstance(node.body, list) and node.role != "attributes":
        for part in node.body:
            yield from walk(part)


def pick(rng, tree, is_wanted):
    found = [node for node in walk(tree) if is_wanted(node)]
    if not found:
        raise NoSuchPart
    return rng.choice(found)


def with_role(tree, role):
    return next(node for node in walk(tree) if node.role == role)


def parameters_of(tree):
    return next((node for node in walk(tree) if node.role == "parameters"), tree)


# Which node is damaged: a function of the tree and of chance.
def some(is_wanted):
    return lambda tree, rng: pick(rng, tree, is_wanted)


def part(*numbers):
    """The part with these numbers, from the outermost on."""
    return lambda tree, _: part(*numbers[1:])(tree.body[numbers[0]], _) if numbers else tree


def change(what, find, make):
    """The damage by which the body, the tag or the form of the length of a node is what is made of chance and it."""
    def damage(tree, rng, _):
        node = find(tree, rng)
        setattr(node, what, make(rng, node))

    return damage


def is_any(_):
    return True


def is_integer(node):
    return node.tag == b"\2"


def is_identifier(node):
    return node.role == "identifier"


def is_hash(node):
    return node.role == "hash"


def is_mask(node):
    return node.role == "mask"


def is_field(node):
    return node.role.startswith("field")


def has_type(node):
    """Whether the grammar says which tag the value has."""
    return node.role not in ("null", "label")


def is_constructed(node):
    return isinstance(node.body, list) and node.role not in ("octets", "attributes")


def is_sequence(node):
    return is_constructed(node) and node.tag == b"\x30"
