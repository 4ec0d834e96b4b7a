"""Damages to the fields of keys, containers, parameters and identifiers."""
import copy

from damage import ALGORITHMS, KEYS, MULTI_PRIME, OF_PSS, PARAMETERS, PKCS8, PRIVATE, WITH_IDENTIFIERS, Damage, change
from damage import is_field, is_hash, is_identifier, is_mask, parameters_of, part, pick, some, with_role
from trees import TYPES, Node, algorithm, field, hash_function, identifier, integer, null, number, sequence

WRONG_VERSION = "version that doesn't fit the other primes"
MISSING = "a field missing or too many, another algorithm"
ORDER = "fields out of order or twice"
WRONG_FIELD = "parameters: unknown field, or tag over no or two values"
WRONG_PSS = "PSS: trailer field not 1, negative salt length"
HASH_PARAMETERS = "hash function with parameters other than NULL"
MALFORMED = "object identifier malformed"
NOT_RSA = "PKCS #8: not rsaEncryption with NULL"
AFTER_KEY = "PKCS #8: octets behind the key, unknown field"
LONG_SALT = "salt length above 255"
UNKNOWN = "unknown hash function or mask generation"
VERSIONS = [2, 3, 127, 128, 255, 256, 257, 2**32, 2**32 + 1, 2**64]
STRANGE_NUMBERS = [0, 2, 3, 127, 188, 255, 256, 257, 2**32 + 1, 2**64 + 1]
SALTS = [256, 257, 276, 478, 65535, 65536, 2**31 - 1]
LONGER_SALTS = [2**32, 2**32 + 20, 2**63, 2**64, 2**64 + 20, 2**128]


def body(find, make):
    """The new body is made of chance and the old one."""
    return change("body", find, lambda rng, node: make(rng, node.body))


def version(make):
    return body(lambda tree, _: with_role(tree, "version"), lambda rng, _: make(rng))


def no_others_in_version_1(tree, rng, kind):
    if kind == PRIVATE:
        tree.body[0].body = b"\1"
        tree.body.append(sequence("others"))
    else:
        tree.body[-1].body = []


def no_others_in_version_0(tree, rng, kind):
    if kind == MULTI_PRIME:
        tree.body.pop()
    tree.body[0].body = b"\0"
    tree.body.append(sequence("others"))


def another_other_prime(tree, rng, kind):
    other = rng.choice(tree.body[-1].body)
    if rng.random() < 0.5:
        del other.body[rng.randrange(3)]
    else:
        other.body.insert(rng.randrange(4), integer(rng.choice([1, 5, 65537])))


def one_less(tree, rng, kind):
    roles = ("top", "hash", "mask") if kind in ALGORITHMS else ("top", "other", "rsa", "octets")
    node = pick(rng, tree, lambda node: node.role in roles and isinstance(node.body, list) and node.body)
    if node.role in ("hash", "mask", "rsa") or kind in ALGORITHMS:
        del node.body[0]  # the identifier
    elif node.role == "top" and kind == PKCS8:
        del node.body[rng.randrange(3)]
    else:
        del node.body[rng.randrange(min(len(node.body), 9))]


def default_fields(kind):
    fields = [field(0, hash_function("sha1")), field(1, algorithm("mask", "mgf1", hash_function("sha1")))]
    if kind in OF_PSS:
        return fields + [field(2, integer(20, "salt")), field(3, integer(1))]
    return fields + [field(2, algorithm("source", "pSpecified", Node(4, b"", "label")))]


def put(parameters, new):
    """Puts a field in its place, for the one with its tag, if there is one."""
    parameters.body = [old for old in parameters.body if old.tag != new.tag]
    parameters.body.insert(sum(old.tag < new.tag for old in parameters.body), new)


def with_field(make):
    return lambda tree, rng, kind: put(parameters_of(tree), make(rng))


def with_defaults(tree, rng, kind):
    fields = default_fields(kind)
    for which in rng.sample(range(len(fields)), rng.randrange(1, len(fields) + 1)):
        put(parameters_of(tree), fields[which])


def fields_of(tree, kind):
    return (parameters_of(tree) if kind in PARAMETERS else tree).body


def out_of_order(tree, rng, kind):
    parts = fields_of(tree, kind)
    if kind == PKCS8:
        one, other = rng.choice([(0, 1), (1, 2), (0, 2)])
    elif kind == MULTI_PRIME:
        one, other = rng.randrange(0, 9), 9
    else:
        one, other = sorted(rng.sample(range(len(parts)), 2))
    parts[one], parts[other] = parts[other], parts[one]


def twice(tree, rng, kind):
    parts = fields_of(tree, kind)
    which = rng.randrange(len(parts))
    parts.insert(which + 1, copy.deepcopy(parts[which]))


def unknown_field(tree, rng, kind):
    tags = [0xA4, 0xA5, 0xBE, 0x84] + ([] if kind in OF_PSS else [0xA3])
    parameters_of(tree).body.append(Node(rng.choice(tags), b"\2\1\1"))


def another_algorithm(tree, rng, kind):
    tree.body[0] = identifier(rng.choice(["rsa", "mgf1", "oaep" if kind in OF_PSS else "pss", "sha256"]))


def named(is_wanted, names):
    """One of these names in an algorithm of this kind."""
    def damage(tree, rng, _):
        name = identifier(rng.choice(names))
        pick(rng, tree, is_wanted).body[0] = name

    return damage


def leading_80(rng, octets):
    start = rng.choice([0] + [i + 1 for i, octet in enumerate(octets[:-1]) if octet < 128])
    return octets[:start] + b"\x80" * rng.choice([1, 1, 2]) + octets[start:]


def cut_off(rng, octets):
    if rng.random() < 0.5:
        return octets[:-1] + bytes([octets[-1] | 128])
    return octets + bytes([rng.randrange(129, 256)])


def long_identifier(tree, rng, kind):
    size = rng.choice([40, 41, 64, 127, 128, 200])
    octets = bytes([42] + [rng.randrange(1, 128) for _ in range(size - 1)])
    pick(rng, tree, is_hash).body[0].body = octets


def large_part(tree, rng, kind):
    size = rng.choice([5, 6, 10, 11, 20])
    octets = bytes([rng.randrange(0xC0, 256)] + [rng.randrange(128, 256) for _ in range(size - 1)]) + b"\1"
    pick(rng, tree, is_hash).body[0].body = b"\x2a" + octets


DAMAGES = [
    Damage("version 0 with other primes", "RFC 8017 A.1.2", body(part(0), lambda rng, _: b"\0"), (MULTI_PRIME,),
           WRONG_VERSION),
    Damage("version 1 without other primes", "RFC 8017 A.1.2", version(lambda rng: b"\1"), (PRIVATE, PKCS8),
           WRONG_VERSION),
    Damage("version above 1", "RFC 8017 A.1.2", version(lambda rng: number(rng.choice(VERSIONS))),
           (PRIVATE, MULTI_PRIME, PKCS8), WRONG_VERSION),
    Damage("no other primes in their list, version 1", "RFC 8017 A.1.2", no_others_in_version_1,
           (MULTI_PRIME, PRIVATE), WRONG_VERSION),
    Damage("no other primes in their list, version 0", "RFC 8017 A.1.2", no_others_in_version_0,
           (MULTI_PRIME, PRIVATE), WRONG_VERSION),
    Damage("another prime with a field missing or too many", "RFC 8017 A.1.2", another_other_prime, (MULTI_PRIME,),
           MISSING),
    Damage("a required field missing", "X.680 25", one_less, (*KEYS, PKCS8, *ALGORITHMS), MISSING),
    Damage("PKCS #8: algorithm without parameters", "RFC 8017 A.1", body(part(1), lambda rng, old: old[:-1]), (PKCS8,),
           NOT_RSA),
    Damage("PKCS #8: NULL with contents", "X.690 8.8",
           body(part(1, 1), lambda rng, _: rng.choice([b"\0", b"\5\0", b"x"])), (PKCS8,), NOT_RSA),
    Damage("PKCS #8: parameters of another type", "RFC 8017 A.1", kinds=(PKCS8,), group=NOT_RSA, make=body(
        part(1), lambda rng, old: [old[0], rng.choice([integer(0), Node(4, b""), sequence(""), identifier("sha1")])])),
    Damage("PKCS #8: another algorithm", "RFC 8017 A.1", kinds=(PKCS8,), group=NOT_RSA, make=body(
        part(1), lambda rng, old: [identifier(rng.choice(["mgf1", "ec", "sha256", "md5WithRSA"])), *old[1:]])),
    Damage("PKCS #8: version not 0", "RFC 5208 5 (RFC 5958: 1 is v2)",
           body(part(0), lambda rng, _: number(rng.choice([1, 2, 127, 255, 256, 2**32]))), (PKCS8,)),
    Damage("PKCS #8: octets after the key in the OCTET STRING", "RFC 5208 5", kinds=(PKCS8,), group=AFTER_KEY,
           make=body(part(2), lambda rng, old: [*old, rng.choice([null(), integer(0), sequence("")])])),
    Damage("PKCS #8: unknown field after, [1] to [4]", "RFC 5208 5 (RFC 5958: [1])", kinds=(PKCS8,), group=AFTER_KEY,
           make=body(part(), lambda rng, old: [*old, Node(rng.choice([0xA1, 0x81, 0xA2, 0xA4]), b"\3\1\0")])),
    Damage("default written out", "X.690 11.5 (RFC 4055: read it)", with_defaults, PARAMETERS),
    Damage("fields out of order", "X.690 8.9.2", out_of_order, (*PARAMETERS, PKCS8, MULTI_PRIME), ORDER, is_full=True),
    Damage("field twice", "X.690 8.9.2", twice, TYPES, ORDER, is_full=True),
    Damage("unknown field of parameters", "RFC 8017 A.2", unknown_field, PARAMETERS, WRONG_FIELD),
    Damage("explicit tag over nothing", "X.690 8.14", body(some(is_field), lambda rng, _: []), PARAMETERS, WRONG_FIELD,
           is_full=True),
    Damage("explicit tag over two values", "X.690 8.14", kinds=PARAMETERS, group=WRONG_FIELD, is_full=True, make=body(
        some(is_field), lambda rng, old: old + [rng.choice([copy.deepcopy(old[0]), null(), integer(20)])])),
    Damage("trailer field not 1", "RFC 8017 A.2.3",
           with_field(lambda rng: field(3, integer(rng.choice(STRANGE_NUMBERS)))), OF_PSS, WRONG_PSS),
    Damage("salt length 256 to 2^31-1", "none in DER (libpkcs1 reads up to 255)",
           with_field(lambda rng: field(2, integer(rng.choice(SALTS)))), OF_PSS, LONG_SALT, is_der=True),
    Damage("salt length over 2^32", "none in DER (no key is as long)",
           with_field(lambda rng: field(2, integer(rng.choice(LONGER_SALTS)))), OF_PSS, LONG_SALT, is_der=True),
    Damage("negative salt length", "RFC 8017 A.2.3", kinds=OF_PSS, group=WRONG_PSS, make=with_field(
        lambda rng: field(2, Node(2, rng.choice([b"\xff", b"\x80", b"\xec", b"\xff\x7f"]))))),
    Damage("NULL with contents for a hash function", "X.690 8.8", kinds=PARAMETERS, group=HASH_PARAMETERS, is_full=True,
           make=body(some(is_hash), lambda rng, old: [
               old[0], Node(5, rng.choice([b"\0", b"\5\0", b"\1\2\3"]), "null")])),
    Damage("another type for a hash function", "RFC 4055 2.1", kinds=PARAMETERS, group=HASH_PARAMETERS, is_full=True,
           make=body(some(is_hash), lambda rng, old: [
               old[0], rng.choice([integer(0), Node(4, b""), sequence(""), identifier("sha1")])])),
    Damage("MGF1 without a hash function", "RFC 8017 A.2.1", body(some(is_mask), lambda rng, old: old[:1]), PARAMETERS,
           is_full=True),
    Damage("MGF1 with NULL", "RFC 8017 A.2.1", body(some(is_mask), lambda rng, old: [old[0], null()]), PARAMETERS,
           is_full=True),
    Damage("unknown mask generation", "none in DER (RFC 8017: MGF1)",
           named(is_mask, ["sha256", "2a864886f70d01016f", "2a0304"]), PARAMETERS, UNKNOWN, is_der=True, is_full=True),
    Damage("unknown hash function", "none in DER (an extensible set)",
           named(is_hash, ["2a03040506", "608648016503040263", "883703"]), PARAMETERS, UNKNOWN, is_der=True,
           is_full=True),
    Damage("another algorithm", "RFC 4055 3.1, 4.1", another_algorithm, ALGORITHMS, MISSING),
    Damage("algorithm without parameters", "RFC 4055 3.1 (PSS keys: allowed), 4.1",
           body(part(), lambda rng, old: old[:-1]), ALGORITHMS, MISSING),
    Damage("algorithm with NULL", "RFC 4055 3.1, 4.1", body(part(), lambda rng, old: [old[0], null()]), ALGORITHMS,
           MISSING),
    Damage("object identifier with a leading 80", "X.690 8.19.2", body(some(is_identifier), leading_80),
           WITH_IDENTIFIERS, MALFORMED, is_full=True),
    Damage("object identifier cut off", "X.690 8.19.2", body(some(is_identifier), cut_off), WITH_IDENTIFIERS,
           MALFORMED, is_full=True),
    Damage("object identifier without octets", "X.690 8.19.2", body(some(is_identifier), lambda rng, _: b""),
           WITH_IDENTIFIERS, MALFORMED, is_full=True),
    Damage("object identifier of 40 to 200 octets", "none in DER (libpkcs1 reads up to 39)", long_identifier,
           PARAMETERS, is_der=True, is_full=True),
    Damage("object identifier with a part past 2^32", "none in DER", large_part, PARAMETERS, is_der=True,
           is_full=True),
]
