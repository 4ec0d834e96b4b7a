#!/usr/bin/env python3
"""cases.py FOLDER [SEED]: the encodings that speed is measured on, each in a file NAME.TYPE. And lines for the tool in
files NAME.lines of 14 MiB, in which each of 2 MiB is another. Their numbers are by chance, with sizes of real ones."""
import os
import random
import sys

sys.dont_write_bytecode = True
from keys import make_key
from trees import Node, algorithm, field, hash_function, identifier, integer, null, private_key, public_key, sequence
from trees import IDENTIFIERS

SALTS = {"sha1": 20, "sha224": 28, "sha256": 32, "sha384": 48, "sha512": 64, "sha512_256": 32, "sha3_256": 32}
IDENTIFIERS.update(sha512_256="608648016503040206", sha3_256="608648016503040208")
TINY = {"n": 15, "e": 3, "d": 3, "p": 5, "q": 3, "dP": 3, "dQ": 1, "qInv": 2, "others": []}
ANOTHER, REPEATED = 2 << 20, 7
SIZES = ((512, 2), (1024, 2), (2048, 2), (3072, 2), (4096, 2), (2048, 3), (3072, 3), (4096, 3), (4096, 5))
REAL = (2048, 2), (4096, 2), (2048, 3) # read by others too, which may check the numbers


def container(key, attributes=None):
    parts = [integer(0), algorithm("rsa", "rsa", null()), Node(4, [private_key(key)])]
    return sequence("top", *parts, *([] if attributes is None else [Node(0xA0, [attributes])]))


def shared_fields(name, mask, has_null):
    """The hash function and the mask generation function, without defaults."""
    fields = []
    if name != "sha1" or not has_null:
        fields.append(field(0, hash_function(name, has_null)))
    if mask != "sha1" or not has_null:
        fields.append(field(1, algorithm("mask", "mgf1", hash_function(mask, has_null))))
    return fields


def pss(name, mask, salt, has_null=True):
    return sequence("top", *shared_fields(name, mask, has_null), *([field(2, integer(salt))] if salt != 20 else []))


def oaep(name, mask, label=b"", has_null=True):
    source = [field(2, algorithm("source", "pSpecified", Node(4, label)))] if label else []
    return sequence("top", *shared_fields(name, mask, has_null), *source)


def all_params():
    """The name, the type and the tree of all parameters."""
    for name, salt in SALTS.items():
        yield name, "pss", pss(name, name, salt)
        yield name, "oaep", oaep(name, name)
    yield "sha1_salt_32", "pss", pss("sha1", "sha1", 32)
    for salt in (20, 222):
        yield f"sha256_salt_{salt}", "pss", pss("sha256", "sha256", salt)
    yield "sha256_mgf1_sha512", "pss", pss("sha256", "sha512", 32)
    yield "sha256_mgf1_sha1", "pss", pss("sha256", "sha1", 32)
    yield "sha256_mgf1_sha1", "oaep", oaep("sha256", "sha1")
    yield "sha256_without_null", "pss", pss("sha256", "sha256", 32, False)
    yield "sha256_without_null", "oaep", oaep("sha256", "sha256", b"", False)
    yield "sha1_label", "oaep", oaep("sha1", "sha1", b"label")
    yield "sha256_label", "oaep", oaep("sha256", "sha256", b"label of 20 octets..")


def random_key(rng, bits, primes):
    """Numbers of the sizes that those of a key have."""
    def number(size):
        return rng.getrandbits(size) | 1 << (size - 1 - rng.randrange(2))

    half = bits // primes
    others = [tuple(number(half) for _ in range(3)) for _ in range(primes - 2)]
    return {"n": number(bits), "e": 65537, "d": number(bits), "others": others,
            **{name: number(half) for name in ("p", "q", "dP", "dQ", "qInv")}}


def all_keys(rng):
    """The name, the type and the tree of all keys and containers."""
    known = {"tiny": TINY, "8192": random_key(rng, 8192, 2)}
    for bits, primes in SIZES:
        key = make_key(bits, primes, rng) if (bits, primes) in REAL else random_key(rng, bits, primes)
        known[f"{bits}_{primes}_primes" if primes > 2 else str(bits)] = key
    for name, key in known.items():
        yield name, "multi_prime_key" if key["others"] else "private_key", private_key(key)
        if not key["others"]:
            yield name, "public_key", public_key(key)
        if name != "8192":
            yield name, "container", container(key)
    name = Node(0x1E, "key".encode("utf-16-be"))
    attribute = sequence("", Node(6, bytes.fromhex("2a864886f70d010914")), Node(0x31, [name]))
    yield "2048_attribute", "container", container(known["2048"], attribute)


def lines_of(rng):
    """For each file of lines a function that makes one of them."""
    def hexadecimal(word, *trees):
        return " ".join([word, *(tree.encoded().hex() for tree in trees)])

    def small():
        return {"n": rng.randrange(1, 128), "e": rng.randrange(1, 128)}

    def some_pss():
        name = rng.choice(list(SALTS))
        return pss(name, rng.choice([name, "sha1"]), rng.randrange(256), rng.random() < 0.8)

    return {
        "public_key_2048": lambda: hexadecimal("pub", public_key(random_key(rng, 2048, 2))),
        "private_key_2048": lambda: hexadecimal("priv", private_key(random_key(rng, 2048, 2))),
        "three_primes_2048": lambda: hexadecimal("priv", private_key(random_key(rng, 2048, 3))),
        "tiny_public_key": lambda: hexadecimal("pub", public_key(small())),
        "pss": lambda: hexadecimal("pss", some_pss()),
        "same_pss": lambda: hexadecimal("same-pss", some_pss(), some_pss()),
    }


def main():
    os.makedirs(sys.argv[1], exist_ok=True)
    rng = random.Random(int(sys.argv[2]) if len(sys.argv) > 2 else 8017)

    def write(name, octets):
        with open(f"{sys.argv[1]}/{name}", "wb") as file:
            file.write(octets)

    for name, kind, tree in [*all_keys(rng), *all_params()]:
        write(f"{name}.{kind}", tree.encoded())
        if kind in ("pss", "oaep"):
            write(f"{name}.{kind}_algorithm", sequence("top", identifier(kind), tree).encoded())
    for name, line in lines_of(rng).items():
        made, size = [], 0
        while size < ANOTHER:
            made.append(line().encode() + b"\n")
            size += len(made[-1])
        write(f"{name}.lines", b"".join(made) * REPEATED)


if __name__ == "__main__":
    main()
