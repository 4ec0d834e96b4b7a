#!/usr/bin/env python3
"""sets.py FOLDER [SEED]: different encodings of one kind, each set in a file NAME.TYPE of records as corpus.py has them.
Keys are of pools of primes, as many pairs as are wanted. Parameters are a mixture, most of them with SHA-256."""
import itertools
import os
import random
import sys

sys.dont_write_bytecode = True
from cases import SALTS, container, oaep, pss
from keys import key_of, make_prime
from trees import TYPES, identifier, private_key, public_key, sequence

EACH = 1000
EXPONENT = 65537
HASHES = {"sha256": 60, "sha384": 15, "sha512": 15, "sha1": 8, "sha224": 2}
OTHER_SALTS = (0, 20, 32, 64, 190, 222)
KINDS = dict(zip(("public_key", "private_key", "multi_prime_key", "pss", "pss_algorithm", "oaep", "oaep_algorithm",
                  "container"), range(len(TYPES))))


def keys_of(rng, bits, pool, count):
    """Keys of `count` primes out of a pool, with about these bits: exactly 2048 and 4096 of two primes."""
    primes = [make_prime(bits // count + (bits % count > 0), EXPONENT, rng) for _ in range(pool)]
    if count == 2:
        drawn = list(itertools.permutations(primes, 2))
        drawn = rng.sample(drawn, min(EACH, len(drawn)))
    else:
        drawn = [rng.sample(primes, count) for _ in range(EACH)]
    return [key_of(it, EXPONENT) for it in drawn]


def usual(rng):
    """A hash function, that of the mask, and whether they have NULL, as they are met."""
    name, = rng.choices(list(HASHES), HASHES.values())
    return name, name if rng.random() < 0.95 else "sha1", rng.random() < 0.94


def some_pss(rng):
    name, mask, has_null = usual(rng)
    return pss(name, mask, SALTS[name] if rng.random() < 0.85 else rng.choice(OTHER_SALTS), has_null)


def some_oaep(rng):
    name, mask, has_null = usual(rng)
    return oaep(name, mask, rng.randbytes(12) if rng.random() < 0.1 else b"", has_null)


def within(name, trees):
    return [sequence("top", identifier(name), tree) for tree in trees]


def all_sets(rng):
    """The name, with its type, and the trees of each set."""
    keys = keys_of(rng, 2048, 48, 2)
    yield "2048.public_key", map(public_key, keys)
    yield "2048.private_key", map(private_key, keys)
    yield "2048.container", map(container, keys)
    yield "4096.private_key", map(private_key, keys_of(rng, 4096, 20, 2))
    yield "3_primes.multi_prime_key", map(private_key, keys_of(rng, 2049, 24, 3))
    yield "20_primes.multi_prime_key", map(private_key, keys_of(rng, 2060, 48, 20))
    mixed = [some_pss(rng) for _ in range(EACH)]
    yield "mixed.pss", mixed
    yield "mixed.pss_algorithm", within("pss", mixed)
    mixed = [some_oaep(rng) for _ in range(EACH)]
    yield "mixed.oaep", mixed
    yield "mixed.oaep_algorithm", within("oaep", mixed)


def main():
    folder = sys.argv[1]
    os.makedirs(folder, exist_ok=True)
    rng = random.Random(int(sys.argv[2]) if len(sys.argv) > 2 else 8017)
    for name, trees in all_sets(rng):
        kind = KINDS[name.split(".")[1]]
        with open(f"{folder}/{name}", "wb") as file:
            for octets in (tree.encoded() for tree in trees):
                file.write(bytes([kind, 0]) + len(octets).to_bytes(4, "little") + octets)


if __name__ == "__main__":
    main()
