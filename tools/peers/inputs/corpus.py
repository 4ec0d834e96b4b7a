#!/usr/bin/env python3
"""corpus.py OUT [SEED [EACH]]: valid and damaged encodings, EACH of each damage and type (200).

OUT is records of: type (1 octet), damage (1 octet), length (4 octets, little end first), the octets. OUT.names has a
line for each damage: its number, name, group and rule, and whether it makes DER."""
import copy
import os
import random
import sys

sys.dont_write_bytecode = True
import damaged_fields
import damaged_octets
from damage import NoSuchPart
from trees import TYPES, make
from keys import make_key


def record(kind, damage, octets):
    return bytes([TYPES.index(kind), damage]) + len(octets).to_bytes(4, "little") + octets


def damaged(damage, kind, rng, keys, multi_prime_keys):
    """One input, or None if the encoding that was drawn has no part to damage."""
    tree = copy.deepcopy(make(kind, rng, keys, multi_prime_keys, damage.is_full))
    try:
        octets = damage.make(tree, rng, kind)
    except NoSuchPart:
        return None
    return tree.encoded() if octets is None else octets


def write_corpus(out, rng, each):
    keys = [make_key(rng.choice([1024, 1024, 1024, 1032, 1536]), 2, rng) for _ in range(40)]
    keys += [make_key(2048, 2, rng), make_key(1024, 2, rng, 3), make_key(1024, 2, rng, 17)]
    multi_prime_keys = [make_key(1024, 3, rng) for _ in range(25)] + [make_key(1536, 4, rng) for _ in range(8)]
    with open(out + ".new", "wb") as corpus, open(out + ".names", "w", encoding="utf-8") as names:
        for which, damage in enumerate(damaged_octets.DAMAGES + damaged_fields.DAMAGES):
            print(which, damage.name, damage.group or damage.name, damage.rule, damage.is_der, sep="\t", file=names)
            for kind in damage.kinds:
                made = 0
                while made < each:
                    octets = damaged(damage, kind, rng, keys, multi_prime_keys)
                    if octets is not None:
                        corpus.write(record(kind, which, octets))
                        made += 1
    os.replace(out + ".new", out)


def main():
    rng = random.Random(int(sys.argv[2]) if len(sys.argv) > 2 else 8017)
    write_corpus(sys.argv[1], rng, int(sys.argv[3]) if len(sys.argv) > 3 else 200)


if __name__ == "__main__":
    main()
