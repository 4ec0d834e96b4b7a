#!/usr/bin/env python3
"""bounds.py make OUT: encodings at bounds, as records of the corpus. bounds.py show OUT ANSWERS..: who accepts them."""
import random
import sys

sys.dont_write_bytecode = True
from corpus import record
from keys import make_key
from trees import MULTI_PRIME, OAEP, PSS, PUBLIC, Node, algorithm, field, hash_function, integer, null, private_key
from trees import public_key, sequence

MODULUS_BITS = (64, 128, 256, 512, 1024, 4096, 4104, 8192, 8200, 16384, 16392, 65536)
EXPONENTS = (1, 3, 2**31 - 1, 2**31 + 1, 2**32 + 1, 2**64 + 1, 2**256 + 1)
PRIMES = (3, 4, 5, 6, 9, 17)
SALTS = (0, 20, 127, 128, 255, 256, *(2**bits - less for bits in (16, 31, 32, 63, 64) for less in (1, 0)))
LABELS = (1, 127, 128, 65535, 65536, 900000)
IDENTIFIERS = (5, 9, 38, 39, 40, 63, 64, 127, 128, 255, 256, 1000)


def power(number):
    if number < 2**16 - 1:
        return str(number)
    return f"2^{number.bit_length()} - 1" if number & 1 else f"2^{number.bit_length() - 1}"


def encodings(rng):
    """Name, type and tree of each."""
    for bits in MODULUS_BITS:
        modulus = rng.getrandbits(bits) | 1 << (bits - 1) | 1
        yield f"modulus of {bits} bits", PUBLIC, public_key({"n": modulus, "e": 65537})
    for exponent in EXPONENTS:
        modulus = rng.getrandbits(2048) | 1 << 2047 | 1
        yield f"exponent of {exponent.bit_length()} bits", PUBLIC, public_key({"n": modulus, "e": exponent})
    for count in PRIMES:
        yield f"{count} primes of 160 bits", MULTI_PRIME, private_key(make_key(160 * count, count, rng))
    mask = algorithm("mask", "mgf1", hash_function("sha256"))
    for salt in SALTS:
        fields = field(0, hash_function("sha256")), field(1, mask), field(2, integer(salt))
        yield f"salt length {power(salt)}", PSS, sequence("top", *fields)
    for size in LABELS:
        source = algorithm("source", "pSpecified", Node(4, bytes(size)))
        yield f"label of {size} octets", OAEP, sequence("top", field(2, source))
    for size in IDENTIFIERS:
        function = sequence("hash", Node(6, bytes([42] + [1] * (size - 1))), null())
        yield f"hash identifier of {size} octets", PSS, sequence("top", field(0, function))


def show(names, files):
    libraries = {}
    for name in files:
        with open(name, encoding="ascii") as file:
            libraries[name.rsplit("bounds.", 1)[1].replace("_", " ")] = file.read()
    print("Accepted (!: and then not written as the same octets).\n")
    print(f"| encoding | {' | '.join(libraries)} |\n|---|{'---|' * len(libraries)}")
    for i, name in enumerate(names):
        words = {"9": "-", "0": "no", "1": "yes", "2": "yes"}
        print("| " + " | ".join([name, *(words.get(answers[i], "yes!") for answers in libraries.values())]) + " |")
    print()


def main():
    made = list(encodings(random.Random(1)))
    if sys.argv[1] == "show":
        return show([name for name, _, _ in made], sys.argv[3:])
    with open(sys.argv[2], "wb") as file:
        for _, kind, tree in made:
            file.write(record(kind, 0, tree.encoded()))


if __name__ == "__main__":
    main()
