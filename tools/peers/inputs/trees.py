"""Encodings as trees, of which a part can be damaged before the octets are made."""

TYPES = ("public key", "private key", "multi-prime key", "PSS", "PSS algorithm", "OAEP", "OAEP algorithm", "PKCS #8")
PUBLIC, PRIVATE, MULTI_PRIME, PSS, PSS_ALGORITHM, OAEP, OAEP_ALGORITHM, PKCS8 = TYPES
INDEFINITE = "indefinite"
IDENTIFIERS = {
    "sha1": "2b0e03021a", "sha224": "608648016503040204", "sha256": "608648016503040201",
    "sha384": "608648016503040202", "sha512": "608648016503040203", "mgf1": "2a864886f70d010108",
    "pSpecified": "2a864886f70d010109", "rsa": "2a864886f70d010101", "pss": "2a864886f70d01010a",
    "oaep": "2a864886f70d010107", "ec": "2a8648ce3d0201", "md5WithRSA": "2a864886f70d010105",
}
HASHES = ("sha224", "sha256", "sha384", "sha512")


class Node:
    """A value: its tag, and its contents as octets or as a list of nodes. Its role says what it is in its type."""

    def __init__(self, tag, body, role=""):
        self.tag, self.body, self.role = bytes([tag]), body, role
        self.length_form = None  # None: shortest; INDEFINITE; or a function from the length to its octets

    def contents(self):
        return self.body if isinstance(self.body, bytes) else b"".join(node.encoded() for node in self.body)

    def encoded(self):
        contents = self.contents()
        if self.length_form == INDEFINITE:
            return self.tag + b"\x80" + contents + b"\0\0"
        return self.tag + (self.length_form or length)(len(contents)) + contents


class Octets(Node):
    """Octets that stand as they are, in the place of a value."""

    def __init__(self, octets):
        super().__init__(octets[0], octets[1:])

    def encoded(self):
        return self.tag + self.body


def length(count):
    if count < 128:
        return bytes([count])
    octets = count.to_bytes((count.bit_length() + 7) // 8, "big")
    return bytes([128 + len(octets)]) + octets


def number(value):
    return value.to_bytes(value.bit_length() // 8 + 1, "big")


def integer(value, role="integer"):
    return Node(2, number(value), role)


def sequence(role, *parts):
    return Node(0x30, list(parts), role)


def identifier(name):
    return Node(6, bytes.fromhex(IDENTIFIERS.get(name, name)), "identifier")


def null():
    return Node(5, b"", "null")


def algorithm(role, name, *parameters):
    return sequence(role, identifier(name), *parameters)


def hash_function(name, has_null=True):
    return algorithm("hash", name, *([null()] if has_null else []))


def field(which, *parts):
    return Node(0xA0 + which, list(parts), f"field{which}")


def public_key(key):
    return sequence("top", integer(key["n"], "n"), integer(key["e"], "e"))


def private_key(key):
    parts = [integer(1 if key["others"] else 0, "version")]
    parts += [integer(key[name], name) for name in ("n", "e", "d", "p", "q", "dP", "dQ", "qInv")]
    if key["others"]:
        others = [sequence("other", *map(integer, other)) for other in key["others"]]
        parts.append(sequence("others", *others))
    return sequence("top", *parts)


def container(key, rng):
    """An unencrypted PKCS #8 container; each fourth has an attribute."""
    parts = [integer(0, "container version"), algorithm("rsa", "rsa", null()), Node(4, [private_key(key)], "octets")]
    if rng.random() < 0.25:
        name = Node(0x0C, b"key %d" % rng.randrange(1000))
        attribute = sequence("", Node(6, bytes.fromhex("2a864886f70d010914")), Node(0x31, [name]))
        parts.append(Node(0xA0, [attribute], "attributes"))
    return sequence("top", *parts)


def hash_and_mask(rng, is_full):
    """The two fields that PSS and OAEP share, each of which may be left out."""
    hash_name = rng.choice(HASHES)
    mask_hash = rng.choice([hash_name, hash_name, "sha256", "sha384", "sha512"])

    def fields():
        if is_full or rng.random() < 0.8:
            yield field(0, hash_function(hash_name, rng.random() < 0.8))
        if is_full or rng.random() < 0.8:
            yield field(1, algorithm("mask", "mgf1", hash_function(mask_hash, rng.random() < 0.8)))

    return fields()


def pss(rng, is_full=False):
    fields = hash_and_mask(rng, is_full)
    salt = rng.choice([0, 1, 32, 48, 64, 127, 128, 200, 222, 255, rng.randrange(0, 256)])
    parts = list(fields)
    if is_full or rng.random() < 0.8:
        parts.append(field(2, integer(salt if salt != 20 else 21, "salt")))  # 20 is the default
    return sequence("top", *parts)


def oaep(rng, is_full=False):
    parts = list(hash_and_mask(rng, is_full))
    if is_full or rng.random() < 0.8:
        label = bytes(rng.randrange(256) for _ in range(rng.choice([1, 3, 8, 20, 130, 300])))
        parts.append(field(2, algorithm("source", "pSpecified", Node(4, label, "label"))))
    return sequence("top", *parts)


def make(kind, rng, keys, multi_prime_keys, is_full=False):
    """An encoding of this type. If it's full, its parameters have all fields but the trailer's."""
    if kind == PUBLIC:
        return public_key(rng.choice(keys + multi_prime_keys))
    if kind == PRIVATE:
        return private_key(rng.choice(keys))
    if kind == MULTI_PRIME:
        return private_key(rng.choice(multi_prime_keys))
    if kind == PKCS8:
        return container(rng.choice(keys), rng)
    parameters = (pss if kind in (PSS, PSS_ALGORITHM) else oaep)(rng, is_full)
    if kind in (PSS, OAEP):
        return parameters
    parameters.role = "parameters"
    return sequence("top", identifier("pss" if kind == PSS_ALGORITHM else "oaep"), parameters)
