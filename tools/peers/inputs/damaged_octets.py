"""Damages to lengths, numbers and tags, and octets too many."""
from damage import KEYS, PKCS8, WITH_NUMBERS, Damage, change, has_type, is_any, is_constructed, is_integer, is_sequence
from damage import part, pick, some, with_role
from trees import INDEFINITE, Node, Octets, integer, length, null, sequence

LONG_LENGTH = "length in more octets than needed"
INDEFINITE_LENGTH = "indefinite length"
PAST_THE_END = "length past the end, cut off, octets in front"
NEGATIVE = "negative number"
TRAILING = "octets after the value"
EXTRA_FIELD = "a field too many in a SEQUENCE"
OTHER_TAG = "tag of another type or class, or constructed bit wrong"
CLAIMED = [2**32 - 1, 2**31, 2**31 - 1, 2**32 - 8, 2**32, 2**63, 2**64 - 1, 2**64]


def length_form(find, make):
    """The form that is made of chance takes the real length."""
    return change("length_form", find, lambda rng, _: make(rng))


def body(find, make):
    return change("body", find, make)


def tag(find, make):
    return change("tag", find, make)


def with_zeros(rng):
    zeros = rng.choice([1, 1, 1, 2, 3])

    def form(count):
        octets = count.to_bytes(max(1, (count.bit_length() + 7) // 8), "big")
        return bytes([128 + zeros + len(octets)]) + bytes(zeros) + octets

    return form


def more_by(count):
    return lambda real: length(real + count)


def with_high_bit(node):
    octets = node.body.lstrip(b"\0") or b"\0"
    return bytes([octets[0] | 128]) + octets[1:]


def below_0(_, node):
    octets = with_high_bit(node)
    if octets[0] == 255 and len(octets) > 1 and octets[1] & 128:
        octets = b"\xbf" + octets[1:]
    return octets


def is_closed(node):
    return is_sequence(node) and node.role != "others" and (node.role != "hash" or len(node.body) == 2)


def one_more(rng, node):
    return node.body + [rng.choice([null(), integer(1), Node(4, b"ab"), sequence("more"), Node(0xA7, [integer(3)])])]


def another_type(rng, node):
    return bytes([rng.choice([it for it in (1, 2, 3, 4, 5, 6, 10, 12, 0x30, 0x31) if it != node.tag[0]])])


def segments(tree, rng, _):
    node = with_role(tree, "octets")
    octets = node.contents()
    cut = rng.randrange(1, len(octets))
    node.tag, node.body = b"\x24", [Node(4, octets[:cut]), Node(4, octets[cut:])]


def high_form(rng, node):
    return bytes([node.tag[0] | 31]) + rng.choice([b"", b"\x80"]) + bytes([node.tag[0] & 31])


DAMAGES = [
    Damage("valid", "none", lambda tree, rng, kind: None, is_der=True),
    Damage("length below 128 in long form", "X.690 10.1, 8.1.3", group=LONG_LENGTH, make=length_form(
        some(lambda node: len(node.contents()) < 128), lambda rng: lambda real: b"\x81" + bytes([real]))),
    Damage("length with leading zero octets", "X.690 10.1", length_form(some(is_any), with_zeros), group=LONG_LENGTH),
    Damage("indefinite length, constructed", "X.690 10.1, 8.1.3.6", group=INDEFINITE_LENGTH,
           make=length_form(some(is_constructed), lambda rng: INDEFINITE)),
    Damage("indefinite length, primitive", "X.690 8.1.3.2", group=INDEFINITE_LENGTH,
           make=length_form(some(lambda node: isinstance(node.body, bytes)), lambda rng: INDEFINITE)),
    Damage("length that begins with FF", "X.690 8.1.3.5 c", group=LONG_LENGTH,
           make=length_form(some(is_any), lambda rng: lambda real: b"\xff" + real.to_bytes(127, "big"))),
    Damage("outermost length 2^32-1", "X.690 8.1.3.1", group=PAST_THE_END,
           make=length_form(part(), lambda rng: lambda _: length(2**32 - 1))),
    Damage("inner length 2^31 to 2^64", "X.690 8.1.3.1", group=PAST_THE_END, make=length_form(
        lambda tree, rng: pick(rng, tree, lambda node: node is not tree),
        lambda rng: (lambda claimed: lambda _: length(claimed))(rng.choice(CLAIMED)))),
    Damage("length with high octets that a cut to 32 or 64 bits drops", "X.690 8.1.3.1", group=PAST_THE_END,
           make=length_form(some(is_any), lambda rng: more_by(rng.choice([2**32, 2**64, 2**16 * 2**32, 2**128])))),
    Damage("length too long by 1 to 100", "X.690 8.1.3.1", group=PAST_THE_END,
           make=length_form(part(), lambda rng: more_by(rng.choice([1, 1, 2, 3, 100])))),
    Damage("inner length one octet too short", "X.690 8.1.3.1",
           length_form(some(lambda node: len(node.contents()) > 0), lambda rng: more_by(-1))),
    Damage("cut off", "X.690 8.1.1", group=PAST_THE_END,
           make=lambda tree, rng, kind: tree.encoded()[: rng.randrange(len(tree.encoded()))]),
    Damage("number with needless 00", "X.690 8.3.2", kinds=WITH_NUMBERS, is_full=True,
           make=body(some(is_integer), lambda rng, node: bytes(rng.choice([1, 1, 1, 2, 5])) + node.body)),
    Damage("number with needless FF", "X.690 8.3.2, RFC 8017 A.1", kinds=WITH_NUMBERS, group=NEGATIVE, is_full=True,
           make=body(some(is_integer), lambda rng, node: b"\xff" * rng.choice([1, 1, 2]) + with_high_bit(node))),
    Damage("number below 0", "RFC 8017 3.1, A.1", body(some(is_integer), below_0), WITH_NUMBERS, NEGATIVE,
           is_full=True),
    Damage("number without octets", "X.690 8.3.1", body(some(is_integer), lambda rng, node: b""), WITH_NUMBERS,
           is_full=True),
    Damage("number 0 in place of one", "none in DER (RFC 8017 3.1: positive)", kinds=(*KEYS, PKCS8), is_der=True,
           make=body(some(lambda node: is_integer(node) and "version" not in node.role), lambda rng, node: b"\0")),
    Damage("any octets after the value", "not one encoding", group=TRAILING, make=lambda tree, rng, kind:
           tree.encoded() + bytes(rng.randrange(256) for _ in range(rng.choice([1, 1, 2, 4, 16])))),
    Damage("zero octets after the value", "not one encoding", group=TRAILING,
           make=lambda tree, rng, kind: tree.encoded() + bytes(rng.choice([1, 2, 8]))),
    Damage("a second value after the value", "not one encoding", group=TRAILING, make=lambda tree, rng, kind:
           tree.encoded() + rng.choice([b"\5\0", b"\2\1\1", b"\x30\0", tree.encoded()])),
    Damage("an element too many in a SEQUENCE", "X.680 25", body(some(is_closed), one_more), group=EXTRA_FIELD),
    Damage("zero octets in a SEQUENCE's end", "X.690 8.9", group=EXTRA_FIELD, make=body(
        some(is_sequence), lambda rng, node: node.body + [Octets(bytes(rng.choice([1, 2, 2, 4])))])),
    Damage("octets before the value", "not one encoding", group=PAST_THE_END, make=lambda tree, rng, kind:
           rng.choice([b"\0", b"\5\0", b"\n", b"\xef\xbb\xbf"]) + tree.encoded()),
    Damage("no octets", "X.690 8.1.1", lambda tree, rng, kind: b"", group=PAST_THE_END),
    Damage("tag of another universal type", "X.680", tag(some(has_type), another_type), group=OTHER_TAG),
    Damage("tag with the constructed bit changed", "X.690 8.1.2.5, 10.2", group=OTHER_TAG,
           make=tag(some(has_type), lambda rng, node: bytes([node.tag[0] ^ 32]))),
    Damage("OCTET STRING of segments", "X.690 10.2", segments, (PKCS8,), OTHER_TAG),
    Damage("tag of another class", "X.680", group=OTHER_TAG, make=tag(
        some(lambda node: has_type(node) and node.role != "attributes"),
        lambda rng, node: bytes([node.tag[0] ^ rng.choice([64, 128, 192])]))),
    Damage("tag below 31 in high form", "X.690 8.1.2.2, 8.1.2.4.1", tag(some(is_any), high_form)),
]
