#!/usr/bin/env python3
"""Compares what ffi/proof/pkcs1.acsl.h says of each proved call with its Rattle function. What it requires is what the
types of the Rattle signature require: the exports have no clause `requires`. Each clause that it promises is named as
the Rattle clause that says the same, and that one has the words for what it says. A clause of Rattle that gets weaker,
or stronger, is a line of tools/docs/promises.txt, and its ACSL is read again then. The types of each call are those of
pkcs1_c.h, and the fields of structs and the statuses those of ffi/tests/abi. What differs is printed; the status is 1
then.

    check_contracts.py [ACSL]     ACSL: other contracts"""
import difflib
import glob
import os
import re
import sys

TOP = os.path.join(os.path.dirname(os.path.abspath(__file__)), "..", "..")
sys.path.insert(0, f"{TOP}/ffi/proof/seam")
import acsl  # noqa: E402

EXPORT = r'#\[unsafe\(no_mangle\)\]\s*pub extern "C" fn (\w+)(?:<[^>]*>)?\((.*?)\)(?: -> (\w+))?\n(.*?)\n?\{\n'
STRUCT = r"#\[repr\(C\)\]\s*#\[derive\([^)]*\)\]\s*pub struct (\w+)(?:<'a>)? \{(.*?)\n\}"
C_TYPES = {"u8": "uint8_t", "u32": "uint32_t", "u64": "uint64_t", "usize": "size_t", "bool": "bool", "": "void"}
NAMES = {"PublicKey": "public_key", "PrivateKey": "private_key", "OtherPrime": "others", "PrivateKeyInfo": "info",
         "Algorithm": "algorithm", "MaskGen": "mask_gen", "PssParams": "pss", "OaepParams": "oaep", "Bytes": "bytes"}
# What no clause of Rattle says: `types` its types say, the others where pointers lead.
NOT_IN_RATTLE = {"types", "in", "key_in", "placed_in", "part"}
# What says in Rattle what a word of ACSL does. Of `unchanged` it's the place in front of the call.
SAYS = {
    "status_of": "IsStatusOf", "write_status": "IsErrorOf", "written_len": "IsShortestLength|Encodes",
    "written_octet": "Encodes",
    "public_key_of": "HoldsPublicKey key.new", "private_key_of": "DecodesPrivateKey", "listed_of": "DecodesPrivateKey",
    "count_of": "DecodesPrivateKey|ArePlaced", "lists_primes": "DecodesPrivateKey|primes_encoded", "other_of": "ArePlaced",
    "info_of": "private_key_info_seen info.new", "pss_of": "pss_seen params.new", "oaep_of": "oaep_seen params.new",
    "tidy_info": "InfoIsTidy", "tidy_pss": "PssIsTidy", "tidy_oaep": "OaepIsTidy", "made_bytes": "source.now.parameters",
    "bit_len_of": "number_from_digits",
    "is_hash": "IsHash", "uses_hash": "UsesHash", "has_label": "LabelOf",
    "are_same_hash": "AreSameHash", "are_same_pss": "AreSamePss", "are_same_oaep": "AreSameOaep",
    "text_of": "status_text status", "version_text": "codes", "PRIVATE_KEY": "PrivateKeyEncoding|DecodesPrivateKey|rsa_private_key|PrivateKeyError",
    "PRIVATE_KEY_INFO": "ContainerEncoding|DecodesPrivateKey|rsa_private_key_info|InfoError",
    "PUBLIC_KEY": "PublicKeyEncoding|rsa_public_key|PublicKeyError",
    "PSS_PARAMS": "PssEncoding|rsa_pss_params", "PSS_PARAMS_STRICT": "IsShortest PssEncoding|strict_pss_params",
    "OAEP_PARAMS": "OaepEncoding|rsa_oaep_params", "OAEP_PARAMS_STRICT": "IsShortest OaepEncoding|strict_oaep_params",
    "PSS_ALGORITHM": "PssAlgorithmEncoding|rsa_pss_algorithm",
    "PSS_ALGORITHM_STRICT": "IsShortest PssAlgorithmEncoding|strict_pss_algorithm",
    "OAEP_ALGORITHM": "OaepAlgorithmEncoding|rsa_oaep_algorithm",
    "OAEP_ALGORITHM_STRICT": "IsShortest OaepAlgorithmEncoding|strict_oaep_algorithm",
}


def read(path):
    with open(path, encoding="utf-8") as it:
        return it.read()


def split(text, by):
    """The parts of the text between `by` that stand in no parentheses, without spaces."""
    parts, depth, start = [], 0, 0
    for at, c in enumerate(text):
        depth += (c in "([") - (c in ")]")
        if depth == 0 and text.startswith(by, at):
            parts.append(text[start:at])
            start = at + len(by)
    return [it.replace(" ", "") for it in parts + [text[start:]]]


def parsed(word):
    """A type of Rattle: whether it's a reference, and one that may be written; whether to several; and to what."""
    word = re.sub(r"<[^>]*>|'\w+ ", "", word).strip()
    return re.fullmatch(r"(&?)(mut )?(\[?)(\w*)\]?", word).groups()


def in_c(word):
    """What C passes for a type of Rattle: a slice as a pointer and a length."""
    pointer, mut, several, of = parsed(word)
    if of == "Global":
        return []
    of = C_TYPES.get(of) or "struct pkcs1_" + re.sub(r"(?<=[a-z])(?=[A-Z])", "_", of).lower()
    if not pointer:
        return [of]
    return [f"{'' if mut else 'const '}{of} *", *(["size_t"] if several else [])]


def field_in_c(name, word):
    """The fields of C for a field of Rattle: a struct for a slice, but where that struct is declared."""
    types = in_c(word)
    if name == "octets":
        return [f"{of} {it}".replace("* ", "*") for of, it in zip(types, ("data", "len"))]
    return [f"{'struct pkcs1_bytes' if len(types) == 2 else types[0]} {name}"] if types else []


def layout(source, exports):
    """What Rattle declares, as ffi/tests/abi has it of C: calls, fields and statuses."""
    for name, words, result, _ in exports:
        types = [it for word in re.findall(r"\w+: ([^,]+)", words) for it in in_c(word)]
        yield f"{in_c(result)[0]} {name}({', '.join(types)});"
    for name, body in re.findall(STRUCT, source, re.S):
        for field in re.findall(r"^ +pub (\w+): ([^,]+),", body, re.M):
            yield from (f"{in_c(name)[0]}: {it}" for it in field_in_c(*field))
    yield from (f"PKCS1_{name} = {it}" for name, it in re.findall(r"const (\w+): u32 = (\d+);", source))


def layout_in_c():
    """The same of C."""
    for it in re.findall(r"^\w+ pkcs1_c_\w+\([^)]*\);", read(f"{TOP}/ffi/lib/include/pkcs1_c.h"), re.M):
        yield re.sub(r" (\*?)\w+(?=[,)])", lambda name: name[1] and " *", " ".join(it.split()))
    for it in read(f"{TOP}/ffi/tests/abi").splitlines():
        if re.match(r"struct \w+: .* at |PKCS1_(?!ABI)\w+ = ", it):
            yield it.split(" at ")[0]


def wanted(words, names):
    """What the types require: of each place; which places are mutable, and all; and the octets that structs hold."""
    atoms, mutable, places, octets = set(), set(), [], []
    for word in re.findall(r"\w+: ([^,]+)", words):
        pointer, mut, several, of = parsed(word)
        if not pointer:
            names = names if of == "Global" else names[1:]
            continue
        place, *names = names
        given = f"*{place}"
        if several:
            length, *names = names
            given, place = f"{place},{length}", f"{place}+(0..{length}-1)"
        places.append(place)
        mutable |= {place} if mut else set()
        if several and of == "u8":
            atoms.add(f"ok_out({given})" if mut else f"ok({given})")
        else:
            atoms.add(f"\\valid({place})" if mut else f"\\valid_read({place})")
        if of in NAMES:
            atoms.add(f"ok_{NAMES[of]}({given})")
            octets += [] if mut else [f"ok_apart_{NAMES[of]}({given},out,room,len)"]
    if names:
        raise ValueError
    return atoms, mutable, places, octets


def required(contract, words, names):
    """Where a call requires something else than the types of its Rattle function."""
    given = {it for clause in re.findall(r"requires (.*?);", contract) for it in split(clause, "&&")}
    apart = {it for it in given if it.startswith(("\\separated", "ok_apart_"))}
    pairs = {frozenset((a, b)) for it in apart if it[0] == "\\" for l in [split(it[11:-1], ",")] for a in l for b in l}
    try:
        atoms, mutable, places, octets = wanted(words, names)
    except ValueError:
        yield f"has other parameters: {names} and {' '.join(words.split())}"
        return
    if given - apart != atoms:
        yield f"requires {sorted(given - apart)}\n  but the types {sorted(atoms)}"
    yield from (f"{a} and {b} aren't separated" for a in mutable for b in places
                if a != b and frozenset((a, b)) not in pairs)
    if any(it.startswith("out+") for it in mutable):
        yield from (f"doesn't require {it}" for it in octets if it not in apart)


def words_of(expression):
    """The words in an expression."""
    if not isinstance(expression, (tuple, list)):
        return set()
    found = set().union(*map(words_of, expression))
    return found | {expression[1]} if expression[:1] in (("call",), ("name",)) else found


def is_true(expression, named):
    """Whether nothing is said."""
    kind, *parts = expression
    if kind == "do":
        sides = [is_true(it, named) for it in parts[1:]]
        return all(sides) if parts[0] == "&&" else parts[0] == "==>" and sides[1]
    body = named[parts[0]].body if kind == "call" and parts[0] in named else None
    return kind == "true" or body is not None and is_true(body, named)


def clauses_of(text, records):
    """The clauses of a Rattle function, by name. Those of a record stand in place of one whose name is `writes`."""
    found = dict(re.findall(r"ensures (?:(\w+) )?\{ (.*?) \}(?=\n    ensures|$)", text, re.S))
    if "writes" in found:
        found.update({name: f"{found['writes']} {said}" for name, said in records.items()})
    return found


def promised(call, clauses, named):
    """Where a call promises what no clause of that name of its Rattle function says."""
    for name, (expression,) in ((name, it) for kind, name, it in call.clauses if kind == "ensures"):
        if name in NOT_IN_RATTLE or is_true(expression, named):
            continue
        if name not in clauses:
            yield f"{name} is no clause of it"
            continue
        for word in sorted(words_of(expression) & set(SAYS)):
            if not re.search(rf"(?<!\w)({SAYS[word]})(?!\w)", clauses[name]):
                yield f"{name} says {word}, but its clause has no {SAYS[word]}"
        if name == "unchanged" and "old" not in clauses[name]:
            yield "unchanged says what is old, but its clause doesn't"


def differing(what, old, new):
    return [f"{what}: {it.rstrip()}" for it in difflib.ndiff(old, new) if it[0] in "-+"]


def main():
    path = sys.argv[1] if len(sys.argv) > 1 else f"{TOP}/ffi/proof/pkcs1.acsl.h"
    text, (named, calls) = acsl.expanded(path), acsl.read(path)
    structs = read(f"{TOP}/crates/pkcs1_c/specs/Structs.antt")
    records = dict(re.findall(r"pub (\w+) : (.*)", re.search(r"record WritesOrTells .*? where\n(.*?)\n\n", structs, re.S)[1]))
    source = "\n".join(map(read, sorted(glob.glob(f"{TOP}/crates/pkcs1_c/src/*.rt"))))
    exports, wrong = re.findall(EXPORT, source, re.S), []
    for name, words, _, clauses in exports:
        found = re.search(r"CONTRACT((?:(?!CONTRACT).)*?)OF \w+ " + name + r"\((.*?)\);", text)
        if not found:
            wrong.append(f"{name}: has no contract")
            continue
        names = [re.search(r"(\w+)$", it)[1] for it in found[2].split(",")]
        seen = [*required(found[1], words, names), *promised(calls[name], clauses_of(clauses, records), named)]
        if re.search(r"^\s*requires", clauses, re.M):
            seen.append("has a clause `requires` in Rattle")
        wrong += [f"{name}: {it}" for it in seen]
    more = {it for it in calls if it.startswith("pkcs1_c_")} - {name for name, *_ in exports}
    wrong += [f"{name}: isn't in Rattle" for name in sorted(more)]
    in_order = lambda lines: sorted(lines, key=lambda it: it.split(":")[0])  # the fields of a struct in theirs
    declared = in_order(layout(source, exports))
    wrong += differing("C (-) and Rattle (+)", in_order(layout_in_c()), declared)
    print("\n".join([*wrong, f"{len(exports)} calls and {len(declared)} declarations, in which {len(wrong)} things "
                             "differ"]))
    sys.exit(len(wrong) > 0)


if __name__ == "__main__":
    main()
