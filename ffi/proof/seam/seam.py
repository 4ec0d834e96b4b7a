#!/usr/bin/env python3
"""Writes a C file that checks what ffi/proof/pkcs1.acsl.h says of the proved calls, each time that one is called.

    seam.py ACSL PKCS1_H > seam.c

A call goes through __wrap_NAME, as the linker's --wrap has it. That looks whether what is required holds, and whether
it fails of what the types forbid: a null pointer, a flag of 2, places that overlap. It calls, and then looks at what
may be assigned, and at each clause. The axioms are tried over the few octets, primes and numbers that terms.c has. What
nothing else is said of in ACSL has a body in meaning.c: it's computed by a second reader and writer."""
import sys

import acsl
from spoil import length_of, parameters, spoils
from to_c import Text, conjuncts, in_c, read_structs

MANY = 40  # of how many calls of each function it's looked at what is forbidden


def declared(function, storage=""):
    states = [f"int {it}" for it in function.labels] if len(function.labels) == 2 else []
    params = ", ".join(states + [f"{in_c(kind)} {name}" for kind, name in function.params])
    return f"{storage}{in_c(function.result)} {function.name}({params or 'void'})"


def is_maker(function):
    """Whether it makes a value of others, and nothing more is known of it."""
    return function.result == "value" and function.body is None and function.name != "others_seen"


def maker(function):
    parts = ", ".join(f"part_of_{kind}({name})" for kind, name in function.params)
    return (f"{declared(function, 'static ')} {{\n    const struct part parts[] = {{{parts}}};\n"
            f"    return make(\"{function.name}\", {len(function.params)}, parts);\n}}\n")


def definition(function, named, structs):
    text = Text(named, structs, [(name, kind) for kind, name in function.params],
                function.labels if len(function.labels) == 2 else ())
    return f"{declared(function, 'static ')} {{\n    return {text.of(function.body)[0]};\n}}\n"


def equality(struct, fields):
    """Whether two structs are the same, with each pointer."""
    def equal(kind, name):
        if kind == "bool":
            return f"octet_at(&a.{name}) == octet_at(&b.{name})"
        return f"equal_{kind.split()[-1]}(a.{name}, b.{name})" if kind.startswith("struct") else f"a.{name} == b.{name}"
    tests = " && ".join(equal(*it) for it in fields)
    return f"static bool equal_{struct.split()[-1]}({struct} a, {struct} b) {{\n    return {tests};\n}}\n"


def axiom(function, named, structs):
    """Tries the axiom with what terms.c has of each type, in each pair of states."""
    _, variables, body = function.body
    text = Text(named, structs, [(name, kind) for kind, name in variables], function.labels)
    loops = [f"for (int {it} = 0; {it} < STATES; {it}++) {{ enter({it});" for it in function.labels]
    for kind, name in variables:
        of = kind.replace(" *", "s").split()[-1]
        loops.append(f"for (int {name}_ = 0; {name}_ < SOME; {name}_++) {{ {in_c(kind)} {name} = some_{of}({name}_);")
    return (f"static void axiom_{function.name}(void) {{\n    {' '.join(loops)}\n"
            f"        HOLDS(\"axiom {function.name}\", {text.truth(body)});\n    {'}' * len(loops)}\n}}\n")


def size_of(name, params):
    """How many octets a parameter points to."""
    length = length_of(name, params)
    return f"{length} * sizeof *{name}" if length else f"sizeof *{name}"


def assigned(call, text):
    """How many octets of each parameter may be assigned."""
    places = {}
    for kind, _, expressions in call.clauses:
        for it in expressions if kind == "assigns" else []:
            if it[0] == "star":
                places[it[1][1]] = f"sizeof *{it[1][1]}"
            elif it[0] == "index":
                places[it[1][1]] = f"({text.of(it[2][2])[0]} + 1) * (integer)sizeof *{it[1][1]}"
    return places


def wrapper(call, named, structs):
    params = [(name, kind) for kind, name in call.params]
    text = Text(named, structs, [*params, ("\\result", call.result)])
    pointers = [(name, kind) for name, kind in params if kind.endswith("*")]
    places = assigned(call, text)
    required = [it for kind, _, several in call.clauses if kind == "requires" for it in conjuncts(several[0])]
    requires, apart = (" && ".join(map(text.truth, of)) or "true"
                       for of in (required, [it for it in required if it[:2] == ("call", "\\separated")]))
    ensures = [(name, text.truth(it)) for kind, name, several in call.clauses if kind == "ensures" for it in several]
    given = parameters(call, places)
    passed = ", ".join(name for name, _ in params)
    result = {"bool": "uint8_t"}.get(call.result, call.result)
    lines = [f"static bool requires_{call.name}({parameters(call)}) {{", f"    return {requires};", "}",
             f"static bool apart_{call.name}({parameters(call)}) {{", f"    return {apart};", "}",
             f"{result} __real_{call.name}({given});", f"{result} __wrap_{call.name}({given});",
             *spoils(call, structs, places),
             f"{result} __wrap_{call.name}({given}) {{",
             f"    static int tried;\n    static bool spoils;\n    if (!spoils && tried++ < {MANY}) {{",
             f"        spoils = true;\n        begin_call(\"{call.name}\");\n        spoil_{call.name}({passed});",
             f"        spoils = false;\n    }}\n    begin_call(\"{call.name}\");",
             f"    HOLDS(\"requires\", requires_{call.name}({passed}));"]
    lines += [f"    const {kind}before_{name} = copy({name}, {size_of(name, call.params)});" for name, kind in pointers]
    lines += [f"    {in_c(kind)} {name} = {it};" for it, (name, kind) in text.old.items()]
    lines.append(f"    {f'{result} result = ' if result != 'void' else ''}__real_{call.name}({passed});")
    lines += [f"    unchanged(\"{name}\", {name}, before_{name}, {places.get(name, '0')}, "
              f"{size_of(name, call.params)});" for name, _ in pointers]
    lines += [f"    HOLDS(\"{name}\", {it});" for name, it in ensures]
    lines += ["    end_call();", *(["    return result;"] if result != "void" else []), "}"]
    return "\n".join(lines) + "\n"


def main():
    named, calls = acsl.read(sys.argv[1])
    structs = read_structs(sys.argv[2])
    print('#include "terms.h"\n')
    for struct, fields in structs.items():
        print(equality(struct, fields))
    functions = [it for it in named.values() if it.kind != "axiom"]
    for it in functions:
        print(f"{declared(it, 'static ' if it.body or is_maker(it) else '')};")
    print()
    for it in functions:
        if it.body or is_maker(it):
            print(definition(it, named, structs) if it.body else maker(it))
    axioms = [it for it in named.values() if it.kind == "axiom"]
    for it in axioms:
        print(axiom(it, named, structs))
    for it in calls.values():
        if it.name.startswith("pkcs1_c_"):
            print(wrapper(it, named, structs))
    print("void try_axioms(void) {")
    for it in axioms:
        print(f"    axiom_{it.name}();")
    print("}")


main()
