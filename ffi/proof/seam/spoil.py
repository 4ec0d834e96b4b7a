"""What the types of a call forbid, and so what is required must fail of: each case is tried on copies of what was
passed. That the copies alone are allowed is looked at too."""


def leaves(kind, structs, path=""):
    """The octets and flags in a struct, with their types."""
    if kind in ("struct pkcs1_bytes", "bool"):
        yield path, kind
    for of, name in structs.get(kind, []) if kind != "struct pkcs1_bytes" else []:
        yield from leaves(of, structs, f"{path}.{name}")


def length_of(name, params):
    lengths = (f"{name}_len", f"{name}_room", "room" if name == "out" else None)
    return next((it for _, it in params if it in lengths), None)


def parameters(call, places=()):
    """As C declares them, where these places are filled."""
    return ", ".join(f"{'const ' if kind.endswith('*') and name not in places else ''}{kind} {name}"
                     for kind, name in call.params) or "void"


def passed(params, changed):
    return ", ".join(changed.get(name, name) for _, name in params)


class Cases:
    """The cases of one call."""

    def __init__(self, call, structs, places):
        self.call, self.structs, self.places = call, structs, places
        self.lines = []

    def refuses(self, what, changed, asked="requires"):
        test = f"{asked}_{self.call.name}({passed(self.call.params, changed)})"
        self.lines.append(f"    HOLDS(\"requires, though {what}\", !{test});")

    def accepts(self, what, changed):
        test = f"requires_{self.call.name}({passed(self.call.params, changed)})"
        self.lines.append(f"    HOLDS(\"requires of {what}\", {test});")

    def nulls(self):
        for kind, name in self.call.params:
            if kind.endswith("*"):
                length = length_of(name, self.call.params)
                self.refuses(f"{name} is null", {name: "NULL", **({length: "0"} if length else {})})
                size = "4" if kind == "uint8_t *" else f"sizeof *{name}"
                count = {length: "4" if kind == "uint8_t *" else "1"} if length else {}
                self.refuses(f"the last octet of {name} isn't there", {name: f"before_end({size} - 1)", **count})

    def overlaps(self):
        pointers = [it for it in self.call.params if it[0].endswith("*")]
        for mutable in self.places:
            for kind, name in pointers:
                if name != mutable:
                    lengths = [length_of(it, self.call.params) for it in (name, mutable)]
                    changed = {name: f"(const {kind})(const void *){mutable}", **{it: "1" for it in lengths if it}}
                    self.refuses(f"{name} is {mutable}", changed, "apart")

    def of_struct(self, kind, name):
        """A struct, or an array with one of them, whose parts are spoiled in turn."""
        struct, length = kind[:-2], length_of(name, self.call.params)
        changed = {name: "&one", **({length: "1"} if length else {})}
        self.lines.append(f"    {{ {struct} valid = {self.valid(struct, name, length)};")
        self.lines.append(f"    {struct} one = valid;")
        self.accepts(f"a copy of {name}", changed)
        for path, of in leaves(struct, self.structs):
            for what, value in self.values(of, name):
                self.lines.append(f"    {value.format(f'one{path}')};")
                self.lines.append("    if (room > 0)" if "out" in what else "")
                self.refuses(f"{name}{path} {what}", changed)
                self.lines.append("    one = valid;")
        self.lines.append("    }")

    def valid(self, struct, name, length):
        return f"*{name}" if not length else f"some_{struct.split()[-1]}()"

    def values(self, of, name):
        if of == "bool":
            yield "is 2", "*(uint8_t *)&{} = 2"
            return
        yield "is null", "{0}.data = NULL, {0}.len = 0"
        yield "has its last octet where none is", "{0}.data = before_end(3), {0}.len = 4"
        if "len" in self.places and name not in self.places:
            yield "is len", "{0}.data = (const uint8_t *)len, {0}.len = 1"
            yield "is in out", "{0}.data = out, {0}.len = 1"


def again(call, structs, places):
    """Calls once more, with something else in each struct that the call fills."""
    filled = [(kind[:-2], name) for kind, name in call.params
              if name in places and kind.startswith("struct") and not length_of(name, call.params)]
    lines = []
    for kind, name in filled:
        lines.append(f"    {kind} other_{name} = *{name};")
        for path, of in leaves(kind, structs):
            lines.append(f"    other_{name}{path} = {'true' if of == 'bool' else 'another'};")
    result = passed(call.params, {name: f"&other_{name}" for _, name in filled})
    return [*lines, f"    __wrap_{call.name}({result});"] if filled else []


def spoils(call, structs, places):
    cases = Cases(call, structs, places)
    cases.nulls()
    cases.overlaps()
    for kind, name in call.params:
        if kind.startswith("struct"):
            cases.of_struct(kind, name)
    cases.lines += again(call, structs, places)
    return [f"static void spoil_{call.name}({parameters(call, places)}) {{", *cases.lines, "}"]
