"""Says expressions of ACSL in C. An array that is read is touched, so that a sanitizer sees it. Arithmetic has no
limits that are met. Old octets are those of a copy, other old values are computed before the call."""
import contextlib
import re

ARITHMETIC = ("integer", "size_t", "uint8_t", "uint32_t", "uint64_t", "int", "bool")


def read_structs(header):
    """The fields of each struct in a header: type and name."""
    text = re.sub(r"/\*.*?\*/", "", open(header, encoding="utf-8").read(), flags=re.S)
    structs = {}
    for name, fields in re.findall(r"^struct (\w+) \{\n(.*?)\n\};", text, re.M | re.S):
        for kind, several in re.findall(r"(?:const )?((?:struct )?\w+(?: \*)?)\s*((?:\w+, )*\w+);", fields):
            structs.setdefault(f"struct {name}", []).extend((kind, it) for it in several.split(", "))
    return structs


def in_c(kind):
    """The type in C."""
    return {"truth": "bool", "size_t": "integer"}.get(kind, f"const {kind}" if kind.endswith("*") else kind)


def conjuncts(expression):
    if expression[:2] == ("do", "&&"):
        return conjuncts(expression[2]) + conjuncts(expression[3])
    return [expression]


def names_in(expression):
    if isinstance(expression, (tuple, list)):
        return {expression[1]} if expression[:1] == ("name",) else set().union(*map(names_in, expression))
    return set()


class Text:
    """The C text of expressions over these variables, each with its type."""

    def __init__(self, named, structs, variables, labels=()):
        self.named, self.structs, self.labels = named, structs, labels
        self.variables = dict(variables)
        self.bound = set()
        self.old = {}  # what is to be computed before the call: its text, and the name and type of a variable for it

    def of(self, expression):
        """Text and type of an expression."""
        text, kind = getattr(self, "_" + re.sub(r"\W", "", expression[0]))(*expression[1:])
        if kind == "bool":
            return f"(integer)octet_at(&{text})", "integer"
        if kind in ARITHMETIC:
            return f"(integer){text}", "integer"
        return text, kind

    def truth(self, expression):
        return self.of(expression)[0]

    def raw(self, expression):
        """An expression as a place in memory."""
        return getattr(self, "_" + re.sub(r"\W", "", expression[0]))(*expression[1:])

    def _true(self):
        return "true", "truth"

    def _false(self):
        return "false", "truth"

    def _null(self):
        return "NULL", "null"

    def _number(self, digits):
        return digits, "integer"

    def _name(self, name):
        if name == "\\result":
            return "result", self.variables[name]
        if name in self.variables:
            return name, self.variables[name]
        if name in self.named:
            return f"{name}()", self.named[name].result
        return name, "struct pkcs1_bytes" if name.startswith("pkcs1_oid_") else "integer"

    def _field(self, sign, of, field):
        text, kind = self.raw(of)
        struct = kind[:-2] if sign == "->" else kind
        return f"{text}{sign}{field}", next(it for it, name in self.structs[struct] if name == field)

    def _index(self, of, at):
        text, kind = self.raw(of)
        return f"{text}[{self.of(at)[0]}]", kind[:-2]

    def _star(self, of):
        text, kind = self.raw(of)
        return f"(*{text})", kind[:-2]

    def _address(self, of):
        text, kind = self.raw(of)
        return f"(&{text})", f"{kind} *"

    def _not(self, of):
        return f"(!{self.truth(of)})", "truth"

    def _minus(self, of):
        return f"(-{self.of(of)[0]})", "integer"

    def _if(self, when, chosen, other):
        (left, kind), (right, _) = self.of(chosen), self.of(other)
        return f"({self.truth(when)} ? {left} : {right})", kind

    def _do(self, sign, left, right):
        (a, kind), (b, other) = self.of(left), self.of(right)
        if sign == "==>":
            return f"(!({a}) || ({b}))", "truth"
        if sign == "<==>":
            return f"((bool)({a}) == (bool)({b}))", "truth"
        if sign in ("==", "!=") and (kind in ("octets", "value") or kind in self.structs):
            equal = f"equal_{kind.split()[-1]}({a}, {b})"
            return equal if sign == "==" else f"(!{equal})", "truth"
        return f"({a} {sign} {b})", kind if sign in ("+", "-", "*", "/", "%") else "truth"

    @contextlib.contextmanager
    def binding(self, kind, name):
        """With a variable that a quantifier binds."""
        self.variables[name] = kind
        self.bound.add(name)
        yield
        self.bound.discard(name)
        del self.variables[name]

    def _forall(self, variables, body):
        (kind, name), = variables
        given = conjuncts(body[2])
        with self.binding(kind, name):
            low = next(self.of(it[2])[0] for it in given if it[:2] == ("do", "<=") and it[3] == ("name", name))
            high = next(self.of(it[3])[0] for it in given if it[:2] == ("do", "<") and it[2] == ("name", name))
            return (f"__extension__ ({{ bool all = true; integer end = {high};"
                    f" for (integer {name} = {low}; all && {name} < end; {name}++) all = {self.truth(body)}; all; }})"
                    ), "truth"

    def _exists(self, variables, body):
        *guards, last = conjuncts(body)
        (kind, name), = variables
        with self.binding(kind, name):
            while_so = " && ".join(map(self.truth, guards))
            return (f"__extension__ ({{ bool any = false; for (integer {name} = 0; !any && {while_so}; {name}++)"
                    f" any = {self.truth(last)}; any; }})"), "truth"

    def _call(self, name, labels, arguments):
        if name.startswith("\\"):
            return getattr(self, "_" + name[1:])(*arguments)
        function = self.named[name]
        texts = ["NULL" if it == ("number", "0") and of.endswith("*") else self.of(it)[0]
                 for it, (of, _) in zip(arguments, function.params)]
        if len(labels) == 1 and self.labels:
            return at_state(labels[0][1], name, texts), function.result
        texts = [it[1] for it in labels[:2] if len(labels) == 2] + texts
        return f"{name}({', '.join(texts)})", function.result

    def _at(self, of, label):
        text, kind = self.of(of)
        return f"__extension__ ({{ enter({label[1]}); {text}; }})", kind

    def _old(self, of):
        if of[0] == "star" and of[1][0] == "name":
            return f"(*before_{of[1][1]})", self.variables[of[1][1]][:-2]
        if of[0] == "index" and of[1][0] == "name" and names_in(of) & self.bound:
            return f"before_{of[1][1]}[{self.of(of[2])[0]}]", self.variables[of[1][1]][:-2]
        if names_in(of) & self.bound:
            raise SyntaxError(f"what is old depends on {names_in(of) & self.bound}")
        text, kind = self.of(of)
        name, _ = self.old.setdefault(text, (f"old_{len(self.old)}", kind))
        return name, kind

    def place(self, of):
        """Where a location begins, and how many octets it has."""
        if of[0] == "do" and of[1] == "+" and of[3][0] == "range":
            base, (low, high) = self.of(of[2])[0], (self.of(it)[0] for it in of[3][1:])
            size = f"(integer)sizeof *({base})"
            return f"at({base}, {low} * {size})", f"({high} - {low} + 1) * {size}"
        text = self.of(of)[0]
        return text, f"(integer)sizeof *({text})"

    def _valid(self, of):
        return "is_there({}, {})".format(*self.place(of)), "truth"

    _valid_read = _valid

    def _separated(self, *places):
        texts = [", ".join(self.place(it)) for it in places]
        pairs = [f"are_apart({a}, {b})" for i, a in enumerate(texts) for b in texts[i + 1:]]
        return f"({' && '.join(pairs)})", "truth"


def at_state(label, name, texts):
    """A call in a state. Its arguments are computed first, as they may be of another."""
    given = "".join(f"__auto_type given_{i} = {text}; " for i, text in enumerate(texts))
    return (f"__extension__ ({{ {given}enter({label}); "
            f"{name}({', '.join(f'given_{i}' for i in range(len(texts)))}); }})")
