"""The forms of forms.py that only the calls for C have."""
import functools

from tokens import Edit


@functools.cache
def slices_of_calls(code):
    """The calls for C: by where its body begins, each call's parameters that are slices: of each the name, where its
    type begins and ends, and whether it is written to."""
    calls = {}
    for at in range(len(code.tokens)):
        if code.around[at] is not None or not code.reads(at, 'extern "C" fn'):
            continue
        open_ = code.find(at, "(")
        body = code.find(code.closing[open_] + 1, ("{", ";", "requires", "ensures"))
        while code.clause_end(body) != body:
            body = code.clause_end(body)
        calls[body] = []
        it = open_ + 1
        while it < code.closing[open_]:
            kind = it + 3 + (code.tokens[it + 3].kind == "lifetime")
            written = code.word(kind) == "mut"
            if code.word(it + 2) == "&" and code.word(kind + written) == "[":
                calls[body].append((code.word(it), it + 2, code.closing[kind + written], written))
            it = code.find(it, ",)") + 1
    return calls


def slice_of_call(code, at):
    """A slice that C passes is an address and a length: the parameter of a call is two."""
    if code.word(at) != "&" or code.word(at - 1) != ":" or 'extern "C"' not in code.text:
        return None
    for name, begin, end, written in (it for slices in slices_of_calls(code).values() for it in slices):
        if begin == at:
            first = next(it for it in range(at, end) if code.closing.get(it) == end)
            of = code.text[code.tokens[first].end:code.tokens[end].begin]
            return Edit(code.tokens[at].begin, code.tokens[end].end,
                        f"{'*mut' if written else '*const'} {of}, {name}_len: usize")
    return None


def body_of_call(code, at):
    """The body of a call for C begins with the slices of these addresses and lengths."""
    if code.word(at) != "{" or code.around[at] is not None or 'extern "C"' not in code.text:
        return None
    slices = slices_of_calls(code).get(at)
    if not slices:
        return None
    lines = "".join(f"\n    let {name} = unsafe {{ core::slice::from_raw_parts{'_mut' * written}({name}, {name}_len) }};"
                    for name, _, _, written in slices)
    return Edit(code.tokens[at].begin, code.tokens[at].end, "{" + lines)
