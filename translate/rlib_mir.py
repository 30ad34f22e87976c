#!/usr/bin/env python3
"""
The proved MIR of built libraries as the text that mir_to_c.py reads: `rlib_mir.py EXPORT.. -- MIR.json.. > MIR`. A library of Rattle has its
MIR in its rlib, in toolchain/mir.json: a list of pairs, a function's path and what it is. Printed are the functions that the exports reach,
and no others, each with the declared types that it holds. What is generic is printed once for each list of arguments, as instances.py says;
the export itself takes none. The operand NumOf, the number that a parameter stands for, is an int then.

Nothing is added or left out but what the logic gives no meaning: names of lifetimes, and bounds. In mir.json a body is one list, each
statement before its parts, and a place, a value or a type is a word or an object with one key, its form; in the text each is a list in
parentheses. The names of forms are those of mir_to_c.py's head.

What is of a form that isn't known here ends the run with a message, and so does a call that is known only when the program runs: of a dyn, or
of a function by its address.
"""
import json
import sys

from instances import Instances, form, looked_at, spelled
from mir import Stop

# How often a function may stand within itself, at other arguments.
MOST_WITHIN = 16


def small(word):
    """LeadingZeros: leadingZeros."""
    return word[0].lower() + word[1:]


def chain(kind, texts):
    made = f"{kind}nil"
    for text in reversed(list(texts)):
        made = f"({kind}cons {text} {made})"
    return made


def unknown(what, node):
    return Stop(f"the {what} {str(node)[:80]} is not known")


# ---- types

def of_type(node):
    word, held = form(node)
    if word in ("Bool", "Unit", "Ptr"):
        return f"ty{word}"
    if word in ("Int", "Float"):
        return f"(ty{word} {held})"
    if word == "Ref":
        _, kind, of = held
        return f"(tyRef erased {small(kind)} {of_type(of)})"
    if word == "Array" and form(held[1])[0] == "Lit":
        return f"(tyArray {of_type(held[0])} (lenLit {form(held[1])[1]}))"
    if word == "Struct":
        return f'(tyStruct "{held[0]}" {chain("t", map(of_type, held[1]))})'
    if word == "Named":
        return f'(tyNamed (pair "{spelled(node)}" lnil))'
    raise unknown("type", node)


def declared(title, shape):
    word, held = form(shape)
    if word == "Fields":
        return f'(pair "{title}" (fields {chain("t", map(of_type, held))}))'
    return f'(pair "{title}" (variants {chain("tt", (chain("t", map(of_type, fields)) for fields in held))}))'


# ---- places, operands, values

def step(node):
    word, held = form(node)
    if word == "Deref":
        return f"(deref {of_type(held)})"
    if word in ("Field", "Variant"):
        return f"({small(word)} {held})"
    raise unknown("step", node)


def place(node):
    return f"(place {node['local']} {chain('l', map(step, node['steps']))})"


def operand(node):
    word, held = form(node)
    if word in ("True", "False", "Unit"):
        return small(word)
    if word == "Copy":
        return f"(copy {place(held)})"
    if word == "Int":
        return f"(int {held['width']} {held['value']})"
    if word == "Float":
        return f"(float {held['width']} {held['bits']})"
    if word == "NumOf" and form(held[1])[0] == "Const":
        return f"(int {held[0]} {form(held[1])[1]})"
    if word == "SizeOf":
        return f"(sizeOf {of_type(held)})"
    if word in ("Vtable", "FnAddr"):
        raise Stop("a dyn or a function's address is taken, and which function is called must be known before the program runs")
    raise unknown("operand", node)


def operation(node):
    """A word, or a word with signs and widths."""
    word, held = form(node)
    if held is None:
        return small(word)
    return f"({' '.join([small(word), *(small(x) if isinstance(x, str) else str(x) for x in (held if isinstance(held, list) else [held]))])})"


def value(node):
    word, held = form(node)
    if word == "Opd":
        return f"(rvOpd {operand(held)})"
    if word == "AddrOf":
        return f"(addrOf {place(held)})"
    if word == "Aggregate":
        return f"(aggregate {chain('l', map(operand, held))})"
    if word == "Repeat" and form(held[1])[0] == "Lit":
        return f"(repeat {operand(held[0])} {form(held[1])[1]})"
    if word in ("Op1", "Op2"):
        return f"({small(word)} {operation(held[0])} {' '.join(map(operand, held[1:]))})"
    raise unknown("value", node)


# ---- functions

class Body:
    """A function's statements, read one after the other, and what it calls."""

    def __init__(self, nodes, instances):
        self.nodes, self.instances, self.at, self.calls = nodes, instances, 0, []

    def whole(self):
        text = self.statement()
        if self.at != len(self.nodes):
            raise Stop("a body goes on behind its end")
        return text

    def statement(self):
        if self.at == len(self.nodes):
            raise Stop("a body ends within a statement")
        word, held = form(self.nodes[self.at])
        self.at += 1
        if word == "Seq":
            # Not by itself for the second, since a body is a long chain of these.
            texts = [self.statement()]
            while self.at < len(self.nodes) and self.nodes[self.at] == "Seq":
                self.at += 1
                texts.append(self.statement())
            return "".join(f"(seq {text} " for text in texts) + self.statement() + ")" * len(texts)
        if word in ("Skip", "Return", "Unreachable"):
            return small(word)
        if word in ("Block", "Loop"):
            return f"({small(word)} {self.statement()})"
        if word == "Exit":
            return f"(exit {held})"
        if word == "If":
            return f"(if {operand(held)} {self.statement()} {self.statement()})"
        if word == "Assign":
            return f"(assign {place(held[0])} {value(held[1])})"
        if word == "Switch":
            return self.switch(*held)
        if word == "LendStatic":
            return f"(lendStatic {place(held[0])} {of_type(held[1])} {self.lent(held[2])})"
        if word == "Call":
            return self.call(*held)
        raise unknown("statement", {word: held})

    @classmethod
    def lent(cls, constant):
        """Numbers of one width in a list, one by one or one of them repeated; the parts of other constants each by itself."""
        word, held = form(constant)
        if word == "Ints":
            return f"(ints {held['width']} {chain('l', map(str, held['values']))})"
        if word == "Repeat" and form(held[0])[0] == "Int":
            one = form(held[0])[1]
            return f"(ints {one['width']} {chain('l', [str(one['value'])] * held[1])})"
        if word in ("Parts", "Repeat"):
            return f"(parts {chain('l', map(cls.lent, held if word == 'Parts' else [held[0]] * held[1]))})"
        if word == "Int":
            return f"(int {held['width']} {held['value']})"
        if word in ("Bool", "Unit"):
            return "unit" if word == "Unit" else small(str(held))
        raise unknown("constant", constant)

    def switch(self, on, keys, has_default):
        arms = [f"(arm {chain('l', map(str, of))} {self.statement()} " for of in keys]
        default = f"(default {self.statement()})" if has_default else "noDefault"
        return f"(switch {operand(on)} {''.join(arms)}{default}{')' * len(arms)})"

    def call(self, callee, arguments, to):
        called = self.instances.called(callee)
        self.calls.append(called)
        return f'(call (direct (fnRef "{self.instances.name(*called)}")) {chain("l", map(operand, arguments))} {place(to)})'


class Functions:
    """Those of some libraries, by their paths, and the texts of those that are printed, by their names."""

    def __init__(self, files):
        self.items, self.instances, self.texts = {}, Instances(), {}
        for file in files:
            with open(file, encoding="utf-8") as opened:
                self.items.update(json.load(opened))

    def print(self, path, types=(), dicts=(), around=()):
        """The function at these arguments, and before it what it calls."""
        name = self.instances.name(path, list(types), list(dicts))
        if name in self.texts:
            return
        if around.count(path) > MOST_WITHIN:
            raise Stop(f"{path} is called within itself at ever more arguments: {name[:80]}..")
        self.texts[name] = ""
        if path not in self.items:
            raise Stop(f"there is no function {path}")
        try:
            text, calls = self.function(name, self.items[path], types, dicts)
        except Stop as problem:
            raise Stop(f"{name}: {problem}") from None
        for called in calls:
            self.print(*called, around + (path,))
        self.texts[name] = text

    def function(self, name, item, types, dicts):
        self.instances.learn(item)
        locals_, nodes = self.instances.at(item, types, dicts)
        body = Body(nodes, self.instances)
        made = body.whole()
        shapes = self.instances.shapes([local["ty"] for local in locals_] + looked_at(nodes))
        variables = chain("l", (f"(local {of_type(local['ty'])} {small(local['home'])})" for local in locals_))
        kinds = chain("l", (declared(title, shape) for title, shape in shapes.items()))
        text = f'(fn-def "{name}" (fnItem {item["lifetimes"]} lnil {item["params"]} {variables} {made}) {kinds})'
        return text, body.calls


def main(arguments):
    if "--" not in arguments[1:-1]:
        raise Stop("usage: rlib_mir.py EXPORT.. -- MIR.json..")
    at = arguments.index("--")
    functions = Functions(arguments[at + 1:])
    sys.setrecursionlimit(10000)
    for path in arguments[:at]:
        functions.print(path)
    print("program " + chain("l", ("\n" + text for text in functions.texts.values())) + " none")


if __name__ == "__main__":
    try:
        main(sys.argv[1:])
    except Stop as problem:
        sys.exit(f"rlib_mir: {problem}")
