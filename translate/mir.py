"""The text that rlib_mir.py prints: words, "names" and lists in parentheses; the types that it writes, and the functions that it defines."""
import re

WIDTHS = (8, 16, 32, 64)
FLOATS = {32: "float", 64: "double"}
BOOL, UNIT, ADDRESS = ("bool",), ("unit",), ("address",)
U8, U32, U64 = ("int", 8), ("int", 32), ("int", 64)


class Stop(Exception):
    """What isn't known, or isn't as MIR has it."""


def parse(text):
    stack = [[]]
    for token in re.findall(r'"[^"]*"|[()]|[^\s()"]+|"', text):
        if token == "(":
            stack.append([])
        elif token == ")" and len(stack) > 1:
            last = stack.pop()
            stack[-1].append(last)
        elif token in (")", '"'):
            raise Stop(f"a {token} too many")
        else:
            stack[-1].append(token)
    if len(stack) != 1:
        raise Stop("a parenthesis isn't closed")
    return stack[0]


def brief(node):
    if not isinstance(node, list):
        return node
    return "(" + " ".join([brief(part) for part in node[:1]] + [".."] * len(node[1:])) + ")"


def head(node):
    """The word of (WORD part..), or the word itself; none where a list has no word."""
    first = node[0] if isinstance(node, list) and node else node
    return first if isinstance(first, str) else ""


def parts(node, word, count):
    """The parts of (WORD part..)."""
    if not isinstance(node, list) or head(node) != word or len(node) != count + 1:
        raise Stop(f"{brief(node)} stands where {word} with {count} parts is due")
    return node[1:]


def items(node, kind="l"):
    """A list: (KINDcons first rest) or KINDnil."""
    found = []
    while node != kind + "nil":
        first, node = parts(node, kind + "cons", 2)
        found.append(first)
    return found


def number(node):
    if not isinstance(node, str) or not re.fullmatch(r"[0-9]+", node):
        raise Stop(f"{brief(node)} stands where a number is due")
    return int(node)


# As instances.py makes it: a path, and behind it arguments in <>.
NAME = re.compile(r'"[A-Za-z][\w+]*(::[A-Za-z][\w+]*)*(<[\w+:<>, ]+>)?(\+\d+)?"', re.ASCII)


def name(node):
    if not isinstance(node, str) or not NAME.fullmatch(node):
        raise Stop(f"{brief(node)} stands where a path of names is due")
    return node[1:-1]


def one_of(node, words):
    if not isinstance(node, str) or node not in words:
        raise Stop(f"{brief(node)} stands where one of {', '.join(map(str, words))} is due")
    return node


def width_of(node):
    if number(node) not in WIDTHS:
        raise Stop(f"an integer of {node} bits: C99 has none")
    return number(node)


def format_of(node):
    if number(node) not in FLOATS:
        raise Stop(f"a float of {node} bits is not known")
    return number(node)


# ---- types: a tuple whose first word says which

def read_type(node):
    word = head(node)
    simple = {"tyBool": BOOL, "tyUnit": UNIT, "tyPtr": ADDRESS}
    if isinstance(node, str) and node in simple:
        return simple[node]
    if word == "tyInt":
        return ("int", width_of(parts(node, word, 1)[0]))
    if word == "tyFloat":
        return ("float", format_of(parts(node, word, 1)[0]))
    if word == "tyRef":
        parts(node, word, 3)
        return ADDRESS
    if word == "tyArray":
        element, length = parts(node, word, 2)
        return ("array", read_element(element), number(parts(length, "lenLit", 1)[0]))
    if word == "tyStruct":
        return read_slice(*parts(node, word, 2))
    if word == "tyNamed":
        return ("named", name(parts(parts(node, word, 1)[0], "pair", 2)[0]))
    raise Stop(f"the type {brief(node)} is not known")


def read_element(node):
    """MIR steps over elements by its own sizes. C's are the same for numbers; for arrays and declared types c_types.py sees to it."""
    t = read_type(node)
    if t[0] not in ("int", "bool", "float", "named") and not (t[0] == "array" and t[2] > 0):
        raise Stop(f"elements of type {t[0]}, which C may lay out in another size, are not known")
    return t


def read_slice(title, fields):
    if title != '"&[]"':
        raise Stop(f"a struct that is spelled out, {brief(title)}, is not known")
    types = items(fields, "t")
    if len(types) != 2 or read_type(types[1]) != U64:
        raise Stop("a slice is no address with a count in u64")
    _, kind, element = parts(types[0], "tyRef", 3)
    return ("slice", one_of(kind, ("imm", "mut")), read_element(element))


def read_declared(node):
    """A declared struct's fields, or an enum's variants, each a list of fields."""
    if head(node) == "fields":
        return ("fields", [read_type(field) for field in items(parts(node, "fields", 1)[0], "t")])
    variants = items(parts(node, "variants", 1)[0], "tt")
    if len(variants) > 256:
        raise Stop("an enum of more than 256 variants")
    return ("variants", [[read_type(field) for field in items(variant, "t")] for variant in variants])


class Program:
    """The functions and declared types of one printed crate, or of several that are printed one after the other."""

    def __init__(self, text):
        self.functions, self.declared = {}, {}
        nodes = parse(text)
        if len(nodes) % 3 != 0 or not nodes:
            raise Stop("the text isn't what rlib_mir.py prints")
        for i in range(0, len(nodes), 3):
            one_of(nodes[i], ("program",))
            for definition in items(nodes[i + 1]):
                self.define(definition)

    def define(self, node):
        path, item, *types = parts(node, "fn-def", 2 if len(node) == 3 else 3)
        for pair in items(types[0]) if types else []:
            title, body = parts(pair, "pair", 2)
            self.keep(self.declared, name(title), body)
        self.keep(self.functions, name(path), item)

    @staticmethod
    def keep(table, title, node):
        """What crates have in common must be the same."""
        if table.setdefault(title, node) != node:
            raise Stop(f"{title} is defined in two ways")

    def function(self, path):
        if path not in self.functions:
            raise Stop(f"there is no function {path}")
        return self.functions[path]

    def shape(self, title):
        if title not in self.declared:
            raise Stop(f"the type {title} is not declared")
        return read_declared(self.declared[title])
