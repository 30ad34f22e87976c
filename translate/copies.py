"""
Fewer copies of structs. MIR gives and takes each value by a local of its own, and C copies it each time: on a small machine these copies are
most of the stack. Three things are done to the text of the C functions, to locals that are structs or arrays:

- a local that is written once and read once, by a copy, goes: `l5 = l3; .. f(l5)` is `f(l3)`, if l3 isn't written between the two;
- the same the other way round: `l5 = f(x); .. l3 = l5` is `l3 = f(x)`, if nothing between the two reads or writes l3, and the second is done
  each time behind the first, but for a return, and never without it;
- a parameter that its function neither writes nor lends is lent to it: `f(l3)` is `f(&l3)`, if no caller lends l3 otherwise.

A local whose address is taken is left as it is. translate/test_copies.py has what each of the three must do and must leave.
"""
import re

from c_types import wrapped

FUNCTION = re.compile(r"^((?:static )?[^\n(;{}=#/]*?\b(\w+)\()([^{};]*)\) \{\n(.*?)\n\}\n", re.M | re.S)
DECLARED = re.compile(r"^    (struct (\w+)) (l\d+);$")
# A local of another type, or a slice made of what is lent to an export.
OTHER = re.compile(r"^    (?!return)\w[\w ]*\**l\d+( = lent\(.*\))?;$")
PARAMETER = re.compile(r"^struct (\w+) (l\d+)$")
PLACE = re.compile(r"^(l\d+)((?:\.\w+)*)$")
WRITE = re.compile(r"^ +(l\d+) = (.*);$")
STRUCT = re.compile(r"^struct (\w+) \{\n(.*?)\n\};", re.M | re.S)
FIELD = re.compile(r"(struct \w+|\w+ ?\**) ?\w+(?:\[(\d+)\])?;")
# A place in the text to which, or from which, more than one way leads.
JUMP = re.compile(r"\bfor \(|\bgoto\b|:;$")
# The same, and the end of a way.
TURN = re.compile(r"\bfor \(|\bgoto\b|:;$|[{}]$|^ *\}|\bcase\b|\bdefault\b|\bbreak\b|\breturn\b")
# Where an arm of a switch begins.
ARM = re.compile(r"^ *(?:case\b|default:)")
# What is smaller is passed in registers, or as cheaply.
SMALL = 16
BYTES = {"uint8_t": 1, "uint16_t": 2, "uint32_t": 4}


def names(text, name):
    return len(re.findall(rf"\b{name}\b", text))


def written(line):
    """The local that a statement writes, whole or in part."""
    found = re.match(r"^ +(l\d+)[^=(]* = ", line)
    return found and found[1]


def depth(line):
    """How far in a line stands: a half or an arm stands further in than its head, its end and each `case`."""
    return len(line) - len(line.lstrip())


def lent(lines):
    return set(re.findall(r"&(l\d+)\b", "\n".join(lines)))


def arguments_in(text):
    """The arguments that a text begins with, up to the parenthesis that ends them."""
    found, within = [""], 0
    for letter in text:
        within += {"(": 1, "{": 1, ")": -1, "}": -1}.get(letter, 0)
        if within < 0:
            break
        if letter == "," and within == 0:
            found.append("")
        else:
            found[-1] += letter
    return [part.strip() for part in found]


class Function:
    def __init__(self, found):
        self.opening, self.name, parameters, body = found.groups()
        self.parameters = re.split(r",\s*", parameters)
        lines = body.split("\n")
        self.structs = {match[3]: match[1] for match in map(DECLARED.match, lines) if match}
        rest = [line for line in lines if not DECLARED.match(line)]
        self.first = [line for line in rest if OTHER.match(line)]
        self.lines = [line for line in rest if not OTHER.match(line)]

    def text(self):
        inside = [f"    {c_type} {name};" for name, c_type in self.structs.items()]
        parameters = wrapped(self.parameters, "    ", len(self.opening))
        return f"{self.opening}{parameters}) {{\n" + "\n".join(self.first + inside + self.lines) + "\n}\n"

    # ---- copies by a local

    def uses(self, name):
        """Where a local is written and where it is read, if each is done once."""
        at = [i for i, line in enumerate(self.lines) if names(line, name)]
        if len(at) != 2 or any(names(self.lines[i], name) != 1 for i in at) or name in lent(self.lines):
            return None
        write = WRITE.match(self.lines[at[0]])
        return at if write and write[1] == name and written(self.lines[at[1]]) != name else None

    def read_other(self, at, name):
        """`name = other; .. name ..` reads the other itself."""
        other = PLACE.match(WRITE.match(self.lines[at[0]])[2])
        way = self.lines[at[0] + 1:at[1] + 1]
        if not other or other[1] in lent(self.lines) or any(TURN.search(line) or written(line) == other[1] for line in way):
            return False
        self.lines[at[1]] = re.sub(rf"\b{name}\b", other[0], self.lines[at[1]])
        del self.lines[at[0]]
        return True

    def write_other(self, at, name):
        """`name = ..; .. other = name;` writes the other at once."""
        copy = WRITE.match(self.lines[at[1]])
        if not copy or copy[2] != name or copy[1] not in self.structs or copy[1] in lent(self.lines):
            return False
        if any(JUMP.search(line) for line in self.lines[at[0]:at[1]]) or any(names(line, copy[1]) for line in self.lines[at[0]:at[1]]):
            return False
        if not self.together(*at):
            return False
        self.lines[at[0]] = re.sub(rf"\b{name}\b", copy[1], self.lines[at[0]])
        del self.lines[at[1]]
        return True

    def together(self, write, copy):
        """Whether the copy is made each time behind the write, but for a return between, and never without it: both stand in one half or
        arm, or the copy stands behind a switch that no arm goes on from but the one that the write stands in."""
        inside, outside = depth(self.lines[write]), depth(self.lines[copy])
        if any(depth(line) < outside for line in self.lines[write:copy]):
            return False
        if inside == outside:
            return True
        labels = [i for i, line in enumerate(self.lines) if depth(line) == outside]
        head = max((i for i in labels if i < write and not ARM.match(self.lines[i])), default=write)
        arm_end = min(i for i in labels if i > write)
        end = min(i for i in labels if i > write and not ARM.match(self.lines[i]))
        goes_on = [i for i in range(head, end) if self.lines[i] == " " * inside + "break;"]
        return inside == outside + 4 and self.lines[head].strip().startswith("switch (") and goes_on == [arm_end - 1]

    def fold(self):
        again = True
        while again:
            again = False
            for name in list(self.structs):
                at = self.uses(name)
                if at and (self.read_other(at, name) or self.write_other(at, name)):
                    del self.structs[name]
                    again = True

    # ---- parameters that are lent

    def readable(self, sizes):
        """The numbers of the parameters that may be lent to it: large ones that it only reads."""
        kept = lent(self.lines) | {written(line) for line in self.lines}
        found = [PARAMETER.match(parameter) for parameter in self.parameters]
        return {k for k, match in enumerate(found) if match and match[2] not in kept and sizes(match[1]) > SMALL}

    def calls(self, functions):
        """The calls in it: the line, the function called, the arguments."""
        for i, line in enumerate(self.lines):
            for found in re.finditer(r"\b(\w+)\(", line):
                if found[1] in functions:
                    yield i, found[1], arguments_in(line[found.end():])

    def refused(self, functions, takes):
        """The parameters of others that can't be lent what this function passes."""
        kept = lent(self.lines)
        for _, callee, arguments in self.calls(functions):
            for k in sorted(takes[callee]):
                place = PLACE.match(arguments[k])
                if not place or place[1] in kept:
                    yield callee, k

    def lend(self, functions, takes):
        for i, callee, arguments in list(self.calls(functions)):
            lending = [f"&{x}" if k in takes[callee] else x for k, x in enumerate(arguments)]
            self.lines[i] = self.lines[i].replace(f"{callee}({', '.join(arguments)})", f"{callee}({', '.join(lending)})")
        for k in takes[self.name]:
            c_type, name = PARAMETER.match(self.parameters[k]).groups()
            self.parameters[k] = f"const struct {c_type} *{name}"
            lines = "\n".join(self.lines).replace(f"(void){name};", f"(void) {name} ;")
            lines = re.sub(rf"&{name}\b(?![.\[])", f" {name} ", lines)
            lines = re.sub(rf"\b{name}\.", f"{name}->", lines)
            lines = re.sub(rf"(?<! )\b{name}\b(?! |->)|(?<=[ ]){name}\b(?! |->)", f"*{name}", lines)
            self.lines = re.sub(rf" {name} ", name, lines).split("\n")


def sizes_of(text):
    """How many bytes a struct of the text has at least; a slice has few, for it is lent already."""
    structs = {match[1]: match[2] for match in STRUCT.finditer(text)}

    def size(name):
        if name == "slice":
            return 0
        return sum(of(c_type) * int(count or 1) for c_type, count in FIELD.findall(structs.get(name, "")))

    def of(c_type):
        return size(c_type[7:]) or SMALL if c_type.startswith("struct ") else BYTES.get(c_type.strip(), 8)

    return size


def fewer(text):
    functions = {function.name: function for function in map(Function, FUNCTION.finditer(text))}
    for function in functions.values():
        function.fold()
    sizes = sizes_of(text)
    takes = {name: function.readable(sizes) if function.opening.startswith("static ") else set() for name, function in functions.items()}
    for function in functions.values():
        for callee, k in function.refused(functions, takes):
            takes[callee].discard(k)
    for function in functions.values():
        function.lend(functions, takes)
    return FUNCTION.sub(lambda found: functions[found[2]].text(), text)
