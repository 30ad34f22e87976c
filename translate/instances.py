"""
Generic functions and types at their arguments: what mir.json has once, with parameters, is made once for each list of arguments. A
parameter is a type, a number or, for a bound, a dictionary: which impl answers for it.

  Param K                       the Kth argument: a type, or a number, which is Const N. In a declared type it is one of the type's own
  Given K                       the dictionary for the Kth bound
  Impl NAME TYPES DICTS         the dictionary of an impl, at arguments for the impl's own parameters and bounds
  Method DICT K ARGUMENTS       what is called is the impl's Kth method. Its arguments are the impl's and, behind them, its own

An instance is called by its path with the types and numbers in <>: core::option::Option<u64>. There ref<T> and mut_ref<T> are references,
slice<T> and mut_slice<T> lent slices, array<N, T> is an array, and tuple<T, U> a tuple. Lifetimes don't count. A function that is handed
over, as in map(f), has the type unit in MIR: its path stands behind the types. Numbers have no sign in MIR, so u64 stands for i64 too. Of
instances that differ in their dictionaries alone, as in those for u64 and for i64, the second has +2 behind its name.

What is refused: a dictionary that isn't known when it is called; a function that calls itself at ever more arguments; and what has another
number of parameters than it is given.
"""
import json
import re

from mir import Stop


def form(node):
    """The form of a node, and what it holds: nothing where it is a word."""
    if isinstance(node, str):
        return node, None
    if isinstance(node, dict) and len(node) == 1:
        return next(iter(node.items()))
    raise Stop(f"{str(node)[:80]} is no form of mir.json")


def argument(of, k, what):
    if not isinstance(k, int) or k >= len(of):
        raise Stop(f"there is no {what} {k}")
    return of[k]


def put_in(node, types, dicts=()):
    """The node with its arguments put in for parameters, and without lifetimes."""
    if isinstance(node, list):
        return [put_in(part, types, dicts) for part in node]
    if not isinstance(node, dict):
        return node
    word, held = form(node) if len(node) == 1 else (None, None)
    if word == "Param":
        return argument(types, held, "type argument")
    if word == "Given":
        return argument(dicts, held, "dictionary")
    if word == "Ref":
        return {"Ref": ["Erased", held[1], put_in(held[2], types, dicts)]}
    if word == "Named":
        return {"Named": [{"name": held[0]["name"], "lifetimes": []}, put_in(held[1], types, dicts)]}
    if word in ("Array", "Repeat"):
        of, count = put_in(held, types, dicts)
        return {word: [of, {"Lit": count["Const"]} if isinstance(count, dict) and "Const" in count else count]}
    return {key: put_in(part, types, dicts) for key, part in node.items()}


def with_arguments(path, texts):
    return path + (f"<{', '.join(texts)}>" if texts else "")


def handed_over(dicts):
    """The paths of functions: b::f has the dictionary of the impl a::b++f+FnOnce, where a is the library that hands it over."""
    impls = [form(of)[1][0] for of in dicts if form(of)[0] == "Impl"]
    found = [re.fullmatch(r"\w+::(\w+(?:\+\+\w+)+)\+Fn(?:Once|Mut)?", name) for name in impls]
    return list(dict.fromkeys(match[1].replace("++", "::") for match in found if match))


def spelled(node):
    """A type by its name."""
    word, held = form(node)
    if word in ("Bool", "Unit", "Ptr"):
        return word.lower()
    if word in ("Int", "Float", "Const"):
        return {"Int": "u", "Float": "f", "Const": ""}[word] + str(held)
    if word == "Ref":
        return f"{'mut_' if held[1] == 'Mut' else ''}ref<{spelled(held[2])}>"
    if word == "Array" and form(held[1])[0] == "Lit":
        return f"array<{form(held[1])[1]}, {spelled(held[0])}>"
    if word == "Struct" and held[0] == "&[]" and form(held[1][0])[0] == "Ref":
        return spelled(held[1][0]).replace("ref", "slice", 1)
    if word == "Named":
        title = "tuple" if re.fullmatch(r"\(_?,*\)", held[0]["name"]) else held[0]["name"]
        return with_arguments(title, list(map(spelled, held[1])))
    raise Stop(f"the type {str(node)[:80]} is not known")


def held_whole(node):
    """The declared types that a type holds, itself among them, or that are a lent slice's elements: not what it only points at."""
    word, held = form(node)
    if word == "Named":
        return [node]
    if word == "Struct" and held[0] == "&[]":
        return held_whole(form(held[1][0])[1][2])
    return held_whole(held[0]) if word == "Array" else []


def looked_at(nodes):
    """The types in a body whose layout counts: of derefs, sizes and constants that are lent."""
    if isinstance(nodes, list):
        return [t for node in nodes for t in looked_at(node)]
    if not isinstance(nodes, dict):
        return []
    word, held = next(iter(nodes.items()))
    if word in ("Deref", "SizeOf"):
        return [held]
    return [t for part in nodes.values() for t in looked_at(part)] + ([held[1]] if word == "LendStatic" else [])


class Instances:
    """The names of instances, and what is known of impls and declared types by the functions that use them."""

    def __init__(self):
        self.names, self.impls, self.declarations = {}, {}, {}

    @staticmethod
    def keep(table, title, what):
        if table.setdefault(title, what) != what:
            raise Stop(f"{title} is known in two ways")

    def learn(self, item):
        for impl in item["generics"]["impls"]:
            self.keep(self.impls, impl["name"], (len(impl["types"]), len(impl["bounds"]), impl["methods"]))
        for node in item["types"]:
            self.keep(self.declarations, node["name"], (node["type_params"], node["shape"]))

    def name(self, path, types, dicts):
        key, title = json.dumps([path, types, dicts]), with_arguments(path, [*map(spelled, types), *handed_over(dicts)])
        name, count = title, 1
        while self.names.setdefault(name, key) != key:
            count += 1
            name = f"{title}+{count}"
        return name

    def called(self, callee):
        """The path and the arguments of what is called."""
        word, held = form(callee)
        if word == "Fn":
            return held[0], held[1]["types"], held[1]["dicts"]
        if word != "Method" or form(held[0])[0] != "Impl":
            raise Stop(f"the call {str(callee)[:80]} is not known")
        of, k, own = held
        name, types, dicts = form(of)[1]
        if name not in self.impls:
            raise Stop(f"the impl {name} is not known")
        type_count, bound_count, methods = self.impls[name]
        if (len(types), len(dicts)) != (type_count, bound_count):
            raise Stop(f"{name} has {type_count} parameters and {bound_count} bounds, and is given {len(types)} and {len(dicts)}")
        return argument(methods, k, f"method of {name}"), types + own["types"], dicts + own["dicts"]

    def at(self, item, types, dicts):
        """A function's locals and body at its arguments."""
        generics = item["generics"]
        due = len(generics["types"]), len(generics["bounds"])
        if (len(types), len(dicts)) != due:
            raise Stop(f"it has {due[0]} parameters and {due[1]} bounds, and is given {len(types)} and {len(dicts)}")
        return put_in(item["locals"], types, dicts), put_in(item["body"], types, dicts)

    def shapes(self, types, found=None):
        """The declared types that some types hold, each with its shape, behind those that it holds itself."""
        found = {} if found is None else found
        for named in (part for node in types for part in held_whole(node)):
            title, (head, arguments) = spelled(named), form(named)[1]
            if title not in found:
                found[title] = None
                shape = self.shape(title, head["name"], arguments)
                word, held = form(shape)
                self.shapes(held if word == "Fields" else [field for fields in held for field in fields], found)
                del found[title]
                found[title] = shape
        return found

    def shape(self, title, name, arguments):
        count, shape = self.declarations.get(name, (None, None))
        if count != len(arguments):
            raise Stop(f"the type {title} is " + ("not declared" if count is None else f"declared with {count} parameters"))
        if form(shape)[0] not in ("Fields", "Variants"):
            raise Stop(f"the shape {str(shape)[:80]} is not known")
        return put_in(shape, arguments)
