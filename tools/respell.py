#!/usr/bin/env python3
"""
Brings this repository's own definitions and lemmas to the spelling of the language: words in snake case, and what is a fact or a type in
upper camel case. It is run once, at the top, after the toolchain's own script has turned the files. Functions of src/, exported names,
strings, inputs and outputs keep their names; so does every name that a library or the checker gives.

Usage: respell.py [--list]    --list prints the renamings and changes nothing.
"""
import glob
import re
import sys

WORD = re.compile(r"[^\s(){}\[\],;.:\"`|]+")
DECLARED = re.compile(r"^(\s*)((?:abbrev |unfoldable |pub |opaque |ruleset |data |record )*)([^\s(){}\[\],;.:\"`|]+)((?: [^\n:]*)?) :(?!:)")
USE = re.compile(r"(?m)^(\s*(?:ghost )?(?:pub )?use )([^\s{;]*[^\s{;.])((?:\.\{[^}]*\})|(?: as \S+))?")
GENERATED = {"Tie", "Statement", "Lts", "Goals", "Given", "declared", "contracts"}


def kebab(name):
    return re.search(r"\w['₀-₉]*-\w", name) is not None and not name[0].isdigit()


def camel(name):
    return re.match(r"[a-z][^-]*[a-z0-9][A-Z]", name) is not None


def odd(name):
    return kebab(name) or camel(re.split("-", name)[0]) or any(camel(p) for p in name.split("-"))


def snake(name):
    name = re.sub(r"(?<=[a-z0-9])([A-Z])(?=[a-z0-9]|$|-)", lambda m: "_" + m.group(1).lower(), name)
    return name.replace("-", "_")


def upper_camel(name):
    return "".join(p[:1].upper() + p[1:] for p in re.split(r"[-_]", name))


def crates():
    return sorted(line.split(":")[0].split()[0] for line in open("crates.txt", encoding="utf-8") if line.strip() and line[0] != "#")


def is_own(path, own):
    """Whether a path of a use line names a module of specs/ or proofs/ that was written by hand."""
    parts = path.split(".")
    return len(parts) > 2 and parts[0] == "Rattle" and parts[1] in own and not GENERATED & set(parts)


def uses(text):
    for m in USE.finditer(text):
        yield m, m.group(2), m.group(3) or ""


def split_names(braces):
    return [n.strip() for n in braces[2:-1].split(",") if n.strip()]


def foreign(text, own):
    """The names that a file has from a library or from the checker."""
    names = set()
    for _, path, rest in uses(text):
        if rest.startswith(".{") and not is_own(path, own):
            for n in split_names(rest):
                names.add(n.split(" as ")[-1])
    return names


def signature(lines, i):
    text = lines[i]
    while i + 1 < len(lines) and lines[i + 1].startswith(" ") and not re.match(r"\s+(where|pub |abbrev |unfoldable )", lines[i + 1]):
        i += 1
        text += " " + lines[i].strip()
    return text


class Names:
    def __init__(self, own):
        self.own = own
        self.facts = {}     # lower-case names of what is a fact or a type
        self.top = set()    # declared at the top level or in a module of a file, or a field
        self.local = set()
        self.fields = set()
        for path in antt_files():
            lines = open(path, encoding="utf-8").read().split("\n")
            by_hand = not path.endswith("/Proof.antt")
            inside = False
            for i, line in enumerate(lines):
                if line and not line.startswith((" ", "--")):
                    inside = re.match(r"(pub )?record ", line) is not None
                m = DECLARED.match(line)
                if not m or line.lstrip().startswith("--"):
                    continue
                name = m.group(3)
                if inside and m.group(1):
                    self.fields.add(name)
                if not by_hand and re.search(r" : tie\.", line):
                    continue
                whole = signature(lines, i)
                if name[0].islower() and not m.group(1) and re.search(r"(^|[ →)])Type \d+$", whole.rstrip()) and "{M : Type 1}" not in whole:
                    self.facts[name] = upper_camel(name)
                if by_hand:
                    self.top.add(name)
                else:
                    self.local.add(name)

        # Where a record has the name that a claim would get, the claim says that it is one.
        self.facts = {n: new + "Claim" if new in self.top else new for n, new in self.facts.items()}
        # Where a lemma has the name of what it speaks of, but for its spelling, it gets the ending that the library gives such a lemma.
        named = {}
        for name in sorted(self.top):
            if name not in self.facts:
                named.setdefault(snake(name) if odd(name) else name, set()).add(name)
        self.lemmas = {n: new + "_lem" for new, olds in named.items() if len(olds) > 1 for n in olds if self.is_lemma(n, olds)}

    @staticmethod
    def is_lemma(name, olds):
        first = {n for n in olds if camel(n)} or {n for n in olds if not odd(n)}
        return name not in first

    def new(self, name):
        if name in self.facts:
            return self.facts[name]
        if name in self.lemmas:
            return self.lemmas[name]
        return snake(name) if odd(name) else name


def antt_files():
    return sorted(glob.glob("crates/*/specs/**/*.antt", recursive=True) + glob.glob("crates/*/proofs/**/*.antt", recursive=True))


def respell_antt(text, names, is_proof):
    keep = foreign(text, names.own)
    if is_proof:
        # Each answer of a walk by hand has a name that the checker's names stand behind.
        keep |= {m.group(1) for m in re.finditer(r"(?m)^(?:abbrev )?(?:pub )?([^\s(){}\[\],;.:\"`|]+) :\s+tie\.", text)}
        keep |= {m.group(1) for m in re.finditer(r"(?m)^pub ([^\s(){}\[\],;.:\"`|]+) : \{M : Type 1\}", text)}
    spans = []
    for m, path, rest in uses(text):
        spans.append((m.start(), m.end(), path, rest, m))
    out, at = [], 0
    for start, end, path, rest, m in spans:
        out.append(words(text[at:start], names, keep))
        if rest.startswith(".{"):
            if is_own(path, names.own):
                listed = [" as ".join(names.new(p) for p in n.split(" as ")) for n in split_names(rest)]
            else:
                listed = split_names(rest)
            out.append(m.group(1) + path + ".{" + ", ".join(listed) + "}")
        elif rest.startswith(" as "):
            out.append(m.group(1) + path + " as " + names.new(rest[4:]))
        else:
            out.append(text[start:end])
        at = end
    out.append(words(text[at:], names, keep))
    return "".join(out)


def words(text, names, keep):
    def turn(m):
        name = m.group(0)
        if name in keep:
            return name
        before = text[m.start() - 1] if m.start() else " "
        if before == ".":
            return names.new(name) if name in names.fields or name in names.top and (odd(name) or name in names.facts) else name
        return names.new(name)

    return WORD.sub(turn, text)


def comment_words(text, names):
    """In a comment or in the source only what is declared is renamed: prose has words with a dash of its own."""
    def turn(m):
        name = m.group(0)
        return names.new(name) if name in names.top and (odd(name) or name in names.facts) else name

    return WORD.sub(turn, text)


def respell_antt_file(text, names, is_proof):
    parts = re.split(r"(?m)(^[ \t]*--.*$|(?<=\s)-- .*$)", text)
    if len(parts) == 1:
        return respell_antt(text, names, is_proof)
    # The comments are set aside, so that a use line over several lines stays whole.
    comments = []

    def aside(m):
        comments.append(m.group(0))
        return "\0%d\0" % (len(comments) - 1)

    bare = re.sub(r"(?m)(^[ \t]*--.*$|(?<=\s)-- .*$)", aside, text)
    turned = respell_antt(bare, names, is_proof)
    return re.sub("\0(\\d+)\0", lambda m: ticked(comments[int(m.group(1))], names), turned)


def ticked(text, names):
    return re.sub(r"`([^`\n]+)`", lambda m: "`" + comment_words(m.group(1), names) + "`", text)


def respell_rt(text, names):
    out = []
    for part in re.split(r"(//[^\n]*|\"(?:[^\"\\\n]|\\.)*\")", text):
        if part.startswith('"'):
            out.append(part)
        elif part.startswith("//"):
            out.append(ticked(part, names))
        else:
            out.append(comment_words(part, names))
    return "".join(out)


# Fields that a reader of the definitions meets, and that would have got the ending of a lemma.
FIELDS = {"too_large_lem": "list_over", "counters_out_lem": "counters_over", "max_retries_lem": "max_retries_kept",
          "search_width_lem": "search_width_kept", "dfs_bound_lem": "dfs_bound_kept"}


def name_fields(text):
    return WORD.sub(lambda m: FIELDS.get(m.group(0), m.group(0)), text)


def main():
    own = set(crates())
    names = Names(own)
    if "--list" in sys.argv[1:]:
        for name in sorted(names.top | names.local):
            if names.new(name) != name:
                print(name, names.new(name))
        return
    for path in antt_files():
        text = open(path, encoding="utf-8").read()
        new = respell_antt_file(text, names, path.endswith("/Proof.antt"))
        if path.startswith("crates/centralized_telescope/"):
            new = name_fields(new)
        if new != text:
            open(path, "w", encoding="utf-8").write(new)
    for path in sorted(glob.glob("crates/*/src/**/*.rt", recursive=True)):
        text = open(path, encoding="utf-8").read()
        new = respell_rt(text, names)
        if new != text:
            open(path, "w", encoding="utf-8").write(new)


main()
