"""
Which declarations of a crate's .antt files rest on which, read from their text: the checker says of what follows from a refusal only how much
it is, with the first names. Where a name stands for something else too, what rests on it is taken for more than it is, and never for less.
"""
import re
from collections.abc import Iterator, Mapping

Place = tuple[str, str]  # file, below the crate, and declaration
DECLARED = re.compile(r"( *)(?:(?:abbrev|unfoldable|opaque|pub|record|data) )*([^\s(){}\[\],;.:\"`|]+)(?: [^:]*?)? :(?!:)")
IMPORT = re.compile(r"(?:pub )?use Rattle\.(\w+)\.(specs|proofs)\.([^\s{]*[^\s{.])(?:\.\{([^}]*)\})?(?: as (\S+))?$")
NO_NAMES = ("let", "in", "use", "open", "module", "infix", "infixl", "infixr", "syntax", "where")


def words(text: str) -> list[str]:
    return re.findall(r"[^\s(){}\[\],;:|]+", text)


class Declarations:
    """Of the files of one crate: what stands in each declaration's lines, and what its words mean."""

    def __init__(self, crate: str, files: Mapping[str, str]):
        self.crate = crate
        self.blocks: dict[Place, list[tuple[int, str]]] = {}  # its lines, with their numbers
        self.imported: dict[str, dict[str, Place]] = {}
        self.renamed: dict[str, dict[str, str]] = {}
        for file, text in files.items():
            self.read(file, text)

    def read(self, file: str, text: str) -> None:
        names, modules = self.imported.setdefault(file, {}), self.renamed.setdefault(file, {})
        within, opening, current = [0], None, None
        for number, line in enumerate(text.split("\n"), 1):
            line = re.sub(r"(^|\s)--( .*|$)", "", line).rstrip()
            if not line:
                continue
            imports = IMPORT.match(line)
            if imports:
                self.imports(names, modules, *imports.groups())
                continue
            indent = len(line) - len(line.lstrip(" "))
            if opening is None:
                while indent < within[-1]:
                    within.pop()
                if line.startswith("module ", indent):
                    opening, current = indent, None
            if opening is not None:
                if line.endswith(" where"):
                    within.append(opening + 2)
                    opening = None
                continue
            begins = DECLARED.match(line) if indent == within[-1] else None
            if begins and begins.group(2) not in NO_NAMES:
                current = (file, begins.group(2))
            if current:
                self.blocks.setdefault(current, []).append((number, line))

    def imports(self, names, modules, crate, folder, module, listed, alias) -> None:
        if crate != self.crate:
            return
        file = f"{folder}/{module.replace('.', '/')}.antt"
        for name in (listed or "").split(","):
            old, _, new = name.strip().partition(" as ")
            names[new or old] = (file, old)
        if listed is None:
            modules[alias or module.split(".")[-1]] = file

    def meant(self, file: str, word: str) -> Place | None:
        """What a word of a file means; a name may have its module before it, or a field behind it."""
        for name in (word, word.split(".")[0], f"◌{word}◌"):
            if (file, name) in self.blocks:
                return file, name
            if name in self.imported.get(file, {}):
                return self.imported[file][name]
        module, _, rest = word.partition(".")
        if module in self.renamed.get(file, {}):
            return self.renamed[file][module], rest.split(".")[0]
        return None

    def rest_on(self, file: str, text: str) -> set[Place]:
        return {place for word in words(text) if (place := self.meant(file, word))}

    def following(self, refused: set[Place]) -> set[Place]:
        """What rests on these, by itself or by what it rests on."""
        above: dict[Place, set[Place]] = {}
        for place, lines in self.blocks.items():
            for below in self.rest_on(place[0], "\n".join(line for _, line in lines)):
                above.setdefault(below, set()).add(place)
        found, queue = set(), list(refused)
        while queue:
            for place in above.get(queue.pop(), ()):
                if place not in found and place not in refused:
                    found.add(place)
                    queue.append(place)
        return found

    def field(self, place: Place, name: str) -> Iterator[tuple[int, str]]:
        """The lines of `NAME = ..` in a declaration, up to the next line that isn't further inside."""
        indent = None
        for number, line in self.blocks.get(place, ()):
            deep = len(line) - len(line.lstrip(" "))
            if indent is not None and deep <= indent:
                indent = None
            if re.match(rf" *{re.escape(name)} = ", line):
                indent = deep
            if indent is not None:
                yield number, line
