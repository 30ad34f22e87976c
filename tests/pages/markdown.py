"""What tests/pages reads out of a page of Markdown: blocks of code with their marks, links, headings, names and tables."""
import re
from collections.abc import Iterator
from dataclasses import dataclass, field

MARK = re.compile(r"<!-- (run|not run: \S.*) -->")
LINK = re.compile(r"(?<!`)\[[^\]]*\]\(([^)\s]+)\)")


@dataclass
class Block:
    line: int  # of its first fence
    language: str
    mark: str  # what the comment right above it says, or ""
    text: list[str] = field(default_factory=list)


@dataclass
class Command:
    """What is to be run, and what it must print."""

    line: int
    script: str
    output: str


def blocks(page: str) -> list[Block]:
    found: list[Block] = []
    open_block, above = None, ""
    for number, line in enumerate(page.split("\n"), 1):
        fence = re.match(r"```(\w*)$", line)
        if open_block:
            if line == "```":
                open_block = None
            else:
                open_block.text.append(line)
        elif fence:
            mark = MARK.fullmatch(above)
            open_block = Block(number, fence.group(1), mark.group(1) if mark else "")
            found.append(open_block)
        above = line
    return found


def commands(page: str) -> list[Command]:
    """The blocks that are marked `run`, each with the block of text behind it: nothing but empty lines lies between."""
    lines, found = page.split("\n"), []
    all_blocks = blocks(page)
    for block, behind in zip(all_blocks, [*all_blocks[1:], None]):
        if block.language != "sh" or block.mark != "run":
            continue
        end = block.line + len(block.text) + 1
        is_next = behind is not None and behind.language == "text" and not any(lines[end : behind.line - 1])
        found.append(Command(block.line, "\n".join(block.text) + "\n", "".join(f"{line}\n" for line in behind.text) if is_next else ""))
    return found


def outside_blocks(page: str) -> Iterator[tuple[int, str]]:
    """The lines that are no code, with their numbers."""
    inside = False
    for number, line in enumerate(page.split("\n"), 1):
        if line.startswith("```"):
            inside = not inside
        elif not inside:
            yield number, line


def links(page: str) -> Iterator[tuple[int, str]]:
    """Where links lead; one may be broken across lines."""
    text = "\n".join(line for _, line in outside_blocks(page))
    numbers = [number for number, _ in outside_blocks(page)]
    for link in LINK.finditer(text):
        yield numbers[text.count("\n", 0, link.start())], link.group(1)


def anchors(page: str) -> set[str]:
    """What `#..` of a link can name: each heading in small letters, without punctuation, spaces as hyphens, numbered if it comes again."""
    found: dict[str, int] = {}
    for _, line in outside_blocks(page):
        if re.match(r"#+ ", line):
            name = re.sub(r"[^\w\- ]", "", line.lstrip("#").strip().lower()).replace(" ", "-")
            found[name] = found.get(name, 0) + 1
    return {name if again == 0 else f"{name}-{again}" for name, times in found.items() for again in range(times)}


def named(page: str) -> Iterator[tuple[int, str]]:
    """Identifiers in backquotes: with an underscore, or with a capital inside."""
    for number, line in outside_blocks(page):
        for name in re.findall(r"`([A-Za-z]\w*)`", line):
            if re.search(r"\w_\w|[a-z][A-Z]", name):
                yield number, name


def theorems(page: str) -> Iterator[tuple[int, str]]:
    """What a page calls a theorem: `theorem `a``, `theorems `a`, `b` and `c``."""
    text = "\n".join(line for _, line in outside_blocks(page))
    numbers = [number for number, _ in outside_blocks(page)]
    for said in re.finditer(r"\btheorems?\s+((?:`\w+`(?:,\s+and\s+|,\s+|\s+and\s+)?)+)", text):
        for name in re.findall(r"`(\w+)`", said.group(1)):
            yield numbers[text.count("\n", 0, said.start())], name


def long_rows(page: str, most: int) -> Iterator[tuple[int, int]]:
    for number, line in outside_blocks(page):
        if line.startswith("|") and len(line) > most:
            yield number, len(line)


def indented_blocks(page: str) -> Iterator[int]:
    """Where code stands by indent alone, so that nobody can mark it: four spaces behind an empty line, not below an item of a list."""
    above, in_list = "", False
    for number, line in outside_blocks(page):
        if re.match(r" *([-*]|\d+\.) ", line):
            in_list = True
        elif line and not line.startswith(" "):
            in_list = False
        if line.startswith("    ") and not above and not in_list:
            yield number
        above = line.strip()
