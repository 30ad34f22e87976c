"""All checks of tests/names/run, page by page."""
from pathlib import Path

import numbers_said as numbers
import pages
from tree import TOP, Tree


def wrong(tree: Tree) -> list[tuple[str, int, str]]:
    """What is wrong, by page and line; line 0 where it is in none."""
    trace, reading, proved, in_c = "docs/TRACE.md", "docs/READING.md", "docs/PROVED.md", "docs/C.md"
    text = {page: tree.text(page) for page in (trace, reading, proved, in_c)}
    # The files of that section are the documents', which aren't in the repository.
    found = {page: list(pages.wrong_paths(tree, text[page], ("Which text is meant",))) for page in text}
    for page in text:
        found[page] += pages.wrong_edits_named(tree, text[page])
    found[trace] += pages.wrong_names_traced(tree, text[trace])
    found[reading] += pages.wrong_names_read(tree, text[reading])
    found[reading] += pages.wrong_calls(tree, text[reading], "Call", 1)
    found[reading] += pages.wrong_edits_read(tree, text[reading])
    found[reading] += numbers.lines_to_believe(tree, text[reading])
    found[reading] += numbers.theorems_said(tree, text[reading])
    found[reading] += numbers.contracts_tried(tree, text[reading])
    found[proved] += pages.wrong_calls(tree, text[proved], "Call", 2)
    found[proved] += numbers.said_of_proofs(tree, text[proved])
    found[in_c] += numbers.said_of_translations(tree, text[in_c])
    found["tests/wrong_programs"] = [(0, f"no page names {name}") for name in pages.unnamed_edits(tree, text[trace], text[reading])]
    found["tests/wrong_programs"] += [*pages.wrong_rooms(tree), *numbers.theorems_tried(tree), *numbers.demand_tried(tree)]
    return [(page, *one) for page, of in found.items() for one in sorted(of)]


def main(top: Path = TOP) -> int:
    tree = Tree(top)
    found = wrong(tree)
    for page, line, what in found:
        print(f"{page}:{line}: {what}" if line else f"{page}: {what}")
    tried = f"{sum(edit.in_gate for edit in tree.edits.values())} of {len(tree.edits)} wrong programs in the gate"
    print(f"pages: {tried}, {len(tree.calls)} calls, {len(tree.theorems)} theorems; wrong: {len(found)}")
    return 1 if found else 0
