#!/usr/bin/env python3
"""The checks of tests/pages/run over a small made-up tree, which is right as it stands: a test makes one thing wrong and sees it said."""
import hashlib
import sys
import unittest
from pathlib import Path

sys.dont_write_bytecode = True
sys.path[:0] = [str(Path(__file__).resolve().parent), str(Path(__file__).resolve().parent.parent)]
import markdown  # noqa: E402
from checks import TOP, bytes_of_dump, bytes_of_table, in_runs, in_words, wrong_example  # noqa: E402
from made_tree import MadeTree  # noqa: E402

PAGE = """# Doors

See [the trace](docs/TRACE.md#how-it-opens), src/door.rt and `open_door`. It is proved by the theorem `is_open`.

<!-- run -->
```sh
echo one > target/new; cat target/new
cat c/here.txt >> target/new
```

```text
one
```

<!-- run -->
```sh
cat target/new
```

```text
one
here
```

<!-- not run: it takes a year -->
```sh
sleep 31536000
```
"""
FILES = {
    "README.md": PAGE,
    "docs/TRACE.md": "# Look-up\n\n## How it `opens`\n\nBack [there](../README.md).\n\n| a | b |\n|---|---|\n| c | d |\n",
    "docs/CHANGES.md": "# Changes\n\n`gone_now` stood in src/none.rt. [Now](TRACE.md).\n",
    "c/here.txt": "here\n",
    "crates/sampling/src/lib.rt": "mod door;\nmod theorems;\npub use theorems::is_open;\n",
    "crates/sampling/src/door.rt": "pub fn open_door() {}\n",
    "target/bin/none": "",
}


def block_of(body: bytes) -> bytes:
    filled = body.ljust(504, b"\0")
    return filled + hashlib.sha256(filled).digest()[:8]


class Made(MadeTree):
    FILES = FILES

    def said(self, check, path="README.md", old="", new=""):
        """What is wrong while `old` is `new` in the file."""
        self.exchange(path, old, new)
        return [f"{page}:{line}: {what}" for page, line, what in check(self.top)[0]]

    def test_as_it_stands(self):
        self.assertEqual(in_words(self.top), ([], "3 pages, 3 links"))
        self.assertEqual(in_runs(self.top), ([], "2 blocks of commands run, 1 marked as not run"))
        self.assertFalse((self.top / "target/new").exists())

    # ---- links, paths, names

    def test_links(self):
        self.assertEqual(self.said(in_words, old="docs/TRACE.md#", new="docs/NONE.md#"), ["README.md:3: the link docs/NONE.md#how-it-opens leads nowhere"])
        self.assertEqual(self.said(in_words, old="#how-it-opens", new="#how-it-shuts"), ["README.md:3: docs/TRACE.md has no heading #how-it-shuts"])
        said = ["docs/TRACE.md:5: the link README.md leads nowhere"]
        self.put("README.md", PAGE)
        self.assertEqual(self.said(in_words, "docs/TRACE.md", "../README.md", "README.md"), said)

    def test_a_link_across_lines(self):
        self.assertEqual(list(markdown.links("[a\nb](c.md) `[no](d.md)`")), [(1, "c.md")])

    def test_headings(self):
        page = "# A `b`: c, d\n\n```sh\n# no heading\n```\n## Again\n## Again\n"
        self.assertEqual(markdown.anchors(page), {"a-b-c-d", "again", "again-1"})

    def test_paths(self):
        self.assertEqual(self.said(in_words, old="src/door.rt", new="src/gate.rt"), ["README.md:3: there is no src/gate.rt"])
        self.assertEqual(self.said(in_words, old="src/door.rt", new="src/FILE.rt"), [])

    def test_names(self):
        self.assertEqual(self.said(in_words, old="`open_door`", new="`shut_door`"), ["README.md:3: `shut_door` stands nowhere in the tree"])
        self.assertEqual(self.said(in_words, old="theorem `is_open`", new="theorem `open_door`"), ["README.md:3: `open_door` is no theorem"])

    def test_what_is_called_a_theorem(self):
        said = "The theorem `a`, which `b` has. Theorems: `c`. By the theorems `d`, `e` and\n`f`, `g`."
        self.assertEqual([name for _, name in markdown.theorems(said)], ["a", "d", "e", "f", "g"])

    # ---- form

    def test_a_mark_that_is_missing(self):
        said = self.said(in_words, old="<!-- not run: it takes a year -->\n", new="")
        self.assertEqual(said, ["README.md:25: commands without a mark: <!-- run --> or <!-- not run: REASON --> on the line above"])
        said = self.said(in_words, old="not run: it takes a year", new="not run:")
        self.assertEqual(len(said), 1)

    def test_a_block_that_is_neither(self):
        self.assertEqual(len(self.said(in_words, old="```text", new="```")), 1)
        self.assertEqual(len(self.said(in_words, old="See [the", new="    rt check\n\nSee [the")), 1)
        self.assertEqual(self.said(in_words, old="See [the", new="- an item\n\n    of two parts\n\nSee [the"), [])

    def test_a_long_row(self):
        said = self.said(in_words, "docs/TRACE.md", "| c | d |", f"| c | {'d' * 400} |")
        self.assertEqual(said, ["docs/TRACE.md:9: a row of 408 characters: over 400 become a list"])

    def test_a_picture_that_is_not_its_text(self):
        self.put("docs/pictures/draw.py", (TOP / "docs/pictures/draw.py").read_text(encoding="utf-8"))
        self.put("docs/pictures/a.txt", "box a 0 0: one\nbox b 1 0: two / three\narrow a b: so\n")
        self.put("docs/pictures/a.svg", "")
        self.assertEqual(self.said(in_words), ["docs/pictures:0: a.svg is not what a.txt gives: run docs/pictures/draw.py"])

    def test_a_folder_without_a_row(self):
        rows = "# Parts\n\n| Folder | What |\n|---|---|\n| crates/sampling | a |\n| docs | b |\n| c | d |\n"
        self.put("docs/ARCHITECTURE.md", rows)
        self.assertEqual(self.said(in_words), [])
        self.put("docs/ARCHITECTURE.md", rows.replace("| crates/sampling |", "| crates/sample |"))
        said = ["docs/ARCHITECTURE.md:5: there is no crates/sample", "docs/ARCHITECTURE.md:0: the table of folders has no row for crates/sampling"]
        self.assertEqual(self.said(in_words), said)

    # ---- commands

    def test_another_output(self):
        said = self.said(in_runs, old="text\none\nhere", new="text\none\nthere")
        self.assertEqual(said, ["README.md:16: the commands here: due is 'there', and it printed 'here'"])
        self.assertEqual(len(self.said(in_runs, old="text\none\nhere", new="text\none")), 1)
        self.assertEqual(len(self.said(in_runs, old="text\none\nhere", new="text\none\nhere\nmore")), 1)

    def test_what_goes_to_standard_error(self):
        self.assertEqual(len(self.said(in_runs, old="cat target/new\n```", new="cat target/none\n```")), 1)

    def test_which_block_is_the_output(self):
        page = "<!-- run -->\n```sh\ntrue\n```\n\nThe form is\n\n```text\nno output\n```\n"
        self.assertEqual([(one.line, one.output) for one in markdown.commands(page)], [(2, "")])

    # ---- the ticket's example

    def test_the_example(self):
        block = block_of(b"\1\2\3")
        rows = "| 0 | 01 | a |\n| 1 | 02 03 | b |\n| 3 | 00 × 501 | c |\n| 504 | " + block[504:].hex(" ") + " | d |\n"
        first = f"0000000 {block[:16].hex(' ')}\n0000016 {block[16:32].hex(' ')}\n*\n"
        dump = f"{first}0000496 {block[496:].hex(' ')}\n0000512\n"
        self.assertEqual(bytes_of_table(rows), (block, ""))
        self.assertEqual(bytes_of_dump(dump), block)
        self.assertEqual(list(wrong_example("p", rows + dump)), [])
        self.assertEqual(len(list(wrong_example("p", rows.replace("02 03", "02 04") + dump))), 1)
        self.assertEqual(len(list(wrong_example("p", rows.replace("| 3 |", "| 4 |") + dump))), 1)
        self.assertEqual(len(list(wrong_example("p", rows.replace("501", "500") + dump))), 1)
        wrong = block[:511] + bytes([block[511] ^ 1])
        said = list(wrong_example("p", (rows + dump).replace(block[504:].hex(" "), wrong[504:].hex(" "))))
        self.assertEqual(said, [("p", 0, "the check isn't that of the body")])


if __name__ == "__main__":
    unittest.main()
