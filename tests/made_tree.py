"""A small made-up tree on disk, for the tests of what looks over a tree: `FILES` has the text of each file by its path."""
import tempfile
import unittest
from pathlib import Path


class MadeTree(unittest.TestCase):
    FILES: dict[str, str] = {}

    def setUp(self):
        folder = tempfile.TemporaryDirectory()
        self.addCleanup(folder.cleanup)
        self.top = Path(folder.name)
        for path, text in self.FILES.items():
            self.put(path, text)

    def put(self, path, text):
        (self.top / path).parent.mkdir(parents=True, exist_ok=True)
        (self.top / path).write_text(text, encoding="utf-8")

    def exchange(self, path, old, new):
        """`old` becomes `new` in a file of FILES."""
        self.assertIn(old, self.FILES[path])
        self.put(path, self.FILES[path].replace(old, new, 1))
