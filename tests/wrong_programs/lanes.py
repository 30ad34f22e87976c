"""
Tries edits with `rt check`, in two lanes, each with a crate of its own first and then with what is left. A lane is a thread; what it runs is
a group of processes of its own, so that all of it ends with this program.
"""
import os
import shutil
import signal
import subprocess
import sys
import tempfile
import threading
import traceback
from collections import deque
from pathlib import Path

from edits import CRATES, BadEdit, Edit, changed_files, wanted
from judgement import Refuted, judgement

LANES = (("sampling", "soundness", "centralized_telescope"), ("centralized_telescope", "soundness", "sampling"))


class Stop(Exception):
    pass


class Commands:
    """Runs commands, and ends what still runs."""

    def __init__(self) -> None:
        self.lock = threading.Lock()
        self.running: set[subprocess.Popen] = set()
        self.ended = False

    def run(self, command: list[str], folder: Path) -> tuple[int, str]:
        """The status, and all that the command said."""
        with self.lock:
            if self.ended:
                raise Stop("ended")
            process = subprocess.Popen(
                command,
                cwd=folder,
                env={**os.environ, "PWD": str(folder)},
                stdin=subprocess.DEVNULL,
                stdout=subprocess.PIPE,
                stderr=subprocess.STDOUT,
                process_group=0,
            )
            self.running.add(process)
        said, _ = process.communicate()
        with self.lock:
            self.running.discard(process)
        return process.returncode, said.decode("utf-8", "replace")

    def end(self) -> None:
        with self.lock:
            self.ended = True
            for process in self.running:
                try:
                    os.killpg(process.pid, signal.SIGTERM)
                except ProcessLookupError:
                    pass


def copy(source: Path, target: Path, left: str = "") -> None:
    """A folder, without its folder `left`. What a check kept is linked, as rt does it: a check replaces such a file, and changes none."""

    def copy_file(one: str, other: str) -> str:
        if one.endswith(".oantt"):
            os.link(one, other)
            return other
        # New times, as `cp -R` gives them, so that a file is never taken for the one that stood there before.
        return shutil.copy(one, other)

    def ignored(folder: str, _) -> list[str]:
        return [left] if folder == str(source) else []

    shutil.copytree(source, target, symlinks=True, copy_function=copy_file, ignore=ignored)


def lines_needed(top: Path) -> dict[str, str]:
    """The lines of crates.txt for CRATES and the repository's crates below them."""
    lines = {}
    for line in (top / "crates.txt").read_text(encoding="utf-8").split("\n"):
        head, colon, _ = line.partition("#")[0].partition(":")
        if colon and head.split():
            lines[head.split()[0]] = line
    needed, queue = {}, list(CRATES)
    while queue:
        name = queue.pop(0)
        if name in lines and name not in needed:
            needed[name] = lines[name]
            queue += lines[name].partition("#")[0].partition(":")[2].split()
    return needed


class Tries:
    """All edits of one run, the folders in which they are tried, and what became of them."""

    def __init__(self, top: Path, work: Path, edits: dict[str, list[Edit]], only_places: bool = False):
        self.top, self.work, self.only_places = top, work, only_places
        self.queues = {crate: deque(of) for crate, of in edits.items()}
        self.commands = Commands()
        self.lock = threading.Lock()
        self.claimed: set[str] = set()
        self.bases = {crate: threading.Event() for crate in edits}
        self.judged: list[Edit] = []
        self.failed: list[Edit] = []
        self.stopped = False

    # ---- a folder that holds a crate, proved

    def prepare(self, crate: str, folder: Path) -> None:
        """The crate as it stands, proved; from then on its folder out/ holds that."""
        needed = lines_needed(self.top)
        for name in needed:
            copy(self.top / "crates" / name, folder / "crates" / name, "out")
        (folder / "crates.txt").write_text("\n".join(needed.values()) + "\n", encoding="utf-8")
        if (self.top / "HANDLES").is_file():
            shutil.copy(self.top / "HANDLES", folder)
        status, said = self.commands.run(["rt", "check"], folder / "crates" / crate)
        if status != 0 or not any(line.startswith("logic=proved") for line in said.split("\n")):
            raise Stop("\n".join(said.rstrip("\n").split("\n")[-20:]) + f"\nwithout an edit `{crate}` is not proved")

    def ready(self, crate: str) -> Path:
        """Who comes first makes the crate ready, who comes later copies that."""
        base, folder = self.work / f"{crate}.base", self.work / crate
        with self.lock:
            mine = crate not in self.claimed
            self.claimed.add(crate)
        if mine:
            self.prepare(crate, folder)
            copy(folder, base)
            self.bases[crate].set()
            return folder
        while not self.bases[crate].wait(1):
            if self.stopped or self.commands.ended:
                raise Stop(f"`{crate}` was not made ready")
        folder = self.work / f"{crate}.copy"
        copy(base, folder)
        return folder

    # ---- one edit, in such a folder

    def try_edit(self, edit: Edit, folder: Path) -> list[str]:
        """What became of it. Afterwards the crate is as it was."""
        root = folder / "crates" / edit.crate
        try:
            texts = changed_files(edit, root)
        except BadEdit:
            raise Refuted("BAD EDIT: an old text isn't in one line of its file") from None
        before = {file: file.read_bytes() for file in texts}
        for file, text in texts.items():
            file.write_text(text, encoding="utf-8")
        status, said = self.commands.run(["rt", "check", "--jobs", "1"], root)
        for file, text in before.items():
            file.write_bytes(text)

        files = {}
        for folder in ("specs", "proofs"):
            for file in sorted((root / folder).rglob("*.antt")):
                files[file.relative_to(root).as_posix()] = file.read_text(encoding="utf-8")
        return judgement(edit, status, said, files, self.only_places)

    def tried(self, edit: Edit, folder: Path) -> None:
        try:
            said, good = self.try_edit(edit, folder), True
        except Refuted as why:
            said, good = [str(why)], False
        if self.commands.ended:
            raise Stop("ended")
        with self.lock:
            self.judged.append(edit)
            if not good:
                self.failed.append(edit)
            print(f"{edit.crate}, {edit.name}:", *said, sep="\n", flush=True)

    # ---- the lanes

    def lane(self, crates: tuple[str, ...]) -> None:
        """What is left of each crate, in this order."""
        try:
            for crate in crates:
                queue = self.queues[crate]
                folder = self.ready(crate) if queue else None
                while queue:
                    with self.lock:
                        edit = queue.popleft() if queue else None
                    if edit:
                        self.tried(edit, folder)
        except Stop as why:
            self.stopped = True
            if not self.commands.ended:
                print(why, file=sys.stderr, flush=True)
        except Exception:
            self.stopped = True
            if not self.commands.ended:
                traceback.print_exc()

    def run(self) -> None:
        lanes = [threading.Thread(target=self.lane, args=(crates,), daemon=True) for crates in LANES]
        for lane in lanes:
            lane.start()
        try:
            for lane in lanes:
                lane.join()
        finally:
            # After a signal: the lanes end with what they run, and only then their folders go.
            self.commands.end()
            for lane in lanes:
                lane.join(5)

    def verdict(self) -> str:
        """The last line; Stop unless all were tried and refused as they must be."""
        tried = len(self.judged) + sum(len(queue) for queue in self.queues.values())
        if self.stopped:
            raise Stop("a crate could not be made ready, or is not proved without an edit")
        if self.failed:
            raise Stop(f"{len(self.failed)} of {tried} failed: " + " ".join(edit.path.name for edit in self.failed))
        if len(self.judged) != tried:
            raise Stop(f"of {tried} edits only {len(self.judged)} were tried")
        return f"wrong programs: {tried} refused"


def asked(top: Path, arguments: list[str]) -> tuple[dict[str, list[Edit]], bool]:
    """The edits of each crate that are to be tried, and whether only places are wanted."""
    option = arguments[0] if arguments[:1] in (["--all"], ["--places"]) else ""
    names = arguments[1:] if option else arguments
    edits = {crate: wanted(top, crate, names, bool(option)) for crate in CRATES}
    tried = sum(map(len, edits.values()))
    if names and tried != len(names):
        raise Stop(f"{len(names)} were named, and {tried} are here")
    if not tried:
        raise Stop("there is no edit")
    return edits, option == "--places"


def ended(number: int, _) -> None:
    signal.signal(number, signal.SIG_IGN)
    sys.exit(1)


def tried(top: Path, work: Path, arguments: list[str]) -> None:
    edits, only_places = asked(top, arguments)
    tries = Tries(top, work, edits, only_places)
    try:
        tries.run()
    finally:
        tries.commands.end()
    verdict = tries.verdict()
    if not only_places:
        print(verdict)


def main(arguments: list[str]) -> int:
    for number in (signal.SIGINT, signal.SIGTERM):
        signal.signal(number, ended)
    try:
        with tempfile.TemporaryDirectory(ignore_cleanup_errors=True) as work:
            tried(Path(__file__).resolve().parents[2], Path(work).resolve(), arguments)
    except Stop as why:
        print(f"tests/wrong_programs/run: {why}", file=sys.stderr)
        return 1
    return 0
