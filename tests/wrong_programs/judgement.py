"""
What `rt check` said of an edited crate, and whether that is the refusal that the edit asks for. Nothing is run here: all is read from the
text that the checker printed, so that it can be tested with such texts.
"""
import re
from collections.abc import Mapping
from dataclasses import dataclass

from edits import Edit
from follows import Declarations


class Refuted(Exception):
    """The edit isn't refused as it must be; the text says why."""


@dataclass(frozen=True)
class Refusal:
    own: bool  # it doesn't follow from another's
    file: str  # below the crate
    declaration: str
    message: str
    line: int  # in the file; 0 where none is said

    @property
    def place(self) -> str:
        return f"{self.file} {self.declaration}"


def refusal(lines: list[str]) -> Refusal:
    """Of the lines of a message: place and declaration are said in the first. Paths go from the crate's folder."""
    head, text = lines[0], " ".join(lines)
    at = re.search(r":([0-9]+):[0-9]+: ", head)
    file = head[: at.start()] if at else head
    name = re.sub(r"`.*", "", re.sub(r"^[^`]*`", "", head))
    follows = re.search(r"(was|is) not admitted|(was|were) not checked: ", text)
    return Refusal(not follows, file.removeprefix("./"), re.sub(r".*::", "", name), text, int(at.group(1)) if at else 0)


def refusals(said: str) -> list[Refusal]:
    """
    What the checker refused in the crate, in the order in which it says so. A function that the checker proves by itself is refused by a
    note, any other by an error in its proof; lines that begin with a space go on with the message.
    """
    messages: list[list[str]] = []
    going_on = False
    for line in said.split("\n"):
        if re.match(r"[^ ].*: error: |(so far: )?note: .*: it is not proved that ", line):
            messages.append([line.removeprefix("so far: ").removeprefix("note: ")])
            going_on = True
        elif not line.startswith(" "):
            going_on = False
        elif going_on:
            messages[-1].append(line)
    return [refusal(lines) for lines in messages]


def only_shape(declaration: str, message: str) -> bool:
    """
    It only says that the code has another shape. A step more or less shows as a goal or a field that isn't there, as an invariant or
    measure that finds another variable in a place, or, of a proof that walks the code by hand, where its answers are put together.
    """
    if re.match(r"(invariant|decreases|Inv|μ)-", declaration) or declaration.endswith("-spec"):
        return True
    return bool(re.search(r"has no `[^`]*` that can be named|has no `Need-|has no field|expected type `tie\.Need-|is not in scope", message))


def placed(place: str, errors: list[Refusal], first: Refusal) -> str:
    """One of the errors stands there, and says more than that the code has another shape."""
    for error in errors:
        if error.place == place:
            if only_shape(error.declaration, error.message):
                raise Refuted(f"refused at {place}, but for the code's shape: {error.message[:300]}")
            return f"refused at {place}"
    raise Refuted(f"refused, but not at {place}; the first error: {first.place}")


def refused_field(wanted: str, own: list[Refusal], declarations: Declarations) -> str:
    """
    A declaration was refused, and, if a field is named behind it, in the lines of `FIELD = ..`; or it, or the field, rests on what was.
    """
    file, declaration, field = (wanted.split(maxsplit=2) + ["", "", ""])[:3]
    said = f"  with the field {field or declaration}"
    lines = dict(declarations.field((file, declaration), field)) if field else {}
    if any(one.place == f"{file} {declaration}" and (not field or one.line in lines) for one in own):
        return said
    refused = {(one.file, one.declaration) for one in own}
    following = declarations.following(refused)
    if not field and (file, declaration) in following:
        return f"{said}, which follows"
    if declarations.rest_on(file, "\n".join(lines.values())) & ((refused | following) - {(file, declaration)}):
        return f"{said}, which follows"
    raise Refuted(f"  but {file} {declaration} {field} isn't refused")


def places(edit: Edit, own: list[Refusal]) -> list[str]:
    """The lines `own:` or `first:` that the edit could have, and the first error's text if it has another."""
    own = [one for one in own if not only_shape(one.declaration, one.message)] or own
    first = f"first: {own[0].place}"
    said = [first]
    if edit.values("own") or edit.values("theorem"):
        said = [f"own: {one.place}" for i, one in enumerate(own) if i == 0 or own[i - 1].place != one.place]
    return said + ([] if first in edit.lines else [own[0].message])


def judgement(edit: Edit, status: int, said: str, files: Mapping[str, str], only_places: bool = False) -> list[str]:
    """
    The lines to print of an edit that is refused as it must be, or Refuted with those up to what isn't so. `files` has the texts of the
    crate's .antt files without the edit, by their paths below the crate.
    """
    if status == 0:
        raise Refuted("NOT REFUSED")
    lines = said.split("\n")
    if not any(line.startswith("logic=not-proved") for line in lines):
        raise Refuted(f"it did not reach the prover: {lines[0]}")
    refused = refusals(said)
    own = [one for one in refused if one.own]
    if not own:
        raise Refuted("refused without a reason")
    if only_places:
        return places(edit, own)
    first, anywhere = edit.values("first"), edit.values("own")
    # The checker says first of each file what stands for nothing in the code any more.
    telling = [one for one in own if not only_shape(one.declaration, one.message)] or own
    if len(first) + len(anywhere) != 1:
        raise Refuted("  but the edit has neither a line 'first:' nor a line 'own:'")
    told = [placed(first[0], telling[:1], telling[0]) if first else placed(anywhere[0], telling, telling[0])]
    try:
        for field in edit.values("field"):
            told.append(refused_field(field, own, Declarations(edit.crate, files)))
        for theorem in edit.values("theorem"):
            if not re.search(rf"::theorems::{theorem}: (not proved|no proof)\b", said):
                raise Refuted(f"  but the theorem {theorem} is proved")
    except Refuted as why:
        raise Refuted("\n".join([*told, str(why)])) from None
    return told
