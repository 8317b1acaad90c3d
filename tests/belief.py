"""Files that have to be believed and files of inner words, as found and as the document lists them."""

from __future__ import annotations

import re
from pathlib import Path
from typing import Iterable, Iterator

from reached import Module, Specs, Word, believed_words, public_crates
from reporting import Check

DOCUMENT = "docs/PROOF.md"
SECTION = "## What has to be believed\n"
INNER = "\nInner words:"
LISTED = re.compile(r"`(crates/[\w-]+/specs/[\w-]+\.antt)`")
# A type of src/ that a file of specs/ speaks of: its crate, and the module it stands in, none for lib.rt.
TYPE = re.compile(r"(?m)^use Rattle\.(\w+)\.specs\.declared\.(?:([a-z_]+)\.)?[A-Z]")


class Belief:
    """The definitions of specs/, parted into those to be believed and inner words."""

    def __init__(self, root: Path) -> None:
        self.root = root
        self.specs = Specs(root)
        self.public = public_crates(root)
        self.believed = believed_words(root, self.specs)

    def words(self, module: Module) -> tuple[list[Word], list[Word]]:
        """Those of a module that have to be believed, and the inner ones."""
        words = self.specs.words_of(module)
        return (
            [word for word in words if word in self.believed],
            [word for word in words if word not in self.believed],
        )

    def files(self) -> tuple[set[str], set[str]]:
        """The files that have to be believed, if only in part, and the others."""
        believed = {word.module.path for word in self.believed}
        return believed, {module.path for module in self.specs.scopes} - believed

    def size(self, words: Iterable[Word]) -> int:
        return sum(len(self.specs.lines[word]) for word in words)

    def lines(self) -> Iterator[str]:
        for module in self.specs.scopes:
            believed, inner = self.words(module)
            told = f"{module.path}: {len(believed)} believed, {self.size(believed)} lines"
            yield told + (f"; inner: {names(inner)}" if inner else "")
        yield f"public crates: {', '.join(self.public)}"

    def totals(self) -> str:
        of_all = self.specs.lines
        return (
            f"{len(self.believed)} of {len(of_all)} definitions, "
            f"{self.size(self.believed)} of {self.size(of_all)} lines have to be believed"
        )


def names(words: list[Word]) -> str:
    return ", ".join(word.name for word in words)


def listed_files(root: Path) -> tuple[set[str], set[str]]:
    """The files that the document lists: those to be believed, and those of inner words."""
    text = (root / DOCUMENT).read_text("utf-8")
    section = text.partition(SECTION)[2].partition("\n## ")[0]
    believed, _, inner = section.partition(INNER)
    return set(LISTED.findall(believed)), set(LISTED.findall(inner))


def unlisted_types(belief: Belief, believed: set[str]) -> list[str]:
    """The files of types that believed definitions speak of, and that the document doesn't tell to believe: it tells so
    of the lib.rt of each crate that has a believed file, and of the files that it names."""
    text = (belief.root / DOCUMENT).read_text("utf-8")
    told = text.partition(SECTION)[2].partition(INNER)[0]
    crates = {path.split("/")[1] for path in believed}
    spoken: set[str] = set()
    for path in believed:
        for crate, module in TYPE.findall((belief.root / path).read_text("utf-8")):
            if module or crate not in crates:
                spoken.add(f"crates/{crate}/src/{module or 'lib'}.rt")
    return [f"{path} isn't told" for path in sorted(spoken) if f"`{path}`" not in told]


def checks(belief: Belief) -> Iterator[Check]:
    for module in belief.specs.scopes:
        yield Check(f"{module.path}, believed or inner as a whole", parted(*belief.words(module)))
    found, listed = belief.files(), listed_files(belief.root)
    yield listing("the files to be believed", found[0], listed[0])
    yield listing("the files of inner words", found[1], listed[1])
    wrong = unlisted_types(belief, found[0])
    yield Check(f"the types of the files to be believed are where {DOCUMENT} tells", wrong)


def parted(believed: list[Word], inner: list[Word]) -> list[str]:
    if not believed and not inner:
        return ["no definition"]
    if not believed or not inner:
        return []
    return [f"to be believed: {names(believed)}", f"inner: {names(inner)}"]


def listing(what: str, found: set[str], listed: set[str]) -> Check:
    wrong = [f"{path} isn't listed" for path in sorted(found - listed)]
    wrong += [f"{path} is listed, and isn't one" for path in sorted(listed - found)]
    return Check(f"{what} are those that {DOCUMENT} lists", wrong)
