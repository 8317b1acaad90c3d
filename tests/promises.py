"""The contracts of the public functions of the libraries, beside the document that lists those which aren't whole.

A contract is whole where it asks nothing of the caller and determines the answer: it is an
equation with the answer and nothing is lent, or the document's table of calls has it with
the theorem that any two answers are equal. Every other one stands among the exceptions.
"""

from __future__ import annotations

import re
import textwrap
from pathlib import Path
from typing import Iterator, NamedTuple

from reporting import Check

DOCUMENT = "docs/CONTRACTS.md"
CALLS, EXCEPTIONS = "# Contracts\n", "\n## Exceptions\n"
PUBLIC = re.compile(r"(?ms)^pub fn (\w+)(.*?)(?:^\{| \{$)")
# The methods of a type: a block of its own, whose functions stand one step further in.
METHODS = re.compile(r"(?ms)^impl(?:<[^>]*>)? (\w+)[^\n]*\{\n(.*?)^\}")
# A clause has a name where there are two of its kind.
ASKS = re.compile(r"\brequires(?: \w+)?\s*\{")
EQUATION = re.compile(r"\bensures(?: \w+)?\s*\{\s*result\s+≡\s")


class Call(NamedTuple):
    """A public function, by the name that its callers use."""

    name: str
    text: str

    @property
    def asks(self) -> bool:
        return ASKS.search(self.text) is not None

    @property
    def is_equation(self) -> bool:
        return EQUATION.search(self.text) is not None and "&mut" not in self.text


def public_calls(root: Path) -> Iterator[Call]:
    for library in sorted(root.glob("crates/*/src/lib.rt")):
        crate = library.parts[-3]
        for path in sorted(library.parent.glob("*.rt")):
            module = crate if path == library else f"{crate}::{path.stem}"
            code = path.read_text("utf-8")
            for name, text in PUBLIC.findall(code):
                yield Call(f"{module}::{name}", text)
            for owner, block in METHODS.findall(code):
                for name, text in PUBLIC.findall(textwrap.dedent(block)):
                    yield Call(f"{module}::{owner}::{name}", text)


# What the document lists


def section(root: Path, title: str) -> str:
    text = (root / DOCUMENT).read_text("utf-8")
    return text.partition(title)[2].partition("\n## ")[0]


def rows(text: str) -> Iterator[tuple[list[str], list[str]]]:
    """The calls that the first cell of each row names, and the cells."""
    for line in text.splitlines():
        if line.startswith("| `"):
            cells = [cell.strip() for cell in line.strip("|").split("|")]
            yield named(cells[0]), cells


def named(cell: str) -> list[str]:
    """A name with no path has that of the name ahead of it."""
    names: list[str] = []
    for name in re.findall(r"`([\w:]+)`", cell):
        if "::" not in name and names:
            name = names[-1].rpartition("::")[0] + "::" + name
        names.append(name)
    return names


def determined(root: Path) -> set[str]:
    """The calls for which a theorem of the repository is named."""
    laws = set()
    for path in root.glob("crates/*/proofs/*.antt"):
        laws.update(re.findall(r"(?m)^ *pub ([\w'-]+) :", path.read_text("utf-8")))
    return {
        call
        for calls, cells in rows(section(root, CALLS))
        if any(name in laws for name in re.findall(r"`([\w'-]+)`", cells[2]))
        for call in calls
    }


# The test


def checks(root: Path) -> Iterator[Check]:
    calls = {call.name: call for call in public_calls(root)}
    with_theorem = determined(root)
    excepted = {}
    for names, cells in rows(section(root, EXCEPTIONS)):
        excepted.update((name, cells) for name in names)
    for name, call in calls.items():
        whole = not call.asks and (call.is_equation or name in with_theorem)
        wrong = [] if whole or name in excepted else ["its contract isn't whole, and it isn't listed"]
        if whole and name in excepted:
            wrong = ["it is listed, and its contract is whole"]
        yield Check(name, wrong)
    lost = [name for name in [*excepted, *with_theorem] if name not in calls]
    yield Check("the calls that the document names", [f"{name} is no public call" for name in lost])
    without = [name for name, cells in excepted.items() if len(cells) < 3 or not all(cells)]
    yield Check("the reasons of the exceptions", [f"{name} has none" for name in without])
