"""The numbers of the refusals: wherever they stand they are the same, and one that was given up stands nowhere.

Which numbers each public call can give is said by a theorem, and as a table by a document.
"""

from __future__ import annotations

import re
from pathlib import Path
from typing import Iterator

from reporting import Check

DEFINITIONS, CONSTANTS = "crates/record/specs/Refusal.antt", "crates/record/src/reasons.rt"
SECOND, BASELINE = "second/reading.py", "bench/baseline.c"
LISTS, THEOREMS = "crates/theorems/specs/Refusals.antt", "crates/theorems/proofs/Refusals.antt"
DOCUMENT = "docs/REFUSALS.md"

# A number that nothing else may have, and how many lines may speak of it, file by file.
GIVEN_UP = 18
SPOKEN = {DEFINITIONS: 1, DOCUMENT: 1}
NOTE = "docs/changes/E11.md"
SPEAKS = re.compile(
    rf"(?i)\b(?:refus\w*|number|reason)\W+(?:[a-z]+\W+){{0,3}}{GIVEN_UP}\b"
    rf"|\d to {GIVEN_UP}\b|\b{GIVEN_UP} (?:early|last|comes|is|isn't)\b"
)
TEXTS = (
    "README.md",
    "docs/**/*.md",
    "crates/*/src/**/*.rt",
    "crates/*/specs/**/*.antt",
    "crates/*/proofs/**/*.antt",
    "crates/*/must-fail/*.edit",
)

# The numbers of one call: of the run, and of the condition.
Numbers = tuple[list[int], list[int]]


def defined(root: Path) -> list[int]:
    return numbers_by(r"(?m)^number \w+ = (\d+)$", (root / DEFINITIONS).read_text("utf-8"))


def numbers_by(pattern: str, text: str) -> list[int]:
    return [int(number) for number in re.findall(pattern, text)]


def told(root: Path) -> Iterator[tuple[str, list[int]]]:
    """Where the numbers stand beside the definitions."""
    yield CONSTANTS, numbers_by(r"(?m)^ +Reason::\w+ => (\d+),$", (root / CONSTANTS).read_text("utf-8"))
    block = re.search(r"(?m)^TOO_LONG = 1\n(?:[A-Z_]+ = \d+\n)*", (root / SECOND).read_text("utf-8"))[0]
    yield SECOND, numbers_by(r"= (\d+)", block)
    names = re.search(r"enum reason \{\s*ACCEPTED,([^}]*)\}", (root / BASELINE).read_text("utf-8"))[1]
    yield BASELINE, counted_on(re.findall(r"[A-Z_]+(?: = (\d+))?", names))
    table, _, rest = (root / DOCUMENT).read_text("utf-8").partition("## In words")
    words, _, rest = rest.partition("\n## ")
    yield f"the table of {DOCUMENT}", numbers_by(r"(?m)^\| (\d+) \|", table)
    yield f"the words of {DOCUMENT}", numbers_by(r"(?m)^\| (\d+) \|", words)
    yield f"the sections of {DOCUMENT}", numbers_by(r"(?m)^### (\d+) ", rest)


def counted_on(values: list[str]) -> list[int]:
    """The numbers of an enum from 1 on: a name without a value has the next."""
    numbers = [0]
    for value in values:
        numbers.append(int(value) if value else numbers[-1] + 1)
    return numbers[1:]


def spoken(root: Path) -> dict[str, list[int]]:
    """The lines that speak of the number that was given up, by their files."""
    lines: dict[str, list[int]] = {}
    for path in sorted({path for text in TEXTS for path in root.glob(text)}):
        name = path.relative_to(root).as_posix()
        numbered = enumerate(path.read_text("utf-8").splitlines(), start=1)
        found = [number for number, line in numbered if SPEAKS.search(line)]
        if found and name != NOTE:
            lines[name] = found
    return lines


# What each call gives


def listed(root: Path, name: str) -> list[int]:
    """A list that the theorems name."""
    row = re.search(rf"(?m)^{name} = (.*)$", (root / LISTS).read_text("utf-8"))[1]
    return numbers_by(r"(\d+)", row)


def proved(root: Path) -> dict[str, Numbers]:
    """By the theorems, each of which has its calls in the comment above it."""
    pattern = r"(?m)^ *-- .*?((?:`\w+`(?:, )?)+)\n *pub \w+_gives : .*→ Gives \((.*)\) (\S+) x$"
    calls: dict[str, Numbers] = {}
    for names, of_run, of_condition in re.findall(pattern, (root / THEOREMS).read_text("utf-8")):
        own = listed(root, "run_numbers") if "run_numbers" in of_run else []
        run = own + numbers_by(r"(\d+)", of_run)
        condition = [] if of_condition == "[]" else listed(root, of_condition)
        calls.update((name, (run, condition)) for name in re.findall(r"`(\w+)`", names))
    return calls


def documented(root: Path) -> dict[str, Numbers]:
    calls: dict[str, Numbers] = {}
    part = (root / DOCUMENT).read_text("utf-8").partition("## Which call gives which")[2].partition("\n## ")[0]
    for names, run, condition in re.findall(r"(?m)^\| (`.*`) \| (.*) \| (.*) \|$", part):
        for name in re.findall(r"(\w+)`", names):
            calls[name] = (spread(run), spread(condition))
    return calls


def spread(cell: str) -> list[int]:
    """'1 to 3, 5' is 1, 2, 3, 5."""
    numbers: list[int] = []
    for first, last in re.findall(r"(\d+)(?: to (\d+))?", cell):
        numbers += range(int(first), int(last or first) + 1)
    return numbers


# The test


def checks(root: Path) -> Iterator[Check]:
    numbers = defined(root)
    yield Check(DEFINITIONS, [f"{GIVEN_UP} is given again"] if GIVEN_UP in numbers else [])
    for place, others in told(root):
        yield Check(place, [] if others == numbers else [f"{others} in place of {numbers}"])
    lines = spoken(root)
    for name in sorted({*lines, *SPOKEN}):
        found = lines.get(name, [])
        right = len(found) == SPOKEN.get(name, 0)
        yield Check(name, [] if right else [f"{GIVEN_UP} is spoken of at {found}"])
    by_theorem, by_document = proved(root), documented(root)
    yield Check("the calls", [] if by_theorem else ["no theorem says what a call gives"])
    for call in sorted({*by_theorem, *by_document}):
        one, other = by_theorem.get(call), by_document.get(call)
        yield Check(call, [] if one == other else [f"proved {one}, in {DOCUMENT} {other}"])
