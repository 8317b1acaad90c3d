"""The shape of the code, counted: how wide, how long, how deep its pieces are.

Each count gives what is beyond its bound: where it stands, and what there is of it.
A place is CRATE/FUNCTION or a file's path below crates/; it has no line number, so
that an exception goes on to name it when the lines around it move.
"""

from __future__ import annotations

import re
from pathlib import Path
from typing import Callable, Iterable, Iterator, NamedTuple

from reporting import Check

MOST_PARAMETERS = 7
MOST_LINES = 39
MOST_CHARACTERS = 160
MOST_PARTS = 3
MOST_STEPS_BACK = 5
MOST_UNTITLED_LINES = 30

FUNCTION = re.compile(r'( *)(?:[\w"()]+ )*fn (\w+)(?:<.*?>)?\(')
REQUIRES = re.compile(r"(?ms)^ *requires\b(.*?)(?=^ *(?:requires|ensures)\b|^ *\{$)")
# What a function's proof may consist of.
PROOFS = ("Invariants.antt", "Answers.antt", "Proof.antt")
# Steps are of a proof that walks the code by hand. One of invariants and answers names a place by what stands there,
# and `goal.at` leads to it, so that it takes no step.
STEPS_BACK = re.compile(r"(?:\.before){%d,}" % (MOST_STEPS_BACK + 1))
# A place of a proof that gets a name is as far back as it is, and said once.
NAMED_PLACE = re.compile(r"^[\w'-]+ \w+ = \w+(?:\.before)+$")
# Two numbers that differ contradict each other: one lemma says so for all.
CONTRADICTION = "◌≡◌ {A = ℕ} 0 1 = cc"

# It may go over several lines, and in src/ have braces within its braces.
IMPORT = re.compile(r"(?m)^(?:ghost )?use ([^\s;{]+?)(?:(?:\.|::)\{([^;]*?)\})?(?: as (\S+?))?;?$")
COMMENT = re.compile(r"(?m)(?:--|//).*$")
# Traits that are imported for what they let be called: their names needn't stand there.
CALLED = {"Read": r"\.read\w*\(", "Write": r"\bwrite(?:ln)?!|\.(?:write|flush)\w*\("}

BRACKETS = ("([{", ")]}")
TYPE_BRACKETS = ("([{<", ")]}>")


class Offence(NamedTuple):
    """What is beyond a bound: where, and what there is of it."""

    where: str
    what: str


class Allowed(NamedTuple):
    """An exception: of this count, at this place, for this reason."""

    count: str
    where: str
    why: str


class Function(NamedTuple):
    """A function where it stands; its text goes from `fn` to its closing brace."""

    where: str
    text: str


# Reading


def text_of(path: Path) -> str:
    return path.read_text("utf-8")


def place_of(path: Path, crate: Path) -> str:
    return path.relative_to(crate.parent).as_posix()


def sources(crate: Path) -> list[Path]:
    return sorted(crate.glob("src/**/*.rt"))


def definitions(crate: Path) -> list[Path]:
    return sorted(crate.glob("specs/**/*.antt"))


def proofs(crate: Path) -> list[Path]:
    return sorted(crate.glob("proofs/**/*.antt"))


def crates_of(root: Path) -> list[Path]:
    return sorted(path for path in root.glob("crates/*") if path.is_dir())


def functions(crate: Path) -> Iterator[Function]:
    for path in sources(crate):
        lines = text_of(path).splitlines()
        for start, line in enumerate(lines):
            found = FUNCTION.match(line)
            if found is not None:
                end = closing_line(lines, start, found[1])
                yield Function(f"{crate.name}/{found[2]}", "\n".join(lines[start : end + 1]))


def closing_line(lines: list[str], start: int, indentation: str) -> int:
    """The line of the brace that closes a function: it stands below the function's begin."""
    if lines[start].endswith(("}", ";")):
        return start
    closing = (number for number in range(start, len(lines)) if lines[number] == indentation + "}")
    return next(closing, len(lines) - 1)


def flat_parts(text: str, separator: str, brackets: tuple[str, str]) -> list[str]:
    """What stands between separators, those within brackets left alone.

    It ends with the text, or with the bracket that closes what the text stands in.
    """
    parts, depth = [""], 0
    for character in text:
        depth += (character in brackets[0]) - (character in brackets[1])
        if depth < 0:
            break
        if character == separator and depth == 0:
            parts.append("")
        else:
            parts[-1] += character
    return [part for part in parts if part.strip()]


# The counts


def many_parameters(crate: Path) -> Iterator[Offence]:
    for function in functions(crate):
        behind = function.text[FUNCTION.match(function.text).end() :].replace("->", "")
        count = len(flat_parts(behind, ",", TYPE_BRACKETS))
        if count > MOST_PARAMETERS:
            yield Offence(function.where, f"{count} parameters")


def long_functions(crate: Path) -> Iterator[Offence]:
    for function in functions(crate):
        count = len(function.text.splitlines())
        if count > MOST_LINES:
            yield Offence(function.where, f"{count} lines")


def many_parts(crate: Path) -> Iterator[Offence]:
    for function in functions(crate):
        # Behind its brace; with two of them each has a name ahead of it.
        stated = [clause.partition("{")[2] for clause in REQUIRES.findall(function.text)]
        count = sum(len(flat_parts(part, "×", BRACKETS)) for part in stated)
        if count > MOST_PARTS:
            yield Offence(function.where, f"{count} parts")


def wide_lines(crate: Path) -> Iterator[Offence]:
    for path in sources(crate):
        wide = numbers_of(path, lambda line: len(line) > MOST_CHARACTERS)
        if wide:
            yield Offence(place_of(path, crate), f"at line {wide}")


def steps_back(crate: Path) -> Iterator[Offence]:
    for path in proofs(crate):
        deep = numbers_of(path, is_deep)
        if deep:
            yield Offence(place_of(path, crate), f"at line {deep}")


def is_deep(line: str) -> bool:
    return STEPS_BACK.search(line) is not None and NAMED_PLACE.match(line) is None


def untitled_proofs(crate: Path) -> Iterator[Offence]:
    for path in proofs(crate):
        count = len(text_of(path).splitlines())
        titled = text_of(path).startswith("--")
        if path.name in PROOFS and count > MOST_UNTITLED_LINES and not titled:
            yield Offence(place_of(path, crate), f"{count} lines")


def unused_imports(crate: Path) -> Iterator[Offence]:
    for path in (*sources(crate), *definitions(crate), *proofs(crate)):
        text = text_of(path)
        rest = COMMENT.sub("", IMPORT.sub("", text))
        unused = [name for found in IMPORT.finditer(text) for name in imported(found) if not is_used(name, rest)]
        if unused:
            yield Offence(place_of(path, crate), ", ".join(unused))


def imported(found: re.Match[str]) -> list[str]:
    """The names by which the rest of the file calls what a `use` brings in."""
    last = re.split(r"::|\.", found[1])[-1]
    if found[2] is None:
        return [found[3] or last]
    leaves = [leaf.strip() for leaf in re.split(r"[{},]", found[2])]
    names = [re.split(r" as |::", leaf)[-1] for leaf in leaves if leaf and not leaf.endswith("::")]
    return [last if name == "self" else name for name in names]


def is_used(name: str, text: str) -> bool:
    """An operator's arguments stand between its parts, so only its parts are looked for."""
    if "◌" in name:
        return all(part in text for part in name.split("◌"))
    if re.search(CALLED.get(name, "$^"), text) or name == "_":
        return True
    return re.search(rf"(?<![\w'-]){re.escape(name)}(?![\w'-])", text) is not None


def contradictions(root: Path) -> Iterator[Offence]:
    counts = {
        place_of(path, crate): text_of(path).count(CONTRADICTION)
        for crate in crates_of(root)
        for path in proofs(crate)
    }
    if sum(counts.values()) > 1:
        yield from (Offence(where, f"{count} of them") for where, count in counts.items() if count)


def numbers_of(path: Path, is_meant: Callable[[str], bool]) -> str:
    lines = text_of(path).splitlines()
    return ", ".join(str(number) for number, line in enumerate(lines, start=1) if is_meant(line))


OF_A_CRATE = {
    f"at most {MOST_PARAMETERS} parameters": many_parameters,
    f"a function of at most {MOST_LINES} lines": long_functions,
    f"a line of at most {MOST_CHARACTERS} characters": wide_lines,
    f"at most {MOST_PARTS} parts in a requires": many_parts,
    f"at most {MOST_STEPS_BACK} times .before in a row": steps_back,
    f"a proof over {MOST_UNTITLED_LINES} lines opens with a comment": untitled_proofs,
    "no import that nothing uses": unused_imports,
}
OF_ALL_CRATES = {
    "two numbers that differ contradict each other, said once": contradictions,
}


# The checks


def checks(root: Path, exceptions: Iterable[Allowed]) -> Iterator[Check]:
    """A check for each count and crate, and for each exception that it is needed."""
    allowed = {(exception.count, exception.where) for exception in exceptions}
    met: set[tuple[str, str]] = set()
    for count, name, offences in counted(root):
        met.update((count, offence.where) for offence in offences)
        wrong = [
            f"{offence.where}: {offence.what}"
            for offence in offences
            if (count, offence.where) not in allowed
        ]
        yield Check(name, wrong)
    for count, where in sorted(allowed):
        yield Check(f"exception, {count}", [] if (count, where) in met else [f"{where}: not needed"])


def counted(root: Path) -> Iterator[tuple[str, str, list[Offence]]]:
    """Each count, the name of its check, and what is beyond it."""
    for count, offences_of in OF_A_CRATE.items():
        for crate in crates_of(root):
            yield count, f"{crate.name}, {count}", list(offences_of(crate))
    for count, offences_of in OF_ALL_CRATES.items():
        yield count, count, list(offences_of(root))
