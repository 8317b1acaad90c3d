"""Situations of the program: which files are there, how it is called, what it prints.

The answers are those of the paper, and of the second program for the longest run.
"""

from __future__ import annotations

import os
import socket
import subprocess
import sys
from pathlib import Path
from typing import Iterator, NamedTuple

ROOT = Path(__file__).resolve().parent.parent
sys.path[:0] = [str(ROOT / "second"), str(ROOT / "cases")]

import encode  # noqa: E402
from answer import answer_lines  # noqa: E402
from fixed_runs import longest_answer_run, longest_run, run_with_stamps  # noqa: E402
from marked import (  # noqa: E402
    NO_CLAUSE,
    marked_conditions,
    marked_wrong_clock,
    run_of_starts,
    small_condition,
    two_desks,
)

FOUR_LINES = "found\nstate 0 2\nstate 1 1\nchannel 0 1 5\n"
UNREADABLE_RUN, UNREADABLE_CONDITION = "unreadable run\n", "unreadable cond\n"
LONGEST_PATH = 4_096
LONG_FOLDER = "/".join(["a" * 200] * 10)
# Bytes that are no UTF-8, as Python hands them to the system.
NOT_TEXT = "run \udcff"
STAMPS = (-2147483648, -1, 0, 2147483647)


# As grep has it: 0 found, 1 none, 2 where nothing was answered.
STATUSES = {"found": 0, "none": 1}


class Situation(NamedTuple):
    """The words of the command line, the folder it is called in, and what it prints."""

    name: str
    words: tuple[str, ...]
    expected: str
    folder: str = "."

    @property
    def status(self) -> int:
        return STATUSES.get(self.expected.split()[0], 2)

    @property
    def files(self) -> tuple[str, str]:
        """The run's and the condition's name, as the words give them."""
        if len(self.words) == 2:
            return self.words[0], self.words[1]
        folder = f"{self.words[0]}/" if self.words else ""
        return f"{folder}run.rec", f"{folder}cond.rec"


def reasons(top: Path, situation: Situation) -> str:
    """A line for each file that can't be read: its name, and why."""
    return "".join(
        f"{named(name)}: {reason}\n"
        for name in situation.files
        for reason in reason_of(top / situation.folder, name)
    )


def named(name: str) -> str:
    """A name that is longer than a path can be comes to the program as an empty one."""
    return name if len(name) < LONGEST_PATH else ""


def is_text(name: str) -> bool:
    """Whether the name's bytes are UTF-8: the library opens no others."""
    try:
        os.fsencode(name).decode("utf-8")
    except UnicodeDecodeError:
        return False
    return True


def reason_of(folder: Path, name: str) -> list[str]:
    if not is_text(name):
        return ["The name is not UTF-8"]
    try:
        with open(os.path.join(folder, name) if named(name) else "", "rb") as file:
            file.read(1)
    except OSError as error:
        return [os.strerror(error.errno)]
    return []


def write(path: Path, data: bytes) -> None:
    path.parent.mkdir(parents=True, exist_ok=True)
    path.write_bytes(data)


def write_files(top: Path) -> None:
    three = marked_conditions()[1]
    for name in ("run", "with spaces/a run", f"{LONG_FOLDER}/run"):
        write(top / name, two_desks())
    for name in ("cond", "with spaces/a cond", f"{LONG_FOLDER}/cond"):
        write(top / name, three)
    for folder in ("example", "only run", "folder in place of cond"):
        write(top / folder / "run.rec", two_desks())
    for folder in ("example", "only cond", "folder in place of run"):
        write(top / folder / "cond.rec", three)
    for folder in ("neither", "folder in place of run/run.rec", "folder in place of cond/cond.rec"):
        (top / folder).mkdir()
    write(top / NOT_TEXT, two_desks())
    write(top / "wrong clock", marked_wrong_clock())
    write(top / "empty", b"")
    for size in (65_535, 65_536, 200_000):
        write(top / f"run of {size}", two_desks().ljust(size, b"\0"))
        write(top / f"cond of {size}", small_condition().ljust(size, b"\0"))
    write(top / "longest run", longest_run())
    write(top / "longest cond", encode.condition(encode.channel_clause(1, 2, 3)))
    ring = [encode.channel(number, number % 8, (number + 1) % 8) for number in range(16)]
    write(top / "eight", run_of_starts(8, ring))
    write(top / "alone", run_of_starts(1))
    for stamp in STAMPS:
        write(top / f"stamp {stamp}", run_with_stamps((stamp,), ()))
    for name, data in zip(("many stamps run", "many stamps cond"), longest_answer_run()):
        write(top / name, data)
    write(top / "no clause", NO_CLAUSE)
    for number, condition in enumerate(marked_conditions(), 2):
        write(top / f"marked {number}", condition)


# Where the files are


def named_files() -> Iterator[Situation]:
    yield Situation("no word", (), FOUR_LINES, "example")
    yield Situation("a folder", ("example",), FOUR_LINES)
    yield Situation("a folder with a stroke after it", ("example/",), FOUR_LINES)
    yield Situation("two files", ("run", "cond"), FOUR_LINES)
    yield Situation("two files, beside two others", ("../run", "../marked 6"), "none\n", "example")
    yield Situation("names with spaces", ("with spaces/a run", "with spaces/a cond"), FOUR_LINES)
    yield Situation("the two files exchanged", ("cond", "run"), "refused run 4 0\n")
    long_names = (f"{LONG_FOLDER}/run", f"{LONG_FOLDER}/cond")
    yield Situation("a path of 2,000 characters", long_names, FOUR_LINES)
    yield Situation("a path too long", ("run", "a" * 5_000), UNREADABLE_CONDITION)
    yield Situation("an empty name", ("", "cond"), UNREADABLE_RUN)


# Files that can't be read: both are read ahead of any judging, the run first


def unreadable_files() -> Iterator[Situation]:
    for name, words, expected in (
        ("the run missing", ("missing", "cond"), UNREADABLE_RUN),
        ("the condition missing", ("run", "missing"), UNREADABLE_CONDITION),
        ("both missing", ("missing", "missing"), UNREADABLE_RUN),
        ("the run missing, the condition refused", ("missing", "empty"), UNREADABLE_RUN),
        ("the run refused, the condition missing", ("wrong clock", "missing"), UNREADABLE_CONDITION),
        ("the run empty, the condition missing", ("empty", "missing"), UNREADABLE_CONDITION),
        ("the run too long, the condition missing", ("run of 200000", "missing"), UNREADABLE_CONDITION),
        ("a folder as the run", ("example", "cond"), UNREADABLE_RUN),
        ("a folder as the condition", ("run", "example"), UNREADABLE_CONDITION),
        ("folders as both", ("example", "example"), UNREADABLE_RUN),
        ("a folder as the run, the condition missing", ("example", "missing"), UNREADABLE_RUN),
        ("the run missing, a folder as the condition", ("missing", "example"), UNREADABLE_RUN),
        ("the run refused, a folder as the condition", ("empty", "example"), UNREADABLE_CONDITION),
        ("a file as a folder of the run", ("cond/run", "cond"), UNREADABLE_RUN),
        ("a run whose name isn't UTF-8", (NOT_TEXT, "cond"), UNREADABLE_RUN),
        ("a condition whose name isn't UTF-8", ("run", NOT_TEXT), UNREADABLE_CONDITION),
    ):
        yield Situation(name, words, expected)
    for folder, expected in (
        ("only cond", UNREADABLE_RUN),
        ("only run", UNREADABLE_CONDITION),
        ("neither", UNREADABLE_RUN),
        ("folder in place of run", UNREADABLE_RUN),
        ("folder in place of cond", UNREADABLE_CONDITION),
    ):
        yield Situation(f"no word, {folder}", (), expected, folder)
        yield Situation(f"a folder, {folder}", (folder,), expected)


# Lengths


def lengths() -> Iterator[Situation]:
    for name, words, expected in (
        ("an empty run", ("empty", "cond"), "refused run 2 0\n"),
        ("an empty condition", ("run", "empty"), "refused cond 2 0\n"),
        ("both empty", ("empty", "empty"), "refused run 2 0\n"),
        ("a run of 65,535 bytes", ("run of 65535", "cond"), "refused run 4 252\n"),
        ("a run of 65,536 bytes", ("run of 65536", "cond"), "refused run 1 0\n"),
        ("a run of 200,000 bytes", ("run of 200000", "cond"), "refused run 1 0\n"),
        ("a condition of 65,535 bytes", ("run", "cond of 65535"), "refused cond 4 36\n"),
        ("a condition of 65,536 bytes", ("run", "cond of 65536"), "refused cond 1 0\n"),
        ("a condition of 200,000 bytes", ("run", "cond of 200000"), "refused cond 1 0\n"),
        ("both of 200,000 bytes", ("run of 200000", "cond of 200000"), "refused run 1 0\n"),
        ("a wrong clock beside a condition too long", ("wrong clock", "cond of 65536"),
         "refused run 13 172\n"),
        ("an empty run beside a condition too long", ("empty", "cond of 200000"), "refused run 2 0\n"),
    ):
        yield Situation(name, words, expected)


# What is printed


def printed(top: Path) -> Iterator[Situation]:
    yield Situation("marked case 3", ("run", "marked 3"), FOUR_LINES)
    for number, cut in ((2, (1, 1)), (4, (2, 2)), (5, (2, 3)), (7, (1, 1))):
        text = f"found\nstate 0 {cut[0]}\nstate 1 {cut[1]}\nchannel 0 0 -\n"
        yield Situation(f"marked case {number}", ("run", f"marked {number}"), text)
    for number in (6, 8):
        yield Situation(f"marked case {number}", ("run", f"marked {number}"), "none\n")
    yield Situation("marked case 10", ("wrong clock", "cond"), "refused run 13 172\n")
    states = "".join(f"state {process} 1\n" for process in range(8))
    channels = "".join(f"channel {number} 0 -\n" for number in range(16))
    yield Situation("eight processes", ("eight", "no clause"), "found\n" + states + channels)
    yield Situation("one process, no channel", ("alone", "no clause"), "found\nstate 0 1\n")
    lines = answer_lines(str(top / "longest run"), str(top / "longest cond"))
    text = "".join(line + "\n" for line in lines)
    yield Situation("the longest run there can be", ("longest run", "longest cond"), text)
    yield from printed_stamps()


def printed_stamps() -> Iterator[Situation]:
    for stamp in STAMPS:
        text = f"found\nstate 0 2\nstate 1 1\nchannel 0 1 {stamp}\n"
        yield Situation(f"a lowest stamp of {stamp}", (f"stamp {stamp}", "marked 3"), text)
    states = [f"state {process} {201 if process < 4 else 111}" for process in range(8)]
    channels = [f"channel {number} {100 if number < 12 else 10} -2147483648" for number in range(16)]
    text = "".join(line + "\n" for line in ["found", *states, *channels])
    words = ("many stamps run", "many stamps cond")
    yield Situation("the longest answer there can be", words, text)


def all_situations(top: Path) -> list[Situation]:
    """All of them, once the files are written."""
    return [*named_files(), *unreadable_files(), *lengths(), *printed(top)]


class Ended(NamedTuple):
    """How a command ended: each of its writes to standard output, and what else it left."""

    writes: list[bytes]
    errors: bytes
    status: int


def called(command: list[str], top: Path, situation: Situation) -> Ended:
    """How the command ends in this situation, and what it prints."""
    # Such a socket hands on each write as a piece of its own; a pipe joins them.
    ours, theirs = socket.socketpair(socket.AF_UNIX, socket.SOCK_SEQPACKET)
    with ours, theirs:
        words = [*command, *situation.words]
        folder = top / situation.folder
        done = subprocess.run(words, cwd=folder, stdout=theirs, stderr=subprocess.PIPE)
        theirs.close()
        writes = list(iter(lambda: ours.recv(65_536), b""))
    return Ended(writes, done.stderr, done.returncode)


def is_answer(done: Ended, top: Path, situation: Situation) -> bool:
    """The answer is there in one write, so that no reader sees half of it."""
    said = os.fsencode(reasons(top, situation))
    return done == Ended([situation.expected.encode()], said, situation.status)
