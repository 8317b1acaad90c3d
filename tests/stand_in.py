"""A stand-in for the program, made of the second program, with one mistake or none.

    stand_in.py MISTAKE [FOLDER | RUN COND]

It shows that the tests of the program fail where a program is wrong.
"""

from __future__ import annotations

import os
import sys
from pathlib import Path
from typing import Optional

ROOT = Path(__file__).resolve().parent.parent
sys.path[:0] = [str(ROOT / "second"), str(ROOT / "cases")]

from answer import found_lines, read_file, refused_line  # noqa: E402
from questions import search  # noqa: E402
from reading import CONDITION, LONGEST_FILE, MOST_PROCESSES, RUN, Refusal  # noqa: E402
from situations import is_text  # noqa: E402

# Each mistake with a situation in which it shows.
MISTAKES = {
    "the run judged ahead of reading the condition": "the run refused, the condition missing",
    "the condition read first": "both missing",
    "a folder taken for an empty file": "a folder as the run",
    "a long file cut to 65,535 bytes": "a run of 65,536 bytes",
    "a long file unreadable": "a condition of 200,000 bytes",
    "the words not looked at": "two files",
    "the folder not looked at": "a folder",
    "no line end after the last line": "marked case 6",
    "the counts left out": "no word",
    "the lowest stamps left out": "no word",
    "0 as the lowest stamp of an empty channel": "marked case 2",
    "an unsigned lowest stamp": "a lowest stamp of -1",
    "no answer of more than 512 bytes": "the longest answer there can be",
    "the answer on standard error": "marked case 10",
    "status 0 for none": "marked case 6",
    "status 1 for a refusal": "marked case 10",
    "status 0 for a file that can't be read": "the run missing",
    "no reason why a file can't be read": "the condition missing",
    "a reason for the run alone": "both missing",
    "a name that isn't UTF-8 looked up": "a run whose name isn't UTF-8",
    "a write for each line": "two files",
}


def paths_of(mistake: str, words: list[str]) -> tuple[str, str]:
    if len(words) == 2 and mistake != "the words not looked at":
        return words[0], words[1]
    folder = words[0] if len(words) == 1 and mistake != "the folder not looked at" else "."
    return os.path.join(folder, "run.rec"), os.path.join(folder, "cond.rec")


def read_by(mistake: str, path: str) -> Optional[bytes]:
    if mistake != "a name that isn't UTF-8 looked up" and not is_text(path):
        return None
    data = read_file(path)
    if mistake == "a folder taken for an empty file" and os.path.isdir(path):
        return b""
    if data is None or len(data) <= LONGEST_FILE:
        return data
    if mistake == "a long file unreadable":
        return None
    return data[:LONGEST_FILE] if mistake == "a long file cut to 65,535 bytes" else data


def tell_reasons(mistake: str, paths: tuple[str, str]) -> None:
    """A line on standard error for each file that can't be read."""
    for path in paths[: 1 if mistake == "a reason for the run alone" else 2]:
        name = path.removeprefix("./") if len(path) < 4_096 else ""
        if mistake != "a name that isn't UTF-8 looked up" and not is_text(name):
            sys.stderr.buffer.write(os.fsencode(f"{name}: The name is not UTF-8\n"))
            continue
        try:
            with open(name, "rb") as file:
                file.read(1)
        except OSError as error:
            if mistake != "no reason why a file can't be read":
                print(f"{name}: {os.strerror(error.errno)}", file=sys.stderr)


def status_of(mistake: str, first: str) -> int:
    if first == "none":
        return 0 if mistake == "status 0 for none" else 1
    if first.startswith("refused") and mistake == "status 1 for a refusal":
        return 1
    if first.startswith("unreadable") and mistake == "status 0 for a file that can't be read":
        return 0
    return 0 if first == "found" else 2


def judged(run: bytes, condition: bytes) -> list[str]:
    try:
        return found_lines(search(run, condition, MOST_PROCESSES))
    except Refusal as refusal:
        return [refused_line(refusal)]


def lines_of(mistake: str, run_path: str, condition_path: str) -> list[str]:
    run, condition = read_by(mistake, run_path), read_by(mistake, condition_path)
    unreadable = [
        f"unreadable {file}"
        for file, data in ((RUN, run), (CONDITION, condition))
        if data is None
    ]
    if mistake == "the condition read first":
        unreadable.reverse()
    if mistake == "the run judged ahead of reading the condition" and run is not None:
        alone = judged(run, b"")
        if alone[0].startswith("refused run"):
            return alone
    return unreadable[:1] or judged(run or b"", condition or b"")


def channel_line(mistake: str, line: str) -> str:
    front, lowest = line.rsplit(" ", 1)
    if mistake == "the lowest stamps left out":
        return front
    if mistake == "0 as the lowest stamp of an empty channel" and lowest == "-":
        return f"{front} 0"
    if mistake == "an unsigned lowest stamp" and lowest != "-":
        return f"{front} {int(lowest) % 2**32}"
    return line


def text_of(mistake: str, lines: list[str]) -> str:
    channels = [line for line in lines if line.startswith("channel")]
    others = lines[: len(lines) - len(channels)]
    if mistake == "the counts left out":
        channels = []
    lines = others + [channel_line(mistake, line) for line in channels]
    text = "".join(line + "\n" for line in lines)
    if mistake == "no line end after the last line":
        return text[:-1]
    if mistake == "no answer of more than 512 bytes" and len(text) > 512:
        return ""
    return text


def main(arguments: list[str]) -> int:
    mistake, *words = arguments
    if len(words) > 2:
        print("usage: stand_in.py MISTAKE [FOLDER | RUN COND]", file=sys.stderr)
        return 2
    paths = paths_of(mistake, words)
    tell_reasons(mistake, paths)
    lines = lines_of(mistake, *paths)
    status = status_of(mistake, lines[0])
    text = text_of(mistake, lines)
    stream = sys.stderr if mistake == "the answer on standard error" else sys.stdout
    pieces = text.splitlines(keepends=True) if mistake == "a write for each line" else [text]
    for piece in pieces:
        stream.write(piece)
        stream.flush()
    return status


if __name__ == "__main__":
    sys.exit(main(sys.argv[1:]))
