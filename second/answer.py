"""Prints the answer of the search for a run file and a condition file."""

from __future__ import annotations

import sys
from typing import Optional

from questions import Found, search
from reading import CONDITION, MOST_PROCESSES, RUN, Refusal


def found_lines(found: Optional[Found]) -> list[str]:
    if found is None:
        return ["none"]
    lines = ["found"]
    for process, number in enumerate(found.cut):
        lines.append(f"state {process} {number}")
    for channel, (count, lowest) in enumerate(found.channels):
        lines.append(f"channel {channel} {count} {'-' if lowest is None else lowest}")
    return lines


def refused_line(refusal: Refusal) -> str:
    return f"refused {refusal.file} {refusal.number} {refusal.place}"


def read_file(path: str) -> Optional[bytes]:
    try:
        with open(path, "rb") as file:
            return file.read()
    except OSError:
        return None


def answer_lines(run_path: str, condition_path: str) -> list[str]:
    # Both files are read ahead of any judging: a broken run beside a missing
    # condition is told as unreadable.
    run = read_file(run_path)
    condition = read_file(condition_path)
    if run is None:
        return [f"unreadable {RUN}"]
    if condition is None:
        return [f"unreadable {CONDITION}"]
    try:
        return found_lines(search(run, condition, MOST_PROCESSES))
    except Refusal as refusal:
        return [refused_line(refusal)]


def main(arguments: list[str]) -> int:
    if len(arguments) != 2:
        print("usage: answer.py RUN COND", file=sys.stderr)
        return 2
    for line in answer_lines(*arguments):
        sys.stdout.write(line + "\n")
    return 0


if __name__ == "__main__":
    sys.exit(main(sys.argv[1:]))
