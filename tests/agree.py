"""Compares the answers to cases with the expected ones, case by case.

    agree.py CASES EXPECTED ANSWERS

Prints the first case that differs, with both answers, and then how many agree.
Cases count from 1.
"""

from __future__ import annotations

import sys
from itertools import zip_longest
from pathlib import Path
from typing import NamedTuple, Optional

ROOT = Path(__file__).resolve().parent.parent
sys.path[:0] = [str(ROOT / "second"), str(ROOT / "cases")]

from cases import QUESTION_NAMES, decode_cases  # noqa: E402

# The words of lines that go on with the answer that an earlier line began.
GOES_ON = (["state"], ["channel"], ["places"], ["stamps"])


class Agreement(NamedTuple):
    passed: int
    failed: int
    first: Optional[int]


def split_answers(text: str) -> list[str]:
    """One text per case: the search and the question about all channels have more than one line."""
    answers: list[str] = []
    for line in text.splitlines(keepends=True):
        if answers and line.split()[:1] in GOES_ON:
            answers[-1] += line
        else:
            answers.append(line)
    return answers


def agreement(expected: list[str], answers: list[str]) -> Agreement:
    pairs = enumerate(zip_longest(expected, answers), start=1)
    wrong = [number for number, (one, other) in pairs if one != other]
    total = max(len(expected), len(answers))
    return Agreement(total - len(wrong), len(wrong), wrong[0] if wrong else None)


def shortened(answers: list[str], number: int) -> str:
    if number > len(answers):
        return "nothing\n"
    lines = answers[number - 1].splitlines(keepends=True)
    return "".join(line if len(line) < 200 else line[:200] + "..\n" for line in lines)


def main(arguments: list[str]) -> int:
    if len(arguments) != 3:
        print("usage: agree.py CASES EXPECTED ANSWERS", file=sys.stderr)
        return 2
    cases, expected_path, answers_path = map(Path, arguments)
    kinds = [question.kind for question in decode_cases(cases.read_bytes())]
    expected = split_answers(expected_path.read_text("ascii"))
    answers = split_answers(answers_path.read_text("latin-1"))
    if len(kinds) != len(expected):
        print(f"{len(kinds)} cases, but {len(expected)} expected answers")
        print("0 passed, 1 failed")
        return 1
    found = agreement(expected, answers)
    if found.first is not None:
        asked = kinds[found.first - 1] if found.first <= len(kinds) else None
        print(f"first difference: case {found.first}, {QUESTION_NAMES.get(asked, 'past the last')}")
        print("expected:\n" + shortened(expected, found.first), end="")
        print("printed:\n" + shortened(answers, found.first), end="")
    print(f"{found.passed} passed, {found.failed} failed")
    return 0 if found.failed == 0 else 1


if __name__ == "__main__":
    sys.exit(main(sys.argv[1:]))
