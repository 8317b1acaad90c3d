"""The same cases with each search asked in two calls: one for the cut, and one for its channels.

    apart.py INPUT OUTPUT
"""

from __future__ import annotations

import sys
from pathlib import Path

ROOT = Path(__file__).resolve().parent.parent
sys.path[:0] = [str(ROOT / "second"), str(ROOT / "cases")]

from cases import decode_cases, encode_case  # noqa: E402
from questions import SEARCH, Question  # noqa: E402

SEARCH_APART = 6


def apart(question: Question) -> Question:
    return question._replace(kind=SEARCH_APART) if question.kind == SEARCH else question


def main(arguments: list[str]) -> int:
    if len(arguments) != 2:
        print("usage: apart.py INPUT OUTPUT", file=sys.stderr)
        return 2
    questions = decode_cases(Path(arguments[0]).read_bytes())
    Path(arguments[1]).write_bytes(b"".join(encode_case(apart(one)) for one in questions))
    return 0


if __name__ == "__main__":
    sys.exit(main(sys.argv[1:]))
