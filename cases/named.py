"""The cases that have a name: what was asked for, shape by shape.

    named.py

Prints each shape with the number of its cases.
"""

from __future__ import annotations

import sys
from collections import Counter
from pathlib import Path
from typing import Iterator

ROOT = Path(__file__).resolve().parent.parent
sys.path[:0] = [str(ROOT / "second"), str(ROOT / "cases")]

from named_clauses import named_clauses  # noqa: E402
from named_conditions import named_conditions  # noqa: E402
from named_cuts import named_cuts  # noqa: E402
from named_faults import named_faults  # noqa: E402
from named_moves import named_moves  # noqa: E402
from named_order import named_order  # noqa: E402
from named_pairs import named_pairs  # noqa: E402
from named_runs import named_runs  # noqa: E402
from named_stamps import named_stamps  # noqa: E402
from naming import Named  # noqa: E402


def named_cases() -> Iterator[Named]:
    for group in (
        named_order,
        named_clauses,
        named_conditions,
        named_cuts,
        named_moves,
        named_stamps,
        named_runs,
        named_faults,
        named_pairs,
    ):
        yield from group()


def main() -> int:
    counts = Counter(case.shape for case in named_cases())
    for shape, count in counts.items():
        print(f"{count:4} {shape}")
    print(f"{sum(counts.values())} cases of {len(counts)} shapes")
    return 0


if __name__ == "__main__":
    sys.exit(main())
