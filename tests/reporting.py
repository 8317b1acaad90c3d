"""How a test tells what it found: the checks that fail with what is wrong, then the totals."""

from __future__ import annotations

from typing import Iterable, NamedTuple


class Check(NamedTuple):
    """A check passes where nothing is wrong."""

    name: str
    wrong: list[str]


def report(checks: Iterable[Check]) -> int:
    """Prints what fails and the totals, and gives the status to end with."""
    passed = failed = 0
    for check in checks:
        if not check.wrong:
            passed += 1
            continue
        failed += 1
        print(f"{check.name}:")
        for line in check.wrong:
            print(f"  {line}")
    print(f"{passed} passed, {failed} failed")
    return 0 if failed == 0 else 1
