"""Named cases of cuts, channels and places that a caller gives."""

from __future__ import annotations

from typing import Iterator

import encode
from execution import Step
from marked import (
    NO_CLAUSE,
    marked_conditions,
    marked_wrong_clock,
    run_of_starts,
    small_condition,
    two_desks,
    two_desks_cuts,
)
from model import INTERNAL
from named_order import draft_of, written
from naming import (
    EMPTY,
    VERDICTS,
    Named,
    consistency,
    count_line,
    counted,
    found,
    refused_condition,
    refused_run,
    satisfied,
    searched,
    verdicts,
)

NOT_A_CUT = refused_run(16, 0)
NOT_A_CHANNEL = refused_run(17, 0)
NO_PLACES = refused_run(15, 0)


def named_cuts() -> Iterator[Named]:
    yield from nine_cuts()
    yield from wrong_cuts()
    yield from wrong_channels()
    yield from short_of_places()
    yield from orders_of_both_files()


def nine_cuts() -> Iterator[Named]:
    """The cuts run from (1,1), (1,2), (1,3) to (3,3)."""
    cuts, run = two_desks_cuts(), two_desks()
    for cut, letter in zip(cuts, "ynnyyyyyy"):
        expected = VERDICTS[letter]
        yield consistency("the nine cuts, consistent", str(cut), run, cut, expected)
    for cut in cuts:
        # Message 7, stamp 5, is sent into state 2 of process 0 and received into state 2 of 1.
        there = (1, 5) if cut in ((2, 1), (3, 1)) else None
        shape = "the nine cuts, messages on the channel"
        yield counted(shape, str(cut), run, cut, 0, count_line(there))
    yield counted("empty at (1,2)", "marked case 9", run, (1, 2), 0, EMPTY)
    rows = (
        "ynnyyyyyy", "nnnynnynn", "nnnnyynyy", "nnnnnynny",
        "nnnnnnnnn", "ynnnyynyy", "nnnnnnnnn",
    )
    shape = "the nine cuts, satisfying"
    for number, (condition, row) in enumerate(zip(marked_conditions(), rows), 2):
        yield from verdicts(shape, f"marked case {number}", run, condition, cuts, row)


def uneven_run() -> bytes:
    """Three processes with one, two and three states."""
    silent = Step(INTERNAL)
    return written(draft_of([], [], [silent], [silent, silent]), "012122")


def wrong_cuts() -> Iterator[Named]:
    yield from wrong_cuts_of("two desks", two_desks(), (3, 3))
    yield from wrong_cuts_of("uneven", uneven_run(), (1, 2, 3))


def wrong_cuts_of(name: str, run: bytes, lasts: tuple[int, ...]) -> Iterator[Named]:
    ones = (1,) * len(lasts)
    shapes = [
        ("a cut too short", ()),
        ("a cut too short", ones[:-1]),
        ("a cut too long", ones + (1,)),
        ("a cut too long", ones + (0,)),
        ("a cut too long", (1,) * 24),
    ]
    for process, last in enumerate(lasts):
        for shape, number in (
            ("a cut with a 0", 0),
            ("a cut with a number one past the history", last + 1),
            ("a cut with a number far past the history", 65_535),
        ):
            shapes.append((shape, ones[:process] + (number,) + ones[process + 1 :]))
    for shape, cut in shapes:
        detail = f"{name} {cut}"
        yield consistency(shape, f"{detail}, consistent", run, cut, NOT_A_CUT)
        yield satisfied(shape, f"{detail}, satisfying", run, NO_CLAUSE, cut, NOT_A_CUT)
        if name == "two desks":
            yield counted(shape, f"{detail}, messages", run, cut, 0, NOT_A_CUT)
    yield consistency("a cut of last states", name, run, lasts, VERDICTS["y"])


def wrong_channels() -> Iterator[Named]:
    run, without = two_desks(), run_of_starts(2)
    for channel in (1, 2, 16, 65_535):
        shape = "a channel that isn't there"
        yield counted(shape, f"channel {channel}", run, (1, 1), channel, NOT_A_CHANNEL)
        detail = f"channel {channel}, inconsistent cut"
        yield counted(shape, detail, run, (1, 2), channel, NOT_A_CHANNEL)
        for cut in ((), (0, 1), (1, 4), (1, 1, 1)):
            shape = "a wrong cut and a channel that isn't there"
            yield counted(shape, f"{cut}, channel {channel}", run, cut, channel, NOT_A_CUT)
    yield counted("a channel that isn't there", "no channel", without, (1, 1), 0, NOT_A_CHANNEL)


def short_of_places() -> Iterator[Named]:
    run = two_desks()
    for lent in (0, 1):
        for number, condition in enumerate(marked_conditions(), 2):
            shape = "fewer places than processes"
            if number in (6, 8):
                shape = "fewer places than processes, where there is no cut"
            detail = f"{lent} places, condition of marked case {number}"
            yield searched(shape, detail, run, condition, NO_PLACES, lent)
    yield searched("as many places as processes", "two", run, NO_CLAUSE, found((1, 1), [None]), 2)
    eight = run_of_starts(8)
    yield searched("as many places as processes", "eight", eight, NO_CLAUSE, found((1,) * 8), 8)
    yield searched("fewer places than processes", "seven of eight", eight, NO_CLAUSE, NO_PLACES, 7)


def orders_of_both_files() -> Iterator[Named]:
    wrong, run = marked_wrong_clock(), two_desks()
    run_at_fault = refused_run(13, 172)
    bad_conditions = {
        "empty": (b"", refused_condition(2, 0)),
        "not linear": (
            encode.condition(encode.channel_clause(0, 9, 0)), refused_condition(14, 6)
        ),
        "byte after the end": (NO_CLAUSE + b"\x00", refused_condition(4, 10)),
    }
    for name, (condition, expected) in bad_conditions.items():
        shape = "the run is refused ahead of the condition"
        yield searched(shape, name, wrong, condition, run_at_fault)
        yield satisfied(shape, f"{name}, satisfying", wrong, condition, (1, 1), run_at_fault)
        shape = "the condition is refused ahead of the places"
        for lent in (0, 1):
            yield searched(shape, f"{name}, {lent} places", run, condition, expected, lent)
        shape = "the condition is refused ahead of the cut"
        for cut in ((), (0, 1), (1, 4)):
            yield satisfied(shape, f"{name}, {cut}", run, condition, cut, expected)
    shape = "the run is refused ahead of the cut and the channel"
    for cut in ((1, 1), (), (0, 1), (1, 4)):
        yield consistency(shape, f"consistent {cut}", wrong, cut, run_at_fault)
        yield satisfied(shape, f"satisfying {cut}", wrong, small_condition(), cut, run_at_fault)
        for channel in (0, 1):
            detail = f"messages {cut}, channel {channel}"
            yield counted(shape, detail, wrong, cut, channel, run_at_fault)
    shape = "the run is refused ahead of the places"
    yield searched(shape, "no place", wrong, NO_CLAUSE, run_at_fault, 0)
