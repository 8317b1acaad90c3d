"""Named cases of the lowest stamp: on one channel, on all, in a found cut, by tests 6 and 7."""

from __future__ import annotations

from typing import Iterator, NamedTuple, Sequence

import encode
from execution import HIGHEST, LOWEST, Step
from fixed_runs import longest_answer_run
from marked import marked_wrong_clock, run_of_starts, two_desks
from model import RECEIVE, SEND, Channel, Cut
from named_clauses import stamped_run
from named_order import draft_of, written
from naming import (
    NONE,
    Named,
    OnChannel,
    count_line,
    counted,
    found,
    listed,
    refused_run,
    rows_of,
    searched,
    verdicts,
)

COUNTED = "counted\n"
NO_PLACES = refused_run(15, 0)


def named_stamps() -> Iterator[Named]:
    for series in SERIES:
        yield from asked_of(series)
    yield from tests_at_the_lowest()
    yield from searches_by_the_lowest()
    yield from longest_answer()
    yield from four_channels()
    yield from rows_of_every_length()
    yield from rows_without_channels()
    yield from refused_ahead_of_the_rows()


# The rows as they are lent


def lent_counts(first: int, end: int) -> list[int]:
    return [60_000 + place for place in range(first, end)]


def lent_stamps(first: int, end: int) -> list[int]:
    return [-60_000 - place for place in range(first, end)]


def rows_as_lent(first: str, lent: tuple[int, int]) -> str:
    return rows_of(first, lent_counts(0, lent[0]), lent_stamps(0, lent[1]))


def rows_written(channels: Sequence[OnChannel], lent: tuple[int, int]) -> str:
    """A count for each channel, a stamp for each that isn't empty; all else is as it was lent."""
    counts, stamps = [], []
    for channel, there in enumerate(channels):
        counts.append(0 if there is None else there[0])
        stamps.append(-60_000 - channel if there is None else there[1])
    size = len(channels)
    counts += lent_counts(size, lent[0])
    stamps += lent_stamps(size, lent[1])
    return rows_of(COUNTED, counts, stamps)


# One channel


class Series(NamedTuple):
    """Stamps as they are sent, the messages received, and what is in transit at some cuts."""

    shape: str
    detail: str
    stamps: tuple[int, ...]
    received: tuple[int, ...]
    at: dict[Cut, OnChannel]


NEGATIVE = "lowest stamp, negative stamps"
EQUAL = "lowest stamp, equal stamps"
EXTREME = "lowest stamp, extremes"
NOTHING = "lowest stamp, an empty channel"
INCONSISTENT = "lowest stamp, inconsistent cuts"
TURN = "lowest stamp, neither the first sent nor the last"
RECEIVED = "lowest stamp, a lower one is received"

SERIES = (
    Series(NEGATIVE, "0, then -1", (0, -1), (), {(2, 1): (1, 0), (3, 1): (2, -1)}),
    Series(
        NEGATIVE, "-1, then 0", (-1, 0), (0,),
        {(2, 1): (1, -1), (3, 1): (2, -1), (3, 2): (1, 0)},
    ),
    Series(
        NEGATIVE, "both signs", (3, -2, 7, -9, 4), (3, 0),
        {
            (2, 1): (1, 3), (3, 1): (2, -2), (4, 1): (3, -2), (5, 1): (4, -9), (6, 1): (5, -9),
            (6, 2): (4, -2), (6, 3): (3, -2),
        },
    ),
    Series(NEGATIVE, "no other sign", (-5, -3, -4), (0,), {(4, 1): (3, -5), (4, 2): (2, -4)}),
    Series(
        EQUAL, "all equal", (6, 6, 6), (1, 0, 2),
        {(3, 1): (2, 6), (4, 1): (3, 6), (4, 2): (2, 6), (4, 3): (1, 6), (4, 4): None},
    ),
    Series(EQUAL, "the lowest twice", (-4, 9, -4), (0,), {(4, 1): (3, -4), (4, 2): (2, -4)}),
    Series(EQUAL, "zeros", (0, 0), (0,), {(3, 1): (2, 0), (3, 2): (1, 0)}),
    Series(EXTREME, "the lowest there is", (LOWEST,), (), {(2, 1): (1, LOWEST)}),
    Series(EXTREME, "the highest there is", (HIGHEST,), (), {(2, 1): (1, HIGHEST)}),
    Series(
        EXTREME, "the highest, then the lowest", (HIGHEST, LOWEST), (1,),
        {(2, 1): (1, HIGHEST), (3, 1): (2, LOWEST), (3, 2): (1, HIGHEST)},
    ),
    Series(
        EXTREME, "the lowest, then the highest", (LOWEST, HIGHEST), (0,),
        {(2, 1): (1, LOWEST), (3, 1): (2, LOWEST), (3, 2): (1, HIGHEST)},
    ),
    Series(
        EXTREME, "beside the lowest", (LOWEST + 1, LOWEST), (1,),
        {(3, 1): (2, LOWEST), (3, 2): (1, LOWEST + 1)},
    ),
    Series(
        EXTREME, "beside the highest", (HIGHEST, HIGHEST - 1), (1,),
        {(3, 1): (2, HIGHEST - 1), (3, 2): (1, HIGHEST)},
    ),
    Series(EXTREME, "-1 and the highest", (HIGHEST, -1), (), {(3, 1): (2, -1)}),
    Series(EXTREME, "0 and the lowest", (0, LOWEST), (), {(3, 1): (2, LOWEST)}),
    Series(NOTHING, "nothing sent", (5,), (), {(1, 1): None}),
    Series(NOTHING, "all received", (-5, 3), (1, 0), {(3, 2): (1, -5), (3, 3): None}),
    Series(
        INCONSISTENT, "another is received ahead of its send", (4, -3, 6), (2, 0),
        {
            (1, 2): None, (2, 2): (1, 4), (3, 2): (2, -3),
            (1, 3): None, (2, 3): None, (3, 3): (1, -3),
        },
    ),
    Series(
        INCONSISTENT, "the lowest is received ahead of its send", (4, 6, -3), (2,),
        {(1, 2): None, (2, 2): (1, 4), (3, 2): (2, 4)},
    ),
    Series(
        TURN, "the second of three", (5, 2, 8), (),
        {(2, 1): (1, 5), (3, 1): (2, 2), (4, 1): (3, 2)},
    ),
    Series(
        TURN, "the third of four, negative", (-5, 8, -7, -6), (),
        {(4, 1): (3, -7), (5, 1): (4, -7)},
    ),
    Series(RECEIVED, "the first sent", (-8, 1, 3), (0,), {(4, 1): (3, -8), (4, 2): (2, 1)}),
    Series(RECEIVED, "the second sent", (1, -8, 3), (1,), {(4, 1): (3, -8), (4, 2): (2, 1)}),
    Series(RECEIVED, "the last sent", (3, 1, -8), (2,), {(4, 1): (3, -8), (4, 2): (2, 1)}),
    Series(
        RECEIVED, "one left", (LOWEST, -1, HIGHEST), (0, 1),
        {(4, 2): (2, -1), (4, 3): (1, HIGHEST)},
    ),
)


def asked_of(series: Series) -> Iterator[Named]:
    run = stamped_run(series.stamps, series.received)
    for cut, there in series.at.items():
        detail = f"{series.detail}, {cut}"
        yield counted(series.shape, f"{detail}, one channel", run, cut, 0, count_line(there))
        expected = rows_written([there], (2, 3))
        yield listed(series.shape, f"{detail}, all channels", run, cut, (2, 3), expected)
        # Where nothing is received, this many messages are there for the first time.
        if cut[1] == 1:
            count = 0 if there is None else there[0]
            condition = encode.condition(encode.channel_clause(0, 3, count))
            yield searched(series.shape, f"{detail}, found", run, condition, found(cut, [there]))


# Tests 6 and 7 beside the lowest stamp

# The lowest stamp, and one that is higher by two or more.
LOW_AND_HIGH = (
    (5, 8), (0, 2), (-1, 1), (-2, 0), (-9, -4), (LOWEST, HIGHEST), (HIGHEST - 2, HIGHEST),
)

# In transit at the four cuts: nothing; the higher stamp; both; the higher one. By how much the
# operand is beside the lowest.
BESIDE_CUTS = ((1, 1), (2, 1), (3, 1), (3, 2))
BESIDE_ROWS = {
    6: {-1: "yyyy", 0: "yyyy", 1: "yyny"},
    7: {-1: "nnnn", 0: "nnyn", 1: "nnyn"},
}


def tests_at_the_lowest() -> Iterator[Named]:
    for low, high in LOW_AND_HIGH:
        run = stamped_run((high, low), (1,))
        for test, rows in BESIDE_ROWS.items():
            for difference, row in rows.items():
                # Below the lowest number there is none.
                if low + difference < LOWEST:
                    continue
                condition = encode.condition(encode.channel_clause(0, test, low + difference))
                detail = f"lowest {low}, operand {low + difference}"
                shape = f"test {test} beside the lowest stamp"
                yield from verdicts(shape, detail, run, condition, BESIDE_CUTS, row)


def searches_by_the_lowest() -> Iterator[Named]:
    """The higher stamp is sent, then the lowest, then the higher one; the lowest is received."""
    two = encode.channel_clause(0, 2, 2)
    for low, high in LOW_AND_HIGH:
        run = stamped_run((high, low, high), (1,))
        with_both, with_high = found((3, 1), [(2, low)]), found((4, 2), [(2, high)])
        for test, operand, alone, beside_two in (
            (6, low, found((1, 1), [None]), with_both),
            (6, low + 1, found((1, 1), [None]), with_high),
            (7, low, with_both, with_both),
            (7, low + 1, with_both, with_both),
            (7, low - 1, NONE, NONE),
        ):
            if operand < LOWEST:
                continue
            clause = encode.channel_clause(0, test, operand)
            shape = f"test {test} beside the lowest stamp"
            detail = f"lowest {low}, operand {operand}, searched"
            yield searched(shape, f"{detail} alone", run, encode.condition(clause), alone)
            both = encode.condition(two, clause)
            yield searched(shape, f"{detail} with a count of 2", run, both, beside_two)


def longest_answer() -> Iterator[Named]:
    """Of the processes four have sent 200 messages, and four 110."""
    run, condition = longest_answer_run()
    cut = (201,) * 4 + (111,) * 4
    expected = found(cut, [(100, LOWEST)] * 12 + [(10, LOWEST)] * 4)
    assert len(expected) == 520
    yield searched("the longest answer there can be", "sixteen channels", run, condition, expected)


# All channels


def four_channel_run() -> bytes:
    """Two channels each way, of which one each way stays empty."""
    channels = [Channel(0, 1), Channel(0, 1), Channel(1, 0), Channel(1, 0)]
    first = [Step(SEND, 0, 1, 4), Step(SEND, 0, 2, -7), Step(RECEIVE, 2, 1)]
    second = [Step(SEND, 2, 1, LOWEST), Step(RECEIVE, 0, 2)]
    return written(draft_of(channels, first, second), "1110000")


BOTH_SENT = ((2, -7), None, (1, LOWEST), None)

# At (4,1) and (2,3) a message is received ahead of its send.
FOUR_CHANNELS: dict[Cut, tuple[OnChannel, ...]] = {
    (1, 1): (None, None, None, None),
    (2, 1): ((1, 4), None, None, None),
    (3, 2): BOTH_SENT,
    (4, 1): ((2, -7), None, None, None),
    (2, 3): ((1, 4), None, (1, LOWEST), None),
    (4, 3): ((1, 4), None, None, None),
}


def four_channels() -> Iterator[Named]:
    shape, run = "all channels, some of them empty", four_channel_run()
    for cut, channels in FOUR_CHANNELS.items():
        yield listed(shape, f"all at {cut}", run, cut, (4, 4), rows_written(channels, (4, 4)))
        for channel, there in enumerate(channels):
            detail = f"channel {channel} at {cut}"
            yield counted(shape, detail, run, cut, channel, count_line(there))
    sent = encode.condition(encode.channel_clause(2, 3, 1), encode.channel_clause(0, 3, 2))
    yield searched(shape, "found", run, sent, found((3, 2), BOTH_SENT))


def rows_of_every_length() -> Iterator[Named]:
    run, cut = four_channel_run(), (3, 2)
    for lent in ((4, 4), (4, 5), (5, 4), (6, 9), (4, 24), (24, 4), (24, 24)):
        shape = "all channels, rows that are long enough"
        yield listed(shape, f"{lent} places", run, cut, lent, rows_written(BOTH_SENT, lent))
    for shape, rows in (
        ("all channels, too few places for stamps", ((4, 3), (4, 0), (5, 3), (24, 1))),
        ("all channels, too few places for counts", ((3, 4), (0, 4), (3, 5), (1, 24))),
        ("all channels, too few places for both", ((3, 3), (0, 0), (3, 1), (0, 3))),
    ):
        for lent in rows:
            yield listed(shape, f"{lent} places", run, cut, lent, rows_as_lent(NO_PLACES, lent))
            detail = f"{lent} places, inconsistent cut"
            yield listed(shape, detail, run, (4, 1), lent, rows_as_lent(NO_PLACES, lent))


def rows_without_channels() -> Iterator[Named]:
    shape, run = "all channels of a run without any", run_of_starts(2)
    for lent in ((0, 0), (0, 1), (1, 0), (2, 3), (24, 24)):
        yield listed(shape, f"{lent} places", run, (1, 1), lent, rows_as_lent(COUNTED, lent))


def refused_ahead_of_the_rows() -> Iterator[Named]:
    wrong, run = marked_wrong_clock(), two_desks()
    for lent in ((0, 0), (1, 0), (0, 1), (1, 1), (2, 3)):
        shape = "all channels, the run is refused ahead of the cut and the rows"
        for cut in ((1, 1), (0, 1)):
            expected = rows_as_lent(refused_run(13, 172), lent)
            yield listed(shape, f"{lent} places, {cut}", wrong, cut, lent, expected)
        shape = "all channels, the cut is refused ahead of the rows"
        for cut in ((), (0, 1), (1, 4), (1, 1, 1)):
            expected = rows_as_lent(refused_run(16, 0), lent)
            yield listed(shape, f"{lent} places, {cut}", run, cut, lent, expected)
