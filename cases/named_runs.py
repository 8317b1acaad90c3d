"""Named cases of sound runs of every shape, and of runs at and past the limits."""

from __future__ import annotations

from typing import Iterator

import encode
from execution import HIGHEST, LOWEST, Step
from fixed_runs import lone_process, longest_run, too_long_run
from marked import NO_CLAUSE, run_of_starts, starts, two_desks
from model import INTERNAL, RECEIVE, SEND, Channel
from named_order import draft_of, written
from naming import (
    EMPTY,
    NONE,
    Named,
    consistency,
    count_line,
    counted,
    found,
    refused_run,
    searched,
)
from reading import LONGEST_FILE, MOST_STATES


def named_runs() -> Iterator[Named]:
    yield from several_channels()
    yield from overtaking()
    yield from extreme_fields()
    yield from counts_of_processes()
    yield from counts_of_channels()
    yield from counts_of_states()
    yield from lengths_of_files()


# Sound runs


def several_channels() -> Iterator[Named]:
    """Two channels from 0 to 1 and two back, with the same message number on all."""
    shape = "several channels between two processes"
    channels = [Channel(0, 1), Channel(0, 1), Channel(1, 0), Channel(1, 0)]
    first = [Step(SEND, 0, 1, 10), Step(SEND, 1, 1, 11), Step(RECEIVE, 2, 1), Step(RECEIVE, 3, 1)]
    second = [Step(SEND, 2, 1, 12), Step(RECEIVE, 1, 1), Step(SEND, 3, 1, 13), Step(RECEIVE, 0, 1)]
    draft = draft_of(channels, first, second)
    at_cuts = {
        (3, 2): ((1, 10), (1, 11), (1, 12), None),
        (3, 4): ((1, 10), None, (1, 12), (1, 13)),
        (4, 4): ((1, 10), None, None, (1, 13)),
        (5, 5): (None, None, None, None),
    }
    for order in ("0000011111", "1111100000", "0101010101"):
        run = written(draft, order)
        for cut, row in at_cuts.items():
            for channel, there in enumerate(row):
                detail = f"file order {order}, cut {cut}, channel {channel}"
                yield counted(shape, detail, run, cut, channel, count_line(there))
        all_four = encode.condition(encode.channel_clause(0, 3, 1), encode.channel_clause(3, 3, 1))
        detail = f"file order {order}, one on channel 0 and one on channel 3"
        yield searched(shape, detail, run, all_four, found((3, 4), at_cuts[3, 4]))


def overtaking() -> Iterator[Named]:
    shape = "messages that overtake each other"
    sends = [Step(SEND, 0, number, stamp) for number, stamp in ((9, 1), (8, 2), (7, 3))]
    receives = [Step(RECEIVE, 0, number) for number in (7, 9, 8)]
    run = written(draft_of([Channel(0, 1)], sends, receives), "11110000")
    for cut, letter in (((4, 2), "y"), ((3, 2), "n"), ((4, 3), "y"), ((2, 1), "y")):
        word = {"y": "yes\n", "n": "no\n"}[letter]
        yield consistency(shape, f"consistent {cut}", run, cut, word)
    # At (3,2) the receive of 7 is in and its send is not: sends less receives is no count.
    for cut, there in (
        ((3, 2), (2, 1)), ((4, 2), (2, 1)), ((2, 2), (1, 1)), ((1, 4), None), ((4, 4), None)
    ):
        yield counted(shape, f"messages {cut}", run, cut, 0, count_line(there))
    all_three, first_two = found((4, 1), [(3, 1)]), found((3, 1), [(2, 1)])
    for x, expected in ((3, all_three), (2, first_two), (4, NONE)):
        condition = encode.condition(encode.channel_clause(0, 4, x))
        yield searched(shape, f"stamp {x}", run, condition, expected)


def extreme_fields() -> Iterator[Named]:
    for number in (0, 1, 2**16, 2**31 - 1, 2**31, 2**32 - 1):
        yield from carried(f"message number {number}", number, 5)
    for stamp in (LOWEST, LOWEST + 1, -1, 0, 1, HIGHEST - 1, HIGHEST):
        yield from carried(f"stamp {stamp}", 7, stamp)
    yield from carried("a send of zeros", 0, 0)
    shape = "extremes of a value"
    for value in range(4):
        for extreme in (LOWEST, -1, HIGHEST):
            values = tuple(extreme if each == value else 0 for each in range(4))
            draft = draft_of([], [Step(INTERNAL, values=values)], [])
            condition = encode.condition(encode.local_clause(0, value, 1, extreme))
            detail = f"value {value} is {extreme}"
            yield searched(shape, detail, written(draft, "001"), condition, found((2, 1)))
    shape = "the last process and the last channel"
    channels = [Channel(0, 1)] * 15 + [Channel(7, 6)]
    histories: list[list[Step]] = [[] for _ in range(8)]
    histories[7] = [Step(SEND, 15, 2**32 - 1, LOWEST)]
    histories[6] = [Step(RECEIVE, 15, 2**32 - 1)]
    run = written(draft_of(channels, *histories), "0123456677")
    sent = encode.condition(encode.channel_clause(15, 7, LOWEST))
    expected = found((1, 1, 1, 1, 1, 1, 1, 2), [None] * 15 + [(1, LOWEST)])
    yield searched(shape, "eight and sixteen", run, sent, expected)


def carried(detail: str, number: int, stamp: int) -> Iterator[Named]:
    """One message, sent and received, with this number and this stamp."""
    shape = "extremes of a message"
    sends, receives = [Step(SEND, 0, number, stamp)], [Step(RECEIVE, 0, number)]
    run = written(draft_of([Channel(0, 1)], sends, receives), "1100")
    sent = encode.condition(encode.channel_clause(0, 4, stamp))
    yield searched(shape, f"{detail}, sent", run, sent, found((2, 1), [(1, stamp)]))
    yield counted(shape, f"{detail}, received", run, (2, 2), 0, EMPTY)
    yield consistency(shape, f"{detail}, received ahead", run, (1, 2), "no\n")


# Limits


def counts_of_processes() -> Iterator[Named]:
    for count in (0, 9, 256, 65_535):
        body = b"".join(starts(min(count, 9))) + encode.end()
        run = encode.run_head(count, 0) + body
        yield searched(f"N of {count}", "refused", run, NO_CLAUSE, refused_run(5, 0))
    for count in range(1, 9):
        run, everywhere = run_of_starts(count), found((1,) * count)
        yield searched(f"N of {count}", "found", run, NO_CLAUSE, everywhere)


def counts_of_channels() -> Iterator[Named]:
    for count in (0, 1, 15, 16, 17, 18, 65_535):
        channels = [
            encode.channel(number, number % 2, 1 - number % 2)
            for number in range(min(count, 18))
        ]
        head = encode.run_head(2, count)
        run = b"".join([head, *channels, *starts(2), encode.end()])
        expected = found((1, 1), [None] * count) if count <= 16 else refused_run(5, 0)
        yield searched(f"C of {count}", "as many channels", run, NO_CLAUSE, expected)


def counts_of_states() -> Iterator[Named]:
    last = encode.condition(encode.local_clause(0, 0, 1, MOST_STATES))
    run = lone_process(MOST_STATES)
    yield searched("512 states with N = 1", "found", run, last, found((512,)), lent=1)
    run, expected = lone_process(MOST_STATES + 1), refused_run(5, 10 + 36 * 512)
    yield searched("513 states with N = 1", "refused", run, NO_CLAUSE, expected, lent=1)


def lengths_of_files() -> Iterator[Named]:
    condition = encode.condition(encode.channel_clause(1, 2, 3))
    longest = longest_run()
    yield searched(
        "run of 65,535 bytes", "a sound run and one byte", longest + b"\x04", condition,
        refused_run(4, LONGEST_FILE - 1),
    )
    yield searched(
        "run of 65,536 bytes, refusal 1", "a sound run and two bytes",
        longest + b"\x04\x00", condition, refused_run(1, 0),
    )
    yield searched(
        "run of 65,536 bytes, refusal 1", "well formed", too_long_run(), condition,
        refused_run(1, 0),
    )
    filled = two_desks().ljust(LONGEST_FILE, b"\x00")
    shape, expected = "run of 65,535 bytes", refused_run(4, 252)
    yield searched(shape, "zeros after the end", filled, NO_CLAUSE, expected)
