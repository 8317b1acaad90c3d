"""Named cases of the counts that a search keeps while processes move.

A local clause takes one process ahead, so that the search comes to one end of a
message long before the other; then a channel clause asks for the count.
"""

from __future__ import annotations

from typing import Iterator, Sequence

import encode
from execution import Step
from model import AT_LEAST, RECEIVE, SEND, Channel
from named_order import draft_of, written
from naming import NONE, Named, OnChannel, found, searched


def named_moves() -> Iterator[Named]:
    yield from receives_ahead()
    yield from sends_ahead()
    yield from overtaking()
    yield from two_channels()


def numbered(steps: Sequence[Step]) -> list[Step]:
    """Value 0 of each state is its number."""
    return [step._replace(values=(number, 0, 0, 0)) for number, step in enumerate(steps, 2)]


def ahead(process: int, number: int) -> bytes:
    return encode.local_clause(process, 0, AT_LEAST, number)


# One channel from process 0, which sends three messages, to process 1


def sent_and_received(received: Sequence[int]) -> bytes:
    sends = [Step(SEND, 0, number, 10 * number + 10) for number in range(3)]
    receives = [Step(RECEIVE, 0, number) for number in received]
    draft = draft_of([Channel(0, 1)], numbered(sends), numbered(receives))
    return written(draft, "0000" + "1" * (1 + len(received)))


def asked(shape: str, run: bytes, first: bytes, rows: dict[tuple[int, int], str]) -> Iterator[Named]:
    for (test, operand), expected in rows.items():
        condition = encode.condition(first, encode.channel_clause(0, test, operand))
        yield searched(shape, f"test {test}, operand {operand}", run, condition, expected)


def at(cut: tuple[int, int], there: OnChannel) -> str:
    return found(cut, [there])


RECEIVED, ONE_MORE = at((3, 3), None), at((4, 3), (1, 30))


def receives_ahead() -> Iterator[Named]:
    """Process 1 has received messages 0 and 1 before process 0 moves."""
    rows = {
        (1, 0): RECEIVED, (1, 1): RECEIVED, (2, 0): RECEIVED, (2, 1): ONE_MORE, (2, 2): NONE,
        (3, 0): RECEIVED, (3, 1): ONE_MORE, (3, 2): NONE,
        (4, 10): NONE, (4, 30): ONE_MORE, (5, 10): RECEIVED, (5, 30): RECEIVED,
        (6, 31): RECEIVED, (7, 29): NONE, (7, 30): ONE_MORE,
    }
    shape = "kept counts, receives ahead of their sends"
    yield from asked(shape, sent_and_received((0, 1)), ahead(1, 3), rows)


THREE, TWO = at((4, 1), (3, 10)), at((4, 2), (2, 20))


def sends_ahead() -> Iterator[Named]:
    """Process 0 has sent all three before process 1 moves; the last is never received."""
    rows = {
        (1, 0): NONE, (1, 1): ONE_MORE, (1, 2): TWO, (1, 3): THREE, (2, 3): THREE, (2, 4): NONE,
        (3, 0): NONE, (3, 1): ONE_MORE, (3, 2): TWO, (3, 3): THREE, (3, 4): NONE,
        (4, 10): THREE, (4, 40): NONE, (5, 10): TWO, (5, 30): NONE,
        (6, 10): THREE, (6, 20): TWO, (6, 30): ONE_MORE, (6, 31): NONE, (7, 10): THREE, (7, 9): NONE,
    }
    shape = "kept counts, sends ahead of their receives"
    yield from asked(shape, sent_and_received((0, 1)), ahead(0, 4), rows)


def overtaking() -> Iterator[Named]:
    """Process 1 receives message 2 and then message 0, process 0 follows."""
    left, last = at((4, 2), (2, 10)), at((4, 3), (1, 20))
    rows = {
        (1, 0): NONE, (1, 1): last, (1, 2): left, (2, 2): left, (2, 3): NONE,
        (3, 0): NONE, (3, 1): last, (3, 2): left, (4, 30): NONE, (4, 20): left, (5, 10): last,
    }
    shape = "kept counts, messages that overtake each other"
    yield from asked(shape, sent_and_received((2, 0)), ahead(1, 2), rows)


# Two channels between two processes, with the same message numbers on both


def two_channels() -> Iterator[Named]:
    steps = [Step(SEND, 0, 0, 1), Step(RECEIVE, 1, 0), Step(SEND, 0, 1, 2)]
    others = [Step(RECEIVE, 0, 0), Step(SEND, 1, 0, 5), Step(RECEIVE, 0, 1)]
    draft = draft_of([Channel(0, 1), Channel(1, 0)], numbered(steps), numbered(others))
    run = written(draft, "00110101")
    empty = found((4, 4), [None, None])
    rows = (
        ((1, 4), (0, 3, 0), empty),
        ((1, 4), (1, 3, 0), empty),
        ((1, 4), (0, 2, 1), NONE),
        ((0, 3), (0, 3, 0), found((3, 3), [None, None])),
        ((0, 3), (0, 2, 1), found((4, 3), [(1, 2), None])),
        ((0, 3), (1, 3, 1), NONE),
        ((1, 3), (1, 3, 1), found((2, 3), [None, (1, 5)])),
        ((1, 3), (1, 1, 0), found((3, 3), [None, None])),
        ((0, 2), (0, 3, 1), found((2, 1), [(1, 1), None])),
    )
    for (process, number), (channel, test, operand), expected in rows:
        clause = encode.channel_clause(channel, test, operand)
        detail = f"process {process} at {number}, channel {channel}, test {test}, operand {operand}"
        condition = encode.condition(ahead(process, number), clause)
        yield searched("kept counts, two channels", detail, run, condition, expected)
