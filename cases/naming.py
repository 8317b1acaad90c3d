"""Cases with a name and with the answer that the paper gives, written out by hand.

An expected answer never comes from the second program's judging: it stands in a
table beside the case, or follows from where a record was put.
"""

from __future__ import annotations

from typing import Iterator, NamedTuple, Optional, Sequence

from questions import CONSISTENT, EACH, MESSAGES, SATISFIES, SEARCH, Question, lent_rows

NONE = "none\n"
EMPTY = "empty\n"
VERDICTS = {"y": "yes\n", "n": "no\n"}

# How many messages are on a channel and their lowest stamp, or None for an empty channel.
OnChannel = Optional[tuple[int, int]]


class Named(NamedTuple):
    """`shape` is a line of the list of shapes, `detail` tells its cases apart."""

    shape: str
    detail: str
    question: Question
    expected: str

    @property
    def name(self) -> str:
        return f"{self.shape}: {self.detail}"


# Answers


def refused(file: str, number: int, place: int) -> str:
    return f"refused {file} {number} {place}\n"


def refused_run(number: int, place: int) -> str:
    return refused("run", number, place)


def refused_condition(number: int, place: int) -> str:
    return refused("cond", number, place)


def found(cut: Sequence[int], channels: Sequence[OnChannel] = ()) -> str:
    lines = ["found"]
    lines += [f"state {process} {number}" for process, number in enumerate(cut)]
    for channel, there in enumerate(channels):
        count, lowest = there or (0, "-")
        lines.append(f"channel {channel} {count} {lowest}")
    return "".join(line + "\n" for line in lines)


def count_line(there: OnChannel) -> str:
    return EMPTY if there is None else f"count {there[0]} {there[1]}\n"


def rows_of(first: str, counts: Sequence[int], stamps: Sequence[int]) -> str:
    """The first line of the answer for all channels, then both lent rows as they are left."""
    rows = (["places", *map(str, counts)], ["stamps", *map(str, stamps)])
    return first + "".join(" ".join(row) + "\n" for row in rows)


# Questions


def searched(
    shape: str, detail: str, run: bytes, condition: bytes, expected: str, lent: int = 8
) -> Named:
    return Named(shape, detail, Question(SEARCH, lent, (), run, condition), expected)


def satisfied(
    shape: str, detail: str, run: bytes, condition: bytes, cut: Sequence[int], expected: str
) -> Named:
    question = Question(SATISFIES, 0, tuple(cut), run, condition)
    return Named(shape, detail, question, expected)


def consistency(
    shape: str, detail: str, run: bytes, cut: Sequence[int], expected: str
) -> Named:
    question = Question(CONSISTENT, 0, tuple(cut), run, b"")
    return Named(shape, detail, question, expected)


def counted(
    shape: str, detail: str, run: bytes, cut: Sequence[int], channel: int, expected: str
) -> Named:
    question = Question(MESSAGES, channel, tuple(cut), run, b"")
    return Named(shape, detail, question, expected)


def listed(
    shape: str, detail: str, run: bytes, cut: Sequence[int], lent: tuple[int, int], expected: str
) -> Named:
    """`lent` is how many places there are for counts, and how many for stamps."""
    question = Question(EACH, lent_rows(*lent), tuple(cut), run, b"")
    return Named(shape, detail, question, expected)


# Records


def place_of(records: Sequence[bytes], index: int) -> int:
    return sum(len(record) for record in records[:index])


def with_record(records: Sequence[bytes], index: int, record: bytes) -> bytes:
    return b"".join([*records[:index], record, *records[index + 1 :]])


def verdicts(
    shape: str,
    detail: str,
    run: bytes,
    condition: bytes,
    cuts: Sequence[Sequence[int]],
    letters: str,
) -> Iterator[Named]:
    """Whether the condition is satisfied at each cut: one letter, y or n, for each."""
    assert len(cuts) == len(letters)
    for cut, letter in zip(cuts, letters):
        where = f"{detail} at {','.join(map(str, cut))}"
        yield satisfied(shape, where, run, condition, cut, VERDICTS[letter])
