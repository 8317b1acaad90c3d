"""The run of two desks with its marked cases, and other small material."""

from __future__ import annotations

import itertools
from typing import Iterator, Sequence

import encode
from damage import STATE_CLOCK_AT, put
from model import INTERNAL, RECEIVE, SEND, START
from questions import (
    CONSISTENT,
    MESSAGES,
    SATISFIES,
    SEARCH,
    SHOWN,
    Question,
)

NO_CLAUSE = encode.condition()


def both_ways(run: bytes, condition: bytes, lent: int) -> Iterator[Question]:
    """The search and the bytes shown, for which a place matters as much."""
    yield Question(SEARCH, lent, (), run, condition)
    yield Question(SHOWN, lent, (), run, condition)


# The run of two desks


def two_desks_records() -> list[bytes]:
    return [
        encode.run_head(2, 1),
        encode.channel(0, 0, 1),
        encode.state(0, START, (1, 0)),
        encode.state(0, SEND, (2, 0), (0, 7, 5), (1, 0, 0, 0)),
        encode.state(0, INTERNAL, (3, 0), values=(1, 0, 0, 0)),
        encode.state(1, START, (0, 1)),
        encode.state(1, RECEIVE, (1, 2), (0, 7, 0)),
        encode.state(1, INTERNAL, (1, 3), values=(1, 0, 0, 0)),
        encode.end(),
    ]


def two_desks() -> bytes:
    return b"".join(two_desks_records())


def two_desks_cuts() -> list[tuple[int, ...]]:
    return list(itertools.product((1, 2, 3), repeat=2))


def marked_conditions() -> list[bytes]:
    """The conditions of marked cases 2 to 8, in their order."""
    second_is_one = encode.local_clause(1, 0, 1, 1)
    return [
        NO_CLAUSE,
        encode.condition(encode.channel_clause(0, 3, 1)),
        encode.condition(
            encode.local_clause(0, 0, 4, 1), encode.channel_clause(0, 1, 0)
        ),
        encode.condition(second_is_one),
        encode.condition(second_is_one, encode.channel_clause(0, 2, 1)),
        encode.condition(encode.channel_clause(0, 6, 6)),
        encode.condition(encode.channel_clause(0, 7, 4)),
    ]


def marked_wrong_clock() -> bytes:
    """The run of marked case 10."""
    records = [bytearray(record) for record in two_desks_records()]
    put(records[6], STATE_CLOCK_AT, 2)
    return b"".join(records)


def small_condition_records() -> list[bytes]:
    clauses = [encode.local_clause(0, 0, 4, 1), encode.channel_clause(0, 1, 0)]
    return encode.condition_records(clauses)


def small_condition() -> bytes:
    return b"".join(small_condition_records())


def starts(process_count: int) -> list[bytes]:
    records = []
    for process in range(process_count):
        clock = [int(place == process) for place in range(process_count)]
        records.append(encode.state(process, START, clock))
    return records


def run_of_starts(process_count: int, channels: Sequence[bytes] = ()) -> bytes:
    head = encode.run_head(process_count, len(channels))
    return b"".join([head, *channels, *starts(process_count), encode.end()])


# The marked cases as questions


def marked_questions() -> Iterator[Question]:
    for cut in two_desks_cuts():
        yield Question(CONSISTENT, 0, cut, two_desks(), b"")
    for condition in marked_conditions():
        yield Question(SEARCH, 2, (), two_desks(), condition)
    for cut in two_desks_cuts():
        yield Question(MESSAGES, 0, cut, two_desks(), b"")
    yield from both_ways(marked_wrong_clock(), NO_CLAUSE, 2)


def marked_conditions_at_every_cut() -> Iterator[Question]:
    for condition in marked_conditions():
        for cut in two_desks_cuts():
            yield Question(SATISFIES, 0, cut, two_desks(), condition)
