"""Faults alone and in pairs, by which the order of refusals shows."""

from __future__ import annotations

import itertools
from typing import Iterator, NamedTuple, Sequence, Union

import encode
from damage import Records, put, resize
from marked import (
    both_ways,
    marked_wrong_clock,
    run_of_starts,
    small_condition,
    small_condition_records,
    two_desks,
    two_desks_records,
)
from questions import MESSAGES, SATISFIES, SEARCH, Question


class Put(NamedTuple):
    record: int
    offset: int
    number: int


class Resize(NamedTuple):
    record: int
    length: int


class Append(NamedTuple):
    extra: bytes


Change = Union[Put, Resize, Append]


def with_changes(records: list[bytes], changes: Sequence[Change]) -> bytes:
    changed: Records = [bytearray(record) for record in records]
    # Lengths go first, so that a pair means the same in either order.
    for change in changes:
        if isinstance(change, Resize):
            resize(changed[change.record], change.length)
    for change in changes:
        if isinstance(change, Put):
            put(changed[change.record], change.offset, change.number)
        if isinstance(change, Append):
            changed.append(bytearray(change.extra))
    return b"".join(changed)


RUN_CHANGES: list[Change] = [
    Put(0, 2, 16),
    Put(0, 4, 2),
    Put(0, 6, 9),
    Put(0, 8, 17),
    Resize(0, 12),
    Put(1, 0, 2),
    Put(1, 2, 3),
    Put(1, 4, 1),
    Put(1, 8, 0),
    Put(2, 6, 1),
    Put(2, 16, 1),
    Put(3, 8, 1),
    Put(3, 34, 9),
    Resize(4, 36),
    Put(4, 4, 2),
    Put(4, 6, 0),
    Put(5, 6, 4),
    Put(6, 6, 2),
    Put(6, 10, 8),
    Put(6, 14, 5),
    Put(7, 0, 0),
    Put(7, 2, 2),
    Put(8, 0, 5),
    Resize(8, 6),
    Append(b"\x00"),
]

SEND_CHANGES: list[Change] = [
    Put(3, 0, 3),
    Put(3, 0, 60_000),
    Resize(3, 36),
    Put(3, 2, 9),
    Put(3, 2, 2),
    Put(3, 4, 2),
    Put(3, 4, 1),
    Put(3, 8, 1),
    Put(3, 6, 4),
    Put(3, 6, 0),
    Put(3, 6, 1),
    Put(3, 6, 3),
    Put(3, 10, 9),
    Put(3, 34, 5),
]

RECEIVE_CHANGES: list[Change] = [
    Put(6, 0, 1),
    Resize(6, 40),
    Put(6, 2, 17),
    Put(6, 4, 65_535),
    Put(6, 4, 0),
    Put(6, 8, 16),
    Put(6, 6, 256),
    Put(6, 6, 0),
    Put(6, 6, 2),
    Put(6, 14, 1),
    Put(6, 12, 1),
    Put(6, 36, 1),
]


def pairs_of(changes: list[Change]) -> Iterator[tuple[Change, Change]]:
    """All pairs but those in which one change would undo the other."""
    for one, other in itertools.combinations(changes, 2):
        both_put = isinstance(one, Put) and isinstance(other, Put)
        if not (both_put and one[:2] == other[:2]):
            yield one, other


def faults_in_pairs() -> Iterator[Question]:
    records = two_desks_records()
    for change in RUN_CHANGES:
        yield from both_ways(with_changes(records, [change]), small_condition(), 2)
    for pair in pairs_of(RUN_CHANGES):
        yield Question(SEARCH, 2, (), with_changes(records, pair), small_condition())


def faults_in_one_state() -> Iterator[Question]:
    records = two_desks_records()
    for changes in (SEND_CHANGES, RECEIVE_CHANGES):
        for change in changes:
            yield from both_ways(with_changes(records, [change]), small_condition(), 2)
        for pair in pairs_of(changes):
            run = with_changes(records, pair)
            yield Question(SEARCH, 2, (), run, small_condition())


CONDITION_CHANGES: list[Change] = [
    Put(0, 0, 2),
    Put(0, 2, 1),
    Put(0, 2, 17),
    Put(0, 4, 33),
    Put(0, 4, 1),
    Put(0, 4, 3),
    Resize(0, 8),
    Put(1, 0, 3),
    Put(1, 0, 40_000),
    Put(1, 2, 3),
    Put(1, 2, 18),
    Resize(1, 12),
    Put(1, 4, 2),
    Put(1, 6, 4),
    Put(1, 8, 0),
    Put(1, 8, 5),
    Put(2, 2, 17),
    Put(2, 2, 16),
    Resize(2, 14),
    Put(2, 4, 1),
    Put(2, 6, 0),
    Put(2, 6, 8),
    Put(2, 6, 9),
    Put(2, 6, 10),
    Put(3, 0, 0),
    Put(3, 2, 19),
    Resize(3, 5),
    Append(b"\x00"),
]


def condition_faults_in_pairs() -> Iterator[Question]:
    records = small_condition_records()
    run = run_of_starts(2, [encode.channel(0, 0, 1)])
    for change in CONDITION_CHANGES:
        yield from both_ways(run, with_changes(records, [change]), 2)
    for pair in pairs_of(CONDITION_CHANGES):
        yield Question(SEARCH, 2, (), run, with_changes(records, pair))
    for operand, test in itertools.product((0, 1, 2**31, 2**32 - 1), (8, 9)):
        condition = encode.condition(encode.channel_clause(0, test, operand))
        yield Question(SEARCH, 2, (), two_desks(), condition)


def faults_in_both_files() -> Iterator[Question]:
    """The run goes ahead of the condition, and both ahead of places and cuts."""
    runs = [two_desks(), marked_wrong_clock(), two_desks()[:-1], b""]
    conditions = [
        small_condition(),
        encode.condition(encode.channel_clause(0, 8, 0)),
        small_condition()[:-1],
        b"",
    ]
    for run, condition in itertools.product(runs, conditions):
        for lent in (1, 2):
            yield from both_ways(run, condition, lent)
        for cut in ((1, 1), (1, 2), (1, 4), (0, 1), (1,)):
            yield Question(SATISFIES, 0, cut, run, condition)
    for run in runs:
        for cut, channel in itertools.product(((1, 2), (4, 1), ()), (0, 1)):
            yield Question(MESSAGES, channel, cut, run, b"")
