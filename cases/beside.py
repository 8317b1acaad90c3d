"""The listing for a given cut, and records by themselves: fixed ones, and those beside a drawn question."""

from __future__ import annotations

import itertools
from typing import Iterator, Sequence

import encode
from fixed_runs import run_with_stamps
from marked import (
    marked_wrong_clock,
    run_of_starts,
    two_desks,
    two_desks_cuts,
)
from questions import (
    EACH,
    MESSAGES,
    RECORD,
    SHOWN,
    Question,
    lent_rows,
    search_refusal,
)
from reading import MOST_CHANNELS, RUN

MOST_LENT = 24
WRONG_CUTS = [(), (1,), (1, 1, 1), (0, 1), (1, 0), (4, 1), (1, 4), (65_535, 1), (1,) * 24]


def listing(run: bytes, cut: Sequence[int], counts: int, stamps: int) -> Question:
    return Question(EACH, lent_rows(counts, stamps), tuple(cut), run, b"")


def rows(*lengths: int) -> list[tuple[int, int]]:
    """Each length with itself and with each other one: a row may be the shorter of the two."""
    equal = [(length, length) for length in lengths]
    return equal + list(itertools.permutations(lengths, 2))


def listings() -> Iterator[Question]:
    for lent, cut in itertools.product(rows(0, 1, 2, 24), [*two_desks_cuts(), *WRONG_CUTS]):
        yield listing(two_desks(), cut, *lent)
    out_of_turn = run_with_stamps((5, 0, -5, 0), (3, 0, 1))
    for cut in itertools.product(range(1, 6), range(1, 5)):
        yield listing(out_of_turn, cut, 1, 1)
    channels = [encode.channel(number, number % 3, 3) for number in range(16)]
    many = run_of_starts(4, channels)
    for lent in rows(0, 1, 15, 16, 17):
        yield listing(many, (1, 1, 1, 1), *lent)
        # A wrong cut comes ahead of room that is short.
        yield listing(many, (1, 1, 1, 2), *lent)
        yield listing(marked_wrong_clock(), (1, 1), *lent)
    for lent in rows(0, 3):
        yield listing(run_of_starts(2), (1, 1), *lent)


def records() -> Iterator[Question]:
    desks = two_desks()
    for place in (*range(len(desks) + 4), 65_535):
        yield Question(RECORD, place, (), desks, b"")
    for length in range(12):
        yield Question(RECORD, 0, (), desks[:length], b"")
        yield Question(RECORD, 10, (), desks[: 10 + length], b"")
    # A head by itself is taken at its word, whatever numbers it has.
    for process_count, channel_count in ((0, 0), (1, 0), (2, 0), (3, 1), (9, 17), (65_535, 65_535)):
        head = encode.run_head(process_count, channel_count)
        for place in (0, 10, 20, 58):
            yield Question(RECORD, place, (), head + desks[10:], b"")
    for place, number in itertools.product((0, 2, 4), (0, 1, 2, 3, 4, 5, 255, 65_535)):
        changed = bytearray(desks)
        changed[place : place + 2] = number.to_bytes(2, "little")
        yield Question(RECORD, 0, (), bytes(changed), b"")


def beside(question: Question) -> Iterator[Question]:
    """All channels where one was asked, and the refused record where its bytes were shown."""
    if question.kind == MESSAGES:
        lent = min(question.extra + 1, MOST_LENT)
        other = (lent, MOST_LENT) if question.extra % 2 else (MOST_LENT, lent)
        for counts, stamps in ((lent, lent), other, (MOST_CHANNELS, MOST_LENT)):
            yield listing(question.run, question.cut, counts, stamps)
    if question.kind == SHOWN:
        refusal = search_refusal(question.run, question.condition, question.extra)
        place = refusal.place if refusal is not None and refusal.file == RUN else 0
        yield Question(RECORD, place, (), question.run, b"")
