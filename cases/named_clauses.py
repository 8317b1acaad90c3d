"""Named cases of what a clause says: each comparison and test, true and false."""

from __future__ import annotations

from typing import Iterator, Sequence

import encode
from execution import HIGHEST, LOWEST, Step
from marked import two_desks
from model import INTERNAL, RECEIVE, SEND, START, Channel
from named_order import draft_of, written
from naming import NONE, VERDICTS, Named, found, satisfied, searched, verdicts


def named_clauses() -> Iterator[Named]:
    yield from comparisons()
    yield from values_by_number()
    yield from tests_of_counts_and_stamps()
    yield from tests_of_stamps_around_zero()
    yield from who_moves()


# Local clauses

SERIES = (LOWEST, -1, 0, 1, HIGHEST)

# A row for each constant of the series, a letter for each value of it.
COMPARISONS = {
    1: ("ynnnn", "nynnn", "nnynn", "nnnyn", "nnnny"),
    2: ("nyyyy", "ynyyy", "yynyy", "yyyny", "yyyyn"),
    3: ("ynnnn", "yynnn", "yyynn", "yyyyn", "yyyyy"),
    4: ("yyyyy", "nyyyy", "nnyyy", "nnnyy", "nnnny"),
}


def comparisons() -> Iterator[Named]:
    cuts = [(number,) for number in range(1, len(SERIES) + 1)]
    for comparison, rows in COMPARISONS.items():
        # Another value number for each comparison; the other values are 7.
        value = comparison - 1
        run = run_of_series(value)
        for constant, row in zip(SERIES, rows):
            condition = encode.condition(encode.local_clause(0, value, comparison, constant))
            shape = f"comparison {comparison}, true and false"
            yield from verdicts(shape, f"constant {constant}", run, condition, cuts, row)
            expected = found((row.index("y") + 1,))
            yield searched(shape, f"searched, constant {constant}", run, condition, expected)


def run_of_series(value: int) -> bytes:
    records = [encode.run_head(1, 0)]
    for number, each in enumerate(SERIES, 1):
        values = [7, 7, 7, 7]
        values[value] = each
        event = START if number == 1 else INTERNAL
        records.append(encode.state(0, event, (number,), values=values))
    return b"".join([*records, encode.end()])


def values_by_number() -> Iterator[Named]:
    records = [encode.run_head(3, 0)]
    for process in range(3):
        clock = [int(place == process) for place in range(3)]
        values = [10 * process + value for value in range(4)]
        records.append(encode.state(process, START, clock, values=values))
    run = b"".join([*records, encode.end()])
    shape = "each value of each process"
    for process in range(3):
        for value in range(4):
            for constant, letter in ((10 * process + value, "y"), (10 * process + 3 - value, "n")):
                condition = encode.condition(encode.local_clause(process, value, 1, constant))
                detail = f"process {process}, value {value}, constant {constant}"
                yield satisfied(shape, detail, run, condition, (1, 1, 1), VERDICTS[letter])


# Channel clauses


def stamped_run(stamps: Sequence[int], received: Sequence[int]) -> bytes:
    """Process 0 sends a message for each stamp; process 1 receives those named."""
    sends = [Step(SEND, 0, number, stamp) for number, stamp in enumerate(stamps)]
    receives = [Step(RECEIVE, 0, number) for number in received]
    draft = draft_of([Channel(0, 1)], sends, receives)
    order = "1" * (1 + len(received)) + "0" * (1 + len(stamps))
    return written(draft, order)


MINUS_ONE = 2**32 - 1

# In transit at the five cuts: nothing; 5; 5 and the lowest; 5, the lowest and
# the highest; the lowest and the highest.
STAMPS = (5, LOWEST, HIGHEST)
STAMP_CUTS = ((1, 1), (2, 1), (3, 1), (4, 1), (4, 2))
STAMP_ROWS = {
    1: {
        0: "ynnnn", 1: "yynnn", 2: "yyyny", 3: "yyyyy",
        2**31: "yyyyy", 2**31 + 1: "yyyyy", 2**32 - 1: "yyyyy",
    },
    2: {
        0: "yyyyy", 1: "nyyyy", 2: "nnyyy", 3: "nnnyn", 4: "nnnnn",
        2**31: "nnnnn", 2**31 + 1: "nnnnn", 2**32 - 1: "nnnnn",
    },
    3: {
        0: "ynnnn", 1: "nynnn", 2: "nnyny", 3: "nnnyn", 4: "nnnnn",
        2**31: "nnnnn", 2**31 + 1: "nnnnn", 2**32 - 1: "nnnnn",
    },
    4: {
        0: "nnnnn", 4: "nnnnn", 5: "nyyyn", HIGHEST: "nnnyy", LOWEST: "nnyyy",
        MINUS_ONE: "nnnnn",
    },
    5: {
        0: "yyyyy", 4: "yyyyy", 5: "ynnny", HIGHEST: "yyynn", LOWEST: "yynnn",
        MINUS_ONE: "yyyyy",
    },
    6: {
        0: "yynnn", 5: "yynnn", 6: "ynnnn", HIGHEST: "ynnnn", LOWEST: "yyyyy",
        LOWEST + 1: "yynnn", MINUS_ONE: "yynnn",
    },
    7: {
        0: "nnyyy", 4: "nnyyy", 5: "nyyyy", HIGHEST: "nyyyy", LOWEST: "nnyyy",
        LOWEST + 1: "nnyyy", MINUS_ONE: "nnyyy",
    },
}


def tests_of_counts_and_stamps() -> Iterator[Named]:
    run = stamped_run(STAMPS, (0,))
    for test, rows in STAMP_ROWS.items():
        for operand, row in rows.items():
            condition = encode.condition(encode.channel_clause(0, test, operand))
            shape = f"test {test}, true and false"
            detail = f"operand {operand % 2**32}"
            yield from verdicts(shape, detail, run, condition, STAMP_CUTS, row)


# In transit at the four cuts: nothing; -1; -1 and 0; 0.
ZERO_CUTS = ((1, 1), (2, 1), (3, 1), (3, 2))
ZERO_ROWS = {
    4: {-2: "nnnn", -1: "nyyn", 0: "nnyy", 1: "nnnn"},
    5: {-2: "yyyy", -1: "ynny", 0: "yynn", 1: "yyyy"},
    6: {-2: "yyyy", -1: "yyyy", 0: "ynny", 1: "ynnn"},
    7: {-2: "nnnn", -1: "nyyn", 0: "nyyy", 1: "nyyy"},
}


def tests_of_stamps_around_zero() -> Iterator[Named]:
    run = stamped_run((-1, 0), (0,))
    for test, rows in ZERO_ROWS.items():
        for operand, row in rows.items():
            condition = encode.condition(encode.channel_clause(0, test, operand))
            detail = f"around zero, operand {operand}"
            shape = f"test {test}, true and false"
            yield from verdicts(shape, detail, run, condition, ZERO_CUTS, row)


# Who has to move: process 0 has sent, so that message 7 with stamp 5 is in transit.

SENT, EMPTIED = found((2, 1), [(1, 5)]), found((2, 2), [None])

# With the message received later, and with it never received.
MOVES = (
    (1, 0, EMPTIED, NONE),
    (1, 1, SENT, SENT),
    (2, 1, SENT, SENT),
    (2, 2, NONE, NONE),
    (3, 0, EMPTIED, NONE),
    (3, 1, SENT, SENT),
    (3, 2, NONE, NONE),
    (4, 5, SENT, SENT),
    (4, 6, NONE, NONE),
    (5, 5, EMPTIED, NONE),
    (5, 6, SENT, SENT),
    (6, 6, EMPTIED, NONE),
    (6, 5, SENT, SENT),
    (7, 5, SENT, SENT),
    (7, 4, NONE, NONE),
)


def who_moves() -> Iterator[Named]:
    has_sent = encode.local_clause(0, 0, 4, 1)
    silent = Step(INTERNAL)
    sends = [Step(SEND, 0, 7, 5, (1, 0, 0, 0)), Step(INTERNAL, values=(1, 0, 0, 0))]
    kept = written(draft_of([Channel(0, 1)], sends, [silent, silent]), "000111")
    for test, operand, received, never in MOVES:
        clause = encode.channel_clause(0, test, operand)
        for place, clauses in (("after", (has_sent, clause)), ("ahead", (clause, has_sent))):
            condition = encode.condition(*clauses)
            shape = f"test {test}, searched"
            detail = f"operand {operand}, {place} of a local clause"
            yield searched(shape, f"{detail}, received later", two_desks(), condition, received)
            yield searched(shape, f"{detail}, never received", kept, condition, never)
