"""The shapes of cases that have to be there by name, whatever the seed.

The list is written apart from the cases: the selftest asks that each shape here
has a case, and that each named case has its shape here.
"""

from __future__ import annotations

PAIRING_CIRCLES_CLOCKS = (
    "second send of a message",
    "second receive of a message",
    "receive with no send",
    "the first of several pairing faults in the file",
    "the same message number on two channels",
    "a message that is never received",
    "receive ahead of its send in the file",
    "two processes that each receive before they send to the other",
    "circle of two processes",
    "circle of three processes",
    "circle of eight processes",
    "a state after a circle that stands ahead of it in the file",
    "a state after a circle by two messages, ahead of it in the file",
    "a state that hears of a time ahead of the circle",
    "messages that cross, which is no circle",
    "clock one up in the own place",
    "clock one down in the own place",
    "clock one up in the other place",
    "clock one down in the other place",
    "the first of two wrong clocks in the file",
    "marked case 10",
)

CLAUSES = (
    *(f"comparison {comparison}, true and false" for comparison in (1, 2, 3, 4)),
    *(f"test {test}, true and false" for test in (1, 2, 3, 4, 5, 6, 7)),
    *(f"test {test}, searched" for test in (1, 2, 3, 4, 5, 6, 7)),
    "each value of each process",
)

CLAUSE_RECORDS = ("first clause", "middle clause", "last clause")

REFUSED_CONDITIONS = (
    *(
        f"condition, refusal {number} at the {where}"
        for number in (2, 3, 4)
        for where in ("head", *CLAUSE_RECORDS, "end")
    ),
    *(
        f"condition, refusal {number} at the {where}"
        for number in (7, 8, 14)
        for where in CLAUSE_RECORDS
    ),
    "condition, a channel clause for a run without channels",
    "condition, refusal 4 for bytes after the end",
    "condition of 65,535 bytes",
    "condition of 65,536 bytes, refusal 1",
    *(f"K of {count}" for count in (0, 1, 31, 32)),
    *(f"K of {count}, refusal 5 at the head" for count in (33, 34, 256, 65_535)),
    "more clauses than K",
    "fewer clauses than K",
)

# In one record: each refusal with the next of the order that the record can have.
CONDITION_ORDERS = (
    "condition, 1 ahead of 2",
    "condition, 4 (after the end) ahead of 2 (no length)",
    "condition, 4 (after the end) ahead of 3 (under 4)",
    "condition, 4 (after the end) ahead of 2 (body)",
    "condition, 2 (no length) ahead of 4",
    "condition, 3 (under 4) ahead of 2 (body)",
    "condition, 3 (under 4) ahead of 4",
    "condition, 2 (body) ahead of 4",
    "condition, 2 (body) ahead of 3 (for the kind)",
    "condition, 4 ahead of 3 (for the kind)",
    "condition, 4 ahead of 5",
    "condition, 3 (for the kind) ahead of 5",
    "condition, 5 ahead of 2 of a later record",
    "condition, 3 (for the kind) ahead of 7",
    "condition, 3 (for the kind) ahead of 8",
    "condition, 3 (for the kind) ahead of 14",
    "condition, 7 ahead of 8",
    "condition, 7 ahead of 14",
    *(
        f"condition, {one} in a clause ahead of {other} in a later one"
        for one in (4, 7, 8, 14)
        for other in (4, 7, 8, 14)
        if one != other
    ),
    *(f"condition, {one} in a clause ahead of bytes after the end" for one in (4, 7, 8, 14)),
)

CUTS_CHANNELS_PLACES = (
    "the nine cuts, consistent",
    "the nine cuts, satisfying",
    "the nine cuts, messages on the channel",
    "empty at (1,2)",
    "a cut too short",
    "a cut too long",
    "a cut with a 0",
    "a cut with a number one past the history",
    "a cut with a number far past the history",
    "a cut of last states",
    "a channel that isn't there",
    "a wrong cut and a channel that isn't there",
    "fewer places than processes",
    "fewer places than processes, where there is no cut",
    "as many places as processes",
    "the run is refused ahead of the condition",
    "the run is refused ahead of the cut and the channel",
    "the run is refused ahead of the places",
    "the condition is refused ahead of the places",
    "the condition is refused ahead of the cut",
)

KEPT_COUNTS = (
    "kept counts, receives ahead of their sends",
    "kept counts, sends ahead of their receives",
    "kept counts, messages that overtake each other",
    "kept counts, two channels",
)

LOWEST_STAMPS = (
    "lowest stamp, negative stamps",
    "lowest stamp, equal stamps",
    "lowest stamp, extremes",
    "lowest stamp, an empty channel",
    "lowest stamp, inconsistent cuts",
    "lowest stamp, neither the first sent nor the last",
    "lowest stamp, a lower one is received",
    "test 6 beside the lowest stamp",
    "test 7 beside the lowest stamp",
    "the longest answer there can be",
    "all channels, some of them empty",
    "all channels, rows that are long enough",
    "all channels, too few places for stamps",
    "all channels, too few places for counts",
    "all channels, too few places for both",
    "all channels of a run without any",
    "all channels, the run is refused ahead of the cut and the rows",
    "all channels, the cut is refused ahead of the rows",
)

SOUND_RUNS_AND_LIMITS = (
    "several channels between two processes",
    "messages that overtake each other",
    "extremes of a message",
    "extremes of a value",
    "the last process and the last channel",
    *(f"N of {count}" for count in (0, 1, 2, 3, 4, 5, 6, 7, 8, 9, 256, 65_535)),
    *(f"C of {count}" for count in (0, 1, 15, 16, 17, 18, 65_535)),
    "512 states with N = 1",
    "513 states with N = 1",
    "run of 65,535 bytes",
    "run of 65,536 bytes, refusal 1",
)

STATE_RECORDS = (
    "first state", "send", "internal state", "second start", "receive", "last state"
)

REFUSED_RUNS = (
    "run cut at every byte",
    "condition cut at every byte",
    *(
        f"run, refusal {number} at the {where}"
        for number in (2, 3, 4)
        for where in ("head", "channel", *STATE_RECORDS, "end")
    ),
    "run, refusal 5 at the head",
    "run, refusal 6 at the head",
    "run, refusal 7 at the channel",
    *(
        f"run, refusal {number} at the {where}"
        for number in (7, 8, 9)
        for where in STATE_RECORDS
    ),
    "run, refusal 9 at the end for a process with no state",
    *(
        f"run, refusal 10 at the {where}"
        for where in ("send", "internal state", "receive", "last state")
    ),
    "run, refusal 10 for a process that is neither end",
    "run, refusal 4 for bytes after the end",
)

RUN_ORDERS = (
    "run, 1 ahead of any other",
    "run, 4 (after the end) ahead of 2 (no length)",
    "run, 4 (after the end) ahead of 3 (under 4)",
    "run, 4 (after the end) ahead of 2 (body)",
    "run, 2 (no length) ahead of 4",
    "run, 3 (under 4) ahead of 2 (body)",
    "run, 3 (under 4) ahead of 4",
    "run, 2 (body) ahead of 4",
    "run, 2 (body) ahead of 3 (for the kind)",
    "run, 4 ahead of 3 (for the kind)",
    "run, 3 (for the kind) ahead of 6",
    "run, 3 (for the kind) ahead of 5",
    "run, 6 ahead of 5",
    "run, 6 ahead of 7 in a later record",
    "run, 3 (for the kind) ahead of 7",
    "run, 3 (for the kind) ahead of 8",
    "run, 3 (for the kind) ahead of 9",
    "run, 7 ahead of 5",
    "run, 7 ahead of 8",
    "run, 7 ahead of 9",
    "run, 7 ahead of 10",
    "run, 5 ahead of 8",
    "run, 5 ahead of 9",
    "run, 5 ahead of 10",
    "run, 5 ahead of 13",
    "run, 8 ahead of 9",
    "run, 8 ahead of 10",
    "run, 9 ahead of 10",
    "run, 3 (for the kind) ahead of 4 (after the end)",
    "run, 9 ahead of 4 (after the end)",
    *(f"run, {number} ahead of 11" for number in (3, 4, 7, 8, 9, 10)),
    "run, 4 (after the end) ahead of 11",
    "run, 2 (no length) ahead of 11",
    "run, 11 ahead of 12",
    "run, 11 ahead of 13",
    "run, 12 ahead of 13",
    "run, 9 ahead of 13",
)

SHAPES: tuple[str, ...] = (
    *PAIRING_CIRCLES_CLOCKS,
    *CLAUSES,
    *REFUSED_CONDITIONS,
    *CONDITION_ORDERS,
    *CUTS_CHANNELS_PLACES,
    *KEPT_COUNTS,
    *LOWEST_STAMPS,
    *SOUND_RUNS_AND_LIMITS,
    *REFUSED_RUNS,
    *RUN_ORDERS,
)
