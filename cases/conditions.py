"""Clauses aimed at a cut of a run, true there or a little beside it."""

from __future__ import annotations

import encode
from chance import Chance
from execution import EXTREMES, HIGHEST, LOWEST
from model import (
    AT_LEAST,
    AT_MOST,
    COUNT_AT_LEAST,
    COUNT_AT_MOST,
    COUNT_EXACTLY,
    EQUAL,
    EVERY_STAMP_AT_LEAST,
    NO_STAMP_EQUALS,
    SOME_STAMP_EQUALS,
    ChannelClause,
    Clause,
    Cut,
    LocalClause,
    Run,
    clause_holds,
    stamps_in_transit,
)
from reading import MOST_CLAUSES, VALUES_PER_STATE

COUNT_OPERANDS = (0, 0, 1, 1, 2, 3, 2**31 - 1, 2**31, 2**32 - 1)
MOST_TRIES = 8


class Aim:
    """The cut at which clauses are to hold, and a lower one at which not."""

    def __init__(self, run: Run, target: Cut, lower: Cut) -> None:
        self.run = run
        self.target = target
        self.lower = lower


def draw_clauses(chance: Chance, aim: Aim, share_anchored: int) -> list[bytes]:
    """Clauses of all kinds, with this share in a hundred far from the start."""
    count = chance.weighted(
        (5, 0), (33, 1), (28, 2), (18, 3), (13, chance.between(4, 6)),
        (2, chance.between(7, MOST_CLAUSES)), (1, MOST_CLAUSES),
    )
    share_true = chance.weighted((55, 100), (20, 75), (25, 20))
    demanding = chance.percent(70)
    clauses: list[Clause] = []
    if chance.percent(share_anchored):
        clauses += anchored_clauses(chance, aim)
    while len(clauses) < count:
        true_there = chance.percent(share_true)
        clause = draw_clause(chance, aim, true_there)
        if demanding:
            clause = more_demanding(chance, aim, true_there, clause)
        clauses.insert(chance.between(0, len(clauses)), clause)
    return [encode_clause(clause) for clause in clauses]


def anchored_clauses(chance: Chance, aim: Aim) -> list[Clause]:
    """A clause that forces a process on, at times with one for its receiver.

    The second asks that something sent by then has been received: the one way
    in which a channel makes its receiver move and not its sender.
    """
    anchors = anchor_clauses(aim)
    emptying = emptying_clauses(aim)
    if emptying and chance.percent(60):
        test = chance.pick(sorted({clause.test for clause in emptying}))
        second = chance.pick([clause for clause in emptying if clause.test == test])
        sender = aim.run.channels[second.channel].sender
        first = [anchor for anchor in anchors if anchor.process == sender]
        return [second, chance.pick(first)] if first else [second]
    return [chance.pick(anchors)] if anchors else []


def anchor_clauses(aim: Aim) -> list[LocalClause]:
    """Clauses that hold for the first time at a process's state in the target."""
    anchors: list[LocalClause] = []
    for process, number in enumerate(aim.target):
        history = [aim.run.state_of(process, each) for each in range(1, number + 1)]
        for value in range(VALUES_PER_STATE):
            *earlier, here = [state.values[value] for state in history]
            if number > 1 and here not in earlier:
                anchors.append(LocalClause(process, value, EQUAL, here))
            if number > 1 and here > max(earlier):
                anchors.append(LocalClause(process, value, AT_LEAST, here))
            if number > 1 and here < min(earlier):
                anchors.append(LocalClause(process, value, AT_MOST, here))
    return anchors


def emptying_clauses(aim: Aim) -> list[ChannelClause]:
    """Clauses that hold at the target because of what was received up to it."""
    clauses: list[ChannelClause] = []
    for channel, receives in enumerate(aim.run.receives):
        received = [
            receive.message
            for receive in receives
            if receive.number <= aim.target[receive.process]
        ]
        passed = [
            send.stamp for send in aim.run.sends[channel] if send.message in received
        ]
        if not passed:
            continue
        left = stamps_in_transit(aim.run, aim.target, channel)
        clauses.append(channel_clause(channel, COUNT_AT_MOST, len(left)))
        clauses.append(channel_clause(channel, COUNT_EXACTLY, len(left)))
        for stamp in passed:
            if stamp not in left:
                clauses.append(channel_clause(channel, NO_STAMP_EQUALS, stamp))
        lowest = min(left, default=HIGHEST)
        if lowest > min(passed):
            clauses.append(channel_clause(channel, EVERY_STAMP_AT_LEAST, lowest))
    return clauses


def more_demanding(
    chance: Chance, aim: Aim, true_there: bool, clause: Clause
) -> Clause:
    """Most clauses hold at the start already; some tries find one that doesn't."""
    for _ in range(MOST_TRIES):
        if not clause_holds(aim.run, clause, aim.lower):
            break
        clause = draw_clause(chance, aim, true_there)
    return clause


def draw_clause(chance: Chance, aim: Aim, true_there: bool) -> Clause:
    if aim.run.channels and chance.percent(60):
        return draw_channel_clause(chance, aim, true_there)
    return draw_local_clause(chance, aim, true_there)


def encode_clause(clause: Clause) -> bytes:
    if isinstance(clause, LocalClause):
        return encode.local_clause(*clause)
    return encode.channel_clause(clause.channel, clause.test, clause.count)


# Local clauses


def draw_local_clause(chance: Chance, aim: Aim, true_there: bool) -> LocalClause:
    run = aim.run
    process = chance.below(run.process_count)
    value = chance.below(VALUES_PER_STATE)
    comparison = chance.between(1, 4)
    here = run.state_of(process, aim.target[process]).values[value]
    number = chance.between(1, run.last_number(process))
    elsewhere = run.state_of(process, number).values[value]
    if true_there:
        constant = true_constant(chance, comparison, here, elsewhere)
    else:
        constant = chance.pick((here - 1, here + 1, elsewhere, chance.pick(EXTREMES)))
    constant = max(LOWEST, min(HIGHEST, constant))
    return LocalClause(process, value, comparison, constant)


def true_constant(chance: Chance, comparison: int, here: int, elsewhere: int) -> int:
    if comparison == EQUAL:
        return here
    if comparison == AT_MOST:
        return max(here, chance.pick((here, here, here + 1, elsewhere)))
    if comparison == AT_LEAST:
        return min(here, chance.pick((here, here, here - 1, elsewhere)))
    if elsewhere != here:
        return elsewhere
    return here + 1 if here < HIGHEST else here - 1


# Channel clauses


def draw_channel_clause(chance: Chance, aim: Aim, true_there: bool) -> ChannelClause:
    channel = chance.below(len(aim.run.channels))
    test = chance.between(1, 7)
    stamps = stamps_in_transit(aim.run, aim.target, channel)
    known = [send.stamp for send in aim.run.sends[channel]] or [0]
    if true_there:
        test, operand = true_test(chance, test, stamps, known)
    elif test in (COUNT_AT_MOST, COUNT_AT_LEAST, COUNT_EXACTLY):
        near = chance.pick((len(stamps) + 1, max(len(stamps) - 1, 0)))
        operand = chance.pick((near, near, chance.pick(COUNT_OPERANDS)))
    else:
        near = chance.pick(known) + chance.between(-1, 1)
        operand = chance.pick((near, near, chance.pick(EXTREMES)))
    return channel_clause(channel, test, operand)


def channel_clause(channel: int, test: int, operand: int) -> ChannelClause:
    unsigned = operand % 2**32
    signed = unsigned - 2**32 if unsigned > HIGHEST else unsigned
    return ChannelClause(channel, test, unsigned, signed)


def true_test(
    chance: Chance, test: int, stamps: list[int], known: list[int]
) -> tuple[int, int]:
    """A test and operand that hold; an empty channel has no stamp to be found."""
    count = len(stamps)
    if test == COUNT_AT_MOST:
        return test, count + chance.pick((0, 0, 1))
    if test == COUNT_AT_LEAST:
        return test, max(count - chance.pick((0, 0, 1)), 0)
    if test == NO_STAMP_EQUALS:
        absent = [stamp for stamp in (*known, *EXTREMES) if stamp not in stamps]
        return test, chance.pick(absent) if absent else 77
    if test == EVERY_STAMP_AT_LEAST:
        return test, min(stamps or known)
    if test == COUNT_EXACTLY or not stamps:
        return COUNT_EXACTLY, count
    if test == SOME_STAMP_EQUALS:
        return test, chance.pick(stamps)
    return test, chance.pick((min(stamps), chance.pick(stamps)))
