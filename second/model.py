"""What a run means: before, circles, clocks, cuts, messages in transit, clauses.

Everything is computed straight from its definition, even where something
quicker is known, because this program exists to be compared with one that
takes the quicker ways.
"""

from __future__ import annotations

import itertools
from functools import cached_property
from math import prod
from typing import NamedTuple, Optional, Sequence, Union

START, INTERNAL, SEND, RECEIVE = 0, 1, 2, 3

EQUAL, OTHER_THAN, AT_MOST, AT_LEAST = 1, 2, 3, 4

COUNT_AT_MOST = 1
COUNT_AT_LEAST = 2
COUNT_EXACTLY = 3
SOME_STAMP_EQUALS = 4
NO_STAMP_EQUALS = 5
EVERY_STAMP_AT_LEAST = 6
SOME_STAMP_AT_MOST = 7
COUNT_ODD = 8
COUNT_OTHER_THAN = 9

# Going through every cut is the definition itself; above this many cuts it
# takes too long, and moving up stands in for it.
MOST_CUTS_ENUMERATED = 20_000

Cut = tuple[int, ...]


class Channel(NamedTuple):
    sender: int
    receiver: int


class State(NamedTuple):
    place: int
    process: int
    number: int
    event: int
    channel: int
    message: int
    stamp: int
    values: tuple[int, ...]
    clock: tuple[int, ...]


class LocalClause(NamedTuple):
    process: int
    value: int
    comparison: int
    constant: int


class ChannelClause(NamedTuple):
    """The operand is kept in both readings: the test decides which one counts."""

    channel: int
    test: int
    count: int
    stamp: int


Clause = Union[LocalClause, ChannelClause]


class Run:
    """States in file order; a state's position is its index in that order."""

    def __init__(
        self, process_count: int, channels: list[Channel], states: list[State]
    ) -> None:
        self.process_count = process_count
        self.channels = channels
        self.states = states

    @cached_property
    def histories(self) -> list[list[int]]:
        """For each process the positions of its states, in its own order."""
        histories: list[list[int]] = [[] for _ in range(self.process_count)]
        for position, state in enumerate(self.states):
            histories[state.process].append(position)
        return histories

    @cached_property
    def before(self) -> list[int]:
        """For each position the set of positions before it, as the bits of a number."""
        return transitive_closure(len(self.states), direct_pairs(self))

    @cached_property
    def sends(self) -> list[list[State]]:
        return states_by_channel(self, SEND)

    @cached_property
    def receives(self) -> list[list[State]]:
        return states_by_channel(self, RECEIVE)

    def state_of(self, process: int, number: int) -> State:
        return self.states[self.histories[process][number - 1]]

    def last_number(self, process: int) -> int:
        return len(self.histories[process])


def states_by_channel(run: Run, event: int) -> list[list[State]]:
    by_channel: list[list[State]] = [[] for _ in run.channels]
    for state in run.states:
        if state.event == event:
            by_channel[state.channel].append(state)
    return by_channel


# Before, circles, clocks


def direct_pairs(run: Run) -> list[tuple[int, int]]:
    """The pairs of positions from which before is made by transitivity."""
    pairs: list[tuple[int, int]] = []
    for history in run.histories:
        pairs.extend(zip(history, history[1:]))
    for sends, receives in zip(run.sends, run.receives):
        send_of = {send.message: send for send in sends}
        for receive in receives:
            send = send_of[receive.message]
            # The state ahead of the send counts, not the one it leads into.
            ahead = run.histories[send.process][send.number - 2]
            after = run.histories[receive.process][receive.number - 1]
            pairs.append((ahead, after))
    return pairs


def transitive_closure(size: int, pairs: list[tuple[int, int]]) -> list[int]:
    before = [0] * size
    for earlier, later in pairs:
        before[later] |= 1 << earlier
    for middle in range(size):
        bit = 1 << middle
        through = before[middle]
        before = [known | through if known & bit else known for known in before]
    return before


def on_or_after_circle(run: Run) -> list[int]:
    """The positions, in file order, that are on a circle or after one."""
    circle = 0
    for position, earlier in enumerate(run.before):
        if earlier >> position & 1:
            circle |= 1 << position
    return [
        position
        for position, earlier in enumerate(run.before)
        if circle >> position & 1 or earlier & circle
    ]


def clocks(run: Run) -> list[tuple[int, ...]]:
    """The clock of each position by the rule, whatever the file says."""
    members = [sum(1 << position for position in history) for history in run.histories]
    return [clock_at(run, members, position) for position in range(len(run.states))]


def clock_at(run: Run, members: list[int], position: int) -> tuple[int, ...]:
    own = run.states[position]
    clock = []
    for process, member_set in enumerate(members):
        earlier = run.before[position] & member_set
        if process == own.process:
            clock.append(own.number)
        elif earlier == 0:
            clock.append(0)
        else:
            # States of one process stand in the file in its own order, so the
            # highest position among them has the largest number.
            clock.append(run.states[earlier.bit_length() - 1].number)
    return tuple(clock)


# Cuts


def chosen_positions(run: Run, cut: Sequence[int]) -> list[int]:
    return [run.histories[process][number - 1] for process, number in enumerate(cut)]


def is_consistent(run: Run, cut: Sequence[int]) -> bool:
    """No chosen state is before another; without circles none is before itself."""
    chosen = chosen_positions(run, cut)
    chosen_set = 0
    for position in chosen:
        chosen_set |= 1 << position
    return not any(run.before[position] & chosen_set for position in chosen)


def stamps_in_transit(run: Run, cut: Sequence[int], channel: int) -> list[int]:
    """The stamps of the messages sent up to the cut and not received up to it."""
    sent = {
        send.message: send.stamp
        for send in run.sends[channel]
        if send.number <= cut[send.process]
    }
    received = {
        receive.message
        for receive in run.receives[channel]
        if receive.number <= cut[receive.process]
    }
    return [stamp for message, stamp in sent.items() if message not in received]


def lowest_stamp(stamps: list[int]) -> Optional[int]:
    """The lowest of the stamps as signed numbers, or None where there are none."""
    return min(stamps, default=None)


# Clauses


def comparison_holds(comparison: int, value: int, constant: int) -> bool:
    if comparison == EQUAL:
        return value == constant
    if comparison == OTHER_THAN:
        return value != constant
    if comparison == AT_MOST:
        return value <= constant
    if comparison == AT_LEAST:
        return value >= constant
    raise ValueError(f"no comparison {comparison}")


def channel_test_holds(clause: ChannelClause, stamps: list[int]) -> bool:
    if clause.test == COUNT_AT_MOST:
        return len(stamps) <= clause.count
    if clause.test == COUNT_AT_LEAST:
        return len(stamps) >= clause.count
    if clause.test == COUNT_EXACTLY:
        return len(stamps) == clause.count
    if clause.test == SOME_STAMP_EQUALS:
        return any(stamp == clause.stamp for stamp in stamps)
    if clause.test == NO_STAMP_EQUALS:
        return all(stamp != clause.stamp for stamp in stamps)
    if clause.test == EVERY_STAMP_AT_LEAST:
        return all(stamp >= clause.stamp for stamp in stamps)
    if clause.test == SOME_STAMP_AT_MOST:
        return any(stamp <= clause.stamp for stamp in stamps)
    raise ValueError(f"no linear test {clause.test}")


def clause_holds(run: Run, clause: Clause, cut: Sequence[int]) -> bool:
    if isinstance(clause, LocalClause):
        state = run.state_of(clause.process, cut[clause.process])
        value = state.values[clause.value]
        return comparison_holds(clause.comparison, value, clause.constant)
    return channel_test_holds(clause, stamps_in_transit(run, cut, clause.channel))


def is_satisfying(run: Run, clauses: list[Clause], cut: Sequence[int]) -> bool:
    return is_consistent(run, cut) and all(
        clause_holds(run, clause, cut) for clause in clauses
    )


# The first cut, by definition


def every_cut(run: Run) -> itertools.product:
    return itertools.product(
        *(range(1, len(history) + 1) for history in run.histories)
    )


def first_by_enumeration(run: Run, clauses: list[Clause]) -> Optional[Cut]:
    satisfying = [cut for cut in every_cut(run) if is_satisfying(run, clauses, cut)]
    if not satisfying:
        return None
    lowest = tuple(min(numbers) for numbers in zip(*satisfying))
    # A cut at or below every satisfying cut can only be this one; that it
    # satisfies too is what makes a first cut exist at all.
    assert lowest in satisfying, "satisfying cuts without a first among them"
    return lowest


# The first cut, by moving up, for runs with too many cuts to go through


def process_to_move(run: Run, clause: Clause, cut: Sequence[int]) -> int:
    """The process that has to move for a clause that is false at the cut."""
    if isinstance(clause, LocalClause):
        return clause.process
    sender, receiver = run.channels[clause.channel]
    if clause.test in (COUNT_AT_LEAST, SOME_STAMP_EQUALS, SOME_STAMP_AT_MOST):
        return sender
    if clause.test in (COUNT_AT_MOST, NO_STAMP_EQUALS, EVERY_STAMP_AT_LEAST):
        return receiver
    if clause.test == COUNT_EXACTLY:
        fewer = len(stamps_in_transit(run, cut, clause.channel)) < clause.count
        return sender if fewer else receiver
    raise ValueError(f"no linear test {clause.test}")


def processes_left_behind(run: Run, cut: Sequence[int]) -> list[int]:
    """Processes whose chosen state is before another chosen state."""
    chosen = chosen_positions(run, cut)
    before_some = 0
    for position in chosen:
        before_some |= run.before[position]
    return [
        process
        for process, position in enumerate(chosen)
        if before_some >> position & 1
    ]


def processes_to_move(run: Run, clauses: list[Clause], cut: Sequence[int]) -> list[int]:
    to_move = set(processes_left_behind(run, cut))
    for clause in clauses:
        if not clause_holds(run, clause, cut):
            to_move.add(process_to_move(run, clause, cut))
    return sorted(to_move)


def first_by_moving_up(run: Run, clauses: list[Clause]) -> Optional[Cut]:
    cut = [1] * run.process_count
    while True:
        to_move = processes_to_move(run, clauses, cut)
        if not to_move:
            return tuple(cut)
        for process in to_move:
            if cut[process] == run.last_number(process):
                return None
            cut[process] += 1


def first_cut(run: Run, clauses: list[Clause]) -> Optional[Cut]:
    if prod(len(history) for history in run.histories) <= MOST_CUTS_ENUMERATED:
        return first_by_enumeration(run, clauses)
    return first_by_moving_up(run, clauses)
