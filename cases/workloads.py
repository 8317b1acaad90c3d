"""Runs and conditions for measuring, the same on every call.

    workloads.py FOLDER

writes for each workload NAME.run.rec, NAME.cond.rec, and the search over both as
NAME.case, in the form that cases.py describes.

  ordinary          8 stations, as many bytes as a run may have, message numbers
                    rising, received in the order they were sent, eight clauses
                    whose first cut is near the end
  ordinary-half     the same with half as many states
  ordinary-quarter  the same with a quarter
  longest           the search moves as often as it can, with the most clauses
  counted           as long, with clauses that count the messages on a channel alone
  counted-half      the same with half as many states
  stamped           as long, with clauses that ask for stamps alone
  stamped-half      the same with half as many states
  mixed             nearly as long, with clauses of both kinds
  none              the ordinary run; seven of its clauses and one that never holds
  hostile           numbers and receives in the order that costs the pairing most
  desks             the run of two desks with marked case 4
  refused-late      the ordinary run with a wrong clock in its last state
  largest           the ordinary run with the most clauses
"""

from __future__ import annotations

import sys
from pathlib import Path
from typing import Iterator, NamedTuple

ROOT = Path(__file__).resolve().parent.parent
sys.path[:0] = [str(ROOT / "second"), str(ROOT / "cases")]

import encode  # noqa: E402
from cases import encode_case  # noqa: E402
from chance import Chance  # noqa: E402
from conditions import Aim, channel_clause, encode_clause  # noqa: E402
from damage import get, put  # noqa: E402
from execution import LARGEST_MESSAGE, Draft, Execution, Step, run_of, run_records  # noqa: E402
from marked import marked_conditions, two_desks  # noqa: E402
from model import (  # noqa: E402
    AT_LEAST,
    COUNT_AT_LEAST,
    COUNT_AT_MOST,
    COUNT_EXACTLY,
    EVERY_STAMP_AT_LEAST,
    INTERNAL,
    NO_STAMP_EQUALS,
    RECEIVE,
    SEND,
    SOME_STAMP_AT_MOST,
    SOME_STAMP_EQUALS,
    START,
    Channel,
    ChannelClause,
    Clause,
    LocalClause,
    Run,
    stamps_in_transit,
)
from questions import SEARCH, Question  # noqa: E402
from reading import MOST_CLAUSES, MOST_PROCESSES, MOST_STATES  # noqa: E402

SEED = 1

# With twelve channels these are 65,534 bytes. All records have an even length,
# so no sound run is longer.
ORDINARY_STATES = 1_308
# Shares of sends, receives and internal events: little is in transit at a time.
ORDINARY_MIX = (2, 5, 1)
# The first cut is at this share of the run, in a hundred.
NEAR_THE_END = 95

# The most states that a run with channels can have: of fewer processes the
# states run out first, of more processes the bytes.
LONGEST_PROCESSES = 4
LONGEST_STATES = 1_559

# Sent by each process in a row at the end. At a consistent cut no sender is so many
# rounds ahead of its receiver, so only then are so many messages on its channel.
LAST_SENDS = 8

# As many processes as may have all their states: the more states a process has,
# the longer its messages are sought.
HOSTILE_PROCESSES = 3
# Messages are received last first within blocks. The checker looks for a send
# behind the one found last, so it misses all but the first of a block there and
# looks again from the start. Of all sizes of a block this one costs it most.
HOSTILE_BLOCK = 16


class Workload(NamedTuple):
    name: str
    run: bytes
    condition: bytes

    @property
    def question(self) -> Question:
        return Question(SEARCH, MOST_PROCESSES, (), self.run, self.condition)


def workloads() -> Iterator[Workload]:
    aim = ordinary(ORDINARY_STATES)
    run, clauses = as_bytes(aim.run), ordinary_clauses(aim)
    yield Workload("ordinary", run, as_condition(clauses))
    for name, share in (("ordinary-half", 2), ("ordinary-quarter", 4)):
        aim = ordinary(ORDINARY_STATES // share)
        yield Workload(name, as_bytes(aim.run), as_condition(ordinary_clauses(aim)))
    yield longest()
    yield counted("counted", LONGEST_STATES)
    yield counted("counted-half", LONGEST_STATES // 2)
    yield stamped("stamped", LONGEST_STATES)
    yield stamped("stamped-half", LONGEST_STATES // 2)
    yield mixed()
    never = channel_clause(0, SOME_STAMP_EQUALS, -1)
    yield Workload("none", run, as_condition([*clauses[:-1], never]))
    yield hostile()
    yield Workload("desks", two_desks(), marked_conditions()[2])
    yield Workload("refused-late", wrong_at_the_end(run), as_condition(clauses))
    most = (clauses * MOST_CLAUSES)[:MOST_CLAUSES]
    yield Workload("largest", run, as_condition(most))


def as_bytes(run: Run) -> bytes:
    return b"".join(run_records(run))


def as_condition(clauses: list[Clause]) -> bytes:
    return encode.condition(*map(encode_clause, clauses))


def ring(process_count: int) -> list[Channel]:
    return [
        Channel(process, (process + 1) % process_count)
        for process in range(process_count)
    ]


# The ordinary run


def ordinary(state_count: int) -> Aim:
    """The run, and a cut near its end."""
    across = [Channel(process, process + 4) for process in range(4)]
    draft = Draft(MOST_PROCESSES, ring(MOST_PROCESSES) + across)
    execution = Execution(Chance(SEED), draft)
    execution.number_style = execution.stamp_style = "rising"
    execution.value_styles = ["counter", "small", "rare", "small"]
    execution.favoured = list(range(MOST_PROCESSES))
    execution.mix = ORDINARY_MIX
    execution.in_order = True
    execution.start_all()
    while len(draft.executed) < state_count:
        execution.advance()
    target = draft.cuts[len(draft.cuts) * NEAR_THE_END // 100]
    return Aim(run_of(draft, draft.executed), target, draft.cuts[0])


def ordinary_clauses(aim: Aim) -> list[Clause]:
    """Local and channel clauses in turn, each of them true at the target."""
    clauses: list[Clause] = []
    tests = (COUNT_AT_MOST, EVERY_STAMP_AT_LEAST, NO_STAMP_EQUALS, COUNT_AT_LEAST)
    for index, test in enumerate(tests):
        process = 2 * index
        clauses.append(LocalClause(process, 0, AT_LEAST, aim.target[process]))
        clauses.append(true_clause(aim, 3 * index, test))
    return clauses


def true_clause(aim: Aim, channel: int, test: int) -> ChannelClause:
    """Stamps rise on a channel, so one below those in transit has come through."""
    stamps = stamps_in_transit(aim.run, aim.target, channel)
    if test in (COUNT_AT_MOST, COUNT_AT_LEAST):
        return channel_clause(channel, test, len(stamps))
    sent = sum(
        send.number <= aim.target[send.process] for send in aim.run.sends[channel]
    )
    lowest = min(stamps, default=sent)
    return channel_clause(channel, test, lowest - (test == NO_STAMP_EQUALS))


def wrong_at_the_end(run: bytes) -> bytes:
    """A wrong number in the last place of the last state's clock."""
    changed = bytearray(run)
    place = len(run) - len(encode.end()) - 2
    put(changed, place, get(changed, place) + 1)
    return bytes(changed)


# Runs whose states are laid out one by one


class Layout:
    """Processes in a ring, all of which take the same steps one after another."""

    def __init__(self, process_count: int) -> None:
        self.draft = Draft(process_count, ring(process_count))
        for process in range(process_count):
            self.step(process, START)

    def step(self, process: int, event: int, channel: int = 0, message: int = 0) -> None:
        number = len(self.draft.histories[process]) + 1
        stamp = number if event == SEND else 0
        step = Step(event, channel, message, stamp, (number, 0, 0, 0))
        self.draft.add(process, step)

    def all_send(self, message: int) -> None:
        for channel, (sender, _) in enumerate(self.draft.channels):
            self.step(sender, SEND, channel, message)

    def all_receive(self, message: int) -> None:
        for channel, (_, receiver) in enumerate(self.draft.channels):
            self.step(receiver, RECEIVE, channel, message)

    def fill(self, state_count: int) -> None:
        """Internal events in turn, up to this many states in all."""
        while len(self.draft.executed) < state_count:
            self.step(len(self.draft.executed) % self.draft.process_count, INTERNAL)

    def take_rounds(self, state_count: int) -> None:
        """Rounds of a send, a receive and an internal event, up to this many states in all."""
        left = state_count - len(self.draft.executed)
        for message in range(left // (3 * self.draft.process_count)):
            self.all_send(message)
            self.all_receive(message)
            self.fill(len(self.draft.executed) + self.draft.process_count)

    def run(self) -> Run:
        return run_of(self.draft, self.draft.executed)

    def at_the_end(self) -> list[Clause]:
        """A clause for each process that holds at its last state alone."""
        return [
            LocalClause(process, 0, AT_LEAST, len(history))
            for process, history in enumerate(self.draft.histories)
        ]

    def last_stamps(self) -> list[Clause]:
        """A clause for each channel that is false until its sender's last state, a send."""
        return [
            channel_clause(channel, SOME_STAMP_EQUALS, len(self.draft.histories[sender]))
            for channel, (sender, _) in enumerate(self.draft.channels)
        ]


def on_each_channel(tests: tuple[tuple[int, int], ...]) -> list[Clause]:
    return [
        channel_clause(channel, test, operand)
        for channel in range(LONGEST_PROCESSES)
        for test, operand in tests
    ]


def longest() -> Workload:
    """A move tests all clauses: the local ones, false up to the end, stand last."""
    layout = Layout(LONGEST_PROCESSES)
    layout.take_rounds(LONGEST_STATES)
    layout.fill(LONGEST_STATES)
    clauses = on_each_channel((
        (COUNT_AT_MOST, 0), (COUNT_AT_LEAST, 0), (COUNT_EXACTLY, 0),
        (NO_STAMP_EQUALS, 2), (NO_STAMP_EQUALS, MOST_STATES),
        (EVERY_STAMP_AT_LEAST, 0), (EVERY_STAMP_AT_LEAST, MOST_STATES),
    ))
    condition = as_condition(clauses + layout.at_the_end())
    return Workload("longest", as_bytes(layout.run()), condition)


def ending_in_sends(state_count: int) -> Layout:
    """Rounds, internal events for the states that are left over, and the last sends."""
    layout = Layout(LONGEST_PROCESSES)
    before_the_last = state_count - LAST_SENDS * LONGEST_PROCESSES
    layout.take_rounds(before_the_last)
    layout.fill(before_the_last)
    for message in range(MOST_STATES, MOST_STATES + LAST_SENDS):
        layout.all_send(message)
    return layout


def counted(name: str, state_count: int) -> Workload:
    """All clauses count: those that always hold, then one for each sender's last send."""
    layout = ending_in_sends(state_count)
    always = on_each_channel((
        (COUNT_AT_LEAST, 0), (COUNT_AT_MOST, MOST_STATES - 3), (COUNT_AT_MOST, MOST_STATES - 2),
        (COUNT_AT_LEAST, 0), (COUNT_AT_MOST, MOST_STATES - 1), (COUNT_AT_MOST, MOST_STATES),
        (COUNT_AT_LEAST, 0),
    ))
    condition = as_condition(always + on_each_channel(((COUNT_EXACTLY, LAST_SENDS),)))
    return Workload(name, as_bytes(layout.run()), condition)


def stamped(name: str, state_count: int) -> Workload:
    """All clauses ask for stamps, and name every move.

    After those that always hold comes one for each channel that is false where it is
    empty, so that all processes go on side by side, then one for each sender's last send.
    """
    layout = ending_in_sends(state_count)
    always = on_each_channel((
        (NO_STAMP_EQUALS, 0), (NO_STAMP_EQUALS, 1), (NO_STAMP_EQUALS, MOST_STATES),
        (EVERY_STAMP_AT_LEAST, 0), (EVERY_STAMP_AT_LEAST, 1), (EVERY_STAMP_AT_LEAST, 2),
    ))
    not_empty = on_each_channel(((SOME_STAMP_AT_MOST, MOST_STATES),))
    condition = as_condition(always + not_empty + layout.last_stamps())
    return Workload(name, as_bytes(layout.run()), condition)


def mixed() -> Workload:
    """Counts and stamps, mostly of empty channels."""
    layout = Layout(LONGEST_PROCESSES)
    layout.take_rounds(LONGEST_STATES)
    last = len(layout.draft.histories[0]) + 1
    layout.all_send(last)
    clauses = on_each_channel((
        (COUNT_AT_LEAST, 0), (COUNT_AT_MOST, MOST_STATES - 1), (COUNT_AT_MOST, MOST_STATES),
        (NO_STAMP_EQUALS, 0), (NO_STAMP_EQUALS, MOST_STATES),
        (EVERY_STAMP_AT_LEAST, 0), (EVERY_STAMP_AT_LEAST, 1),
    ))
    condition = as_condition(clauses + layout.last_stamps())
    return Workload("mixed", as_bytes(layout.run()), condition)


def hostile() -> Workload:
    """Numbers fall, so that each send and receive is sought among all before it."""
    layout = Layout(HOSTILE_PROCESSES)
    messages = [LARGEST_MESSAGE - index for index in range(MOST_STATES // 2 - 1)]
    for message in messages:
        layout.all_send(message)
    for first in range(0, len(messages), HOSTILE_BLOCK):
        for message in reversed(messages[first : first + HOSTILE_BLOCK]):
            layout.all_receive(message)
    layout.fill(HOSTILE_PROCESSES * MOST_STATES)
    condition = as_condition(layout.at_the_end())
    return Workload("hostile", as_bytes(layout.run()), condition)


# The files


def write_workloads(folder: Path) -> list[Workload]:
    made = list(workloads())
    for workload in made:
        (folder / f"{workload.name}.run.rec").write_bytes(workload.run)
        (folder / f"{workload.name}.cond.rec").write_bytes(workload.condition)
        (folder / f"{workload.name}.case").write_bytes(encode_case(workload.question))
    return made


def main(arguments: list[str]) -> int:
    if len(arguments) != 1:
        print("usage: workloads.py FOLDER", file=sys.stderr)
        return 2
    folder = Path(arguments[0])
    folder.mkdir(parents=True, exist_ok=True)
    for workload in write_workloads(folder):
        print(f"{workload.name}: {len(workload.run)} and {len(workload.condition)} bytes")
    return 0


if __name__ == "__main__":
    sys.exit(main(sys.argv[1:]))
