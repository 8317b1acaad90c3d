"""Simulated executions of processes that exchange messages, written as runs."""

from __future__ import annotations

from typing import NamedTuple, Optional

import encode
from chance import Chance
from model import (
    INTERNAL,
    RECEIVE,
    SEND,
    START,
    Channel,
    Cut,
    Run,
    State,
    clocks,
)
from reading import MOST_CHANNELS, MOST_STATES

LOWEST, HIGHEST = -(2**31), 2**31 - 1
LARGEST_MESSAGE = 2**32 - 1
EXTREMES = (LOWEST, LOWEST + 1, -1, 0, 1, HIGHEST - 1, HIGHEST)

# Shares of sends, receives and internal events.
MIXES = ((3, 3, 1), (5, 2, 1), (2, 5, 1), (1, 1, 4), (6, 1, 1), (4, 5, 0))
VALUE_STYLES = ("counter", "counter", "small", "extreme", "falling", "rare", "zero")
STAMP_STYLES = ("extreme", "small", "rising", "falling")
NUMBER_STYLES = ("rising", "falling", "scattered")
ORDER_STYLES = ("merged", "merged", "executed", "by process", "by process, last first")


class Step(NamedTuple):
    event: int
    channel: int = 0
    message: int = 0
    stamp: int = 0
    values: tuple[int, ...] = (0, 0, 0, 0)


class Draft:
    """An execution ahead of writing: steps by process, and what happened when."""

    def __init__(self, process_count: int, channels: list[Channel]) -> None:
        self.channels = channels
        self.histories: list[list[Step]] = [[] for _ in range(process_count)]
        self.executed: list[int] = []
        # Where all processes stood at some moment is always a consistent cut.
        self.cuts: list[Cut] = []

    @property
    def process_count(self) -> int:
        return len(self.histories)

    def add(self, process: int, step: Step) -> None:
        self.histories[process].append(step)
        self.executed.append(process)
        if all(self.histories):
            self.cuts.append(tuple(len(history) for history in self.histories))


class Execution:
    """Draws steps one after another, receiving only what has been sent."""

    def __init__(self, chance: Chance, draft: Draft) -> None:
        self.chance = chance
        self.draft = draft
        self.pending: list[list[int]] = [[] for _ in draft.channels]
        self.used: list[list[int]] = [[] for _ in draft.channels]
        self.number_style = chance.pick(NUMBER_STYLES)
        self.stamp_style = chance.pick(STAMP_STYLES)
        self.value_styles = [chance.pick(VALUE_STYLES) for _ in range(4)]
        self.mix = chance.pick(MIXES)
        self.in_order = chance.percent(50)
        processes = list(range(draft.process_count))
        self.favoured = processes + [chance.pick(processes) for _ in processes]

    def start_all(self) -> None:
        for process in range(self.draft.process_count):
            self.draft.add(process, Step(START, values=self.values(1)))

    def advance(self) -> None:
        process = self.chance.pick(self.favoured)
        number = len(self.draft.histories[process]) + 1
        if number > MOST_STATES:
            return
        values = self.values(number)
        outgoing = self.channels_from(process)
        waiting = self.channels_waiting_for(process)
        event = self.chance.weighted(
            (self.mix[0] if outgoing else 0, SEND),
            (self.mix[1] if waiting else 0, RECEIVE),
            (self.mix[2] + (not outgoing and not waiting), INTERNAL),
        )
        if event == SEND:
            self.draft.add(process, self.send(self.chance.pick(outgoing), values))
        elif event == RECEIVE:
            self.draft.add(process, self.receive(self.chance.pick(waiting), values))
        else:
            self.draft.add(process, Step(INTERNAL, values=values))

    def channels_from(self, process: int) -> list[int]:
        return [
            number
            for number, channel in enumerate(self.draft.channels)
            if channel.sender == process
        ]

    def channels_waiting_for(self, process: int) -> list[int]:
        return [
            number
            for number, channel in enumerate(self.draft.channels)
            if channel.receiver == process and self.pending[number]
        ]

    def send(self, channel: int, values: tuple[int, ...]) -> Step:
        used = self.used[channel]
        message = fresh_message(self.chance, self.number_style, used)
        stamp = next_stamp(self.chance, self.stamp_style, len(used))
        used.append(message)
        self.pending[channel].append(message)
        return Step(SEND, channel, message, stamp, values)

    def receive(self, channel: int, values: tuple[int, ...]) -> Step:
        pending = self.pending[channel]
        index = 0 if self.in_order else self.chance.below(len(pending))
        return Step(RECEIVE, channel, pending.pop(index), 0, values)

    def values(self, number: int) -> tuple[int, ...]:
        return tuple(
            next_value(self.chance, style, number) for style in self.value_styles
        )


def fresh_message(chance: Chance, style: str, used: list[int]) -> int:
    if style == "rising":
        message = len(used)
    elif style == "falling":
        message = LARGEST_MESSAGE - len(used)
    else:
        message = chance.pick((0, LARGEST_MESSAGE, 1, 2**31, 2**16))
    while message in used:
        message = chance.below(2**32)
    return message


def next_stamp(chance: Chance, style: str, sent_already: int) -> int:
    if style == "extreme":
        return chance.pick(EXTREMES)
    if style == "small":
        return chance.between(-2, 3)
    return sent_already if style == "rising" else -sent_already


def next_value(chance: Chance, style: str, number: int) -> int:
    if style == "counter":
        return number
    if style == "small":
        return chance.below(3)
    if style == "extreme":
        return chance.pick(EXTREMES)
    if style == "falling":
        return -number
    if style == "rare":
        return int(chance.percent(12))
    return 0


# Shapes


def draw_channels(chance: Chance, process_count: int, most: int) -> list[Channel]:
    """Ends drawn one by one, with a good share of second channels and of returns."""
    if process_count == 1 or chance.percent(8):
        return []
    channels: list[Channel] = []
    for _ in range(chance.between(1, min(most, MOST_CHANNELS))):
        if channels and chance.percent(30):
            channels.append(chance.pick(channels))
        elif channels and chance.percent(40):
            sender, receiver = chance.pick(channels)
            channels.append(Channel(receiver, sender))
        else:
            sender = chance.below(process_count)
            step = chance.between(1, process_count - 1)
            channels.append(Channel(sender, (sender + step) % process_count))
    return channels


def simulate(
    chance: Chance, process_count: int, channels: list[Channel], state_count: int
) -> Draft:
    draft = Draft(process_count, channels)
    execution = Execution(chance, draft)
    execution.start_all()
    while len(draft.executed) < state_count:
        execution.advance()
    return draft


def add_untimely_message(chance: Chance, draft: Draft) -> bool:
    """A message put in without regard to time; two or more often close a circle."""
    if not draft.channels:
        return False
    channel = chance.below(len(draft.channels))
    sender, receiver = draft.channels[channel]
    used = [
        step.message
        for step in draft.histories[sender]
        if step.event == SEND and step.channel == channel
    ]
    message = fresh_message(chance, chance.pick(NUMBER_STYLES), used)
    insert_step(chance, draft, sender, Step(SEND, channel, message, chance.below(9)))
    insert_step(chance, draft, receiver, Step(RECEIVE, channel, message))
    return True


def insert_step(chance: Chance, draft: Draft, process: int, step: Step) -> None:
    history = draft.histories[process]
    history.insert(chance.between(1, len(history)), step)
    draft.executed.append(process)


# Writing


def file_order(chance: Chance, draft: Draft, style: Optional[str] = None) -> list[int]:
    """Which process the next state record of the file belongs to, record by record."""
    style = style or chance.pick(ORDER_STYLES)
    if style == "executed":
        return list(draft.executed)
    lengths = [len(history) for history in draft.histories]
    if style == "merged":
        return merged(chance, lengths)
    processes = list(range(len(lengths)))
    if style == "by process, last first":
        processes.reverse()
    return [process for process in processes for _ in range(lengths[process])]


def merged(chance: Chance, lengths: list[int]) -> list[int]:
    left = list(lengths)
    order: list[int] = []
    while any(left):
        # Runs of one process, of all lengths, part sends and receives further
        # than a draw for each single record would.
        process = chance.pick([index for index, count in enumerate(left) if count])
        taken = min(left[process], chance.pick((1, 1, 1, 2, 3, 8)))
        order.extend([process] * taken)
        left[process] -= taken
    return order


def run_of(draft: Draft, order: list[int]) -> Run:
    """The run as the file will hold it, with the clocks that the rule gives."""
    numbers = [0] * draft.process_count
    states = []
    for process in order:
        step = draft.histories[process][numbers[process]]
        numbers[process] += 1
        states.append(State(0, process, numbers[process], *step, clock=()))
    run = Run(draft.process_count, draft.channels, states)
    timed = [state._replace(clock=clock) for state, clock in zip(states, clocks(run))]
    return Run(draft.process_count, draft.channels, timed)


def run_records(run: Run) -> list[bytes]:
    records = [encode.run_head(run.process_count, len(run.channels))]
    for number, (sender, receiver) in enumerate(run.channels):
        records.append(encode.channel(number, sender, receiver))
    for state in run.states:
        message = (state.channel, state.message, state.stamp)
        records.append(
            encode.state(state.process, state.event, state.clock, message, state.values)
        )
    records.append(encode.end())
    return records
