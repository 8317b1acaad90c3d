"""Runs of a certain size or shape, from which fixed questions are made."""

from __future__ import annotations

from functools import lru_cache
from typing import Sequence

import encode
from chance import Chance
from execution import LOWEST, Draft, Step, file_order, run_of, run_records, simulate
from marked import starts
from model import EQUAL, INTERNAL, RECEIVE, SEND, START, Channel
from reading import LONGEST_FILE


def many_states(count: int, last: bytes) -> bytes:
    """Two processes, the first with this many states and then one more record."""
    records = [encode.run_head(2, 1), encode.channel(0, 0, 1), *starts(2)]
    for number in range(2, count + 1):
        records.append(encode.state(0, INTERNAL, (number, 0), values=(number, 0, 0, 0)))
    return b"".join([*records, last, encode.end()])


def lone_process(count: int) -> bytes:
    records = [encode.run_head(1, 0)]
    for number in range(1, count + 1):
        event = START if number == 1 else INTERNAL
        records.append(encode.state(0, event, (number,), values=(number, 0, 0, -number)))
    return b"".join([*records, encode.end()])


@lru_cache(maxsize=None)
def run_of_size(process_count: int, channel_count: int, state_count: int) -> bytes:
    chance = Chance(process_count * 1_000 + channel_count)
    channels = [
        Channel(number % process_count, (number + 1) % process_count)
        for number in range(channel_count)
    ]
    draft = simulate(chance, process_count, channels, state_count)
    return b"".join(run_records(run_of(draft, file_order(chance, draft, "merged"))))


def longest_run() -> bytes:
    """As long as a sound run can be: all records have an even length, so none has 65,535."""
    run = run_of_size(8, 2, 1310)
    assert len(run) == LONGEST_FILE - 1
    return run


def too_long_run() -> bytes:
    """Well formed from its first byte to its last, and one byte too long."""
    run = run_of_size(5, 5, 1488)
    assert len(run) == LONGEST_FILE + 1
    return run


def longest_answer_run() -> tuple[bytes, bytes]:
    """A run and a condition whose answer is as long as any can be, the cut at the last states.

    All states have three digits there and all lowest stamps eleven characters. Twelve channels
    have a count of three digits: more of them take more sends than a file holds.
    """
    draft = Draft(8, [Channel(number % 8, (number + 1) % 8) for number in range(16)])
    for process in range(8):
        draft.add(process, Step(START))
    for number, (sender, _) in enumerate(draft.channels):
        for message in range(100 if number < 12 else 10):
            values = (len(draft.histories[sender]), 0, 0, 0)
            draft.add(sender, Step(SEND, number, message, LOWEST, values))
    clauses = [
        encode.local_clause(process, 0, EQUAL, len(history) - 1)
        for process, history in enumerate(draft.histories)
    ]
    return draft_bytes(draft, draft.executed), encode.condition(*clauses)


def circle_draft(process_count: int, hearers: int = 0) -> Draft:
    """Each process of a ring receives from the one behind and then sends ahead.

    The hearers are further processes to which the first one sends afterwards.
    """
    ring = range(process_count)
    channels = [Channel(process, (process + 1) % process_count) for process in ring]
    channels += [Channel(0, process_count + index) for index in range(hearers)]
    draft = Draft(process_count + hearers, channels)
    for process in range(process_count + hearers):
        draft.add(process, Step(START))
    for process in ring:
        draft.add(process, Step(RECEIVE, (process - 1) % process_count, 3))
        draft.add(process, Step(SEND, process, 3, 8))
    for index in range(hearers):
        draft.add(0, Step(SEND, process_count + index, index, 4))
        draft.add(process_count + index, Step(INTERNAL))
        draft.add(process_count + index, Step(RECEIVE, process_count + index, index))
    return draft


def draft_bytes(draft: Draft, order: list[int]) -> bytes:
    return b"".join(run_records(run_of(draft, order)))


def run_with_stamps(stamps: Sequence[int], received: Sequence[int]) -> bytes:
    """One process sends a message for each stamp, the other receives some of them."""
    draft = Draft(2, [Channel(0, 1)])
    draft.add(0, Step(START))
    draft.add(1, Step(START))
    largest = 2**32 - 1
    for index, stamp in enumerate(stamps):
        draft.add(0, Step(SEND, 0, largest - index, stamp, (index, 0, 0, 0)))
    for index in received:
        draft.add(1, Step(RECEIVE, 0, largest - index, 0, (index, 0, 0, 0)))
    return draft_bytes(draft, file_order(Chance(1), draft, "by process, last first"))


def unpaired_run(first: Sequence[Step], second: Sequence[Step], order: str) -> bytes:
    """Two processes and two channels from the first to the second, paired or not."""
    records = [encode.run_head(2, 2), encode.channel(0, 0, 1), encode.channel(1, 0, 1)]
    numbers = [0, 0]
    histories = ([Step(START), *first], [Step(START), *second])
    for letter in order:
        process = int(letter)
        step = histories[process][numbers[process]]
        numbers[process] += 1
        message = (step.channel, step.message, step.stamp)
        # Where a message isn't paired no clock is right, and none is judged.
        records.append(encode.state(process, step.event, numbers, message))
    return b"".join([*records, encode.end()])
