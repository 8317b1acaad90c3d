"""Prints the records of a run file or of a condition file, in words: what `look` has to print.

    look.py FILE
"""

from __future__ import annotations

import struct
import sys
from typing import Iterator, Optional

from answer import read_file
from model import RECEIVE, SEND, Channel, Run, State, clocks, direct_pairs, on_or_after_circle
from questions import record_at, shown_part
from reading import (
    CHANNEL_CLAUSE_LENGTH,
    CIRCLE,
    CLOCK,
    CONDITION,
    CONDITION_HEAD_LENGTH,
    FRAME_LENGTH,
    KIND,
    KIND_CHANNEL,
    KIND_CHANNEL_CLAUSE,
    KIND_CONDITION_HEAD,
    KIND_END,
    KIND_LOCAL_CLAUSE,
    KIND_RUN_HEAD,
    LENGTH,
    LOCAL_CLAUSE_LENGTH,
    MOST_CHANNELS,
    MOST_PROCESSES,
    PAIRING,
    RUN,
    Record,
    Refusal,
    judge_condition,
    judge_run,
    read_record,
    read_run,
)

WORDS = {
    1: "the file is over 65,535 bytes",
    2: "the record isn't whole, or the end is missing",
    3: "the record's length is wrong",
    4: "the record's kind is unknown or out of turn, or bytes follow the end",
    5: "no process or over 8, over 16 channels, over 32 clauses, or over 512 states of a process",
    6: "the run's format isn't 1",
    7: "a process, channel or value that doesn't exist",
    8: "an unknown event, comparison or test, or an unused field that isn't zero",
    9: "a process doesn't begin with its start, or has no state",
    10: "a send or receive by another process than the channel's",
    11: "a message is sent twice, received twice, or received and never sent",
    12: "a state is on a circle or after one",
    13: "a clock number is other than the rule's",
    14: "the test isn't linear, so no first cut is sure to exist",
}
COMPARISONS = {1: "equal", 2: "other than", 3: "at most", 4: "at least"}
TESTS = {
    1: "count at most",
    2: "count at least",
    3: "count exactly",
    4: "some stamp equals",
    5: "no stamp equals",
    6: "every stamp at least",
    7: "some stamp at most",
    8: "count odd",
    9: "count other than",
}
SIGNED_TESTS = (4, 5, 6, 7)

# A condition by itself is judged beside the most that a run may have.
MOST = Run(MOST_PROCESSES, [Channel(0, 1)] * MOST_CHANNELS, [])


def numbers(row: tuple[int, ...]) -> str:
    return " ".join(map(str, row))


def look_lines(data: bytes) -> list[str]:
    if data[2:4] == struct.pack("<H", KIND_CONDITION_HEAD):
        return list(condition_lines(data))
    return list(run_lines(data))


# A run


def run_lines(data: bytes) -> Iterator[str]:
    refusal = refusal_of(lambda: judge_run(data))
    counts: dict[int, int] = {}
    place = 0
    while refusal is None or place <= refusal.place:
        if refusal is not None and refusal.after and place == refusal.place:
            break
        try:
            record = record_at(data, place)
        except Refusal:
            break
        yield f"{place} {run_record(record, counts)}"
        if record.kind == KIND_END and refusal is None:
            return
        place = record.next_place
    assert refusal is not None
    yield from refusal_lines(refusal, data)
    if refusal.number in (PAIRING, CIRCLE, CLOCK):
        yield from more_lines(refusal, read_run(data))


def run_record(record: Record, counts: dict[int, int]) -> str:
    if record.kind == KIND_RUN_HEAD:
        process_count, channel_count = struct.unpack_from("<HH", record.body, 2)
        return f"run processes {process_count} channels {channel_count}"
    if record.kind == KIND_CHANNEL:
        number, sender, receiver = struct.unpack("<HHH", record.body)
        return f"channel {number} from {sender} to {receiver}"
    if record.kind == KIND_END:
        return "end"
    process, event, channel, message, stamp = struct.unpack_from("<HHHIi", record.body)
    counts[process] = counts.get(process, 0) + 1
    values = struct.unpack_from("<4i", record.body, 14)
    clock = struct.unpack(f"<{(len(record.body) - 30) // 2}H", record.body[30:])
    words = event_words(event, channel, message, stamp)
    number = counts[process]
    return f"process {process} state {number} {words} values {numbers(values)} clock {numbers(clock)}"


def event_words(event: int, channel: int, message: int, stamp: int) -> str:
    if event in (0, 1) and (channel, message, stamp) == (0, 0, 0):
        return ("start", "internal")[event]
    if event == SEND:
        return f"send channel {channel} message {message} stamp {stamp}"
    if event == RECEIVE and stamp == 0:
        return f"receive channel {channel} message {message}"
    return f"event {event} channel {channel} message {message} stamp {stamp}"


def more_lines(refusal: Refusal, run: Run) -> Iterator[str]:
    position = [state.place for state in run.states].index(refusal.place)
    if refusal.number == PAIRING:
        yield f"{refusal.place} {other_words(run, run.states[position])}"
    elif refusal.number == CIRCLE:
        for state in circle_behind(run, position):
            yield f"{state.place} circle process {state.process} state {state.number}"
    else:
        yield f"{refusal.place} clock by the rule {numbers(clocks(run)[position])}"


def other_words(run: Run, refused: State) -> str:
    for state in run.states:
        same = (state.event, state.channel, state.message)
        if state.place < refused.place and same == (refused.event, refused.channel, refused.message):
            return f"the other at {state.place}"
    return "no send"


def circle_behind(run: Run, position: int) -> list[State]:
    """Back from a state on a circle or after one, by its process first, until a circle has closed.

    It is told from its lowest place on.
    """
    marked = set(on_or_after_circle(run))
    own: dict[int, int] = {}
    other: dict[int, int] = {}
    for earlier, later in direct_pairs(run):
        if earlier in marked:
            same = run.states[earlier].process == run.states[later].process
            (own if same else other)[later] = earlier
    walked = [position]
    while walked.count(walked[-1]) == 1:
        last = walked[-1]
        walked.append(own[last] if last in own else other[last])
    circle = walked[walked.index(walked[-1]) : -1]
    first = circle.index(min(circle))
    return [run.states[each] for each in circle[first:] + circle[:first]]


# A condition


def condition_lines(data: bytes) -> Iterator[str]:
    refusal = refusal_of(lambda: judge_condition(data, MOST))
    place, owed = 0, 0
    while refusal is None or place <= refusal.place:
        if refusal is not None and refusal.after and place == refusal.place:
            break
        try:
            record = item_at(data, place, owed)
        except Refusal:
            break
        yield f"{place} {condition_record(record)}"
        if record.kind == KIND_END and refusal is None:
            return
        owed = struct.unpack("<H", record.body)[0] if place == 0 else owed - 1
        place = record.next_place
    assert refusal is not None
    yield from refusal_lines(refusal, data)


def item_at(data: bytes, place: int, owed: int) -> Record:
    record = read_record(data, place, CONDITION)
    lengths = {KIND_LOCAL_CLAUSE: LOCAL_CLAUSE_LENGTH, KIND_CHANNEL_CLAUSE: CHANNEL_CLAUSE_LENGTH}
    if place == 0:
        lengths = {KIND_CONDITION_HEAD: CONDITION_HEAD_LENGTH}
    elif owed == 0:
        lengths = {KIND_END: FRAME_LENGTH}
    record.refuse_if(record.kind not in lengths, KIND)
    record.refuse_if(record.length != lengths[record.kind], LENGTH)
    return record


def condition_record(record: Record) -> str:
    if record.kind == KIND_CONDITION_HEAD:
        return f"condition clauses {struct.unpack('<H', record.body)[0]}"
    if record.kind == KIND_END:
        return "end"
    if record.kind == KIND_LOCAL_CLAUSE:
        process, value, comparison, constant = struct.unpack("<HHHi", record.body)
        words = COMPARISONS.get(comparison, f"comparison {comparison}")
        return f"process {process} value {value} {words} {constant}"
    channel, test, count = struct.unpack("<HHI", record.body)
    (stamp,) = struct.unpack_from("<i", record.body, 4)
    operand = stamp if test in SIGNED_TESTS else count
    return f"channel {channel} {TESTS.get(test, f'test {test}')} {operand}"


# What a refusal adds


def refusal_of(judge) -> Optional[Refusal]:
    try:
        judge()
    except Refusal as refusal:
        return refusal
    return None


def refusal_lines(refusal: Refusal, data: bytes) -> Iterator[str]:
    part = shown_part(data, data, refusal)
    yield f"{refusal.place} refused {refusal.file} {refusal.number} {WORDS[refusal.number]}"
    yield f"{refusal.place} bytes {part.data.hex() or '-'}"


def main(arguments: list[str]) -> int:
    if len(arguments) != 1:
        print("usage: look.py FILE", file=sys.stderr)
        return 2
    data = read_file(arguments[0])
    if data is None:
        return 2
    for line in look_lines(data):
        sys.stdout.write(line + "\n")
    return 0


if __name__ == "__main__":
    sys.exit(main(sys.argv[1:]))
