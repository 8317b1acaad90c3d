"""Bytes to a judged run or condition, or the one refusal that comes first.

The order of the tests in each function is the order in which refusals are
given, so no two of them may be exchanged.
"""

from __future__ import annotations

import struct
from typing import NamedTuple

from model import (
    COUNT_ODD,
    COUNT_OTHER_THAN,
    RECEIVE,
    SEND,
    START,
    Channel,
    ChannelClause,
    Clause,
    LocalClause,
    Run,
    State,
    clocks,
    on_or_after_circle,
)

RUN, CONDITION = "run", "cond"

LONGEST_FILE = 65_535
MOST_PROCESSES = 8
MOST_CHANNELS = 16
MOST_STATES = 512
MOST_CLAUSES = 32
VALUES_PER_STATE = 4
FORMAT = 1

KIND_RUN_HEAD = 1
KIND_CHANNEL = 2
KIND_STATE = 3
KIND_END = 4
KIND_CONDITION_HEAD = 16
KIND_LOCAL_CLAUSE = 17
KIND_CHANNEL_CLAUSE = 18

FRAME_LENGTH = 4
RUN_HEAD_LENGTH = 10
CHANNEL_LENGTH = 10
CONDITION_HEAD_LENGTH = 6
LOCAL_CLAUSE_LENGTH = 14
CHANNEL_CLAUSE_LENGTH = 12

TOO_LONG = 1
CUT_SHORT = 2
LENGTH = 3
KIND = 4
LIMIT = 5
WRONG_FORMAT = 6
NAME = 7
FIELD = 8
MISSING_START = 9
SIDE = 10
PAIRING = 11
CIRCLE = 12
CLOCK = 13
NOT_LINEAR = 14
NO_ROOM = 15
WRONG_CUT = 16
WRONG_CHANNEL = 17


class Refusal(Exception):
    """`after` tells the two uses of refusal 4 apart: bytes after the end record."""

    def __init__(self, file: str, number: int, place: int, after: bool = False) -> None:
        super().__init__(file, number, place, after)
        self.file = file
        self.number = number
        self.place = place
        self.after = after


class Record(NamedTuple):
    file: str
    place: int
    kind: int
    length: int
    body: bytes

    @property
    def next_place(self) -> int:
        return self.place + self.length

    def refuse_if(self, fault: bool, number: int) -> None:
        if fault:
            raise Refusal(self.file, number, self.place)


def state_length(process_count: int) -> int:
    return 34 + 2 * process_count


# Frames, the same for both files


def refuse_too_long(data: bytes, file: str) -> None:
    if len(data) > LONGEST_FILE:
        raise Refusal(file, TOO_LONG, 0)


def read_record(data: bytes, place: int, file: str) -> Record:
    left = len(data) - place
    if left < 2:
        raise Refusal(file, CUT_SHORT, place)
    (length,) = struct.unpack_from("<H", data, place)
    if length < FRAME_LENGTH:
        raise Refusal(file, LENGTH, place)
    if left < length:
        raise Refusal(file, CUT_SHORT, place)
    (kind,) = struct.unpack_from("<H", data, place + 2)
    body = data[place + FRAME_LENGTH : place + length]
    return Record(file, place, kind, length, body)


def refuse_bytes_after(data: bytes, place: int, file: str) -> None:
    if len(data) > place:
        raise Refusal(file, KIND, place, after=True)


# A run, record by record


def judge_run(data: bytes) -> Run:
    run = read_run(data)
    judge_pairing(run.states)
    judge_circles(run)
    judge_clocks(run)
    return run


def read_run(data: bytes) -> Run:
    """The run with what each record by itself is refused for, and no more."""
    refuse_too_long(data, RUN)
    head = read_record(data, 0, RUN)
    process_count, channel_count = judge_run_head(head)
    place = head.next_place
    channels: list[Channel] = []
    while len(channels) < channel_count:
        record = read_record(data, place, RUN)
        channels.append(judge_channel(record, len(channels), process_count))
        place = record.next_place
    states, place = read_states(data, place, process_count, channels)
    refuse_bytes_after(data, place, RUN)
    return Run(process_count, channels, states)


def judge_run_head(record: Record) -> tuple[int, int]:
    record.refuse_if(record.kind != KIND_RUN_HEAD, KIND)
    record.refuse_if(record.length != RUN_HEAD_LENGTH, LENGTH)
    file_format, process_count, channel_count = struct.unpack("<HHH", record.body)
    record.refuse_if(file_format != FORMAT, WRONG_FORMAT)
    record.refuse_if(not 1 <= process_count <= MOST_PROCESSES, LIMIT)
    record.refuse_if(channel_count > MOST_CHANNELS, LIMIT)
    return process_count, channel_count


def judge_channel(record: Record, turn: int, process_count: int) -> Channel:
    record.refuse_if(record.kind != KIND_CHANNEL, KIND)
    record.refuse_if(record.length != CHANNEL_LENGTH, LENGTH)
    number, sender, receiver = struct.unpack("<HHH", record.body)
    record.refuse_if(number != turn, NAME)
    record.refuse_if(sender >= process_count or receiver >= process_count, NAME)
    record.refuse_if(sender == receiver, NAME)
    return Channel(sender, receiver)


def read_states(
    data: bytes, place: int, process_count: int, channels: list[Channel]
) -> tuple[list[State], int]:
    """All states up to the end record, with the place after that record."""
    states: list[State] = []
    counts = [0] * process_count
    while True:
        record = read_record(data, place, RUN)
        record.refuse_if(record.kind not in (KIND_STATE, KIND_END), KIND)
        if record.kind == KIND_END:
            record.refuse_if(record.length != FRAME_LENGTH, LENGTH)
            record.refuse_if(0 in counts, MISSING_START)
            return states, record.next_place
        record.refuse_if(record.length != state_length(process_count), LENGTH)
        state = judge_state(record, counts, channels)
        counts[state.process] += 1
        states.append(state)
        place = record.next_place


def judge_state(record: Record, counts: list[int], channels: list[Channel]) -> State:
    process, event, channel, message, stamp = struct.unpack_from(
        "<HHHIi", record.body, 0
    )
    values = struct.unpack_from("<4i", record.body, 14)
    clock = struct.unpack_from(f"<{len(counts)}H", record.body, 30)
    names_channel = event in (SEND, RECEIVE)
    record.refuse_if(process >= len(counts), NAME)
    record.refuse_if(names_channel and channel >= len(channels), NAME)
    record.refuse_if(counts[process] == MOST_STATES, LIMIT)
    record.refuse_if(event > RECEIVE, FIELD)
    record.refuse_if(not names_channel and (channel, message, stamp) != (0, 0, 0), FIELD)
    record.refuse_if(event == RECEIVE and stamp != 0, FIELD)
    is_first = counts[process] == 0
    record.refuse_if((event == START) != is_first, MISSING_START)
    record.refuse_if(event == SEND and channels[channel].sender != process, SIDE)
    record.refuse_if(event == RECEIVE and channels[channel].receiver != process, SIDE)
    number = counts[process] + 1
    return State(
        record.place, process, number, event, channel, message, stamp, values, clock
    )


# A run, over all records


def judge_pairing(states: list[State]) -> None:
    all_sent = {
        (state.channel, state.message) for state in states if state.event == SEND
    }
    sent: set[tuple[int, int]] = set()
    received: set[tuple[int, int]] = set()
    for state in states:
        message = (state.channel, state.message)
        if state.event == SEND:
            if message in sent:
                raise Refusal(RUN, PAIRING, state.place)
            sent.add(message)
        if state.event == RECEIVE:
            # A receive may stand ahead of its send, so all sends count here.
            if message in received or message not in all_sent:
                raise Refusal(RUN, PAIRING, state.place)
            received.add(message)


def judge_circles(run: Run) -> None:
    positions = on_or_after_circle(run)
    if positions:
        raise Refusal(RUN, CIRCLE, run.states[positions[0]].place)


def judge_clocks(run: Run) -> None:
    for state, clock in zip(run.states, clocks(run)):
        if state.clock != clock:
            raise Refusal(RUN, CLOCK, state.place)


# A condition


def judge_condition(data: bytes, run: Run) -> list[Clause]:
    refuse_too_long(data, CONDITION)
    head = read_record(data, 0, CONDITION)
    clause_count = judge_condition_head(head)
    place = head.next_place
    clauses: list[Clause] = []
    while len(clauses) < clause_count:
        record = read_record(data, place, CONDITION)
        clauses.append(judge_clause(record, run))
        place = record.next_place
    end = read_record(data, place, CONDITION)
    end.refuse_if(end.kind != KIND_END, KIND)
    end.refuse_if(end.length != FRAME_LENGTH, LENGTH)
    refuse_bytes_after(data, end.next_place, CONDITION)
    return clauses


def judge_condition_head(record: Record) -> int:
    record.refuse_if(record.kind != KIND_CONDITION_HEAD, KIND)
    record.refuse_if(record.length != CONDITION_HEAD_LENGTH, LENGTH)
    (clause_count,) = struct.unpack("<H", record.body)
    record.refuse_if(clause_count > MOST_CLAUSES, LIMIT)
    return clause_count


def judge_clause(record: Record, run: Run) -> Clause:
    record.refuse_if(record.kind not in (KIND_LOCAL_CLAUSE, KIND_CHANNEL_CLAUSE), KIND)
    if record.kind == KIND_LOCAL_CLAUSE:
        return judge_local_clause(record, run)
    return judge_channel_clause(record, run)


def judge_local_clause(record: Record, run: Run) -> LocalClause:
    record.refuse_if(record.length != LOCAL_CLAUSE_LENGTH, LENGTH)
    process, value, comparison, constant = struct.unpack("<HHHi", record.body)
    record.refuse_if(process >= run.process_count, NAME)
    record.refuse_if(value >= VALUES_PER_STATE, NAME)
    record.refuse_if(not 1 <= comparison <= 4, FIELD)
    return LocalClause(process, value, comparison, constant)


def judge_channel_clause(record: Record, run: Run) -> ChannelClause:
    record.refuse_if(record.length != CHANNEL_CLAUSE_LENGTH, LENGTH)
    channel, test, count = struct.unpack("<HHI", record.body)
    (stamp,) = struct.unpack_from("<i", record.body, 4)
    record.refuse_if(channel >= len(run.channels), NAME)
    record.refuse_if(not 1 <= test <= COUNT_OTHER_THAN, FIELD)
    record.refuse_if(test in (COUNT_ODD, COUNT_OTHER_THAN), NOT_LINEAR)
    return ChannelClause(channel, test, count, stamp)
