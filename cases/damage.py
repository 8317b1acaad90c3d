"""Faults put into the records of a run or of a condition.

A fault changes the records in place and tells whether it found anything to
change; which refusal follows is not its business, since an earlier record may
well be refused first.
"""

from __future__ import annotations

from typing import Callable

from chance import Chance
from encode import number_bytes
from model import INTERNAL, RECEIVE, SEND, START
from reading import (
    KIND_CHANNEL,
    KIND_CHANNEL_CLAUSE,
    KIND_LOCAL_CLAUSE,
    KIND_STATE,
)

Records = list[bytearray]
Fault = Callable[[Chance, Records], bool]

# Where the fields stand in a record, counted from its first byte.
LENGTH_AT, KIND_AT = 0, 2
HEAD_FORMAT_AT, HEAD_PROCESSES_AT, HEAD_CHANNELS_AT = 4, 6, 8
CHANNEL_NUMBER_AT, CHANNEL_SENDER_AT, CHANNEL_RECEIVER_AT = 4, 6, 8
STATE_PROCESS_AT, STATE_EVENT_AT, STATE_CHANNEL_AT = 4, 6, 8
STATE_MESSAGE_AT, STATE_STAMP_AT, STATE_CLOCK_AT = 10, 14, 34
CLAUSE_COUNT_AT = 4
CLAUSE_PROCESS_AT, CLAUSE_VALUE_AT, CLAUSE_COMPARISON_AT = 4, 6, 8
CLAUSE_CHANNEL_AT, CLAUSE_TEST_AT = 4, 6

WILD = (255, 256, 4096, 32_768, 65_535)


def get(record: bytearray, offset: int, size: int = 2) -> int:
    return int.from_bytes(record[offset : offset + size], "little")


def put(record: bytearray, offset: int, number: int, size: int = 2) -> None:
    record[offset : offset + size] = number_bytes(number, size)


def resize(record: bytearray, length: int) -> None:
    """The record gets this length in its bytes and in what it says of itself."""
    del record[length:]
    record.extend(bytes(length - len(record)))
    put(record, LENGTH_AT, length)


def of_kind(records: Records, kind: int) -> Records:
    return [
        record
        for record in records
        if len(record) >= 10 and get(record, KIND_AT) == kind
    ]


def with_event(records: Records, *events: int) -> Records:
    return [
        state
        for state in of_kind(records, KIND_STATE)
        if get(state, STATE_EVENT_AT) in events
    ]


# Faults that any file can have


def length_too_small(chance: Chance, records: Records) -> bool:
    put(chance.pick(records), LENGTH_AT, chance.below(4))
    return True


def length_of_another_kind(chance: Chance, records: Records) -> bool:
    record = chance.pick(records)
    length = chance.pick((4, 5, 6, 10, 12, 14, len(record) + 1, len(record) + 2))
    if length == len(record):
        return False
    resize(record, length)
    return True


def length_past_the_record(chance: Chance, records: Records) -> bool:
    record = chance.pick(records)
    put(record, LENGTH_AT, len(record) + chance.pick((1, 2, 4, 10, *WILD)))
    return True


def cut_short(chance: Chance, records: Records) -> bool:
    index = chance.below(len(records))
    del records[index + 1 :]
    del records[index][chance.below(len(records[index])) :]
    return True


def another_kind(chance: Chance, records: Records) -> bool:
    kind = chance.pick((0, 1, 2, 3, 4, 5, 15, 16, 17, 18, 19, 20, *WILD))
    put(chance.pick(records), KIND_AT, kind)
    return True


def exchanged_records(chance: Chance, records: Records) -> bool:
    one, other = chance.below(len(records)), chance.below(len(records))
    records[one], records[other] = records[other], records[one]
    return one != other


def missing_record(chance: Chance, records: Records) -> bool:
    records.pop(chance.below(len(records)))
    if not records:
        records.append(bytearray())
    return True


def repeated_record(chance: Chance, records: Records) -> bool:
    index = chance.below(len(records))
    target = chance.pick((index, chance.below(len(records))))
    records.insert(target, bytearray(records[index]))
    return True


def bytes_after_the_end(chance: Chance, records: Records) -> bool:
    extra = chance.pick(
        (b"\x00", b"\x04\x00\x04\x00", bytes(records[-1]), chance.raw_bytes(5))
    )
    records.append(bytearray(extra))
    return True


def flipped_bits(chance: Chance, records: Records) -> bool:
    for _ in range(chance.pick((1, 1, 1, 2, 4))):
        record = chance.pick(records)
        if record:
            record[chance.below(len(record))] ^= 1 << chance.below(8)
    return True


FILE_FAULTS: list[Fault] = [
    length_too_small,
    length_of_another_kind,
    length_past_the_record,
    cut_short,
    another_kind,
    exchanged_records,
    missing_record,
    repeated_record,
    bytes_after_the_end,
    flipped_bits,
]


# Faults of a run


def head_format(chance: Chance, records: Records) -> bool:
    put(records[0], HEAD_FORMAT_AT, chance.pick((0, 2, *WILD)))
    return True


def head_limit(chance: Chance, records: Records) -> bool:
    if chance.percent(50):
        put(records[0], HEAD_PROCESSES_AT, chance.pick((0, 9, *WILD)))
    else:
        put(records[0], HEAD_CHANNELS_AT, chance.pick((17, 18, *WILD)))
    return True


def head_count_beside(chance: Chance, records: Records) -> bool:
    offset = chance.pick((HEAD_PROCESSES_AT, HEAD_CHANNELS_AT))
    put(records[0], offset, get(records[0], offset) + chance.pick((-1, 1)))
    return True


def channel_name(chance: Chance, records: Records) -> bool:
    channels = of_kind(records, KIND_CHANNEL)
    if not channels:
        return False
    record = chance.pick(channels)
    kind = chance.below(4)
    process_count = get(records[0], HEAD_PROCESSES_AT)
    if kind == 0:
        number = get(record, CHANNEL_NUMBER_AT) + chance.pick((-1, 1, 7))
        put(record, CHANNEL_NUMBER_AT, number)
    elif kind == 1:
        put(record, CHANNEL_SENDER_AT, chance.pick((process_count, *WILD)))
    elif kind == 2:
        put(record, CHANNEL_RECEIVER_AT, chance.pick((process_count, *WILD)))
    else:
        put(record, CHANNEL_RECEIVER_AT, get(record, CHANNEL_SENDER_AT))
    return True


def channel_ends_exchanged(chance: Chance, records: Records) -> bool:
    channels = of_kind(records, KIND_CHANNEL)
    if not channels:
        return False
    record = chance.pick(channels)
    sender, receiver = get(record, CHANNEL_SENDER_AT), get(record, CHANNEL_RECEIVER_AT)
    put(record, CHANNEL_SENDER_AT, receiver)
    put(record, CHANNEL_RECEIVER_AT, sender)
    return True


def state_name(chance: Chance, records: Records) -> bool:
    states = of_kind(records, KIND_STATE)
    messages = with_event(records, SEND, RECEIVE)
    if messages and chance.percent(50):
        channel_count = get(records[0], HEAD_CHANNELS_AT)
        channel = chance.pick((channel_count, channel_count + 1, *WILD))
        put(chance.pick(messages), STATE_CHANNEL_AT, channel)
        return True
    if not states:
        return False
    process_count = get(records[0], HEAD_PROCESSES_AT)
    put(chance.pick(states), STATE_PROCESS_AT, chance.pick((process_count, *WILD)))
    return True


def state_of_another_process(chance: Chance, records: Records) -> bool:
    states = of_kind(records, KIND_STATE)
    process_count = get(records[0], HEAD_PROCESSES_AT)
    if not states or process_count < 2:
        return False
    put(chance.pick(states), STATE_PROCESS_AT, chance.below(process_count))
    return True


def unknown_event(chance: Chance, records: Records) -> bool:
    states = of_kind(records, KIND_STATE)
    if not states:
        return False
    record = chance.pick(states)
    put(record, STATE_EVENT_AT, chance.pick((4, 5, *WILD)))
    if chance.percent(40):
        put(record, STATE_CHANNEL_AT, chance.pick(WILD))
    return True


def another_event(chance: Chance, records: Records) -> bool:
    states = of_kind(records, KIND_STATE)
    if not states:
        return False
    put(chance.pick(states), STATE_EVENT_AT, chance.below(4))
    return True


def unused_field(chance: Chance, records: Records) -> bool:
    silent = with_event(records, START, INTERNAL)
    receives = with_event(records, RECEIVE)
    if receives and chance.percent(40):
        put(chance.pick(receives), STATE_STAMP_AT, chance.pick((1, -1, 2**31)), 4)
        return True
    if not silent:
        return False
    record = chance.pick(silent)
    # Single bits, the lowest and the highest, in each of the three fields.
    offset, bit = chance.pick(
        ((8, 0), (9, 7), (10, 0), (12, 0), (13, 7), (14, 0), (16, 0), (17, 7))
    )
    record[offset] |= 1 << bit
    return True


def start_missing(chance: Chance, records: Records) -> bool:
    starts = with_event(records, START)
    if not starts:
        return False
    put(chance.pick(starts), STATE_EVENT_AT, INTERNAL)
    return True


def start_misplaced(chance: Chance, records: Records) -> bool:
    internals = with_event(records, INTERNAL)
    if not internals:
        return False
    put(chance.pick(internals), STATE_EVENT_AT, START)
    return True


def process_without_state(chance: Chance, records: Records) -> bool:
    process = chance.below(max(1, get(records[0], HEAD_PROCESSES_AT)))
    gone = [
        state
        for state in of_kind(records, KIND_STATE)
        if get(state, STATE_PROCESS_AT) == process
    ]
    records[:] = [
        record for record in records if not any(record is state for state in gone)
    ]
    return bool(gone)


def wrong_side(chance: Chance, records: Records) -> bool:
    messages = with_event(records, SEND, RECEIVE)
    if not messages:
        return False
    record = chance.pick(messages)
    if chance.percent(50):
        put(record, STATE_EVENT_AT, SEND + RECEIVE - get(record, STATE_EVENT_AT))
        put(record, STATE_STAMP_AT, 0, 4)
    else:
        channel_count = max(1, get(records[0], HEAD_CHANNELS_AT))
        put(record, STATE_CHANNEL_AT, chance.below(channel_count))
    return True


def second_of_a_message(chance: Chance, records: Records) -> bool:
    events = with_event(records, chance.pick((SEND, RECEIVE)))
    if len(events) < 2:
        return False
    one, other = chance.pick(events), chance.pick(events)
    put(other, STATE_MESSAGE_AT, get(one, STATE_MESSAGE_AT, 4), 4)
    return one is not other


def another_message(chance: Chance, records: Records) -> bool:
    messages = with_event(records, SEND, RECEIVE)
    if not messages:
        return False
    record = chance.pick(messages)
    number = get(record, STATE_MESSAGE_AT, 4)
    changed = chance.pick((number + 1, number ^ 2**31, number ^ 2**16, 5_000))
    put(record, STATE_MESSAGE_AT, changed, 4)
    return True


def clock_beside(chance: Chance, records: Records) -> bool:
    states = of_kind(records, KIND_STATE)
    if not states:
        return False
    record = chance.pick(states)
    places = (len(record) - STATE_CLOCK_AT) // 2
    if places < 1:
        return False
    offset = STATE_CLOCK_AT + 2 * chance.below(places)
    put(record, offset, get(record, offset) + chance.pick((-1, -1, 1, 1, 256)))
    return True


RUN_FAULTS: list[Fault] = [
    head_format,
    head_limit,
    head_count_beside,
    channel_name,
    channel_ends_exchanged,
    state_name,
    state_name,
    state_of_another_process,
    unknown_event,
    another_event,
    unused_field,
    unused_field,
    start_missing,
    start_misplaced,
    process_without_state,
    wrong_side,
    wrong_side,
    second_of_a_message,
    second_of_a_message,
    another_message,
    clock_beside,
    clock_beside,
    clock_beside,
]

# Faults that show only once a whole run has been read.
LATE_FAULTS: list[Fault] = [second_of_a_message, another_message, clock_beside]


# Faults of a condition


def clause_limit(chance: Chance, records: Records) -> bool:
    put(records[0], CLAUSE_COUNT_AT, chance.pick((33, 34, *WILD)))
    return True


def clause_count_beside(chance: Chance, records: Records) -> bool:
    count = get(records[0], CLAUSE_COUNT_AT)
    put(records[0], CLAUSE_COUNT_AT, count + chance.pick((-1, 1)))
    return True


def clause_name(chance: Chance, records: Records) -> bool:
    local, channel = clauses_of(records)
    if not local and not channel:
        return False
    if local and (not channel or chance.percent(60)):
        record = chance.pick(local)
        if chance.percent(50):
            put(record, CLAUSE_PROCESS_AT, chance.pick((8, 9, *WILD)))
        else:
            put(record, CLAUSE_VALUE_AT, chance.pick((4, 5, *WILD)))
    else:
        put(chance.pick(channel), CLAUSE_CHANNEL_AT, chance.pick((16, 17, *WILD)))
    return True


def clause_name_beside(chance: Chance, records: Records) -> bool:
    local, channel = clauses_of(records)
    if not local and not channel:
        return False
    record = chance.pick(local + channel)
    put(record, CLAUSE_PROCESS_AT, get(record, CLAUSE_PROCESS_AT) + 1)
    return True


def clause_field(chance: Chance, records: Records) -> bool:
    local, channel = clauses_of(records)
    if not local and not channel:
        return False
    if local and (not channel or chance.percent(50)):
        put(chance.pick(local), CLAUSE_COMPARISON_AT, chance.pick((0, 5, *WILD)))
    else:
        put(chance.pick(channel), CLAUSE_TEST_AT, chance.pick((0, 10, 11, *WILD)))
    return True


def not_linear(chance: Chance, records: Records) -> bool:
    _, channel = clauses_of(records)
    if not channel:
        return False
    put(chance.pick(channel), CLAUSE_TEST_AT, chance.pick((8, 9)))
    return True


def clauses_of(records: Records) -> tuple[Records, Records]:
    return (
        of_kind(records, KIND_LOCAL_CLAUSE),
        of_kind(records, KIND_CHANNEL_CLAUSE),
    )


CONDITION_FAULTS: list[Fault] = [
    clause_limit,
    clause_count_beside,
    clause_name,
    clause_name,
    clause_name_beside,
    clause_field,
    clause_field,
    not_linear,
    not_linear,
]


# Putting faults in


def damaged(
    chance: Chance, records: list[bytes], faults: list[Fault], count: int
) -> bytes:
    """The file with this many faults; file faults come last and take a share."""
    changed = [bytearray(record) for record in records]
    file_faults = sum(chance.percent(22) for _ in range(count))
    for _ in range(count - file_faults):
        put_in_one(chance, changed, faults)
    for _ in range(file_faults):
        put_in_one(chance, changed, FILE_FAULTS)
    return b"".join(changed)


def put_in_one(chance: Chance, records: Records, faults: list[Fault]) -> None:
    """Not every fault fits every file, so several are tried."""
    for _ in range(12):
        if chance.pick(faults)(chance, records):
            return
