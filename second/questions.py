"""The questions over raw bytes; a refusal is raised, an answer returned."""

from __future__ import annotations

import struct
from typing import NamedTuple, Optional, Sequence

from model import (
    Cut,
    Run,
    first_cut,
    is_consistent,
    is_satisfying,
    lowest_stamp,
    stamps_in_transit,
)
from reading import (
    CHANNEL_LENGTH,
    CONDITION,
    FORMAT,
    FRAME_LENGTH,
    KIND,
    KIND_CHANNEL,
    KIND_END,
    KIND_RUN_HEAD,
    KIND_STATE,
    LENGTH,
    NO_ROOM,
    RUN,
    RUN_HEAD_LENGTH,
    TOO_LONG,
    WRONG_CHANNEL,
    WRONG_CUT,
    WRONG_FORMAT,
    Record,
    Refusal,
    judge_condition,
    judge_run,
    read_record,
    state_length,
)

# 6 is the search in two calls, of which this program knows nothing.
SEARCH, CONSISTENT, SATISFIES, MESSAGES, SHOWN = 1, 2, 3, 4, 5
EACH, RECORD = 7, 8


class Question(NamedTuple):
    """`extra` is the number of lent places, the channel or the byte place asked about.

    All channels are asked with two lent rows, and `extra` has both numbers of places: that
    for counts in its low byte, that for stamps in its high byte.
    """

    kind: int
    extra: int
    cut: tuple[int, ...]
    run: bytes
    condition: bytes

    @property
    def lent_counts(self) -> int:
        return self.extra % 256

    @property
    def lent_stamps(self) -> int:
        return self.extra // 256


def lent_rows(counts: int, stamps: int) -> int:
    """The `extra` of a question about all channels."""
    return stamps * 256 + counts


class Transit(NamedTuple):
    """What is on a channel: how many messages, and their lowest stamp, or None for no message."""

    count: int
    lowest: Optional[int]


class Found(NamedTuple):
    cut: Cut
    channels: tuple[Transit, ...]


def search(run_bytes: bytes, condition_bytes: bytes, lent: int) -> Optional[Found]:
    run = judge_run(run_bytes)
    clauses = judge_condition(condition_bytes, run)
    if lent < run.process_count:
        raise Refusal(RUN, NO_ROOM, 0)
    cut = first_cut(run, clauses)
    return None if cut is None else Found(cut, transit_on_each(run, cut))


def transit_on(run: Run, cut: Sequence[int], channel: int) -> Transit:
    stamps = stamps_in_transit(run, cut, channel)
    return Transit(len(stamps), lowest_stamp(stamps))


def transit_on_each(run: Run, cut: Sequence[int]) -> tuple[Transit, ...]:
    return tuple(transit_on(run, cut, channel) for channel in range(len(run.channels)))


def consistent(run_bytes: bytes, cut: Sequence[int]) -> bool:
    run = judge_run(run_bytes)
    judge_cut(run, cut)
    return is_consistent(run, cut)


def satisfies(run_bytes: bytes, condition_bytes: bytes, cut: Sequence[int]) -> bool:
    run = judge_run(run_bytes)
    clauses = judge_condition(condition_bytes, run)
    judge_cut(run, cut)
    return is_satisfying(run, clauses, cut)


def messages(run_bytes: bytes, cut: Sequence[int], channel: int) -> Transit:
    run = judge_run(run_bytes)
    judge_cut(run, cut)
    if channel >= len(run.channels):
        raise Refusal(RUN, WRONG_CHANNEL, 0)
    return transit_on(run, cut, channel)


def messages_on_each(
    run_bytes: bytes, cut: Sequence[int], lent_counts: int, lent_stamps: int
) -> tuple[Transit, ...]:
    run = judge_run(run_bytes)
    judge_cut(run, cut)
    if lent_counts < len(run.channels) or lent_stamps < len(run.channels):
        raise Refusal(RUN, NO_ROOM, 0)
    return transit_on_each(run, cut)


def judge_cut(run: Run, cut: Sequence[int]) -> None:
    if len(cut) != run.process_count:
        raise Refusal(RUN, WRONG_CUT, 0)
    for process, number in enumerate(cut):
        if not 1 <= number <= run.last_number(process):
            raise Refusal(RUN, WRONG_CUT, 0)


# The bytes shown


class Part(NamedTuple):
    """Bytes of a file from a place on."""

    file: str
    place: int
    data: bytes


def search_refusal(
    run_bytes: bytes, condition_bytes: bytes, lent: int
) -> Optional[Refusal]:
    try:
        search(run_bytes, condition_bytes, lent)
    except Refusal as refusal:
        return refusal
    return None


def shown_part(
    run_bytes: bytes, condition_bytes: bytes, refusal: Optional[Refusal]
) -> Part:
    """What is shown for a refusal, or for an answer that is none."""
    if refusal is None or refusal.number == TOO_LONG or refusal.number >= NO_ROOM:
        return Part(RUN, 0, b"")
    data = {RUN: run_bytes, CONDITION: condition_bytes}[refusal.file]
    end = len(data)
    if not refusal.after and end - refusal.place >= 2:
        (length,) = struct.unpack_from("<H", data, refusal.place)
        end = refusal.place + length
    return Part(refusal.file, refusal.place, data[refusal.place : end])


# A record by itself, beside the numbers that the head has and nothing else


def record_at(run_bytes: bytes, place: int) -> Record:
    record = read_record(run_bytes, place, RUN)
    process_count, channel_count = 0, 0
    if len(run_bytes) >= RUN_HEAD_LENGTH:
        process_count, channel_count = struct.unpack_from("<HH", run_bytes, 6)
    lengths = {KIND_STATE: state_length(process_count), KIND_END: FRAME_LENGTH}
    if place == 0:
        lengths = {KIND_RUN_HEAD: RUN_HEAD_LENGTH}
    elif place < RUN_HEAD_LENGTH + channel_count * CHANNEL_LENGTH:
        lengths = {KIND_CHANNEL: CHANNEL_LENGTH}
    record.refuse_if(record.kind not in lengths, KIND)
    record.refuse_if(record.length != lengths[record.kind], LENGTH)
    if record.kind == KIND_RUN_HEAD:
        (file_format,) = struct.unpack_from("<H", record.body)
        record.refuse_if(file_format != FORMAT, WRONG_FORMAT)
    return record


def record_words(record: Record) -> tuple[str, tuple[int, ...]]:
    """The name of the record's kind, and the fields that stand ahead of values and clock."""
    if record.kind == KIND_RUN_HEAD:
        return "head", struct.unpack_from("<HH", record.body, 2)
    if record.kind == KIND_CHANNEL:
        return "channel", struct.unpack("<HHH", record.body)
    if record.kind == KIND_STATE:
        return "state", struct.unpack_from("<HHHII", record.body)
    return "end", ()
