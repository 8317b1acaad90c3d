"""Named cases of refused runs: each refusal at each record that can have it."""

from __future__ import annotations

from typing import Iterator

import encode
from damage import get
from marked import NO_CLAUSE, small_condition, two_desks, two_desks_records
from model import INTERNAL, RECEIVE, SEND, START
from named_conditions import changed, resized
from naming import Named, place_of, refused_condition, refused_run, searched, with_record

RECORDS = two_desks_records()
WHERE = {
    0: "head", 1: "channel", 2: "first state", 3: "send", 4: "internal state",
    5: "second start", 6: "receive", 7: "last state", 8: "end",
}
STATES = range(2, 8)


def named_faults() -> Iterator[Named]:
    yield from truncations()
    yield from frame_faults()
    yield from head_faults()
    yield from channel_faults()
    yield from state_names()
    yield from state_fields()
    yield from start_faults()
    yield from side_faults()
    yield from bytes_after()


def refused_at(number: int, detail: str, index: int, record: bytes) -> Named:
    """The run of two desks with one record in another's place, refused there."""
    shape = f"run, refusal {number} at the {WHERE[index]}"
    run = with_record(RECORDS, index, record)
    expected = refused_run(number, place_of(RECORDS, index))
    return searched(shape, detail, run, NO_CLAUSE, expected)


# 2, 3 and 4, which any record can have


def truncations() -> Iterator[Named]:
    run, condition = two_desks(), small_condition()
    places = [place_of(RECORDS, index) for index in range(len(RECORDS))]
    for length in range(len(run)):
        place = max(place for place in places if place <= length)
        yield searched(
            "run cut at every byte", f"{length} bytes", run[:length], condition,
            refused_run(2, place), lent=3,
        )
    places = [0, 6, 20, 32]
    for length in range(len(condition)):
        place = max(place for place in places if place <= length)
        yield searched(
            "condition cut at every byte", f"{length} bytes", run, condition[:length],
            refused_condition(2, place), lent=3,
        )


def frame_faults() -> Iterator[Named]:
    for index, record in enumerate(RECORDS):
        yield refused_at(2, "length past the end", index, changed(record, 0, 60_000))
        for length in (0, 1, 2, 3):
            yield refused_at(3, f"length {length}", index, changed(record, 0, length))
        for length in (4, 6, 10, 36, 38, 39, 40, 50):
            if length != len(record):
                yield refused_at(3, f"length {length}", index, resized(record, length))
        own = (3, 4) if index >= 2 else (record[2],)
        for kind in (0, 1, 2, 3, 4, 5, 16, 17, 18, 256 + record[2], 65_535):
            if kind not in own:
                yield refused_at(4, f"kind {kind}", index, changed(record, 2, kind))
    # States and the end share their turn, so that each has only a wrong length here.
    yield refused_at(3, "a state of kind 4", 4, changed(RECORDS[4], 2, 4))
    yield refused_at(3, "an end of kind 3", 8, changed(RECORDS[8], 2, 3))


# 5 to 10


def head_faults() -> Iterator[Named]:
    for file_format in (0, 2, 257, 65_535):
        yield refused_at(6, f"format {file_format}", 0, encode.run_head(2, 1, file_format))
    for counts in ((0, 1), (9, 1), (65_535, 1), (2, 17), (2, 65_535)):
        yield refused_at(5, f"N and C {counts}", 0, encode.run_head(*counts))


def channel_faults() -> Iterator[Named]:
    for number, sender, receiver in (
        (1, 0, 1), (65_535, 0, 1), (0, 2, 1), (0, 0, 2), (0, 65_535, 1), (0, 0, 256),
        (0, 0, 0), (0, 1, 1),
    ):
        detail = f"number {number} from {sender} to {receiver}"
        yield refused_at(7, detail, 1, encode.channel(number, sender, receiver))


def state_names() -> Iterator[Named]:
    for index in STATES:
        for process in (2, 8, 256, 65_535):
            yield refused_at(7, f"process {process}", index, changed(RECORDS[index], 4, process))
    for index in (3, 6):
        for channel in (1, 16, 256, 65_535):
            yield refused_at(7, f"channel {channel}", index, changed(RECORDS[index], 8, channel))


def state_fields() -> Iterator[Named]:
    for index in STATES:
        for event in (4, 5, 256, 65_535):
            record = changed(RECORDS[index], 6, event)
            yield refused_at(8, f"event {event}", index, record)
            wild = changed(record, 8, 9)
            yield refused_at(8, f"event {event} with channel 9", index, wild)
    for index in (2, 4, 5, 7):
        for name, offset, size in (("channel", 8, 2), ("message", 10, 4), ("stamp", 14, 4)):
            for number in (1, 1 << 8 * size - 1):
                record = changed(RECORDS[index], offset, number, size)
                yield refused_at(8, f"{name} {number}", index, record)
    for stamp in (1, 5, -1, -(2**31)):
        yield refused_at(8, f"stamp {stamp}", 6, changed(RECORDS[6], 14, stamp, 4))


def start_faults() -> Iterator[Named]:
    for index in (2, 5):
        for event in (INTERNAL, SEND, RECEIVE):
            yield refused_at(9, f"event {event}", index, changed(RECORDS[index], 6, event))
    for index in (4, 7):
        yield refused_at(9, "a second start", index, changed(RECORDS[index], 6, START))
    for index in (3, 6):
        record = encode.state(get(bytearray(RECORDS[index]), 4), START, (0, 0))
        yield refused_at(9, "a second start", index, record)
    shape = "run, refusal 9 at the end for a process with no state"
    head, channel, *states, end = RECORDS
    for name, left in (("process 0", states[3:]), ("process 1", states[:3]), ("both", [])):
        run = b"".join([head, channel, *left, end])
        expected = refused_run(9, len(run) - 4)
        yield searched(shape, name, run, NO_CLAUSE, expected)


def side_faults() -> Iterator[Named]:
    yield refused_at(10, "a send by the receiver", 6, changed(RECORDS[6], 6, SEND))
    yield refused_at(10, "a receive by the sender", 3, encode.state(0, RECEIVE, (2, 0), (0, 7, 0)))
    yield refused_at(10, "a send by the receiver", 7, encode.state(1, SEND, (1, 3), (0, 1, 1)))
    yield refused_at(10, "a receive by the sender", 4, encode.state(0, RECEIVE, (3, 0), (0, 7, 0)))
    shape = "run, refusal 10 for a process that is neither end"
    records = [encode.run_head(3, 1), encode.channel(0, 0, 1)]
    for process in range(3):
        records.append(encode.state(process, START, [int(place == process) for place in range(3)]))
    for event in (SEND, RECEIVE):
        run = b"".join([*records, encode.state(2, event, (0, 0, 2), (0, 1, 0)), encode.end()])
        yield searched(shape, f"event {event}", run, NO_CLAUSE, refused_run(10, 20 + 3 * 40))


def bytes_after() -> Iterator[Named]:
    shape = "run, refusal 4 for bytes after the end"
    extras = (b"\x00", b"\x04", b"\x03\x00", b"\x04\x00", encode.end(), RECORDS[4], bytes(300))
    for extra in extras:
        detail = f"{len(extra)} bytes from {extra[:2].hex()} on"
        yield searched(shape, detail, two_desks() + extra, NO_CLAUSE, refused_run(4, 252))
