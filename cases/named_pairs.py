"""Named cases of runs with two faults, of which the one first in the order is given."""

from __future__ import annotations

from typing import Iterator, Sequence

import encode
from damage import STATE_CLOCK_AT, get, put
from execution import Step
from fixed_runs import many_states
from marked import NO_CLAUSE, two_desks
from model import INTERNAL, RECEIVE, SEND, START, Channel
from named_conditions import changed, resized
from named_faults import RECORDS, WHERE
from named_order import draft_of, ring_channels, ring_histories, written
from naming import Named, place_of, refused_run, searched, with_record
from reading import LONGEST_FILE, MOST_STATES


def named_pairs() -> Iterator[Named]:
    yield from orders_of_frames()
    yield from orders_in_the_head_and_a_channel()
    yield from orders_in_a_state()
    yield from orders_at_state_513()
    yield from orders_at_the_end()
    yield from orders_over_records()


def ordered(first: str, second: str, detail: str, run: bytes, number: int, place: int) -> Named:
    shape = f"run, {first} ahead of {second}"
    return searched(shape, detail, run, NO_CLAUSE, refused_run(number, place))


def in_record(first: str, second: str, detail: str, index: int, record: bytes) -> Named:
    """Two faults in one record; the refusal's number leads its name."""
    run = with_record(RECORDS, index, record)
    number = int(first.split()[0])
    return ordered(first, second, detail, run, number, place_of(RECORDS, index))


def orders_of_frames() -> Iterator[Named]:
    front, run = b"".join(RECORDS[:4]), two_desks()
    yield ordered("1", "any other", "65,536 bytes of zeros", bytes(LONGEST_FILE + 1), 1, 0)
    tails = {"2 (no length)": b"\x26", "3 (under 4)": b"\x03\x00", "2 (body)": b"\x26\x00"}
    for second, extra in tails.items():
        yield ordered("4 (after the end)", second, extra.hex(), run + extra, 4, 252)
    yield ordered("2 (no length)", "4", "a single byte", front + b"\x09", 2, 96)
    for length in range(4):
        tail = encode.fields(length)
        yield ordered("3 (under 4)", "2 (body)", f"length {length}", front + tail, 3, 96)
        strange = changed(changed(RECORDS[4], 0, length), 2, 9)
        yield in_record("3 (under 4)", "4", f"length {length}, kind 9", 4, strange)
    for index in range(len(RECORDS)):
        where = WHERE[index]
        far = changed(changed(RECORDS[index], 0, 60_000), 2, 9)
        yield in_record("2 (body)", "4", f"{where}, kind 9", index, far)
        strange = changed(resized(RECORDS[index], 44), 2, 9)
        yield in_record("4", "3 (for the kind)", f"{where}, kind 9", index, strange)
    yield ordered(
        "2 (body)", "3 (for the kind)", "a state of 90 bytes that isn't whole",
        front + changed(RECORDS[4], 0, 90), 2, 96,
    )
    channel = resized(encode.channel(1, 0, 1), 12)
    yield in_record("4", "3 (for the kind)", "a channel of 12 bytes among states", 4, channel)


def orders_in_the_head_and_a_channel() -> Iterator[Named]:
    for length in (8, 12):
        head = resized(encode.run_head(2, 1, 2), length)
        yield in_record("3 (for the kind)", "6", f"a head of {length} bytes", 0, head)
        head = resized(encode.run_head(9, 17), length)
        yield in_record("3 (for the kind)", "5", f"a head of {length} bytes", 0, head)
    for counts in ((0, 0), (9, 1), (2, 17), (9, 17)):
        head = encode.run_head(*counts, 2)
        yield in_record("6", "5", f"format 2, N and C {counts}", 0, head)
    for length in (8, 12):
        record = resized(encode.channel(1, 5, 5), length)
        yield in_record("3 (for the kind)", "7", f"a channel of {length} bytes", 1, record)
    yield ordered(
        "6", "7 in a later record", "format 2 and a channel with equal ends",
        encode.run_head(2, 1, 2) + encode.channel(0, 1, 1) + b"".join(RECORDS[2:]), 6, 0,
    )


def orders_in_a_state() -> Iterator[Named]:
    for second, detail, index, offset, number in (
        ("7", "process 2", 4, 4, 2),
        ("8", "event 9", 4, 6, 9),
        ("9", "no start", 2, 6, 1),
    ):
        record = resized(changed(RECORDS[index], offset, number), 36)
        detail = f"a state of 36 bytes, {detail}"
        yield in_record("3 (for the kind)", second, detail, index, record)
    for first, second, detail, index, state in (
        ("7", "8", "process 2, event 9", 4, (2, 9, 0, 0, 0)),
        ("7", "8", "process 2, unused message", 4, (2, INTERNAL, 0, 1, 0)),
        ("7", "8", "process 2 of a receive, stamp 1", 6, (2, RECEIVE, 0, 7, 1)),
        ("7", "8", "channel 1 of a receive, stamp 1", 6, (1, RECEIVE, 1, 7, 1)),
        ("7", "9", "channel 1 of a send in place of a start", 2, (0, SEND, 1, 7, 5)),
        ("7", "10", "channel 1 of a send by the receiver", 6, (1, SEND, 1, 7, 5)),
        ("8", "9", "no start, unused channel", 2, (0, INTERNAL, 1, 0, 0)),
        ("8", "9", "no start, unused stamp", 5, (1, INTERNAL, 0, 0, 1)),
        ("8", "9", "no start, event 4", 2, (0, 4, 0, 0, 0)),
        ("8", "9", "a second start, unused message", 4, (0, START, 0, 1, 0)),
        ("8", "9", "a receive with a stamp and no start", 5, (1, RECEIVE, 0, 7, 1)),
        ("8", "10", "a receive by the sender with a stamp", 3, (0, RECEIVE, 0, 7, 5)),
        ("9", "10", "a send by the receiver and no start", 5, (1, SEND, 0, 7, 5)),
        ("9", "10", "a receive by the sender and no start", 2, (0, RECEIVE, 0, 7, 0)),
    ):
        process, event, *message = state
        clock = (index, index)
        record = encode.state(process, event, clock, tuple(message))
        yield in_record(first, second, detail, index, record)


def orders_at_state_513() -> Iterator[Named]:
    """The 513th state of process 0, behind the start of process 1."""
    clock = (MOST_STATES + 1, 0)
    place = 20 + 38 * (MOST_STATES + 1)
    for first, second, record in (
        ("5", "13", encode.state(0, INTERNAL, (0, 0))),
        ("7", "5", encode.state(0, SEND, clock, (1, 0, 0))),
        ("5", "8", encode.state(0, 4, clock, (9, 0, 0))),
        ("5", "8", encode.state(0, INTERNAL, clock, (0, 1, 0))),
        ("5", "9", encode.state(0, START, clock)),
        ("5", "10", encode.state(0, RECEIVE, clock, (0, 3, 0))),
    ):
        run = many_states(MOST_STATES, record)
        detail = f"event {get(bytearray(record), 6)} into the 513th state, message {record[10]}"
        yield ordered(first, second, detail, run, int(first), place)


def orders_at_the_end() -> Iterator[Named]:
    lone = b"".join(RECORDS[:5])
    for length in (5, 6, 36):
        end = resized(RECORDS[8], length)
        detail = f"an end of {length} bytes, process 1 with no state"
        yield ordered("3 (for the kind)", "9", detail, lone + end, 3, len(lone))
        whole = b"".join(RECORDS[:8])
        detail = f"an end of {length} bytes and a byte after it"
        longer = whole + end + b"\x00"
        yield ordered("3 (for the kind)", "4 (after the end)", detail, longer, 3, 248)
    run = lone + encode.end() + b"\x00"
    detail = "process 1 with no state and a byte after the end"
    yield ordered("9", "4 (after the end)", detail, run, 9, len(lone))


# Faults of two records, of which the later one is given


def changed_records(records: Sequence[bytes], changes: Sequence[tuple[int, int, int]]) -> bytes:
    copies = [bytearray(record) for record in records]
    for index, offset, number in changes:
        put(copies[index], offset, number)
    return b"".join(copies)


def orders_over_records() -> Iterator[Named]:
    head, first, second = encode.run_head(2, 2), encode.channel(0, 0, 1), encode.channel(1, 1, 0)
    states = [
        encode.state(0, START, (1, 0)),
        encode.state(0, SEND, (2, 0), (0, 4, 1)),
        encode.state(0, SEND, (3, 0), (0, 4, 1)),
        encode.state(1, START, (0, 1)),
    ]
    twice = b"".join([head, first, second, *states])
    place = len(twice)
    for number, last in (
        (10, encode.state(1, SEND, (0, 2), (0, 5, 1))),
        (9, encode.state(1, START, (0, 2))),
        (8, encode.state(1, INTERNAL, (0, 2), (1, 0, 0))),
        (7, encode.state(2, INTERNAL, (0, 2))),
        (4, encode.fields(4, 9)),
        (3, encode.fields(5, 4) + b"\x00"),
    ):
        detail = "a second send further ahead in the file"
        yield ordered(str(number), "11", detail, twice + last + encode.end(), number, place)
    longer = twice + encode.end() + b"\x00"
    yield ordered("4 (after the end)", "11", "a byte after the end", longer, 4, place + 4)
    yield ordered("2 (no length)", "11", "no end", twice, 2, place)
    yield from pairing_ahead_of_circle()
    yield from circle_ahead_of_clock()
    # 11 at the receive, though the clock of the first state is wrong too.
    run = changed_records(RECORDS, [(2, STATE_CLOCK_AT, 9), (6, 10, 8)])
    yield ordered("11", "13", "a wrong clock further ahead in the file", run, 11, 172)
    run = changed_records(RECORDS, [(2, STATE_CLOCK_AT, 9), (7, 6, 0)])
    yield ordered("9", "13", "a wrong clock further ahead in the file", run, 9, 210)


def ring_with_tail() -> list[bytes]:
    """A circle of two, then a message from process 0 to process 1 that is sound."""
    channels = [*ring_channels(2), Channel(0, 1)]
    first, second = ring_histories(2)
    draft = draft_of(
        channels,
        [*first, Step(SEND, 2, 1, 1), Step(SEND, 2, 2, 1)],
        [*second, Step(RECEIVE, 2, 1), Step(RECEIVE, 2, 2)],
    )
    return split_records(written(draft, "0000011111"))


def split_records(data: bytes) -> list[bytes]:
    records = []
    while data:
        length = get(bytearray(data), 0)
        records.append(data[:length])
        data = data[length:]
    return records


def pairing_ahead_of_circle() -> Iterator[Named]:
    records = ring_with_tail()
    # Records 7 and 8 are the sends after the circle, 12 and 13 their receives.
    for detail, changes, index in (
        ("a second send", [(8, 10, 1), (13, 10, 1)], 8),
        ("a second receive", [(13, 10, 1)], 13),
        ("a receive with no send", [(13, 10, 5)], 13),
    ):
        run, place = changed_records(records, changes), place_of(records, index)
        yield ordered("11", "12", f"{detail} after the circle", run, 11, place)


def circle_ahead_of_clock() -> Iterator[Named]:
    records = ring_with_tail()
    # Records 4 and 9 are the starts; the first state on the circle is record 5.
    for index in (4, 5, 6, 9, 13):
        run = changed_records(records, [(index, STATE_CLOCK_AT, 9)])
        detail = f"a wrong clock in record {index}"
        yield ordered("12", "13", detail, run, 12, place_of(records, 5))
