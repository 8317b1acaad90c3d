"""Named cases of refused conditions: each refusal at each record that can have it."""

from __future__ import annotations

from typing import Iterator, Sequence

import encode
from damage import put, resize
from marked import NO_CLAUSE, run_of_starts, small_condition, two_desks
from naming import (
    Named,
    found,
    place_of,
    refused_condition,
    searched,
    with_record,
)
from reading import LONGEST_FILE, MOST_CLAUSES

OPERANDS = (0, 1, 2, 5, 2**31 - 1, 2**31, 2**32 - 1)

LOCAL = encode.local_clause(1, 0, 3, 0)
CHANNEL = encode.channel_clause(0, 1, 0)

# Five clauses of one kind, so that there is a first, a middle and a last one.
SAMPLES = {
    "local": encode.condition_records([LOCAL] * 5),
    "channel": encode.condition_records([CHANNEL] * 5),
}
WHERE = {0: "head", 1: "first clause", 3: "middle clause", 5: "last clause", 6: "end"}
CLAUSES = (1, 3, 5)


def named_conditions() -> Iterator[Named]:
    for kind, records in SAMPLES.items():
        for index in WHERE:
            yield from frame_faults(kind, records, index)
    yield from local_clause_faults()
    yield from channel_clause_faults()
    yield from not_linear()
    yield from bytes_after()
    yield from too_long()
    yield from clause_counts()
    yield from orders_in_one_record()
    yield from orders_over_records()


def refused_at(
    number: int, detail: str, records: Sequence[bytes], index: int, record: bytes
) -> Named:
    """The sample with one record in another's place, refused there."""
    shape = f"condition, refusal {number} at the {WHERE[index]}"
    condition = with_record(records, index, record)
    expected = refused_condition(number, place_of(records, index))
    return searched(shape, detail, two_desks(), condition, expected)


def changed(record: bytes, offset: int, number: int, size: int = 2) -> bytes:
    copy = bytearray(record)
    put(copy, offset, number, size)
    return bytes(copy)


def resized(record: bytes, length: int) -> bytes:
    copy = bytearray(record)
    resize(copy, length)
    return bytes(copy)


# 2, 3 and 4, which any record can have


def frame_faults(kind: str, records: list[bytes], index: int) -> Iterator[Named]:
    record, place = records[index], place_of(records, index)
    for left in sorted({0, 1, 2, 3, len(record) - 1}):
        shape = f"condition, refusal 2 at the {WHERE[index]}"
        condition = b"".join(records)[: place + left]
        detail = f"{kind} clauses, {left} bytes left"
        yield searched(shape, detail, two_desks(), condition, refused_condition(2, place))
    too_far = changed(record, 0, 60_000)
    yield refused_at(2, f"{kind} clauses, length past the end", records, index, too_far)
    for length in (0, 1, 2, 3):
        detail = f"{kind} clauses, length {length}"
        yield refused_at(3, detail, records, index, changed(record, 0, length))
    for length in (4, 5, 6, 10, 12, 14, 16):
        if length != len(record):
            detail = f"{kind} clauses, length {length}"
            yield refused_at(3, detail, records, index, resized(record, length))
    own = {0: (16,), 6: (4,)}.get(index, (17, 18))
    for other in (0, 1, 2, 3, 4, 5, 15, 16, 17, 18, 19, 20, 256 + record[2], 65_535):
        if other not in own:
            detail = f"{kind} clauses, kind {other}"
            yield refused_at(4, detail, records, index, changed(record, 2, other))


# 7, 8 and 14, which clauses have


def local_clause_faults() -> Iterator[Named]:
    records = SAMPLES["local"]
    for index in CLAUSES:
        for process in (2, 3, 8, 257, 65_535):
            bad = encode.local_clause(process, 0, 3, 0)
            yield refused_at(7, f"process {process}", records, index, bad)
        for value in (4, 5, 256, 65_535):
            bad = encode.local_clause(1, value, 3, 0)
            yield refused_at(7, f"value {value}", records, index, bad)
        for comparison in (0, 5, 257, 65_535):
            bad = encode.local_clause(1, 0, comparison, 0)
            yield refused_at(8, f"comparison {comparison}", records, index, bad)


def channel_clause_faults() -> Iterator[Named]:
    records = SAMPLES["channel"]
    for index in CLAUSES:
        for channel in (1, 2, 16, 256, 65_535):
            bad = encode.channel_clause(channel, 1, 0)
            yield refused_at(7, f"channel {channel}", records, index, bad)
        for test in (0, 10, 11, 257, 65_535):
            bad = encode.channel_clause(0, test, 0)
            yield refused_at(8, f"test {test}", records, index, bad)
    shape = "condition, a channel clause for a run without channels"
    condition, expected = encode.condition(CHANNEL), refused_condition(7, 6)
    yield searched(shape, "channel 0", run_of_starts(2), condition, expected)


def not_linear() -> Iterator[Named]:
    for kind, records in SAMPLES.items():
        for index in CLAUSES:
            for test in (8, 9):
                for operand in OPERANDS:
                    bad = encode.channel_clause(0, test, operand)
                    detail = f"among {kind} clauses, test {test}, operand {operand}"
                    yield refused_at(14, detail, records, index, bad)


# The file as a whole


def bytes_after() -> Iterator[Named]:
    shape = "condition, refusal 4 for bytes after the end"
    extras = (b"\x00", b"\x04", b"\x03\x00", b"\x04\x00", encode.end(), CHANNEL, bytes(300))
    for kind, records in (*SAMPLES.items(), ("no", [NO_CLAUSE])):
        sound = b"".join(records)
        for extra in extras:
            detail = f"{kind} clauses, {len(extra)} bytes from {extra[:2].hex()} on"
            expected = refused_condition(4, len(sound))
            yield searched(shape, detail, two_desks(), sound + extra, expected)


def too_long() -> Iterator[Named]:
    sound = small_condition()
    filled = sound + bytes(LONGEST_FILE - len(sound))
    shape = "condition of 65,535 bytes"
    expected = refused_condition(4, len(sound))
    yield searched(shape, "zeros after the end", two_desks(), filled, expected, lent=2)
    shape = "condition of 65,536 bytes, refusal 1"
    expected = refused_condition(1, 0)
    yield searched(shape, "zeros after the end", two_desks(), filled + b"\x00", expected, lent=1)


def clause_counts() -> Iterator[Named]:
    run, everywhere = two_desks(), found((1, 1), [None])
    for count in (0, 1, 31, MOST_CLAUSES):
        condition = encode.condition(*[LOCAL] * count)
        yield searched(f"K of {count}", "as many clauses", run, condition, everywhere)
    for count in (33, 34, 256, 65_535):
        condition = encode.condition_head(count) + LOCAL * 33 + encode.end()
        shape = f"K of {count}, refusal 5 at the head"
        yield searched(shape, "33 clauses", run, condition, refused_condition(5, 0))
        alone = encode.condition_head(count)
        yield searched(shape, "no clause", run, alone, refused_condition(5, 0))
    for said in (0, 1, 2, 31, MOST_CLAUSES):
        one_more = encode.condition_head(said) + LOCAL * (said + 1) + encode.end()
        expected = refused_condition(4, 6 + 14 * said)
        yield searched("more clauses than K", f"K of {said}", run, one_more, expected)
        if said:
            one_less = encode.condition_head(said) + LOCAL * (said - 1) + encode.end()
            expected = refused_condition(4, 6 + 14 * (said - 1))
            yield searched("fewer clauses than K", f"K of {said}", run, one_less, expected)
    last_at_fault = [LOCAL] * 31 + [encode.channel_clause(0, 9, 0)]
    expected = refused_condition(14, 6 + 14 * 31)
    condition = encode.condition(*last_at_fault)
    yield searched("K of 32", "the last not linear", run, condition, expected)


# Two faults at once


def ordered(first: str, second: str, detail: str, condition: bytes, expected: str) -> Named:
    shape = f"condition, {first} ahead of {second}"
    return searched(shape, detail, two_desks(), condition, expected)


def orders_in_one_record() -> Iterator[Named]:
    tail = CHANNEL * 4 + encode.end()
    head = encode.condition_head(5)
    clause_at = [
        ("2 (no length)", "4", "a single byte in place of a clause", head + b"\x07", 2),
        ("3 (under 4)", "2 (body)", "length 3 with two bytes left", head + b"\x03\x00", 3),
        ("3 (under 4)", "4", "length 0 with kind 9", head + encode.fields(0, 9) + tail, 3),
        ("2 (body)", "4", "length past the end with kind 9",
         head + encode.fields(60_000, 9) + tail, 2),
        ("2 (body)", "3 (for the kind)", "a local clause of 90 bytes",
         head + encode.fields(90, 17) + bytes(60), 2),
        ("4", "3 (for the kind)", "kind 9 of 5 bytes",
         head + encode.fields(5, 9) + b"\x00" + tail, 4),
        ("4", "3 (for the kind)", "an end of 6 bytes in place of a clause",
         head + encode.fields(6, 4, 0) + tail, 4),
        ("3 (for the kind)", "7", "a local clause of 12 bytes, process 9",
         head + resized(encode.local_clause(9, 0, 1, 0), 12) + tail, 3),
        ("3 (for the kind)", "7", "a channel clause of 14 bytes, channel 9",
         head + resized(encode.channel_clause(9, 1, 0), 14) + tail, 3),
        ("3 (for the kind)", "8", "a local clause of 12 bytes, comparison 9",
         head + resized(encode.local_clause(0, 0, 9, 0), 12) + tail, 3),
        ("3 (for the kind)", "14", "a channel clause of 14 bytes, test 8",
         head + resized(encode.channel_clause(0, 8, 0), 14) + tail, 3),
        ("7", "8", "process 2, comparison 0", head + encode.local_clause(2, 0, 0, 0) + tail, 7),
        ("7", "8", "value 4, comparison 5", head + encode.local_clause(0, 4, 5, 0) + tail, 7),
        ("7", "8", "channel 1, test 10", head + encode.channel_clause(1, 10, 0) + tail, 7),
        ("7", "8", "channel 1, test 0", head + encode.channel_clause(1, 0, 0) + tail, 7),
        ("7", "14", "channel 1, test 8", head + encode.channel_clause(1, 8, 0) + tail, 7),
        ("7", "14", "channel 65535, test 9", head + encode.channel_clause(65_535, 9, 0) + tail, 7),
    ]
    for first, second, detail, condition, number in clause_at:
        yield ordered(first, second, detail, condition, refused_condition(number, 6))
    clause_tail = CHANNEL + encode.end()
    for first, second, detail, condition, number in [
        ("4", "5", "kind 17 and K of 33", encode.fields(6, 17, 33) + clause_tail, 4),
        ("3 (for the kind)", "5", "a head of 8 bytes and K of 33",
         encode.fields(8, 16, 33, 0) + clause_tail, 3),
        ("5", "2 of a later record", "K of 33 and nothing after it", encode.fields(6, 16, 33), 5),
        ("1", "2", "65,536 bytes of zeros and no head", b"\x01" + bytes(LONGEST_FILE), 1),
    ]:
        yield ordered(first, second, detail, condition, refused_condition(number, 0))
    for first, second, extra in (
        ("4 (after the end)", "2 (no length)", b"\x00"),
        ("4 (after the end)", "3 (under 4)", b"\x03\x00"),
        ("4 (after the end)", "2 (body)", b"\x06\x00"),
    ):
        expected = refused_condition(4, len(NO_CLAUSE))
        yield ordered(first, second, extra.hex(), NO_CLAUSE + extra, expected)


FAULTY_CLAUSES = {
    4: encode.fields(4, 9),
    7: encode.channel_clause(1, 1, 0),
    8: encode.channel_clause(0, 10, 0),
    14: encode.channel_clause(0, 9, 0),
}


def orders_over_records() -> Iterator[Named]:
    """Clauses are judged one by one, so the first faulty one decides, whatever its fault."""
    for one, first in FAULTY_CLAUSES.items():
        for other, second in FAULTY_CLAUSES.items():
            if one != other:
                condition = encode.condition(CHANNEL, first, LOCAL, second, CHANNEL)
                shape = f"condition, {one} in a clause ahead of {other} in a later one"
                expected = refused_condition(one, 6 + 12)
                yield searched(shape, "second and fourth", two_desks(), condition, expected)
    for number, clause in FAULTY_CLAUSES.items():
        shape = f"condition, {number} in a clause ahead of bytes after the end"
        condition = encode.condition(clause) + b"\x00"
        yield searched(shape, "one clause", two_desks(), condition, refused_condition(number, 6))
