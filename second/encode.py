"""Builders for the records of runs and conditions.

Fields are cut down to their size and never judged, so that damaged files can
be built with the same functions as sound ones.
"""

from __future__ import annotations

from typing import Sequence

from reading import (
    FORMAT,
    KIND_CHANNEL,
    KIND_CHANNEL_CLAUSE,
    KIND_CONDITION_HEAD,
    KIND_END,
    KIND_LOCAL_CLAUSE,
    KIND_RUN_HEAD,
    KIND_STATE,
)


def number_bytes(number: int, size: int) -> bytes:
    """Signed and unsigned alike, since both have the same bytes."""
    return (number % (1 << 8 * size)).to_bytes(size, "little")


def fields(*numbers: int) -> bytes:
    return b"".join(number_bytes(number, 2) for number in numbers)


def record(kind: int, body: bytes = b"") -> bytes:
    return fields(4 + len(body), kind) + body


def run_head(process_count: int, channel_count: int, file_format: int = FORMAT) -> bytes:
    return record(KIND_RUN_HEAD, fields(file_format, process_count, channel_count))


def channel(number: int, sender: int, receiver: int) -> bytes:
    return record(KIND_CHANNEL, fields(number, sender, receiver))


def state(
    process: int,
    event: int,
    clock: Sequence[int],
    message: tuple[int, int, int] = (0, 0, 0),
    values: Sequence[int] = (0, 0, 0, 0),
) -> bytes:
    """`message` is channel, message number and stamp, as a record holds them."""
    channel_number, message_number, stamp = message
    body = fields(process, event, channel_number)
    body += number_bytes(message_number, 4) + number_bytes(stamp, 4)
    body += b"".join(number_bytes(value, 4) for value in values)
    return record(KIND_STATE, body + fields(*clock))


def end() -> bytes:
    return record(KIND_END)


def condition_head(clause_count: int) -> bytes:
    return record(KIND_CONDITION_HEAD, fields(clause_count))


def local_clause(process: int, value: int, comparison: int, constant: int) -> bytes:
    body = fields(process, value, comparison) + number_bytes(constant, 4)
    return record(KIND_LOCAL_CLAUSE, body)


def channel_clause(channel_number: int, test: int, operand: int) -> bytes:
    body = fields(channel_number, test) + number_bytes(operand, 4)
    return record(KIND_CHANNEL_CLAUSE, body)


def condition(*clauses: bytes) -> bytes:
    return b"".join(condition_records(list(clauses)))


def condition_records(clauses: list[bytes]) -> list[bytes]:
    return [condition_head(len(clauses)), *clauses, end()]
