"""The questions that are always asked ahead of those drawn from a seed."""

from __future__ import annotations

import itertools
from typing import Iterator

import encode
from beside import listings, records
from chance import Chance
from damage import STATE_CLOCK_AT, get, of_kind, put
from execution import EXTREMES, Step, file_order, run_of, run_records
from fixed_runs import (
    circle_draft,
    draft_bytes,
    lone_process,
    longest_run,
    many_states,
    run_with_stamps,
    too_long_run,
    unpaired_run,
)
from marked import (
    NO_CLAUSE,
    both_ways,
    marked_conditions,
    marked_conditions_at_every_cut,
    marked_questions,
    marked_wrong_clock,
    run_of_starts,
    small_condition,
    starts,
    two_desks,
    two_desks_records,
)
from model import INTERNAL, RECEIVE, SEND, START
from named import named_cases
from paired import (
    condition_faults_in_pairs,
    faults_in_both_files,
    faults_in_one_state,
    faults_in_pairs,
)
from questions import (
    CONSISTENT,
    MESSAGES,
    SATISFIES,
    SEARCH,
    SHOWN,
    Question,
)
from reading import KIND_STATE, LONGEST_FILE, MOST_STATES


def fixed_questions() -> Iterator[Question]:
    """Each question once, with all that have a name among them."""
    asked: set[Question] = set()
    for question in itertools.chain(grouped_questions(), named_questions()):
        if question not in asked:
            asked.add(question)
            yield question


def named_questions() -> Iterator[Question]:
    for case in named_cases():
        yield case.question


def grouped_questions() -> Iterator[Question]:
    for group in (
        marked_questions,
        marked_conditions_at_every_cut,
        truncations,
        flipped_bits,
        bytes_after_the_end,
        short_tails,
        ends_too_early,
        head_limits,
        clause_limits,
        state_limits,
        file_limits,
        condition_file_limits,
        circles,
        pairing_faults,
        faults_in_pairs,
        faults_in_one_state,
        condition_faults_in_pairs,
        faults_in_both_files,
        wrong_cuts,
        lent_places,
        comparisons_at_extremes,
        tests_at_extremes,
        counts_at_every_cut,
        listings,
        records,
    ):
        yield from group()


# Every byte of two small files


def truncations() -> Iterator[Question]:
    run, condition = two_desks(), small_condition()
    for length in range(len(run)):
        yield from both_ways(run[:length], condition, 3)
    for length in range(len(condition)):
        yield from both_ways(run, condition[:length], 3)


def flipped_bits() -> Iterator[Question]:
    run, condition = two_desks(), small_condition()
    starts_alone = run_of_starts(2, [encode.channel(0, 0, 1)])
    for place in range(len(run)):
        # One bit for each byte of a run, another from byte to byte.
        changed = bytearray(run)
        changed[place] ^= 1 << (place * 3 + place // 8) % 8
        kind = SHOWN if place % 4 == 3 else SEARCH
        yield Question(kind, 2, (), bytes(changed), condition)
    for place, bit in itertools.product(range(len(condition)), range(8)):
        changed = bytearray(condition)
        changed[place] ^= 1 << bit
        kind = SHOWN if bit % 4 == 3 else SEARCH
        yield Question(kind, 2, (), starts_alone, bytes(changed))


def bytes_after_the_end() -> Iterator[Question]:
    run, condition = two_desks(), small_condition()
    extras = [
        b"\x00",
        b"\x01\x00",
        b"\x03\x00\x04",
        encode.end(),
        encode.end() * 2,
        two_desks_records()[4],
        encode.run_head(2, 1),
        b"\xff" * 300,
    ]
    for extra in extras:
        yield from both_ways(run + extra, condition, 2)
        yield from both_ways(run, condition + extra, 2)
    for cut in ((1, 1), (9, 9)):
        yield Question(CONSISTENT, 0, cut, run + b"\x00", b"")
        yield Question(MESSAGES, 5, cut, run + b"\x00", b"")


def short_tails() -> Iterator[Question]:
    """What stands in place of the end record, from a single byte on."""
    run, condition = two_desks()[:-4], small_condition()[:-4]
    tails = [bytes([length]) for length in (0, 3, 4)]
    for length in range(6):
        tails += [encode.fields(length) + b"\x04\x00"[:size] for size in range(3)]
    for tail in tails:
        yield from both_ways(run + tail, condition + tail, 2)
        yield from both_ways(two_desks(), condition + tail, 2)


def ends_too_early() -> Iterator[Question]:
    """An end ahead of channels, of all states, or of those of one process."""
    records = two_desks_records()
    ends = [encode.end(), encode.record(4, b"\x00\x00"), b"\x04\x00\x05\x00"]
    for end, count in itertools.product(ends, (0, 1, 2, 3, 5, 6)):
        yield from both_ways(b"".join(records[:count]) + end, NO_CLAUSE, 2)
        # One byte after an end that is refused itself changes nothing.
        run = b"".join(records[:count]) + end + b"\x00"
        yield Question(SEARCH, 2, (), run, NO_CLAUSE)


# Limits


def head_limits() -> Iterator[Question]:
    for process_count in (0, 1, 2, 7, 8, 9, 256, 65_535):
        length = process_count if process_count < 256 else 2
        body = b"".join(starts(length)) + encode.end()
        head = encode.run_head(process_count, 0)
        yield from both_ways(head + body, NO_CLAUSE, 10)
    for channel_count in (1, 15, 16, 17, 18):
        channels = [
            encode.channel(number, number % 2, 1 - number % 2)
            for number in range(channel_count)
        ]
        yield from both_ways(run_of_starts(2, channels), NO_CLAUSE, 2)
        last = encode.condition(encode.channel_clause(channel_count - 1, 1, 0))
        yield Question(SEARCH, 2, (), run_of_starts(2, channels), last)
    # A process on its own has no partner for a channel.
    for ends in ((0, 0), (0, 1), (1, 0)):
        run = run_of_starts(1, [encode.channel(0, *ends)])
        yield from both_ways(run, NO_CLAUSE, 1)
    for file_format in (0, 2, 256):
        for counts in ((2, 0), (0, 0), (9, 17)):
            head = encode.run_head(*counts, file_format)
            body = b"".join(starts(2)) + encode.end()
            yield Question(SEARCH, 2, (), head + body, NO_CLAUSE)


def clause_limits() -> Iterator[Question]:
    clause = encode.local_clause(1, 3, 3, 0)
    for said, standing in itertools.product(
        (0, 1, 31, 32, 33, 65_535), (0, 1, 31, 32, 33)
    ):
        condition = encode.condition_head(said) + clause * standing + encode.end()
        yield Question(SEARCH, 2, (), two_desks(), condition)
    for said in (32, 33):
        condition = encode.condition_head(said) + clause * said + encode.end()
        yield from both_ways(two_desks(), condition, 2)
        yield Question(SATISFIES, 0, (2, 2), two_desks(), condition)


def state_limits() -> Iterator[Question]:
    for constant in (MOST_STATES, MOST_STATES + 1):
        condition = encode.condition(encode.local_clause(0, 0, 1, constant))
        yield Question(SEARCH, 1, (), lone_process(MOST_STATES), condition)
    yield Question(CONSISTENT, 0, (MOST_STATES + 1,), lone_process(MOST_STATES), b"")
    yield Question(SEARCH, 1, (), lone_process(MOST_STATES + 1), NO_CLAUSE)
    clock = (MOST_STATES + 1, 0)
    one_too_many = [
        encode.state(0, INTERNAL, clock),
        encode.state(0, SEND, clock, (1, 0, 0)),
        encode.state(2, INTERNAL, clock),
        encode.state(0, 4, clock, (9, 0, 0)),
        encode.state(0, INTERNAL, clock, (0, 1, 0)),
        encode.state(0, START, clock),
        encode.state(0, RECEIVE, clock, (0, 3, 0)),
        encode.state(1, INTERNAL, (0, 2)),
    ]
    for last in one_too_many:
        yield Question(SEARCH, 2, (), many_states(MOST_STATES, last), NO_CLAUSE)


def file_limits() -> Iterator[Question]:
    longest = longest_run()
    condition = encode.condition(encode.channel_clause(1, 2, 3))
    yield Question(SEARCH, 8, (), longest, condition)
    yield Question(SEARCH, 8, (), longest + b"\x04", condition)
    yield Question(SEARCH, 8, (), longest + b"\x04\x00", condition)
    yield Question(SHOWN, 8, (), too_long_run(), condition)


def condition_file_limits() -> Iterator[Question]:
    short = small_condition()
    filled = short + bytes(LONGEST_FILE - len(short))
    one_record = encode.number_bytes(LONGEST_FILE, 2) + b"\x10" + bytes(LONGEST_FILE - 3)
    yield Question(SEARCH, 2, (), two_desks(), filled)
    yield Question(SHOWN, 2, (), two_desks(), one_record)
    yield Question(SEARCH, 1, (), two_desks(), filled + b"\x00")
    yield Question(SEARCH, 2, (), marked_wrong_clock(), filled + b"\x00")


# Circles and pairing


def circles() -> Iterator[Question]:
    for process_count, hearers in ((2, 0), (3, 0), (8, 0), (2, 1), (3, 2)):
        draft = circle_draft(process_count, hearers)
        for style in ("executed", "by process", "by process, last first"):
            run = draft_bytes(draft, file_order(Chance(1), draft, style))
            yield from both_ways(run, NO_CLAUSE, 8)
    yield from circles_with_other_faults()
    # The same ring is sound once a single process sends ahead of its receive.
    draft = circle_draft(3)
    history = draft.histories[1]
    history[1], history[2] = history[2], history[1]
    run = draft_bytes(draft, file_order(Chance(1), draft, "by process"))
    for channel in range(3):
        condition = encode.condition(encode.channel_clause(channel, 3, 1))
        yield Question(SEARCH, 3, (), run, condition)
        yield Question(MESSAGES, channel, (2, 2, 1), run, b"")


def circles_with_other_faults() -> Iterator[Question]:
    draft = circle_draft(2, 1)
    order = file_order(Chance(1), draft, "by process, last first")
    sound = [bytearray(record) for record in run_records(run_of(draft, order))]
    for record in of_kind(sound, KIND_STATE):
        changed = bytearray(record)
        put(changed, STATE_CLOCK_AT, get(changed, STATE_CLOCK_AT) + 1)
        swapped = [changed if other is record else other for other in sound]
        yield Question(SEARCH, 8, (), b"".join(swapped), NO_CLAUSE)
        if get(record, 6) in (SEND, RECEIVE):
            changed = bytearray(record)
            put(changed, 10, 9_999)
            swapped = [changed if other is record else other for other in sound]
            yield Question(SEARCH, 8, (), b"".join(swapped), NO_CLAUSE)


def pairing_faults() -> Iterator[Question]:
    send, send_on_other = Step(SEND, 0, 4, 1), Step(SEND, 1, 4, 1)
    receive, receive_on_other = Step(RECEIVE, 0, 4), Step(RECEIVE, 1, 4)
    strange = Step(RECEIVE, 0, 5)
    exchanges = [
        ((send, send), (receive, receive)),
        ((send, send), (receive, strange)),
        ((send, send_on_other), (receive, receive)),
        ((send, send_on_other), (receive, receive_on_other)),
        ((send_on_other, send_on_other), (receive, strange)),
        ((send, Step(INTERNAL)), (receive, receive)),
        ((send, Step(INTERNAL)), (receive_on_other, receive)),
        ((Step(INTERNAL), Step(INTERNAL)), (receive, receive)),
        ((send, Step(SEND, 0, 2**32 - 1)), (Step(RECEIVE, 0, 2**31), strange)),
    ]
    for first, second in exchanges:
        for order in ("000111", "111000", "010101", "011100"):
            yield Question(SEARCH, 2, (), unpaired_run(first, second, order), NO_CLAUSE)


# Cuts, channels and lent places that callers give


def wrong_cuts() -> Iterator[Question]:
    run = two_desks()
    cuts = [
        (), (1,), (3,), (1, 1, 1), (1, 1, 0), (1,) * 24, (0, 1), (1, 0), (0, 0),
        (4, 1), (1, 4), (4, 4), (3, 3), (3, 65_535), (65_535, 1), (513, 1), (257, 258),
    ]
    for cut in cuts:
        yield Question(CONSISTENT, 0, cut, run, b"")
        yield Question(SATISFIES, 0, cut, run, small_condition())
        yield Question(SATISFIES, 0, cut, run, NO_CLAUSE)
        for channel in (0, 1, 16, 65_535):
            yield Question(MESSAGES, channel, cut, run, b"")
    for channel in (0, 1):
        yield Question(MESSAGES, channel, (1, 1), run_of_starts(2), b"")


def lent_places() -> Iterator[Question]:
    conditions = [small_condition(), marked_conditions()[4], small_condition()[:-2]]
    for condition in conditions:
        for lent in (0, 1, 2, 3, 8, 24):
            yield from both_ways(two_desks(), condition, lent)
        yield Question(SEARCH, 0, (), marked_wrong_clock(), condition)
    for process_count in (1, 8):
        for lent in (0, 1, 7, 8, 9, 24):
            run = run_of_starts(process_count)
            yield Question(SEARCH, lent, (), run, NO_CLAUSE)


# Comparisons and tests against the ends of their fields


def comparisons_at_extremes() -> Iterator[Question]:
    values = [0, *EXTREMES]
    records = [encode.run_head(1, 0)]
    for index, value in enumerate(values):
        event = START if index == 0 else INTERNAL
        clock = (index + 1,)
        row = (value, -index, values[-1 - index], 0)
        records.append(encode.state(0, event, clock, values=row))
    run = b"".join([*records, encode.end()])
    for comparison, constant in itertools.product((1, 2, 3, 4), EXTREMES):
        for value in (0, 2):
            clause = encode.local_clause(0, value, comparison, constant)
            yield Question(SEARCH, 1, (), run, encode.condition(clause))
    for comparison, constant in itertools.product((1, 2, 3, 4), EXTREMES[::2]):
        clause = encode.local_clause(0, 0, comparison, constant)
        for number in (2, 4, 8):
            condition = encode.condition(clause)
            yield Question(SATISFIES, 0, (number,), run, condition)


def tests_at_extremes() -> Iterator[Question]:
    operands = (0, 1, 2, 3, 2**31 - 1, 2**31, 2**31 + 1, 2**32 - 2, 2**32 - 1)
    # An index is the place of a stamp in the row, so messages overtake here.
    runs = [
        run_with_stamps((2**31 - 1, 0, -(2**31), -1, 2), (2, 0, 4)),
        run_with_stamps((-(2**31) + 1, 3, 1), (1, 0, 2)),
    ]
    for run, test, operand in itertools.product(runs, range(1, 8), operands):
        condition = encode.condition(encode.channel_clause(0, test, operand))
        yield Question(SEARCH, 2, (), run, condition)
    all_sent = encode.local_clause(0, 0, 1, 4)
    for test, operand in itertools.product(range(1, 8), operands):
        clause = encode.channel_clause(0, test, operand)
        condition = encode.condition(all_sent, clause)
        yield Question(SEARCH, 2, (), runs[0], condition)
        # Inconsistent too: with nothing sent, a receive leaves nothing behind.
        for cut in ((6, 2), (1, 4)):
            yield Question(SATISFIES, 0, cut, runs[0], encode.condition(clause))


def counts_at_every_cut() -> Iterator[Question]:
    """Received out of turn, so that sends less receives is no count at many cuts."""
    run = run_with_stamps((5, 0, -5, 0), (3, 0, 1))
    for cut in itertools.product(range(1, 6), range(1, 5)):
        yield Question(MESSAGES, 0, cut, run, b"")
        for test, operand in ((1, 0), (2, 1), (3, 1), (4, 0), (6, 0)):
            condition = encode.condition(encode.channel_clause(0, test, operand))
            yield Question(SATISFIES, 0, cut, run, condition)
