"""Named cases of what is judged over all records: pairing, circles, clocks."""

from __future__ import annotations

import itertools
from typing import Iterator, Sequence

import encode
from damage import STATE_CLOCK_AT, get, put
from execution import Draft, Step, run_of, run_records
from fixed_runs import unpaired_run
from marked import (
    NO_CLAUSE,
    marked_conditions,
    marked_wrong_clock,
    two_desks_records,
)
from model import INTERNAL, RECEIVE, SEND, START, Channel
from naming import NONE, Named, found, place_of, refused_run, searched

SEND_4 = Step(SEND, 0, 4, 1)
RECEIVE_4 = Step(RECEIVE, 0, 4)
SILENT = Step(INTERNAL)


def written(draft: Draft, order: str) -> bytes:
    """The run with its records in this order of processes, one digit for each."""
    return b"".join(run_records(run_of(draft, [int(digit) for digit in order])))


def draft_of(channels: Sequence[Channel], *histories: Sequence[Step]) -> Draft:
    draft = Draft(len(histories), list(channels))
    for process, history in enumerate(histories):
        for step in (Step(START), *history):
            draft.add(process, step)
    return draft


def named_order() -> Iterator[Named]:
    yield from second_sends()
    yield from second_receives()
    yield from receives_with_no_send()
    yield from first_of_the_three()
    yield from paired_well()
    yield from receives_ahead_in_the_file()
    yield from circles_alone()
    yield from after_a_circle()
    yield from not_after_a_circle()
    yield from no_circle()
    yield from wrong_clocks()
    yield from marked_case_10()


# Pairing: two channels from process 0 to process 1, so states from place 30 on


def unpaired(
    shape: str,
    detail: str,
    first: Sequence[Step],
    second: Sequence[Step],
    places_in_file: dict[str, int],
) -> Iterator[Named]:
    """For each file order the state, counted in the file from 0, that is refused."""
    for order, index in places_in_file.items():
        run = unpaired_run(first, second, order)
        expected = refused_run(11, 30 + 38 * index)
        yield searched(shape, f"{detail}, file order {order}", run, NO_CLAUSE, expected)


def second_sends() -> Iterator[Named]:
    shape = "second send of a message"
    places = {"000111": 2, "111000": 5, "010101": 4, "011100": 5}
    yield from unpaired(shape, "received once", (SEND_4, SEND_4), (RECEIVE_4, SILENT), places)
    yield from unpaired(shape, "never received", (SEND_4, SEND_4), (SILENT, SILENT), places)
    other_stamp = Step(SEND, 0, 4, -1)
    yield from unpaired(shape, "other stamp", (SEND_4, other_stamp), (SILENT, SILENT), places)
    for number in (0, 2**32 - 1):
        send = Step(SEND, 1, number)
        yield from unpaired(shape, f"number {number}", (send, send), (SILENT, SILENT), places)


def second_receives() -> Iterator[Named]:
    shape = "second receive of a message"
    places = {"000111": 5, "111000": 2, "010101": 5, "011100": 3}
    both = (RECEIVE_4, RECEIVE_4)
    yield from unpaired(shape, "sent once", (SEND_4, SILENT), both, places)
    on_other = Step(SEND, 1, 4, 1)
    yield from unpaired(shape, "sent on the other channel too", (SEND_4, on_other), both, places)


def receives_with_no_send() -> Iterator[Named]:
    shape = "receive with no send"
    places = {"000111": 4, "111000": 1, "010101": 3, "011100": 2}
    hearer = (RECEIVE_4, SILENT)
    yield from unpaired(shape, "nothing sent", (SILENT, SILENT), hearer, places)
    others = {
        "sent on the other channel": Step(SEND, 1, 4),
        "another number sent": Step(SEND, 0, 5),
        "a number with the same low half sent": Step(SEND, 0, 4 + 2**16),
        "a number with the same low bits sent": Step(SEND, 0, 4 + 2**31),
    }
    for detail, send in others.items():
        yield from unpaired(shape, detail, (send, SILENT), hearer, places)


def first_of_the_three() -> Iterator[Named]:
    shape = "the first of several pairing faults in the file"
    strange = Step(RECEIVE, 0, 5)
    places = {"000111": 2, "111000": 1, "010101": 3}
    sends = (SEND_4, SEND_4)
    yield from unpaired(shape, "second send, no send", sends, (strange, SILENT), places)
    places = {"000111": 2, "111000": 2, "010101": 4}
    yield from unpaired(shape, "second send, second receive", sends, (RECEIVE_4,) * 2, places)
    places = {"000111": 5, "111000": 2}
    late = (RECEIVE_4, RECEIVE_4, strange)
    for order, index in places.items():
        run = unpaired_run((SEND_4, SILENT), late, order + "1")
        expected = refused_run(11, 30 + 38 * index)
        detail = f"second receive, no send, file order {order}1"
        yield searched(shape, detail, run, NO_CLAUSE, expected)


def paired_well() -> Iterator[Named]:
    shape = "the same message number on two channels"
    channels = [Channel(0, 1), Channel(0, 1)]
    sends = (SEND_4, Step(SEND, 1, 4, 1))
    receives = (Step(RECEIVE, 1, 4), RECEIVE_4)
    draft = draft_of(channels, sends, receives)
    on_both = encode.condition(encode.channel_clause(0, 2, 1), encode.channel_clause(1, 2, 1))
    for order in ("000111", "111000", "010101"):
        run = written(draft, order)
        yield searched(shape, f"file order {order}", run, on_both, found((3, 1), [(1, 1), (1, 1)]))
    shape = "a message that is never received"
    run = written(draft_of([Channel(0, 1)], (SEND_4,), (SILENT,)), "0011")
    sent = encode.condition(encode.channel_clause(0, 3, 1))
    gone = encode.condition(encode.channel_clause(0, 3, 1), encode.channel_clause(0, 1, 0))
    yield searched(shape, "in transit", run, sent, found((2, 1), [(1, 1)]))
    yield searched(shape, "never gone again", run, gone, NONE)


def receives_ahead_in_the_file() -> Iterator[Named]:
    shape = "receive ahead of its send in the file"
    head, channel, *states, end = two_desks_records()
    answers = [
        found((1, 1), [None]), found((2, 1), [(1, 5)]), found((2, 2), [None]),
        found((2, 3), [None]), NONE, found((1, 1), [None]), NONE,
    ]
    # Numbers of the six states in the order in which they now stand.
    for order in ((3, 4, 5, 0, 1, 2), (3, 4, 0, 1, 5, 2), (0, 3, 4, 1, 2, 5)):
        run = b"".join([head, channel, *(states[index] for index in order), end])
        for number, (condition, answer) in enumerate(zip(marked_conditions(), answers), 2):
            detail = f"order {order}, condition of marked case {number}"
            yield searched(shape, detail, run, condition, answer)


# Circles


def ring_histories(size: int) -> list[list[Step]]:
    """Each process receives from the one behind and then sends to the one ahead."""
    return [
        [Step(RECEIVE, (process - 1) % size, 3), Step(SEND, process, 3, 8)]
        for process in range(size)
    ]


def ring_channels(size: int) -> list[Channel]:
    return [Channel(process, (process + 1) % size) for process in range(size)]


def circles_alone() -> Iterator[Named]:
    names = {
        2: "two processes that each receive before they send to the other",
        3: "circle of three processes",
        8: "circle of eight processes",
    }
    for size, shape in names.items():
        draft = draft_of(ring_channels(size), *ring_histories(size))
        digits = "".join(map(str, range(size)))
        state, first = 34 + 2 * size, 10 + 10 * size
        in_turn = "".join(digit * 3 for digit in digits)
        backwards = "".join(digit * 3 for digit in reversed(digits))
        # All starts first: the first state on the circle follows the last start.
        for order, index in ((in_turn, 1), (backwards, 1), (digits * 3, size)):
            expected = refused_run(12, first + state * index)
            yield searched(shape, f"file order {order}", written(draft, order), NO_CLAUSE, expected)
    shape = "circle of two processes"
    waiting = [[SILENT, *history[:1], SILENT, *history[1:]] for history in ring_histories(2)]
    draft = draft_of(ring_channels(2), *waiting)
    for order, index in (("0000011111", 2), ("1111100000", 2), ("0101010101", 4)):
        expected = refused_run(12, 30 + 38 * index)
        detail = f"with internal states between, file order {order}"
        yield searched(shape, detail, written(draft, order), NO_CLAUSE, expected)


def circle_with_hearers(ring: Sequence[int], hearers: Sequence[int]) -> Draft:
    """A circle of some processes; the first hearer hears of it, each next from the last."""
    size, count = len(ring), len(ring) + len(hearers)
    channels = [Channel(ring[index], ring[(index + 1) % size]) for index in range(size)]
    histories: list[list[Step]] = [[] for _ in range(count)]
    for process, history in zip(ring, ring_histories(size)):
        histories[process] += history
    teller = ring[0]
    for hearer in hearers:
        number = len(channels)
        channels.append(Channel(teller, hearer))
        histories[teller].append(Step(SEND, number, 6, 1))
        histories[hearer] += [SILENT, Step(RECEIVE, number, 6)]
        teller = hearer
    return draft_of(channels, *histories)


def order_by_process(draft: Draft, processes: Sequence[int]) -> str:
    return "".join(str(process) * len(draft.histories[process]) for process in processes)


def after_a_circle() -> Iterator[Named]:
    shape = "a state after a circle that stands ahead of it in the file"
    for size in (2, 3):
        for hearer in range(size + 1):
            ring = [process for process in range(size + 1) if process != hearer]
            draft = circle_with_hearers(ring, [hearer])
            run = written(draft, order_by_process(draft, [hearer, *ring]))
            # The hearer's start and its internal state are neither on the circle nor after it.
            place = 10 + 10 * (size + 1) + 2 * (34 + 2 * (size + 1))
            detail = f"on process {hearer} after a circle of {size}"
            yield searched(shape, detail, run, NO_CLAUSE, refused_run(12, place))
    shape = "a state after a circle by two messages, ahead of it in the file"
    for near, far in itertools.permutations(range(4), 2):
        ring = [process for process in range(4) if process not in (near, far)]
        draft = circle_with_hearers(ring, [near, far])
        run = written(draft, order_by_process(draft, [far, near, *ring]))
        place = 10 + 10 * 4 + 2 * 42
        detail = f"on process {far}, told by process {near}"
        yield searched(shape, detail, run, NO_CLAUSE, refused_run(12, place))


def not_after_a_circle() -> Iterator[Named]:
    """The message is sent from a state ahead of the circle, so it doesn't tell of it."""
    shape = "a state that hears of a time ahead of the circle"
    for hearer in range(3):
        ring = [process for process in range(3) if process != hearer]
        channels = [
            Channel(ring[0], ring[1]), Channel(ring[1], ring[0]), Channel(ring[0], hearer)
        ]
        histories: list[list[Step]] = [[], [], []]
        histories[hearer] = [Step(RECEIVE, 2, 6)]
        # The send leads into the state that is followed by the circle.
        histories[ring[0]] = [Step(SEND, 2, 6, 1), *ring_histories(2)[0]]
        histories[ring[1]] = ring_histories(2)[1]
        draft = draft_of(channels, *histories)
        run = written(draft, order_by_process(draft, [hearer, *ring]))
        # Two states of the hearer, then a start and a send that are sound.
        expected = refused_run(12, 40 + 40 * 4)
        yield searched(shape, f"on process {hearer}", run, NO_CLAUSE, expected)


def no_circle() -> Iterator[Named]:
    shape = "messages that cross, which is no circle"
    crossing = [list(reversed(history)) for history in ring_histories(2)]
    run = written(draft_of(ring_channels(2), *crossing), "000111")
    both = encode.condition(encode.channel_clause(0, 3, 1), encode.channel_clause(1, 3, 1))
    each_sent = found((2, 2), [(1, 8), (1, 8)])
    yield searched(shape, "two processes that each send first", run, both, each_sent)
    opened = ring_histories(3)
    opened[1].reverse()
    run = written(draft_of(ring_channels(3), *opened), "000111222")
    # Process 1 sends, 2 receives and sends, 0 receives and sends, 1 receives.
    for channel, cut in ((0, (3, 2, 3)), (1, (1, 2, 1)), (2, (1, 2, 3))):
        condition = encode.condition(encode.channel_clause(channel, 3, 1))
        detail = f"three processes of which one sends first, channel {channel}"
        there = [(1, 8) if each == channel else None for each in range(3)]
        yield searched(shape, detail, run, condition, found(cut, there))


# Clocks


def clock_run_records() -> list[bytes]:
    histories = ring_histories(3)
    histories[1].reverse()
    draft = draft_of(ring_channels(3), *histories)
    order = [1, 2, 0, 1, 2, 2, 0, 0, 1]
    return run_records(run_of(draft, order))


def wrong_clocks() -> Iterator[Named]:
    eight = [encode.run_head(8, 0), *starts_of_eight(), encode.end()]
    for name, records, states in (
        ("two desks", two_desks_records(), range(2, 8)),
        ("three processes", clock_run_records(), range(4, 13)),
        ("eight processes", eight, (1, 4, 8)),
    ):
        for index in states:
            yield from beside_each_place(name, records, index)
    yield from first_wrong_clock()


def starts_of_eight() -> list[bytes]:
    return [
        encode.state(process, START, [int(place == process) for place in range(8)])
        for process in range(8)
    ]


def beside_each_place(name: str, records: list[bytes], index: int) -> Iterator[Named]:
    process = get(bytearray(records[index]), 4)
    for offset in range(STATE_CLOCK_AT, len(records[index]), 2):
        place = (offset - STATE_CLOCK_AT) // 2
        own = "own" if place == process else "other"
        for word, difference in (("up", 1), ("down", -1)):
            changed = bytearray(records[index])
            put(changed, offset, get(changed, offset) + difference)
            run = b"".join([*records[:index], bytes(changed), *records[index + 1 :]])
            detail = f"{name}, record {index}, place {place}, {word}"
            shape = f"clock one {word} in the {own} place"
            expected = refused_run(13, place_of(records, index))
            yield searched(shape, detail, run, NO_CLAUSE, expected)


def first_wrong_clock() -> Iterator[Named]:
    shape = "the first of two wrong clocks in the file"
    records = two_desks_records()
    for one, other in itertools.combinations(range(2, 8), 2):
        changed = [bytearray(record) for record in records]
        for index in (one, other):
            put(changed[index], STATE_CLOCK_AT, 9)
        expected = refused_run(13, place_of(records, one))
        yield searched(shape, f"records {one} and {other}", b"".join(changed), NO_CLAUSE, expected)


def marked_case_10() -> Iterator[Named]:
    shape = "marked case 10"
    run, expected = marked_wrong_clock(), refused_run(13, 172)
    for number, condition in enumerate(marked_conditions(), 2):
        detail = f"condition of marked case {number}"
        yield searched(shape, detail, run, condition, expected, lent=2)
    yield searched(shape, "an empty condition", run, b"", expected, lent=2)
