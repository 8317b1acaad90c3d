"""Checks this program itself: marked cases, definitions against each other, refusals."""

from __future__ import annotations

import os
import sys
import tempfile
from collections import Counter
from pathlib import Path
from typing import Callable, Iterator, Optional

ROOT = Path(__file__).resolve().parent.parent
sys.path[:0] = [str(ROOT / "second"), str(ROOT / "cases")]

import encode  # noqa: E402
from answer import answer_lines, found_lines  # noqa: E402
from beside import listing  # noqa: E402
from cases import Table, answer_of, decode_cases, encode_case  # noqa: E402
from chance import Chance  # noqa: E402
from conditions import Aim, channel_clause, draw_clause  # noqa: E402
from damage import put  # noqa: E402
from execution import (  # noqa: E402
    EXTREMES,
    HIGHEST,
    LOWEST,
    Draft,
    add_untimely_message,
    draw_channels,
    file_order,
    run_of,
    simulate,
)
from fixed import fixed_questions  # noqa: E402
from fixed_runs import circle_draft, draft_bytes, run_with_stamps  # noqa: E402
from generate import seeded_questions  # noqa: E402
from marked import (  # noqa: E402
    NO_CLAUSE,
    marked_conditions,
    marked_wrong_clock,
    run_of_starts,
    small_condition,
    two_desks,
    two_desks_cuts,
    two_desks_records,
)
from model import (  # noqa: E402
    EVERY_STAMP_AT_LEAST,
    SOME_STAMP_AT_MOST,
    Clause,
    Run,
    channel_test_holds,
    chosen_positions,
    clause_holds,
    clocks,
    direct_pairs,
    every_cut,
    first_by_enumeration,
    first_by_moving_up,
    is_consistent,
    lowest_stamp,
    on_or_after_circle,
    process_to_move,
    stamps_in_transit,
)
from named import named_cases  # noqa: E402
from questions import (  # noqa: E402
    MESSAGES,
    SEARCH,
    Found,
    Part,
    Question,
    Transit,
    consistent,
    messages,
    messages_on_each,
    record_at,
    record_words,
    satisfies,
    search,
    search_refusal,
    shown_part,
)
from reading import Refusal, judge_run  # noqa: E402
from shapes import SHAPES  # noqa: E402

Outcome = tuple[str, object, object]
Told = tuple[str, int, int, bool]

EMPTY = Transit(0, None)


def told(call: Callable[[], object]) -> Optional[Told]:
    """The refusal that a call gives, if it gives one."""
    try:
        call()
    except Refusal as refusal:
        return refusal.file, refusal.number, refusal.place, refusal.after
    return None


# The marked cases


def marked_cases() -> Iterator[Outcome]:
    run, conditions = two_desks(), marked_conditions()
    yield "length of the run of two desks", len(run), 252
    inconsistent = [cut for cut in two_desks_cuts() if not consistent(run, cut)]
    yield "marked case 1", inconsistent, [(1, 2), (1, 3)]
    yield "marked case 2", search(run, conditions[0], 2), Found((1, 1), (EMPTY,))
    yield "marked case 3", search(run, conditions[1], 2), Found((2, 1), (Transit(1, 5),))
    yield "marked case 4", search(run, conditions[2], 2), Found((2, 2), (EMPTY,))
    yield "marked case 5", search(run, conditions[3], 2), Found((2, 3), (EMPTY,))
    yield "marked case 6", search(run, conditions[4], 2), None
    yield "marked case 7", search(run, conditions[5], 2), Found((1, 1), (EMPTY,))
    yield "marked case 8", search(run, conditions[6], 2), None
    yield "marked case 9", messages(run, (1, 2), 0), EMPTY
    wrong = told(lambda: search(marked_wrong_clock(), NO_CLAUSE, 2))
    yield "marked case 10", wrong, ("run", 13, 172, False)


# Refusals written out by hand


def run_refusal(run: bytes) -> Optional[Told]:
    return told(lambda: judge_run(run))


def changed_run(record: int, offset: int, number: int, size: int = 2) -> bytes:
    records = [bytearray(each) for each in two_desks_records()]
    put(records[record], offset, number, size)
    return b"".join(records)


def frame_refusals() -> Iterator[Outcome]:
    run = two_desks()
    for name, data, number, place, after in [
        ("an empty run", b"", 2, 0, False),
        ("a single byte", b"\x0a", 2, 0, False),
        ("length 3 with nothing behind", b"\x03\x00", 3, 0, False),
        ("length 4 with nothing behind", b"\x04\x00", 2, 0, False),
        ("no end record", run[:-4], 2, 248, False),
        ("half a state", run[:100], 2, 96, False),
        ("one byte after the end", run + b"\x00", 4, 252, True),
        ("65,536 bytes", run.ljust(65_536, b"\x00"), 1, 0, False),
        ("65,535 bytes", run.ljust(65_535, b"\x00"), 4, 252, True),
        ("an end of five bytes", changed_run(8, 0, 5) + b"\x00", 3, 248, False),
        ("a condition as a run", small_condition(), 4, 0, False),
    ]:
        yield name, run_refusal(data), ("run", number, place, after)


def record_refusals() -> Iterator[Outcome]:
    for name, data, number, place in [
        ("format 2", changed_run(0, 4, 2), 6, 0),
        ("no process", changed_run(0, 6, 0), 5, 0),
        ("nine processes", changed_run(0, 6, 9), 5, 0),
        ("seventeen channels", changed_run(0, 8, 17), 5, 0),
        ("one channel too few", changed_run(0, 8, 2), 4, 20),
        ("one channel too many", changed_run(0, 8, 0), 4, 10),
        ("channel out of turn", changed_run(1, 4, 1), 7, 10),
        ("equal ends", changed_run(1, 8, 0), 7, 10),
        ("missing process", changed_run(4, 4, 2), 7, 96),
        ("missing channel", changed_run(3, 8, 1), 7, 58),
        ("unknown event", changed_run(5, 6, 4), 8, 134),
        ("unknown event with a wild channel", changed_run(5, 6, 2**16 + 4, 4), 8, 134),
        ("start with a message", changed_run(2, 12, 1), 8, 20),
        ("receive with a stamp", changed_run(6, 17, 128), 8, 172),
        ("start missing", changed_run(2, 6, 1), 9, 20),
        ("start misplaced", changed_run(7, 6, 0), 9, 210),
        ("send by the receiver", changed_run(6, 6, 2), 10, 172),
        ("receive with no send", changed_run(6, 10, 8), 11, 172),
        ("send renamed", changed_run(3, 10, 8), 11, 172),
        ("own place of a clock", changed_run(4, 34, 2), 13, 96),
        ("clock of a start", changed_run(5, 34, 1), 13, 134),
    ]:
        yield name, run_refusal(data), ("run", number, place, False)
    records = two_desks_records()
    alone = b"".join([*records[:5], records[8]])
    yield "a process with no state", run_refusal(alone), ("run", 9, 134, False)
    for process_count in (1, 8):
        refusal = run_refusal(run_of_starts(process_count))
        yield f"{process_count} processes", refusal, None


def circle_refusals() -> Iterator[Outcome]:
    for size, place in ((2, 68), (3, 80)):
        draft = circle_draft(size)
        run = draft_bytes(draft, file_order(Chance(1), draft, "by process"))
        yield f"{size} in a circle", run_refusal(run), ("run", 12, place, False)
    # The hearer's records come first; only its third state is after the circle.
    draft = circle_draft(2, 1)
    order = file_order(Chance(1), draft, "by process, last first")
    refusal = run_refusal(draft_bytes(draft, order))
    yield "after a circle", refusal, ("run", 12, 40 + 2 * 40, False)


def condition_refusals() -> Iterator[Outcome]:
    run, clause = two_desks(), encode.local_clause(0, 0, 1, 0)
    for name, condition, number, place, after in [
        ("an empty condition", b"", 2, 0, False),
        ("a run as a condition", run, 4, 0, False),
        ("K of 33", encode.condition(*[clause] * 33), 5, 0, False),
        ("a clause too few", encode.condition_head(1) + encode.end(), 4, 6, False),
        ("a clause too many", encode.condition_head(0) + clause, 4, 6, False),
        ("value 4", encode.condition(encode.local_clause(0, 4, 0, 0)), 7, 6, False),
        ("process 2", encode.condition(encode.local_clause(2, 0, 1, 0)), 7, 6, False),
        ("comparison 5", encode.condition(encode.local_clause(0, 0, 5, 0)), 8, 6, False),
        ("channel 1", encode.condition(encode.channel_clause(1, 9, 0)), 7, 6, False),
        ("test 10", encode.condition(encode.channel_clause(0, 10, 0)), 8, 6, False),
        ("test 9", encode.condition(clause, encode.channel_clause(0, 9, 0)), 14, 20, False),
        ("a byte after", NO_CLAUSE + b"\x04", 4, 10, True),
        ("too long", NO_CLAUSE.ljust(65_536, b"\x00"), 1, 0, False),
    ]:
        refusal = told(lambda: search(run, condition, 2))
        yield name, refusal, ("cond", number, place, after)


def order_of_refusals() -> Iterator[Outcome]:
    run, wrong, short = two_desks(), marked_wrong_clock(), b"\x00"
    for name, call, expected in [
        ("run first", lambda: search(wrong, short, 0), ("run", 13, 172, False)),
        ("condition next", lambda: search(run, short, 0), ("cond", 2, 0, False)),
        ("then room", lambda: search(run, NO_CLAUSE, 1), ("run", 15, 0, False)),
        ("exact room", lambda: search(run, NO_CLAUSE, 2), None),
        ("cut before channel", lambda: messages(run, (0, 1), 9), ("run", 16, 0, False)),
        ("channel", lambda: messages(run, (1, 1), 1), ("run", 17, 0, False)),
        ("past the last", lambda: consistent(run, (1, 4)), ("run", 16, 0, False)),
        ("short cut", lambda: satisfies(run, NO_CLAUSE, (1,)), ("run", 16, 0, False)),
    ]:
        yield name, told(call), expected
    yield "inconsistent without clauses", satisfies(run, NO_CLAUSE, (1, 2)), False


def shown(run: bytes, condition: bytes, lent: int) -> Part:
    return shown_part(run, condition, search_refusal(run, condition, lent))


def bytes_shown() -> Iterator[Outcome]:
    run, record = two_desks(), two_desks_records()[6]
    wrong = bytearray(record)
    put(wrong, 34, 2)
    after = encode.end() + b"\x01"
    front = Part("run", 0, b"")
    for name, got, expected in [
        ("shown for a clock", shown(marked_wrong_clock(), b"", 0), Part("run", 172, bytes(wrong))),
        ("shown after the end", shown(run + after, b"", 0), Part("run", 252, after)),
        ("shown of half a record", shown(run[:180], b"", 0), Part("run", 172, run[172:180])),
        ("shown of a single byte", shown(run[:173], b"", 0), Part("run", 172, run[172:173])),
        ("shown where no byte is left", shown(run[:172], b"", 0), Part("run", 172, b"")),
        ("shown of length 0", shown(changed_run(6, 0, 0), b"", 0), Part("run", 172, b"")),
        ("shown of length 3", shown(changed_run(6, 0, 3), b"", 0), Part("run", 172, b"\x03\x00\x03")),
        ("shown of a condition", shown(run, small_condition()[:8], 0), Part("cond", 6, b"\x0e\x00")),
        ("shown of an empty condition", shown(run, b"", 0), Part("cond", 0, b"")),
        ("shown for no room", shown(run, NO_CLAUSE, 0), front),
        ("shown for found", shown(run, NO_CLAUSE, 2), front),
    ]:
        yield name, got, expected


def listings() -> Iterator[Outcome]:
    run, no_room = two_desks(), ("run", 15, 0, False)
    on_its_way = messages_on_each(run, (2, 1), 1, 1)
    yield "channels while the message is on its way", on_its_way, (Transit(1, 5),)
    yield "channels after it came", messages_on_each(run, (2, 2), 3, 2), (EMPTY,)
    for name, counts, stamps in (
        ("no place lent", 0, 0), ("no place for the count", 0, 1), ("no place for the stamp", 1, 0)
    ):
        refusal = told(lambda: messages_on_each(run, (2, 1), counts, stamps))
        yield f"channels with {name}", refusal, no_room
    wrong_cut = told(lambda: messages_on_each(run, (4, 1), 0, 0))
    yield "channels of no cut", wrong_cut, ("run", 16, 0, False)


# The lowest stamp, written out by hand: what is sent and received, the cut, what is in transit


def lowest_stamps() -> Iterator[Outcome]:
    for name, stamps, received, cut, expected in (
        ("nothing sent yet", (5,), (), (1, 1), EMPTY),
        ("one message", (5,), (), (2, 1), Transit(1, 5)),
        ("a stamp of 0", (0,), (), (2, 1), Transit(1, 0)),
        ("-1 is below 0", (0, -1), (), (3, 1), Transit(2, -1)),
        ("both signs", (3, -2, 7, -9, 4), (), (6, 1), Transit(5, -9)),
        ("equal stamps", (6, 6, 6), (1,), (4, 2), Transit(2, 6)),
        ("the lowest of all stamps", (-2147483648,), (), (2, 1), Transit(1, -2147483648)),
        ("the highest of all stamps", (2147483647,), (), (2, 1), Transit(1, 2147483647)),
        ("both extremes", (2147483647, -2147483648), (), (3, 1), Transit(2, -2147483648)),
        ("the lowest came first", (1, 3, 2), (), (4, 1), Transit(3, 1)),
        ("the lowest came last", (3, 2, 1), (), (4, 1), Transit(3, 1)),
        ("the lowest isn't sent yet", (5, -7), (), (2, 1), Transit(1, 5)),
        ("the lowest is received", (1, -8, 3), (1,), (4, 2), Transit(2, 1)),
        ("another is received", (1, -8, 3), (0,), (4, 2), Transit(2, -8)),
        ("all are received", (1, -8), (1, 0), (3, 3), EMPTY),
        ("received ahead of its send", (5,), (0,), (1, 2), EMPTY),
        ("received ahead, others in transit", (4, -3, 6), (2, 0), (3, 2), Transit(2, -3)),
        ("received ahead, one of the others too", (4, -3, 6), (2, 0), (3, 3), Transit(1, -3)),
        ("received ahead, all of the others too", (4, -3, 6), (2, 0), (2, 3), EMPTY),
    ):
        run = run_with_stamps(stamps, received)
        yield f"messages, {name}", messages(run, cut, 0), expected
        yield f"all channels, {name}", messages_on_each(run, cut, 1, 1), (expected,)


def printed_stamps() -> Iterator[Outcome]:
    channels = (Transit(1, -2147483648), EMPTY, Transit(3, 0))
    lines = ["found", "state 0 2", "channel 0 1 -2147483648", "channel 1 0 -", "channel 2 3 0"]
    yield "channel lines", found_lines(Found((2,), channels)), lines
    run, no_room = run_with_stamps((-1,), ()), "refused run 15 0"
    for name, question, lines in (
        ("a count", Question(MESSAGES, 0, (2, 1), run, b""), ["count 1 -1"]),
        ("an empty channel", Question(MESSAGES, 0, (1, 1), run, b""), ["empty"]),
        ("both rows", listing(run, (2, 1), 2, 3),
         ["counted", "places 1 60001", "stamps -1 -60001 -60002"]),
        ("both rows, an empty channel", listing(run, (1, 1), 1, 2),
         ["counted", "places 0", "stamps -60000 -60001"]),
        ("no room for stamps", listing(run, (2, 1), 2, 0),
         [no_room, "places 60000 60001", "stamps"]),
        ("no room for counts", listing(run, (2, 1), 0, 1), [no_room, "places", "stamps -60000"]),
        ("no channel", listing(run_of_starts(2), (1, 1), 0, 0), ["counted", "places", "stamps"]),
    ):
        yield f"text of {name}", answer_of(question).text, "".join(line + "\n" for line in lines)


def records_alone() -> Iterator[Outcome]:
    run = two_desks()
    for place, expected in (
        (0, ("head", (2, 1))),
        (10, ("channel", (0, 0, 1))),
        (20, ("state", (0, 0, 0, 0, 0))),
        (58, ("state", (0, 2, 0, 7, 5))),
        (172, ("state", (1, 3, 0, 7, 0))),
        (248, ("end", ())),
    ):
        yield f"record at {place}", record_words(record_at(run, place)), expected
    for place, number in ((1, 2), (2, 3), (252, 2), (300, 2)):
        yield f"no record at {place}", told(lambda: record_at(run, place)), ("run", number, place, False)
    for name, changed, number in (
        ("a channel's place", run[:10] + run[20:], 4),
        ("a state of another length", run[:6] + b"\x03\x00" + run[8:], 3),
        ("another format", run[:4] + b"\x02\x00" + run[6:], 6),
    ):
        place = {4: 10, 3: 20, 6: 0}[number]
        yield name, told(lambda: record_at(changed, place)), ("run", number, place, False)


# The cases that have a name


def answer_without_places(question: Question) -> str:
    """A search's answer as the program prints it, without the line of lent places."""
    text = answer_of(question).text
    return text.partition("places")[0] if question.kind == SEARCH else text


def named_answers() -> Iterator[Outcome]:
    for case in named_cases():
        yield case.name, answer_without_places(case.question), case.expected


def named_shapes() -> Iterator[Outcome]:
    cases = list(named_cases())
    present = {case.shape for case in cases}
    for shape in SHAPES:
        yield f"a case of the shape '{shape}'", shape in present, True
    yield "shapes that no list has", sorted(present - set(SHAPES)), []
    names = Counter(case.name for case in cases)
    yield "names given twice", [name for name, count in names.items() if count > 1], []
    asked = set(fixed_questions())
    missing = [case.name for case in cases if case.question not in asked]
    yield "named cases that are not asked", missing, []


def everything_reached() -> Iterator[Outcome]:
    table = Table()
    for question in fixed_questions():
        table.count(question, answer_of(question))
    yield "not reached by fixed cases", list(table.not_reached()), []
    yield "an empty table reaches nothing", len(list(Table().not_reached())), 77


# Definitions against each other, on drawn runs


def drawn_draft(chance: Chance, most_states: int) -> Draft:
    process_count = chance.between(1, 5)
    channels = draw_channels(chance, process_count, 4)
    count = chance.between(process_count, most_states)
    return simulate(chance, process_count, channels, count)


def drawn_run(chance: Chance, draft: Draft) -> Run:
    return run_of(draft, file_order(chance, draft))


def drawn_clauses(chance: Chance, run: Run, draft: Draft, count: int) -> list[Clause]:
    aim = Aim(run, chance.pick(draft.cuts), draft.cuts[0])
    return [draw_clause(chance, aim, chance.percent(80)) for _ in range(count)]


def reached_from(pairs: list[tuple[int, int]], source: int) -> list[int]:
    """All positions at the end of a path of one step or more."""
    reached: list[int] = []
    edge = [source]
    while edge:
        position = edge.pop()
        for earlier, later in pairs:
            if earlier == position and later not in reached:
                reached.append(later)
                edge.append(later)
    return sorted(reached)


def closure_by_paths() -> Iterator[Outcome]:
    chance = Chance(101)
    for index in range(60):
        draft = drawn_draft(chance, 14)
        for _ in range(index % 4):
            add_untimely_message(chance, draft)
        run = drawn_run(chance, draft)
        size = len(run.states)
        by_closure = [
            [later for later in range(size) if run.before[later] >> position & 1]
            for position in range(size)
        ]
        pairs = direct_pairs(run)
        by_paths = [reached_from(pairs, position) for position in range(size)]
        yield f"before by paths {index}", by_closure, by_paths
        circular = any(position in by_paths[position] for position in range(size))
        yield f"circle by paths {index}", bool(on_or_after_circle(run)), circular


def consistent_by_clocks(run: Run, cut: tuple[int, ...]) -> bool:
    rows = clocks(run)
    chosen = [rows[position] for position in chosen_positions(run, cut)]
    return all(
        chosen[later][earlier] < cut[earlier]
        for earlier in range(len(cut))
        for later in range(len(cut))
        if earlier != later
    )


def consistent_by_messages(run: Run, cut: tuple[int, ...]) -> bool:
    """Each message received up to the cut was sent up to it."""
    return all(
        {receive.message for receive in receives if receive.number <= cut[receive.process]}
        <= {send.message for send in sends if send.number <= cut[send.process]}
        for sends, receives in zip(run.sends, run.receives)
    )


def balances(run: Run, cut: tuple[int, ...]) -> bool:
    """On each channel, sent equals received plus in transit."""
    for channel in range(len(run.channels)):
        sent, received = (
            sum(state.number <= cut[state.process] for state in states[channel])
            for states in (run.sends, run.receives)
        )
        if sent != received + len(stamps_in_transit(run, cut, channel)):
            return False
    return True


def three_ways_of_consistency() -> Iterator[Outcome]:
    chance = Chance(102)
    for index in range(60):
        draft = drawn_draft(chance, 10)
        run = drawn_run(chance, draft)
        cuts = list(every_cut(run))
        by_definition = [cut for cut in cuts if is_consistent(run, cut)]
        by_clocks = [cut for cut in cuts if consistent_by_clocks(run, cut)]
        by_messages = [cut for cut in cuts if consistent_by_messages(run, cut)]
        yield f"consistency by clocks {index}", by_definition, by_clocks
        yield f"consistency by messages {index}", by_definition, by_messages
        unbalanced = [cut for cut in by_definition if not balances(run, cut)]
        yield f"messages balance {index}", unbalanced, []
        lost = [cut for cut in draft.cuts if cut not in by_definition]
        yield f"moments are consistent {index}", lost, []


def enumeration_against_moving_up() -> Iterator[Outcome]:
    chance = Chance(103)
    for index in range(3_000):
        draft = drawn_draft(chance, 15)
        run = drawn_run(chance, draft)
        clauses = drawn_clauses(chance, run, draft, chance.between(0, 4))
        by_enumeration = first_by_enumeration(run, clauses)
        yield f"first cut {index}", first_by_moving_up(run, clauses), by_enumeration


def stays_false(run: Run, clause: Clause, cut: tuple[int, ...]) -> bool:
    process = process_to_move(run, clause, cut)
    return not any(
        clause_holds(run, clause, later)
        for later in every_cut(run)
        if later[process] == cut[process] and all(map(int.__le__, cut, later))
    )


def who_has_to_move() -> Iterator[Outcome]:
    chance = Chance(104)
    for index in range(150):
        draft = drawn_draft(chance, 8)
        run = drawn_run(chance, draft)
        (clause,) = drawn_clauses(chance, run, draft, 1)
        wrong = [
            cut
            for cut in every_cut(run)
            if not clause_holds(run, clause, cut) and not stays_false(run, clause, cut)
        ]
        yield f"who has to move {index}", wrong, []


def lowest_stamp_against_tests() -> Iterator[Outcome]:
    """What the lowest stamp says of tests 6 and 7 is what all stamps say."""
    chance = Chance(105)
    for index in range(60):
        draft = drawn_draft(chance, 10)
        run = drawn_run(chance, draft)
        wrong = [
            (cut, channel)
            for cut in every_cut(run)
            for channel in range(len(run.channels))
            if not tells_tests(run, cut, channel)
        ]
        yield f"tests by the lowest stamp {index}", wrong, []


def tells_tests(run: Run, cut: tuple[int, ...], channel: int) -> bool:
    stamps = stamps_in_transit(run, cut, channel)
    lowest = lowest_stamp(stamps)
    at_least, at_most = (
        [x for x in EXTREMES if channel_test_holds(channel_clause(channel, test, x), stamps)]
        for test in (EVERY_STAMP_AT_LEAST, SOME_STAMP_AT_MOST)
    )
    if lowest is None:
        return (stamps, at_least, at_most) == ([], list(EXTREMES), [])
    below, above = ([x for x in EXTREMES if x <= lowest], [x for x in EXTREMES if x >= lowest])
    return lowest in stamps and (at_least, at_most) == (below, above)


def drawn_stamps() -> Iterator[Outcome]:
    """The questions of a seed have lowest stamps of every kind."""
    lines = [
        line.split()
        for question in seeded_questions(1, 600)
        for line in answer_of(question).text.splitlines()
    ]
    told_lowest = {words[3] for words in lines if words[0] == "channel"}
    told_lowest |= {words[2] for words in lines if words[0] == "count"}
    for stamp in ("-", str(LOWEST), "-1", "0", "1", str(HIGHEST)):
        yield f"a lowest stamp of {stamp}", stamp in told_lowest, True


# The program and the case format


def printed_answers() -> Iterator[Outcome]:
    with tempfile.TemporaryDirectory() as folder:
        paths = {}
        for name, data in [
            ("run", two_desks()),
            ("wrong", marked_wrong_clock()),
            ("long", two_desks().ljust(70_000, b"\x00")),
            ("three", marked_conditions()[1]),
            ("six", marked_conditions()[4]),
        ]:
            paths[name] = os.path.join(folder, name)
            with open(paths[name], "wb") as file:
                file.write(data)
        missing = os.path.join(folder, "missing")
        found = ["found", "state 0 2", "state 1 1", "channel 0 1 5"]
        for run, condition, expected in [
            (paths["run"], paths["three"], found),
            (paths["run"], paths["six"], ["none"]),
            (paths["wrong"], paths["six"], ["refused run 13 172"]),
            (paths["long"], paths["six"], ["refused run 1 0"]),
            (paths["wrong"], missing, ["unreadable cond"]),
            (missing, missing, ["unreadable run"]),
            (folder, paths["six"], ["unreadable run"]),
            (paths["run"], folder, ["unreadable cond"]),
        ]:
            yield f"printed {expected[0]}", answer_lines(run, condition), expected


def case_format() -> Iterator[Outcome]:
    drawn = list(seeded_questions(7, 60))
    data = b"".join(encode_case(question) for question in drawn)
    yield "cases read back", list(decode_cases(data)), drawn
    yield "same seed, same cases", list(seeded_questions(7, 60)), drawn
    yield "another seed", list(seeded_questions(8, 60)) != drawn, True
    asked = list(fixed_questions())
    kinds = sorted({question.kind for question in asked})
    yield "fixed questions of each kind", kinds, [1, 2, 3, 4, 5, 7, 8]
    first = answer_of(asked[9])
    expected = "found\nstate 0 1\nstate 1 1\nchannel 0 0 -\nplaces 1 1\n"
    yield "text of a search", first.text, expected
    more_places = answer_of(asked[9]._replace(extra=4))
    last_line = more_places.text.splitlines()[-1]
    yield "places past the cut", last_line, "places 1 1 60002 60003"
    no_place = answer_of(asked[9]._replace(extra=0))
    yield "no place", no_place.text, "refused run 15 0\nplaces\n"


GROUPS: list[Callable[[], Iterator[Outcome]]] = [
    marked_cases,
    frame_refusals,
    record_refusals,
    circle_refusals,
    condition_refusals,
    order_of_refusals,
    bytes_shown,
    listings,
    lowest_stamps,
    printed_stamps,
    records_alone,
    named_answers,
    named_shapes,
    everything_reached,
    closure_by_paths,
    three_ways_of_consistency,
    enumeration_against_moving_up,
    who_has_to_move,
    lowest_stamp_against_tests,
    drawn_stamps,
    printed_answers,
    case_format,
]


def main() -> int:
    passed = failed = 0
    for group in GROUPS:
        for name, got, expected in group():
            if got == expected:
                passed += 1
            else:
                failed += 1
                print(f"{group.__name__}: {name}: {got!r} in place of {expected!r}")
    print(f"{passed} passed, {failed} failed")
    return 1 if failed else 0


if __name__ == "__main__":
    sys.exit(main())
