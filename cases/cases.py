"""Cases for a comparison: questions in a binary form, and the answers as text.

A case is, little-endian: the question (1 byte), the lent places, or the channel
or the byte place asked (2), the number of cut numbers (2), the length of the run (4), the length
of the condition (4), then the cut numbers (2 each), the run, the condition. Where all channels
are asked, two rows are lent: the number of places for counts comes first (1), then that for
stamps (1).
"""

from __future__ import annotations

import struct
import sys
from collections import Counter
from pathlib import Path
from typing import Iterator, NamedTuple, Optional, Sequence

ROOT = Path(__file__).resolve().parent.parent
sys.path[:0] = [str(ROOT / "second"), str(ROOT / "cases")]

import reading  # noqa: E402
from answer import found_lines, refused_line  # noqa: E402
from beside import beside  # noqa: E402
from fixed import fixed_questions  # noqa: E402
from generate import MOST_LENT, seeded_questions  # noqa: E402
from questions import (  # noqa: E402
    CONSISTENT,
    EACH,
    MESSAGES,
    RECORD,
    SATISFIES,
    SEARCH,
    Question,
    Transit,
    consistent,
    messages,
    messages_on_each,
    record_at,
    record_words,
    satisfies,
    search,
    search_refusal,
    shown_part,
)
from reading import Refusal  # noqa: E402

MOST_CUT_NUMBERS = 24
LONGEST_PART = 66_000
FIRST_PLACE = 60_000
FIRST_STAMP = -60_000

QUESTION_NAMES = {
    1: "search",
    2: "consistent",
    3: "satisfies",
    4: "messages",
    5: "bytes shown",
    7: "messages on each channel",
    8: "record",
}
ANSWER_KINDS = (
    "found", "none", "yes", "no", "count", "empty", "counted", "record", "shown",
    "nothing shown", "refused",
)

# The refusals that each file can have, those of lent places, cuts and channels
# among the run's.
REACHABLE = {
    reading.RUN: (*range(1, 14), 15, 16, 17),
    reading.CONDITION: (1, 2, 3, 4, 5, 7, 8, 14),
}
LINEAR_CLAUSES = [
    *(("comparison", reading.KIND_LOCAL_CLAUSE, number) for number in range(1, 5)),
    *(("test", reading.KIND_CHANNEL_CLAUSE, number) for number in range(1, 8)),
]


class Answer(NamedTuple):
    """The refusal is kept for the table also where the text doesn't show it."""

    text: str
    kind: str
    refusal: Optional[Refusal] = None


# The binary form


def encode_case(question: Question) -> bytes:
    assert is_lendable(question)
    assert len(question.cut) <= MOST_CUT_NUMBERS
    assert max(len(question.run), len(question.condition)) <= LONGEST_PART
    head = struct.pack(
        "<BHHII",
        question.kind,
        question.extra,
        len(question.cut),
        len(question.run),
        len(question.condition),
    )
    numbers = struct.pack(f"<{len(question.cut)}H", *question.cut)
    return head + numbers + question.run + question.condition


def is_lendable(question: Question) -> bool:
    if question.kind in (MESSAGES, RECORD):
        return True
    if question.kind == EACH:
        return max(question.lent_counts, question.lent_stamps) <= MOST_LENT
    return question.extra <= MOST_LENT


def decode_cases(data: bytes) -> Iterator[Question]:
    place = 0
    while place < len(data):
        kind, extra, size, run_size, condition_size = struct.unpack_from(
            "<BHHII", data, place
        )
        place += 13
        cut = struct.unpack_from(f"<{size}H", data, place)
        place += 2 * size
        run = data[place : place + run_size]
        place += run_size
        condition = data[place : place + condition_size]
        place += condition_size
        yield Question(kind, extra, cut, run, condition)


# The answers


def answer_of(question: Question) -> Answer:
    if question.kind == SEARCH:
        return search_answer(question)
    if question.kind in (CONSISTENT, SATISFIES, MESSAGES):
        return smaller_answer(question)
    if question.kind == EACH:
        return each_answer(question)
    if question.kind == RECORD:
        return record_answer(question)
    return shown_answer(question)


def places_text(lent: int, written: Sequence[int]) -> str:
    places = [FIRST_PLACE + index for index in range(lent)]
    places[: len(written)] = written
    return row_text("places", places)


def stamps_text(lent: int, written: Sequence[Optional[int]]) -> str:
    """The place of a channel that has no lowest stamp is left as it was."""
    stamps = [FIRST_STAMP - index for index in range(lent)]
    for channel, lowest in enumerate(written):
        if lowest is not None:
            stamps[channel] = lowest
    return row_text("stamps", stamps)


def row_text(word: str, numbers: Sequence[int]) -> str:
    return " ".join([word, *map(str, numbers)]) + "\n"


def search_answer(question: Question) -> Answer:
    refusal = None
    written: Sequence[int] = ()
    try:
        found = search(question.run, question.condition, question.extra)
    except Refusal as raised:
        refusal = raised
        lines = [refused_line(raised)]
    else:
        lines = found_lines(found)
        if found is not None:
            written = found.cut
    kind = lines[0].split()[0]
    text = "".join(line + "\n" for line in lines)
    return Answer(text + places_text(question.extra, written), kind, refusal)


def each_answer(question: Question) -> Answer:
    lent_counts, lent_stamps = question.lent_counts, question.lent_stamps
    refusal = None
    channels: Sequence[Transit] = ()
    line = "counted"
    try:
        channels = messages_on_each(question.run, question.cut, lent_counts, lent_stamps)
    except Refusal as raised:
        refusal = raised
        line = refused_line(raised)
    counts = places_text(lent_counts, [count for count, _ in channels])
    stamps = stamps_text(lent_stamps, [lowest for _, lowest in channels])
    return Answer(f"{line}\n{counts}{stamps}", line.split()[0], refusal)


def record_answer(question: Question) -> Answer:
    try:
        record = record_at(question.run, question.extra)
    except Refusal as refusal:
        return Answer(refused_line(refusal) + "\n", "refused", refusal)
    word, fields = record_words(record)
    words = ["record", word, *map(str, fields), "next", str(record.next_place)]
    return Answer(" ".join(words) + "\n", "record")


def smaller_answer(question: Question) -> Answer:
    try:
        if question.kind == MESSAGES:
            count, lowest = messages(question.run, question.cut, question.extra)
            if lowest is None:
                return Answer("empty\n", "empty")
            return Answer(f"count {count} {lowest}\n", "count")
        if question.kind == CONSISTENT:
            holds = consistent(question.run, question.cut)
        else:
            holds = satisfies(question.run, question.condition, question.cut)
    except Refusal as refusal:
        return Answer(refused_line(refusal) + "\n", "refused", refusal)
    word = "yes" if holds else "no"
    return Answer(word + "\n", word)


def shown_answer(question: Question) -> Answer:
    refusal = search_refusal(question.run, question.condition, question.extra)
    part = shown_part(question.run, question.condition, refusal)
    kind = "shown" if part.data else "nothing shown"
    where = f"{part.file} {part.place} {len(part.data)}"
    return Answer(f"shown {where} {part.data.hex() or '-'}\n", kind, refusal)


# The table


class Table:
    def __init__(self) -> None:
        self.cases = 0
        self.questions: Counter[int] = Counter()
        self.answers: Counter[str] = Counter()
        self.refusals: Counter[tuple[int, str, bool]] = Counter()
        self.clauses: Counter[tuple[int, int, str]] = Counter()

    def count(self, question: Question, answer: Answer) -> None:
        self.cases += 1
        self.questions[question.kind] += 1
        self.answers[answer.kind] += 1
        if answer.refusal is not None:
            told = answer.kind == "refused"
            self.refusals[answer.refusal.number, answer.refusal.file, told] += 1
        for kind, number in clause_kinds(question.condition):
            self.clauses[kind, number, answer.kind] += 1

    def lines(self) -> Iterator[str]:
        yield f"cases {self.cases}"
        for kind, name in QUESTION_NAMES.items():
            yield f"question {kind} {name}: {self.questions[kind]}"
        for kind in ANSWER_KINDS:
            yield f"answer {kind}: {self.answers[kind]}"
        for number in range(1, 18):
            yield self.refusal_line(number)
        for comparison in range(1, 5):
            yield self.clause_line("comparison", reading.KIND_LOCAL_CLAUSE, comparison)
        for test in range(1, 10):
            yield self.clause_line("test", reading.KIND_CHANNEL_CLAUSE, test)

    def not_reached(self) -> Iterator[str]:
        """What some case has to reach."""
        for kind, name in QUESTION_NAMES.items():
            if not self.questions[kind]:
                yield f"question {name}"
        for kind in ANSWER_KINDS:
            if not self.answers[kind]:
                yield f"answer {kind}"
        for file, numbers in REACHABLE.items():
            for number in numbers:
                if not self.refusals[number, file, True]:
                    yield f"refusal {number} of {file}"
        for name, kind, number in LINEAR_CLAUSES:
            for answer in ("found", "yes", "no"):
                if not self.clauses[kind, number, answer]:
                    yield f"{name} {number} with the answer {answer}"
        for number in (8, 9):
            if not self.clauses[reading.KIND_CHANNEL_CLAUSE, number, "refused"]:
                yield f"test {number} refused"

    def refusal_line(self, number: int) -> str:
        run, condition = (
            self.refusals[number, file, True] for file in (reading.RUN, reading.CONDITION)
        )
        behind = sum(
            self.refusals[number, file, False]
            for file in (reading.RUN, reading.CONDITION)
        )
        return f"refusal {number}: run {run}, cond {condition}, behind bytes shown {behind}"

    def clause_line(self, name: str, kind: int, number: int) -> str:
        parts = [
            f"{answer} {self.clauses[kind, number, answer]}"
            for answer in ANSWER_KINDS
            if answer not in ("count", "empty", "counted", "record")
        ]
        return f"{name} {number}: " + ", ".join(parts)


def clause_kinds(condition: bytes) -> list[tuple[int, int]]:
    """Kind and comparison or test of each clause, each pair once.

    Read as far as the records go, since refused conditions count as well.
    """
    kinds: set[tuple[int, int]] = set()
    place = 0
    try:
        while True:
            record = reading.read_record(condition, place, reading.CONDITION)
            place = record.next_place
            if record.kind == reading.KIND_LOCAL_CLAUSE and len(record.body) >= 6:
                kinds.add((record.kind, struct.unpack_from("<H", record.body, 4)[0]))
            if record.kind == reading.KIND_CHANNEL_CLAUSE and len(record.body) >= 4:
                kinds.add((record.kind, struct.unpack_from("<H", record.body, 2)[0]))
    except Refusal:
        return sorted(kinds)


# The two files


def all_questions(seed: int, count: int) -> Iterator[Question]:
    yield from fixed_questions()
    for question in seeded_questions(seed, count):
        yield question
        yield from beside(question)


def write_cases(seed: int, count: int, input_path: str, expected_path: str) -> Table:
    table = Table()
    with open(input_path, "wb") as inputs, open(
        expected_path, "w", encoding="ascii", newline="\n"
    ) as expected:
        for question in all_questions(seed, count):
            answer = answer_of(question)
            inputs.write(encode_case(question))
            expected.write(answer.text)
            table.count(question, answer)
    return table


def main(arguments: list[str]) -> int:
    if len(arguments) != 4:
        print("usage: cases.py SEED COUNT INPUT EXPECTED", file=sys.stderr)
        return 2
    table = write_cases(int(arguments[0]), int(arguments[1]), *arguments[2:])
    for line in table.lines():
        print(line)
    missing = list(table.not_reached())
    for line in missing:
        print(f"not reached: {line}")
    return 1 if missing else 0


if __name__ == "__main__":
    sys.exit(main(sys.argv[1:]))
