"""Questions drawn from a seed: sound ones, and ones with faults in every part."""

from __future__ import annotations

from typing import Iterator, NamedTuple

import encode
from chance import Chance
from conditions import Aim, draw_clauses
from damage import CONDITION_FAULTS, LATE_FAULTS, RUN_FAULTS, damaged
from execution import (
    Draft,
    add_untimely_message,
    draw_channels,
    file_order,
    run_of,
    run_records,
    simulate,
)
from model import Cut, Run
from questions import (
    CONSISTENT,
    MESSAGES,
    SATISFIES,
    SEARCH,
    SHOWN,
    Question,
)
from reading import LONGEST_FILE, MOST_STATES, state_length

MOST_LENT = 24
LONG_ONE_IN = 100


class Material(NamedTuple):
    """A sound run, or one with a circle, and the cuts its execution went through."""

    run: Run
    records: list[bytes]
    cuts: list[Cut]


def seeded_questions(seed: int, count: int) -> Iterator[Question]:
    chance = Chance(seed)
    for index in range(count):
        if index % LONG_ONE_IN == LONG_ONE_IN // 2:
            yield long_question(chance)
        else:
            yield short_question(chance)


# Runs


def draw_process_count(chance: Chance) -> int:
    return chance.weighted(
        (7, 1), (32, 2), (26, 3), (14, 4), (8, 5), (5, 6), (4, 7), (4, 8)
    )


def short_draft(chance: Chance) -> Draft:
    process_count = draw_process_count(chance)
    channels = draw_channels(
        chance, process_count, chance.weighted((70, 3), (25, 6), (5, 16))
    )
    added = chance.weighted(
        (4, 0), (76, chance.between(1, 7)), (16, chance.between(7, 10)),
        (4, chance.between(11, 24)),
    )
    return simulate(chance, process_count, channels, process_count + added)


def long_draft(chance: Chance) -> Draft:
    process_count = draw_process_count(chance)
    channels = draw_channels(chance, process_count, 16)
    # What is left free is for the messages that a circle takes.
    room = LONGEST_FILE - 700 - 10 * len(channels)
    # A file may run out before its processes do, and the reverse.
    most = min(room // state_length(process_count), process_count * MOST_STATES)
    wanted = chance.weighted(
        (87, chance.between(100, 280)), (10, chance.between(280, 800)), (3, most)
    )
    return simulate(chance, process_count, channels, min(wanted, most))


def material_of(chance: Chance, draft: Draft) -> Material:
    run = run_of(draft, file_order(chance, draft))
    return Material(run, run_records(run), draft.cuts)


def untimely_material(chance: Chance, draft: Draft) -> Material:
    for _ in range(chance.between(2, 6)):
        add_untimely_message(chance, draft)
    return material_of(chance, draft)


# Questions


def short_question(chance: Chance) -> Question:
    kind = chance.weighted(
        (46, SEARCH), (10, CONSISTENT), (17, SATISFIES), (12, MESSAGES), (15, SHOWN)
    )
    way = chance.weighted(
        (57, "sound"), (19, "run"), (12, "condition"), (4, "both"), (8, "untimely")
    )
    draft = short_draft(chance)
    if way == "untimely":
        material = untimely_material(chance, draft)
    else:
        material = material_of(chance, draft)
    aim = draw_aim(chance, material)
    condition = encode.condition_records(draw_clauses(chance, aim, 40))
    run_faults = chance.pick((1, 2)) if way in ("run", "both") else 0
    if way == "untimely":
        run_faults = int(chance.percent(20))
    condition_faults = chance.pick((1, 2)) if way in ("condition", "both") else 0
    run_bytes = damaged(chance, material.records, RUN_FAULTS, run_faults)
    condition_bytes = damaged(chance, condition, CONDITION_FAULTS, condition_faults)
    lent = draw_lent(chance, draft.process_count)
    return ask(chance, kind, material, aim.target, lent, run_bytes, condition_bytes)


def long_question(chance: Chance) -> Question:
    kind = chance.weighted((76, SEARCH), (8, CONSISTENT), (8, SATISFIES), (8, MESSAGES))
    draft = long_draft(chance)
    if chance.percent(8):
        material = untimely_material(chance, draft)
    else:
        material = material_of(chance, draft)
    aim = draw_aim(chance, material)
    condition = encode.condition(*draw_clauses(chance, aim, 70))
    faults = int(chance.percent(12))
    run_bytes = damaged(chance, material.records, LATE_FAULTS, faults)
    # Room is never short here: a long run is too dear to be refused for it.
    lent = draft.process_count + chance.below(3)
    return ask(chance, kind, material, aim.target, lent, run_bytes, condition)


def draw_aim(chance: Chance, material: Material) -> Aim:
    """A cut to aim at, more often late than early, and one below it."""
    cuts = material.cuts
    lowest = len(cuts) // 2 if chance.percent(70) else 0
    index = chance.between(lowest, len(cuts) - 1)
    target = cuts[index]
    if chance.percent(45):
        # With a single process held back, a clause that is false there makes
        # just that one move: a receiver, where a channel is to be emptied.
        process = chance.below(len(target))
        lower = target[:process] + (1,) + target[process + 1 :]
    else:
        lower = cuts[chance.pick((0, chance.between(0, index), index * 3 // 4))]
    return Aim(material.run, target, lower)


def ask(
    chance: Chance,
    kind: int,
    material: Material,
    target: Cut,
    lent: int,
    run_bytes: bytes,
    condition_bytes: bytes,
) -> Question:
    if kind in (SEARCH, SHOWN):
        return Question(kind, lent, (), run_bytes, condition_bytes)
    cut = draw_cut(chance, material, target)
    if kind == SATISFIES:
        return Question(kind, 0, cut, run_bytes, condition_bytes)
    if kind == CONSISTENT:
        return Question(kind, 0, cut, run_bytes, b"")
    channel = draw_channel(chance, len(material.run.channels))
    return Question(kind, channel, cut, run_bytes, b"")


def draw_lent(chance: Chance, process_count: int) -> int:
    return chance.weighted(
        (40, process_count),
        (45, process_count + chance.between(1, 4)),
        (8, chance.below(process_count)),
        (5, MOST_LENT),
    )


def draw_channel(chance: Chance, channel_count: int) -> int:
    if channel_count and chance.percent(85):
        return chance.below(channel_count)
    return chance.pick((channel_count, channel_count + 1, 16, 255, 65_535))


def draw_cut(chance: Chance, material: Material, target: Cut) -> Cut:
    way = chance.weighted((45, "target"), (22, "any"), (23, "beside"), (10, "wrong"))
    if way == "target":
        return target
    if way == "any":
        return tuple(
            chance.between(1, len(history)) for history in material.run.histories
        )
    if way == "beside":
        return cut_beside(chance, material.run, target)
    return wrong_cut(chance, material.run, target)


def cut_beside(chance: Chance, run: Run, target: Cut) -> Cut:
    process = chance.below(len(target))
    number = target[process] + chance.pick((-2, -1, 1, 2))
    number = max(1, min(run.last_number(process), number))
    return target[:process] + (number,) + target[process + 1 :]


def wrong_cut(chance: Chance, run: Run, target: Cut) -> Cut:
    process = chance.below(len(target))
    if chance.percent(40):
        return chance.pick(
            (target[:-1], target + (1,), (), target + (1,) * (MOST_LENT - len(target)))
        )
    number = chance.pick((0, run.last_number(process) + 1, 513, 65_535))
    return target[:process] + (number,) + target[process + 1 :]
