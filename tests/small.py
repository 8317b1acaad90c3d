"""Small repositories that a test finds right, and changes that it has to find wrong.

They show that the counts of the shape, and the tests of what has to be believed, of contracts
and of numbers fail where something is too large, or isn't what the document says.
"""

from __future__ import annotations

from pathlib import Path
from typing import NamedTuple, Optional


class Change(NamedTuple):
    """In a file the old text becomes the new; these lines say what is wrong then."""

    name: str
    file: str
    old: str
    new: str
    wrong: tuple[str, ...]


class Small(NamedTuple):
    """A repository: its files by their paths, and the changes."""

    name: str
    files: dict[str, str]
    changes: tuple[Change, ...]


def write(root: Path, small: Small, change: Optional[Change] = None) -> None:
    for name, text in small.files.items():
        path = root / name
        path.parent.mkdir(parents=True, exist_ok=True)
        if change is not None and change.file == name:
            text = text.replace(change.old, change.new, 1)
        path.write_text(text, encoding="utf-8")


# A crate whose shape is at every bound

SOURCE = "crates/small/src/lib.rt"
PROOF = "crates/small/proofs/large/Proof.antt"
SHORT_PROOF = "crates/small/proofs/short/Answers.antt"

STEPS = ".before" * 5
LINE, PROVED = "    let same = a;\n", "more c = refl\n"
CONTRADICTED = "differ e = let z : ◌≡◌ {A = ℕ} 0 1 = cc in omega arith\n"

AT_THE_BOUNDS = Small(
    "a crate at every bound",
    {
        SOURCE: "// " + "x" * 157 + """
ghost use Rattle.std.specs.Prelude.{◌≡◌, ◌≤◌, length};

use model::{Kind, pairs::{Pair}};

pub fn large<'a>(a: u16, b: Pair<u8, Kind>, c: [u8; 2], d: (u8, u8), e: u16, f: u16, g: &'a [u16]) -> u16
    requires order { (a ≤ e) × ((e ≤ f) × (f ≤ 512)) }
    requires long { length g.now ≡ 8 }
    ensures { (result ≤ 512) × (a ≤ result) × (e ≤ result) × (f ≤ result) }
{
""" + LINE * 32 + "    f\n}\n",
        PROOF: "-- large meets its contract\n"
        + f"first c = c{STEPS}.before.before\n"
        + f"returns c = (first c){STEPS}.pre\n"
        + CONTRADICTED
        + PROVED * 30,
        SHORT_PROOF: PROVED * 30,
    },
    (
        Change("an eighth parameter", SOURCE, "e: u16, ", "e: u16, more: u16, ",
               ("small/large: 8 parameters",)),
        Change("a fortieth line", SOURCE, LINE, LINE * 2, ("small/large: 40 lines",)),
        Change("a line of 161 characters", SOURCE, "// x", "// xx",
               ("small/src/lib.rt: at line 1",)),
        Change("a fourth part of a requires", SOURCE, "((e ≤ f) × (f ≤ 512))", "(e ≤ f) × (f ≤ 512)",
               ("small/large: 4 parts",)),
        Change("six times .before", PROOF, f"(first c){STEPS}", f"(first c){STEPS}.before",
               ("small/proofs/large/Proof.antt: at line 3",)),
        Change("a place with more than a name", PROOF, ".before\n", ".before.pre\n",
               ("small/proofs/large/Proof.antt: at line 2",)),
        Change("a long proof that opens with no comment", PROOF, "-- large meets its contract\n", "",
               ("small/proofs/large/Proof.antt: 33 lines",)),
        Change("a thirty-first line with no comment", SHORT_PROOF, PROVED, PROVED * 2,
               ("small/proofs/short/Answers.antt: 31 lines",)),
        Change("an import that nothing uses", SHORT_PROOF, PROVED, "use Rattle.std.proofs.Common.{length, ◌++◌}\n",
               ("small/proofs/short/Answers.antt: length, ◌++◌",)),
        Change("imports of a source that nothing uses", SOURCE, "Pair<u8, Kind>", "u8",
               ("small/src/lib.rt: Kind, Pair",)),
        Change("a contradiction said twice", SHORT_PROOF, PROVED, CONTRADICTED,
               ("small/proofs/large/Proof.antt: 1 of them", "small/proofs/short/Answers.antt: 1 of them")),
    ),
)


# Two crates of which a document says what has to be believed

BOUNDS, TABLES = "crates/words/specs/Bounds.antt", "crates/words/specs/Tables.antt"
ANSWERED, CALLS = "crates/checker/specs/Answered.antt", "crates/checker/src/lib.rt"
TYPES = "crates/words/src/sizes.rt"
DOCUMENT = "docs/PROOF.md"

ALL_LISTED = Small(
    "a repository whose document lists what has to be believed",
    {
        "crates.txt": "words:\nchecker: words\ntheorems: words checker\n",
        BOUNDS: "use Rattle.std.specs.Prelude.{ℕ}\n\n-- how much there may be\nabbrev pub limit : ℕ\nlimit = 8\n",
        TABLES: "use Rattle.std.specs.Prelude.{ℕ, ◌≤◌}\n\npub record Roomy (n : ℕ) : Type 0 where\n  pub room : n ≤ 8\n",
        ANSWERED: """\
use Rattle.std.specs.Prelude.{ℕ, ◌≤◌}
use Rattle.words.specs.Bounds.{limit}
use Rattle.words.specs.declared.sizes.Size.{Size}

pub data Answered (n : ℕ) : ℕ → Type 0 where
  few : n ≤ limit → Answered n n
""",
        CALLS: """\
ghost use Rattle.std.specs.Prelude.{◌≡◌};
ghost use Rattle.words.specs.Tables.{Roomy};
ghost use Rattle.checker.specs.Answered.{Answered};

fn inner(n: u16) -> u16
    requires { Roomy n }
    ensures { result ≡ n }
{
    n
}

pub fn answer(n: u16) -> u16
    ensures { Answered n result }
{
    inner(n)
}
""",
        DOCUMENT: f"""\
`{TABLES}`

## What has to be believed

- `{BOUNDS}` and `{ANSWERED}`, and the types of `{TYPES}`

Inner words: `{TABLES}`

## What is assumed

`{BOUNDS}`
""",
    },
    (
        Change("a file to be believed that isn't listed", DOCUMENT, f"- `{BOUNDS}` and", "-",
               (f"{BOUNDS} isn't listed",)),
        Change("a file of inner words that isn't listed", DOCUMENT, f"Inner words: `{TABLES}`", "",
               (f"{TABLES} isn't listed",)),
        Change("inner words listed as to be believed", DOCUMENT, "Inner words:", "-",
               (f"{TABLES} is listed, and isn't one", f"{TABLES} isn't listed")),
        Change("an inner word among those to be believed", BOUNDS, "-- how", "abbrev pub few : ℕ\nfew = 4\n\n-- how",
               ("to be believed: limit", "inner: few")),
        Change("a type in a file that isn't told", DOCUMENT, f", and the types of `{TYPES}`", "", (f"{TYPES} isn't told",)),
        Change("a public contract with an inner word", CALLS, "{ Answered", "{ Roomy n × Answered",
               (f"{TABLES} isn't listed", f"{TABLES} is listed, and isn't one")),
    ),
)


# A library whose document lists the contracts that aren't whole

LIBRARY, LISTING, LAWS = "crates/small/src/lib.rt", "docs/CONTRACTS.md", "crates/small/proofs/Once.antt"

EXCEPTIONS_LISTED = Small(
    "a library whose document lists the contracts that aren't whole",
    {
        LIBRARY: """\
pub fn whole(n: u16) -> u16
    ensures { result ≡ n }
{
    n
}

pub fn lent(row: &mut [u16])
    ensures { Wrote row.new }
{
}

pub fn asks(n: u16) -> u16
    requires { n < 8 }
    ensures { result ≡ n }
{
    n
}

pub fn says(n: u16) {
}

impl Reader {
    pub fn place(self) -> usize
        ensures { result ≡ self.place }
    {
        self.place
    }
}
""",
        LAWS: "pub lent_one : ℕ\n",
        LISTING: """\
# Contracts

| `small::lent` | what was written | `lent_one` |

## Exceptions

| `small::asks`, `says` | what is open | why |
""",
    },
    (
        Change("a contract that asks something and isn't listed", LISTING, "`small::asks`, `says`", "`small::says`",
               ("its contract isn't whole, and it isn't listed",)),
        Change("no contract, and not listed", LISTING, ", `says`", "",
               ("its contract isn't whole, and it isn't listed",)),
        Change("a lent row with no theorem", LAWS, "lent_one", "lent_two",
               ("its contract isn't whole, and it isn't listed",)),
        Change("an exception that asks nothing", LIBRARY, "    requires { n < 8 }\n", "",
               ("it is listed, and its contract is whole",)),
        Change("less than an equation", LIBRARY, "{ result ≡ n }", "{ result ≤ n }",
               ("its contract isn't whole, and it isn't listed",)),
        Change("a method with less than an equation", LIBRARY, "{ result ≡ self.place }", "{ result ≤ self.place }",
               ("its contract isn't whole, and it isn't listed",)),
        Change("an exception that is no function", LISTING, "`says`", "`says`, `sings`",
               ("small::sings is no public call",)),
        Change("an exception without a reason", LISTING, "why", "",
               ("small::asks has none", "small::says has none")),
    ),
)


# A repository with two refusals, and a call that gives both

REASONS, CONSTANTS = "crates/record/specs/Refusal.antt", "crates/record/src/reasons.rt"
SECOND, BASELINE = "second/reading.py", "bench/baseline.c"
LISTS, THEOREMS = "crates/theorems/specs/Refusals.antt", "crates/theorems/proofs/Refusals.antt"
REFUSALS = "docs/REFUSALS.md"

NUMBERED = Small(
    "a repository whose refusals have the same numbers everywhere",
    {
        REASONS: "number too_long = 1\nnumber cut_short = 2\n-- 18 isn't used again\n",
        CONSTANTS: "    Reason::TooLong => 1,\n    Reason::CutShort => 2,\n",
        SECOND: "TOO_LONG = 1\nCUT_SHORT = 2\n\nOTHER = 18\n",
        BASELINE: "enum reason {\n    ACCEPTED,\n    TOO_LONG,\n    CUT_SHORT\n};\n",
        LISTS: "run_numbers = 1 ∷ []\n\ncondition_numbers = 2 ∷ []\n",
        THEOREMS: """\
  -- `first_cut`, `listed`
  pub search_gives : Answered s (A.Refused x) → Gives (run_numbers ++ (2 ∷ [])) condition_numbers x
  search_gives w = w
""",
        REFUSALS: """\
| 1 | too long |
| 2 | cut short |

Older handbooks list a refusal 18, which no file can give.

## In words

| 1 | over 65,535 bytes |
| 2 | the end is missing |

## Which call gives which

| `checker::first_cut`, `listed` | 1 to 2 | 2 |

## Each refusal

### 1 too long

### 2 cut short
""",
        "docs/FORMAT.md": "| 18 | channel clause |\n",
    },
    (
        Change("the old number given again", REASONS, "--", "number early = 18\n--",
               ("18 is given again", *["[1, 2] in place of [1, 2, 18]"] * 6, "18 is spoken of at [3, 4]")),
        Change("a reason more", CONSTANTS, "=> 2,\n", "=> 2,\n    Reason::More => 3,\n",
               ("[1, 2, 3] in place of [1, 2]",)),
        Change("another number in the second program", SECOND, "= 2", "= 3", ("[1, 3] in place of [1, 2]",)),
        Change("a reason more in the baseline", BASELINE, "CUT_SHORT", "CUT_SHORT,\n    EARLY",
               ("[1, 2, 3] in place of [1, 2]",)),
        Change("another number in the baseline", BASELINE, "CUT_SHORT", "CUT_SHORT = 3",
               ("[1, 3] in place of [1, 2]",)),
        Change("a row of the table missing", REFUSALS, "| 2 | cut short |\n", "", ("[1] in place of [1, 2]",)),
        Change("a row of words too many", REFUSALS, "| 2 | the end", "| 18 | early |\n| 2 | the end",
               ("[1, 18, 2] in place of [1, 2]",)),
        Change("a section missing", REFUSALS, "### 2 cut short\n", "", ("[1] in place of [1, 2]",)),
        Change("the line beside the reasons missing", REASONS, "-- 18 isn't used again\n", "",
               ("18 is spoken of at []",)),
        Change("the old number spoken of twice", REFUSALS, "## Each", "For 1 and 15 to 18 the place is 0.\n\n## Each",
               ("18 is spoken of at [4, 15]",)),
        Change("the old number spoken of elsewhere", "docs/FORMAT.md", "| 18", "Refused with 18.\n| 18",
               ("18 is spoken of at [1]",)),
        Change("a call with another number in the document", REFUSALS, "| 1 to 2 |", "| 1 |",
               tuple(f"proved ([1, 2], [2]), in {REFUSALS} ([1], [2])" for call in ("first_cut", "listed"))),
        Change("a call with another number in the theorem", THEOREMS, "(2 ∷ [])", "(3 ∷ [])",
               tuple(f"proved ([1, 3], [2]), in {REFUSALS} ([1, 2], [2])" for call in ("first_cut", "listed"))),
        Change("a call that no theorem has", THEOREMS, ", `listed`", "",
               (f"proved None, in {REFUSALS} ([1, 2], [2])",)),
        Change("no theorem", THEOREMS, "_gives", "_says",
               ("no theorem says what a call gives", *[f"proved None, in {REFUSALS} ([1, 2], [2])"] * 2)),
    ),
)
