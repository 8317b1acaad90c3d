"""Which definitions of specs/ the contracts of the public calls reach, and which they don't.

What is reached has to be believed: if it said something else than what its reader
takes it for, so would a contract. What isn't reached are inner words, which only
contracts of inner functions and proofs use. Names are followed by their imports. A
bound name that is a definition's too counts as that definition: rather too much is
reached than too little.
"""

from __future__ import annotations

import re
from pathlib import Path
from typing import Iterator, NamedTuple, Optional

# Public whatever else uses them, as far as they are there.
PUBLIC = ("answers", "checker", "questions", "reader")

NAME = re.compile(r"[\w'-]+(?:\.[\w'-]+)?")
USE = re.compile(r"(?:ghost )?use (\S+?)(?:\.\{(.*)\})?(?: as (\w+))?;?$")
# One form for the own crate and others. `Rattle.std`, the library's words, is no crate of the repository, and
# `declared` has the types of src/.
SPEC = re.compile(r"Rattle\.(?!std\.)(\w+)\.specs\.(?!declared\b)([^.]+)(?:\.([^.]+).*)?")
HEAD = re.compile(
    r"(?:pub )?(?:data|record) (?P<type>\S+).*where|(?:unfoldable |abbrev )(?:pub )?(?P<value>\S+) :"
)
VARIANTS = re.compile(r"\s+([\w'-]+(?: [\w'-]+)*) :")
# A file of functions that other crates can't name.
INNER_MODULE = re.compile(r"^mod (\w+);$", re.M)
CONTRACT = re.compile(
    r'^ *pub (?:extern "C" )?fn (?:(?! *\}).*\n)*?( +(?:requires|ensures) (?:.*\n)*?) *\{$', re.M
)


class Module(NamedTuple):
    """A file of specs/."""

    crate: str
    name: str

    @property
    def path(self) -> str:
        return f"crates/{self.crate}/specs/{self.name}.antt"


class Word(NamedTuple):
    """A definition: the module where it stands, and its name."""

    module: Module
    name: str


# A name that is in scope: a definition, or with no name a whole module under another one.
Scope = dict[str, tuple[Module, Optional[str]]]


def scope_of(lines: list[str]) -> Scope:
    """What the names mean that these lines import from specs/."""
    scope: Scope = {}
    for line in lines:
        use = USE.match(line)
        spec = use and SPEC.fullmatch(use[1])
        if not spec:
            continue
        module = Module(spec[1], spec[2])
        if use[3]:
            scope[use[3]] = (module, None)
        for imported in (use[2] or "").split(", "):
            name, _, other = imported.strip("◌").partition(" as ")
            # What is imported from within a type is a variant of that type.
            scope[other or name] = (module, spec[3] or name)
    return scope


class Specs:
    """All definitions of specs/, each with its lines, and the type of each variant."""

    def __init__(self, root: Path) -> None:
        self.lines: dict[Word, list[str]] = {}
        self.types: dict[Word, Word] = {}
        self.scopes: dict[Module, Scope] = {}
        for path in sorted(root.glob("crates/*/specs/*.antt")):
            if path.name != "Lib.antt":
                self.read(Module(path.parts[-3], path.stem), path.read_text("utf-8").splitlines())

    def read(self, module: Module, lines: list[str]) -> None:
        self.scopes[module] = scope_of(lines)
        word: Optional[Word] = None
        for line in lines:
            text = line.strip()
            if text.startswith("module "):
                word = None
            if not text or text.startswith(("--", "use ", "module ")):
                continue
            head = HEAD.match(text)
            if head:
                # An operator `◌then◌` is written `then` where it is used.
                word = Word(module, (head["type"] or head["value"]).strip("◌"))
                self.lines[word] = []
            elif word and "data " in self.lines[word][0]:
                self.read_variants(word, line)
            if word:
                self.lines[word].append(line)

    def read_variants(self, word: Word, line: str) -> None:
        found = VARIANTS.match(line)
        for name in found[1].split() if found else ():
            self.types[Word(word.module, name)] = word

    def words_of(self, module: Module) -> list[Word]:
        return [word for word in self.lines if word.module == module]

    def definition(self, word: Word) -> Optional[Word]:
        return word if word in self.lines else self.types.get(word)

    def meant(self, name: str, scope: Scope, here: Optional[Module]) -> Optional[Word]:
        """The definition that a name means, if it is one of specs/."""
        own = self.definition(Word(here, name)) if here else None
        module, imported = scope.get(name, (None, None))
        if own or imported is None:
            return own
        return self.definition(Word(module, imported)) or self.definition(Word(module, name))

    def named(self, text: str, scope: Scope, here: Optional[Module] = None) -> Iterator[Word]:
        """The definitions that a text names; `here` is the module where it stands."""
        for name in NAME.findall(text):
            first, _, second = name.partition(".")
            module, imported = scope.get(first, (None, None))
            if module and imported is None:
                found = [self.definition(Word(module, second))]
            else:
                found = [self.meant(first, scope, here), self.meant(second, scope, here)]
            yield from (word for word in found if word)

    def reached_from(self, words: Iterator[Word]) -> set[Word]:
        waiting, reached = list(words), set()
        while waiting:
            word = waiting.pop()
            if word not in reached:
                reached.add(word)
                text = "\n".join(self.lines[word])
                waiting += self.named(text, self.scopes[word.module], word.module)
        return reached


# The public calls


def public_crates(root: Path) -> list[str]:
    """The libraries that no other library uses, and those that are public in any case."""
    lines = (root / "crates.txt").read_text("utf-8").splitlines()
    uses = {name.strip(): used.split() for name, _, used in (line.partition(":") for line in lines)}
    libraries = [crate for crate in uses if not is_program(root, crate)]
    used = {crate for library in libraries for crate in uses[library]}
    outer = [crate for crate in libraries if crate in PUBLIC or crate not in used]
    return [crate for crate in outer if any(contracts(root, crate))]


def is_program(root: Path, crate: str) -> bool:
    return (root / "crates" / crate / "src" / "main.rt").exists()


def contracts(root: Path, crate: str) -> Iterator[tuple[str, Scope]]:
    """The contract of each public function, with what its names mean."""
    paths = sorted((root / "crates" / crate / "src").glob("**/*.rt"))
    texts = {path.stem: path.read_text("utf-8") for path in paths}
    inner = {name for text in texts.values() for name in INNER_MODULE.findall(text)}
    for name, text in texts.items():
        if name in inner:
            continue
        for contract in CONTRACT.findall(text):
            yield contract, scope_of(text.splitlines())


def believed_words(root: Path, specs: Specs) -> set[Word]:
    return specs.reached_from(
        word
        for crate in public_crates(root)
        for contract, scope in contracts(root, crate)
        for word in specs.named(contract, scope)
    )
