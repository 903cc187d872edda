"""Reads files of definitions and of lemmas (.antt) and the clauses in sources, as far as names go: which declarations a file has, which
names each of them uses and which it binds. What a name stands for is told by tools/lib/house.py.

A bound name (of a pattern, a λ, a let, a line of a do, a type's binder, a record's field) hides a declared one up to the end of its scope.
"""
from __future__ import annotations

import bisect
import dataclasses
import functools
import re
from collections.abc import Iterator, Sequence
from typing import NamedTuple

WORD = re.compile(r'"(?:[^"\\\n]|\\.)*"|«[^»\n]*»|[(){}.;,@]|[^\s(){}.;,@"«»]+')
CLOSING = {"(": ")", "{": "}"}
MARKS = ("pattern", "unfoldable", "abbrev", "axiom", "pub")
# what no import brings and no name can be
PLAIN = frozenset("→ × ↦ = | : [ ] _ ← ? Type 𝕀 𝔽 coe fcoe tcoe hcom com ∨ ∧ in do".split())
KEYWORDS = frozenset("λ ∀ let do elim record where open in".split())
CONSTRUCTORS = frozenset("zero suc pos negsuc true false [] tt yes no Some None Ok Err inl inr left right".split())


class Token(NamedTuple):
    """A word of a text, with its place: line and column from 0; whether it begins its line, and whether no blank stands before it."""

    text: str
    line: int
    column: int
    is_first: bool
    is_glued: bool


@dataclasses.dataclass
class Group:
    """What stands in parentheses or braces."""

    opening: Token
    items: list[Item]


Item = Token | Group
Bound = frozenset[str]


class Bind(NamedTuple):
    """A name that is bound, and where."""

    token: Token
    kind: str


class Use(NamedTuple):
    """A name that is used where nothing has bound it, as it is written: its parts between dots."""

    path: tuple[str, ...]
    token: Token


@dataclasses.dataclass
class Import:
    """An item of a `use` line, or a module: where it comes from, its name there, and the name that it has here."""

    module: tuple[str, ...]
    name: str | None
    here: str
    is_public: bool
    line: int


@dataclasses.dataclass
class Declaration:
    """A declaration: its name, what it is (`data`, `record` or `definition`), its lines with the comment above it, from the first up to,
    and without, the last; the constructors of a type; and what its text uses and binds."""

    name: str
    kind: str
    marks: tuple[str, ...]
    start: int
    head: int
    end: int
    members: list[str] = dataclasses.field(default_factory=list)
    uses: list[Use] = dataclasses.field(default_factory=list)
    binds: list[Bind] = dataclasses.field(default_factory=list)
    hidden: list[Token] = dataclasses.field(default_factory=list)
    has_do: bool = False
    words: set[str] = dataclasses.field(default_factory=set)


@dataclasses.dataclass
class File:
    """A file: its lines, imports, declarations in order, and the modules that it has (`mod`), each with whether others see it."""

    lines: list[str]
    tokens: list[Token]
    imports: list[Import]
    declarations: list[Declaration]
    modules: list[tuple[str, bool]]

    def within(self, first: int, last: int) -> list[Token]:
        """The words of the lines from one up to, and without, another."""
        start = bisect.bisect_left(self.tokens, first, key=lambda token: token.line)
        return self.tokens[start : bisect.bisect_left(self.tokens, last, key=lambda token: token.line)]


def tokens_of(lines: Sequence[str], first: int = 0, column: int = 0) -> list[Token]:
    """The words of some lines, without comments; the first line begins at a column."""
    found = []
    for number, line in enumerate(lines, first):
        shift = column if number == first else 0
        end, is_first = -1, True
        for match in WORD.finditer(line):
            if match[0].startswith("--"):
                break
            found.append(Token(match[0], number, match.start() + shift, is_first, match.start() == end))
            end, is_first = match.end(), False
    return found


def grouped(tokens: Sequence[Token]) -> list[Item]:
    """The same words with those in parentheses and braces as groups."""
    top: list[Item] = []
    stack: list[Group] = []
    for token in tokens:
        here = stack[-1].items if stack else top
        if token.text in CLOSING:
            group = Group(token, [])
            here.append(group)
            stack.append(group)
        elif token.text in CLOSING.values():
            if stack:
                stack.pop()
        else:
            here.append(token)
    return top


def is_word(item: Item | None, *texts: str) -> bool:
    """Whether an item is one of these words."""
    return isinstance(item, Token) and item.text in texts


def at_of(items: Sequence[Item], *texts: str) -> int | None:
    """The place of the first such word, outside groups."""
    return next((at for at, item in enumerate(items) if is_word(item, *texts)), None)


def split(items: Sequence[Item], *texts: str) -> list[list[Item]]:
    """The parts between such words, outside groups."""
    parts: list[list[Item]] = [[]]
    for item in items:
        if is_word(item, *texts):
            parts.append([])
        else:
            parts[-1].append(item)
    return parts


def first_of(item: Item) -> Token:
    """The first word of an item."""
    return item if isinstance(item, Token) else item.opening


@functools.lru_cache(maxsize=None)
def is_name(text: str) -> bool:
    """Whether a word is a name: no numeral, no hole, no sign."""
    return not (text in PLAIN or text[0] in "?\"" or text in CLOSING or text in ".;,@" or re.fullmatch(r"\d[\w]*", text))


def bare(text: str) -> str:
    """A name without the marks of an escape."""
    return text.strip("«»")


class Walk:
    """Goes through the terms of a declaration. It is told which words are parts of operators and which names are constructors here."""

    def __init__(self, declaration: Declaration, parts: frozenset[str], constructors: frozenset[str], modules: frozenset[str]):
        self.declaration, self.parts, self.constructors, self.modules = declaration, parts, constructors, modules

    def bind(self, token: Token, kind: str, bound: Bound) -> Bound:
        """Notes a bound name, and hides what it hides."""
        if not is_name(token.text) or token.text in self.parts:
            return bound
        self.declaration.binds.append(Bind(token, kind))
        return bound | {bare(token.text)}

    def name(self, items: Sequence[Item], at: int, bound: Bound) -> int:
        """Notes the name at a place, with what follows it after dots; the place after all of it."""
        token = items[at]
        assert isinstance(token, Token)
        path, after = [bare(token.text)], at + 1
        while after + 1 < len(items) and is_word(items[after], ".") and first_of(items[after]).is_glued:
            part = items[after + 1]
            if not isinstance(part, Token) or not part.is_glued or not is_name(part.text) and not part.text.isdigit():
                break
            path.append(bare(part.text))
            after += 2
        is_hidden = path[0] in bound and not (len(path) > 1 and path[0] in self.modules)
        if is_hidden:
            self.declaration.hidden.append(token)
        elif is_name(token.text):
            self.declaration.uses.append(Use(tuple(path), token))
        return after

    def term(self, items: Sequence[Item], bound: Bound) -> Bound:
        """Goes through one term; what it binds up to its end."""
        at = 0
        while at < len(items):
            item = items[at]
            if isinstance(item, Group):
                bound = self.group(items, at, bound)
                at += 1
                # a projection from a term in parentheses
                while at + 1 < len(items) and is_word(items[at], ".") and first_of(items[at]).is_glued:
                    at += 2
            elif item.text in ("λ", "∀"):
                dot = at_of(items[at:], ".")
                end = len(items) if dot is None else at + dot
                bound = self.binders(items[at + 1 : end], bound, item.text)
                at = end + 1
            elif item.text == "let":
                at, bound = self.let(items, at, bound)
            elif item.text == "do":
                self.declaration.has_do = True
                at = self.block(items, at + 1, bound)
            elif item.text == "record":
                at = self.record(items, at, bound)
            elif item.text == "[" or item.text == "elim":
                at = self.cases(items, at, bound)
            elif item.text in ("where", "open"):
                at = self.helpers(items, at, bound)
            elif is_name(item.text):
                at = self.name(items, at, bound)
            else:
                at += 1
        return bound

    def group(self, items: Sequence[Item], at: int, bound: Bound) -> Bound:
        """Goes through what stands in parentheses or braces: a binder, whose names are bound from there on, or terms."""
        group = items[at]
        assert isinstance(group, Group)
        colon = at_of(group.items, ":")
        if colon is not None and not any(isinstance(item, Group) or item.text in KEYWORDS for item in group.items[:colon]):
            self.term(group.items[colon + 1 :], bound)
            for item in group.items[:colon]:
                bound = self.bind(first_of(item), "binder", bound)
            return bound
        equals = at_of(group.items, "=") if group.opening.text == "{" else None
        if equals is not None:
            for part in split(group.items, ",", ";"):
                value = at_of(part, "=")
                self.term(part if value is None else part[value + 1 :], bound)
        elif group.opening.text == "{" and all(isinstance(item, Token) for item in group.items):
            # levels, or names of fields
            pass
        else:
            for part in split(group.items, ",", ";"):
                self.term(part, bound)
        return bound

    def binders(self, items: Sequence[Item], bound: Bound, kind: str) -> Bound:
        """Binds the names of a λ."""
        outer = bound
        for at, item in enumerate(items):
            if isinstance(item, Token):
                bound = bound if item.text == "record" else self.bind(item, kind, bound)
                continue
            colon = at_of(item.items, ":")
            if colon is not None:
                self.term(item.items[colon + 1 :], outer)
                for word in item.items[:colon]:
                    if isinstance(word, Token):
                        bound = self.bind(word, kind, bound)
            elif at and is_word(items[at - 1], "record"):
                for part in split(item.items, ";"):
                    bound = self.binders(part[2:], bound, kind)
            else:
                for part in split(item.items, ","):
                    equals = at_of(part, "=")
                    bound = self.binders(part if equals is None else part[equals + 1 :], bound, kind)
        return bound

    def let(self, items: Sequence[Item], at: int, bound: Bound) -> tuple[int, Bound]:
        """Goes through `let x : T = e in`; what is bound after it."""
        depth, end = 0, at
        for end in range(at, len(items)):
            depth += is_word(items[end], "let") - is_word(items[end], "in")
            if depth == 0:
                break
        inner = items[at + 1 : end]
        equals = at_of(inner, "=")
        equals = len(inner) if equals is None else equals
        colon = at_of(inner[:equals], ":")
        self.term(inner[equals + 1 :], bound)
        if colon is not None:
            self.term(inner[colon + 1 : equals], bound)
        return end + 1, self.binders(inner[: equals if colon is None else colon], bound, "let")

    def block(self, items: Sequence[Item], at: int, bound: Bound) -> int:
        """Goes through the lines of a do, each with what the lines above it bind; the place after the last."""
        if at >= len(items):
            return at
        column, lines = first_of(items[at]).column, []
        start = at
        while at < len(items):
            token = first_of(items[at])
            if at > start and token.is_first and token.column < column:
                break
            if at == start or token.is_first and token.column == column:
                lines.append(at)
            at += 1
        for first, last in zip(lines, [*lines[1:], at]):
            line = items[first:last]
            arrow = at_of(line, "←")
            if arrow is None:
                bound = self.term(line, bound) if is_word(line[0], "let") else (self.term(line, bound), bound)[1]
            else:
                self.term(line[arrow + 1 :], bound)
                bound = self.binders(line[:arrow], bound, "do")
        return at

    def record(self, items: Sequence[Item], at: int, bound: Bound) -> int:
        """Goes through a record, `record { .. }` or `record r { .. }`; the place after it."""
        at += 1
        if at < len(items) and isinstance(items[at], Token) and is_name(first_of(items[at]).text):
            at = self.name(items, at, bound)
        elif at + 1 < len(items) and isinstance(items[at], Group) and isinstance(items[at + 1], Group):
            self.group(items, at, bound)
            at += 1
            while at + 1 < len(items) and is_word(items[at], "."):
                at += 2
        group = items[at] if at < len(items) else None
        if isinstance(group, Group):
            for part in split(group.items, ";"):
                value = at_of(part, "=", ":")
                if value is not None:
                    self.term(part[value + 1 :], bound)
                    if is_word(part[value], ":"):
                        bound = bound | {bare(item.text) for item in part[:value] if isinstance(item, Token)}
                else:
                    self.term(part, bound)
            at += 1
        return at

    def cases(self, items: Sequence[Item], at: int, bound: Bound) -> int:
        """Goes through `elim e as P [ p ↦ a | q ↦ b ]`, or from its bracket on; the place after it."""
        opening = at_of(items[at:], "[")
        if opening is None:
            return at + 1
        opening += at
        if is_word(items[at], "elim"):
            self.term([item for item in items[at + 1 : opening] if not is_word(item, "as")], bound)
        depth, end = 0, opening
        for end in range(opening, len(items)):
            depth += is_word(items[end], "[") - is_word(items[end], "]")
            if depth == 0:
                break
        depth, parts = 0, [[]]  # type: ignore[var-annotated]
        for item in items[opening + 1 : end]:
            depth += is_word(item, "[") - is_word(item, "]")
            if depth == 0 and is_word(item, "|"):
                parts.append([])
            else:
                parts[-1].append(item)
        for part in parts:
            arrow = at_of(part, "↦")
            if arrow is None:
                self.term(part, bound)
            else:
                self.term(part[arrow + 1 :], self.pattern(part[:arrow], bound))
        return end + 1

    def pattern(self, items: Sequence[Item], bound: Bound) -> Bound:
        """Goes through patterns: what they name is used, and the other names are bound."""
        at = 0
        while at < len(items):
            item = items[at]
            if isinstance(item, Group):
                for part in split(item.items, ",", ";"):
                    equals = at_of(part, "=")
                    bound = self.pattern(part if equals is None else part[equals + 1 :], bound)
                at += 1
            elif item.text == "→" or not is_name(item.text) or item.text in self.parts:
                at += 1
            elif at + 1 < len(items) and is_word(items[at + 1], ".") and first_of(items[at + 1]).is_glued:
                at = self.name(items, at, frozenset())
            elif bare(item.text) in self.constructors:
                at = self.name(items, at, frozenset())
            else:
                bound = self.bind(item, "pattern", bound)
                at += 1
        return bound

    def helpers(self, items: Sequence[Item], at: int, bound: Bound) -> int:
        """Goes through a `where` block of helpers, or an `open r use {..}`; the place after it, which is the end."""
        if is_word(items[at], "open"):
            return at + 1
        if at + 1 >= len(items):
            return at + 1
        block = items[at + 1 :]
        column = min(first_of(item).column for item in block if first_of(item).is_first) if any(
            first_of(item).is_first for item in block
        ) else 0
        starts = [n for n, item in enumerate(block) if n == 0 or first_of(item).is_first and first_of(item).column <= column]
        for first, last in zip(starts, [*starts[1:], len(block)]):
            bound = self.clause_or_signature(block[first:last], bound)
        return len(items)

    def clause_or_signature(self, items: Sequence[Item], bound: Bound) -> Bound:
        """Goes through a helper's signature, whose name is bound from there on, or one of its clauses."""
        colon, equals = at_of(items, ":"), at_of(items, "=")
        if is_word(items[0], "unfolding", "open", "infixl", "infixr", "infix"):
            return bound
        if colon is not None and (equals is None or colon < equals):
            self.term(items[colon + 1 :], bound)
            names = [item for item in items[:colon] if isinstance(item, Token) and item.text not in MARKS]
            return bound | {bare(item.text) for item in names}
        if equals is not None:
            skip = 1 if isinstance(items[0], Token) and is_name(items[0].text) else 0
            self.term(items[equals + 1 :], self.pattern(items[skip:equals], bound))
        else:
            self.term(items, bound)
        return bound


def logical(tokens: Sequence[Token], column: int) -> Iterator[list[Token]]:
    """The words of each item of a block whose items begin at a column."""
    depth, part = 0, []  # type: ignore[var-annotated]
    for token in tokens:
        if part and depth == 0 and token.is_first and token.column <= column:
            yield part
            part = []
        part.append(token)
        depth += (token.text in CLOSING) - (token.text in CLOSING.values())
    if part:
        yield part


def imports_of(tokens: Sequence[Token], is_public: bool) -> list[Import]:
    """What a `use` line brings: the words after `use`."""
    items = grouped(tokens)
    path: list[str] = []
    found: list[Import] = []
    line = tokens[0].line
    at = 0
    while at < len(items):
        item = items[at]
        if isinstance(item, Group):
            for part in split(item.items, ","):
                words = [first_of(word).text for word in part]
                if words:
                    here = words[-1]
                    names = words[: words.index("as")] if "as" in words else words
                    below = [bare(word) for word in names if word != "."]
                    found.append(Import((*path, *below[:-1]), below[-1], bare(here), is_public, line))
            return found
        if is_word(item, "as"):
            return [Import(tuple(path), None, first_of(items[at + 1]).text, is_public, line)]
        if not is_word(item, "."):
            path.append(bare(item.text))
        at += 1
    return [Import(tuple(path), None, path[-1], is_public, line)]


def start_of(lines: Sequence[str], head: int) -> int:
    """The first line of the comment that stands right above a line, or that line."""
    start = head
    while start and lines[start - 1].lstrip().startswith("--"):
        start -= 1
    return start


def read(text: str) -> File:
    """Reads a file, without the uses and binders of its declarations (`walk`)."""
    lines = text.split("\n")
    found = File(lines, tokens_of(lines), [], [], [])
    fixity: int | None = None
    for part in logical(found.tokens, 0):
        words = [token.text for token in part]
        head, last = part[0].line, part[-1].line + 1
        marks = tuple(word for word in words[: next((n for n, it in enumerate(words) if it not in MARKS), 0)])
        rest = part[len(marks) :]
        if not rest:
            continue
        if rest[0].text == "use":
            found.imports += imports_of(rest[1:], "pub" in marks)
        elif rest[0].text == "mod":
            found.modules.append((rest[1].text, "pub" in marks))
        elif rest[0].text in ("infixl", "infixr", "infix"):
            fixity = head
        elif rest[0].text in ("data", "record", "ruleset"):
            found.declarations.append(Declaration(rest[1].text, rest[0].text, marks, start_of(lines, head), head, last))
        elif rest[0].text in ("module", "mutual", "open"):
            found.declarations.append(Declaration(rest[0].text, "section", marks, start_of(lines, head), head, last))
        else:
            items = grouped(rest)
            colon, equals = at_of(items, ":"), at_of(items, "=")
            if colon is not None and (equals is None or colon < equals):
                first = head if fixity is None else fixity
                name = bare(rest[0].text)
                found.declarations.append(Declaration(name, "definition", marks, start_of(lines, first), head, last))
                fixity = None
            elif found.declarations:
                found.declarations[-1].end = last
    for declaration in found.declarations:
        if declaration.kind == "data":
            declaration.members = list(constructors_of(found, declaration))
    return found


def parts_of(name: str) -> list[str]:
    """The parts of an operator's name between its places."""
    return [part for part in name.split("◌") if part]


def constructors_of(file: File, declaration: Declaration) -> Iterator[str]:
    """The constructors of a type."""
    tokens = file.within(declaration.head, declaration.end)
    where = next((n for n, token in enumerate(tokens) if token.text == "where"), len(tokens))
    for part in logical(tokens[where + 1 :], 2):
        for token in part:
            if token.text == ":":
                break
            yield bare(token.text)


def walk(file: File, parts: frozenset[str], constructors: frozenset[str], modules: frozenset[str]) -> None:
    """Finds what each declaration of a file uses and binds; operators, constructors and modules are those in scope."""
    for declaration in file.declarations:
        walk_declaration(file, declaration, Walk(declaration, parts, constructors | CONSTRUCTORS, modules))


def walk_declaration(file: File, declaration: Declaration, steps: Walk) -> None:
    """Goes through a declaration: signature and clauses, or a type with its members."""
    tokens = file.within(declaration.head, declaration.end)
    declaration.words = {bare(token.text) for token in tokens}
    if declaration.kind == "section":
        section(tokens, steps)
        return
    for part in logical(tokens, 0):
        if part[0].text in ("infixl", "infixr", "infix"):
            continue
        rest = [token for n, token in enumerate(part) if not (token.text in MARKS and all(it.text in MARKS for it in part[:n]))]
        if rest and rest[0].text in ("data", "record"):
            type_declaration(grouped(rest[2:]), steps)
        elif rest and rest[0].text == "ruleset":
            steps.term(grouped(rest[2:]), frozenset())
        elif rest and rest[0].text == "unfolding":
            steps.term(grouped(rest[1:]), frozenset())
        else:
            top_clause(grouped(rest), declaration, steps, frozenset())


def top_clause(items: list[Item], declaration: Declaration, steps: Walk, bound: Bound) -> None:
    """Goes through a signature or a clause of a declaration."""
    colon, equals = at_of(items, ":"), at_of(items, "=")
    if colon is not None and (equals is None or colon < equals):
        steps.term(items[colon + 1 :], bound)
    elif equals is not None:
        is_named = isinstance(items[0], Token) and bare(items[0].text) == declaration.name
        steps.term(items[equals + 1 :], steps.pattern(items[is_named:equals], bound))
    elif items:
        steps.term(items, bound)


def type_declaration(items: list[Item], steps: Walk) -> None:
    """Goes through the parameters and members of a type, after its name."""
    where = at_of(items, "where")
    head = items[: len(items) if where is None else where]
    bound = steps.term([item for item in head if not is_word(item, ":")], frozenset())
    block = items[len(head) + 1 :]
    starts = [n for n, item in enumerate(block) if n == 0 or first_of(item).is_first and first_of(item).column <= 2]
    for first, last in zip(starts, [*starts[1:], len(block)]):
        member = block[first:last]
        colon = at_of(member, ":")
        if colon is not None:
            steps.term(member[colon + 1 :], bound)
            bound = bound | {bare(item.text) for item in member[:colon] if isinstance(item, Token) and item.text != "pub"}


def section(tokens: Sequence[Token], steps: Walk) -> None:
    """Goes through a section or a mutual block: what its parameters bind holds for each declaration in it."""
    where = next((n for n, token in enumerate(tokens) if token.text == "where"), 0)
    bound = steps.term(grouped(tokens[2:where]), frozenset()) if where else frozenset()
    inner = tokens[where + 1 :]
    column = min((token.column for token in inner if token.is_first), default=0)
    name = ""
    for part in logical(inner, column):
        rest = [token for n, token in enumerate(part) if not (token.text in MARKS and all(it.text in MARKS for it in part[:n]))]
        items = grouped(rest)
        colon, equals = at_of(items, ":"), at_of(items, "=")
        if rest and rest[0].text == "unfolding":
            steps.term(items[1:], bound)
        elif colon is not None and (equals is None or colon < equals):
            name = bare(rest[0].text)
            bound = bound | {name}
            steps.term(items[colon + 1 :], bound)
        elif rest:
            steps.clause_or_signature(items, bound)
