"""The house as names go: the files of definitions and of lemmas of all crates with their imports, the types, traits and functions of the
sources, and what each definition, type and contract cites. tools/lib/antt.py reads the files.
"""
from __future__ import annotations

import dataclasses
import functools
import gc
import pathlib
import re
from collections.abc import Iterator, Sequence
from typing import NamedTuple

import antt

gc.disable()  # (what is read stays to the end: to look for what is gone takes half of the time)
ROOT = pathlib.Path(__file__).resolve().parents[2]
GHOST_USE = re.compile(r"^( *)(?:pub )?ghost use ", re.M)
COMMENT = re.compile(r'("(?:[^"\\\n]|\\.)*")|//[^\n]*')
ATTRIBUTE = re.compile(r"^\s*#!?\[")
ITEM = re.compile(r"( *)(?:pub(?:\([a-z]+\))? )?(?:unsafe )?(struct|enum|trait|type|union) (\w+)")
IMPL = re.compile(r"( *)impl\b(?:<.*?>)? (?:(\w+)(?:<.*>)? for )?&?(?:mut )?(\w+)")
FUNCTION = re.compile(r'( *)((?:pub(?:\([a-z]+\))? )?)(?:const )?(?:unsafe )?(?:extern "C" )?fn (\w+)')
CLAUSE = re.compile(r"\b(requires|ensures)\b *(?:\*? *)?([\w-]*) *\{|\bghost ([\w-]+)(:| =) *\{")
IMPL_MEMBER = re.compile(r"⟦<(.*?)>⟧\.([\w-]+)", re.S)
KIT = "kit"


class Ref(NamedTuple):
    """What a name stands for: a definition of a crate's file, a type or a trait of a crate's source, or a name of the kit."""

    kind: str  # definition, type, kit
    crate: str
    file: str
    name: str

    def __str__(self) -> str:
        return f"{self.crate}/{self.file}.{self.name}" if self.file else f"{self.crate}.{self.name}"


class Module(NamedTuple):
    """A module of definitions of a crate, the module of a declared type, of its variants or of its fields, or a module of the kit."""

    kind: str  # file, type, constants, kit
    crate: str
    name: str
    part: str = ""  # of a type: TheVariants, TheInside, TheType


@dataclasses.dataclass
class Scope:
    """The names that a text may use without binding them, and the modules."""

    names: dict[str, Ref]
    modules: dict[str, Module]
    constructors: set[str]

    def parts(self) -> frozenset[str]:
        """The parts of the operators in scope."""
        return frozenset(part for name in self.names if "◌" in name for part in antt.parts_of(name))


@dataclasses.dataclass(eq=False)
class Source:
    """An item of a source: a type, a trait, an impl or a function; its lines from its comment on, and its file's ghost imports."""

    kind: str
    name: str
    crate: str
    path: pathlib.Path
    start: int
    head: int
    end: int
    lines: list[str]
    of_trait: str = ""
    block: Source | None = None
    is_public: bool = False

    def text(self) -> str:
        """The item's lines without comments."""
        return COMMENT.sub(lambda it: it[1] or "", "\n".join(self.lines[self.head : self.end]))


def libraries() -> dict[str, list[str]]:
    """The crates in the order of crates.txt, each with what it uses."""
    rows = [line.partition("#")[0].split(":") for line in (ROOT / "crates.txt").read_text().splitlines()]
    return {row[0].split()[0]: row[1].split() for row in rows if len(row) == 2}


class House:
    """All files of definitions, and of lemmas where they are asked for, with what each name in them stands for."""

    def __init__(self, root: pathlib.Path = ROOT, parts: Sequence[str] = ("specs",)):
        self.root = root
        self.crates = [crate for crate in libraries() if (root / "crates" / crate).is_dir()]
        self.files: dict[tuple[str, str], antt.File] = {}
        self.paths: dict[tuple[str, str], pathlib.Path] = {}
        self.passed_on: dict[tuple[str, str], tuple[str, ...]] = {}
        for crate in self.crates:
            for part in parts:
                folder = root / "crates" / crate / part
                for path in sorted(folder.rglob("*.antt")):
                    name = path.relative_to(folder).with_suffix("").as_posix().replace("/", ".")
                    name = name if part == "specs" else f"{part}:{name}"
                    self.files[crate, name] = antt.read(path.read_text())
                    self.paths[crate, name] = path
        for crate in self.crates:
            library = self.files.get((crate, "Lib"))
            for item in library.imports if library else []:
                if item.is_public and item.name is None:
                    self.passed_on[crate, item.here] = item.module
        self.owned: dict[tuple[str, str], dict[str, str]] = {}
        for key, file in self.files.items():
            names = {declaration.name: declaration.name for declaration in file.declarations}
            for declaration in file.declarations:
                names.update(dict.fromkeys(declaration.members, declaration.name))
            self.owned[key] = names
        self.members = {
            (key[0], key[1], member)
            for key, file in self.files.items()
            for declaration in file.declarations
            for member in declaration.members
        }

    @functools.cached_property
    def sources(self) -> list[Source]:
        """The items of all sources."""
        return [source for crate in self.crates for source in sources_of(self.root, crate)]

    @functools.cached_property
    def blocks(self) -> dict[pathlib.Path, list[Source]]:
        """The `impl`s and traits of each file."""
        found: dict[pathlib.Path, list[Source]] = {}
        for source in self.sources:
            if source.kind in ("impl", "trait"):
                found.setdefault(source.path, []).append(source)
        return found

    @functools.cached_property
    def types(self) -> dict[str, list[Source]]:
        """The types and traits of all sources by their names."""
        found: dict[str, list[Source]] = {}
        for source in self.sources:
            if source.kind in ("struct", "enum", "trait", "type") and not source.crate.startswith("pac_test_"):
                found.setdefault(source.name, []).append(source)
        return found

    # ---- modules

    def module(self, path: Sequence[str]) -> Module | None:
        """What a module's path stands for."""
        if len(path) < 3 or path[0] != "Rattle" or path[1] not in self.crates:
            return Module(KIT, ".".join(path), path[-1] if path else "")
        crate, part, rest = path[1], path[2], list(path[3:])
        if rest and rest[0] == "declared":
            names = [name for name in rest[1:] if not name.startswith("The")]
            last = rest[-1]
            if last == "TheConstants":
                return Module("constants", crate, ".".join(names))
            part_of = next((name for name in rest[1:] if name.startswith("The")), "")
            return Module("type", crate, names[-1], part_of) if names else None
        # what the kit makes of a type for its contracts: `the_type`, which its `==` asks for
        if rest and rest[0] == "contracts" and rest[-1] in self.types:
            return Module("type", crate, rest[-1], "TheType")
        for size in range(len(rest), 0, -1):
            key = ".".join(rest[:size])
            if (crate, key) in self.passed_on and part == "specs":
                return self.module([*self.passed_on[crate, key], *rest[size:]])
        name = ".".join(rest)
        if part != "specs":
            name = f"{part}:{name}"
        return Module("file", crate, name)

    def item(self, module: Module | None, name: str, seen: frozenset[tuple[str, str]] = frozenset()) -> Ref | None:
        """What a name of a module stands for."""
        if module is None:
            return None
        if module.kind == KIT:
            return Ref(KIT, module.crate, "", name)
        if module.kind == "type":
            return Ref("type", module.crate, "", module.name)
        if module.kind == "constants":
            return Ref("constant", module.crate, module.name, name)
        key = (module.crate, module.name)
        if name in self.owned.get(key, {}):
            return Ref("definition", module.crate, module.name, self.owned[key][name])
        file = self.files.get(key)
        for brought in file.imports if file and key not in seen else []:
            if brought.is_public and brought.here == name and brought.name is not None:
                return self.item(self.module(brought.module), brought.name, seen | {key})
        return None

    def is_constructor(self, item: antt.Import) -> bool:
        """Whether an import brings a constructor."""
        module = self.module(item.module)
        if module is None or item.name is None:
            return False
        if module.kind == KIT:
            return bare_last(item.module) == "TheVariants" or item.name in antt.CONSTRUCTORS
        if module.kind == "type":
            return module.part == "TheVariants"
        found = self.item(module, item.name)
        return found is not None and (found.crate, found.file, item.name) in self.members

    def add(self, scope: Scope, imports: Sequence[antt.Import]) -> None:
        """Adds what imports bring to a scope."""
        for item in imports:
            module = self.module(item.module)
            if item.name is None:
                if module:
                    scope.modules[item.here] = module
                continue
            found = self.item(module, item.name)
            if found:
                scope.names[item.here] = found
                if self.is_constructor(item):
                    scope.constructors.add(item.here)

    @functools.lru_cache(maxsize=None)
    def scope(self, crate: str, name: str) -> Scope:
        """The scope of a file."""
        found = Scope({}, {}, set())
        file = self.files[crate, name]
        self.add(found, file.imports)
        for here, owner in self.owned[crate, name].items():
            found.names[here] = Ref("definition", crate, name, owner)
            if (crate, name, here) in self.members:
                found.constructors.add(here)
        return found

    # ---- what is cited

    def resolved(self, scope: Scope, use: antt.Use) -> Ref | None:
        """What a use stands for."""
        path = use.path
        if path[0] == "Rattle" and len(path) > 3:
            for size in range(len(path) - 1, 3, -1):
                found = self.item(self.module(path[:size]), path[size])
                if found:
                    return found
        if len(path) > 1 and path[0] in scope.modules:
            module = scope.modules[path[0]]
            found = self.item(module, path[1])
            if found or path[0] not in scope.names:
                return found
        return scope.names.get(path[0])

    def cited(self, scope: Scope, declaration: antt.Declaration) -> list[Ref]:
        """What a walked declaration cites, in the order of its text: names, and operators whose parts all occur."""
        found: dict[Ref, None] = {}
        operators = [(name, antt.parts_of(name)) for name in scope.names if "◌" in name]
        for use in declaration.uses:
            ref = self.resolved(scope, use)
            if ref:
                found.setdefault(ref)
        for name, parts in operators:
            if all(part in declaration.words for part in parts) or name in declaration.words or declaration.has_do and ">>" in name:
                found.setdefault(scope.names[name])
        return list(found)

    @functools.lru_cache(maxsize=None)
    def walked(self, crate: str, name: str) -> antt.File:
        """A file of which it is known what its declarations use and bind."""
        scope = self.scope(crate, name)
        antt.walk(self.files[crate, name], scope.parts(), frozenset(scope.constructors), frozenset(scope.modules))
        return self.files[crate, name]

    @functools.lru_cache(maxsize=None)
    def citations(self, crate: str, name: str) -> dict[str, list[Ref]]:
        """What each declaration of a file cites."""
        file, scope = self.walked(crate, name), self.scope(crate, name)
        found: dict[str, list[Ref]] = {}
        for declaration in file.declarations:
            found.setdefault(declaration.name, []).extend(self.cited(scope, declaration))
        return found

    def declaration(self, ref: Ref) -> antt.Declaration:
        """The declaration of a definition."""
        return next(it for it in self.files[ref.crate, ref.file].declarations if it.name == ref.name)

    # ---- sources

    def source_scope(self, source: Source) -> Scope:
        """The names that an item's clauses may use."""
        found = Scope({}, {}, set())
        self.add(found, self.source_imports(source))
        return found

    def source_imports(self, source: Source) -> list[antt.Import]:
        """The ghost imports that an item's clauses see: its file's, and those of the block that it stands in."""
        found: list[antt.Import] = []
        spans = [(block.head, block.end) for block in self.blocks.get(source.path, [])]
        for match in GHOST_USE.finditer("\n".join(source.lines)):
            line = "\n".join(source.lines)[: match.start()].count("\n")
            inside = [span for span in spans if span[0] <= line < span[1]]
            blocks = [block for block in (source, source.block) if block]
            if not inside or any(block.head <= span[0] and span[1] <= block.end for span in inside for block in blocks):
                text = "\n".join(source.lines)[match.end() :].partition(";")[0]
                found += antt.imports_of(antt.tokens_of(text.split("\n")), False)
        return found

    def type_ref(self, name: str, crate: str) -> Ref | None:
        """The type or trait of our sources that a name of a source stands for: types of the libraries have one name each."""
        found = self.types.get(name)
        if not found:
            return None
        own = [source for source in found if source.crate == crate] or found
        return Ref("type", own[0].crate, "", name)

    def type_source(self, ref: Ref) -> Source | None:
        """The source of a type or trait; none where another crate only passes it on under that name."""
        found = self.types.get(ref.name, [])
        return next((source for source in found if source.crate == ref.crate), found[0] if found else None)

    def model(self, source: Source) -> Source | None:
        """A type's `impl Model`."""
        impls = (it for it in self.sources if it.kind == "impl" and it.of_trait == "Model")
        return next((it for it in impls if (it.crate, it.name) == (source.crate, source.name)), None)

    def types_in(self, text: str, source: Source) -> list[Ref]:
        """The types and traits of our sources that a text of a source names."""
        renamed = dict(re.findall(r"\b(\w+) as (\w+)\b", "\n".join(source.lines)))
        back = {here: name for name, here in renamed.items()}
        found: dict[Ref, None] = {}
        if source.kind == "enum":
            # without the names of the variants
            text = re.sub(r"^    \w+", "", text, flags=re.M)
        for word in re.findall(r"\b[A-Z]\w*\b", text):
            ref = self.type_ref(back.get(word, word), source.crate)
            if ref and ref.name != source.name:
                found.setdefault(ref)
        return list(found)

    def clause_citations(self, source: Source, text: str, bound: frozenset[str]) -> list[Ref]:
        """What the clauses and ghost members of a text of a source cite."""
        scope = self.source_scope(source)
        found: dict[Ref, None] = {}
        for _, clause in clauses_of(text):
            declaration = antt.Declaration("", "definition", (), 0, 0, 0)
            constructors = frozenset(scope.constructors) | antt.CONSTRUCTORS
            steps = antt.Walk(declaration, scope.parts(), constructors, frozenset(scope.modules))
            tokens = antt.tokens_of(clause.split("\n"))
            declaration.words = {antt.bare(token.text) for token in tokens}
            steps.term(antt.grouped(tokens), bound)
            for ref in self.cited(scope, declaration):
                found.setdefault(ref)
        return list(found)

    @functools.lru_cache(maxsize=None)
    def contract(self, source: Source) -> list[Ref]:
        """What a function's contract stands on: what its clauses cite, and the types and traits of its signature."""
        header = header_of(source.text())
        names = re.findall(r"\b(\w+)\s*:", header.split("requires")[0].split("ensures")[0])
        bound = frozenset({*names, "result", "self"})
        plain = CLAUSE.split(header)[0]
        found = dict.fromkeys(self.clause_citations(source, header, bound))
        found.update(dict.fromkeys(self.types_in(plain, source)))
        for named, member in IMPL_MEMBER.findall(header):
            found.update(dict.fromkeys(self.types_in(named, source)))
            for impl in self.impls(named):
                found.update(dict.fromkeys(self.clause_citations(impl, member_of(impl, member), frozenset())))
        return list(found)

    def impls(self, named: str) -> list[Source]:
        """The impls of a trait for a type, as `HostFiles<'static, R> as FileSystem` names them."""
        of_type, trait = (re.match(r"\s*(\w+)", part) for part in named.split(" as "))
        names = (of_type[1] if of_type else "", trait[1] if trait else "")
        return [it for it in self.sources if it.kind == "impl" and (it.name, it.of_trait) == names]

    @functools.lru_cache(maxsize=None)
    def type_citations(self, ref: Ref) -> list[Ref]:
        """What a type or trait stands on: its model's value, or else its fields and what it owns; of a trait, its members and contracts."""
        source = self.type_source(ref)
        if source is None:
            return []
        model = self.model(source)
        members_of_model = dict(clauses_of(model.text())) if model else {}
        if model and "Value" in members_of_model:
            return self.clause_citations(model, "ghost Value = { " + members_of_model["Value"] + " }", frozenset())
        text = source.text()
        members = frozenset(re.findall(r"\bghost ([\w-]+)\s*:", text))
        if source.kind == "trait":
            found: dict[Ref, None] = dict.fromkeys(self.types_in(text.partition("{")[0], source))
            bound = members | {"self", "result", "Self"} | frozenset(re.findall(r"\b(\w+)\s*:", text))
            found.update(dict.fromkeys(self.clause_citations(source, text, bound)))
            for header in re.findall(r"\bfn \w+.*?(?=\brequires\b|\bensures\b|[;{])", text, re.S):
                found.update(dict.fromkeys(self.types_in(header, source)))
            return list(found)
        fields = frozenset(re.findall(r"\b(\w+)\s*:", text)) | members
        found = dict.fromkeys(self.types_in(without_ghosts(text), source))
        found.update(dict.fromkeys(self.clause_citations(source, text, fields)))
        if model and "also_owns" in members_of_model:  # (a struct that owns memory beside its fields is seen by them)
            found.update(dict.fromkeys(self.clause_citations(model, "ghost also_owns = { " + members_of_model["also_owns"] + " }", frozenset())))
        return list(found)

    def functions(self, crate: str) -> Iterator[Source]:
        """The functions of a crate."""
        return (source for source in self.sources if source.kind == "fn" and source.crate == crate)

    def laws(self) -> Iterator[Source]:
        """The public functions that only carry a statement: those of the modules `laws`, and all others that do nothing."""
        for source in self.sources:
            if source.kind == "fn" and source.is_public:
                within = source.path.relative_to(self.root / "crates" / source.crate / "src")
                body = "\n".join(source.lines[source.head : source.end]).rstrip()
                if within.parts[0] in ("laws.rt", "laws") or re.search(r"\{\s*\}$", body) and "ensures" in body and ") ->" not in body:
                    yield source


def bare_last(path: Sequence[str]) -> str:
    """The last name of a path."""
    return path[-1] if path else ""


def clauses_of(text: str) -> Iterator[tuple[str, str]]:
    """The clauses and ghost members of a text, each with its name or the word before its brace."""
    at = 0
    while True:
        match = CLAUSE.search(text, at)
        if not match:
            return
        depth, end = 1, match.end()
        while depth and end < len(text):
            depth += (text[end] == "{") - (text[end] == "}")
            end += 1
        yield match[3] or match[2] or match[1], text[match.end() : end - 1]
        at = end


def member_of(source: Source, member: str) -> str:
    """A ghost member of an impl."""
    text = source.text()
    is_there = re.search(rf"\bghost {member} =", text)
    return "\n".join(f"ghost {name} = {{{clause}}}" for name, clause in clauses_of(text) if is_there and name == member)


def without_ghosts(text: str) -> str:
    """A text without its clauses and ghost members, and without attributes."""
    kept, at = list[str](), 0
    while True:
        match = CLAUSE.search(text, at)
        if not match:
            return re.sub(r"#\[[^\]]*\]", "", "".join(kept) + text[at:])
        kept.append(text[at : match.start()])
        depth, at = 1, match.end()
        while depth and at < len(text):
            depth += (text[at] == "{") - (text[at] == "}")
            at += 1


def header_of(text: str) -> str:
    """A function's signature and clauses, up to its body."""
    lines = text.split("\n")
    indent = len(lines[0]) - len(lines[0].lstrip())
    for n, line in enumerate(lines):
        if line.startswith(" " * indent + "{") or n == 0 and line.rstrip().endswith("{") or line.rstrip() == " " * indent + "{}":
            return "\n".join(lines[:n]) if n else line.rpartition("{")[0]
        if line.startswith(" " * indent + ")") and line.rstrip().endswith("{"):
            return "\n".join(lines[: n + 1]).rpartition("{")[0]
        if line.startswith(" " * indent + "fn") and line.endswith(";"):
            return line
    return text


def end_of(lines: Sequence[str], head: int, indent: str) -> int:
    """The line after an item in rt fmt's layout."""
    first = lines[head]
    if first.rstrip().endswith((";", "}", "{}")) and not first.rstrip().endswith("{"):
        return head + 1
    for at in range(head + 1, len(lines)):
        line = lines[at].rstrip()
        if line in (indent + "}", indent + "{}", indent + "};", indent + ");") or line.startswith(indent + ")") and line.endswith(";"):
            return at + 1
    return len(lines)


def sources_of(root: pathlib.Path, crate: str) -> Iterator[Source]:
    """The items of a crate's sources."""
    folder = root / "crates" / crate / "src"
    for path in sorted(folder.rglob("*.rt")):
        lines = path.read_text().split("\n")
        block: Source | None = None
        for at, line in enumerate(lines):
            if block and at >= block.end:
                block = None
            match = ITEM.match(line)
            what, impl, function = (match, IMPL.match(line), FUNCTION.match(line)) if line.strip() else (None, None, None)
            start = at
            while start and (lines[start - 1].lstrip().startswith("///") or ATTRIBUTE.match(lines[start - 1])):
                start -= 1
            found: Source | None = None
            if what and not block:
                found = Source(what[2], what[3], crate, path, start, at, end_of(lines, at, what[1]), lines)
                block = found if what[2] == "trait" else block
            elif impl and not block:
                found = Source("impl", impl[3], crate, path, start, at, end_of(lines, at, impl[1]), lines, impl[2] or "")
                block = found
            elif function:
                is_public = function[2].strip() == "pub"
                end = end_of(lines, at, function[1])
                found = Source("fn", function[3], crate, path, start, at, end, lines, "", block, is_public)
            if found:
                yield found
