"""Lays what some contracts rest on out as a crate of its own, definitions, types and contracts and nothing else, and has the kit elaborate
it: where a name were missing among them, it would be refused.

A type whose contracts see another value (`impl Model`) is laid out as that value alone; a trait and a contract without the bodies.
"""
from __future__ import annotations

import pathlib
import re
import subprocess
import sys
import tempfile
import time
from collections.abc import Iterable, Sequence
from typing import TYPE_CHECKING

import antt
import house
from house import Ref

if TYPE_CHECKING:
    from typing import Protocol

    class Below(Protocol):
        """What stands below some functions (tools/check/believe)."""

        whole: house.House
        functions: Sequence[house.Source]
        cites: dict[Ref, list[Ref]]

        def of_kind(self, kind: str) -> list[Ref]: ...
        def files(self) -> list[tuple[str, str]]: ...
        def in_file(self, file: tuple[str, str]) -> list[antt.Declaration]: ...


CRATE = "believed"
USE = re.compile(r"^(?:pub )?use ((?:\w+::)+)(\{[^}]*\}|\w+)(?: as (\w+))?;", re.M)
GENERICS = re.compile(r"^[^{(;]*?\b(?:struct|enum) \w+(<[^{(]*?>)?\s*(?:where|[{(;]|$)")


def snake(name: str) -> str:
    """A type's name as that of a module."""
    return re.sub(r"(?<=[a-z0-9])(?=[A-Z])", "_", name).lower() + "_type"


def module_path(ref: Ref) -> str:
    """The module of a definition or a type in the crate."""
    if ref.kind == "definition":
        return f"Rattle.{CRATE}.specs.{ref.crate}.{ref.file}"
    return f"Rattle.{CRATE}.specs.declared.{snake(ref.name)}.{ref.name}"


def import_line(below: Below, item: antt.Import) -> str | None:
    """An import as it reads in the crate; none where what it brings isn't there."""
    whole = below.whole
    module = whole.module(item.module)
    if module is None:
        return None
    tail = f".{module.part}" if module.part else ""
    if item.name is None:
        if module.kind == house.KIT:
            path = ".".join(item.module)
        elif module.kind == "type":
            ref = Ref("type", module.crate, "", module.name)
            path = module_path(ref) + tail if ref in below.cites else ""
        else:
            path = f"Rattle.{CRATE}.specs.{module.crate}.{module.name}" if (module.crate, module.name) in below.files() else ""
        alias = f" as {item.here}" if path.rpartition(".")[2] != item.here else ""
        return f"use {path}{alias}" if path else None
    ref_found = whole.item(module, item.name)
    alias = f" as {item.here}" if item.here != item.name else ""
    if ref_found is not None and module.part == "TheType":
        path = module_path(ref_found).replace(".declared.", ".contracts.")
        return f"use {path}.{{{item.name}{alias}}}" if ref_found in below.cites else None
    if ref_found is None:
        return None
    if ref_found.kind == house.KIT:
        return f"use {'.'.join(item.module)}.{{{item.name}{alias}}}"
    if ref_found not in below.cites:
        return None
    return f"use {module_path(ref_found)}{tail}.{{{item.name}{alias}}}"


def import_lines(below: Below, items: Iterable[antt.Import]) -> list[str]:
    """The imports of a file as they read in the crate, each once."""
    return list(dict.fromkeys(line for line in (import_line(below, item) for item in items) if line))


def definition_files(below: Below, folder: pathlib.Path) -> None:
    """Writes the files of definitions, and those that name them."""
    files = below.files()
    crates = sorted({crate for crate, _ in files})
    folder.mkdir()
    (folder / "Lib.antt").write_text("".join(f"pub mod {crate}\n" for crate in crates))
    for crate in crates:
        names = [name for each, name in files if each == crate]
        (folder / f"{crate}.antt").write_text("".join(f"pub mod {name}\n" for name in names))
        (folder / crate).mkdir()
    for file in files:
        lines = below.whole.files[file].lines
        text = import_lines(below, below.whole.files[file].imports)
        for declaration in below.in_file(file):
            text += ["", *lines[declaration.start : declaration.end]]
        (folder / file[0] / f"{file[1]}.antt").write_text("\n".join(text) + "\n")


def rust_uses(below: Below, source: house.Source, text: str) -> list[str]:
    """What a text of a source names: types of the crate, and what the source brings in from the kit."""
    found = []
    for ref in below.whole.types_in(text, source):
        if ref in below.cites:
            found.append(f"use crate::{snake(ref.name)}::{ref.name};")
    known = {ref.name for ref in below.whole.types_in(text, source)}
    for match in USE.finditer("\n".join(source.lines)):
        root = match[1].split("::")[0]
        if root in ("crate", "self", "super", *below.whole.crates):
            continue
        for name in re.findall(r"\w+", match[2]):
            if name not in known and name != "Model" and re.search(rf"\b{name}\b", text):
                found.append(f"use {match[1]}{name};")
    return list(dict.fromkeys(found))


def constants(below: Below, source: house.Source, text: str) -> list[str]:
    """The constants that a text names, in the lengths of arrays."""
    found: dict[str, None] = {}
    for name in re.findall(r"\b[A-Z][A-Z0-9_]+\b", text):
        for path in sorted((below.whole.root / "crates" / source.crate / "src").rglob("*.rt")):
            match = re.search(rf"^(?:pub(?:\([a-z]+\))? )?const {name}: [^;]*;", path.read_text(), re.M)
            if match:
                found.setdefault(match[0])
                break
    return list(found)


def ghost_lines(below: Below, source: house.Source, indent: str = "", of: str | None = None) -> list[str]:
    """The ghost imports that a source's clauses see; or those of them that a text names."""
    items = below.whole.source_imports(source)
    if of is not None:
        words = {antt.bare(token.text) for token in antt.tokens_of(of.split("\n"))}
        items = [item for item in items if item.here in words or "◌" in item.here and words.issuperset(antt.parts_of(item.here))]
    return [f"{indent}ghost {line};" for line in import_lines(below, items)]


def type_file(below: Below, source: house.Source) -> str:
    """A type or a trait, in a file of its own."""
    model = below.whole.model(source) if source.kind != "trait" else None
    text = re.sub(r"\b(?:crate|pac_\w+)::(?:[a-z]\w*::)*(?=[A-Z])", "", source.text())
    if source.kind == "trait":
        text = bodiless(text).replace("    final fn ", "    fn ")
    head = [f"//! {source.name}."]
    if model and any(name == "Value" for name, _ in house.clauses_of(model.text())):
        return "\n".join([*head, *modelled(below, source, model)])
    # (a value that a struct owns beside its fields is a field like any other, for what contracts see of it)
    text = re.sub(r"ghost (\w+): \{[^}]*\} by \{ (\w+)_row\.coded \}", lambda found: f"{found[1]}: {found[2].title()}", text)
    ghosts = ghost_lines(below, source) if source.kind == "trait" or "ghost " in text else []
    if source.kind != "trait":
        text = re.sub(r"^( *)#\[[^\]]*\]\n", "", text, flags=re.M)
    text = re.sub(r"^pub\([a-z]+\) |^(?=struct|enum|trait|type)", "pub ", text)
    text = re.sub(r"^    pub\([a-z]+\) ", "    pub ", text, flags=re.M)
    return "\n".join([*head, *ghosts, *rust_uses(below, source, text), *constants(below, source, text), text, ""])


def modelled(below: Below, source: house.Source, model: house.Source) -> list[str]:
    """A type that contracts see as another value, with nothing in it: no value is ever made."""
    text = source.text()
    match = GENERICS.match(text.split("\n")[0])
    generics = match[1] or "" if match else ""
    names = [part.split(":")[0].strip() for part in generics.strip("<>").split(",") if part.strip()]
    used = ", ".join(f"&{name} ()" if name.startswith("'") else name for name in names)
    value = next(clause for name, clause in house.clauses_of(model.text()) if name == "Value")
    field = [f"    used: std::marker::PhantomData<({used},)>,"] if names else []
    return [
        *rust_uses(below, source, generics),
        "use std::marker::Model;",
        f"pub struct {source.name}{generics} {{",
        *field,
        "    ghost never: { ⊥ },",
        "}",
        f"impl{generics} Model for {source.name}{'<' + ', '.join(names) + '>' if names else ''} {{",
        *ghost_lines(below, model, "    ", value),
        f"    ghost Value = {{ {value} }};",
        "    ghost view = { λ it. absurd it.never };",
        "}",
        "",
    ]


def bodiless(text: str) -> str:
    """A trait without the bodies of its functions."""
    kept: list[str] = []
    is_body = False
    for line in text.split("\n"):
        if is_body:
            is_body = line != "    }"
        elif line == "    {":
            kept[-1] += ";"
            is_body = True
        elif line.startswith("    fn ") and line.endswith("{") or line.startswith("    )") and line.endswith("{"):
            kept.append(line[:-1].rstrip() + ";")
            is_body = True
        elif line.startswith("    fn ") and line.endswith("}"):
            kept.append(line.partition("{")[0].rstrip() + ";")
        elif not line.strip().startswith("#["):
            kept.append(line)
    return "\n".join(kept)


def contract_file(below: Below, function: house.Source, number: int) -> str:
    """A function's contract, as a trait's function without a body; without the clauses that name an impl's members, as a crate that has
    no bodies can have no impl."""
    header = house.header_of(function.text()).rstrip()
    clauses = re.split(r"^(?=    (?:requires|ensures)\b)", header, flags=re.M)
    header = "".join(clause for clause in clauses if not house.IMPL_MEMBER.search(clause)).rstrip()
    header = re.sub(r'^ *pub (?:unsafe )?(?:extern "C" )?', "    ", header)
    head = [f"//! The contract of {function.name}.", *ghost_lines(below, function), *rust_uses(below, function, header)]
    return "\n".join([*head, f"pub trait Contract{number} {{", header + ";", "}", ""])


def kit_crates(below: Below) -> list[str]:
    """The crates of the kit that the crates of the definitions use."""
    used = {crate for crate, _ in below.files()} | {ref.crate for ref in below.of_kind("type")} | {it.crate for it in below.functions}
    uses = house.libraries()
    return sorted({name for crate in used for name in uses[crate]} - set(below.whole.crates))


def lay(below: Below, room: pathlib.Path) -> pathlib.Path:
    """Lays the crate out in an empty folder; the crate's folder."""
    folder = room / "crates" / CRATE
    (folder / "src").mkdir(parents=True)
    (room / "crates.txt").write_text(f"{CRATE}: {' '.join(kit_crates(below))}\n")
    definition_files(below, folder / "specs")
    modules = []
    for ref in below.of_kind("type"):
        source = below.whole.type_source(ref)
        if source:
            modules.append(snake(ref.name))
            (folder / "src" / f"{snake(ref.name)}.rt").write_text(type_file(below, source))
    for number, function in enumerate(below.functions):
        modules.append(f"contract_{number}")
        (folder / "src" / f"contract_{number}.rt").write_text(contract_file(below, function, number))
    lines = ["//! What some contracts rest on.", "#![tactic(auto)]", *(f"pub mod {name};" for name in sorted(modules))]
    (folder / "src" / "lib.rt").write_text("\n".join(lines) + "\n")
    return folder


def elaborate(below: Below) -> int:
    """Lays the crate out below /tmp and has the kit elaborate it; tells what is missing."""
    with tempfile.TemporaryDirectory(prefix="believed-") as name:
        room = pathlib.Path(name)
        folder = lay(below, room)
        start = time.time()
        with subprocess.Popen(["rt", "check"], cwd=folder, stdout=subprocess.PIPE, stderr=subprocess.STDOUT, text=True) as done:
            said = None
            while said is None:
                try:
                    said = done.communicate(timeout=1.5)[0]
                except subprocess.TimeoutExpired:
                    print(".", end="", file=sys.stderr, flush=True)
        print(file=sys.stderr)
    is_whole = done.returncode == 0 and "not-proved" not in said and "not proved" not in said
    for line in said.split("\n"):
        if not is_whole and re.search(r"error|not proved|Scope|refused", line):
            print(f"FAILED: {line}")
    counts = [len(below.of_kind(kind)) for kind in ("definition", "type")]
    print(f"{counts[0]} definitions, {counts[1]} types and {len(below.functions)} contracts, {time.time() - start:.0f} s", file=sys.stderr)
    print(f"{int(is_whole)} passed, {int(not is_whole)} failed")
    return 0 if is_whole else 1
