"""Inputs that are refused, by which tools/check/studio holds what bin/explain says of them against what the studio's page says."""
import importlib.machinery
import json
import pathlib
import random
import re
import shutil
import tomllib
import types
from collections.abc import Iterator
from typing import Any

import causes
import causes_of_files
import judge_run
import judge_source
import more_faults

ROOT = pathlib.Path(__file__).resolve().parents[2]
EXAMPLES = ("starfall", "hello", "welcome", "sunset")
CHANGED, MANY = 500, 100  # sources with a changed line, and with a few
LARGEST = 200_000  # bytes
# What is no TOML after a right manifest.
NO_TOML = ["x =", "[x", "[x]\ny", "x = \"a\n", "x = \"a", "x = 'a\n'", "x = 'a", "x = \"\1\"", "x = \"\\q\"", "x = \"\\", "[x]\n[x]\n", "[tiles]\n", "x = 1\nx = 2"]
NO_TOML += ["[[x]", "[[x]]\n[x]\n", "[x]\n[[x]]\n", "x = y", "x = 1 2", "x = 00", "x = 1.", "= 3", "[]", "[x] y", "[x]]", "x = [1]]", "x = true1", "\1"]
# What is put into a line: signs and words of this assembler and of others.
PIECES = ["HL", "A", "IX", "P", "NZ", "LD", "255", "70000", "0FFH", "1A", "//", "/*", "AND ", "STARS", "\xe9", "IF ", "EQU", "X ", "NOWHERE", "\"x\""]
PIECES += ["INCLUDE \"x\"", "$FF", "0x10", "ALIGN 8"] + list("$:,()+-*/';#%&<>=.@ \t")


def loaded(name: str) -> Any:
    """A script of tools/check, as a module."""
    loader = importlib.machinery.SourceFileLoader(name, str(ROOT / "tools/check" / name))
    module: Any = types.ModuleType(loader.name)
    module.__file__ = loader.path
    loader.exec_module(module)
    return module


def changed(chance: random.Random, line: str) -> str:
    """A line with one piece left out, put in, replaced, or swapped with the next one."""
    at, piece, way = chance.randrange(len(line) + 1), chance.choice(PIECES), chance.randrange(5)
    if way < 4:
        return line[:at] + ["", piece, piece, line[at + 1 : at + 2] + line[at : at + 1]][way] + line[at + [1, 0, 1, 2][way] :]
    words = line.split() or [""]
    words[chance.randrange(len(words))] = piece
    return " " + " ".join(words)


def sources() -> Iterator[bytes]:
    """The sources of the tables of tools/check/sources and tools/check/explanations, and those of the examples with a changed line."""
    reader, rows = loaded("sources"), loaded("explanations")
    for section in tomllib.loads((ROOT / "tools/check/sources.toml").read_text())["section"]:
        if section["is"] not in ("text", "instructions"):
            yield from (reader.source_of(section, cells)[0] for cells in section["rows"])
    yield from (text.encode("latin-1") for _, text, _, _ in rows.SOURCES)
    chance, count = random.Random(5), 0
    examples = [(ROOT / f"examples/{name}.asm").read_text().split("\n") for name in EXAMPLES]
    while count < CHANGED:
        lines = list(chance.choice(examples))
        at = chance.randrange(len(lines))
        lines[at] = changed(chance, lines[at])
        source = "\n".join(lines).encode("latin-1")
        if judge_source.assemble(source)[1]:
            count += 1
            yield source


def often_changed(count: int) -> Iterator[bytes]:
    """Sources of the examples with a few changed lines."""
    chance = random.Random(6)
    examples = [(ROOT / f"examples/{name}.asm").read_text().split("\n") for name in EXAMPLES]
    for _ in range(count):
        lines = list(chance.choice(examples))
        for _ in range(chance.randrange(2, 6)):
            at = chance.randrange(len(lines))
            lines[at] = changed(chance, lines[at])
        yield "\n".join(lines).encode("latin-1")


# What is planted in place of an instruction; {} is a number of its own. Of these each is told, whatever else is planted.
SURE = [" LDQ A,(", " LD A,300", " JP NOWHERE{}", ' LD A,"x"', " LD A,5 5"]
# What is planted in place of any line with a label {}, and what would hang on it isn't told.
UNSURE = {
    "EQU": ["{} EQU #5", "{} = 5", "{} EQU NOWHERE", "{} EQU 5 5", "{} EQU 1/0"],
    "ORG": ["\tORG NOWHERE", "\tORG 5000H", "\tORG", "\t.org 5"],
    "": ["{} DEFQ 5,6", "{}: .db 5", "{}: DEFS NOWHERE", '{} DEFB "x"', "{} LD A,(", "{} LD A,B C", "{}: INCLUDE 'x'", "{} MACRO"],
}


def planted(count: int) -> Iterator[tuple[bytes, set[int], bool]]:
    """Sources of the examples with some faults of a kind: their lines, and whether all of them have to be told."""
    chance, examples = random.Random(7), [(ROOT / f"examples/{name}.asm").read_text().split("\n") for name in EXAMPLES]
    for turn in range(count):
        lines, is_sure = list(chance.choice(examples)), turn % 2 == 0
        read: list[Any] = [judge_source.read_line(line.encode("latin-1")) for line in lines]
        wanted = judge_source.MNEMONICS if is_sure else (judge_source.MNEMONICS | judge_source.DIRECTIVES) - {"IF", "ELSE", "ENDIF"}
        spots = [at for at, line in enumerate(read) if line.operation in wanted]
        spots = chance.sample(spots, min(len(spots), chance.randrange(2, 7)))
        for at in spots:
            label, kinds = read[at].label or "", UNSURE.get(read[at].operation, UNSURE[""])
            head = f"{label}:" if label else ""
            lines[at] = head + chance.choice(SURE).format(at) if is_sure else chance.choice(kinds).format(label)
        yield "\n".join(lines).encode("latin-1"), {at + 1 for at in spots}, is_sure


def explained(source: bytes) -> dict[str, Any]:
    """A source, with its fault and what is said of it."""
    fault = judge_source.assemble(source)[1]
    found = re.fullmatch(r"refused (A\d+(?: L\d)?) line (\d+)", fault or "")
    said = causes.causes(found[1], source, int(found[2])) if found else []
    return {"source": source.decode("latin-1"), "fault": fault, "causes": said}


def fault_of_manifest(room: pathlib.Path, text: str) -> tuple[str, str]:
    """The code of a manifest's fault, and its part."""
    tables = judge_run.tables_of(text.encode()) or {}
    found_files = {part: judge_run.read(room, table.get("file", "")) for part, table in tables.items()}
    missing = next((part for part, table in tables.items() if "file" in table and found_files[part] is None), "")
    files = {part: file for part, file in found_files.items() if file is not None}
    found = re.fullmatch(r"refused (M\d) ?(\w*)", judge_run.fault_of_set(tables or None, files, True) or "") if not missing else None
    return (found[1], found[2]) if found else ("M5", missing)


def other_files(room: pathlib.Path) -> Iterator[dict[str, Any]]:
    """Scripts and manifests that are refused, with what is said of them."""
    rows = loaded("explanations")
    for path in (ROOT / "examples").glob("*.*rom"):
        shutil.copy(path, room)
    for quarter in range(4):
        (room / f"p{quarter}.rom").write_bytes(bytes(4096))
    (room / "cell.bad").write_text("short")
    for code, text, number, _ in rows.SCRIPTS:
        known = causes_of_files.in_script(code, str(number), text.encode(), room)[0][1]
        yield {"kind": "script", "code": code, "text": text, "line": number, "causes": list(causes.sentences(code, known))}
    for text in (rows.SET + more for more in NO_TOML):
        known = causes_of_files.in_manifest("M1", "", text.encode(), room / "set.toml")[0][1]
        yield {"kind": "manifest", "code": "M1", "text": text, "line": 0, "causes": list(causes.sentences("M1", known))}
    for code, text, _, _ in rows.MANIFESTS:
        found, part = fault_of_manifest(room, text)
        known = causes_of_files.in_manifest(found, part, text.encode(), room / "set.toml")[0][1]
        yield {"kind": "manifest", "code": code, "text": text, "line": 0, "causes": list(causes.sentences(found, known))}


def lay(room: pathlib.Path) -> None:
    """Lays them in a folder, as rows.json, more.json and files.json."""
    (room / "rows.json").write_text(json.dumps([explained(source) for source in sources() if len(source) < LARGEST]))
    every = [*(text.encode("latin-1") for text, _ in loaded("explanations").MORE), *often_changed(MANY), *(source for source, _, _ in planted(MANY))]
    told = [{"source": source.decode("latin-1"), "faults": [list(one) for one in more_faults.faults(source)]} for source in every]
    (room / "more.json").write_text(json.dumps(told))
    (room / "files.json").write_text(json.dumps(list(other_files(room))))
