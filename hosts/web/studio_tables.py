"""Tables of the project that the studio's page shares, as a JavaScript file: hosts/web/studio/tables.js, which hosts/web/studio-build writes
and compares.

Where a block has what is that of hosts/pacboard.h; T-states are those of the instructions' table; words are those of the checker in Python;
what a refusal means, and its likely causes, are those of tools/lib/causes.json.
"""
import json
import pathlib
import re
import sys
from typing import Any

ROOT = pathlib.Path(__file__).resolve().parent.parent.parent
PAGES = ["Plain", "Cb", "Ed", "Dd", "Fd", "DdCb", "FdCb"]  # of the table of instructions
HEAD = "// Made by hosts/web/studio-build --tables from hosts/pacboard.h, the table of instructions, tools/lib/judge_source.py\n// and tools/lib/causes.json.\n"

sys.path.insert(0, str(ROOT / "tools/lib"))

import causes
import facts
import instructions
import judge_run
import judge_source


def places() -> dict[str, int]:
    """Where a block has what, and how many bytes that has, by the header's names without PAC_."""
    header = (ROOT / "hosts/pacboard.h").read_text()
    return {name: int(number) for name, number in re.findall(r"\bPAC_((?:AT_|IFF|HALTED|AFTER_EI|STOP_)\w*|\w+_SIZE) = (\d+),", header)}


def ticks() -> dict[str, list[str]]:
    """For each page and opcode the T-states of the instruction, two where it has two; nothing where it is undocumented."""
    codes = instructions.by_code()
    told = lambda form: "" if form is None else f"{form.ticks}" if form.ticks == form.other else f"{form.ticks}/{form.other}"
    return {page: [told(codes.get((page, opcode))) for opcode in range(256)] for page in PAGES}


def forms() -> dict[str, list[str]]:
    """The forms of each operation in short."""
    found: dict[str, list[str]] = {}
    for form in facts.FORMS:
        found.setdefault(form.split()[0], []).append(form)
    return found


def rows() -> list[list[str]]:
    """The instructions as the checker has them: a form, and its code."""
    return [[part.strip() for part in row.split("|")] for row in re.split(r"[;\n]", judge_source.ROWS.strip())]


def tables() -> dict[str, Any]:
    """Each table by its name."""
    parts = [[name, size] for name, size in judge_run.PARTS]
    return {
        "PLACES": places(),
        "TICKS": ticks(),
        "MNEMONICS": sorted(judge_source.MNEMONICS),
        "DIRECTIVES": sorted(judge_source.DIRECTIVES),
        "REGISTERS": sorted(judge_source.REGISTERS),
        "CONDITIONS": sorted(judge_source.CONDITIONS),
        "FORMS": forms(),
        "ROWS": rows(),
        "FIELDS": judge_source.FIELDS,
        "NUMBERS": {letters: list(numbers) for letters, (_, numbers) in judge_source.NUMBERS.items()},
        "CAUSES": causes.TABLE,
        "PARTS": parts,
    }


def text() -> str:
    """The file."""
    lines = [f"export const {name} = {json.dumps(table, ensure_ascii=True, separators=(',', ':'))};\n" for name, table in tables().items()]
    return HEAD + "\n" + "".join(lines)
