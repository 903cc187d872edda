"""Where a refused script, manifest or file of commands, or a listing at a stop, has the fault, and what is known of it, for bin/explain.

Each function takes a code, what the program's line says of the place, the file's bytes and its path; it gives the lines, each its number and
the facts that tools/lib/causes.json asks for.
"""
import pathlib
import re
import tomllib
import zlib
from collections.abc import Iterator
from typing import Any

import judge_run
import judge_source
import sessions
from facts import near

Places = list[tuple[int, dict[str, Any]]]
NAMED = re.compile(rb"(?<![^ \t])@\w+")  # a symbol, for which bin/symbols puts its address


def in_script(_code: str, said: str, content: bytes, _path: pathlib.Path) -> Places:
    """The line of a script's fault."""
    number, lines, names = int(said), judge_source.lines_of(content), judge_run.NAMES.split()
    if number > len(lines):
        return []
    words = [word.decode("latin-1") for word in judge_run.words_of(lines[number - 1])]
    counts = [judge_run.number_of(first, 36000) or 0 for line in lines[:number] for first in judge_run.words_of(line)[:1]]
    unknown = [name for name in words[1].split(",") if name not in names] if len(words) == 2 else []
    known = {"words": len(words), "count": words[0] if words else "", "frames": sum(counts), "inputs": names}
    return [(number, known | {"unknown inputs": [{"name": name, "near": near(name, names)} for name in unknown]})]


def misformed(document: dict[str, Any]) -> str | None:
    """The first known table of a manifest that has another form."""
    for name, value in document.items():
        if name == "program":
            is_right = isinstance(value, list) and len(value) == 4 and all(map(judge_run.is_table, value))
        else:
            is_right = name not in dict(judge_run.PARTS) or judge_run.is_table(value)
        if not is_right:
            return name
    return None


def size_of(path: pathlib.Path) -> int | None:
    """How many bytes a file has; None where it isn't there."""
    return path.stat().st_size if path.is_file() else None


def in_manifest(code: str, said: str, content: bytes, path: pathlib.Path) -> Places:
    """The line of a manifest's fault."""
    text = content.decode(errors="replace")
    lines = text.rstrip("\n").split("\n")
    part = said
    if code == "M1":
        try:
            part = misformed(tomllib.loads(text)) or ""
        except tomllib.TOMLDecodeError as error:
            found = re.search(r"at line (\d+)", str(error))
            return [(int(found[1]) if found else len(lines), {"toml": str(error)})]
    elif code == "M6":
        part = "program"
    name, nth = ("program", int(part[7:] or 1)) if part.startswith("program") else (part, 1)
    heads = [at for at, line in enumerate(lines, 1) if re.match(rf"\s*\[*\s*{name}\b", line)]
    table = heads[nth - 1] if 0 < nth <= len(heads) else 0
    key = {"M3": "file", "M4": "sha1", "M5": "file"}.get(code)
    at = next((row for row in range(table, len(lines) + 1) if re.search(rf"\b{key}\s*=", lines[row - 1])), table) if key and table else table
    named = re.search(r"""\bfile\s*=\s*["'](.+?)["']""", "\n".join(lines[table - 1 :])) if table else None
    file, size = named[1] if named else "", dict(judge_run.PARTS).get(part)
    length = size_of(path.parent / file) if file else None
    known = {"toml": "", "part": part, "table": table if table else None, "file": file, "size": size, "length": length if length != size else None}
    return [(at or len(lines), known)]


def in_commands(code: str, said: str, content: bytes, _path: pathlib.Path) -> Places:
    """The lines of commands that a session refuses with a code; of G2 those that may be meant, since it hangs on the run."""
    session: Any = judge_run.Session(judge_run.Run(bytes(0x4000), 0, 0))
    found = list[Any]()
    session.place = lambda word: word
    session.back = None
    for number, line in enumerate(judge_source.lines_of(content), 1):
        line = NAMED.sub(lambda found: b"%04X" % (zlib.crc32(found[0]) % 65536), line)
        words = judge_run.words_of(line)
        takes, _ = session.COMMANDS.get(words[0], (None, None)) if words else (None, None)
        is_back = bool(words) and words[0] == b"back" and len(words) == 2 and judge_run.number_of(words[1], 1_000_000)
        answer = "refused G2" if is_back else session.answer(line)
        if answer.startswith(f"refused {code}"):
            found.append((number, command_facts(said, words, takes)))
    return found


def refused_commands(content: bytes, session: bytes) -> Iterator[tuple[int, str]]:
    """The numbers of the commands that a session has refused, each with its answer, by the text of the session."""
    for number, _, answers in sessions.answered(content, session.decode()):
        if answers and answers[0].startswith("refused"):
            yield number, answers[0]


def command_facts(said: str, words: list[bytes], takes: Any) -> dict[str, Any]:
    """What is known of a command that is refused."""
    word, names = words[0].decode(errors="replace"), [name.decode() for name in judge_run.Session.COMMANDS]
    forms = [word, *("HHHH" if most == "a" else f"1..{most}" for most in takes or [])]
    return {"oldest": said, "word": word, "form": "" if takes is None else " ".join(forms), "near": near(word, names), "commands": names}


def in_listing(_code: str, said: str, content: bytes, _path: pathlib.Path) -> Places:
    """The row of a listing in which an address stands; 0 where none has it."""
    address = int(said, 16)
    for at, line in enumerate(content.decode("latin-1").split("\n"), 1):
        found = re.match(r"(?:\d{5}|     ) ([0-9A-F]{4}) ((?:[0-9A-F]{2}){1,4})", line)
        if found and 0 <= address - int(found[1], 16) < len(found[2]) // 2:
            return [(at, {"row": at})]
    return [(0, {"row": None, "address": address, "place": said})]


def source_line(content: bytes, row: int) -> int:
    """The number of the source's line to which a row of a listing belongs."""
    rows = content.decode("latin-1").split("\n")[:row]
    return next((int(line[:5]) for line in reversed(rows) if line[:5].isdigit()), 0)


KINDS = {"I": in_script, "M": in_manifest, "G": in_commands, "S": in_listing}
