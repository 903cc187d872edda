#!/usr/bin/env python3
"""Judges what `pacboard run` and `pacboard debug` are handed, by docs/FORMATS.md and docs/DEBUGGING.md.

`run(..)` tells what has to come of a source, a manifest, a script and commands: the exit status, the line on standard error, and the
outputs, as far as they are known without an emulator. A refused input is judged whole. A run is judged whole, but for what its pictures
show, where the processor meets nothing but NOPs before a frame is over or before bytes that are no instruction; such are all that
tools/check/hostile makes, and those of no frame, which tools/check/sets makes. This was written from these pages and from "The board on one page" of
docs/USING.md, without a look at the program.
"""
import ctypes
import hashlib
import os
import re
import struct
import tomllib
from collections.abc import Mapping
from typing import Any, BinaryIO, NamedTuple

import judge_source

FRAME = 50_688
NOPS = FRAME // 4
LARGEST = 16 << 20
OPENAT2, RESOLVE_BENEATH = 437, 8  # of linux/openat2.h
LIBC = ctypes.CDLL(None, use_errno=True)
DEEPEST = 20  # brackets, braces and dots in a line of a manifest that both readers of TOML take

# The outputs of a run: bytes, or None where they aren't known; `outputs` is None where no file is created.
class Answer(NamedTuple):
    """What a run answers."""

    status: int
    error: str
    text: bytes
    outputs: Mapping[str, bytes | None] | None


Stretch = tuple[int, list[str]]  # frames, and the names of what is held in them
Goal = tuple[int, str]  # an index, and the word by which it is told


class Unsure(Exception):
    """The checker can't tell: Python's reader of TOML and the program's might differ."""


def refused(fault: str) -> Answer:
    """The answer to an input that is refused: it leaves the outputs empty."""
    return Answer(1, fault + "\n", b"", {"frames": b"", "wave": b"", "listing": b""})


# ---- Manifests

# The parts in their order: how each is told, its table, and its size.
PARTS = [(f"program{part}", 4096) for part in range(1, 5)]
PARTS += [("tiles", 4096), ("sprites", 4096), ("colours", 32), ("lookup", 256), ("wave", 256), ("timing", 256)]


def document_of(manifest: bytes) -> dict[str, Any] | None:
    """The document, or None where it is no TOML. tomllib reads TOML 1.0 and the program 1.1, in which a text may be right that wasn't:
    with a line feed or a last comma in braces, with new escapes, or with a time without seconds."""
    try:
        document = tomllib.loads(manifest.decode())
    except UnicodeDecodeError:
        return None
    except tomllib.TOMLDecodeError:
        if re.search(rb"[{\\]|[0-9]:[0-9]", manifest):
            raise Unsure from None
        return None
    # numbers past 64 bits and very deep values are for either reader to refuse
    outside = re.sub(rb'"[^"\n]*"', b'""', manifest)
    if re.search(rb"[0-9a-fA-F_]{15}", outside) or any(len(re.findall(rb"[\[{.]", line)) > DEEPEST for line in outside.split(b"\n")):
        raise Unsure
    return document


def is_table(table: object) -> bool:
    """Whether a table has the form of a part's."""
    if not isinstance(table, dict) or not isinstance(table.get("file", ""), str):
        return False
    digest = table.get("sha1", "0" * 40)
    return isinstance(digest, str) and re.fullmatch("[0-9a-fA-F]{40}", digest) is not None


def tables_of(manifest: bytes) -> dict[str, Any] | None:
    """The tables of a manifest by their parts, or None where it is M1."""
    document = document_of(manifest)
    if document is None:
        return None
    tables = {part: document[part] for part, _ in PARTS[4:] if part in document}
    if "program" in document:
        program = document["program"]
        if not isinstance(program, list) or len(program) != 4:
            return None
        tables |= {f"program{at}": table for at, table in enumerate(program, 1)}
    return tables if all(is_table(table) for table in tables.values()) else None


def open_beneath(folder: str | os.PathLike[str], name: str) -> BinaryIO:
    """Opens a file of a folder for reading, where no link leads out of it: here the kernel judges, by RESOLVE_BENEATH of its openat2."""
    at = os.open(folder, os.O_PATH | os.O_CLOEXEC)
    try:
        how = struct.pack("<QQQ", os.O_RDONLY | os.O_CLOEXEC | os.O_NONBLOCK, 0, RESOLVE_BENEATH)
        opened = LIBC.syscall(ctypes.c_long(OPENAT2), ctypes.c_int(at), os.fsencode(name), how, ctypes.c_size_t(len(how)))
        if opened < 0:
            raise OSError(ctypes.get_errno(), name)
        return os.fdopen(opened, "rb")
    finally:
        os.close(at)


def read(folder: str | os.PathLike[str], name: str) -> bytes | None:
    """The bytes of a file of the manifest's folder, or None where it can't be read."""
    if not name or name.startswith("/") or ".." in name.split("/") or "\0" in name:
        return None
    try:
        with open_beneath(folder, name) as file:
            found = file.read(LARGEST + 1) if os.path.isfile(file.fileno()) else None
    except (OSError, ValueError):
        return None
    return found if found is not None and len(found) <= LARGEST else None


def told(name: str) -> str:
    """A file's name as a message tells it."""
    return re.sub("[\x00-\x1f\x7f]", lambda sign: f"\\x{ord(sign[0]):02X}", name)


def fault_of_set(tables: dict[str, Any] | None, files: Mapping[str, bytes], has_source: bool) -> str | None:
    """The fault of a set whose files were read; None where it is whole."""
    if tables is None:
        return "refused M1"
    for part, _ in PARTS:
        is_needed = not part.startswith("program") and part != "timing"
        if not has_source and part == "program1":
            is_needed = True
        if part in tables and "file" not in tables[part] or is_needed and part not in tables:
            return f"refused M2 {part}"
    if has_source and "program1" in tables:
        return "refused M6"
    for part, size in PARTS:
        if part in tables:
            if len(files[part]) != size:
                return f"refused M3 {part}"
            digest = tables[part].get("sha1")
            if digest and digest.lower() != hashlib.sha1(files[part]).hexdigest():
                return f"refused M4 {part}"
    return None


# ---- Scripts

# The names of inputs by their bits, those of 5000H and then those of 5040H.
NAMES = "P1_UP P1_LEFT P1_RIGHT P1_DOWN RACK_TEST COIN1 COIN2 CREDIT P2_UP P2_LEFT P2_RIGHT P2_DOWN BOARD_TEST START1 START2 COCKTAIL"


def words_of(line: bytes) -> list[bytes]:
    """A line's words: what blanks and tabs part."""
    return [word for word in re.split(rb"[ \t]+", line) if word]


def number_of(word: bytes, most: int) -> int | None:
    """The decimal number of a word, from 1 to `most`; None where it is none."""
    if re.fullmatch(rb"[0-9]+", word):
        digits = word.lstrip(b"0")
        if 0 < len(digits) <= 8 and int(digits) <= most:
            return int(digits)
    return None


def stretches_of(script: bytes) -> tuple[list[Stretch], str | None]:
    """What a script's lines say, each a number of frames and the names of what is held in them, and None; or nothing and its fault."""
    stretches, total = list[Stretch](), 0
    for number, line in enumerate(judge_source.lines_of(script), 1):
        words = words_of(line)
        if not words or words[0].startswith(b"#"):
            continue
        count = number_of(words[0], 36_000)
        if count is None:
            return [], f"refused I2 line {number}"
        names = words[1].decode("latin-1").split(",") if len(words) == 2 else [""]
        names = [] if words[1:] == [b"-"] else names
        if not all(name in NAMES.split() for name in names):
            return [], f"refused I1 line {number}"
        total += count
        if total > 36_000:
            return [], f"refused I3 line {number}"
        stretches.append((count, names))
    return stretches, None


def frames_of(stretches: list[Stretch]) -> int:
    """How many frames the lines of a script have together."""
    return sum(count for count, _ in stretches)


def ports_of(stretches: list[Stretch], frame: int) -> tuple[int, int]:
    """What is read at 5000H and at 5040H in a frame, the first of which is 1: a bit is 0 while its input is held. After the last frame
    nothing is held."""
    held = list[str]()
    for count, names in stretches:
        if 0 < frame <= count:
            held = names
        frame -= count
    bits = sum(1 << bit for bit, name in enumerate(NAMES.split()) if name in held)
    return 255 - bits % 256, 255 - bits // 256


# ---- Sessions, over a run that is nothing but NOPs

class Run:
    """A run of so many frames of a ROM of NOPs, whose first other byte begins no instruction. A step is an index, and PC is the same."""

    def __init__(self, rom: bytes, frames: int, switches: int) -> None:
        self.rom, self.frames, self.switches = rom, frames, switches
        nops = len(rom) - len(rom.lstrip(b"\0"))
        self.stop = nops if nops < len(rom) else 0x4000
        self.end = min(frames, 2) * NOPS
        known = self.stop < NOPS or frames <= 1 and self.end <= self.stop or self.stop == NOPS
        if not known or self.stop < self.end and not judge_source.disassembled(self.four(self.stop), 0)[0].startswith("DEFB"):
            raise Unsure
        self.last = min(self.end, self.stop)

    def byte(self, at: int) -> int:
        """The byte that the processor would read."""
        at %= 0x8000
        if at < 0x4000:
            return self.rom[at]
        at = at & 0x1FFF | 0x4000
        if at >= 0x5000:
            return {0: 0xFF, 1: 0xFF, 2: self.switches, 3: 0xFF}[at // 64 % 4]
        return 0xBF if 0x4800 <= at < 0x4C00 else 0

    def four(self, at: int) -> bytes:
        """The four bytes from an address on."""
        return bytes(self.byte(at + place) for place in range(4))

    def report(self) -> str:
        """The report of the whole run."""
        text = f"frames {self.last // NOPS} of {self.frames}\nsteps {self.last} ticks {4 * self.last}\n"
        if self.last == self.end:
            return text + "end done\n"
        return text + f"stop S1 at {self.last:04X} bytes {self.four(self.last).hex(' ').upper()}\n"

    def wave(self) -> bytes:
        """The sound: nothing but silence."""
        size = 3168 * self.frames
        head = b"RIFF" + (36 + size).to_bytes(4, "little") + b"WAVEfmt " + (16).to_bytes(4, "little") + b"\1\0\1\0"
        head += (96_000).to_bytes(4, "little") + (192_000).to_bytes(4, "little") + b"\2\0\x10\0data" + size.to_bytes(4, "little")
        return head + bytes(size)


class Session:
    """The debugger's session over such a run."""

    def __init__(self, run: Run) -> None:
        self.run, self.index, self.furthest, self.breaks, self.slots = run, 0, 0, set[int](), dict[int, int]()

    def place(self, word: str) -> str:
        """The line of a place."""
        text = judge_source.disassembled(self.run.four(self.index), self.index)[0]
        return f"{word} {self.index} {4 * self.index} {self.index:04X} {text}"

    def go(self, goals: list[Goal]) -> str:
        """Goes on to the first of some goals, each an index and its word, or as far as the run goes."""
        run = self.run
        goals = [goal for goal in goals if self.index < goal[0] <= run.last]
        if run.end == run.last and (self.index == run.end or not goals or goals[0][0] == run.end):
            self.index, word = run.end, "end"
        elif goals:
            self.index, word = goals[0]
        else:
            self.index, word = run.last, "stop"
        self.furthest = max(self.furthest, self.index)
        return self.place(word)

    def next_break(self) -> list[Goal]:
        """The next index at which PC is a breakpoint."""
        return [(at, "break") for at in sorted(self.breaks) if at > self.index][:1]

    def step(self, count: int) -> str:
        """`step n`."""
        return self.go([(self.index + count, "step")])

    def proceed(self) -> str:
        """`continue`."""
        return self.go(self.next_break())

    def frame(self, count: int) -> str:
        """`frames n`: there is one vertical blank at most that isn't the end."""
        blank = [(NOPS, "frame")] if count == 1 and self.index < NOPS else []
        return self.go(sorted(self.next_break() + blank))

    def back(self, count: int) -> str:
        """`back n`."""
        oldest = 4096 * max(0, self.furthest // 4096 - 15)
        if self.index - count < oldest:
            return f"refused G2 oldest {oldest}"
        self.index -= count
        return self.place("back")

    def keep(self, slot: int) -> str:
        """`keep k`."""
        self.slots[slot] = self.index
        return "ok"

    def restore(self, slot: int) -> str:
        """`return k`."""
        if slot not in self.slots:
            return "refused G3"
        self.index = self.slots[slot]
        return self.place("return")

    def set_break(self, at: int) -> str:
        """`break a`."""
        if at not in self.breaks and len(self.breaks) == 64:
            return "refused G4"
        self.breaks.add(at)
        return "ok"

    def unset_break(self, at: int) -> str:
        """`unbreak a`."""
        self.breaks.discard(at)
        return "ok"

    def registers(self) -> str:
        """`regs`: NOPs change PC and R's low seven bits alone."""
        pairs = " ".join(f"{name}=0000" for name in "AF BC DE HL IX IY SP".split())
        others = " ".join(f"{name}'=0000" for name in "AF BC DE HL".split())
        blanks = self.index // NOPS
        return f"{pairs} PC={self.index:04X}\n{others} I=00 R={self.index % 128:02X} IM=0 IFF=00 LATCH=00 VEC=00 WD={blanks}"

    def memory(self, at: int, count: int) -> str:
        """`mem a n`."""
        rows = []
        for row in range(0, count, 16):
            read_bytes = bytes(self.run.byte(at + place) for place in range(row, min(row + 16, count)))
            rows.append(f"{(at + row) % 65536:04X}: {read_bytes.hex(' ').upper()}")
        return "\n".join(rows)

    def instructions(self, at: int, count: int) -> str:
        """`dis a n`."""
        rows = []
        for _ in range(count):
            code = self.run.four(at)
            text, size = judge_source.disassembled(code, at)
            rows.append(f"{at:04X} {code[:size].hex().upper():8} {text}")
            at = (at + size) % 65536
        return "\n".join(rows)

    def history(self, count: int) -> str:
        """`history n`."""
        return "\n".join(f"{at} {at:04X} NOP" for at in range(max(0, self.index - count), self.index))

    # Each command: what it takes, and what does it. `a` is an address, a number the most that it may be.
    COMMANDS: dict[bytes, tuple[tuple[Any, ...], Any]] = {
        b"step": ((1_000_000,), step),
        b"continue": ((), proceed),
        b"frames": ((36_000,), frame),
        b"back": ((1_000_000,), back),
        b"keep": ((4,), keep),
        b"return": ((4,), restore),
        b"break": (("a",), set_break),
        b"unbreak": (("a",), unset_break),
        b"regs": ((), registers),
        b"mem": (("a", 256), memory),
        b"dis": (("a", 256), instructions),
        b"history": ((256,), history),
    }

    def answer(self, line: bytes) -> str:
        """What a line is answered."""
        words = words_of(line)
        if not words:
            return ""
        takes, does = self.COMMANDS.get(words[0], (None, None))
        if takes is None or does is None or len(takes) != len(words) - 1:
            return "refused G1"
        given = []
        for most, word in zip(takes, words[1:]):
            if most == "a":
                given.append(int(word, 16) if re.fullmatch(rb"[0-9a-fA-F]{4}", word) else None)
            else:
                given.append(number_of(word, most))
        return "refused G1" if None in given else does(self, *given)

    def text(self, commands: bytes) -> str:
        """What the lines of a file are answered."""
        answers = (self.answer(line) for line in judge_source.lines_of(commands))
        return "".join(answer + "\n" for answer in answers if answer)


# ---- A whole run

def run(
    source: bytes | None, manifest: bytes, folder: str | os.PathLike[str], script: bytes, commands: bytes | None = None, switches: int = 201
) -> Answer:
    """What `run` answers, or `debug` where there are commands; no source is None."""
    tables = tables_of(manifest)
    files = dict[str, bytes]()
    for part, _ in PARTS:
        if tables and "file" in tables.get(part, {}):
            name = tables[part]["file"]
            found = read(folder, name)
            if found is None:
                return Answer(3, f"read fault {told(name)}\n", b"", None)
            files[part] = found
    listing, rom = b"SYMBOLS\n", None
    if source is not None:
        assembly, fault = judge_source.assemble(source)
        if fault:
            return refused(fault)
        listing, rom = judge_source.listing(source, assembly), assembly.rom
    fault = fault_of_set(tables, files, source is not None)
    stretches, fault_of_script = stretches_of(script)
    if fault or fault_of_script:
        return refused(fault or fault_of_script or "")
    whole = Run(rom or b"".join(files[f"program{part}"] for part in range(1, 5)), frames_of(stretches), switches)
    text = Session(whole).text(commands) if commands is not None else ""
    pictures = b"" if whole.last < NOPS else None
    outputs = {"frames": pictures, "wave": whole.wave(), "listing": listing}
    return Answer(0 if whole.last == whole.end else 5, "", (text + whole.report()).encode(), outputs)
