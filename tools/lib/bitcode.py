#!/usr/bin/env python3
"""The code of a proved program or library as LLVM's text: its functions and their blocks, with counters or checks put in, and compiled.

hosts/out has the bitcode that the kit's compiler was handed, one module for all that the program or the library reaches: each function once,
by the name of its crate, and of a generic one each instance. The kit's own `clang` writes it as text, and compiles a text. In it a block is an
arm of a `match`, a side of an `if`, a way round a loop, as the source has them: nothing is inlined yet, merged or left out.

    tools/lib/bitcode.py library | program

puts checks into the text, and optimises it as far as where the compiler would have a sanitizer put its own in: hosts/out keeps that, and
tools/check/sanitizers and tools/check/fuzz compile it.
"""
import hashlib
import os
import pathlib
import re
import shutil
import subprocess
import sys
import tempfile
import time
from collections.abc import Iterable, Iterator
from dataclasses import dataclass, field

OUT = pathlib.Path(__file__).resolve().parents[2] / "hosts/out"
MODULES = {"library": OUT / "libpac_host.bc", "program": OUT / "pacboard.bc"}
LEVELS = {"library": "-O2", "program": "-O1"}  # of the compiler: the program takes longest to compile, the library to run
KINDS = ("address", "memory")  # of sanitizers
TELLING = 2  # seconds from one line about a command to the next
FLAGS = "--target=x86_64-unknown-linux-gnu -march=x86-64 -mllvm -trap-unreachable -Wno-override-module -fPIC -x ir".split()
NAME = r'@("[^"]*"|[\w.$-]+)'
DEFINED = re.compile(rf"define .*?{NAME}\(")
LABEL = re.compile(r'("[^"]*"|[\w.$-]+):')
CALLED = re.compile(rf"\bcall\b[^@]*{NAME}\(")
WAY = re.compile(r'label %("[^"]*"|[\w.$-]+)')
GROUP = re.compile(r"(attributes (#\d+) = \{ )")
RANGE = re.compile(r"^(!\d+) = !\{i(\d+) (-?\d+), i\d+ (-?\d+)\}$")
LOADED = re.compile(r"^  (%\S+) = load i(\d+), .*?, !range (!\d+)")
HOLDS = """
define internal void @"holds.i{bits}"(i{bits} %value, i{bits} %low, i{bits} %count) alwaysinline {{
  %offset = sub i{bits} %value, %low
  %is_so = icmp ult i{bits} %offset, %count
  br i1 %is_so, label %yes, label %no
yes:
  ret void
no:
  call void @llvm.trap()
  unreachable
}}
"""
ENDS = ("ret", "br", "switch", "unreachable")
Word = str | pathlib.Path  # of a command


@dataclass
class Block:
    """A block: the line before which more can be put, what it calls, how it ends, and the blocks to which it may go on."""

    name: str
    at: int
    calls: list[str] = field(default_factory=list)
    end: str = ""
    ways: list[str] = field(default_factory=list)


@dataclass
class Function:
    """A function: its name, and its blocks by theirs; the first is where it begins."""

    name: str
    blocks: dict[str, Block] = field(default_factory=dict)

    @property
    def crate(self) -> str:
        """The name of its crate."""
        return self.name.partition("::")[0]

    @property
    def generic(self) -> str:
        """The function of which it is an instance: its name without what its parameters are."""
        return self.name.partition("::<")[0]


def compiler() -> pathlib.Path:
    """The kit's C compiler, which reads its own bitcode; that of the system may be older."""
    return pathlib.Path(shutil.which("rt") or "/").resolve().parent.parent / "toolchain/bin/clang"


def run(*words: Word) -> None:
    """Runs a command, and tells every two seconds how long; one that fails ends the tool, with what it said."""
    begun = time.monotonic()
    with tempfile.TemporaryFile("w+") as said, subprocess.Popen(words, stdout=said, stderr=subprocess.STDOUT) as process:
        while process.poll() is None:
            try:
                process.wait(TELLING)
            except subprocess.TimeoutExpired:
                print(f"{pathlib.Path(words[0]).name}, {time.monotonic() - begun:.0f} s", file=sys.stderr, flush=True)
        if process.returncode:
            said.seek(0)
            raise RuntimeError(f"{' '.join(map(str, words))}: status {process.returncode}: {said.read()[-2000:]}")


def text_of(bitcode: pathlib.Path) -> list[str]:
    """The lines of a module, as it was proved."""
    words: list[Word] = [compiler(), *FLAGS, "-S", "-emit-llvm", "-O0", "-Xclang", "-disable-llvm-passes", bitcode, "-o", "-"]
    return subprocess.run(words, stdout=subprocess.PIPE, text=True, check=True).stdout.splitlines()


def compile_text(lines: Iterable[str], to: pathlib.Path, *flags: str) -> None:
    """Compiles a text to an object file beside which it is left."""
    source = to.with_suffix(".ll")
    source.write_text("\n".join(lines) + "\n")
    run(compiler(), *FLAGS, "-c", "-O2", *flags, source, "-o", to)


def compile_optimised(lines: Iterable[str], to: pathlib.Path, flag: str, level: str) -> None:
    """Compiles what is optimised to an object file: what a flag of the compiler asks for is put in, and nothing is optimised once more."""
    source, marked = to.with_suffix(".ll"), to.with_suffix(".bc")
    source.write_text("\n".join(lines) + "\n")
    run(compiler(), *FLAGS, "-c", "-emit-llvm", "-O0", flag, source, "-o", marked)
    run(compiler(), *FLAGS, "-c", level, "-Xclang", "-disable-llvm-passes", marked, "-o", to)


def optimised(name: str) -> tuple[list[str], int]:
    """The text of the library or the program with checks put in, and optimised for sanitizers; and how many checks there are.

    What the optimiser mustn't do before a sanitizer comes it leaves undone in a function with its attribute; here each has both.
    """
    kept = OUT / f"{name}.optimised.ll"
    of = hashlib.sha1(MODULES[name].read_bytes() + pathlib.Path(__file__).read_bytes()).hexdigest()
    head = f"; {of}, with so many checks: "
    if not kept.is_file() or not kept.read_text().startswith(head):
        lines, count = with_checks(text_of(MODULES[name]))
        for kind in KINDS:
            lines = with_attribute(lines, f"sanitize_{kind}")
        with tempfile.TemporaryDirectory(prefix=".optimised-", dir=OUT) as place:
            room = pathlib.Path(place)
            (room / "module.ll").write_text("\n".join(lines) + "\n")
            # (what is to be linked as bitcode is optimised as far as that; its summary, lines with a ^, names what fuzz renames)
            run(compiler(), *FLAGS, "-S", "-emit-llvm", "-flto", LEVELS[name], room / "module.ll", "-o", room / "optimised.ll")
            lines = [line for line in (room / "optimised.ll").read_text().splitlines() if not line.startswith("^")]
            (room / "kept.ll").write_text("\n".join([f"{head}{count}", *lines, ""]))
            os.replace(room / "kept.ll", kept)
    first, *lines = kept.read_text().splitlines()
    return lines, int(first.rpartition(" ")[2])


def link(objects: list[Word], to: pathlib.Path, *linker: Word) -> None:
    """Links a program's object files and the C code of the kit by a C compiler of the system."""
    kit = compiler().parent.parent.parent
    run(*linker, "-pie", *objects, kit / "c/libos_c.a", kit / "c/liblibc_c.a", "-o", to)


def functions_of(lines: list[str]) -> Iterator[Function]:
    """The functions that a module defines, in its order."""
    function: Function | None = None
    block = Block("", 0)
    for at, line in enumerate(lines):
        if function is None:
            if found := DEFINED.match(line):
                function, block = Function(found[1].strip('"')), Block("", 0)
        elif line == "}":
            yield function
            function = None
        elif found := LABEL.match(line):
            block = function.blocks[found[1]] = Block(found[1], at + 1)
        else:
            read_line(block, line.strip(), at)


def read_line(block: Block, line: str, at: int) -> None:
    """Takes what a line of a block says."""
    word = line.partition(" ")[0]
    if " = phi " in line:
        block.at = at + 1
    if found := CALLED.search(line):
        block.calls.append(found[1].strip('"'))
    if word in ENDS:
        block.end = word
    if word in ENDS or block.end == "switch":
        block.ways += WAY.findall(line)


def dead_ends(functions: list[Function]) -> set[tuple[str, str]]:
    """The blocks from which no way leads out of their function but into a trap: each by its function's name and its own."""
    dead: set[tuple[str, str]] = set()
    endless: set[str] = set()  # functions that don't return
    while True:
        before = len(dead)
        for function in functions:
            dead |= {(function.name, name) for name in dead_blocks(function, endless)}
            if (function.name, next(iter(function.blocks))) in dead:
                endless.add(function.name)
        if len(dead) == before:
            return dead


def dead_blocks(function: Function, endless: set[str]) -> set[str]:
    """Those of a function, where these functions don't return."""
    ends = {name for name, block in function.blocks.items() if block.end != "unreachable" and not endless.intersection(block.calls)}
    live = {name for name in ends if function.blocks[name].end == "ret"}
    while more := {name for name in ends - live if live.intersection(function.blocks[name].ways)}:
        live |= more
    return function.blocks.keys() - live


def blocks_that_tell(function: Function, dead: set[str]) -> list[str]:
    """The blocks of a function that tell something by being run: those to which a live way leads, but where it's the only one on from the
    only block before, since that one tells it."""
    before: dict[str, set[str]] = {}
    waiting, known = [next(iter(function.blocks))], set[str]()
    while waiting:
        name = waiting.pop()
        if name in known or name in dead:
            continue
        known.add(name)
        waiting += function.blocks[name].ways
        for way in function.blocks[name].ways:
            before.setdefault(way, set()).add(name)
    on = {name: set(function.blocks[name].ways) - dead for name in known}
    is_told = lambda name: len(before.get(name, ())) == 1 and on[next(iter(before[name]))] == {name}
    return [name for name in function.blocks if name in known and not is_told(name)]


def with_counters(lines: list[str], blocks: list[Block], array: str) -> list[str]:
    """The text with a byte of an array, which stands elsewhere, for each of these blocks: it is 1 once the block was run."""
    puts = {block.at: f"  store i8 1, ptr getelementptr (i8, ptr @{array}, i64 {number}), align 1" for number, block in enumerate(blocks)}
    out: list[str] = []
    for at, line in enumerate(lines):
        out += [puts[at], line] if at in puts else [line]
    return [*out, f"@{array} = external global [{len(blocks)} x i8]"]


def is_drop(function: Function) -> bool:
    """Whether the kit has written a function to drop a value."""
    return "Destruct" in function.generic or function.generic.rpartition("::")[2] in ("drop", "drop_run")


def with_attribute(lines: list[str], attribute: str) -> list[str]:
    """The text with an attribute at each function that it defines, as `sanitize_address`."""
    groups = {found[1] for line in lines if line.startswith("define ") and (found := re.search(r"(#\d+) \{$", line))}
    return [GROUP.sub(rf"\1{attribute} ", line) if (found := GROUP.match(line)) and found[2] in groups else line for line in lines]


def with_checks(lines: list[str]) -> tuple[list[str], int]:
    """The text with a trap wherever the compiler may take for granted what would be undefined: that a value which is read is one of its
    type, as 0 or 1 of a `bool`, and that a place isn't reached. And how many of these there are. A check is inlined, since some
    stand in loops over each pixel."""
    ranges = {found[1]: (int(found[3]), int(found[4])) for line in lines if (found := RANGE.match(line))}
    out: list[str] = []
    widths, count = set[str](), 0
    for line in lines:
        if line == "  unreachable" and "@llvm.trap(" not in out[-1]:
            out.append("  call void @llvm.trap()")
            count += 1
        if (found := LOADED.match(line)) and found[3] in ranges:
            low, high = ranges[found[3]]
            line = line.partition(", !range")[0]
            bits = f"i{found[2]}"
            out += [line, f'  call void @"holds.{bits}"({bits} {found[1]}, {bits} {low}, {bits} {high - low})']
            widths.add(found[2])
            count += 1
        else:
            out.append(line)
    out += [part for bits in sorted(widths) for part in HOLDS.format(bits=bits).splitlines()]
    return out + ["declare void @llvm.trap()"] * (not any(line.startswith("declare void @llvm.trap()") for line in lines)), count


if __name__ == "__main__":
    if sys.argv[1:] not in [[name] for name in MODULES]:
        print((__doc__ or "").strip())
        sys.exit(0 if sys.argv[1:] == ["--help"] else 2)
    print(f"{optimised(sys.argv[1])[1]:,} checks put into the {sys.argv[1]}")
