#!/usr/bin/env python3
"""Holds an event-driven board in C against the library, and times both, and plain Rust, in one run.

    bench/peer.py [--rounds N] [--count] [--only NAME,..] [--library FILE]

bench/events.c and bench/z80.c are the board; it makes samples and lines only when something that they depend on is written. bench/peer.c plays it
beside hosts/out/libpac_host.a, which hosts/build leaves, by pac_exec and by a live board, and first compares, after each frame, every sample, every
pixel and all of the block, in which are RAM, registers and counts: over the examples, the programs of bench/, the programs and states of
conformance/, more random programs made as those are, and the programs of boards.toml in tools. Where anything differs the script ends with status
1, and nothing is timed.

Then, in each of N rounds (9), pac_exec, pac_live_exec, the board in C and plain Rust (bench/bench.rs, where rustc is there) take turns at 600
frames of each program, with nothing held that its script doesn't hold. Of each twenty frames the least time in all rounds counts, since a machine
that others share is seldom left alone for all 600: printed are the sums of these, in microseconds a frame, and ratios. --count has
valgrind's callgrind count the instructions of the same frames instead, which don't depend on what else the machine does.
"""
import argparse
import os
import pathlib
import re
import runpy
import shutil
import subprocess
import sys
import tempfile

sys.dont_write_bytecode = True
ROOT = pathlib.Path(__file__).resolve().parent.parent
sys.path[:0] = [str(ROOT / folder) for folder in ("bench", "conformance", "hosts", "hosts/python", "tools", "tools/lib")]
import blocks
import judge_source
import make
import mixed
import roms
import script

ALIGNED = ("-falign-functions=64", "-falign-jumps=32", "-falign-loops=32")  # the board in C lies as hosts/library.py has the library's code lie
FRAMES = 600  # that are timed
SHORT = 60  # frames of a program of a few bytes
SEEDS = 6  # more random programs of each kind
FLOOR = 60  # programs that are compared at least
TIMED = ["starfall", "sunset", "welcome", "mixed", "everything", "raster"]
# Large copies go by vectors, and not by one instruction, of which callgrind counts each byte.
BY_VECTORS = {"GLIBC_TUNABLES": "glibc.cpu.x86_rep_movsb_threshold=1000000000:glibc.cpu.x86_rep_stosb_threshold=1000000000"}
# A request that comes while interrupts are disabled waits until the instruction after EI is done.
LATE = b"""
        JP START
        ORG 38H
        LD (4C00H),HL
        LD (50C0H),A
        XOR A
        LD (5000H),A
        INC A
        LD (5000H),A
        EI
        RET
START:  LD SP,4FF0H
        LD A,1
        LD (5000H),A
        IM 1
AGAIN:  DI
        LD B,0
WAIT:   DJNZ WAIT
        EI
        INC HL
        INC HL
        LD (4040H),HL
        JR AGAIN
"""
PARTS = ("program", "tiles", "sprites", "colours", "lookup", "wave")


class Program:
    """A program as it is played: its ROM block, what is held, how many frames are compared, the DIP switches, and the state that it begins with."""

    def __init__(self, name: str, block: bytes, held: bytes = b"", frames: int = SHORT, switches: int = 0xC9, state: bytes = b"") -> None:
        self.name, self.block, self.held, self.frames, self.switches, self.state = name, block, held, frames, switches, state

    def lay(self, room: pathlib.Path) -> list[str]:
        """Writes its files into a folder, and gives their names."""
        files = {"roms": self.block, "held": self.held} | ({"state": self.state} if self.state else {})
        for kind, content in files.items():
            (room / f"{self.name}.{kind}").write_bytes(content)
        return [str(room / f"{self.name}.{kind}") for kind in files]


def assembled(source: bytes) -> bytes:
    """The ROM of a source."""
    assembly, fault = judge_source.assemble(source)
    if fault:
        sys.exit(f"peer.py: {fault}")
    return bytes(assembly.rom)


def ours() -> list[Program]:
    """The examples and the programs of this folder."""
    found = []
    for source in sorted([*(ROOT / "examples").glob("*.asm"), *(ROOT / "bench/loads").glob("*.asm"), ROOT / "bench/edges.asm"]):
        held = script.held_in(source.with_suffix(".script").read_bytes())
        block = roms.block_of(ROOT / "examples/set.toml", assembled(source.read_bytes()))
        found.append(Program(source.stem, block, held, max(FRAMES, len(held) // 2)))
    block = assembled((ROOT / "bench/mixed.asm").read_bytes()) + b"".join(mixed.rom(*size) for size in mixed.SIZES.values())
    late = roms.block_of(ROOT / "examples/set.toml", assembled(LATE))
    return [*found, Program("mixed", block, b"", FRAMES), Program("late", late)]


def of_suite() -> list[Program]:
    """The programs of conformance/ and their states, and more random programs."""
    found = []
    for program in make.programs():
        found.append(Program("suite-" + program.name, program.block, program.held, FRAMES))
        found += [Program(f"suite-{program.name}-{n}", program.block, program.held, SHORT, 0xC9, state) for n, state in enumerate(program.states, 1)]
    for seed in range(100, 100 + SEEDS * len(make.PROGRAMS)):
        name = list(make.PROGRAMS)[seed % len(make.PROGRAMS)]
        more = make.Program(name, make.Writer(seed).source(name), seed)
        found.append(Program(f"random-{seed}-{name}", more.block, more.held))
        found += [Program(f"random-{seed}-{name}-{n}", more.block, more.held, 4, seed % 256, state) for n, state in enumerate(more.states, 1)]
    return found


def of_boards() -> list[Program]:
    """The programs of a few bytes."""
    boards = runpy.run_path(str(next((ROOT / "tools").rglob("boards"))))
    found = []
    for number, case in enumerate(boards["TABLE"]["case"]):
        block = blocks.rom_block(program=boards["rom_of"](boards["program_of"](case)), **boards["parts_of_set"]())
        held = bytes(7 * number + at * at >> 3 & 255 for at in range(SHORT))
        found.append(Program(f"board-{number}", block, held, SHORT, case.get("switches", 0xC9)))
    return found


def run(*words: str | pathlib.Path, environment: dict[str, str] | None = None) -> str:
    """Runs a command, and gives what it says; ends where it fails."""
    how = os.environ | (environment or {})
    done = subprocess.run([str(word) for word in words], env=how, stdout=subprocess.PIPE, stderr=subprocess.STDOUT, text=True, check=False)
    if done.returncode:
        sys.exit(f"peer.py: {words[0]}: status {done.returncode}\n{done.stdout}")
    return done.stdout


def build(room: pathlib.Path, library: pathlib.Path) -> tuple[pathlib.Path, pathlib.Path | None]:
    """Builds the boards in C and, where it can be, plain Rust."""
    peer, plain = room / "peer", room / "plain"
    run("cc", "-O2", *ALIGNED, *(ROOT / "bench" / name for name in ("peer.c", "events.c", "z80.c")), library, "-o", peer)
    if shutil.which("rustc") is None:
        return peer, None
    run("rustc", "--edition", "2024", "-O", "-o", plain, ROOT / "bench/bench.rs")
    return peer, plain


def check(peer: pathlib.Path, room: pathlib.Path, programs: list[Program]) -> bool:
    """Compares both boards over all programs: whether nothing differs."""
    totals, failed = [0, 0, 0], 0
    for program in programs:
        words = [str(peer), "check", str(program.switches), str(program.frames), *program.lay(room)]
        done = subprocess.run(words, stdout=subprocess.PIPE, text=True, check=False)
        if done.returncode:
            failed += 1
            print(f"{program.name}: {done.stdout.strip()}", flush=True)
        else:
            totals = [sum(pair) for pair in zip(totals, map(int, re.findall(r"\d+", done.stdout)))]
    print("compared: {:,} frames, {:,} samples and {:,} pixels of {} programs and states".format(*totals, len(programs)))
    print(f"{len(programs) - failed} passed, {failed} failed", flush=True)
    return not failed


def lay_plain(room: pathlib.Path, program: Program) -> str:
    """Lays what plain Rust reads of a program into a folder."""
    folder = room / program.name
    folder.mkdir()
    for part in PARTS:
        size = blocks.ROMS[part]
        at = sum(blocks.ROMS[name] for name in PARTS[: PARTS.index(part)])
        (folder / part).write_bytes(program.block[at : at + size])
    masks = [program.held[at] | program.held[at + 1] << 8 for at in range(0, len(program.held), 2)] + [0] * FRAMES
    (folder / "inputs").write_text("".join(f"1 {~mask & 255} {~mask >> 8 & 255}\n" for mask in masks[:FRAMES]))
    return str(folder)


def counted(words: list[str], function: str) -> float:
    """The instructions a frame that a function and all that it calls take."""
    command = ["valgrind", "--tool=callgrind", f"--toggle-collect={function}", "--callgrind-out-file=/dev/null", *words]
    return int(re.findall(r"Collected : (\d+)", run(*command, environment=BY_VECTORS))[0]) / FRAMES


def measure(room: pathlib.Path, peer: pathlib.Path, plain: pathlib.Path | None, programs: list[Program], rounds: int) -> dict[str, list[float]]:
    """The microseconds a frame of both calls, the board in C and plain Rust, of each program: of each twenty frames by the least of all rounds."""
    least: dict[str, list[list[float]]] = {}
    files = {program.name: program.lay(room) for program in programs}
    folders = {program.name: lay_plain(room, program) for program in programs} if plain else {}
    for _ in range(rounds):
        for name, laid in files.items():
            told = [line.split() for line in run(peer, "time", str(FRAMES), *laid).splitlines()]
            if plain:
                told = [[*line, more] for line, more in zip(told, run(plain, "frames", folders[name]).split(), strict=True)]
            times = [[float(word) for word in line] for line in told]
            before = least.get(name, times)
            least[name] = [[min(pair) for pair in zip(*lines, strict=True)] for lines in zip(times, before, strict=True)]
    return {name: [sum(column) / FRAMES for column in zip(*rows)] for name, rows in least.items()}


def count(room: pathlib.Path, peer: pathlib.Path, plain: pathlib.Path | None, programs: list[Program]) -> dict[str, list[float]]:
    """The thousands of instructions a frame of each."""
    found = {}
    for program in programs:
        laid = program.lay(room)
        found[program.name] = [counted([str(peer), which, str(FRAMES), *laid], f"play_{which}") / 1000 for which in ("library", "live", "events")]
        if plain:
            found[program.name].append(counted([str(plain), "frames", lay_plain(room, program)], "*play_frames*") / 1000)
    return found


def main() -> int:
    """Builds, compares, and measures."""
    parser = argparse.ArgumentParser(prog="peer.py", description=__doc__, formatter_class=argparse.RawDescriptionHelpFormatter)
    parser.add_argument("--rounds", metavar="N", type=int, default=9)
    parser.add_argument("--count", action="store_true")
    parser.add_argument("--only", metavar="NAME,..", default=",".join(TIMED))
    parser.add_argument("--library", metavar="FILE", type=pathlib.Path, default=ROOT / "hosts/out/libpac_host.a")
    words = parser.parse_args()
    if not words.library.is_file():
        print(f"peer.py: {words.library} isn't there: hosts/build makes it", file=sys.stderr)
        return 2
    with tempfile.TemporaryDirectory(dir="/dev/shm" if os.access("/dev/shm", os.W_OK) else None) as folder:
        room = pathlib.Path(folder)
        peer, plain = build(room, words.library)
        mine = ours()
        programs = [*mine, *of_suite(), *of_boards()]
        if not check(peer, room, programs) or len(programs) < FLOOR:
            return 1
        timed = [program for program in mine if program.name in words.only.split(",")]
        rows = count(room, peer, plain, timed) if words.count else measure(room, peer, plain, timed, words.rounds)
        unit = "thousands of instructions" if words.count else "microseconds"
        print(f"\n| {unit} a frame | pac_exec | pac_live_exec | events in C | plain Rust | to events | live to events | to plain |")
        print("|---" * 8 + "|")
        for name, (exec_, live, events, *rest) in rows.items():
            ratios = [exec_ / events, live / events, *(exec_ / other for other in rest)]
            numbers = [f"{number:.1f}" for number in (exec_, live, events, *rest)] + [f"{ratio:.2f}" for ratio in ratios]
            print(f"| {name} | " + " | ".join(numbers) + " |", flush=True)
    return 0


if __name__ == "__main__":
    sys.exit(main())
