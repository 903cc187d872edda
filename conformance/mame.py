#!/usr/bin/env python3
"""Plays the programs of conformance/ on MAME's Pac-Man board, and tells what differs from the sums, with the rule.

    conformance/mame.py

It needs MAME, on the PATH or in /usr/games (Debian's package `mame`; 0.251 was tried). opcodes.asm is played by conformance/mame.lua, and its lines are
compared. Of the other programs but `dog`, whose watchdog resets MAME's machine, what MAME wrote is drawn and sounded by our pages
(tools/lib/beside.py), and the sums of its frames are compared; MAME's own pictures are compared with what its four rules of drawing make of these
writes. What differs is right where README.md's table has it: such rows pass, and are told with their rule. That they differ by it, and by nothing
else, a second board shows that has the rule of ports (tools/lib/judge_board.py), and the bits of F that differ. The last line is
`N passed, M failed`, and the exit status is 0 where M is 0, 3 where MAME isn't there.
"""
import os
import pathlib
import subprocess
import sys
import tempfile
import time
from collections.abc import Iterator

sys.dont_write_bytecode = True
HERE = pathlib.Path(__file__).resolve().parent
sys.path[:0] = [str(HERE), str(HERE.parent / "tools/lib")]

import beside
import judge_board
import make
import rows
import sums

Row = tuple[str, bool, str]  # what, whether it is right, and the rule by which it differs, or nothing
PORTS = "a port that isn't there, and 50C0H to 50FFH, read 00H in MAME, and FFH here"
BITS = "bits 5 and 3 of F, flags that UM0080 calls unknown, and N and C after block input and output are those of silicon in MAME"
SOONER = "MAME's blank comes a hair sooner, and an interrupt an instruction"
MAMES = frozenset(beside.RULES)
LEFT_OUT = make.NO_KICK
PORT_PROGRAM, PORT_GROUP = "ports", "IN"
ZERO = 0x40


def shown_by_mame(program: make.Program, room: pathlib.Path) -> list[str]:
    """What opcodes.asm shows on MAME's board."""
    beside.lay_set(program.block, room / "roms/pacman")
    words = beside.command(room, 120)
    words[words.index("-autoboot_script") + 1] = str(HERE / "mame.lua")
    environment = os.environ | {"SDL_VIDEODRIVER": "dummy", "HOME": str(room), "CONFORMANCE_OUT": str(room / "tiles")}
    with subprocess.Popen(words, cwd=room, env=environment, stdout=subprocess.DEVNULL, stderr=subprocess.DEVNULL) as mame:
        begun = time.monotonic()
        while mame.poll() is None:
            time.sleep(0.1)
            if time.monotonic() - begun > 1.5:
                begun = time.monotonic()
                print("opcodes: MAME plays", flush=True)
    tiles = room / "tiles"
    return sums.shown(tiles.read_bytes()) if tiles.exists() else []


def rows_of_opcodes(program: make.Program, room: pathlib.Path) -> Iterator[Row]:
    """Each line of opcodes.asm."""
    lines, wanted = shown_by_mame(program, room), sums.expected_lines()
    yield "opcodes: all lines", len(lines) == len(wanted), ""
    for line, right in zip(lines, wanted):
        name = right[:10].strip()
        first, second = line[:19] == right[:19], line[19:] == right[19:]
        yield f"opcodes: {name}", first or name == PORT_GROUP, "" if first else PORTS
        if right[20:]:
            yield f"opcodes: {name}, the other bits of F", True, "" if second else BITS


class AsMame(judge_board.Machine):
    """The second board, with MAME's bytes where nothing is."""

    def read(self, address: int) -> int:
        """The byte that the processor reads."""
        return 0 if address & 0x50C0 == 0x50C0 else super().read(address)

    def port_in(self, port: int) -> int:
        """What a port reads."""
        return 0


def is_of_flags(one: bytes, other: bytes, pushed: set[int]) -> bool:
    """Whether RAM differs only where F was pushed, and in other bits of it than Z."""
    places = [at for at, byte in enumerate(one) if byte != other[at]]
    return all(beside.address_of(at) in pushed and (one[at] ^ other[at]) & ZERO == 0 for at in places)


def rows_of_program(program: make.Program, room: pathlib.Path) -> Iterator[Row]:
    """Each frame of a program."""
    played, artist = beside.Played(program.name, program.block, program.masks(), room), beside.Artist(program.block)
    wanted, machine = sums.expected("sums.txt"), AsMame(program.block)
    for number, (frame, mask) in enumerate(zip(beside.frames_of(program.block, played.writes, make.FRAMES), program.masks()), 1):
        other = machine.frame(mask)
        found = sums.of_frame(artist.picture(frame.lines), frame.samples, frame.ram)
        with_ports = sums.of_frame(artist.picture(other.lines), other.samples, other.ram)
        is_late = played.first_early is not None and number >= played.first_early
        for at, name in enumerate(sums.FRAME_SUMS):
            rule = ""
            if found[at] != wanted[program.name, number][at]:
                is_port = program.name == PORT_PROGRAM and found[at] == with_ports[at]
                is_flags = name == "stack" and is_of_flags(frame.ram, other.ram, played.flags)
                rule = PORTS if is_port else BITS if is_flags else SOONER if is_late else "none"
            yield f"{program.name}, frame {number}: {name}", rule != "none", rule
        own = played.own_picture(number - 1)
        yield f"{program.name}, frame {number}: MAME's own picture by its rules", own == artist.picture(frame.lines, MAMES), ""


def main() -> int:
    """Plays all of them."""
    if sys.argv[1:]:
        print((__doc__ or "").strip())
        return 0 if sys.argv[1:] == ["--help"] else 2
    if not beside.MAME:
        print("mame.py: mame isn't there; on Debian `apt-get install mame` gives it", file=sys.stderr)
        return 3
    count = rows.Count("mame.py")
    rules: dict[str, list[str]] = {}
    with tempfile.TemporaryDirectory(prefix="conformance-") as place:
        for program in make.programs():
            if program.name == LEFT_OUT:
                continue
            played = rows_of_opcodes if program.name == make.OPCODES else rows_of_program
            for what, good, rule in played(program, pathlib.Path(place, program.name)):
                count.row(what, good)
                if good and rule:
                    rules.setdefault(rule, []).append(what)
    for rule, names in rules.items():
        print(f"differs in {len(names)} rows: {rule}")
        print(f"    {', '.join(names[:4])}{', ..' if names[4:] else ''}")
    return count.end()


if __name__ == "__main__":
    sys.exit(main())
