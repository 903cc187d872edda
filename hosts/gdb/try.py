#!/usr/bin/env python3
"""Tries hosts/gdb/server.py by packets, as gdb sends them, against the board's own calls, and hosts/gdb/symbols.py by readelf; and both by gdb itself,
where one is here that knows z80.

    hosts/gdb/try.py [LISTING]

It debugs hosts/out/starfall.roms, which hosts/build leaves. LISTING is starfall's, where symbols are to be tried. The last line is
`N passed, M failed`, and the exit status is 0 where M is 0.
"""
import ctypes
import itertools
import pathlib
import random
import re
import shutil
import socket
import subprocess
import sys
import tempfile
import time
import xml.etree.ElementTree
from typing import Any

sys.dont_write_bytecode = True
ROOT = pathlib.Path(__file__).resolve().parents[2]
sys.path[:0] = [str(ROOT / "tools/lib"), str(ROOT / "hosts/python"), str(ROOT / "hosts/gdb")]

import blocks
import moments
import pacboard
import rows
from server import command

OUT, SERVER, FRAMES = ROOT / "hosts/out", ROOT / "hosts/gdb/server.py", ROOT / "hosts/gdb/frames.py"
STEPS, STOPS, BACK = 3000, 40, 200
FEW_KEPT, VECTORS, HELD_AT = 8, 0x100, 3218  # kept moments, where starfall has the address of its interrupt, and where a block has what is held
MACHINE_AT, I386, ASKED = 18, 3, 60  # where an ELF file has its processor, a processor that each gdb knows, and of how many lines it is asked
KNOWING = ("z80-unknown-elf-gdb", "z80-elf-gdb", "gdb-multiarch", "gdb")  # commands of which one may know z80
COPY, CALLED, COPIED = "0x117", "0x135", "0x4c32"  # starfall's LDIR to the sprites' places, a routine that it calls, and a byte that it copies
PAIRS = "A F,B C,D E,H L,SP,PC,IX,IY,A' F',B' C',D' E',H' L',I R".split(",")  # gdb's registers, the high byte first
NAMES = "af bc de hl sp pc ix iy af' bc' de' hl' ir".split()
count = rows.Count("gdb", is_shown=True)
row = count.row


class Client:
    """A gdb that sends what it's told to."""

    def __init__(self, port: int) -> None:
        self.peer, self.waiting = socket.create_connection(("127.0.0.1", port), timeout=60), b""
        self.peer.setsockopt(socket.IPPROTO_TCP, socket.TCP_NODELAY, 1)

    def send(self, content: bytes, change: int = 0) -> None:
        """Sends a packet, with a sum that may be changed."""
        self.peer.sendall(b"$%s#%02x" % (content, (sum(content) + change) & 255))

    def byte(self) -> bytes:
        """The next byte."""
        if not self.waiting:
            self.waiting = self.peer.recv(65536)
            if not self.waiting:
                raise OSError("the server is gone")
        first, self.waiting = self.waiting[:1], self.waiting[1:]
        return first

    def answer(self) -> str:
        """The next packet, whose sum has to be right."""
        found = b""
        while self.byte() != b"$":
            pass
        while (byte := self.byte()) != b"#":
            found += byte
        told = self.byte() + self.byte()
        if told != b"%02x" % (sum(found) & 255):
            raise OSError("a wrong sum")
        return found.decode("latin-1")

    def ask(self, content: str) -> str:
        """A packet's answer."""
        self.send(content.encode("latin-1"))
        return self.answer()

    def pc(self) -> int:
        """The register PC."""
        return int.from_bytes(bytes.fromhex(self.ask("p5")), "little")

    def monitor(self, words: str) -> str:
        """What `monitor` answers."""
        return bytes.fromhex(self.ask("qRcmd," + words.encode().hex())).decode()


class Server:
    """A server of some content."""

    def __init__(self, content: pathlib.Path) -> None:
        self.process = subprocess.Popen([sys.executable, SERVER, content], stderr=subprocess.PIPE, text=True)
        assert self.process.stderr is not None
        found = re.search(r"127\.0\.0\.1:(\d+)", self.process.stderr.readline())
        self.port = int(found[1]) if found else 0

    def __enter__(self) -> "Server":
        return self

    def __exit__(self, *words: object) -> None:
        self.process.terminate()
        self.process.wait()


def registers_of(block: bytes) -> str:
    """The registers of a block as gdb reads them, by the places of docs/FORMATS.md."""
    found = b""
    for pair in PAIRS:
        for name in reversed(pair.split(" ")):
            at, size = blocks.FIELDS[name]
            found += block[at : at + size]
    return found.hex()


def steps_of(block: bytes) -> int:
    """The steps of a block."""
    at, size = blocks.FIELDS["steps"]
    return int.from_bytes(block[at : at + size], "little")


def stepped(board: Any) -> bytes:
    """The board's block a step later."""
    steps = steps_of(board.block)
    while steps_of(board.block) == steps:
        board.run(1)
    return board.block


def try_questions(one: Client) -> None:
    """What gdb asks first."""
    features = one.ask("qSupported:multiprocess+;swbreak+").split(";")
    row("what the server can do", {"ReverseStep+", "ReverseContinue+", "qXfer:features:read+", "swbreak+"} <= set(features))
    parts, at = "", 0
    while not parts.endswith("l"):
        found = one.ask(f"qXfer:features:read:target.xml:{at:x},80")
        parts, at = parts.rstrip("m") + found[1:] + found[0], at + 0x80
    target = xml.etree.ElementTree.fromstring(parts[:-1])
    row("the target's description", target.findtext("architecture") == "z80" and [reg.get("name") for reg in target.iter("reg")] == NAMES)
    row("a thread", (one.ask("qfThreadInfo"), one.ask("qsThreadInfo"), one.ask("qC"), one.ask("Hg0")) == ("m1", "l", "QC1", "OK"))
    row("why it stands", one.ask("?") == "S05")
    for packet in ("vMustReplyEmpty", "vCont?", "X0,0:", "qNone", "Z5,4c00,1", "!"):
        row(f"{packet} isn't known", one.ask(packet) == "")
    one.send(b"g", change=1)
    row("a wrong sum is asked for again", one.byte() == b"-")
    kept = one.ask("g")
    wrong = ["m", "m0", "mz,1", "m0,10001", "m-1,1", "M4c00,2:00", "M4c00,1:0", "M0,1:00", "M4fff,2:0000", "M5000,1:00", "pd", "p-1", "Pd=0000", "P0=00", "P0=000000", "G00", "Z0,10000,1", "Z2,10000,1", "Z2,ffff,2", "Z2,4c00", "z3,4c00,x", "cx"]
    row(f"{len(wrong)} wrong packets", [one.ask(packet) for packet in wrong] == ["E01"] * len(wrong) and one.ask("g") == kept)


def try_steps(one: Client, board: Any) -> list[bytes]:
    """Goes step by step, and back."""
    seen, is_same = [board.block], one.ask("g") == registers_of(board.block)
    row("the registers at power-on", is_same)
    for _ in range(STEPS):
        seen.append(stepped(board))
        is_same = is_same and one.ask("s") == "S05" and one.ask("g") == registers_of(seen[-1])
    row(f"{STEPS} steps by the board's calls", is_same)
    is_same = all(one.ask("bs") == "S05" and one.ask("g") == registers_of(seen[-2 - at]) for at in range(BACK))
    row(f"{BACK} steps back", is_same)
    row("and as many on", all(one.ask("s") == "S05" for _ in range(BACK)) and one.ask("g") == registers_of(seen[-1]))
    row("back to the beginning", one.ask("bc") == "T05replaylog:begin;" and one.ask("g") == registers_of(seen[0]) and one.ask("bs") == "T05replaylog:begin;")
    return seen


def try_stops(one: Client, seen: list[bytes]) -> None:
    """Stops at breakpoints, and goes back to them."""
    counts: dict[int, list[int]] = {}
    for at, block in enumerate(seen[1:], 1):
        counts.setdefault(int.from_bytes(block[52:54], "little"), []).append(at)
    place, met = min(((place, found) for place, found in counts.items() if len(found) >= STOPS), key=lambda one: len(one[1]))
    row("a breakpoint", one.ask(f"Z0,{place:x},1") == "OK")
    is_same = all(one.ask("c") == "T05swbreak:;" and one.ask("g") == registers_of(seen[at]) for at in met[:STOPS])
    row(f"{STOPS} stops at it, each where single steps meet it", is_same)
    is_same = all(one.ask("bc") == "T05swbreak:;" and one.ask("g") == registers_of(seen[at]) for at in met[: STOPS - 1][::-1])
    row(f"{STOPS - 1} of them back", is_same)
    row("and then the beginning", one.ask("bc") == ("T05swbreak:;" if met[0] == 0 else "T05replaylog:begin;"))
    row("a breakpoint that a step comes to", all(one.ask("s") == "S05" for _ in range(met[0] - 1)) and one.ask("s") == "T05swbreak:;")
    row("and back, no breakpoint", one.ask(f"z0,{place:x},1") == "OK" and one.ask("bc") == "T05replaylog:begin;")


def try_memory(one: Client, board: Any, room: pathlib.Path) -> None:
    """Reads and writes memory and registers, holds inputs, and draws."""
    frames = 30
    row(f"{frames} frames", one.monitor(f"frames {frames}") == "done\n")
    for _ in range(frames):
        board.run(pacboard.FRAME_MICROSECONDS)
    row("registers by the board's calls", one.ask("g") == registers_of(board.block))
    found = ctypes.create_string_buffer(0x10000)
    pacboard.LIBRARY.pac_peek(board.state, board.roms, ctypes.c_size_t(len(board.roms)), 0, found, ctypes.c_size_t(0x10000))
    row("all that the processor would read", bytes.fromhex(one.ask("m0,10000")) == found.raw)
    row("a picture", one.monitor(f"picture {room / 'it.ppm'}") == "done\n")
    rgba, rgb = board.draw(), bytearray(pacboard.RGBA_SIZE // 4 * 3)
    for colour in range(3):
        rgb[colour::3] = rgba[colour::4]
    row("by the board's calls", (room / "it.ppm").read_bytes() == b"P6\n288 224\n255\n" + rgb)
    row("no picture where there is no folder", "No such file" in one.monitor(f"picture {room}/none/it.ppm"))
    row("held", one.monitor("hold P1_UP,COIN1") == "done\n" and one.ask("m5000,1") == f"{0xFF & ~0x21:02x}")
    row("and let go", one.monitor("hold -") == "done\n" and one.ask("m5000,1") == "ff")
    row("no such input", one.monitor("hold UP").startswith("hold NAME") and one.monitor("help") == one.monitor("frames x"))
    for start in (0x4000, 0x43FF, 0x47FF, 0x4C00, 0x4FEF):
        wanted = int(one.ask(f"m{start:x},1"), 16) ^ 0x5A
        row(f"a byte to {start:04X}H", one.ask(f"M{start:x},1:{wanted:02x}") == "OK" and one.ask(f"m{start:x},1") == f"{wanted:02x}")
    kept = one.ask("g")
    for at in range(len(NAMES)):
        changed = kept[: 4 * at] + "3412" + kept[4 * at + 4 :]
        row(f"{NAMES[at]} set", one.ask(f"P{at:x}=3412") == "OK" and one.ask("g") == changed and one.ask("G" + kept) == "OK" and one.ask("g") == kept)
    row("no way back from there", one.ask("bs") == "T05replaylog:begin;")
    row("a reset", one.monitor("reset") == "done\n" and one.pc() == 0)


def try_calls(server: Server, one: Client) -> None:
    """Calls for a stop while it goes, and comes again."""
    one.send(b"c")
    time.sleep(0.2)
    one.peer.sendall(b"\3")
    row("a call for a stop", one.answer() == "S02")
    row("a stop far away", one.ask("Z0,3fff,1") == "OK")
    one.send(b"c")
    time.sleep(0.2)
    one.peer.sendall(b"\3")
    row("a call for a stop with a breakpoint", one.answer() == "S02")
    row("no acknowledgements any more", one.ask("QStartNoAckMode") == "OK")
    one.send(b"g")
    row("none comes", one.byte() == b"$")
    one.waiting = b"$" + one.waiting
    kept = one.answer()
    row("gdb leaves", one.ask("D") == "OK")
    one.peer.close()
    other = Client(server.port)
    row("and comes again", other.ask("g") == kept)
    other.peer.close()


def try_watches(room: pathlib.Path) -> None:
    """Stops after writes and reads, and goes back to before them."""
    (room / "write.roms").write_bytes(bytes.fromhex("21004c36057e34c30000").ljust(pacboard.ROMS_SIZE, b"\0"))  # LD HL,4C00H; LD (HL),5; LD A,(HL); INC (HL); JP 0
    with Server(room / "write.roms") as server:
        one = Client(server.port)
        steps = lambda packet, count: [(told, one.pc()) for told in (one.ask(packet) for _ in range(count))]
        row("a watchpoint", one.ask("Z2,4c00,2") == "OK" and steps("c", 4) == [("T05watch:4c00;", pc) for pc in (5, 7, 5, 7)])
        row("back to before each write", steps("bc", 4) == [("T05watch:4c00;", pc) for pc in (6, 3, 6, 3)] and steps("bc", 1) == [("T05replaylog:begin;", 0)])
        row("none of reads", one.ask("z2,4c00,2") == "OK" and one.ask("Z3,4c00,1") == "OK" and steps("c", 1) == [("T05rwatch:4c00;", 6)])
        row("of both", one.ask("z3,4c00,1") == "OK" and one.ask("Z4,4c00,1") == "OK" and steps("c", 3) == [("T05awatch:4c00;", pc) for pc in (7, 5, 6)])
        row("a step that meets it", steps("s", 1) == [("T05awatch:4c00;", 7)] and steps("s", 2) == [("S05", 0), ("S05", 3)])
        row("beside a breakpoint", one.ask("Z0,5,1") == "OK" and steps("c", 1)[0][1] == 5 and one.ask("bc") in ("T05awatch:4c00;", "T05swbreak:;") and one.pc() == 3)
        row("and none any more", one.ask("z4,4c00,1") == "OK" and steps("c", 2) == [("T05swbreak:;", 5)] * 2)


def try_kept() -> None:
    """Goes from one breakpoint to the next while inputs change and the board is reset, with few kept moments, and all the way back."""
    setattr(moments, "MOST_KEPT", FEW_KEPT)
    roms = (OUT / "starfall.roms").read_bytes()
    board, seen, calls = moments.Board(roms, pacboard.SWITCHES), list[tuple[bool, bytes]](), itertools.count()
    handler = int.from_bytes(roms[VECTORS : VECTORS + 2], "little")
    commands = {5: "hold START1", 9: "hold -", 20: "hold P1_LEFT,COIN1", 33: "reset", 34: "hold P1_RIGHT", 60: "hold P1_UP"}
    board.places[handler] = 1
    for at in range(STOPS * 2):
        is_met = board.go_on(lambda: next(calls) > 1000).why == pacboard.UNTIL_PLACE
        told = command(board, commands.get(at, "frames 0").split())
        seen.append((is_met and told == "done\n", board.block))
    row(f"{len(seen)} stops, between which inputs change", all(is_so for is_so, _ in seen) and len({block[HELD_AT : HELD_AT + 2] for _, block in seen}) == 5)
    row("the kept moments", len(board.kept) <= FEW_KEPT + 2 * len(commands) and len(board.kept) > len(commands))
    stops = [block for _, block in seen if int.from_bytes(block[52:54], "little") == handler]
    is_same = all(board.go_back().why == pacboard.UNTIL_PLACE and board.block == block for block in stops[-2::-1])
    row(f"{len(stops) - 1} of them back, each with what was held then", is_same and len(stops) > STOPS)
    row("and the beginning", board.go_back().why == moments.BEGIN and board.time == 0)


def try_ends(room: pathlib.Path) -> None:
    """A program that stops, and content that is none."""
    (room / "stop.roms").write_bytes(b"\x00\xed\x00" + bytes(pacboard.ROMS_SIZE - 3))
    with Server(room / "stop.roms") as server:
        one = Client(server.port)
        row("a program that stops", [one.ask("c"), one.ask("s"), f"{one.pc():x}"] == ["S04", "S04", "1"])
        row("and a step back", one.ask("bs") == "S05" and one.pc() == 0)
    for content in (room / "none.roms", room):
        end = subprocess.run([sys.executable, SERVER, content], capture_output=True, text=True, check=False, timeout=60)
        row(f"no content: {content.name}", end.returncode == 3 and end.stderr.count("\n") == 1)


def lines_of(listing: pathlib.Path) -> dict[int, int]:
    """The lines that have bytes, each with its address."""
    return {int(line): int(at, 16) for line, at in re.findall(r"^(\d{5}) ([0-9A-F]{4}) [0-9A-F]{2}", listing.read_text(), re.M)}


def try_lines(room: pathlib.Path, listing: pathlib.Path) -> None:
    """The lines of the source, by readelf, and by a gdb that takes the file for another processor's."""
    wanted, name = lines_of(listing), "examples/starfall.asm"
    if shutil.which("readelf"):
        said = subprocess.run(["readelf", "--debug-dump=decodedline", "-W", room / "it.elf"], capture_output=True, text=True, check=False)
        found = {int(line): int(at, 16) for line, at in re.findall(r"^\S+ +(\d+) +(0|0x[0-9a-f]+) +x$", said.stdout, re.M)}
        row("its lines, by readelf", not said.stderr and f"CU: {name}:" in said.stdout and len(wanted) > 300 and found == wanted)
    if shutil.which("gdb"):
        content = bytearray((room / "it.elf").read_bytes())
        content[MACHINE_AT] = I386
        (room / "other.elf").write_bytes(content)
        asked = random.Random(1).sample(sorted(wanted), ASKED)
        words = [word for line in asked for word in ("-ex", f"info line starfall.asm:{line}")]
        said = subprocess.run(["gdb", "-batch", "-nx", *words, room / "other.elf"], capture_output=True, text=True, check=False)
        pairs = re.findall(r'^Line (\d+) of "(.*)" (?:starts at address|is at address) 0x([0-9a-f]+)', said.stdout, re.M)
        row("and by gdb", [(int(line), of, int(at, 16)) for line, of, at in pairs] == [(line, name, wanted[line]) for line in asked], said.stdout[:200] + said.stderr[:200])


def try_symbols(room: pathlib.Path, listing: pathlib.Path) -> None:
    """The symbols as an ELF file."""
    words: list[str | pathlib.Path] = [sys.executable, ROOT / "hosts/gdb/symbols.py", listing, "--source", "examples/starfall.asm", "-o", room / "it.elf"]
    row("an ELF file", subprocess.run(words, check=False).returncode == 0)
    row("has the program", (room / "it.elf").read_bytes()[84 : 84 + 0x4000] == (OUT / "starfall.roms").read_bytes()[:0x4000])
    if shutil.which("readelf"):
        said = subprocess.run(["readelf", "-hsW", room / "it.elf"], capture_output=True, text=True, check=False)
        found = dict((name, int(value, 16)) for value, name in re.findall(r"^ *\d+: ([0-9a-f]{8}) .* (\w+)$", said.stdout, re.M))
        wanted = dict((name, int(value) & 0xFFFFFFFF) for name, value in re.findall(r"^(\w+) (-?\d+)$", listing.read_text().rpartition("\nSYMBOLS\n")[2], re.M))
        row("and its symbols, by readelf", not said.stderr and "Zilog Z80" in said.stdout and len(wanted) > 100 and found == wanted)
    try_lines(room, listing)
    words[2] = OUT / "starfall.roms"
    row("no listing", subprocess.run(words, capture_output=True, check=False).returncode == 3)


def gdb_of_z80() -> str | None:
    """A gdb that knows z80, if one is here."""
    said = lambda name: subprocess.run([name, "-batch", "-nx", "-ex", "set architecture z80"], capture_output=True, text=True, check=False).stdout
    return next((name for name in KNOWING if shutil.which(name) and "z80" in said(name)), None)


def session(gdb: str, room: pathlib.Path, commands: list[str]) -> list[str]:
    """What gdb itself prints at each command, over starfall with its symbols; nothing where it aborts."""
    with Server(OUT / "starfall.roms") as server:
        all_of_them = ["set pagination off", f"file {room / 'it.elf'}", f"directory {ROOT}", "mem 0 0 rw cache", f"target remote :{server.port}", *commands]
        words = [word for command in all_of_them for word in ("-ex", "echo \\n@", "-ex", command)]
        end = subprocess.run([gdb, "-batch", "-nx", *words], cwd=room, stdin=subprocess.DEVNULL, capture_output=True, text=True, check=False, timeout=120)
    return end.stdout.split("\n@")[-len(commands) :] if end.returncode == 0 else []


def calls_of(listing: pathlib.Path, routine: int) -> list[int]:
    """Where a program goes on after its calls of a routine."""
    return [int(at, 16) + 3 for at, low, high in re.findall(r"^.{5} ([0-9A-F]{4}) CD(..)(..) ", listing.read_text(), re.M) if int(high + low, 16) == routine]


def try_itself(room: pathlib.Path, listing: pathlib.Path) -> None:
    """Debugs by gdb itself, where one is here that knows z80."""
    gdb, line = gdb_of_z80(), {at: number for number, at in lines_of(listing).items()}
    if gdb is None:
        print(f"LEFT OUT: gdb itself, since none of {', '.join(KNOWING)} is here and knows z80", file=sys.stderr, flush=True)
        return
    watch = [f"watch *(unsigned char *){COPIED}", "continue", "reverse-continue", "delete"]
    found = session(gdb, room, [f"break *{COPY}", "continue", "p/x $pc", "x/i $pc", "list", "info registers", "delete", *watch, f"r{watch[0]}", "continue", f"p/x *(unsigned char *){COPIED}"])
    row("gdb itself goes to a breakpoint", len(found) == 14 and f"starfall.asm:{line[int(COPY, 16)]}\n" in found[1] and found[2].endswith(f" = {COPY}\n"), str(found))
    row("and shows its instruction and its line", "ldir" in found[3] and re.search(rf"^{line[int(COPY, 16)]}\s+LDIR", found[4], re.M), str(found[3:5]))
    row("its registers", re.search(rf"^pc +{COPY} ", found[5], re.M), found[5])
    values = [re.findall(r"value = (\d+) ", found[at]) for at in (8, 9)]
    row("past a write, and back to before it", len(values[0]) == 2 and values[0] == values[1][::-1] and values[0][0] != values[0][1], str(found[8:10]))
    row("past a read", re.search(r"^Value = \d+ ", found[12], re.M) and f"starfall.asm:{line[int(COPY, 16)]}\n" in found[12], found[12])
    found = session(gdb, room, [f"source {FRAMES}", f"break *{CALLED}", "continue", "stepi", "p/x $pc", "reverse-stepi", "p/x $pc", "backtrace", "set $bc = 0x1234", "p/x $bc", "delete", "finish", "p/x $pc", "nexti", "p/x $pc"])
    if not found:
        print(f"LEFT OUT: single steps by {gdb}, which aborts at one", file=sys.stderr, flush=True)
        return
    after, number = calls_of(listing, int(CALLED, 16)), lambda at: int(found[at].partition(" = ")[2].split()[0], 16)
    row("a step, and back", (number(4), number(6)) == (int(CALLED, 16) + 3, int(CALLED, 16)), str(found))
    row("who called the routine", [int(at, 16) for at in re.findall(r"^#1 +(0x[0-9a-f]+) ", found[7], re.M)] == after, found[7])
    row("a register is written", number(9) == 0x1234, str(found[8:10]))
    row("to the end of the routine, and past the next call", (number(12), number(14)) == (after[0], after[0] + 3), str(found[10:]))


def main(words: list[str]) -> int:
    """Tries the server and the symbols."""
    board = pacboard.Board((OUT / "starfall.roms").read_bytes())
    with tempfile.TemporaryDirectory(prefix="gdb-") as name:
        room = pathlib.Path(name)
        with Server(OUT / "starfall.roms") as server:
            one = Client(server.port)
            try_questions(one)
            try_stops(one, try_steps(one, board))
            try_memory(one, pacboard.Board(board.roms), room)
            try_calls(server, one)
        try_ends(room)
        try_watches(room)
        try_kept()
        if words:
            try_symbols(room, pathlib.Path(words[0]))
            try_itself(room, pathlib.Path(words[0]))
    return count.end(70)


if __name__ == "__main__":
    rows.main(__doc__, main)
