#!/usr/bin/env python3
"""Lets gdb debug a program on the proved board, forwards and backwards, by gdb's remote protocol.

    hosts/gdb/server.py CONTENT [--port N] [--switches N] [--once]

CONTENT is a ROM block, a manifest (.toml) or a source (.asm), as hosts/c/content.h reads it. The server says on standard error where it
listens, on this machine alone; port 0, where none is given, is a free one. It wants hosts/build and `cc`. In a gdb that knows z80:

    set architecture z80
    mem 0 0 rw cache
    target remote :PORT

`monitor help` tells what the board does besides. The board stands still until gdb lets it go on.
"""
import argparse
import contextlib
import pathlib
import re
import select
import socket
import subprocess
import sys
import tempfile

HOSTS = pathlib.Path(__file__).resolve().parents[1]
sys.path[:0] = [str(HOSTS / "gdb"), str(HOSTS / "python")]

import moments
import pacboard

REGISTERS = "af bc de hl sp pc ix iy af' bc' de' hl' ir".split()  # of 16 bits, as gdb's z80 has them
PLACES = [31, 30, 33, 32, 35, 34, 37, 36, 50, 51, 52, 53, 46, 47, 48, 49, 39, 38, 41, 40, 43, 42, 45, 44, 55, 54]  # in a block
RAM = {0x4000: "tile_ram", 0x4400: "colour_ram", 0x4C00: "work_ram"}  # where the processor has what part of a block
LONGEST_PACKET, PACKET = 0x40000, re.compile(rb"\$([^#]*)#(..)", re.S)  # bytes, and a packet with its sum
KINDS = {"sp": "data_ptr", "pc": "code_ptr"}
TARGET = '<?xml version="1.0"?><!DOCTYPE target SYSTEM "gdb-target.dtd"><target><architecture>z80</architecture>'
TARGET += '<feature name="org.gnu.gdb.z80.cpu">'
TARGET += "".join(f'<reg name="{name}" bitsize="16" type="{KINDS.get(name, "uint16")}"/>' for name in REGISTERS) + "</feature></target>"
FIXED = {  # answers
    "?": "S05", "QStartNoAckMode": "OK", "qAttached": "1", "qC": "QC1", "qfThreadInfo": "m1", "qsThreadInfo": "l",
    "qSupported": "PacketSize=4000;QStartNoAckMode+;qXfer:features:read+;ReverseStep+;ReverseContinue+;swbreak+;hwbreak+",
}  # fmt: skip
ENDS = {  # what gdb is told, by why the board rests
    moments.BEGIN: "T05replaylog:begin;", pacboard.UNTIL_TIME: "S05", pacboard.UNTIL_PLACE: "T05swbreak:;", pacboard.UNTIL_STOP: "S04",
    moments.CALLED: "S02",
}  # fmt: skip
WATCHES = {"2": ("watch", pacboard.WRITE), "3": ("rwatch", pacboard.READ), "4": ("awatch", pacboard.WRITE | pacboard.READ)}
HELP = """hold NAME,..   holds these inputs and no other; `hold -` holds none
frames N       goes on to the N-th vertical blank from here
picture FILE   writes the picture as it is, as a PPM file
reset          does what the watchdog does
"""


def roms_of(content: str) -> bytes:
    """The ROM block of content."""
    with tempfile.TemporaryDirectory(prefix="gdb-") as room:
        subprocess.run(["cc", "-O2", HOSTS / "c/content.c", HOSTS / "out/libpac_source.a", "-o", f"{room}/content"], check=True)
        end = subprocess.run([f"{room}/content", content], capture_output=True, check=False)
    if end.returncode:
        raise ValueError(f"{content}: {end.stderr.decode(errors='replace').strip()}")
    return end.stdout


def number(text: str, most: int = 0xFFFFFFFF) -> int:
    """A hexadecimal number of a packet."""
    found = int(text, 16) if text.isalnum() else -1
    if not 0 <= found <= most:
        raise ValueError(f"{text} is no number up to {most:X}H")
    return found


def register(text: str) -> list[int]:
    """The places of a register, by its number in a packet."""
    at = 2 * number(text, len(REGISTERS) - 1)
    return PLACES[at : at + 2]


def poke(board: moments.Board, address: int, content: bytes) -> None:
    """Writes to memory that is RAM at its own address."""
    for start, name in RAM.items():
        place, size = pacboard.PARTS[name]
        if start <= address and address + len(content) <= start + size:
            return board.change([place + address - start + at for at in range(len(content))], content)
    raise ValueError("this is no RAM")


def command(board: moments.Board, words: list[str]) -> str:
    """Does what `monitor` asks for, and answers its text."""
    name, word = words if len(words) == 2 else (" ".join(words), "")
    held = set() if word == "-" else set(word.split(","))
    if name == "frames" and word.isdecimal() and len(word) < 7:
        return "done\n" if board.go_frames(int(word)) else "the board stopped\n"
    if name == "picture" and word:
        try:
            pathlib.Path(word).write_bytes(board.ppm())
        except OSError as error:
            return f"{error}\n"
        return "done\n"
    if name == "hold" and held <= {*pacboard.NAMES}:
        board.hold(sum(pacboard.INPUTS[one] for one in held))
    elif name == "reset" and not word:
        board.reset()
    else:
        return HELP
    board.keep(is_changed=True)
    return "done\n"


class Line:
    """A connection to gdb, which debugs a board."""

    def __init__(self, peer: socket.socket, board: moments.Board) -> None:
        self.peer, self.board, self.acknowledges, self.watches = peer, board, True, set[tuple[str, int]]()
        self.waiting, self.seen = b"", b""  # what has come and isn't looked at, and all that the processor would read, twice
        board.places, board.watched = bytearray(1 << 16), bytearray(1 << 16)

    def is_called(self) -> bool:
        """Whether gdb calls for a stop, or is gone."""
        while select.select([self.peer], [], [], 0)[0]:
            if not (more := self.peer.recv(LONGEST_PACKET)):
                return True
            self.waiting += more
        is_called, self.waiting = b"\3" in self.waiting, self.waiting.replace(b"\3", b"")
        return is_called

    def packet(self) -> str | None:
        """The next packet, whose sum is right; None at the end."""
        while True:
            while not (found := PACKET.search(self.waiting)):
                more = self.peer.recv(LONGEST_PACKET)
                if not more or len(self.waiting) > LONGEST_PACKET:
                    return None
                self.waiting += more
            self.waiting = self.waiting[found.end() :]
            is_right = found[2].lower() == b"%02x" % (sum(found[1]) & 255)
            if self.acknowledges:
                self.peer.sendall(b"+" if is_right else b"-")
            if is_right:
                return found[1].decode("latin-1")

    def serve(self) -> None:
        """Answers packets until gdb leaves."""
        while (packet := self.packet()) is not None and packet != "k":
            content = self.answer(packet).encode("latin-1")
            self.peer.sendall(b"$%s#%02x" % (content, sum(content) & 255))
            self.acknowledges = self.acknowledges and packet != "QStartNoAckMode"
            if packet.startswith("D"):
                return

    def answer(self, packet: str) -> str:
        """The answer to a packet."""
        kind = packet[:1] or "?"
        self.seen = self.seen if kind == "m" else b""
        try:
            if kind in "sc" or packet in ("bs", "bc"):
                return self.moved(packet)
            if kind in "zZ":
                return self.watch(kind == "Z", packet[1:].split(","))
            return self.memory(kind, re.split("[:=,]", packet[1:])) if kind in "gGpPmM" else self.question(packet)
        except (pacboard.Refused, ValueError, IndexError):
            return "E01"

    def moved(self, packet: str) -> str:
        """Goes on or back, by a step or to where it ends, and tells why it does."""
        if packet[1:] and packet[0] != "b":
            self.board.change(register("5"), number(packet[1:], 0xFFFF).to_bytes(2, "little"))
        board = self.board
        calls = {"bs": board.step_back, "bc": board.go_back, "s": board.step_on, "c": lambda: board.go_on(self.is_called)}
        ran = calls[packet if packet[0] == "b" else packet[0]]()
        kinds = (WATCHES[kind] for kind, at in sorted(self.watches) if at == ran.address)
        return ENDS.get(ran.why) or next(f"T05{name}:{ran.address:04x};" for name, accesses in kinds if accesses & ran.access)

    def watch(self, is_set: bool, words: list[str]) -> str:
        """Sets a breakpoint or a watchpoint, or takes it away."""
        first = number(words[1], 0xFFFF)
        if words[0] in ("0", "1"):
            self.board.places[first] = is_set
        elif words[0] not in WATCHES:
            return ""
        else:
            for address in range(first, first + number(words[2], 0x10000 - first)):
                (self.watches.add if is_set else self.watches.discard)((words[0], address))
                self.board.watched[address] = 0
                for kind in (kind for kind, at in self.watches if at == address):
                    self.board.watched[address] |= WATCHES[kind][1]
        return "OK"

    def memory(self, kind: str, words: list[str]) -> str:
        """Reads or writes memory or registers."""
        if kind in "gp":
            return bytes(self.board.block[place] for place in (PLACES if kind == "g" else register(words[0]))).hex()
        if kind == "m":  # (to find who called, gdb looks at two bytes here and there, a hundred thousand times)
            first = number(words[0]) & 0xFFFF
            self.seen = self.seen or 2 * self.board.peek(0, 0x10000)
            return self.seen[first : first + number(words[1], 0x10000)].hex()
        content = bytes.fromhex(words[-1])
        if kind == "M" and len(content) != number(words[1]):
            raise ValueError("another length than is told")
        if kind == "M":
            poke(self.board, number(words[0]), content)
        else:
            self.board.change(PLACES if kind == "G" else register(words[0]), content)
        return "OK"

    def question(self, packet: str) -> str:
        """Answers a general question; with an empty answer, as the protocol wants it, what isn't known."""
        if packet.startswith("qXfer:features:read:target.xml:"):
            at, length = (number(word) for word in packet.rpartition(":")[2].split(","))
            return ("m" if at + length < len(TARGET) else "l") + TARGET[at : at + length]
        if packet.startswith("qRcmd,"):
            return command(self.board, bytes.fromhex(packet[6:]).decode("latin-1").split()).encode("latin-1").hex()
        return "OK" if packet[:1] in ("D", "H", "T") else FIXED.get(packet.partition(":")[0], "")


def main() -> int:
    """Waits for gdb."""
    parser = argparse.ArgumentParser(prog="server.py", description=__doc__, formatter_class=argparse.RawDescriptionHelpFormatter)
    parser.add_argument("content", metavar="CONTENT")
    parser.add_argument("--port", type=int, default=0)
    parser.add_argument("--switches", type=int, default=pacboard.SWITCHES, choices=range(256), metavar="N")
    parser.add_argument("--once", action="store_true", help="ends with the first connection")
    words = parser.parse_args()
    try:
        board = moments.Board(roms_of(words.content), words.switches)
        with socket.create_server(("127.0.0.1", words.port)) as server:
            print(f"listening on 127.0.0.1:{server.getsockname()[1]}", file=sys.stderr, flush=True)
            is_over = False
            while not is_over:
                peer, _ = server.accept()
                peer.setsockopt(socket.IPPROTO_TCP, socket.TCP_NODELAY, 1)
                with peer, contextlib.suppress(OSError):  # (gdb may be gone)
                    Line(peer, board).serve()
                is_over = words.once
    except (OSError, ValueError, OverflowError, subprocess.CalledProcessError) as error:
        print(f"server.py: {error}", file=sys.stderr)
        return 3
    return 0


if __name__ == "__main__":
    sys.exit(main())
