#!/usr/bin/env python3
"""A small libretro frontend, without a window, that tries the core against the board's own calls.

    hosts/libretro/try.py

It loads hosts/out/pacboard_libretro.so, which hosts/libretro/build makes, and plays hosts/out/starfall.roms by hosts/out/starfall.held, which
hosts/build leaves. Pictures and samples are compared with those of hosts/python/pacboard.py. The last line is `N passed, M failed`, and the exit
status is 0 where M is 0.
"""
import ctypes
import pathlib
import re
import sys
import tempfile
from collections.abc import Callable
from typing import Any

sys.dont_write_bytecode = True
ROOT = pathlib.Path(__file__).resolve().parents[2]
sys.path[:0] = [str(ROOT / "tools/lib"), str(ROOT / "hosts/python")]

import pacboard
import rows

OUT, EXAMPLES = ROOT / "hosts/out", ROOT / "examples"
FRAMES, KEPT_AT, AHEAD, CHEATS = 120, 60, 2, 25
PIXELS = pacboard.WIDTH * pacboard.HEIGHT
ROTATION, MESSAGE, FORMAT, VARIABLE, VARIABLES, MAPS = 1, 6, 10, 15, 16, 0x10000 | 36  # of RETRO_ENVIRONMENT
JOYPAD = {  # the buttons by libretro's numbers: what each port's holds
    4: ("P1_UP", "P2_UP"), 5: ("P1_DOWN", "P2_DOWN"), 6: ("P1_LEFT", "P2_LEFT"), 7: ("P1_RIGHT", "P2_RIGHT"), 2: ("COIN1", "COIN2"),
    3: ("START1", "START2"), 9: ("CREDIT", ""), 10: ("RACK_TEST", ""), 11: ("BOARD_TEST", "COCKTAIL"),
}  # fmt: skip
SWITCHES_AT, WORK_AT, WORK_SIZE, ROM_SIZE = 3220, 2130, 1024, 16_384  # of a board's block, by docs/FORMATS.md
count = rows.Count("libretro", is_shown=True)
row = count.row


class Variable(ctypes.Structure):
    """An option and its value."""

    _fields_ = [("key", ctypes.c_char_p), ("value", ctypes.c_char_p)]


class Part(ctypes.Structure):
    """A part of the memory map."""

    _fields_ = [
        ("flags", ctypes.c_uint64), ("ptr", ctypes.c_void_p), ("offset", ctypes.c_size_t), ("start", ctypes.c_size_t), ("select", ctypes.c_size_t),
        ("disconnect", ctypes.c_size_t), ("len", ctypes.c_size_t), ("addrspace", ctypes.c_char_p),
    ]  # fmt: skip


class Map(ctypes.Structure):
    """The memory map."""

    _fields_ = [("parts", ctypes.POINTER(Part)), ("count", ctypes.c_uint)]


class Game(ctypes.Structure):
    """The content."""

    _fields_ = [("path", ctypes.c_char_p), ("data", ctypes.c_void_p), ("size", ctypes.c_size_t), ("meta", ctypes.c_char_p)]


class System(ctypes.Structure):
    """What the core is."""

    _fields_ = [("name", ctypes.c_char_p), ("version", ctypes.c_char_p), ("ends", ctypes.c_char_p), ("full", ctypes.c_bool), ("block", ctypes.c_bool)]


class Shape(ctypes.Structure):
    """Size and speed of what it shows."""

    _fields_ = [
        ("width", ctypes.c_uint), ("height", ctypes.c_uint), ("most_width", ctypes.c_uint), ("most_height", ctypes.c_uint), ("aspect", ctypes.c_float),
        ("fps", ctypes.c_double), ("rate", ctypes.c_double),
    ]  # fmt: skip


class Frontend:
    """A frontend with one core."""

    def __init__(self) -> None:
        self.core: Any = ctypes.CDLL(str(OUT / "pacboard_libretro.so"))
        self.options: dict[str, str] = {}
        self.told: list[str] = []
        self.declared: dict[str, list[str]] = {}
        self.parts: dict[int, tuple[int, int, int]] = {}
        self.turns, self.format, self.held, self.picture, self.sound = -1, -1, 0, b"", b""
        self.late: Callable[[], object] | None = None  # what is done as soon as the core asks for a button
        size, pointer, number = ctypes.c_size_t, ctypes.c_void_p, ctypes.c_uint
        self.calls = {
            "environment": ctypes.CFUNCTYPE(ctypes.c_bool, number, pointer)(self.environment),
            "video_refresh": ctypes.CFUNCTYPE(None, pointer, number, number, size)(self.show),
            "audio_sample_batch": ctypes.CFUNCTYPE(size, pointer, size)(self.play),
            "input_poll": ctypes.CFUNCTYPE(None)(lambda: None),
            "input_state": ctypes.CFUNCTYPE(ctypes.c_int16, number, number, number, number)(self.input),
        }
        for name, call in self.calls.items():
            getattr(self.core, f"retro_set_{name}")(call)
        self.core.retro_serialize_size.restype = self.core.retro_get_memory_size.restype = size
        self.core.retro_get_memory_data.restype = pointer
        for name in ("load_game", "serialize", "unserialize"):
            getattr(self.core, f"retro_{name}").restype = ctypes.c_bool
        self.core.retro_serialize.argtypes = self.core.retro_unserialize.argtypes = (ctypes.c_char_p, size)
        self.core.retro_init()

    def environment(self, what: int, data: int) -> bool:
        """Answers what the core asks for."""
        if what == ROTATION:
            self.turns = ctypes.c_uint.from_address(data).value
        elif what == FORMAT:
            self.format = ctypes.c_int.from_address(data).value
        elif what == MESSAGE:
            self.told.append((ctypes.c_char_p.from_address(data).value or b"").decode())
        elif what == VARIABLES:
            for at in range(100):
                one = Variable.from_address(data + at * ctypes.sizeof(Variable))
                if not one.key:
                    break
                self.declared[one.key.decode()] = one.value.decode().split("; ")[1].split("|")
        elif what == VARIABLE:
            one = Variable.from_address(data)
            one.value = self.options[one.key.decode()].encode() if one.key.decode() in self.options else None
            return one.value is not None
        elif what == MAPS:
            found = Map.from_address(data)
            self.parts = {found.parts[at].start: (found.parts[at].ptr, found.parts[at].len, found.parts[at].flags) for at in range(found.count)}
        else:
            return False
        return True

    def show(self, data: int, width: int, height: int, pitch: int) -> None:
        """Keeps a picture as the bytes red, green, blue and 255."""
        content = ctypes.string_at(data, pitch * height)
        rgba = bytearray(b"\xff" * (4 * width * height))
        rgba[0::4], rgba[1::4], rgba[2::4] = content[2::4], content[1::4], content[0::4]
        self.picture = bytes(rgba)

    def play(self, data: int, frames: int) -> int:
        """Takes at most a thousand samples at once, so that the core has to come again."""
        taken = min(frames, 1000)
        self.sound += ctypes.string_at(data, 4 * taken)
        return taken

    def input(self, port: int, device: int, index: int, button: int) -> int:
        """Whether a button is held."""
        if self.late:
            late, self.late = self.late, None
            late()
        name = JOYPAD.get(button, ("", ""))[port] if device == 1 and index == 0 and port < 2 else ""
        return int(bool(name) and bool(self.held & pacboard.INPUTS[name]))

    def load(self, path: pathlib.Path | None) -> bool:
        """Loads content."""
        self.told.clear()
        return bool(self.core.retro_load_game(ctypes.byref(Game(str(path).encode() if path else None))))

    def frame(self, held: int) -> tuple[bytes, bytes]:
        """A frame's picture and sound."""
        self.held, self.sound = held, b""
        self.core.retro_run()
        return self.picture, self.sound

    def state(self) -> bytes:
        """The state."""
        kept = ctypes.create_string_buffer(self.core.retro_serialize_size())
        if not self.core.retro_serialize(kept, len(kept)):
            row("a state is given", False)
        return kept.raw

    def back(self, state: bytes) -> bool:
        """Goes to a state, if it is one."""
        return bool(self.core.retro_unserialize(state, len(state)))


def wanted_of(board: Any, held: int) -> tuple[bytes, bytes]:
    """A frame's picture and sound by the board's own calls."""
    board.hold(held)
    _, samples = board.run(pacboard.FRAME_MICROSECONDS)
    one = samples.tobytes()
    both = bytearray(2 * len(one))
    both[0::4] = both[2::4] = one[0::2]
    both[1::4] = both[3::4] = one[1::2]
    return board.draw(), bytes(both)


def try_frames(front: Frontend, roms: bytes, held: list[int]) -> None:
    """Plays frames, and goes back and ahead by states."""
    board, states, seen = pacboard.Board(roms), [], []
    row("a ROM block", front.load(OUT / "starfall.roms"))
    row("XRGB8888, upright", (front.format, front.turns) == (1, 0))
    for at in range(FRAMES):
        if at in (KEPT_AT, FRAMES - 1):
            states.append(front.state())
            row(f"frame {at}: the state is the board's block", states[-1] == board.block)
        seen.append((front.frame(held[at]), wanted_of(board, held[at])))
    row(f"{FRAMES} pictures by the board's calls", all(found[0] == wanted[0] for found, wanted in seen) and len({found[0] for found, _ in seen}) > 10)
    row(f"{FRAMES} frames of sound by the board's calls", all(found[1] == wanted[1] for found, wanted in seen) and len({found[1] for found, _ in seen}) > 10)
    row("back to a state", front.back(states[0]))
    row("and the same frames again", all(front.frame(held[at]) == seen[at][0] for at in range(KEPT_AT, FRAMES)))
    row("back again", front.back(states[0]))
    is_same = True
    for at in range(KEPT_AT, FRAMES - AHEAD):
        found, kept = front.frame(held[at]), front.state()
        for more in range(1, AHEAD + 1):
            ahead = front.frame(held[at + more])
        is_same = is_same and found == seen[at][0] and ahead == seen[at + AHEAD][0] and front.back(kept)
    row(f"{AHEAD} frames ahead at each frame", is_same)
    kept = front.state()
    for what, wrong in {"zeros": bytes(len(kept)), "a byte too few": kept[:-1], "an interrupt mode of 3": kept[:57] + b"\3" + kept[58:]}.items():
        row(f"no state: {what}", not front.back(wrong) and front.state() == kept)


def try_memory(front: Frontend) -> None:
    """Looks at the memory map, and writes as a cheat does."""
    kept = front.state()
    for start, place, size in ((0x4000, 82, 1024), (0x4400, 1106, 1024), (0x4C00, WORK_AT, WORK_SIZE)):
        there, length, flags = front.parts[start]
        row(f"memory from {start:04X}H", length == size and not flags & 1 and ctypes.string_at(there, length) == kept[place : place + size])
    there, length, flags = front.parts[0]
    row("the ROM, which no cheat writes", flags & 1 and ctypes.string_at(there, length) == (OUT / "starfall.roms").read_bytes()[:ROM_SIZE])
    data = front.core.retro_get_memory_data(2)
    row("the system's memory", data == front.parts[0x4C00][0] and front.core.retro_get_memory_size(2) == WORK_SIZE)
    row("no other memory", front.core.retro_get_memory_data(0) is None and front.core.retro_get_memory_size(0) == 0)
    ctypes.c_uint8.from_address(data + 5).value ^= 0xFF
    row("a byte that a cheat sets", front.state()[WORK_AT + 5] == kept[WORK_AT + 5] ^ 0xFF)
    row("and back", front.back(kept))
    board, is_same = pacboard.Board((OUT / "starfall.roms").read_bytes()), True
    board.block = kept
    for at in range(CHEATS):
        block = bytearray(board.block)
        for start, place in ((0x4000, 82), (0x4400, 1106), (0x4C00, WORK_AT)):
            ctypes.c_uint8.from_address(front.parts[start][0] + 37 * at).value = block[place + 37 * at] = 7 * at
        board.block = block
        is_same = is_same and front.frame(0) == wanted_of(board, 0) and front.state() == board.block
    row(f"{CHEATS} frames, each with three bytes that a cheat sets", is_same and front.state() != kept)
    cell = ctypes.c_uint8.from_address(front.parts[0x4000][0] + 5)
    front.late = lambda: setattr(cell, "value", cell.value ^ 0xFF)
    block = bytearray(board.block)
    block[82 + 5] ^= 0xFF
    board.block = block
    row("a byte that is set while the core asks for the buttons, as RetroArch may", front.frame(0) == wanted_of(board, 0) and front.state() == board.block)
    front.late = lambda: front.back(kept)
    board.block = kept
    row("and a state that is loaded then", front.frame(0) == wanted_of(board, 0) and front.state() == board.block)
    row("and back again", front.back(kept))


def try_options(front: Frontend) -> None:
    """Sets the options, one at a time."""
    numbers = {
        "coins": {"FREE": 200, "1C1C": 201, "1C2C": 202, "2C1C": 203}, "lives": {"1": 193, "2": 197, "3": 201, "5": 205},
        "bonus": {"10000": 201, "15000": 217, "20000": 233, "NONE": 249}, "difficulty": {"NORMAL": 201, "HARD": 137}, "names": {"NORMAL": 201, "ALTERNATE": 73},  # by bin/dip
    }  # fmt: skip
    for name, values in numbers.items():
        declared = front.declared[f"pacboard_{name}"]
        row(f"the values of {name}, the usual one first", set(declared) == set(values) and values[declared[0]] == pacboard.SWITCHES)
        for value, number in values.items():
            front.options = {f"pacboard_{name}": value}
            row(f"{name} {value}", front.load(OUT / "starfall.roms") and front.state()[SWITCHES_AT] == number)
    for turn in "0123":
        front.options = {"pacboard_turn": turn}
        row(f"{turn} quarter turns", front.load(OUT / "starfall.roms") and front.turns == int(turn))
    front.options = {"pacboard_lives": "5"}
    front.core.retro_reset()
    row("a reset is power-on with the switches as they are now", front.state() == pacboard.Board((OUT / "starfall.roms").read_bytes(), 205).block)
    front.options = {}


def try_content(front: Frontend, room: pathlib.Path, roms: bytes) -> None:
    """Loads what is content, and what isn't."""
    kept = pacboard.Board(roms).block
    tables = (EXAMPLES / "set.toml").read_text()
    for path in [*EXAMPLES.glob("*.rom"), *EXAMPLES.glob("*.prom")]:
        (room / path.name).write_bytes(path.read_bytes())
    for at in range(4):
        (room / f"program{at}").write_bytes(roms[4096 * at : 4096 * (at + 1)])
    quarters = "".join(f'\n[[program]] # a quarter\nfile = "program{at}"\n' for at in range(4))
    (room / "all.toml").write_text(tables + quarters)
    for path in (EXAMPLES / "starfall.asm", room / "all.toml"):
        row(f"{path.name} as content", front.load(path) and front.state() == kept and ctypes.string_at(front.parts[0][0], ROM_SIZE) == roms[:ROM_SIZE])
        row("and a picture", front.frame(0) == wanted_of(pacboard.Board(roms), 0))
    files = {
        "short.roms": roms[1:], "long.roms": roms + b"\0", "empty.roms": b"", "fault.asm": b" LD A,Y\n", "token.asm": b" NOP\n LD A,0FGH\n", "alone/it.asm": b" NOP\n",
        "missing.toml": tables.replace("tiles.rom", "none.rom").encode() + quarters.encode(), "digest.toml": tables.replace("46cf", "46cc").encode() + quarters.encode(),
        "program.toml": tables.encode(), "five.toml": (tables + quarters + quarters[:40]).encode(), "size.toml": tables.replace("wave.prom", "tiles.rom").encode() + quarters.encode(),
        "outside.toml": tables.replace("tiles.rom", "../tiles.rom").encode() + quarters.encode(), "other.toml": b"tiles = 1\n", "twice.toml": (tables + tables + quarters).encode(),
        "after.toml": tables.replace("[wave]", "[wave] x").encode() + quarters.encode(), "files.toml": (tables + 'file = "wave.prom"\n' + quarters).encode(),
    }  # fmt: skip
    (room / "alone").mkdir()
    for name, content in files.items():
        (room / name).write_bytes(content)
    (room / "link.roms").symlink_to(OUT / "starfall.roms")
    for name in [*files, "none.roms", "link.roms", "alone"]:
        row(f"{name} is refused, and a line says so", not front.load(room / name) and len(front.told) == 1)
    told = {name: (front.load(room / name), front.told[-1])[1] for name in ("fault.asm", "token.asm")}
    row("the faults of a source", told == {"fault.asm": "refused A8 line 1", "token.asm": "refused A1 L2 line 2"})
    row("no path is refused", not front.load(None) and not front.core.retro_load_game(None))
    row("what was played goes on", front.frame(0)[1] != b"" and front.load(OUT / "starfall.roms") and front.state() == kept)


def try_stop(front: Frontend, room: pathlib.Path) -> None:
    """Plays a program that runs into what is no instruction."""
    (room / "stop.roms").write_bytes(b"\x00\xed\x00" + bytes(pacboard.ROMS_SIZE - 3))
    row("a program that stops", front.load(room / "stop.roms"))
    sounds = [front.frame(0)[1] for _ in range(3)]
    row("is silent from there on, and told once", sounds == [bytes(4 * pacboard.FRAME_SAMPLES)] * 3 and len(front.told) == 1)


def try_information(system: System) -> None:
    """What RetroArch is told of the core, against what the core says of itself."""
    found = dict(re.findall(r'^(\w+) = "([^"]*)"$', (ROOT / "hosts/libretro/pacboard_libretro.info").read_text(), re.M))
    row("its name, version and content", (found["corename"], found["display_version"], found["supported_extensions"]) == (system.name.decode(), system.version.decode(), system.ends.decode()))
    row("with states, for rewind and run-ahead too", (found["savestate"], found["savestate_features"], found["needs_fullpath"]) == ("true", "deterministic", "true"))


def main(words: list[str]) -> int:
    """Tries the core."""
    del words
    front, roms = Frontend(), (OUT / "starfall.roms").read_bytes()
    held = pacboard.held_of((OUT / "starfall.held").read_bytes())
    system, shape = System(), Shape()
    front.core.retro_get_system_info(ctypes.byref(system)), front.core.retro_get_system_av_info(ctypes.byref(shape))
    row("libretro's version 1", front.core.retro_api_version() == 1)
    row("what it is", (system.name, system.ends, system.full) == (b"pacboard", b"roms|toml|asm", True))
    try_information(system)
    row("288 by 224 pixels", (shape.width, shape.height, shape.most_width, shape.most_height) == (288, 224, 288, 224))
    row("60.6 frames and 96,000 samples a second", abs(shape.fps - 1e6 / 16_500) < 1e-9 and shape.rate == 96_000)
    row("no state before there is content", not front.core.retro_serialize(ctypes.create_string_buffer(pacboard.STATE_SIZE), pacboard.STATE_SIZE))
    try_frames(front, roms, held)
    try_memory(front)
    try_options(front)
    with tempfile.TemporaryDirectory(prefix="libretro-") as room:
        try_content(front, pathlib.Path(room), roms)
        try_stop(front, pathlib.Path(room))
    front.core.retro_unload_game(), front.core.retro_deinit()
    return count.end(60)


if __name__ == "__main__":
    rows.main(__doc__, main)
