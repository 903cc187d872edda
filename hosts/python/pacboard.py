"""The proved board in Python: the calls of hosts/pacboard.h over ctypes.

    board = LiveBoard(roms)                      # at power-on; roms are the 25,120 bytes that hosts/roms.py makes
    board.hold(INPUTS["P1_LEFT"])                # this and nothing else is held
    ran, samples = board.run(FRAME_MICROSECONDS) # an array of 16 bit samples
    rgba = board.draw()                          # 288 by 224 pixels, four bytes each
    kept = board.block                           # all of its state, 67,756 bytes; board.block = kept goes back
    board.step()                                 # one instruction
    pc = board.registers().pc
    ran, samples = board.until(50_688, [0x0123]) # to this address, or for so many T-states
    ran, _ = board.until(50_688, watched={0x4C00: WRITE}) # to a write there: ran.before and ran.after are the byte
    board.close()                                # gives its memory back, as the end of `with LiveBoard(roms) as board` does

A `Board` has the same calls but the last four, and is nothing but its block: each call reads and writes all of that, which takes longer, and
`board.view("work_ram")` is what is there after each call.

The library is the shared object that $PAC_HOST names, else the one beside this file, where `pip install hosts/python` lays it, else that of an
unpacked release. In the repository it is made of hosts/out/libpac_host.a, which hosts/build leaves, by the C compiler `cc`, the first time
and whenever the library is newer; a line on standard error says so.

C takes what it is handed for what it wants: of a number that is too great it would use the low bits alone. So each number is looked at here
first, and one that is out of range raises ValueError; bytes are those of a buffer, and nothing else is taken for them. Calls for one board
from several threads come one after another; those for different boards run at the same time.
"""
from __future__ import annotations

import array
import ctypes
import operator
import os
import pathlib
import subprocess
import sys
import tempfile
import threading
from collections.abc import Callable, Iterable, Mapping
from typing import TYPE_CHECKING, Any, Protocol, SupportsIndex, TypeAlias

if TYPE_CHECKING:
    from _typeshed import ReadableBuffer, WriteableBuffer
    from numpy import uint8  # type: ignore[import,unused-ignore]
    from numpy.typing import NDArray  # type: ignore[import,unused-ignore]

    class Array(Protocol):
        """What an array of numpy has, also where numpy isn't there to tell."""

        @property
        def nbytes(self) -> int: ...
        def tobytes(self) -> bytes: ...

    Readable: TypeAlias = ReadableBuffer | Array
    Writable: TypeAlias = WriteableBuffer | Array

HERE = pathlib.Path(__file__).resolve().parent
OUT = HERE.parent / "out"
SONAME = "libpac_host.so.0"
BOARD_SIZE, ROMS_SIZE, STATE_SIZE, RGBA_SIZE = 67_756, 25_120, 67_756, 258_048  # bytes
WIDTH, HEIGHT = 288, 224  # pixels
FRAME_MICROSECONDS, FRAME_SAMPLES, SAMPLE_RATE, SWITCHES = 16_500, 1_584, 96_000, 0xC9
STEP_SAMPLES, ALIGNED, CLOSED = 2, 16, 5  # room for a step, what the address of a live board's memory is divided by, and the code of a closed one
SAMPLE_TICKS = 32  # T-states from one sample to the next
RGBA, BGRA = 0, 1  # the order of a pixel's bytes: red, green, blue and 255, or blue, green, red and 255
UNTIL_TIME, UNTIL_PLACE, UNTIL_STOP, UNTIL_FULL, UNTIL_ACCESS = 1, 2, 3, 4, 5  # why LiveBoard.until ended
WRITE, READ = 1, 2  # what is watched of an address, and what a step did there
NAMES = """P1_UP P1_LEFT P1_RIGHT P1_DOWN RACK_TEST COIN1 COIN2 CREDIT
P2_UP P2_LEFT P2_RIGHT P2_DOWN BOARD_TEST START1 START2 COCKTAIL""".split()
INPUTS = {name: 1 << bit for bit, name in enumerate(NAMES)}
CODES = {
    1: "a length is wrong",
    2: "the block isn't the state of a board",
    3: "the microseconds in all would pass 2^50",
    4: "the buffer has less room than the samples that the call could give",
} | {10 + at: f"the state file is refused: V{at}" for at in range(1, 7)}
PARTS = {  # of a block, by the header's names: where each begins, and how many bytes it has
    "tile_ram": (82, 1024), "colour_ram": (1106, 1024), "work_ram": (2130, 1024), "coordinates": (3154, 16), "wave_registers": (3170, 32),
    "picture": (3224, 64_512),
}  # fmt: skip


class Refused(Exception):
    """A call is refused, and nothing is changed: its code."""

    def __init__(self, code: int) -> None:
        super().__init__(CODES.get(code, f"code {code}"))
        self.code = code


class Closed(Refused):
    """A live board was closed."""

    def __init__(self) -> None:
        super().__init__(CLOSED)
        self.args = ("the board is closed",)


class Ran(ctypes.Structure):
    """What a run did, as pac_ran of the header."""

    ticks: int
    samples: int
    pictures: int
    stop: int
    pc: int
    bytes: ctypes.Array[ctypes.c_uint8]
    vector: int
    _fields_ = [
        ("ticks", ctypes.c_uint64), ("samples", ctypes.c_uint32), ("pictures", ctypes.c_uint32), ("stop", ctypes.c_uint32),
        ("pc", ctypes.c_uint16), ("bytes", ctypes.c_uint8 * 4), ("vector", ctypes.c_uint8), ("zero", ctypes.c_uint8),
    ]  # fmt: skip


class Until(ctypes.Structure):
    """What LiveBoard.until did, as pac_until of the header: `why` is UNTIL_TIME, and so on."""

    ticks: int
    samples: int
    pictures: int
    why: int
    stop: int
    pc: int
    address: int
    access: int
    before: int
    after: int
    vector: int
    bytes: ctypes.Array[ctypes.c_uint8]
    _fields_ = [
        ("ticks", ctypes.c_uint64), ("samples", ctypes.c_uint32), ("pictures", ctypes.c_uint32), ("why", ctypes.c_uint32), ("stop", ctypes.c_uint32),
        ("pc", ctypes.c_uint16), ("address", ctypes.c_uint16), ("access", ctypes.c_uint8), ("before", ctypes.c_uint8), ("after", ctypes.c_uint8),
        ("vector", ctypes.c_uint8), ("bytes", ctypes.c_uint8 * 4), ("zero", ctypes.c_uint32),
    ]  # fmt: skip


class Registers(ctypes.Structure):
    """The registers of a board, as pac_registers of the header."""

    time: int
    steps: int
    pc: int
    sp: int
    ix: int
    iy: int
    a: int
    f: int
    b: int
    c: int
    d: int
    e: int
    h: int
    l: int
    alternate_a: int
    alternate_f: int
    alternate_b: int
    alternate_c: int
    alternate_d: int
    alternate_e: int
    alternate_h: int
    alternate_l: int
    i: int
    r: int
    interrupt_mode: int
    iff1: bool
    iff2: bool
    halted: bool
    after_ei: bool
    _fields_ = [(name, ctypes.c_uint64) for name in ("time", "steps")] + [(name, ctypes.c_uint16) for name in ("pc", "sp", "ix", "iy")] + [
        (name, ctypes.c_uint8) for name in (*"afbcdehl", *(f"alternate_{name}" for name in "afbcdehl"), "i", "r", "interrupt_mode")
    ] + [(name, ctypes.c_bool) for name in ("iff1", "iff2", "halted", "after_ei")] + [("zero", ctypes.c_uint8)]  # fmt: skip


class Handle(ctypes.Structure):
    """The handle of a live board, as pac_live of the header."""

    at: int
    size: int
    seal: int
    memory: object
    _fields_ = [("at", ctypes.c_void_p), ("size", ctypes.c_size_t), ("seal", ctypes.c_uint64)]


def shared_object() -> str:
    """The path of the shared object, which is made where it isn't there or is older than the library."""
    if "PAC_HOST" in os.environ:
        return os.environ["PAC_HOST"]
    is_released = HERE.parts[-4:-1] == ("share", "pacboard", "hosts")
    for path in (HERE / SONAME, *(prefix / "lib" / SONAME for prefix in HERE.parents[3:4] if is_released)):
        if path.is_file():
            return os.fspath(path)
    archive, shared = OUT / "libpac_host.a", OUT / "libpac_host.so"
    if not archive.exists():
        raise OSError(f"{archive} isn't there: hosts/build makes it")
    if not shared.exists() or shared.stat().st_mtime < archive.stat().st_mtime:
        with tempfile.TemporaryDirectory(dir=OUT, prefix=".pacboard-") as room:  # (another process may be looking for it)
            words = ["cc", "-shared", "-o", f"{room}/made", "-Wl,--whole-archive", str(archive), "-Wl,--no-whole-archive"]
            print("pacboard.py:", *words, file=sys.stderr)
            if subprocess.run(words, check=False).returncode:
                raise OSError(f"{shared} isn't made: cc refuses the library")
            os.replace(f"{room}/made", shared)
    return os.fspath(shared)


def library() -> ctypes.CDLL:
    """The library, whose board has the size that this file knows."""
    file = shared_object()
    found = ctypes.CDLL(file)
    size, text, written = ctypes.c_size_t, ctypes.c_char_p, ctypes.c_void_p
    arguments: dict[str, tuple[Any, ...]] = {
        "pac_size": (),
        "pac_init": (written, text, size, ctypes.c_uint8),
        "pac_reset": (written,),
        "pac_hold": (written, ctypes.c_uint16, ctypes.c_uint16),
        "pac_exec": (written, text, size, ctypes.c_uint32, written, size, written),
        "pac_draw": (written, text, size, written, size),
        "pac_save": (written, text, size, written, size),
        "pac_load": (written, text, size, text, size),
        "pac_peek": (written, text, size, ctypes.c_uint16, written, size),
        "pac_live_size": (),
        "pac_live_open": (written, text, size, ctypes.c_uint8),
        "pac_live_close": (written,),
        "pac_live_put": (written, text, size, text),
        "pac_live_give": (written, written),
        "pac_live_reset": (written,),
        "pac_live_hold": (written, ctypes.c_uint16, ctypes.c_uint16),
        "pac_live_exec": (written, ctypes.c_uint32, written, size, written),
        "pac_live_step": (written, written, size, written),
        "pac_live_until": (written, ctypes.c_uint32, text, size, text, size, written, size, written),
        "pac_live_peek": (written, ctypes.c_uint16, written, size),
        "pac_live_registers": (written, written),
        "pac_live_draw": (written, ctypes.c_uint8, written, size),
        "pac_live_save": (written, written, size),
        "pac_live_load": (written, text, size),
    }
    for name, kinds in arguments.items():
        call = getattr(found, name, None)
        if call is None:
            raise OSError(f"{file} isn't the board's library: it has no {name}")
        call.restype, call.argtypes = ctypes.c_uint32 if kinds else size, kinds
    if found.pac_size() != BOARD_SIZE:
        raise OSError(f"the library's board has {found.pac_size()} bytes, and this file's {BOARD_SIZE}")
    return found


LIBRARY = library()


def number(what: str, value: SupportsIndex, bits: int) -> int:
    """A whole number that so many bits hold; what it is, where it isn't one."""
    found = operator.index(value)
    if not 0 <= found < 1 << bits:
        raise ValueError(f"{what}: {found} isn't a number from 0 to {(1 << bits) - 1}")
    return found


def bytes_of(buffer: Readable) -> bytes:
    """The bytes of a buffer. `bytes` would take a number for a count of zeros, and a list for bytes."""
    whole: Any = buffer
    return bytes(memoryview(whole))


def done(code: int) -> None:
    """Passes a code of 0, and raises what another one means."""
    if code:
        raise Closed() if code == CLOSED else Refused(code)


def block_of(buffer: Readable) -> bytes:
    """The bytes of a block."""
    content = bytes_of(buffer)
    if len(content) != BOARD_SIZE:
        raise Refused(1)
    return content


def places_of(addresses: Iterable[SupportsIndex]) -> bytes:
    """A set of addresses as LiveBoard.until takes it, a byte for each of 65,536: who hands in the same ones often makes it once."""
    found = bytearray(1 << 16)
    for address in addresses:
        found[number("address", address, 16)] = 1
    return bytes(found)


def watched_of(addresses: Mapping[int, SupportsIndex]) -> bytes:
    """What is watched of addresses, WRITE, READ or both, as LiveBoard.until takes it: a byte for each of 65,536."""
    found = bytearray(1 << 16)
    for address, kinds in addresses.items():
        found[number("address", address, 16)] = number("kinds", kinds, 2)
    return bytes(found)


def picture_in(buffer: Writable) -> tuple[object, int]:
    """A buffer for a picture as a call takes it: where it is, and its length."""
    whole: Any = buffer
    if memoryview(whole).nbytes != RGBA_SIZE:
        raise Refused(1)
    return (ctypes.c_char * RGBA_SIZE).from_buffer(whole), RGBA_SIZE


def given(samples: ctypes.Array[ctypes.c_int16], ran: Ran | Until) -> array.array[int]:
    """The samples that a call gave, of the buffer that it was handed."""
    return array.array("h", ctypes.string_at(samples, 2 * ran.samples))


def held_of(content: bytes) -> list[int]:
    """What is held in each frame, of the bytes of a file that hosts/script.py makes."""
    if len(content) % 2 != 0:
        raise ValueError(f"what is held in each frame has two bytes a frame, and not {len(content)} in all")
    return [low | high << 8 for low, high in zip(content[::2], content[1::2])]


def status_of(name: str, main: Callable[[list[str]], int], words: list[str]) -> int:
    """The exit status of a host's main function, which tells what it can't do in one line: 3 where a file can't be read or written, 4 where
    the library or this file refuses what it is handed."""
    try:
        return main(words)
    except OSError as error:
        status, told = 3, str(error)
    except (Refused, ValueError) as error:
        status, told = 4, str(error)
    print(f"{name}: {told}", file=sys.stderr)
    return status


class Calls:
    """What a board answers, be it a block or live. It is pickled, and copied, by its ROM set and its block."""

    roms: bytes
    lock: threading.Lock

    def call(self, name: str, *words: object) -> None:
        """Makes a call of the library for this board, by the name that it has for a block without `pac_`."""
        raise NotImplementedError

    @property
    def block(self) -> bytes:
        """All of its state: a snapshot."""
        raise NotImplementedError

    def become(self, roms: bytes, block: bytes) -> None:
        """Becomes the board of a ROM set and a block, if there is one."""
        raise NotImplementedError

    def __getstate__(self) -> tuple[bytes, bytes]:
        """What is kept of a board: its ROMs and its block."""
        return self.roms, self.block

    def __setstate__(self, kept: tuple[bytes, bytes]) -> None:
        """Becomes the board that was kept, where there is one."""
        self.become(*kept)

    def reset(self) -> None:
        """Does what the watchdog does."""
        self.call("reset")

    def hold(self, inputs: SupportsIndex) -> None:
        """Holds these inputs, and lets all others go."""
        self.call("hold", number("inputs", inputs, 16), 0xFFFF)

    def run(self, microseconds: SupportsIndex, room: SupportsIndex | None = None) -> tuple[Ran, array.array[int]]:
        """Lets so many microseconds go by: what was done, and the samples. `room` is so many samples; where it is left out, enough for a
        board that isn't behind, as each but a state file's is."""
        asked = number("microseconds", microseconds, 32)
        count = asked * 12 // 125 + 2 if room is None else number("room", room, 32)
        ran, samples = Ran(), (ctypes.c_int16 * max(count, 1))()
        self.call("exec", asked, samples, count, ctypes.byref(ran))
        return ran, given(samples, ran)

    def draw(self) -> bytes:
        """The picture as it stands: red, green, blue and 255 for each pixel, row by row."""
        rgba = bytearray(RGBA_SIZE)
        self.draw_into(rgba)
        return bytes(rgba)

    def draw_into(self, rgba: Writable) -> None:
        """Draws the picture into a buffer of 258,048 bytes, as an array of numpy is."""
        self.call("draw", *picture_in(rgba))

    def ppm(self) -> bytes:
        """The picture as it stands as a PPM image, as `pacboard run` writes them."""
        rgba, rgb = self.draw(), bytearray(RGBA_SIZE // 4 * 3)
        for colour in range(3):
            rgb[colour::3] = rgba[colour::4]
        return b"P6\n%d %d\n255\n" % (WIDTH, HEIGHT) + rgb

    def image(self) -> NDArray[uint8]:
        """The picture as it stands as an array of numpy: 224 rows of 288 pixels, each red, green, blue and 255."""
        import numpy  # type: ignore[import,unused-ignore]  # (only who asks for it needs it)  # pylint: disable=import-outside-toplevel

        found = numpy.empty((HEIGHT, WIDTH, 4), numpy.uint8)
        self.draw_into(found)
        return found

    def peek(self, address: SupportsIndex, count: SupportsIndex = 1) -> bytes:
        """What the processor would read at so many addresses from one on; after FFFFH comes 0000H."""
        found = bytearray(number("count", count, 17))
        place = (ctypes.c_char * max(len(found), 1)).from_buffer(found or bytearray(1))
        self.call("peek", number("address", address, 16), place, len(found))
        return bytes(found)

    def save(self) -> bytes:
        """The board's state file."""
        text = ctypes.create_string_buffer(STATE_SIZE)
        self.call("save", text, STATE_SIZE)
        return text.raw

    def load(self, text: Readable) -> None:
        """Becomes the board of a state file."""
        content = bytes_of(text)
        self.call("load", content, len(content))


class Board(Calls):
    """A board that is its block: each call reads and writes all of it, and `state`, `roms` and `view` may be used between calls."""

    def __init__(self, roms: Readable, switches: SupportsIndex = SWITCHES) -> None:
        """A board at power-on."""
        self.place(bytes_of(roms))
        self.call("init", number("switches", switches, 8))

    def place(self, roms: bytes) -> None:
        """Takes ROMs, and memory for a block."""
        self.roms, self.memory, self.lock = roms, bytearray(BOARD_SIZE), threading.Lock()
        self.state = (ctypes.c_char * BOARD_SIZE).from_buffer(self.memory)

    def call(self, name: str, *words: object) -> None:
        """Makes a call of the library for this board."""
        handed = () if name in ("hold", "reset") else (self.roms, len(self.roms))
        with self.lock:
            done(getattr(LIBRARY, f"pac_{name}")(self.state, *handed, *words))

    @property
    def block(self) -> bytes:
        """All of its state: a snapshot."""
        with self.lock:
            return bytes(self.memory)

    @block.setter
    def block(self, kept: Readable) -> None:
        """Goes back to a snapshot. Whether it is one, the next call tells."""
        content = block_of(kept)
        with self.lock:
            self.memory[:] = content

    def become(self, roms: bytes, block: bytes) -> None:
        """Becomes the board of a ROM set and a block, if there is one."""
        self.place(roms)
        self.block = block
        if len(roms) != ROMS_SIZE:
            raise Refused(1)
        self.call("hold", 0, 0)  # (changes nothing, and refuses a block that is no board's)

    def view(self, part: str) -> memoryview:
        """A part of the block, of PARTS, as it is after each call: nothing is copied, and nothing can be written."""
        if part not in PARTS:
            raise ValueError(f"a block has no part {part!r}, but {', '.join(PARTS)}")
        at, size = PARTS[part]
        return memoryview(self.memory).toreadonly()[at : at + size]

    def array_of(self, part: str) -> NDArray[uint8]:
        """The same as an array of numpy, that of the picture's colour numbers with 224 rows of 288."""
        import numpy  # type: ignore[import,unused-ignore]  # (only who asks for it needs it)  # pylint: disable=import-outside-toplevel

        found = numpy.frombuffer(self.view(part), numpy.uint8)
        return found.reshape(HEIGHT, WIDTH) if part == "picture" else found


class LiveBoard(Calls):
    """A board that stays in memory until it is closed, or nobody has it any more: a call takes as long as what it does. A call of a closed
    one raises Closed."""

    def __init__(self, roms: Readable, switches: SupportsIndex = SWITCHES) -> None:
        """A board at power-on."""
        self.open(bytes_of(roms), number("switches", switches, 8))

    def open(self, roms: bytes, switches: int) -> None:
        """Takes memory, and puts a board at power-on there."""
        size = LIBRARY.pac_live_size()
        memory = ctypes.create_string_buffer(size + ALIGNED - 1)
        handle = Handle(-(-ctypes.addressof(memory) // ALIGNED) * ALIGNED, size)
        handle.memory = memory  # (as long as the handle is in use)
        done(LIBRARY.pac_live_open(ctypes.byref(handle), roms, len(roms), switches))
        self.roms, self.handle, self.lock = roms, handle, threading.Lock()

    def close(self) -> None:
        """Gives the memory back."""
        with self.lock:
            done(LIBRARY.pac_live_close(ctypes.byref(self.handle)))
            self.handle = Handle()

    @property
    def is_open(self) -> bool:
        """Whether it wasn't closed."""
        return self.handle.seal != 0

    def __enter__(self) -> LiveBoard:
        return self

    def __exit__(self, *error: object) -> None:
        if self.is_open:
            self.close()

    def call(self, name: str, *words: object) -> None:
        """Makes a call of the library for this board."""
        with self.lock:
            done(getattr(LIBRARY, f"pac_live_{name}")(ctypes.byref(self.handle), *words))

    @property
    def block(self) -> bytes:
        """All of its state: a snapshot."""
        found = ctypes.create_string_buffer(BOARD_SIZE)
        self.call("give", found)
        return found.raw

    @block.setter
    def block(self, kept: Readable) -> None:
        """Goes back to a snapshot, if it is one."""
        self.put(kept)

    def put(self, block: Readable, roms: Readable | None = None) -> None:
        """Becomes the board of a block, with other ROMs where they are given."""
        content, others = block_of(block), None if roms is None else bytes_of(roms)
        with self.lock:
            handed = self.roms if others is None else others
            done(LIBRARY.pac_live_put(ctypes.byref(self.handle), handed, len(handed), content))
            self.roms = handed

    def become(self, roms: bytes, block: bytes) -> None:
        """Becomes the board of a ROM set and a block, if there is one."""
        self.open(roms, 0)
        self.block = block

    def draw_into(self, rgba: Writable, order: SupportsIndex = RGBA) -> None:
        """Draws the picture into a buffer of 258,048 bytes, each pixel by four of them in this order, RGBA or BGRA."""
        self.call("draw", number("order", order, 8), *picture_in(rgba))

    def step(self) -> tuple[Ran, array.array[int]]:
        """Does one step: an instruction, one round of a repeating one, a halted step or an interrupt's acceptance. A run goes on from there to
        the time that it would have gone to."""
        ran, samples = Ran(), (ctypes.c_int16 * STEP_SAMPLES)()
        self.call("step", samples, STEP_SAMPLES, ctypes.byref(ran))
        return ran, given(samples, ran)

    def until(
        self, ticks: SupportsIndex, places: Iterable[SupportsIndex] = (), room: SupportsIndex | None = None, *, watched: Mapping[int, SupportsIndex] | bytes | bytearray = b""
    ) -> tuple[Until, array.array[int]]:
        """Goes on for so many T-states, or, after a step at least, to one of some addresses, to a step that writes to a watched address or reads it, or
        to a stop: what was done, and the samples. `places` are the addresses, or the bytes of `places_of`; `watched` tells of addresses what of them is
        watched, WRITE, READ or both, or is the bytes of `watched_of`. Where `room` is given, so many samples end it, too."""
        left, rest = number("ticks", ticks, 32), None if room is None else number("room", room, 32)
        handed = bytes_of(places) if isinstance(places, (bytes, bytearray, memoryview)) else places_of(places)
        seen = watched_of(watched) if isinstance(watched, Mapping) else bytes_of(watched)
        found, before = array.array("h"), Until()
        with self.lock:
            while True:
                count = min(left // SAMPLE_TICKS + 2, SAMPLE_RATE) if rest is None else rest
                ran, samples = Until(), (ctypes.c_int16 * max(count, 1))()
                done(LIBRARY.pac_live_until(ctypes.byref(self.handle), left, handed, len(handed), seen, len(seen), samples, count, ctypes.byref(ran)))
                found, left = found + given(samples, ran), max(left - ran.ticks, 0)
                for name in ("ticks", "samples", "pictures"):
                    setattr(ran, name, getattr(ran, name) + getattr(before, name))
                if ran.why == UNTIL_FULL and rest is None and ran.access:
                    ran.why = UNTIL_ACCESS  # (the next call gives the sample that had no room)
                if ran.why != UNTIL_FULL or rest is not None:
                    return ran, found
                before = ran

    def registers(self) -> Registers:
        """The registers by their names."""
        found = Registers()
        self.call("registers", ctypes.byref(found))
        return found
