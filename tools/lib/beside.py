"""What the bytes that a program writes show and sound, by our pages or by MAME's rules, and MAME itself at work: for bin/beside-mame,
bench/beside_mame.py and tools/check/conformance.

MAME plays a program, with its tiles and sounds in files that have the names of its set `pacman`, and gives the processor, its times, the memory map
and the interrupts. Its Lua notes each byte that the processor writes to RAM or to a port, with the T-state at which the instruction began, and answers
what is held where an input is read. What the board draws and sounds of these writes is worked out here, by the pages in docs/ alone: a line of the
picture at each line's moment, a sample each 32 T-states; or, by its rules, MAME's own picture. A reset by the watchdog isn't followed.

One thing of MAME's is put right. It counts time in whole attoseconds, rounded down for its screen and for its processor, so that its frame is 50,688
attoseconds shorter than 50,688 of its T-states, and its processor does only whole T-states up to a blank. So where a halted step ends on the T-state
before a blank, MAME mostly accepts the interrupt there and leaves out a halted step that the board still does. What is written from there to the next
acceptance is taken 4 T-states later; `Played.late` is how many times that was. Where another instruction ends there, the board does one more before
its acceptance, and nothing can be put right; `Played.early` has the addresses that such acceptances pushed to, and `first_early` the
first frame, from 1 on, that ends so; `flags` has the addresses to which PUSH AF has written F. An instruction that is read as data while it runs is taken for one that began then.
"""
import array
import functools
import os
import pathlib
import shutil
import struct
import subprocess
import time
from collections.abc import Iterator, Sequence

import blocks
import judge_picture

MAME = shutil.which(os.environ.get("MAME", "mame"), path=os.environ.get("PATH", os.defpath) + ":/usr/games")

# The files of MAME's set: the sockets of tiles, sprites, colours, lookup and waves, and a quarter of the program each. The timing PROM is there and
# isn't used.
FILES = {"pacman.5e": "tiles", "pacman.5f": "sprites", "82s123.7f": "colours", "82s126.4a": "lookup", "82s126.1m": "wave", "82s126.3m": "wave"}
QUARTERS = ["pacman.6e", "pacman.6f", "pacman.6h", "pacman.6j"]

# T-states of a second, a frame, a line and a sample.
SECOND, FRAME, LINE, SAMPLE = 3_072_000, 50_688, 192, 32
SAMPLES = FRAME // SAMPLE
WIDTH, HEIGHT = judge_picture.WIDTH, judge_picture.HEIGHT
FIRST_LINE = 40  # lines of the scan before the first that shows

# What MAME does otherwise in a picture, each with the sentence that tells it.
RULES = {
    "row": "sprites 0 to 2 are a row lower in MAME",
    "wrap": "a sprite is there a second time in MAME, 256 columns to the left",
    "flip": "the flip leaves the sprites in MAME",
    "blank": "MAME draws all lines at the blank, and not as they are scanned",
}

# What MAME's Lua does. A tap on the reads keeps the time at which each address was last read; the running instruction is at CURPC, so the time of
# that address is when it began. A halted step reads the same byte as the one before it, 4 T-states later; a write right after it is an acceptance's.
# One that begins on the T-state before a blank is late by 4 on the board of docs/. It is noted too, as a write to address 0; before the write of an
# acceptance that comes too soon one to address 1 is noted, and before that of F by PUSH AF one to address 2.
EVENT = struct.Struct("<QHB")
LUA = """
local cpu = manager.machine.devices[":maincpu"]
local bus = cpu.spaces["program"]
local pc = cpu.state["CURPC"]
local log = assert(io.open(%(log)r, "wb"))
local held = { %(held)s }
local read_at, byte_at, last, halted, accepted, late, pushed_at, pushes = {}, {}, -1, false, -1, 0, -1, 0
local sp, sp_at = cpu.state["SP"], 0

-- when the running instruction began
local function began()
    local time = read_at[pc.value] or 0
    if halted then
        time = time + 4
        if time ~= accepted then
            accepted = time
            late = (time + 1) %% %(frame)d == 0 and 4 or 0
            if late > 0 then log:write(string.pack("<I8I2B", time, 0, 0)) end
        end
    end
    return time + late
end

-- what the pushes of the instruction at an address are: PUSH, CALL, RST and EX (SP),.. have two of their own
local function own_pushes(at)
    local code = byte_at[at] or 0
    if code == 0xdd or code == 0xfd then code = byte_at[(at + 1) & 0xffff] or 0 end
    return (code & 0xcf == 0xc5 or code & 0xc7 == 0xc7 or code & 0xc7 == 0xc4 or code == 0xcd or code == 0xe3) and 2 or 0
end

-- when the instruction of a write began: an acceptance after an instruction that isn't a halted step has begun when that ended
local function written(address)
    local time = began()
    if pushed_at ~= time then pushed_at, pushes = time, 0 end
    -- (a store may go to where SP is)
    if halted or address ~= sp.value or pushes == 0 and sp_at == sp.value then return time end
    pushes = pushes + 1
    local now = math.floor(emu.time() * %(second)d + 0.5)
    -- (a call that isn't made pushes nothing; one that is made has done so within 14 T-states)
    if pushes <= own_pushes(pc.value) and now - time <= 14 then
        if pushes == 2 and byte_at[pc.value] == 0xf5 then log:write(string.pack("<I8I2B", time, 2, 0)) end -- F of PUSH AF
        return time
    end
    -- (an acceptance writes 7 and 10 T-states after it has begun)
    local start = now - (pushes %% 2 == 1 and 7 or 10)
    if (start + 1) %% %(frame)d == 0 then log:write(string.pack("<I8I2B", start, 1, 0)) end
    return start
end

-- a byte of the inputs, by the frame in which the instruction began
local function input(place)
    local frame = began() // %(frame)d
    for _, part in ipairs(held) do
        if frame < part[1] then return part[2 + place] end
        frame = frame - part[1]
    end
    return 255
end

reads = bus:install_read_tap(0, 0xffff, "reads", function(address, data, mask)
    local now = math.floor(emu.time() * %(second)d + 0.5)
    halted = address == last and now == read_at[address] + 4
    read_at[address], byte_at[address], last = now, data, address
    if address == pc.value then sp_at = sp.value end
    if now > %(last)d then manager.machine:exit() end
    if address & 0x5000 ~= 0x5000 then return data end
    local port = address & 0xff
    if port < 0x40 then return input(0) end
    if port < 0x80 then return input(1) end
    if port < 0xc0 then return %(switches)d end
    return data
end)
writes = bus:install_write_tap(0x4000, 0xffff, "writes", function(address, data, mask)
    log:write(string.pack("<I8I2B", written(address), address, data))
end)
"""
# What it does besides: MAME's own pictures are written down as they are done.
PICTURES = """
local pictures = assert(io.open(%(pictures)r, "wb"))
local screen = manager.machine.screens[":screen"]
emu.register_frame_done(function() pictures:write((screen:pixels())) end)
"""


class Failed(Exception):
    """MAME did otherwise than it should."""


def parts_of(block: bytes) -> dict[str, bytes]:
    """The parts of a ROM block by their names."""
    found, at = {}, 0
    for name, size in blocks.ROMS.items():
        found[name], at = block[at : at + size], at + size
    return found


# ---- MAME

def lay_set(block: bytes, folder: pathlib.Path) -> None:
    """Lays a ROM block as the files of MAME's set."""
    folder.mkdir(parents=True)
    parts = parts_of(block)
    for file, part in FILES.items():
        (folder / file).write_bytes(parts[part])
    for at, file in enumerate(QUARTERS):
        (folder / file).write_bytes(parts["program"][4096 * at : 4096 * (at + 1)])


def stretches(masks: Sequence[int]) -> Iterator[tuple[int, int, int]]:
    """What is held as MAME's Lua takes it: for how many frames which bytes the two input ports give."""
    at = 0
    while at < len(masks):
        end = next((end for end in range(at, len(masks)) if masks[end] != masks[at]), len(masks))
        yield end - at, 255 - masks[at] % 256, 255 - masks[at] // 256
        at = end


def command(room: pathlib.Path, seconds: int) -> list[str]:
    """The words that start MAME, without a window or a sound device."""
    words = [str(MAME), "pacman", "-rompath", f"{room}/roms", "-autoboot_script", f"{room}/taps.lua", "-autoboot_delay", "0"]
    words += ["-video", "none", "-sound", "none", "-nothrottle", "-skip_gameinfo", "-noreadconfig", "-homepath", str(room)]
    return words + ["-cfg_directory", str(room), "-nvram_directory", str(room), "-seconds_to_run", str(seconds)]


class Played:
    """What MAME did with a program: its writes, in order, each the T-state at which its instruction began, the address and the byte."""

    def __init__(self, name: str, block: bytes, masks: Sequence[int], room: pathlib.Path, switches: int = 0xC9) -> None:
        """Has MAME play a frame for each mask of what is held, in a folder that isn't there yet."""
        self.frames, self.pictures = len(masks), room / "pictures"
        lay_set(block, room / "roms/pacman")
        log = room / "writes"
        held = ", ".join("{%d, %d, %d}" % part for part in stretches(masks))
        last = (self.frames + 1) * FRAME + LINE
        script = LUA % dict(log=str(log), held=held, frame=FRAME, second=SECOND, last=last, switches=switches)
        (room / "taps.lua").write_text(script + PICTURES % dict(pictures=str(self.pictures)))
        self.play(name, room, log)
        noted = [(int(at), int(address), int(byte)) for at, address, byte in EVENT.iter_unpack(log.read_bytes())]
        self.writes = [write for write in noted if write[1] >= 0x4000]
        self.late = sum(write[1] == 0 and write[0] < self.frames * FRAME for write in noted)
        self.flags = {after[1] & 0x1FFF | 0x4000 for write, after in zip(noted, noted[1:]) if write[1] == 2}
        early = [(write[0], after[1]) for write, after in zip(noted, noted[1:]) if write[1] == 1]
        self.early = {address for _, address in early}
        self.first_early = min((at // FRAME + 1 for at, _ in early), default=None)

    def play(self, name: str, room: pathlib.Path, log: pathlib.Path) -> None:
        """Runs MAME, and tells how far it is."""
        environment = os.environ | {"SDL_VIDEODRIVER": "dummy", "HOME": str(room)}
        with open(room / "said", "w", encoding="utf-8") as told:
            words = command(room, (self.frames + 1) * FRAME // SECOND + 2)
            with subprocess.Popen(words, stdout=told, stderr=told, cwd=room, env=environment) as mame:
                begun = time.monotonic()
                while mame.poll() is None:
                    time.sleep(0.1)
                    if time.monotonic() - begun > 1.5:
                        begun = time.monotonic()
                        print(f"{name}: MAME plays, {min(last_time(log) // FRAME, self.frames)} of {self.frames} frames", flush=True)
        if not log.exists():
            raise Failed(f"MAME ended with status {mame.returncode}, without a write: {(room / 'said').read_text().strip()}")

    def own_picture(self, frame: int) -> bytes:
        """MAME's own picture at the end of a frame, the first of which is 0: red, green and blue of each pixel. Empty where there is none."""
        size = 4 * WIDTH * HEIGHT
        with open(self.pictures, "rb") as file:
            file.seek((frame + 1) * size)  # (the first is what the screen has before the first blank)
            pixels = file.read(size)
        return rgb(pixels, (2, 1, 0)) if len(pixels) == size else b""


def last_time(log: pathlib.Path) -> int:
    """The time of the last write in a file that may still grow, 0 where there is none."""
    size = log.stat().st_size // EVENT.size * EVENT.size if log.exists() else 0
    if size == 0:
        return 0
    with open(log, "rb") as file:
        file.seek(size - EVENT.size)
        return int(EVENT.unpack(file.read(EVENT.size))[0])


def rgb(pixels: bytes, order: tuple[int, int, int] = (0, 1, 2)) -> bytes:
    """Red, green and blue of pixels of four bytes each, which have them in some order."""
    rows = bytearray(3 * (len(pixels) // 4))
    for channel, place in enumerate(order):
        rows[channel::3] = pixels[place::4]
    return bytes(rows)


# ---- What is drawn

# The places of a row's cells in tile RAM, from column 0 to 35.
CELLS = [[judge_picture.place(column, row) for column in range(judge_picture.COLUMNS)] for row in range(judge_picture.ROWS)]


def weighed(byte: int, lowest: int, weights: tuple[int, ...]) -> int:
    """The sum of the weights of the bits that are 1, from a lowest one on."""
    return sum(weight for bit, weight in enumerate(weights) if byte >> lowest + bit & 1)


class Seen:
    """What a line of a picture is drawn of: RAM, places of sprites, and the flip."""

    def __init__(self, ram: bytes, places: bytes, is_flipped: bool) -> None:
        self.ram, self.places, self.is_flipped = ram, places, is_flipped


class Artist:
    """Draws by the parts of a ROM block."""

    def __init__(self, block: bytes) -> None:
        self.parts = parts_of(block)
        colours = self.parts["colours"][:16]
        # red, green and blue of each colour number, as tables for bytes.translate
        self.lights = [
            bytes(weighed(byte, lowest, weights) for byte in colours).ljust(256, b"\0")
            for lowest, weights in ((0, (33, 71, 151)), (3, (33, 71, 151)), (6, (81, 174)))
        ]
        self.tile_row = functools.cache(self._tile_row)
        self.sprite_row = functools.cache(self._sprite_row)
        self.cells = functools.lru_cache(20_000)(self._cells)

    def _tile_row(self, code: int, palette: int, y: int) -> bytes:
        """The colour numbers of a tile's row in a palette."""
        return bytes(judge_picture.numbers(self.parts["lookup"], palette, judge_picture.tile_line(self.parts["tiles"], code, y)))

    def _sprite_row(self, shape: int, palette: int, y: int) -> bytes:
        """The colour numbers of a sprite's row in a palette, y from its top as it shows; the shape has the code and the flips."""
        values = judge_picture.sprite_line(self.parts["sprites"], shape >> 2, 15 - y if shape & 2 else y)
        return bytes(judge_picture.numbers(self.parts["lookup"], palette, values[::-1] if shape & 1 else values))

    def _cells(self, codes: bytes, palettes: bytes, y: int) -> bytes:
        """The colour numbers of a line of cells, by their codes and palettes and the line in their row."""
        return b"".join(self.tile_row(code, palette & 31, y) for code, palette in zip(codes, palettes))

    def line(self, seen: Seen, y: int, rules: frozenset[str] = frozenset()) -> bytes:
        """Line y of the picture as it shows, by our pages but for some of MAME's rules."""
        below = HEIGHT - 1 - y if seen.is_flipped else y
        cells, ram, is_left = CELLS[below // 8], seen.ram, "flip" in rules
        line = bytearray(self.cells(bytes(ram[cell] for cell in cells), bytes(ram[0x400 + cell] for cell in cells), below % 8))
        if seen.is_flipped and is_left:
            line.reverse()
        for at in range(14, -1, -2):  # lower numbers in front
            row = (y if is_left else below) - seen.places[at] + 31 - (at < 6 and "row" in rules)
            if 0 <= row < 16:
                shown = self.sprite_row(ram[0xFF0 + at], ram[0xFF1 + at] & 31, row)
                for left in (272 - seen.places[at + 1], 16 - seen.places[at + 1])[: 1 + ("wrap" in rules)]:
                    for x, number in enumerate(shown, left):
                        if number and 16 <= x < WIDTH - 16:
                            line[x] = number
        if seen.is_flipped and not is_left:
            line.reverse()
        return bytes(line)

    def picture(self, lines: Sequence[Seen], rules: frozenset[str] = frozenset()) -> bytes:
        """Red, green and blue of a picture, of what each of its lines was drawn of; the last is the state at the blank."""
        drawn_of = [lines[-1]] * HEIGHT if "blank" in rules else lines
        numbers = b"".join(self.line(seen, y, rules) for y, seen in enumerate(drawn_of))
        pixels = bytearray(3 * len(numbers))
        for channel, light in enumerate(self.lights):
            pixels[channel::3] = numbers.translate(light)
        return bytes(pixels)


# ---- What is kept, and what sounds

class Board:
    """What the bytes that were written leave: RAM, places of sprites, voices, switches; and what sounds of it."""

    def __init__(self, block: bytes) -> None:
        waves = parts_of(block)["wave"]
        self.waveforms = [[byte & 15 for byte in waves[32 * number :][:32]] for number in range(8)]
        self.ram, self.places, self.registers, self.latch = bytearray(4096), bytearray(16), bytearray(32), bytearray(8)
        self.accumulators, self.voices = [0, 0, 0], [(0, 0, self.waveforms[0])] * 3
        self.is_changed, self.last = True, Seen(bytes(self.ram), bytes(16), False)

    def write(self, address: int, byte: int) -> None:
        """A byte goes to an address; A15 isn't wired, nor is A13 where A14 is high."""
        place = address & 0x1FFF
        if not address & 0x4000:
            return
        if place < 0x1000:
            byte = 0 if 0x800 <= place < 0xC00 else byte
            self.is_changed |= self.ram[place] != byte
            self.ram[place] = byte
            return
        place &= 0xFF
        if place < 0x40:
            self.latch[place & 7] = byte & 1
            self.is_changed = True
        elif place < 0x60:
            self.registers[place - 0x40] = byte & 15
            self.voices = [self.voice(number) for number in range(3)]
        elif place < 0x70:
            self.places[place - 0x60] = byte
            self.is_changed = True

    def voice(self, number: int) -> tuple[int, int, list[int]]:
        """A voice's frequency, volume and waveform. The lowest nibble of the frequency is the first voice's alone."""
        first = 0x10 + 5 * number
        nibbles = [self.registers[first] if number == 0 else 0, *self.registers[first + 1 : first + 5]]
        frequency = sum(nibble << 4 * at for at, nibble in enumerate(nibbles))
        return frequency, self.registers[first + 5], self.waveforms[self.registers[5 + 5 * number] & 7]

    def sample(self) -> int:
        """The next sample; each voice goes on by its frequency."""
        if not self.latch[1]:
            return 0
        total = 0
        for number, (frequency, volume, waveform) in enumerate(self.voices):
            at = self.accumulators[number]
            total += (waveform[at >> 15] - 8) * volume
            self.accumulators[number] = at + frequency & 0xFFFFF
        return 64 * total

    def seen(self) -> Seen:
        """What a line that is drawn now is drawn of."""
        if self.is_changed:
            self.last, self.is_changed = Seen(bytes(self.ram), bytes(self.places), bool(self.latch[3])), False
        return self.last

    def kept(self) -> bytes:
        """All RAM in the order of its addresses: tiles, colours and work."""
        return bytes(self.ram[:0x800] + self.ram[0xC00:])


def address_of(place: int) -> int:
    """The address of a byte of RAM as Board.kept has it."""
    return 0x4000 + place if place < 0x800 else 0x4400 + place


class Frame:
    """What a frame leaves: what each line of its picture was drawn of, its samples, and RAM at its end."""

    def __init__(self, lines: list[Seen], samples: "array.array[int]", ram: bytes) -> None:
        self.lines, self.samples, self.ram = lines, samples, ram


def frames_of(block: bytes, writes: Sequence[tuple[int, int, int]], frames: int) -> Iterator[Frame]:
    """Each frame of what was written. What is due at a moment sees the instructions that began before it."""
    board, at = Board(block), 0
    for frame in range(frames):
        lines, samples = [], array.array("h")
        for count in range(1, SAMPLES + 1):
            moment = FRAME * frame + SAMPLE * count
            while at < len(writes) and writes[at][0] < moment:
                board.write(*writes[at][1:])
                at += 1
            samples.append(board.sample())
            if count * SAMPLE % LINE == 0 and count * SAMPLE > FIRST_LINE * LINE:
                lines.append(board.seen())
        yield Frame(lines, samples, board.kept())
