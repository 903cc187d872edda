"""A board that runs, for tools/check/conformance: the processor of judge_processor.py with what tools/lib/beside.py draws and sounds, the memory map,
the interrupts and the watchdog, by docs/DECISIONS.md and "The board on one page" of docs/USING.md. This was written from these pages alone, without a
look at the program.
"""
import array

import beside
import blocks
import judge_processor

FLIP_FLOPS = ("iff1", "iff2", "halted", "after_ei")  # as the bits of a block's field `flags`
LETTERS = "BCDEHL A"
WATCHDOG = 16  # blanks


class Machine(beside.Board):
    """A board with its ROM block, and what it has done since the last frame began."""

    def __init__(self, block: bytes, switches: int = 0xC9) -> None:
        super().__init__(block)
        self.program, self.switches = beside.parts_of(block)["program"], switches
        self.processor = judge_processor.Processor(self)
        self.vector = self.blanks = self.held = self.time = self.steps = 0
        self.is_requested = False
        self.lines: list[beside.Seen] = []
        self.samples: array.array[int] = array.array("h")

    def reset(self) -> None:
        """What the watchdog does."""
        self.processor.reset()
        self.latch = bytearray(8)
        self.is_requested, self.blanks, self.is_changed = False, 0, True

    # ---- The bus

    def read(self, address: int) -> int:
        """The byte that the processor reads."""
        if not address & 0x4000:
            return self.program[address & 0x3FFF]
        place = address & 0x1FFF
        if place < 0x1000:
            return 0xBF if 0x800 <= place < 0xC00 else self.ram[place]
        port = place >> 6 & 3
        return (255 - self.held % 256, 255 - self.held // 256, self.switches, 0xFF)[port]

    def write(self, address: int, byte: int) -> None:
        """Writes a byte; what isn't drawn or sounded is kept here."""
        super().write(address, byte)
        place = address & 0x1FFF
        if address & 0x4000 and place >= 0x1000:
            place &= 0xFF
            if place >= 0xC0:
                self.blanks = 0
            elif place < 0x40 and place & 7 == 0 and not byte & 1:
                self.is_requested = False

    def port_in(self, port: int) -> int:
        """What a port reads."""
        return 0xFF

    def port_out(self, port: int, byte: int) -> None:
        """Puts a byte out: port 0 sets the vector."""
        if port == 0:
            self.vector = byte

    # ---- Time

    def step(self) -> bool:
        """Makes a step, and what falls due in it: whether a frame is over."""
        vector = self.vector if self.is_requested else None
        if vector is not None and self.processor.accepts():
            ticks = self.processor.step(vector)
            self.is_requested = False
        else:
            ticks = self.processor.step(None)
        self.steps += 1
        before, self.time = self.time, self.time + ticks
        if before // beside.SAMPLE == self.time // beside.SAMPLE:
            return False
        return self.meet(self.time // beside.SAMPLE * beside.SAMPLE % beside.FRAME)

    def meet(self, moment: int) -> bool:
        """What happens at a moment of a frame: whether it is its end."""
        self.samples.append(self.sample())
        if moment % beside.LINE == 0 and (moment > beside.FIRST_LINE * beside.LINE or moment == 0):
            self.lines.append(self.seen())
        if moment:
            return False
        self.is_requested |= bool(self.latch[0])
        self.blanks += 1
        if self.blanks >= WATCHDOG:
            self.reset()
        return True

    def frame(self, held: int = 0) -> beside.Frame:
        """Runs to the end of a frame, in which these inputs are held."""
        self.held, self.lines, self.samples = held, [], array.array("h")
        while not self.step():
            pass
        return beside.Frame(self.lines, self.samples, self.kept())

    # ---- State files

    def load(self, text: bytes) -> None:
        """Becomes the board of a state file."""
        self.load_processor(text)
        for name in ("time", "steps", "vector", "blanks", "held", "switches"):
            setattr(self, name, blocks.number(text, name))
        for name, first in (("tile RAM", 0), ("colour RAM", 0x400), ("work RAM", 0xC00)):
            self.ram[first : first + 0x400] = blocks.part(text, name)
        self.places = bytearray(blocks.part(text, "coordinates"))
        self.registers = bytearray(blocks.part(text, "wave"))
        accumulators, latch = blocks.part(text, "accumulators"), blocks.number(text, "latch")
        self.accumulators = [int.from_bytes(accumulators[at : at + 4], "little") for at in (0, 4, 8)]
        self.latch = bytearray(latch >> bit & 1 for bit in range(8))
        self.is_requested = bool(blocks.number(text, "request"))
        self.voices = [self.voice(number) for number in range(3)]
        self.is_changed = True

    def load_processor(self, text: bytes) -> None:
        """Takes the registers of a state file."""
        cpu = self.processor
        for at, letter in enumerate(LETTERS):
            if letter != " ":
                cpu.r[at], cpu.others[at] = blocks.number(text, letter), blocks.number(text, letter + "'")
        cpu.f, cpu.others[judge_processor.MEMORY] = blocks.number(text, "F"), blocks.number(text, "F'")
        cpu.index = {0xDD: blocks.number(text, "IX"), 0xFD: blocks.number(text, "IY")}
        cpu.sp, cpu.pc, cpu.i, cpu.refresh, cpu.mode = (blocks.number(text, name) for name in ("SP", "PC", "I", "R", "IM"))
        cpu.iff1, cpu.iff2, cpu.halted, cpu.after_ei = (bool(blocks.number(text, "flags") >> bit & 1) for bit in range(4))

    def fields(self) -> dict[str, int | bytes]:
        """What a state file has of the board, but for the picture and what is due, by the names of its fields."""
        cpu = self.processor
        found: dict[str, int | bytes] = {}
        for at, letter in enumerate(LETTERS):
            if letter != " ":
                found |= {letter: cpu.r[at], letter + "'": cpu.others[at]}
        found |= {"F": cpu.f, "F'": cpu.others[judge_processor.MEMORY], "IX": cpu.index[0xDD], "IY": cpu.index[0xFD]}
        found |= {"SP": cpu.sp, "PC": cpu.pc, "I": cpu.i, "R": cpu.refresh, "IM": cpu.mode}
        found["flags"] = sum(getattr(cpu, name) << bit for bit, name in enumerate(FLIP_FLOPS))
        found |= {name: getattr(self, name) for name in ("time", "steps", "vector", "blanks", "held", "switches")}
        found |= {"request": int(self.is_requested), "latch": sum(bit << at for at, bit in enumerate(self.latch))}
        kept = self.kept()
        found |= {"tile RAM": kept[:0x400], "colour RAM": kept[0x400:0x800], "work RAM": kept[0x800:], "coordinates": bytes(self.places)}
        wave = bytes(byte if at >= 16 or at in (5, 10, 15) else 0 for at, byte in enumerate(self.registers))
        return found | {"wave": wave, "accumulators": b"".join(number.to_bytes(4, "little") for number in self.accumulators)}
