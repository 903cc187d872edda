#!/usr/bin/env python3
"""Makes the programs of the conformance suite, with ROM blocks, scripts and state files.

    conformance/make.py FOLDER

writes into FOLDER, of each program, NAME.asm, its ROM block NAME.roms (the 25,120 bytes of hosts/roms.py, with the set of examples/), and NAME.held, what
is held in each frame, two bytes each; and the states NAME-1.state to NAME-3.state, with which a board goes on for a frame. Nothing but Python is needed:
tools/lib/judge_source.py assembles. The same files come of it each time. conformance/README.md says what they are for.
"""
import pathlib
import sys
from collections.abc import Callable, Iterator

sys.dont_write_bytecode = True
HERE = pathlib.Path(__file__).resolve().parent
ROOT = HERE.parent
sys.path[:0] = [str(ROOT / "tools/lib"), str(ROOT / "hosts")]

import blocks
import judge_source
import roms
import state_files

FRAMES = 24  # of a program
STATES = 3  # of a program
OPCODES = "opcodes"
# The groups of opcodes.asm: what is shown, and the instructions, by their mnemonics.
GROUPS = {
    "LD R,S": "", "LD MEMORY": "", "LD WORDS": "", "LD I,R": "", "PUSH POP": "PUSH POP", "EXCHANGE": "EX EXX", "ADD ADC": "ADD ADC", "SUB SBC CP": "SUB SBC CP",
    "AND XOR OR": "AND XOR OR", "INC DEC": "INC DEC", "WORDS": "", "DAA": "DAA", "CPL NEG CF": "CPL NEG SCF CCF", "ROTATE A": "RLCA RRCA RLA RRA",
    "ROTATE": "RLC RRC RL RR", "SHIFT": "SLA SRA SRL", "RLD RRD": "RLD RRD", "BIT": "BIT", "SET RES": "SET RES", "JP JR DJNZ": "JP JR DJNZ",
    "CALL RET": "CALL RET RST RETI RETN", "LDI LDD": "LDI LDD LDIR LDDR", "CPI CPD": "CPI CPD CPIR CPDR", "IN": "IN INI IND INIR INDR",
    "OUT IM EI": "OUT OUTI OUTD OTIR OTDR IM DI EI NOP",
}  # fmt: skip
PAIRS = {"BC": 1, "DE": 2, "HL": 4, "IX": 8, "IY": 16}
SP, SMALL_BC, SMALL_B = 32, 64, 128  # flags of an entry
GOES = {"HL": 1, "IX": 2, "IY": 4, "SP": 8}  # and of its second byte
# The flags that UM0080 defines and silicon has, where these aren't all six: after block input and output N and C are others than it says.
MASKS = {"BIT": 0x53} | dict.fromkeys("INI IND INIR INDR OUTI OUTD OTIR OTDR".split(), 0x40)
# Instructions that 16 states try too little: how often they are in the table.
COPIES = {"DAA": 64, "ADC HL": 8, "SBC HL": 8, "NEG": 4, "RLD": 4, "RRD": 4} | dict.fromkeys("CPI CPD CPIR CPDR LDI LDD LDIR LDDR".split(), 4)
DISPLACEMENTS = [-4, -1, 0, 3, 5, 8]
POLYNOMIAL = 0xEDB88320


class Random:
    """Random numbers that are the same everywhere: a xorshift of 32 bits."""

    def __init__(self, seed: int) -> None:
        self.state = seed * 2654435761 % (1 << 32) or 1
        for _ in range(8):
            self.next()

    def next(self) -> int:
        """The next 32 bits."""
        x = self.state
        x ^= x << 13 & 0xFFFFFFFF
        x ^= x >> 17
        x ^= x << 5 & 0xFFFFFFFF
        self.state = x
        return x

    def below(self, count: int) -> int:
        """A number from 0 on, below `count`."""
        return (self.next() >> 8) % count

    def of(self, things: list[str] | str) -> str:
        """One of some things."""
        listed = things.split() if isinstance(things, str) else things
        return listed[self.below(len(listed))]

    def content(self, size: int) -> bytes:
        """So many bytes."""
        return bytes(self.below(256) for _ in range(size))


# ---- opcodes.asm

def group_of(form: judge_source.Form) -> str:
    """The group of an instruction."""
    name, operands = form.mnemonic, form.operands
    wide = {"BC", "DE", "HL", "SP", "IX", "IY", "AF"}
    if name == "LD":
        if {"I", "R"} & {*operands}:
            return "LD I,R"
        if wide & {*operands}:
            return "LD WORDS"
        return "LD MEMORY" if any(operand.startswith("(") for operand in operands) else "LD R,S"
    if name in ("ADD", "ADC", "SBC", "INC", "DEC") and operands[0] in wide:
        return "WORDS"
    return next(group for group, names in GROUPS.items() if name in names.split())


def flags_of(form: judge_source.Form) -> tuple[int, int]:
    """What an entry wants of a state: the two bytes of flags."""
    name, text = form.mnemonic, ",".join(form.operands)
    first = sum(bit for pair, bit in PAIRS.items() if f"({pair})" in text or f"({pair}+" in text)
    second = 0
    if name in ("LDI", "LDD", "LDIR", "LDDR", "CPI", "CPD", "CPIR", "CPDR"):
        first |= SMALL_BC | PAIRS["HL"] | (PAIRS["DE"] if name.startswith("L") else 0)
    if name[:3] in ("INI", "IND", "OUT", "OTI", "OTD") and not form.operands:
        first |= SMALL_B | PAIRS["HL"]
    if name in ("RLD", "RRD"):
        first |= PAIRS["HL"]
    if name in ("PUSH", "POP", "CALL", "RET", "RST", "RETI", "RETN") or "(SP)" in text:
        first |= SP
    if name == "DJNZ":
        first |= SMALL_B
    if name == "JP" and text in ("(HL)", "(IX)", "(IY)"):
        first, second = 0, GOES[text[1:3]]
    if name in ("RET", "RETI", "RETN"):
        second = GOES["SP"]
    return first, second


def coded(form: judge_source.Form, filling: dict[str, int], number: int) -> list[str]:
    """The bytes of an instruction as the source has them: numbers are those of the filling, and addresses TOOK or a place in MEMORY."""
    words = []
    for word in form.code:
        if word == "nn":
            words += ["TOOK-TOOK/256*256", "TOOK/256"] if form.mnemonic in ("JP", "CALL") else [f"4C7BH+{number % 11}-4C00H", "4CH"]
        else:
            words.append(f"{word if isinstance(word, int) else filling[word]:03X}H")
    return words


def entries() -> Iterator[tuple[str, str]]:
    """Each entry of the table: its group, and its line in the source."""
    number = 0
    for form in judge_source.CODES.values():
        if form.mnemonic == "HALT" or (form.mnemonic, form.number) == ("RST", 0):
            continue
        first, second = flags_of(form)
        fillings: list[dict[str, int]] = [{"n": 37 * number + 11 & 255, "d": DISPLACEMENTS[number % 6] & 255, "e": 3}]
        if "n" in form.code:
            fillings.append({"n": 91 * number + 0x85 & 255, "d": DISPLACEMENTS[(number + 3) % 6] & 255})
        if "e" in form.code:
            fillings.append({"e": 256 - 5})  # back to TEST-3
        name = f"{form.mnemonic} {','.join(form.operands)}"
        times = COPIES.get(form.mnemonic, COPIES.get(name[:6], 1))
        for filling in fillings:
            number += 1
            words = coded(form, filling, number)
            code = ",".join(words + ["0"] * (4 - len(words)))
            line = f"        DEFB {first:03X}H,{second},{MASKS.get(form.mnemonic, 0xD7):03X}H,{len(words)},{code} ; {name}"
            yield from [(group_of(form), line)] * times


def crc_pages() -> list[str]:
    """The table of CRC-32 in four pages, one for each byte of a word, the lowest first."""
    words = []
    for value in range(256):
        for _ in range(8):
            value = value >> 1 ^ (POLYNOMIAL if value & 1 else 0)
        words.append(value)
    lines = []
    for page in range(4):
        column = [word >> 8 * page & 255 for word in words]
        lines += ["        DEFB " + ",".join(f"{byte:03X}H" for byte in column[at : at + 16]) for at in range(0, 256, 16)]
    return lines


def opcodes() -> str:
    """The source of the program that tries all instructions."""
    found: dict[str, list[str]] = {group: [] for group in GROUPS}
    for group, line in entries():
        found[group].append(line)
    lines = ["GROUPS:", *(f"        DEFW {len(table)}" for table in found.values()), "        DEFW 0", "NAMES:"]
    lines += [f"        DEFM '{name:10}'" for name in [*GROUPS, "R", "DONE"]]
    lines += ["ENTRIES:", *(line for table in found.values() for line in table), "        ORG ($+255)/256*256", "PAGES:", *crc_pages()]
    return (HERE / "opcodes.asm").read_text() + "\n".join(lines) + "\n"


# ---- Random programs

# Where a program may write, and how many bytes there are: not where its stack is.
PLACES = {"tiles": (0x4000, 0x400), "colours": (0x4400, 0x400), "work": (0x4C00, 0x300), "sprites": (0x4FF0, 0x10)}
MIRRORS = [0, 0x2000, 0x8000, 0xA000]
PLAIN = """INC A;DEC B;INC C;DEC D;INC E;DEC H;INC L;ADD A,B;ADC A,C;SUB D;SBC A,E;AND H;XOR L;OR B;CP C;ADD A,A;ADD HL,BC;ADD HL,DE;ADC HL,HL;SBC HL,DE
RLCA;RRCA;RLA;RRA;CPL;NEG;SCF;CCF;RLC B;RRC C;RL D;RR E;SLA H;SRA L;SRL A;BIT 3,A;SET 5,B;RES 1,C;EX DE,HL;EXX;EX AF,AF';INC BC;DEC DE;INC HL
LD A,B;LD B,C;LD C,D;LD D,E;LD E,H;LD H,L;LD L,A;INC IX;DEC IY;ADD IX,BC;ADD IY,DE""".replace("\n", ";").split(";")
AT_HL = """LD A,(HL);LD (HL),A;LD (HL),B;INC (HL);DEC (HL);ADD A,(HL);XOR (HL);SUB (HL);RLC (HL);RR (HL);SLA (HL);SRL (HL);SET 2,(HL);RES 6,(HL);RLD;RRD
LD (HL),5AH""".replace("\n", ";").split(";")
AT_INDEX = "LD A,({0});LD ({0}),A;LD ({0}),C;INC ({0});DEC ({0});ADD A,({0});XOR ({0});RRC ({0});SET 7,({0});RES 0,({0});LD ({0}),0C3H".split(";")
# Of each program, what it is made of, and how often: and its interrupt mode.
PROGRAMS: dict[str, tuple[str, int]] = {
    "pictures": ("store store store sprite sprite block flip plain loop", 1),
    "sounds": ("wave wave wave sound plain store loop", 1),
    "inputs": ("input input input store plain skip", 1),
    "mode0": ("store plain sprite call skip halt", 0),
    "mode2": ("vector vector store plain wave halt skip", 2),
    "blocks": ("block block fill search outs plain loop", 1),
    "memory": ("memory memory index index index plain stack store", 1),
    "dog": ("store plain wave sprite loop", 1),
    "mixed": ("store sprite block flip wave sound input call skip halt loop fill search outs memory index stack plain plain refresh", 2),
    "ports": ("ins ins nowhere nowhere store plain", 1),
}  # fmt: skip
NO_KICK = "dog"


class Writer:
    """Writes the source of a random program."""

    def __init__(self, seed: int) -> None:
        self.random, self.labels = Random(seed), 0

    def label(self) -> str:
        """A new label."""
        self.labels += 1
        return f"L{self.labels}"

    def number(self) -> str:
        """A byte."""
        return f"{self.random.below(256):03X}H"

    def room(self, size: int = 1, names: str = "tiles colours work sprites") -> str:
        """An address from which so many bytes may be written."""
        first, count = PLACES[self.random.of(names)]
        at = first + self.random.below(max(1, count - size + 1)) + MIRRORS[self.random.below(4)]
        return f"{at:05X}H"

    def port(self, first: int, count: int) -> str:
        """One of some ports, or a mirror of it."""
        return f"{first + self.random.below(count) + 0x100 * self.random.below(16) + MIRRORS[self.random.below(4)]:05X}H"

    def piece(self, kind: str) -> list[str]:
        """Some lines of a kind."""
        made: Callable[[], list[str]] = getattr(self, kind)
        return made()

    def store(self) -> list[str]:
        """A byte of RAM."""
        return [f"LD A,{self.number()}"] * self.random.below(2) + [f"LD ({self.room()}),A"]

    def sprite(self) -> list[str]:
        """A sprite's place or shape."""
        return [f"ADD A,{self.number()}", f"LD ({self.room(1, 'sprites') if self.random.below(2) else self.port(0x5060, 16)}),A"]

    def flip(self) -> list[str]:
        """The flip, and a bit that is only kept."""
        return ["RRCA", f"LD ({self.port(0x5003 + 8 * self.random.below(8), 1)}),A", f"LD ({self.port(0x5004, 4)}),A"]

    def wave(self) -> list[str]:
        """A register of the wave generator."""
        return [f"ADD A,{self.number()}", f"LD ({self.port(0x5040, 32)}),A"]

    def sound(self) -> list[str]:
        """The sound, on or off."""
        return [f"LD A,{int(self.random.below(4) > 0)}", f"LD ({self.port(0x5001, 1)}),A"]

    def input(self) -> list[str]:
        """What a port reads goes to RAM."""
        return [f"LD A,({self.port((0x5000, 0x5040, 0x5080)[self.random.below(3)], 64)})", f"LD ({self.room(1, 'tiles colours work')}),A"]

    def vector(self) -> list[str]:
        """A vector."""
        return [f"LD A,{self.number()}", "OUT (0),A"]

    def plain(self) -> list[str]:
        """Instructions on registers."""
        return [self.random.of(PLAIN) for _ in range(3)]

    def memory(self) -> list[str]:
        """Instructions on (HL)."""
        return [f"LD HL,{self.room()}", self.random.of(AT_HL), f"LD HL,({self.room(2)})", f"LD ({self.room(2)}),BC"]

    def index(self) -> list[str]:
        """Instructions on (IX+d) and (IY+d), and of words."""
        name, far = self.random.of("IX IY"), self.random.below(256) - 128
        at = 0x4D00 + self.random.below(0x100) + MIRRORS[self.random.below(4)]
        return [f"LD {name},{at - far & 0xFFFF:05X}H", self.random.of(AT_INDEX).format(f"{name}{far:+d}"), f"LD ({self.room(2)}),{name}"]

    def stack(self) -> list[str]:
        """Pushes and pops."""
        return ["PUSH HL", "PUSH DE", "EX (SP),HL", "POP BC", f"PUSH {self.random.of('IX IY BC')}", "POP DE", "POP HL"]

    def block(self) -> list[str]:
        """A block of RAM is copied."""
        size = 1 + self.random.below(60)
        if self.random.below(2):
            return [f"LD HL,{self.room(size)}", f"LD DE,{self.room(size, 'tiles colours')}", f"LD BC,{size}", "LDIR"]
        to = f"{self.room(size, 'tiles colours')}+{size - 1}"
        return [f"LD HL,{self.room(size)}+{size - 1}", f"LD DE,{to}", f"LD BC,{size}", "LDDR"]

    def fill(self) -> list[str]:
        """A block of RAM is filled from the ports, or by single steps."""
        size = 1 + self.random.below(20)
        return [f"LD HL,{self.room(size, 'tiles colours')}", f"LD DE,{self.room(size, 'tiles colours')}", f"LD BC,{size}", "LDI", "LDD", "LDI"]

    def search(self) -> list[str]:
        """A byte is looked for, and where it is goes to RAM."""
        end = self.label()
        return [f"LD HL,{self.room()}", f"LD BC,{1 + self.random.below(200)}", f"LD A,{self.number()}", self.random.of("CPIR CPDR CPI"), f"JR Z,{end}",
                f"LD ({self.room(2, 'tiles colours')}),HL", f"{end}: NOP"]  # fmt: skip

    def outs(self) -> list[str]:
        """Bytes go out to ports that do nothing."""
        return [f"LD HL,{self.room()}", f"LD BC,{(1 + self.random.below(9)) * 256 + 1 + self.random.below(200)}", self.random.of("OTIR OTDR OUTI OUTD"),
                "OUT (C),D", "CP D", f"LD ({self.room(2)}),HL"]  # fmt: skip

    def loop(self) -> list[str]:
        """Pieces that are done several times."""
        start = self.label()
        return [f"LD B,{2 + self.random.below(30)}", f"{start}: LD A,B", f"LD ({self.room()}),A", f"XOR {self.number()}", f"DJNZ {start}"]

    def skip(self) -> list[str]:
        """A piece that is left out by a flag."""
        end, conditions = self.label(), self.random.of("JR JP")
        test = f"{self.random.of(['ADD A,', 'SUB ', 'CP ', 'AND '])}{self.number()}"
        condition = self.random.of("NZ Z NC C" if conditions == "JR" else "NZ Z NC C PO PE P M")
        return [test, f"{conditions} {condition},{end}", *self.store(), f"{end}: NOP"]

    def call(self) -> list[str]:
        """A call, by a flag or a restart."""
        return [f"SUB {self.number()}", f"CALL {self.random.of('NZ Z NC C PO PE P M')},SUBROUTINE", "CALL SUBROUTINE"]

    def halt(self) -> list[str]:
        """Waits for the blank, sometimes."""
        return ["HALT"] if self.random.below(3) == 0 else ["DI", "LD A,A", "EI"]

    def refresh(self) -> list[str]:
        """R and I go to RAM."""
        return [f"LD A,{self.random.of('R I')}", f"LD ({self.room()}),A", "ADD A,37", "DAA", f"LD ({self.room()}),A"]

    def ins(self) -> list[str]:
        """What ports read that aren't there."""
        return [self.random.of(["IN A,(0)", "IN B,(C)", "IN A,(77)"]), f"LD ({self.room()}),A", f"LD HL,{self.room(8, 'tiles')}",
                f"LD BC,{0x300 + self.random.below(256)}", self.random.of("INI INIR"), "CP B"]  # fmt: skip

    def nowhere(self) -> list[str]:
        """What is read where nothing is."""
        return [f"LD A,({self.port(0x50C0, 64)})", f"LD ({self.room()}),A"]

    def source(self, name: str) -> str:
        """The source of a program."""
        kinds, mode = PROGRAMS[name]
        body = [line for _ in range(90) for line in self.piece(self.random.of(kinds))]
        handled = [line for _ in range(4) for line in self.piece(self.random.of([kind for kind in kinds.split() if kind not in ("halt", "loop", "block")]))]
        kick = [] if name == NO_KICK else ["LD (50C0H),A"]
        lines = [f"; {name}.asm: a random program, made by conformance/make.py.", " JP START", *self.restarts(), " ORG 100H", "START:"]
        lines += [f" {line}" for line in self.beginning(mode)] + ["MAIN:", *self.laid(body), " JP MAIN"]
        lines += ["SUBROUTINE:", *self.laid(self.store() + self.plain()), " RET", "HANDLER:", *self.laid(["PUSH AF", "PUSH BC", "PUSH DE", "PUSH HL", *kick])]
        lines += self.laid(["XOR A", "LD (5000H),A", "INC A", "LD (5000H),A", *handled, "POP HL", "POP DE", "POP BC", "POP AF", "EI"])
        lines += [f" {self.random.of('RET RETI')}", " ORG 3B3BH", " JP HANDLER", " ORG 3C00H", " DEFS 257,3BH"]
        return "\n".join(lines) + "\n"

    def restarts(self) -> list[str]:
        """What stands at the addresses of RST."""
        return [line for at in range(8, 64, 8) for line in (f" ORG {at}", " JP HANDLER")]

    def beginning(self, mode: int) -> list[str]:
        """What a program begins with: all of RAM but the stack is filled, and the interrupt is let in."""
        lines = ["LD SP,4FF0H", "LD HL,START", "LD DE,4000H", "LD BC,800H", "LDIR", "LD HL,MAIN", "LD DE,4C00H", "LD BC,300H", "LDIR", "LD HL,MAIN",
                 "LD DE,4FF0H", "LD BC,16", "LDIR", "LD HL,MAIN", "LD DE,5060H", "LD BC,16", "LDIR", "LD HL,MAIN", "LD DE,5040H", "LD BC,32", "LDIR"]  # fmt: skip
        lines += ["LD A,3CH", "LD I,A", f"LD A,{0xC7 + 8 * (1 + self.random.below(7)):03X}H", "OUT (0),A", f"IM {mode}", "LD A,1", "LD (5001H),A"]
        return lines + ["LD (5000H),A", "EI"]

    def laid(self, lines: list[str]) -> list[str]:
        """Lines as the assembler takes them: a label at their beginning, or a blank."""
        return [line if ":" in line else f" {line}" for line in lines]


def held_by(seed: int) -> bytes:
    """What is held in each frame of a program."""
    random = Random(seed)
    found = b""
    while len(found) < 2 * FRAMES:
        mask = random.next() & random.next() & 0xFFFF
        found += mask.to_bytes(2, "little") * (1 + random.below(3))
    return found[: 2 * FRAMES]


# ---- State files

def state(seed: int, block: bytes, main: int) -> bytes:
    """A state with which a program goes on at MAIN: all else is random."""
    random, fields = Random(seed), bytearray(blocks.SIZE)
    for name, (at, size) in blocks.FIELDS.items():
        if name not in ("time", "steps", "asked", "due", "sample", "flags", "IM"):
            fields[at : at + size] = random.content(size)
    for name, (at, size) in blocks.PARTS.items():
        fields[at : at + size] = random.content(size)
    at, size = blocks.PARTS["wave"]
    fields[at : at + size] = bytes(byte & 15 if place not in state_files.UNKEPT else 0 for place, byte in enumerate(fields[at : at + size]))
    for at in range(3, 12, 4):
        place = blocks.PARTS["accumulators"][0] + at
        fields[place - 1], fields[place] = fields[place - 1] & 15, 0
    at, size = blocks.PARTS["picture"]
    fields[at : at + size] = bytes(byte & 15 for byte in fields[at : at + size])
    frame = 1 + random.below(1 << 20)
    numbers = {"PC": main, "SP": 0x4FC0, "flags": 3, "IM": 1, "I": 0x3C, "blanks": random.below(16), "request": random.below(2)}
    numbers |= {"time": frame * state_files.FRAME + random.below(32), "asked": frame * state_files.MICROSECONDS, "steps": frame * 5000}
    for name, number in numbers.items():
        blocks.put(fields, name, number)
    digest = state_files.set_digest(block)
    return state_files.state_file(digest, {30: bytes(fields[30:-20])})


# ---- All of it

def sources() -> dict[str, str]:
    """The sources of all programs by their names."""
    return {OPCODES: opcodes()} | {name: Writer(at + 1).source(name) for at, name in enumerate(PROGRAMS)}


class Program:
    """A program: its source, its assembly, its ROM block, what is held, and its states."""

    def __init__(self, name: str, source: str, seed: int) -> None:
        assembly, fault = judge_source.assemble(source.encode())
        if fault:
            line = int(fault.split()[-1])
            raise ValueError(f"{name}: {fault}: {source.splitlines()[line - 1]}")
        self.name, self.source, self.assembly = name, source, assembly
        self.block = roms.block_of(ROOT / "examples/set.toml", bytes(assembly.rom))
        self.held = b"" if name == OPCODES else held_by(100 + seed)
        self.states = [] if name == OPCODES else [state(1000 * seed + at, self.block, self.symbol("MAIN")) for at in range(1, STATES + 1)]

    def symbol(self, name: str) -> int:
        """The value of a symbol."""
        return int(dict(self.assembly.symbols)[name])

    def masks(self) -> list[int]:
        """What is held in each frame."""
        return [low | high << 8 for low, high in zip(self.held[::2], self.held[1::2])]


def programs() -> list[Program]:
    """All programs."""
    return [Program(name, source, seed) for seed, (name, source) in enumerate(sources().items())]


def main(words: list[str]) -> int:
    """Writes all files."""
    if len(words) != 1 or words[0].startswith("-"):
        print((__doc__ or "").strip())
        return 0 if words == ["--help"] else 2
    folder = pathlib.Path(words[0])
    folder.mkdir(parents=True, exist_ok=True)
    for program in programs():
        at = folder / program.name
        at.with_suffix(".asm").write_text(program.source)
        at.with_suffix(".roms").write_bytes(program.block)
        at.with_suffix(".held").write_bytes(program.held)
        for number, text in enumerate(program.states, 1):
            (folder / f"{program.name}-{number}.state").write_bytes(text)
    return 0


if __name__ == "__main__":
    sys.exit(main(sys.argv[1:]))
