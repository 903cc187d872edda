"""Gives a WebAssembly module with addresses of 64 bits those of 32 bits, which each browser has.

An address is cut to its low 32 bits before memory is read or written, and nothing else changes: functions take and give what they did. The
module has one memory that doesn't grow, and no instruction of threads, exceptions or references, which is what the kit writes; what isn't known
here is refused. The format is that of the WebAssembly core specification, release 3.0.
"""
import struct

TYPE, FUNCTION, MEMORY, CODE, DATA = 1, 3, 5, 10, 11  # sections
NAMES = b"\x04name"  # what the section of 0 begins with that names functions: for whoever reads the module alone, so it's left out
I32, I64, F32, F64, V128 = 0x7F, 0x7E, 0x7D, 0x7C, 0x7B  # types of values
TYPES = I32, I64, F32, F64, V128  # of the locals that a function may get, in this order
WRAP, SET, GET = b"\xa7", b"\x21", b"\x20"  # i32.wrap_i64, local.set, local.get

# opcodes
BLOCKS, CONSTANTS, BRANCHES, VARIABLES = range(0x02, 0x05), range(0x41, 0x43), (0x0C, 0x0D), range(0x20, 0x25)
CALL, CALL_INDIRECT, BRANCH_TABLE, SELECT_TYPED, F32_CONST, F64_CONST = 0x10, 0x11, 0x0E, 0x1C, 0x43, 0x44
LOADS = range(0x28, 0x36)
STORES = {0x36: I32, 0x37: I64, 0x38: F32, 0x39: F64, 0x3A: I32, 0x3B: I32, 0x3C: I64, 0x3D: I64, 0x3E: I64}  # and what is stored
PLAIN = {0x00, 0x01, 0x05, 0x0B, 0x0F, 0x1A, 0x1B, *range(0x45, 0xC5)}  # those that nothing stands after
BULK, VECTOR = 0xFC, 0xFD  # a second opcode follows
TRUNCATIONS, COPY, FILL = range(8), 10, 11  # after BULK
VECTOR_LOADS, VECTOR_STORE, LANE_LOADS, LANE_STORES = (*range(11), 92, 93), 11, range(84, 88), range(88, 92)  # after VECTOR
SIXTEEN_BYTES, LANES = (12, 13), (*range(21, 35), *LANE_LOADS, *LANE_STORES)  # a vector or sixteen lanes; the number of a lane

# How many values an instruction takes off the stack, where it leaves one there, and where it leaves none. Of others it isn't known here.
TAKEN = {opcode: 0 for opcode in (*CONSTANTS, F32_CONST, F64_CONST, 0x20, 0x23)}  # (local.get and global.get)
TAKEN |= {opcode: 1 for opcode in (*LOADS, 0x22, 0x45, 0x50, *range(0x67, 0x6A), *range(0x79, 0x7C), *range(0xA7, 0xC5))}  # (and local.tee)
TAKEN |= {opcode: 2 for opcode in (*range(0x46, 0x50), *range(0x51, 0x67), *range(0x6A, 0x79), *range(0x7C, 0x8B))} | {0x1B: 3}  # (select)
TAKEN_BY_VECTORS = {12: 0} | {second: 1 for second in VECTOR_LOADS} | {second: 2 for second in LANE_LOADS}  # (v128.const)
DROPPED = {0x1A: 1, 0x21: 1, 0x24: 1} | {opcode: 2 for opcode in STORES}  # (drop, local.set, global.set)
DROPPED_BY_VECTORS = {second: 2 for second in (VECTOR_STORE, *LANE_STORES)}


class Reader:
    """Reads a module from a place on."""

    def __init__(self, text, at=0):
        self.text, self.at = text, at

    def byte(self):
        """A byte."""
        self.at += 1
        return self.text[self.at - 1]

    def number(self):
        """A number in LEB128, without its sign."""
        value = shift = 0
        while True:
            byte = self.byte()
            value |= (byte & 0x7F) << shift
            shift += 7
            if byte < 0x80:
                return value

    def bytes(self, count):
        """So many bytes."""
        self.at += count
        if self.at > len(self.text):
            raise ValueError("the module is cut")
        return self.text[self.at - count : self.at]


def number(value):
    """A number in LEB128, without a sign, in as few bytes as it takes: a linker leaves room for more, which 32 bits may not have."""
    out = bytearray()
    while value >= 0x80:
        out.append(value & 0x7F | 0x80)
        value >>= 7
    return bytes([*out, value])


def signed(value):
    """A number from 0 to 2^31 - 1 in LEB128 with a sign."""
    text = number(value)
    return text if text[-1] < 0x40 else text[:-1] + bytes([text[-1] | 0x80, 0])


def memory_operands(code):
    """Alignment and offset of a load or a store."""
    return number(code.number()) + number(code.number())


def read_operands(code, opcode):
    """What stands after an opcode: the second opcode, where there is one, and the rest."""
    if opcode == VECTOR:
        second = code.number()
        has_place = second in (*VECTOR_LOADS, VECTOR_STORE, *LANE_LOADS, *LANE_STORES)
        return second, (memory_operands(code) if has_place else b"") + code.bytes(16 if second in SIXTEEN_BYTES else 1 if second in LANES else 0)
    if opcode == BULK:
        second = code.number()
        if second not in (*TRUNCATIONS, COPY, FILL):
            raise ValueError(f"opcode {opcode:#x} {second} isn't known")
        return second, code.bytes({COPY: 2, FILL: 1}.get(second, 0))  # (the number of the memory, twice and once)
    if opcode in LOADS or opcode in STORES or opcode == CALL_INDIRECT:
        return None, memory_operands(code)  # (a type and a table are two numbers, too)
    begun = code.at
    if opcode in BLOCKS or opcode in CONSTANTS or opcode in BRANCHES or opcode in VARIABLES or opcode == CALL:
        code.number()
    elif opcode == BRANCH_TABLE:
        for _ in range(code.number() + 1):
            code.number()
    elif opcode == SELECT_TYPED:
        code.bytes(code.number())
    elif opcode in (F32_CONST, F64_CONST):
        code.bytes(4 if opcode == F32_CONST else 8)
    elif opcode not in PLAIN:
        raise ValueError(f"opcode {opcode:#x} isn't known")
    return None, code.text[begun : code.at]


def has_value(opcode, second):
    """Whether the address that an instruction uses has a value above it on the stack."""
    return opcode in STORES or opcode == VECTOR and second in (VECTOR_STORE, *LANE_LOADS, *LANE_STORES)


class Body:
    """A function's body as it's written, and where in it the values begin that lie uppermost on the stack, as far as that is known.

    What lies above an address is kept in a local where it isn't known where that begins: such locals have these numbers, by their type.
    """

    def __init__(self, head, temporary):
        self.out, self.temporary, self.values, self.used = bytearray(head), temporary, [], set()

    def kept(self, kind):
        """The instructions that keep what lies uppermost while what is below it is cut."""
        self.used.add(kind)
        return SET + self.temporary[kind] + WRAP + GET + self.temporary[kind]

    def cut(self, opcode, second):
        """Cuts the addresses that an instruction is about to use."""
        if opcode in LOADS or opcode == VECTOR and second in VECTOR_LOADS:
            self.out += WRAP
        elif has_value(opcode, second) and self.values:
            self.out[self.values[-1] : self.values[-1]] = WRAP
        elif has_value(opcode, second):
            self.out += self.kept(STORES.get(opcode, V128))
        elif opcode == BULK and second in (COPY, FILL):  # above the address lie a second one or a byte, and a count
            self.used.add(I64)
            below = (WRAP if second == COPY else b"") + self.kept(I32)
            self.out += SET + self.temporary[I64] + below + GET + self.temporary[I64] + WRAP

    def follow(self, opcode, second, begun):
        """Notes what an instruction, which begins there, does to the stack."""
        known = len(self.values)
        taken = TAKEN_BY_VECTORS.get(second) if opcode == VECTOR else TAKEN.get(opcode)
        dropped = DROPPED_BY_VECTORS.get(second) if opcode == VECTOR else DROPPED.get(opcode)
        if dropped is not None:
            self.values = self.values[: max(0, known - dropped)]
        elif taken is not None and taken <= known:
            self.values[known - taken :] = [self.values[known - taken] if taken else begun]
        else:
            self.values = []

    def put(self, opcode, second, text):
        """Writes an instruction of 64-bit addresses by those of 32 bits."""
        begun = len(self.out)
        self.cut(opcode, second)
        self.out += text
        self.follow(opcode, second, begun)


def lowered_body(body, parameters):
    """A function's body with more locals, one of each type of which one is wanted."""
    code = Reader(body)
    groups, count = code.number(), parameters
    begun = code.at
    for _ in range(groups):
        count += code.number()
        code.byte()
    locals_of, instructions = body[begun : code.at], code.at

    def with_locals(kinds):
        """The body with these locals."""
        head = number(groups + len(kinds)) + locals_of + b"".join(bytes([1, kind]) for kind in kinds)
        out, code = Body(head, {kind: number(count + place) for place, kind in enumerate(kinds)}), Reader(body, instructions)
        while code.at < len(body):
            opcode = code.byte()
            second, operands = read_operands(code, opcode)
            out.put(opcode, second, bytes([opcode]) + (b"" if second is None else number(second)) + operands)
        return out

    return bytes(with_locals([kind for kind in TYPES if kind in with_locals(TYPES).used]).out)


def parameters_of(types, functions):
    """How many parameters each function has."""
    read, counts = Reader(types), []
    for _ in range(read.number()):
        if read.byte() != 0x60:
            raise ValueError("a type isn't that of a function")
        counts.append(read.number())
        read.bytes(counts[-1])
        read.bytes(read.number())
    read = Reader(functions)
    return [counts[read.number()] for _ in range(read.number())]


def lowered_code(section, parameters):
    """The section of all bodies."""
    read, out = Reader(section), bytearray(number(len(parameters)))
    if read.number() != len(parameters):
        raise ValueError("each function wants a body")
    for count in parameters:
        body = lowered_body(read.bytes(read.number()), count)
        out += number(len(body)) + body
    return bytes(out)


def lowered_memory(section):
    """The section of the memory: its limits are of 32 bits."""
    if section[0] != 1 or section[1] & ~1 != 4:
        raise ValueError("the module has no single memory with addresses of 64 bits")
    return bytes([1, section[1] & 1]) + section[2:]


def lowered_data(section):
    """The section of what memory holds at first: each place is an i64.const, and becomes an i32.const."""
    read = Reader(section)
    count = read.number()
    out = bytearray(number(count))
    for _ in range(count):
        if read.bytes(2) != b"\x00\x42":
            raise ValueError("the place of data isn't a number")
        out += b"\x00\x41" + signed(read.number()) + read.bytes(1)
        size = read.number()
        out += number(size) + read.bytes(size)
    return bytes(out)


def lowered(module):
    """The module with addresses of 32 bits."""
    read = Reader(module)
    if read.bytes(8) != b"\0asm" + struct.pack("<I", 1):
        raise ValueError("this is no module")
    sections = []
    while read.at < len(module):
        kind = read.byte()
        sections.append((kind, read.bytes(read.number())))
    sections = [(kind, section) for kind, section in sections if kind or not section.startswith(NAMES)]
    found = dict(sections)
    out = bytearray(module[:8])
    for kind, section in sections:
        if kind == MEMORY:
            section = lowered_memory(section)
        elif kind == CODE:
            section = lowered_code(section, parameters_of(found[TYPE], found[FUNCTION]))
        elif kind == DATA:
            section = lowered_data(section)
        out += bytes([kind]) + number(len(section)) + section
    return bytes(out)
