"""The instructions, read from the table that the assembler, the processor and the disassembler share, crates/pac_table/src/table.rt: their
forms, codes, lengths, T-states and flags, for tools/make/make-instructions, tools/make/make-tables and bin/symbols.

The table's effects say which flags an instruction changes by what they are; FLAGS says it in letters.
"""
import collections
import pathlib
import re
from typing import Any

TABLE = pathlib.Path(__file__).resolve().parents[2] / "crates/pac_table/src/table.rt"
SHAPE = r"(\w+|\(\w+ \w+\))"
ROW = re.compile(rf"^    row!\((\w+) 0x(\w\w) (\w+) (\w+) (\w+), (\w+) {SHAPE} {SHAPE}, (\d+) (\d+), (.*)\),$", re.M)

# A form as the source has it, its code's words, its T-states where it is taken or repeats and where not, its flags, and how many
# documented codes it has. `page` and `opcodes` find it by a code's bytes.
Form = collections.namedtuple("Form", "text code length ticks other flags page opcodes")

# The prefix bytes of a page, and whether the displacement stands before the opcode byte.
PAGES = {"Plain": "", "Cb": "CB", "Ed": "ED", "Dd": "DD", "Fd": "FD", "DdCb": "DD CB d", "FdCb": "FD CB d"}
# The bytes that follow the opcode byte.
IMMEDIATES = {"Absent": "", "Byte": "n", "Word": "nn", "Relative": "e", "Displacement": "d", "DisplacementByte": "d n"}
# What is written for the shape of an operand; a name that isn't here is its own in capitals.
SHAPES = {"Named": "{}", "AtName": "({})", "Indexed": "({}+d)", "FirstField": "{}", "SecondField": "s", "Number": "{}", "AtNumber": "({})",
          "Mode": "{}", "AlternateAf": "AF'"}
SHAPE_LETTERS = {"Registers": "r", "Pairs": "dd", "StackPairs": "qq", "PairsWithIx": "pp", "PairsWithIy": "pp", "Conditions": "cc",
                 "RelativeConditions": "jj", "Byte": "n", "Word": "nn", "Target": "e", "Bit": "b", "Restart": "p"}
# A field of an opcode byte: the worth of its lowest bit, its letters in the bits, and its values (UM0080 lists them; a register is never 6).
REGISTERS = [0, 1, 2, 3, 4, 5, 7]
FIELDS = {
    "Absent": (1, "", [0]),
    "RegisterHigh": (8, "rrr", REGISTERS),
    "RegisterLow": (1, "sss", REGISTERS),
    "Pair": (16, "dd", range(4)),
    "StackPair": (16, "qq", range(4)),
    "IndexPair": (16, "pp", range(4)),
    "Condition": (8, "ccc", range(8)),
    "RelativeCondition": (8, "jj", range(4)),
    "BitNumber": (8, "bbb", range(8)),
    "RestartPlace": (8, "ppp", range(8)),
    "AluOperation": (8, "", range(8)),
    "ShiftOperation": (8, "", REGISTERS),
}
# The names of a family, by the value of its field.
FAMILIES = {
    "Alu": ["ADD A,", "ADC A,", "SUB ", "SBC A,", "AND ", "XOR ", "OR ", "CP "],
    "Shift": ["RLC ", "RRC ", "RL ", "RR ", "SLA ", "SRA ", "", "SRL "],
}

# The flags S Z H P/V N C after an instruction: `*` by the result, P parity, V overflow, I the flip-flop IFF2, B whether the count isn't 0
# yet, A all of them at once; 0 and 1 as they say; `-` as before. UM0080 calls those of BIT and of block input and output that stand as `-`
# here unknown; this profile keeps them. By the effect, the first that it begins with; of Alu by the operation.
ALU = {
    "ADD": "***V0*", "ADC": "***V0*", "SUB": "***V1*", "SBC": "***V1*", "AND": "**1P00", "XOR": "**0P00", "OR ": "**0P00", "CP ": "***V1*",
}
FLAGS = [
    ("ByteLoad(ByteLoad::LoadFromSpecial", "**0I0-"),
    ("ByteArithmetic(ByteArithmetic::Increment", "***V0-"), ("ByteArithmetic(ByteArithmetic::Decrement(", "***V1-"),
    ("ByteArithmetic(ByteArithmetic::DecimalAdjust", "***P-*"), ("ByteArithmetic(ByteArithmetic::Complement)", "--1-1-"),
    ("ByteArithmetic(ByteArithmetic::Negate", "***V1*"), ("ByteArithmetic(ByteArithmetic::SetCarry", "--0-01"),
    ("ByteArithmetic(ByteArithmetic::ComplementCarry", "--*-0*"),
    ("WordArithmetic(WordArithmetic::AddPair(", "--*-0*"), ("WordArithmetic(WordArithmetic::AddPairWithCarry", "***V0*"),
    ("WordArithmetic(WordArithmetic::SubtractPairWithCarry", "***V1*"), ("WordArithmetic(", "------"),
    ("RotateAndShift(RotateAndShift::RotateAccumulator", "--0-0*"), ("RotateAndShift(RotateAndShift::Shift", "**0P0*"),
    ("RotateAndShift(RotateAndShift::RotateDigit", "**0P0-"),
    ("BitOperation(BitOperation::Test", "-*1-0-"), ("BitOperation(", "------"), ("Port(Port::Input)", "**0P0-"), ("Port(", "------"),
    ("Exchange(Exchange::Af", "AAAAAA"), ("ByteLoad(", "------"), ("WordLoad(", "------"), ("Exchange(", "------"), ("Jump(", "------"),
    ("Call(", "------"), ("Control(", "------"),
    ("block!(Load", "--0B0-"), ("block!(Compare", "***B1-"), ("block!(Input", "-*--1-"), ("block!(Output", "-*--1-"),
]


def flags_of(effect, operation):
    """The flags of an effect; those of Alu are those of its operation, and SRL, which shifts a 0 into bit 7, never gives S."""
    if "ByteArithmetic::Alu" in effect:
        return ALU[operation[:3]]
    if operation.startswith("SRL "):
        return "0*0P0*"
    return next(flags for begin, flags in FLAGS if effect.removeprefix("Effect::").startswith(begin))


def shape_text(shape):
    """What is written for the shape of an operand, as a row of the table tells it."""
    kind, _, of = shape.strip("()").partition(" ")
    return SHAPES[kind].format(SHAPE_LETTERS.get(of, of.upper()))


def opcode_text(opcode, fields):
    """An opcode byte: hexadecimal where it has no field, else its bits with the fields' letters."""
    bits = list(f"{opcode:08b}")
    for name in fields:
        weight, letters, _ = FIELDS[name]
        low = weight.bit_length() - 1
        for place, letter in enumerate(letters):
            bits[7 - low - (len(letters) - 1 - place)] = letter
    return "".join(bits) if any(FIELDS[name][1] for name in fields) else f"{opcode:02X}"


def expanded(page, opcode, first, second, immediate, mnemonic, left, right, ticks, other, effect):
    """The forms of a row: one for each name of a family and each condition of a relative jump, which has its own code."""
    is_several = mnemonic in FAMILIES or first == "RelativeCondition"
    values: list[Any] = [*FIELDS[first][2]] if is_several else [None]
    for value in values:
        at = opcode + (FIELDS[first][0] * value if value is not None else 0)
        fields = [name for name in (first, second) if value is None or name != first]
        shapes = [shape_text(shape) for shape in (left, right) if shape != "Absent"]
        if first == "RelativeCondition":
            shapes[0] = "NZ Z NC C".split()[value]
        operands = ",".join(shapes)
        if "RegisterLow" in fields and "r" not in shapes:
            operands = operands.replace("s", "r")
        text = (FAMILIES[mnemonic][value] if mnemonic in FAMILIES else mnemonic.upper() + " ") + operands
        shown = opcode_text(at, fields)
        shown = shown if "rrr" in shown else shown.replace("sss", "rrr")
        shown = f"{PAGES[page]} {shown}" if PAGES[page].endswith("d") else f"{PAGES[page]} {shown} {IMMEDIATES[immediate]}"
        words = shown.split()
        firsts = FIELDS[first][2] if value is None else [0]
        opcodes = [at + FIELDS[first][0] * p + FIELDS[second][0] * q for p in firsts for q in FIELDS[second][2]]
        flags, length = flags_of(effect, text), len(words) + words.count("nn")
        yield Form(text.strip(), " ".join(words), length, int(ticks), int(other), flags, page, opcodes)


def forms():
    """All forms, in the order of the table."""
    text = TABLE.read_text()
    found = ROW.findall(text)
    if [str(len(found))] != re.findall(r"static ROWS: \[Row; (\d+)\]", text):
        raise ValueError("table.rt: a row isn't of the form that this script reads")
    return [form for row in found for form in expanded(row[0], int(row[1], 16), *row[2:])]


def by_code():
    """The forms by page and opcode byte."""
    found: dict[tuple[str, int], Form] = {}
    for form in forms():
        for opcode in form.opcodes:
            found.setdefault((form.page, opcode), form)
    return found


def place_of(code):
    """The page and the opcode byte with which bytes begin, or None where they end before it."""
    prefix = {0xCB: "Cb", 0xED: "Ed", 0xDD: "Dd", 0xFD: "Fd"}.get(code[0])
    if prefix in ("Dd", "Fd") and len(code) > 3 and code[1] == 0xCB:
        return f"{prefix}Cb", code[3]
    place = 1 if prefix else 0
    return (prefix or "Plain", code[place]) if len(code) > place else None


def form_at(codes, code):
    """The form with which bytes begin, or None where they are no documented instruction."""
    return codes.get(place_of(code))
