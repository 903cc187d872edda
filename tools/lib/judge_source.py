#!/usr/bin/env python3
"""Judges a source by docs/ASSEMBLER.md: its ROM and listing, or the one fault that is told.

    tools/lib/judge_source.py SOURCE

prints the listing, or the fault. This was written from that page, with the codes of the Zilog Z80 CPU User Manual UM0080, and
without a look at the assembler: where both agree, the page says all that there is to say. `disassembled` is by the section
"Disassembly" of docs/FORMATS.md and the same codes. tools/check/hostile holds the program against both.
"""
import functools
import itertools
import re
import sys
from collections.abc import Callable, Iterator
from typing import Any, NamedTuple

# A line of 255 bytes may nest an expression deeper than Python lets functions call themselves by itself.
sys.setrecursionlimit(10_000)

# The instructions as UM0080 has them: a form, and its code, a byte a word: two hexadecimal digits, or eight bits, or n, nn, d, e as
# in the form. Letters that stand in the bits are a field, which stands in the form too.
ROWS = """
NOP | 00; HALT | 76; DI | F3; EI | FB; IM m | ED 01mmm110
LD rrr,sss | 01rrrsss; LD rrr,(HL) | 01rrr110; LD (HL),sss | 01110sss; LD rrr,n | 00rrr110 n; LD (HL),n | 36 n
LD rrr,(IX+d) | DD 01rrr110 d; LD (IX+d),sss | DD 01110sss d; LD (IX+d),n | DD 36 d n
LD A,(BC) | 0A; LD A,(DE) | 1A; LD (BC),A | 02; LD (DE),A | 12; LD A,(nn) | 3A nn; LD (nn),A | 32 nn
LD A,I | ED 57; LD A,R | ED 5F; LD I,A | ED 47; LD R,A | ED 4F
LD HL,(nn) | 2A nn; LD (nn),HL | 22 nn; LD dd,nn | 00dd0001 nn; LD dd,(nn) | ED 01dd1011 nn; LD (nn),dd | ED 01dd0011 nn
LD IX,nn | DD 21 nn; LD IX,(nn) | DD 2A nn; LD (nn),IX | DD 22 nn; LD SP,HL | F9; LD SP,IX | DD F9
PUSH qq | 11qq0101; PUSH IX | DD E5; POP qq | 11qq0001; POP IX | DD E1
EX DE,HL | EB; EX AF,AF' | 08; EXX | D9; EX (SP),HL | E3; EX (SP),IX | DD E3
aaasss | 10aaasss; aaan | 11aaa110 n; aaa(HL) | 10aaa110; aaa(IX+d) | DD 10aaa110 d
INC rrr | 00rrr100; INC (HL) | 34; INC (IX+d) | DD 34 d; DEC rrr | 00rrr101; DEC (HL) | 35; DEC (IX+d) | DD 35 d
DAA | 27; CPL | 2F; SCF | 37; CCF | 3F; NEG | ED 44
ADD HL,dd | 00dd1001; ADC HL,dd | ED 01dd1010; SBC HL,dd | ED 01dd0010; ADD IX,pp | DD 00pp1001
INC dd | 00dd0011; INC IX | DD 23; DEC dd | 00dd1011; DEC IX | DD 2B
RLCA | 07; RRCA | 0F; RLA | 17; RRA | 1F; RLD | ED 6F; RRD | ED 67
kkk sss | CB 00kkksss; kkk (HL) | CB 00kkk110; kkk (IX+d) | DD CB d 00kkk110
BIT b,sss | CB 01bbbsss; BIT b,(HL) | CB 01bbb110; BIT b,(IX+d) | DD CB d 01bbb110
RES b,sss | CB 10bbbsss; RES b,(HL) | CB 10bbb110; RES b,(IX+d) | DD CB d 10bbb110
SET b,sss | CB 11bbbsss; SET b,(HL) | CB 11bbb110; SET b,(IX+d) | DD CB d 11bbb110
JP nn | C3 nn; JP ccc,nn | 11ccc010 nn; JP (HL) | E9; JP (IX) | DD E9; JR e | 18 e; JR jj,e | 001jj000 e; DJNZ e | 10 e
CALL nn | CD nn; CALL ccc,nn | 11ccc100 nn; RET | C9; RET ccc | 11ccc000; RETI | ED 4D; RETN | ED 45; RST t | 11ttt111
IN A,(n) | DB n; IN rrr,(C) | ED 01rrr000; OUT (n),A | D3 n; OUT (C),rrr | ED 01rrr001
LDI | ED A0; LDIR | ED B0; LDD | ED A8; LDDR | ED B8; CPI | ED A1; CPIR | ED B1; CPD | ED A9; CPDR | ED B9
INI | ED A2; INIR | ED B2; IND | ED AA; INDR | ED BA; OUTI | ED A3; OTIR | ED B3; OUTD | ED AB; OTDR | ED BB
"""


def field(names: str, bits: int) -> dict[str, str]:
    """What each name of a field is in the bits; `-` stands for none."""
    return {name.replace("_", " "): f"{at:0{bits}b}" for at, name in enumerate(names.split()) if name != "-"}


FIELDS = {
    "rrr": field("B C D E H L - A", 3),
    "sss": field("B C D E H L - A", 3),
    "aaa": field("ADD_A, ADC_A, SUB_ SBC_A, AND_ XOR_ OR_ CP_", 3),
    "kkk": field("RLC RRC RL RR SLA SRA - SRL", 3),
    "ccc": field("NZ Z NC C PO PE P M", 3),
    "jj": field("NZ Z NC C", 2),
    "dd": field("BC DE HL SP", 2),
    "qq": field("BC DE HL AF", 2),
    "pp": field("BC DE IX SP", 2),
}
# Fields that the source gives as a number: the letter in the form, and the bits of each number.
NUMBERS = {
    "bbb": ("b", {at: f"{at:03b}" for at in range(8)}),
    "ttt": ("t", {8 * at: f"{at:03b}" for at in range(8)}),
    "mmm": ("m", {0: "000", 1: "010", 2: "011"}),
}
CONDITIONS = FIELDS["ccc"]
REGISTERS = set("A B C D E H L I R AF BC DE HL SP IX IY".split()) | set(CONDITIONS)
DIRECTIVES = set("ORG EQU DEFB DB DEFW DW DEFS DS DEFM DM IF ELSE ENDIF".split())

Token = tuple[str, Any]  # a kind, and what it says
Tree = tuple[Any, ...]  # an expression: its operator, and the trees or values below it
Place = tuple[str, Tree]  # what of a line is filled in: a kind, and what it is


class Form(NamedTuple):
    """A form of an instruction: its code's bytes and letters, and the number that it stands for if it has one."""

    mnemonic: str
    operands: tuple[str, ...]
    code: tuple[Any, ...]
    number: int | None



def expanded(text: str, code: str) -> Iterator[Form]:
    """The forms of a row, one for each code: the text's words, the code's, and the number that a field stands for."""
    for letters, names in FIELDS.items():
        if letters in code:
            for name, bits in names.items():
                yield from expanded(text.replace(letters, name), code.replace(letters, bits))
            return
    for letters, (letter, numbers) in NUMBERS.items():
        if letters in code:
            for number, bits in numbers.items():
                for form in expanded(text, code.replace(letters, bits)):
                    yield form._replace(number=number)
            return
    mnemonic, _, operands = text.partition(" ")
    words = [int(word, {8: 2, 2: 16}[len(word)]) if word not in ("n", "nn", "d", "e") else word for word in code.split()]
    yield Form(mnemonic, tuple(operands.split(",")) if operands else (), tuple(words), None)


def all_forms() -> Iterator[Form]:
    """The forms of all rows, each with IX with IY too."""
    for row in re.split(r"[;\n]", ROWS.strip()):
        text, code = (part.strip() for part in row.split("|"))
        yield from expanded(text, code)
        if code.startswith("DD"):
            for form in expanded(text, code.replace("DD", "FD", 1)):
                yield form._replace(operands=tuple(operand.replace("IX", "IY") for operand in form.operands))


# Each mnemonic with its operands: its code, or its codes by the number that the source gives. Of two codes the first one counts.
FORMS: dict[Any, Any] = {}
# Each code's bytes that are fixed: its form.
CODES = dict[tuple[int, ...], Form]()
for _form in all_forms():
    FORMS.setdefault((_form.mnemonic, _form.operands), {}).setdefault(_form.number, _form.code)
    CODES[tuple(word for word in _form.code if isinstance(word, int))] = _form
MNEMONICS = {mnemonic for mnemonic, _ in FORMS}
RESERVED = MNEMONICS | DIRECTIVES | REGISTERS


class Fault(Exception):
    """A fault of a line: its code."""


# ---- Tokens

TOKEN = re.compile(
    r"(?P<blank>[ \t]+)|(?P<other>[Aa][Ff]')|(?P<name>[A-Za-z_][A-Za-z0-9_]*)|(?P<number>[0-9][A-Za-z0-9]*)"
    r"|(?P<text>'(?:[^']|'')*+')|(?P<open>')|(?P<sign>[$:,()+*/-])|(?P<comment>;)",
    re.DOTALL,
)
BASES = {"H": 16, "B": 2, "O": 8, "Q": 8, "D": 10}


def number_of(word: str) -> int:
    """The number of a token that begins with a digit."""
    base = BASES.get(word[-1].upper(), 10)
    digits = word[:-1] if word[-1].upper() in BASES else word
    if not all(digit in "0123456789ABCDEF"[:base] for digit in digits.upper()):
        raise Fault("A1 L2")
    value = int(digits, base)
    if value > 65535:
        raise Fault("A1 L2")
    return value


def tokens(line: bytes) -> list[Token]:
    """The tokens of a line, each its kind and what it says."""
    if len(line) > 255:
        raise Fault("A1 L4")
    text, at, found = line.decode("latin-1"), 0, list[Any]()
    while at < len(text):
        match = TOKEN.match(text, at)
        if not match:
            raise Fault("A1 L1")
        kind, word = match.lastgroup, match[0]
        at = match.end()
        if kind == "comment":
            break
        if kind == "open":
            raise Fault("A1 L3")
        if kind == "number":
            found.append((kind, number_of(word)))
        elif kind == "text":
            if not all(sign == "\t" or " " <= sign <= "~" for sign in word):
                raise Fault("A1 L1")
            found.append((kind, word[1:-1].replace("''", "'")))
        elif kind != "blank":
            found.append((kind, word))
    return found


# ---- Expressions, as trees of tuples

def operand_of(found: list[Token]) -> Tree:
    """Reads the operand at the front: a number, a name, a text of one character, `$`, or a group."""
    if not found:
        raise Fault("A2")
    kind, word = found.pop(0)
    if kind == "number":
        return ("number", word)
    if kind == "text" and len(word) == 1:
        return ("number", ord(word))
    if kind == "name" and word.upper() not in RESERVED:
        return ("name", word)
    if (kind, word) == ("sign", "$"):
        return ("here",)
    if (kind, word) == ("sign", "("):
        tree = sum_of(found)
        if not found or found.pop(0) != ("sign", ")"):
            raise Fault("A2")
        return tree
    raise Fault("A2")


def signed_of(found: list[Token]) -> Tree:
    """Reads an operand with the signs before it."""
    if found and found[0] in (("sign", "+"), ("sign", "-")):
        sign = found.pop(0)[1]
        return ("sign " + sign, signed_of(found))
    return operand_of(found)


def chain_of(found: list[Token], part: Callable[[list[Token]], Tree], signs: str) -> Tree:
    """Reads parts with operators of one rank between them."""
    tree = part(found)
    while found and found[0][0] == "sign" and found[0][1] in signs:
        sign = found.pop(0)[1]
        tree = (sign, tree, part(found))
    return tree


def product_of(found: list[Token]) -> Tree:
    """Reads what `*` and `/` join."""
    return chain_of(found, signed_of, "*/")


def sum_of(found: list[Token]) -> Tree:
    """Reads what `+` and `-` join."""
    return chain_of(found, product_of, "+-")


def expression(found: list[Token]) -> Tree:
    """The tree of tokens that are an expression and nothing else."""
    rest = list(found)
    tree = sum_of(rest)
    if rest:
        raise Fault("A2")
    return tree


def names_of(tree: Tree) -> set[str]:
    """The names in a tree."""
    if tree[0] == "name":
        return {tree[1]}
    return set().union(*(names_of(part) for part in tree[1:] if isinstance(part, tuple)))


def value_of(tree: Tree, symbols: dict[str, int], here: int) -> int:
    """The value of a tree all of whose names are known; A10 where a result on the way is none."""
    kind = tree[0]
    if kind in ("number", "name", "here"):
        return {"number": lambda: tree[1], "name": lambda: symbols[tree[1]], "here": lambda: here}[kind]()
    parts = [value_of(part, symbols, here) for part in tree[1:]]
    if kind == "/":
        if parts[1] == 0:
            raise Fault("A10")
        result = abs(parts[0]) // abs(parts[1])
        result = result if (parts[0] < 0) == (parts[1] < 0) else -result
    else:
        signs: dict[str, Any] = {
            "sign +": lambda x: x,
            "sign -": lambda x: -x,
            "+": lambda x, y: x + y,
            "-": lambda x, y: x - y,
            "*": lambda x, y: x * y,
        }
        result = signs[kind](*parts)
    if not -(2**31) <= result < 2**31:
        raise Fault("A10")
    return result


# ---- Lines

# A label, an operation, what it has to be evaluated for at once (`at_once`), and its places: each a kind and a tree. `size` is None where
# the line places nothing, or where `at_once` tells it; `code` is the code's words, or the codes by number.
class Line(NamedTuple):
    """What a line says."""

    label: str | None
    operation: str | None
    at_once: Tree | None
    places: tuple[Place, ...]
    size: int | None
    code: Any


EMPTY = Line(None, None, None, (), None, None)


def parted(found: list[Token]) -> list[list[Token]]:
    """Operands, parted by commas."""
    if not found:
        return []
    operands: list[list[Any]] = [[]]
    for token in found:
        if token == ("sign", ","):
            operands.append([])
        else:
            operands[-1].append(token)
    if not all(operands):
        raise Fault("A2")
    return operands


def is_closed_by_last(found: list[Token]) -> bool:
    """Whether tokens begin with a parenthesis that the last one closes."""
    depth = 0
    for at, token in enumerate(found):
        depth += {("sign", "("): 1, ("sign", ")"): -1}.get(token, 0)
        if depth == 0:
            return at > 0 and at == len(found) - 1
    return False


def shapes(found: list[Token]) -> list[tuple[str, Tree | None]]:
    """What an operand of an instruction may be in a form, each with its tree if it has one."""
    if len(found) == 1 and found[0][0] in ("name", "other") and found[0][1].upper() in REGISTERS | {"AF'"}:
        return [(found[0][1].upper(), None)]
    if not is_closed_by_last(found):
        tree = expression(found)
        return [(letter, tree) for letter in ("n", "nn", "e", "b", "t", "m")]
    inside = found[1:-1]
    first = inside[0][1].upper() if inside and inside[0][0] == "name" else ""
    if len(inside) == 1 and first in REGISTERS:
        indexed: list[tuple[str, Tree | None]] = [(f"({first}+d)", ("number", 0))] if first in ("IX", "IY") else []
        return [(f"({first})", None), *indexed]
    if first in ("IX", "IY") and inside[1] in (("sign", "+"), ("sign", "-")):
        return [(f"({first}+d)", expression(inside[1:]))]
    tree = expression(inside)
    return [("(n)", tree), ("(nn)", tree)]


KINDS = {"n": "n", "nn": "nn", "e": "e", "(n)": "n", "(nn)": "nn", "(IX+d)": "d", "(IY+d)": "d", "b": "number", "t": "number", "m": "number"}


def instruction(label: str | None, mnemonic: str, operands: list[list[Token]]) -> Line:
    """The line of an instruction."""
    if len(operands) > 2:
        raise Fault("A2")
    for choice in itertools.product(*(shapes(operand) for operand in operands)):
        codes = FORMS.get((mnemonic, tuple(pattern for pattern, _ in choice)))
        if codes:
            places = tuple((KINDS[pattern], tree) for pattern, tree in choice if tree)
            size = sum(2 if word == "nn" else 1 for word in next(iter(codes.values())))
            return Line(label, mnemonic, None, places, size, codes)
    raise Fault("A2")


def list_of_bytes(operands: list[list[Token]]) -> Iterator[Place]:
    """The places of DEFB: texts and expressions."""
    for operand in operands:
        if len(operand) == 1 and operand[0][0] == "text":
            yield from (("n", ("number", ord(sign))) for sign in operand[0][1])
        else:
            yield ("n", expression(operand))


def directive(label: str | None, operation: str, operands: list[list[Token]]) -> Line:
    """The line of a directive."""
    counts = {"ORG": (1, 1), "EQU": (1, 1), "IF": (1, 1), "ELSE": (0, 0), "ENDIF": (0, 0), "DEFM": (1, 1), "DEFS": (1, 2)}
    operation = {"DB": "DEFB", "DW": "DEFW", "DS": "DEFS", "DM": "DEFM"}.get(operation, operation)
    least, most = counts.get(operation, (1, 255))
    if not least <= len(operands) <= most or (label is None) != (operation != "EQU") and operation in ("ORG", "EQU", "IF", "ELSE", "ENDIF"):
        raise Fault("A2")
    if operation == "DEFM":
        if len(operands[0]) != 1 or operands[0][0][0] != "text":
            raise Fault("A2")
    if operation in ("DEFB", "DEFM"):
        places = tuple(list_of_bytes(operands))
        return Line(label, operation, None, places, len(places), None)
    trees = [expression(operand) for operand in operands]
    if operation == "DEFW":
        return Line(label, operation, None, tuple(("nn", tree) for tree in trees), 2 * len(trees), None)
    places = tuple(("n", tree) for tree in trees[1:])
    return Line(label, operation, trees[0] if trees else None, places, None, None)


@functools.lru_cache(maxsize=4096)
def read_line(line: bytes) -> Line | str:
    """What a line says, or the fault A1 or A2 that it has."""
    try:
        found = tokens(line)
        if not found:
            return EMPTY
        label = None
        if found[0][0] == "name" and found[0][1].upper() not in MNEMONICS | DIRECTIVES:
            label = found.pop(0)[1]
            if label.upper() in REGISTERS:
                raise Fault("A2")
            if found and found[0] == ("sign", ":"):
                found.pop(0)
            if not found:
                return EMPTY._replace(label=label)
        kind, word = found.pop(0)
        if kind != "name" or word.upper() not in MNEMONICS | DIRECTIVES:
            raise Fault("A2")
        read = directive if word.upper() in DIRECTIVES else instruction
        return read(label, word.upper(), parted(found))
    except Fault as fault:
        return str(fault)


# ---- Sources

def lines_of(text: bytes) -> list[bytes]:
    """The lines of a text."""
    pieces = text.split(b"\n")
    last = pieces.pop()
    return [piece[:-1] if piece.endswith(b"\r") else piece for piece in pieces] + ([last] if last else [])


@functools.lru_cache(maxsize=16384)
def first_word(line: bytes) -> bytes:
    """A line's first word in capitals: what letters, digits and `_` stand first."""
    found = re.match(rb"[ \t]*([A-Za-z0-9_]*)", line)
    return found[1].upper() if found else b""


def open_if(lines: list[bytes]) -> int:
    """The number of the first IF that is never closed; none, and it is past all lines."""
    opened = list[int]()
    for number, line in enumerate(lines, 1):
        if first_word(line) == b"IF":
            opened.append(number)
        elif first_word(line) == b"ENDIF" and opened:
            opened.pop()
    return min(opened, default=len(lines) + 1)


class Assembly:
    """What is known of a source, line by line."""

    def __init__(self) -> None:
        self.symbols = dict[str, int]()
        self.at = 0
        self.is_taken = bytearray(0x4000)
        self.rom = bytearray(0x4000)
        # the IFs that are open: `true` and `else` are counted, `false`, `rest` (after the ELSE of a true one) and `inner` are skipped
        self.open = list[str]()
        # each line's bytes: an address and a size, None without, and `-` where it is skipped
        self.spots = list[Any]()

    def skips(self, word: bytes) -> bool:
        """Whether a line with this first word is skipped; keeps count of the IFs among skipped lines."""
        if not self.open or self.open[-1] in ("true", "else"):
            return False
        if word == b"IF":
            if len(self.open) == 8:
                raise Fault("A12")
            self.open.append("inner")
        elif self.open[-1] == "inner":
            if word == b"ENDIF":
                self.open.pop()
        elif word == b"ENDIF" or word == b"ELSE" and self.open[-1] == "false":
            return False
        return True

    def at_once(self, tree: Tree) -> int:
        """The value of an expression whose names have to be defined above."""
        if not names_of(tree) <= self.symbols.keys():
            raise Fault("A4")
        return value_of(tree, self.symbols, self.at)

    def branch(self, line: Line) -> None:
        """IF, ELSE and ENDIF, where they count."""
        if line.operation == "IF":
            if len(self.open) == 8:
                raise Fault("A12")
            self.open.append("true" if self.at_once(line.at_once or ()) else "false")
        elif not self.open or line.operation == "ELSE" and self.open[-1] == "else":
            raise Fault("A13")
        elif line.operation == "ENDIF":
            self.open.pop()
        else:
            self.open[-1] = {"true": "rest", "false": "else"}[self.open[-1]]

    def place(self, size: int) -> None:
        """Places so many bytes here."""
        if self.at + size > 0x4000:
            raise Fault("A5")
        if any(self.is_taken[self.at : self.at + size]):
            raise Fault("A6")
        self.is_taken[self.at : self.at + size] = b"\1" * size
        self.spots[-1] = (self.at, size)
        self.at += size

    def first_phase(self, text: bytes) -> None:
        """Defines and places what a line says that counts; or finds it skipped."""
        self.spots.append(None)
        if self.skips(first_word(text)):
            self.spots[-1] = "-"
            return
        line = read_line(text)
        if isinstance(line, str):
            raise Fault(line)
        if line.operation in ("IF", "ELSE", "ENDIF"):
            self.branch(line)
            return
        if line.label in self.symbols:
            raise Fault("A3")
        size = line.size
        label_is = self.at
        if line.at_once:
            value = self.at_once(line.at_once)
            label_is = value if line.operation == "EQU" else self.at
            if line.operation != "EQU" and not 0 <= value <= 0x4000:
                raise Fault("A5")
            if line.operation == "ORG":
                self.at = value
            elif line.operation == "DEFS":
                size = value
        if line.label:
            self.symbols[line.label] = label_is
        if size:
            self.place(size)
        elif size == 0:
            self.spots[-1] = (self.at, 0)

    def second_phase(self, text: bytes, spot: Any) -> None:
        """Fills the bytes of a line."""
        line = read_line(text)
        if isinstance(line, str) or not line.places and not line.code:
            return
        here, size = spot
        for _, tree in line.places:
            if not names_of(tree) <= self.symbols.keys():
                raise Fault("A8")
        values = [(kind, value_of(tree, self.symbols, here)) for kind, tree in line.places]
        self.rom[here : here + size] = content(line, values, here, size)


def content(line: Line, values: list[tuple[str, int]], here: int, size: int) -> bytes:
    """The bytes of a line with these values in its places."""
    coded = []
    for kind, value in values:
        if kind == "e":
            value -= here + 2
        ranges = {"n": (-128, 255), "nn": (-32768, 65535), "d": (-128, 127), "e": (-128, 127)}
        least, most = ranges.get(kind, (value, value))
        if not least <= value <= most or kind == "number" and value not in line.code:
            raise Fault("A9")
        coded.append(value.to_bytes(2, "little", signed=value < 0) if kind == "nn" else bytes([value % 256]))
    if line.operation == "DEFS":
        return coded[0] * size
    if line.code is None:
        return b"".join(coded)
    by_kind = dict(zip((kind for kind, _ in values), coded))
    words = line.code[dict(values).get("number")]
    return b"".join(bytes([word]) if isinstance(word, int) else by_kind[word] for word in words)


def assemble(source: bytes) -> tuple[Any, str | None]:
    """The assembly of a source and None, or None and its fault."""
    lines = lines_of(source)
    if len(lines) > 65535:
        return None, "refused A7 line 65536"
    assembly, number, unclosed = Assembly(), 0, open_if(lines)
    try:
        for number, line in enumerate(lines, 1):
            assembly.first_phase(line)
            if number == unclosed:
                raise Fault("A14")
        for number, (line, spot) in enumerate(zip(lines, assembly.spots), 1):
            if spot != "-":
                assembly.second_phase(line, spot)
    except Fault as fault:
        if number > unclosed:
            return None, f"refused A14 line {unclosed}"
        return None, f"refused {fault} line {number}"
    return assembly, None


def listing(source: bytes, assembly: "Assembly") -> bytes:
    """The listing of a source that is assembled."""
    text = bytearray()
    for number, (line, spot) in enumerate(zip(lines_of(source), assembly.spots), 1):
        at, size = spot if spot and spot != "-" else (0, 0)
        rows = [(here, assembly.rom[here : min(here + 4, at + size)].hex().upper()) for here in range(at, at + size, 4)]
        address, digits = (f"{rows[0][0]:04X}", rows[0][1]) if rows else ("", "-" if spot == "-" else "")
        text += f"{number:05} {address:4} {digits:8} ".encode() + line + b"\n"
        for here, digits in rows[1:]:
            text += f"      {here:04X} {digits:8}\n".encode()
    text += b"SYMBOLS\n"
    for name, value in assembly.symbols.items():
        text += f"{name} {value}\n".encode()
    return bytes(text)


# ---- Disassembly

def hexadecimal(value: int, digits: int) -> str:
    """A number as the disassembly writes it."""
    text = f"{value:0{digits}X}H"
    return text if text[0].isdigit() else "0" + text


@functools.lru_cache(maxsize=16384)
def disassembled(code: bytes, at: int) -> tuple[str, int]:
    """The text of the instruction that bytes begin with, at an address, and its size."""
    keys = [bytes(code[:1]), bytes(code[:2]), bytes(code[:2] + code[3:4])]
    for key in keys:
        form = CODES.get(tuple(key))
        size = sum(2 if word == "nn" else 1 for word in form.code) if form else 0
        if form and size <= len(code) and (len(key) < 3 or key[1] == 0xCB):
            return shown(form, code, at), size
    return f"DEFB {hexadecimal(code[0], 2)}", 1


def shown(form: Form, code: bytes, at: int) -> str:
    """The text of an instruction of this form."""
    texts, place = dict[str, str](), 0
    for word in form.code:
        byte = code[place]
        if word == "n":
            texts["n"] = hexadecimal(byte, 2)
        elif word == "nn":
            texts["nn"] = hexadecimal(byte + 256 * code[place + 1], 4)
        elif word == "e":
            texts["e"] = hexadecimal((at + 2 + (byte ^ 128) - 128) % 65536, 4)
        elif word == "d":
            texts["+d"] = f"+{hexadecimal(byte, 2)}" if byte < 128 else f"-{hexadecimal(256 - byte, 2)}"
        place += 2 if word == "nn" else 1
    for letter in ("b", "m"):
        texts[letter] = str(form.number)
    texts["t"] = hexadecimal(form.number or 0, 2)
    operands = (re.sub(r"\+d|[nebtm]+", lambda match: texts[str(match[0])], operand) for operand in form.operands)
    return f"{form.mnemonic} {','.join(operands)}".strip()


def disassembly(code: bytes) -> bytes:
    """The text of a file of bytes."""
    at, text = 0, []
    while at < len(code):
        shown_text, size = disassembled(code[at : at + 4], at)
        text.append(f"{at:04X} {code[at:at + size].hex().upper():8} {shown_text}\n")
        at += size
    return "".join(text).encode()


def main() -> None:
    """Prints the listing of a source, or its fault."""
    if len(sys.argv) != 2 or sys.argv[1] == "--help":
        sys.exit(print(__doc__.strip()) if "--help" in sys.argv else "judge_source.py: it takes one source; --help tells more")
    with open(sys.argv[1], "rb") as file:
        source = file.read()
    assembly, fault = assemble(source)
    if fault:
        sys.exit(fault)
    sys.stdout.buffer.write(listing(source, assembly))


if __name__ == "__main__":
    main()
