"""Writes a translation as a source of docs/ASSEMBLER.md, with the line of the first source that each of its lines is from. For bin/translate."""
import pathlib
import re

import dialects
import judge_source as judge
from dialects import Tree
from translating import LIMIT, LONGEST, WIDE, Item, Line, Refused, Translation, number_text

RANKS = {"+": 1, "-": 1, "*": 2, "/": 2}
ROOM = 100  # characters of a line of data
TAKEN = {"n": (-128, 255, 256), "nn": (-32768, 65535, 65536), "e": (0, 65535, 65536)}  # what a place takes, and how values wrap there


class Writer:
    """The lines of a translation."""

    def __init__(self, translation: Translation) -> None:
        self.translation, self.at = translation, 0
        self.lines: list[tuple[str, Line]] = []
        self.names: dict[str, str] = {}
        self.taken: set[str] = set()
        self.defined: set[str] = set()

    def name(self, key: str) -> str:
        """The name of a symbol here: its own, where it can be one."""
        if key not in self.names:
            word = re.sub(r"\W", "_", key, flags=re.ASCII)
            word = f"L{word}" if word[:1].isdigit() else word
            word = f"{word}_" if word.upper() in judge.RESERVED else word
            free, count = word, 1
            while free in self.taken or free != key and free in self.translation.symbols:
                count += 1
                free = f"{word}_{count}"
            self.names[key] = free
            self.taken.add(free)
        return self.names[key]

    # ---- Expressions

    def ours(self, tree: Tree, here: int | None) -> tuple[str, int, int] | None:
        """An expression as it stands here: its text, its rank, and its value; None where it has to be a number. `here` is where `$` is right."""
        symbols = self.translation.symbols
        if tree[0] == "number":
            return (number_text(tree[1]), 3 if tree[1] < 65536 else 1, tree[1])
        if tree[0] == "name" and tree[1] in symbols:
            return (self.name(tree[1]), 3, symbols[tree[1]])
        if tree[0] == "here" and here is not None:
            return ("$", 3, here)
        if not dialects.names_in(tree) and "here" not in str(tree):
            value = self.translation.value(tree)
            return (number_text(value), 3, value) if value < 65536 else None
        if tree[0] == "unary" and tree[1] in ("+", "-") and (one := self.ours(tree[2], here)):
            text = one[0] if one[1] == 3 else f"({one[0]})"
            return (f"{tree[1]}{text}", 2, -one[2] if tree[1] == "-" else one[2])
        if tree[0] == "binary" and tree[1] in RANKS:
            one, other = self.ours(tree[2], here), self.ours(tree[3], here)
            if one and other and not (tree[1] == "/" and other[2] == 0):
                rank = RANKS[tree[1]]
                left = one[0] if one[1] >= rank else f"({one[0]})"
                right = other[0] if other[1] > rank and not other[0].startswith("-") else f"({other[0]})"
                values = {"+": one[2] + other[2], "-": one[2] - other[2], "*": one[2] * other[2]}
                value = values[tree[1]] if tree[1] in values else dialects.divided(one[2], other[2])
                return (f"{left}{tree[1]}{right}", rank, value)
        return None

    def shown(self, tree: Tree, kind: str, item: Item, here: int, has_here: bool = True) -> str:
        """An expression in a place of a kind, as text."""
        value = self.translation.value(tree, here)
        found = self.ours(tree, here if has_here and here == item.at and item.at < LIMIT else None)
        if kind == "d":
            value = (value + 128) % 256 - 128
            if found and found[2] == value and dialects.names_in(tree):
                return f"+{found[0]}"
            return f"-{number_text(-value)}" if value < 0 else f"+{number_text(value)}"
        if kind == "number":
            return number_text(value)
        least, most, wrap = TAKEN[kind]
        if found and least <= found[2] <= most and (found[2] - value) % wrap == 0:
            return f"0+{found[0]}" if found[0].startswith("(") else found[0]
        return number_text(value % wrap)

    # ---- Lines

    def put(self, text: str, line: Line, comment: str = "") -> None:
        """Writes a line, with its place in the source where it isn't the same line there: listings and the studio show it."""
        if (text or comment) and (line.file, line.number) != (self.translation.file, len(self.lines) + 1):
            comment = f"{pathlib.Path(line.file).name}:{line.number}{'  ' if comment else ''}{comment}"
        whole = f"{text}{'  ' if text else ''}; {comment}" if comment else text
        self.lines.append((whole[:WIDE] if len(text) < WIDE else text, line))

    def go_to(self, at: int, line: Line) -> None:
        """Goes to an address, where the lines so far don't end there."""
        if at != self.at:
            self.put(f"        ORG {number_text(at)}", line)
            self.at = at

    def data(self, item: Item) -> list[str]:
        """The lines of a list of bytes or words."""
        operation = "DEFW" if item.width == 2 else "DEFB"
        for has_here in (True, False):
            words: list[str] = []
            for one, here in zip(item.data, item.heres or [item.at] * len(item.data)):
                if isinstance(one, bytes):
                    words += self.texts(one)
                else:
                    words.append(self.shown(one, "nn" if item.width == 2 else "n", item, here, has_here))
            lines, row = list[str](), list[str]()
            for word in words:
                if row and len(",".join([*row, word])) > ROOM:
                    lines.append(f"{operation} {','.join(row)}")
                    row = []
                row.append(word)
            lines += [f"{operation} {','.join(row)}"] if row else []
            if len(lines) <= 1:
                return lines
        return lines

    def texts(self, content: bytes) -> list[str]:
        """Bytes as texts and numbers."""
        found = []
        for part in re.findall(rb"[ -~]{2,60}|.", content, re.S):
            found.append("'" + part.decode().replace("'", "''") + "'" if len(part) > 1 else number_text(part[0]))
        return found

    def instruction(self, item: Item) -> str:
        """The text of an instruction."""
        pattern = ",".join(before.removesuffix("+") + ("+0" if before.endswith("+") else "0" if tree else "") + after for before, tree, after in item.operands)
        read = judge.read_line(f" {item.operation} {pattern}".encode("latin-1"))
        assert not isinstance(read, str)
        kinds = [kind for kind, _ in read.places]
        found = []
        for before, tree, after in item.operands:
            if tree is None:
                found.append(before + after)
                if before in ("(IX)", "(IY)") and "d" in kinds:
                    kinds.pop(0)
                continue
            text = self.shown(tree, kinds.pop(0), item, item.at)
            found.append(before.removesuffix("+") + text + after)
        return f"{item.operation} {','.join(found)}".rstrip()

    def take(self, item: Item) -> None:
        """Writes what an item comes to."""
        line = item.line
        if item.operation == "EQU":
            assert item.value is not None
            value = self.translation.symbols[item.labels[0]]
            found = self.ours(item.value, None) if dialects.names_in(item.value) <= self.defined else None
            self.put(f"{self.name(item.labels[0])} EQU {found[0] if found and found[2] == value else number_text(value)}", line, item.comment)
            self.defined.add(item.labels[0])
            return
        if item.at >= LIMIT or item.at < 0:
            self.take_ram(item)
            return
        texts = []
        if item.operation == "DEFS" and item.size:
            texts = [f"DEFS {number_text(item.size)}" + (f",{number_text(item.fill)}" if item.fill is not None else "")]
        elif item.data:
            texts = self.data(item)
        elif item.operands or item.operation not in ("", "DEFS"):
            texts = [self.instruction(item)]
        if item.at + item.size > LIMIT:
            raise Refused(line.file, line.number, f"bytes past 3FFFH, the end of the ROM: {item.at:04X}H and {item.size} bytes")
        if item.labels or texts:
            self.go_to(item.at, line)
        for label in item.labels[:-1]:
            self.put(f"{self.name(label)}:", line)
        head = f"{self.name(item.labels[-1])}:" if item.labels else ""
        self.defined |= set(item.labels)
        if not texts:
            if head or item.comment or not item.line.scope and not item.line.text.strip():
                self.put(head, line, item.comment)
        for at, text in enumerate(texts):
            self.put(f"{head if at == 0 else '':<8}{' ' if at == 0 and len(head) > 7 else ''}{text}", line, item.comment if at == 0 else "")
        self.at += item.size if texts else 0

    def take_ram(self, item: Item) -> None:
        """Writes what is outside the ROM: names alone."""
        if item.operation not in ("", "DEFS") or item.data or item.fill is not None and item.size:
            raise Refused(item.line.file, item.line.number, f"bytes at {item.at % 65536:04X}H, and the ROM is 0000H to 3FFFH; names alone can be there")
        for label in item.labels:
            self.put(f"{self.name(label)} EQU {number_text(item.at)}", item.line, item.comment)
            self.defined.add(label)


def written(translation: Translation) -> list[tuple[str, Line]]:
    """The lines of a translation, each with the line that it is from."""
    writer = Writer(translation)
    for item in translation.items:
        try:
            writer.take(item)
        except dialects.Unknown as name:
            raise Refused(item.line.file, item.line.number, f"{name} is defined nowhere") from None
        except dialects.Fault as fault:
            raise Refused(item.line.file, item.line.number, str(fault)) from None
    if len(writer.lines) > LONGEST:
        raise Refused(writer.lines[-1][1].file, writer.lines[-1][1].number, f"{len(writer.lines)} lines, and a source may have {LONGEST}")
    return writer.lines
