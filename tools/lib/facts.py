"""What is so of a line of a source that was refused, by the names that tools/lib/causes.json asks for; hosts/web/studio/facts.js has the same, and
tools/check/studio holds both against each other.

Lines are read by tools/lib/judge_source.py, which was written from docs/ASSEMBLER.md. A fact that isn't there is None, False, or empty.
"""
import functools
import pathlib
import re
from collections.abc import Callable, Iterable
from typing import Any

import judge_source as judge

FORMS = [form.strip() for form in re.split(r"[;\n]", re.sub(r"#.*", "", pathlib.Path(__file__).with_name("forms.txt").read_text())) if form.strip()]
OPERATIONS = judge.MNEMONICS | judge.DIRECTIVES
JUMPS = {"JP", "JR", "CALL", "DJNZ"}
ALONE = set(judge.CONDITIONS) - {"C"}  # conditions that no register has the name of
RANGES = {"n": (-128, 255), "nn": (-32768, 65535), "d": (-128, 127), "e": (-128, 127)}
Token = tuple[str, str]


def distance(one: str, other: str) -> int:
    """How many letters have to be put in, left out, changed, or swapped with the next one, to make one word of another."""
    rows = [list(range(len(other) + 1))]
    for at, letter in enumerate(one, 1):
        row = [at]
        for to, wanted in enumerate(other, 1):
            best = min(row[-1] + 1, rows[-1][to] + 1, rows[-1][to - 1] + (letter != wanted))
            if at > 1 and to > 1 and letter == other[to - 2] and one[at - 2] == wanted:
                best = min(best, rows[-2][to - 2] + 1)
            row.append(best)
        rows.append(row)
    return rows[-1][-1]


def near(word: str, names: Iterable[str]) -> str | None:
    """The name that is most like a word, where one is: at most a letter in three is another; one of the same letters before others."""
    upper, found = word.upper(), list[tuple[int, bool, bool, str]]()
    most = (len(upper) + 1) // 3
    for name in names:
        other = name.upper()
        if abs(len(other) - len(upper)) > most or sum(letter not in upper for letter in other) > most:
            continue
        is_same = sorted(other) == sorted(upper)
        if other != upper and (len(upper) > 2 or is_same) and (count := distance(upper, other)) <= most:
            found.append((count, not is_same, other[0] != upper[0], name))
    return min(found)[3] if found else None


class Scanned:
    """The words of a line up to its comment, or to where a fault is: `rest` is what is from there on, `bare` what is before, without texts."""

    def __init__(self, line: bytes):
        text = line.decode("latin-1")
        self.tokens, self.rest, self.wrong, self.bare, at = list[Token](), "", "", "", 0
        while at < len(text):
            match = judge.TOKEN.match(text, at)
            kind, word = (str(match.lastgroup), match[0]) if match else ("", "")
            inside = re.search(r"[^\t\x20-\x7e]", word) if kind == "text" else None
            if kind == "comment":
                break
            if not match or kind == "open" or inside or kind == "number" and not self.is_number(word):
                self.rest, self.wrong = text[at + (inside.start() if inside else 0) :], word if kind == "number" else ""
                break
            if kind != "blank":
                self.tokens.append((kind, word))
            self.bare += "''" if kind == "text" else word
            at = match.end()

    @staticmethod
    def is_number(word: str) -> bool:
        """Whether a word that begins with a digit is a number."""
        try:
            judge.number_of(word)
        except judge.Fault:
            return False
        return True


def joined(tokens: list[Token]) -> str:
    """Words as a text, with a blank only where two would be one, and after the first."""
    text = ""
    for at, (kind, word) in enumerate(tokens):
        is_apart = at == 1 or at > 0 and kind != "sign" and tokens[at - 1][0] != "sign"
        text += " " + word if is_apart and word != ":" else word
    return text


class Refused:
    """A line that was refused, with its source and its code."""

    def __init__(self, code: str, source: bytes, number: int):
        self.code, self.lines, self.number = code, judge.lines_of(source), number
        self.line = self.lines[number - 1]
        self.scanned = Scanned(self.line)
        self.tokens = self.scanned.tokens

    def __getitem__(self, name: str) -> Any:
        return FACTS[name](self)

    # ---- The line alone

    @functools.cached_property
    def label(self) -> str:
        """Its first name, where that is no operation."""
        kind, word = self.tokens[0] if self.tokens else ("", "")
        return word if kind == "name" and word.upper() not in OPERATIONS else ""

    @functools.cached_property
    def statement(self) -> list[Token]:
        """Its words after the label."""
        found = self.tokens[1 if self.label else 0 :]
        while self.label and found and found[0] == ("sign", ":"):
            found = found[1:]
        return found

    @functools.cached_property
    def second(self) -> str:
        """The name after its label."""
        return self.statement[0][1] if self.label and self.statement and self.statement[0][0] == "name" else ""

    @functools.cached_property
    def operation(self) -> str:
        """Its operation, in capitals."""
        kind, word = self.statement[0] if self.statement else ("", "")
        return word.upper() if kind == "name" and word.upper() in OPERATIONS else ""

    @functools.cached_property
    def rest(self) -> list[Token]:
        """Its words after the operation."""
        return self.statement[1:]

    def names(self) -> list[str]:
        """The names after the operation."""
        return [word for kind, word in self.rest if kind == "name"]

    def heads(self) -> list[str]:
        """The names with which it begins, but for an operation and a label that is known by its colon."""
        words = [self.second] if ("sign", ":") in self.tokens[1:2] else [self.label, self.second]
        return [word for word in words if word and word.upper() not in OPERATIONS]

    def near_operation(self) -> str:
        """The first of its words that is like an operation; what is a label elsewhere is none."""
        return next((word for word in self.heads() if near(word, sorted(OPERATIONS)) and self.definition(word) in (0, self.number)), "")

    @functools.cached_property
    def listed(self) -> tuple[str, str]:
        """What is wrong in its list of operands, and the word after it."""
        comma, found = ("sign", ","), self.rest
        is_data = self.operation in ("DEFB", "DB", "DEFM", "DM")
        for at, (left, right) in enumerate(zip([comma, *found], [*found, comma])):
            if not found:
                break
            if (left[0] != "sign" or left[1] == ")") and (right[0] != "sign" or right[1] == "("):
                return "comma", right[1]
            if left[0] == right[0] == "sign" and (left[1] in ",+-*/(" and right[1] in ",)*/"):
                return "operand", ""
            if left[0] == "text" and len(left[1][1:-1].replace("''", "'")) != 1:
                if not (is_data and right == comma and (found[at - 2] if at > 1 else comma) == comma):
                    return "text", ""
        return "", ""

    def reckoned(self) -> str:
        """A register with which it reckons; an index may have a displacement."""
        found = [("", ""), *self.rest, ("", "")]
        for before, (kind, word), after in zip(found, found[1:], found[2:]):
            is_index = word.upper() in ("IX", "IY") and before[1] == "("
            signs = [after[1]] if not is_index else []
            if kind == "name" and word.upper() in judge.REGISTERS and any(sign in ("+", "-", "*", "/") for sign in (before[1], *signs)):
                return word
        return ""

    def target(self) -> str:
        """A register where a jump has its target."""
        kind, word = self.rest[-1] if self.rest else ("", "")
        is_alone = len(self.rest) == 1 or len(self.rest) > 1 and self.rest[-2] == ("sign", ",")
        return word if self.operation in JUMPS and is_alone and kind == "name" and word.upper() in judge.REGISTERS else ""

    def reserved(self) -> str:
        """A register or condition in a directive, or a condition in an instruction that has none."""
        taken = judge.REGISTERS if self.operation in judge.DIRECTIVES else ALONE if self.operation not in JUMPS | {"RET"} else set()
        return next((word for word in self.names() if word.upper() in taken), "")

    @functools.cached_property
    def forms(self) -> list[str]:
        """The forms of its operation in short."""
        return [form for form in FORMS if form.split()[0] == self.operation]

    def second_operands(self) -> list[str]:
        """What the second operand may be after the first."""
        try:
            first = {shape for shape, _ in judge.shapes(judge.parted(judge.tokens(self.line)[-len(self.rest) :] if self.rest else [])[0])}
        except (judge.Fault, IndexError):
            return []
        return sorted({operands[1] for name, operands in judge.FORMS if name == self.operation and len(operands) == 2 and operands[0] in first})

    # ---- The source

    @functools.cached_property
    def read(self) -> Any:
        """What the line says."""
        return judge.read_line(self.line)

    def phased(self, lines: list[bytes]) -> tuple[judge.Assembly, dict[str, int]]:
        """What is known of lines, and the line of each symbol."""
        assembly, defined = judge.Assembly(), dict[str, int]()
        for number, line in enumerate(lines, 1):
            count = len(assembly.symbols)
            assembly.first_phase(line)
            if len(assembly.symbols) > count:
                defined[next(reversed(assembly.symbols))] = number
        return assembly, defined

    @functools.cached_property
    def above(self) -> tuple[judge.Assembly, dict[str, int]]:
        """What is known of the lines above."""
        return self.phased(self.lines[: self.number - 1])

    @functools.cached_property
    def is_late(self) -> bool:
        """Whether it is refused only once all lines have their places."""
        return self.code in ("A8", "A9") or self.code == "A10" and (not self.read.at_once or self.at_once() is not None)

    @functools.cached_property
    def known(self) -> tuple[judge.Assembly, dict[str, int]]:
        """What is known where it is refused: of all lines, or of those above."""
        return self.phased(self.lines) if self.is_late else self.above

    @property
    def symbols(self) -> dict[str, int]:
        """Names with their values."""
        return self.known[0].symbols

    @property
    def here(self) -> int:
        """The address of the line."""
        return self.above[0].at

    def value(self, tree: Any) -> int | None:
        """The value of an expression; None where it has none."""
        try:
            return judge.value_of(tree, self.symbols, self.here)
        except (judge.Fault, KeyError):
            return None

    def at_once(self) -> int | None:
        """The value that the line needs at once."""
        try:
            return judge.value_of(self.read.at_once, self.above[0].symbols, self.here)
        except (judge.Fault, KeyError, TypeError, AttributeError):
            return None

    def trees(self) -> list[Any]:
        """The expressions of the line that count."""
        return [tree for _, tree in self.read.places] if self.is_late else [self.read.at_once] if self.read.at_once else []

    def definition(self, name: str) -> int:
        """The first line that has a label, skipped ones too."""
        read = (judge.read_line(line) for line in self.lines)
        return next((at for at, line in enumerate(read, 1) if not isinstance(line, str) and line.label == name), 0)

    def undefined(self) -> list[dict[str, Any]]:
        """Its names that aren't defined, each with what is known of it."""
        found = list[dict[str, Any]]()
        for name in sorted(set().union(*map(judge.names_of, self.trees())) - set(self.symbols)):
            at = self.definition(name)
            is_below = at > self.number and not self.is_late
            like = next((other for other in self.symbols if other.upper() == name.upper()), "")
            close = near(name, self.symbols) or ""
            found.append({"name": name, "below": at if is_below else 0, "itself": at == self.number, "skipped": 0 if is_below else at, "alike": like,
                          "alike in": self.known[1].get(like), "near": close, "near in": self.known[1].get(close)})
        return found

    def values(self) -> list[dict[str, Any]]:
        """Its values that their places don't take."""
        found = list[dict[str, Any]]()
        for kind, tree in self.read.places:
            value = judge.value_of(tree, self.symbols, self.here)
            least, most = RANGES.get(kind, (value, value))
            away = value - self.here - 2
            if not least <= (away if kind == "e" else value) <= most or kind == "number" and value not in self.read.code:
                found.append({"kind": kind, "value": value, "away": away, "least": least, "most": most, "tree": tree, "names": sorted(judge.names_of(tree)),
                              "numbers": sorted(self.read.code) if kind == "number" else []})
        return found

    def other(self) -> dict[str, Any]:
        """The first line whose bytes are in this one's place."""
        begin = self.here
        end = begin + ((self.at_once() or 0) if self.read.operation == "DEFS" else self.read.size)
        spots = [(at, spot) for at, spot in enumerate(self.known[0].spots, 1) if isinstance(spot, tuple)]
        return next(({"line": at, "begin": place} for at, (place, size) in spots if place < end and begin < place + size), {})

    def valueless(self) -> list[Any]:
        """Its expressions without a value."""
        return [tree for tree in self.trees() if self.value(tree) is None]

    def divides_by_zero(self) -> bool:
        """Whether the innermost part that has no value divides by 0."""
        parts = self.trees()
        for tree in parts:
            parts += [part for part in tree[1:] if isinstance(part, tuple)]
        wrong = next((tree for tree in reversed(parts) if self.value(tree) is None), None)
        return wrong is not None and wrong[0] == "/" and self.value(wrong[2]) == 0

    @functools.cached_property
    def conditions(self) -> tuple[list[int], list[tuple[int, int]]]:
        """The lines above with IF, ELSE and ENDIF, and of each IF that is open its line and that of its ELSE."""
        above, opened = list[int](), list[tuple[int, int]]()
        for at, line in enumerate(self.lines[: self.number - 1], 1):
            word = judge.first_word(line)
            if word in (b"IF", b"ELSE", b"ENDIF"):
                above.append(at)
            if word == b"IF":
                opened.append((at, 0))
            elif word == b"ELSE" and opened:
                opened[-1] = (opened[-1][0], at)
            elif word == b"ENDIF" and opened:
                opened.pop()
        return above, opened

    def ends_nothing(self) -> int:
        """The line of an ENDIF after a label."""
        return next((at for at, line in enumerate(self.lines, 1) if re.match(rb"[ \t]*\w+[ \t]*:?[ \t]+ENDIF\b", line, re.I)), 0)


FACTS: dict[str, Callable[[Refused], Any]] = {
    "length": lambda it: len(it.line),
    "rest": lambda it: it.scanned.rest,
    "word": lambda it: it.scanned.wrong,
    "comment": lambda it: bool(re.search(r"//|/\*|^[ \t]*\*", it.scanned.bare)),
    "heads": Refused.heads,
    "no name": lambda it: bool(it.tokens) and it.tokens[0][0] != "name",
    "label": lambda it: it.label,
    "label near": lambda it: near(it.label, OPERATIONS),
    "label is reserved": lambda it: it.label.upper() in judge.REGISTERS,
    "colon": lambda it: ("sign", ":") in it.tokens[1:2],
    "nothing more": lambda it: not it.statement,
    "statement": lambda it: joined(it.statement if it.operation else it.tokens),
    "operation": lambda it: it.operation,
    "near operation": Refused.near_operation,
    "operation near": lambda it: near(it.near_operation(), sorted(OPERATIONS)) if it.near_operation() else "",
    "parentheses": lambda it: it.rest.count(("sign", "(")) != it.rest.count(("sign", ")")),
    "operation within": lambda it: next((word for word in it.names() if word.upper() in OPERATIONS), ""),
    "colon within": lambda it: ("sign", ":") in it.rest,
    "names": Refused.names,
    "commas": lambda it: it.rest.count(("sign", ",")),
    "list": lambda it: it.listed[0],
    "list word": lambda it: it.listed[1],
    "reckoned": Refused.reckoned,
    "target": Refused.target,
    "target is a condition": lambda it: len(it.rest) == 1 and it.target().upper() in judge.CONDITIONS,
    "reserved": Refused.reserved,
    "forms": lambda it: it.forms,
    "forms count": lambda it: len(it.forms),
    "second operands": Refused.second_operands,
    "defined in": lambda it: it.known[1].get(it.label),
    "at once": Refused.at_once,
    "here": lambda it: it.here,
    "other line": lambda it: it.other().get("line"),
    "other begin": lambda it: it.other().get("begin"),
    "undefined": Refused.undefined,
    "values": Refused.values,
    "divides by zero": Refused.divides_by_zero,
    "conditions": lambda it: it.conditions[0],
    "open": lambda it: [at for at, _ in it.conditions[1]],
    "open in": lambda it: it.conditions[1][-1][0] if it.conditions[1] else 0,
    "else in": lambda it: it.conditions[1][-1][1] if it.conditions[1] else 0,
    "ends nothing": Refused.ends_nothing,
}
