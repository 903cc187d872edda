"""Translates sources of other assemblers to the language of docs/ASSEMBLER.md, for bin/translate.

The source is assembled as its own assembler does it, as far as names, conditions, macros and places go: pass after pass, until no name's value
changes. Instructions are looked at by tools/lib/judge_source.py, so that only those of this assembler's forms come out. What an expression says
stays as it is where it says the same here, and is a number otherwise.
"""
import pathlib
import re
from collections import deque
from collections.abc import Callable, Iterable, Iterator
from dataclasses import dataclass, field

import dialects
import judge_source as judge
import repetitions
from dialects import Dialect, Fault, Reader, Tree, Unknown, parted, without_comment

PASSES = 12
DEEPEST = 40  # files and macros within one another
LONGEST = 65_535  # lines that a source may have
MOST_LINES = 2 * LONGEST  # lines that macros and repetitions may make, most of which say nothing
TOO_MANY = "a repetition of more lines than a source may have"
LIMIT = 0x4000  # where the ROM ends
WIDE = 235  # bytes of a line that is written, with its comment
UNDOCUMENTED = {"SLL", "SLI", "SL1", "SLS"}
HALVES = {"IXH", "IXL", "IYH", "IYL", "HX", "LX", "HY", "LY", "XH", "XL", "YH", "YL"}
KINDS = {  # what a directive is, by its name without a dot
    "bytes": "db defb byte dm defm text ascii str",
    "zero": "asciz asciiz string strz dz",
    "words": "dw defw word short hword 2byte",
    "space": "ds defs space skip blkb rmb block",
    "blkw": "blkw", "fill": "fill", "org": "org", "equ": "equ gblequ", "set": "defl set", "align": "align", "balign": "balign", "p2align": "p2align", "even": "even",
    "if": "if", "ifdef": "ifdef", "ifndef": "ifndef", "elseif": "elseif elif", "else": "else", "endif": "endif endc fi",
    "macro": "macro", "endm": "endm endmacro", "exitm": "exitm", "rept": "rept dup", "endr": "endr edup", "irp": "irp", "irpc": "irpc", "local": "local",
    "include": "include", "incbin": "incbin insert binary", "end": "end", "area": "area section data text code", "define": "define", "undefine": "undefine",
    "nothing": "public globl global extern module title list nolist page sbttl ident type size optsdcc name endmodule proc endp cpu z80 device file",
}  # fmt: skip
DIRECTIVES = {word: kind for kind, words in KINDS.items() for word in words.split()}
LACKING: dict[str, set[str]] = {  # directives that a dialect has none of, though another one has
    "z80asm": {"text", "code", "data", "size", "name", "file", "type", "fill", "set", "list", "page", "module", "block", "local", "string", "byte", "word"},
    "pasmo": {"text", "code", "data", "size", "name", "file", "type", "fill", "set", "list", "page", "module", "block", "string", "byte", "word", "align"},
    "sjasmplus": {"text", "code", "data", "size", "name", "file", "type", "fill", "list", "page", "string", "set"},
    "gas": set(), "sdas": set(),
}  # fmt: skip


class Refused(Exception):
    """A line is refused: its file, its number, and why."""

    def __init__(self, file: str, number: int, why: str) -> None:
        super().__init__(f"{file}:{number}: {why}")


@dataclass
class Line:
    """A line of a source, or one that a macro has made: where it is from, its text, the file or expansion that it belongs to, and how many IFs were open
    there. A last line without a text, with which a macro or a turn of a repetition ends, says what is done then."""

    file: str
    number: int
    text: str
    scope: int = 0
    depth: int = 0
    branches: int = 0
    then: Callable[[], None] | None = None


@dataclass
class Macro:
    """A macro: its parameters, what each is where nothing is given, its body, and its local names."""

    parameters: list[str]
    defaults: dict[str, str]
    body: list[str]
    names: list[str] = field(default_factory=list)


@dataclass
class Item:
    """What a line comes to: its place, labels, an operation of ours with its operands' parts, bytes, or a value that a name gets."""

    line: Line
    at: int
    labels: list[str] = field(default_factory=list)
    operation: str = ""
    operands: list[tuple[str, Tree | None, str]] = field(default_factory=list)
    data: list[Tree | bytes] = field(default_factory=list)
    width: int = 1
    size: int = 0
    fill: int | None = None
    value: Tree | None = None
    comment: str = ""
    heres: list[int] = field(default_factory=list)


def number_text(value: int) -> str:
    """A number as a source of ours has it."""
    if value < 0:
        return f"-{number_text(-value)}"
    if value > 65535:
        return f"{number_text(value // 32768)}*32768+{number_text(value % 32768)}"
    if value < 10:
        return str(value)
    digits = f"{value:X}H"
    return digits if digits[0].isdigit() else f"0{digits}"


class Translation:
    """A source, its symbols, and what it comes to."""

    def __init__(self, dialect: Dialect, folders: list[pathlib.Path], defined: dict[str, int]) -> None:
        self.dialect, self.folders, self.defined, self.file = dialect, folders, defined, ""
        self.symbols: dict[str, int] = dict(defined)
        self.files: dict[pathlib.Path, list[str]] = {}
        self.assigned: dict[str, int] = {}
        self.is_told = False  # whether a line that is refused is kept, and the others are taken all the same
        self.refused: list[str] = []
        self.lines = 0
        self.begin_pass()

    def begin_pass(self) -> None:
        """Forgets what a pass has found, but for the names' values."""
        self.before = self.symbols
        self.symbols = dict(self.defined)
        self.last_assigned, self.assigned = self.assigned, {}
        self.variables: dict[str, int] = {}
        self.labelled: set[str] = set()
        self.macros: dict[str, Macro] = {}
        self.defines: dict[str, str] = {}
        self.items: list[Item] = []
        self.pending: deque[Line] = deque()
        self.branches: list[list[bool]] = []  # of each open IF: whether its lines count, whether a part has counted, whether it may count
        self.at, self.scopes, self.main, self.numeric = 0, 0, "", dict[str, int]()
        self.areas: dict[str, int] = {}
        self.area = ""
        self.procs: list[dict[str, str]] = []  # of each open PROC: its local names, and by which these are kept
        self.is_ended = False
        self.is_unknown = False
        self.refused, self.lines = [], 0

    # ---- Names and values

    def key(self, word: str, line: Line) -> str:
        """The name by which a label is kept: a local one with what it belongs to."""
        for names in reversed(self.procs):
            if word in names:
                return names[word]
        if re.fullmatch(r"\d+\$", word):
            return f"{self.main}${word[:-1]}"
        if word.startswith(".") and self.dialect.locals == "label":
            return f"{self.main if not line.scope else line.scope}{word}"
        if word.startswith(".") and self.dialect.locals == "file":
            return f"{line.scope}{word}"
        if self.dialect.name == "sjasmplus" and word[:1] in "@!":
            word = word[1:]
        if not re.search(r"\w", word):
            raise Fault(f"{word or 'nothing'} is no name")
        return word

    def named(self, key: str) -> int:
        """The value of a name, by this pass or else by the last."""
        for where in (self.variables, self.symbols, self.before):
            if key in where:
                return where[key]
        raise Unknown(key)

    def tree(self, text: str, line: Line) -> Tree:
        """An expression, with the names by which labels are kept, and the values of names that change."""
        if self.dialect.name == "sdas":
            text = text.lstrip("#").strip()
        if self.dialect.name == "gas":
            text = re.sub(r"(?<![\w.$'\"])(\d{1,2})([bf])(?![\w'])", lambda it: f".L_{it[1]}_{self.numeric.get(it[1], 0) + (it[2] == 'f')}", text)

        def kept(tree: Tree) -> Tree:
            if tree[0] == "defined":
                return ("number", self.dialect.truth if self.is_defined(self.key(tree[1], line)) else 0)
            if tree[0] == "name":
                key = self.key(tree[1], line)
                return ("number", self.variables[key]) if key in self.variables else ("name", key)
            return tuple(kept(part) if isinstance(part, tuple) else part for part in tree)

        return kept(Reader(text, self.dialect).whole())

    def value(self, tree: Tree, here: int | None = None) -> int:
        """What an expression comes to; an Unknown where a name has no value yet."""
        return dialects.value_of(tree, self.dialect, self.named, self.at if here is None else here)

    def value_now(self, text: str, line: Line) -> int:
        """The value of an expression that has to have one at once; 0 in a pass that will be done again."""
        try:
            return self.value(self.tree(text, line))
        except Unknown as name:
            self.is_unknown = True
            if str(name) in self.before or not self.before:
                return 0
            raise Fault(f"{name} is defined nowhere") from None

    def is_defined(self, key: str) -> bool:
        """Whether a name is defined above."""
        return key in self.symbols or key in self.variables

    def define(self, key: str, value: int) -> None:
        """Gives a label its value."""
        if key in self.symbols and key not in self.defined:
            raise Fault(f"{key} is defined twice")
        self.symbols[key] = value

    # ---- Files, macros, repetition

    def read(self, path: pathlib.Path) -> list[str]:
        """The lines of a file."""
        if path not in self.files:
            content = path.read_bytes().removeprefix(b"\xef\xbb\xbf")
            if content[:2] in (b"\xff\xfe", b"\xfe\xff") or b"\0" in content:
                raise Fault(f"{path} is no text of bytes")
            lines = content.decode("latin-1").replace("\r\n", "\n").split("\n")
            if self.dialect.name in ("gas", "sjasmplus"):
                lines = re.sub(r"/\*.*?\*/", lambda it: "\n" * it[0].count("\n"), "\n".join(lines), flags=re.S).split("\n")
            self.files[path] = lines[:-1] if lines[-1] == "" else lines
        return self.files[path]

    def found(self, name: str, line: Line) -> pathlib.Path:
        """The file that a line names."""
        for folder in [pathlib.Path(line.file).parent, *self.folders]:
            if (folder / name).is_file():
                return folder / name
        raise Fault(f"there is no file {name}")

    def push(self, lines: list[Line]) -> None:
        """Puts lines before those that are to come."""
        if len(lines) + len(self.pending) > 4 * LONGEST:
            raise Fault("more lines than a source may have")
        self.pending.extendleft(reversed(lines))

    def body(self, ends: set[str], begins: set[str]) -> list[str]:
        """Takes the lines up to the end of a macro or a repetition."""
        found, depth = list[str](), 0
        while self.pending:
            text = self.pending.popleft().text
            labels, operation, _ = self.parts(without_comment(text, self.dialect)[0])
            kind = self.kind(operation)
            if kind in ends and depth == 0:
                return found + [f"{label}:" for label in labels]
            depth += (kind in begins) - (kind in ends)
            found.append(text)
        raise Fault(f"no {' or '.join(sorted(ends)).upper()} ends it")

    def own(self, lines: list[str]) -> tuple[list[str], list[str]]:
        """The lines of a body without those that say which names are local in it, and these names; what is within another one is its own."""
        kept, names, depth = list[str](), list[str](), 0
        for text in lines:
            bare = without_comment(text, self.dialect)[0]
            kind = self.kind(self.parts(bare)[1])
            depth += (kind in ("macro", "rept", "irp", "irpc")) - (kind in ("endm", "endr"))
            found = re.match(r"\s*\.?local\s+(.*)", bare, re.I) if depth == 0 else None
            names += parted(found[1]) if found else []
            kept += [] if found else [text]
        return kept, names

    def filled(self, macro: Macro, words: list[str], count: int) -> list[str]:
        """The lines of a macro with what is given for its parameters."""
        given = {name: words[at] if at < len(words) and words[at] else macro.defaults.get(name, "") for at, name in enumerate(macro.parameters)}
        given |= {word.partition("=")[0].strip(): word.partition("=")[2].strip() for word in words if word.partition("=")[0].strip() in given and "=" in word
                  and self.dialect.name == "gas"}  # fmt: skip
        locals_of = {name: f"{name}_m{count}" for name in macro.names}
        found = []
        for text in macro.body:
            if self.dialect.name == "gas":
                for name in sorted(given, key=len, reverse=True):
                    text = re.sub(rf"\\{re.escape(name)}(?!\w)", given[name].replace("\\", r"\\"), text)
                text = text.replace("\\@", str(count)).replace("\\()", "")
            elif self.dialect.name == "z80asm":
                for name in sorted(given, key=len, reverse=True):
                    text = re.sub(rf"(?<![A-Za-z0-9.]){re.escape(name)}(?![A-Za-z0-9.])", given[name].replace("\\", r"\\"), text)
            else:
                both = {**given, **locals_of}
                if both:
                    names = "|".join(re.escape(name) for name in sorted(both, key=len, reverse=True))
                    glue = r"(?:\s*##\s*|&)?" if self.dialect.name == "pasmo" else "'?" if self.dialect.name == "sdas" else ""
                    text = re.sub(rf"{glue}(?<![\w.$?@])({names})(?![\w.$?@]){glue}", lambda it: both[it[1]], text)
            found.append(text)
        return found

    def expand(self, macro: Macro, rest: str, line: Line) -> None:
        """Puts a macro's lines where it is called."""
        words = [word[1:-1] if word[:1] == "<" and word[-1:] == ">" else word for word in parted(rest, self.dialect)]
        if self.dialect.name == "gas" and len(words) == 1 and len(macro.parameters) > 1 and " " in words[0] and not set("()'\"+-*/") & set(words[0]):
            words = words[0].split()
        if len(words) > len(macro.parameters) and self.dialect.name != "pasmo":
            raise Fault(f"a macro with {len(words)} values, which takes {len(macro.parameters)}")
        if line.depth >= DEEPEST:
            raise Fault("a macro that calls itself")
        self.scopes += 1
        opened = len(self.branches)
        place = (self.scopes, line.depth + 1, opened)
        lines = [Line(line.file, line.number, text, *place) for text in self.filled(macro, words, self.scopes)]
        self.push([*lines, Line(line.file, line.number, "", *place, lambda: self.close(opened))])

    def close(self, opened: int) -> None:
        """Ends the IFs that were begun in a macro or a turn, as pasmo does."""
        if self.dialect.name == "pasmo":
            del self.branches[opened:]

    def repeat(self, macro: Macro, words: Iterator[str], line: Line, opened: int) -> None:
        """Puts the lines of a repetition once for each word, one turn after another, each with so many IFs open."""
        self.close(opened)
        word = next(words, None)
        if word is None:
            return
        self.scopes += 1
        place = (self.scopes, line.depth + 1, opened)
        turn = [Line(line.file, line.number, text, *place) for text in self.filled(macro, [word], self.scopes)]
        self.push([*turn, Line(line.file, line.number, "", *place, lambda: self.repeat(macro, words, line, opened))])

    def leave(self, line: Line) -> None:
        """Leaves the macro or the repetition that a line belongs to, with the IFs that were begun in it."""
        while self.pending and self.pending[0].depth >= line.depth > 0:
            self.pending.popleft()
        del self.branches[line.branches :]

    # ---- Lines

    def kind(self, word: str) -> str:
        """What a directive is; nothing where it is none."""
        bare = word.lower().removeprefix(".")
        if word.lower() == ".shift" and self.dialect.name == "pasmo":
            return "shift"  # (take_directive refuses it)
        if bare in LACKING[self.dialect.name] or not bare or self.dialect.name in ("z80asm", "pasmo") and word.startswith("."):
            return ""
        if self.dialect.name in ("gas", "sdas") and not word.startswith(".") and DIRECTIVES.get(bare, "") not in ("bytes", "words", "space", "equ", "org", "end"):
            return ""
        return DIRECTIVES.get(bare, "")

    def is_operation(self, word: str) -> bool:
        """Whether a word is an operation: an instruction, a directive or a macro."""
        return word.upper() in judge.MNEMONICS | UNDOCUMENTED or bool(self.kind(word)) or word in self.macros or word in ("=", "==", ":=")

    def parts(self, text: str) -> tuple[list[str], str, str]:
        """A line's labels, its operation, and what follows."""
        labels, rest, is_indented = list[str](), text.strip(), text[:1] in (" ", "\t")
        while found := re.match(r"([A-Za-z_.?@!$\\][\w.?@$!#\\&']*|\d+\$?)\s*::?(?!=)\s*", rest):
            labels.append(found[1])
            rest = rest[found.end() :]
        word = re.match(r"[^\s,:=()]+|:?==?", rest)
        if word and not labels and word[0] not in ("=", "=="):
            after = re.match(r"\s*(\S+)", rest[word.end() :])
            follows = re.match(r":?==?|[^\s]+", after[1]) if after else None
            defines = bool(follows) and (self.kind(follows[0]) in ("equ", "set", "macro") or follows[0] in ("=", "==", ":="))  # type: ignore[index]
            is_label = not is_indented or self.dialect.name == "pasmo" and (not after or self.is_operation(after[1]))
            is_label = is_label and not self.dialect.has_colons and not self.is_operation(word[0])
            if defines and not (self.kind(word[0]) == "macro") or is_label:
                labels.append(word[0])
                rest = rest[word.end() :].strip()
                word = re.match(r"[^\s,:=()]+|:?==?", rest)
        operation = word[0] if word else ""
        return labels, operation, rest[len(operation) :].strip()

    def said(self, text: str) -> tuple[str, list[str], str, str]:
        """A line's comment, its labels, its operation, and what follows, with what its names are defined to be."""
        text, comment = without_comment(text, self.dialect)
        for name, word in self.defines.items():
            text = re.sub(rf"(?<![\w.$?@'\"]){re.escape(name)}(?![\w.$?@'\"])", word.replace("\\", r"\\"), text)
        return comment, *self.parts(text)

    def branch(self, kind: str, rest: str, line: Line) -> bool:
        """Does what a line says of conditions: whether it says anything of them."""
        counts = all(one[0] for one in self.branches)
        if kind in ("if", "ifdef", "ifndef"):
            if not counts:
                self.branches.append([False, True, False])
                return True
            if kind == "if":
                holds = self.value_now(rest, line) != 0
            else:
                key = self.key(rest.split()[0] if rest.split() else "", line)
                holds = (key in self.symbols or key in self.variables or key in self.defines or key in self.macros) == (kind == "ifdef")
            self.branches.append([holds, holds, True])
        elif kind in ("else", "elseif", "endif"):
            if not self.branches:
                raise Fault(f"{kind.upper()} without an IF")
            top = self.branches[-1]
            if kind == "endif":
                self.branches.pop()
            elif kind == "else" and self.dialect.name == "z80asm":
                top[0] = top[2] and not top[0]
            else:
                outer = all(one[0] for one in self.branches[:-1])
                holds = kind == "else" or outer and not top[1] and self.value_now(rest, line) != 0
                top[0] = top[2] and not top[1] and holds
                top[1] = top[1] or top[0]
        else:
            return not counts
        return True

    def take(self, line: Line) -> None:
        """Does what a line says."""
        comment, labels, operation, rest = self.said(line.text)
        kind = self.kind(operation)
        if self.branch(kind, rest, line):
            return
        if kind in ("macro", "rept", "irp", "irpc", "equ", "set") or operation in ("=", "==", ":="):
            self.take_definition(kind or "=", labels, rest, line, comment)
            return
        item = Item(line, self.at, [self.label(label, line) for label in labels], comment=comment)
        self.items.append(item)
        if operation in self.macros:
            self.expand(self.macros[operation], rest, line)
        elif kind:
            self.take_directive(kind, operation, rest, item)
        elif operation.upper() in judge.MNEMONICS | UNDOCUMENTED:
            self.take_instruction(operation.upper(), rest, item)
        elif operation:
            raise Fault(f"{operation} is no instruction, directive or macro that is known")
        self.at += item.size

    def label(self, word: str, line: Line) -> str:
        """Defines a label at this place."""
        if self.dialect.name == "gas" and word.isdigit():
            self.numeric[word] = self.numeric.get(word, 0) + 1
            key = f".L_{word}_{self.numeric[word]}"
        else:
            key = self.key(word, line)
            if not re.fullmatch(r"\d+\$", word) and not word.startswith("."):
                self.main = key
        if key in self.variables:
            raise Fault(f"{key} is defined twice")
        self.define(key, self.at)
        self.labelled.add(key)
        return key

    def take_definition(self, kind: str, labels: list[str], rest: str, line: Line, comment: str) -> None:
        """Takes a macro, a repetition, or a value that a name gets."""
        if kind == "macro":
            words = parted(rest.replace("(", " ").replace(")", " ") if self.dialect.name == "gas" else rest, self.dialect)
            if not labels:
                first, *more = re.split(r"[\s,]+", rest, maxsplit=1)
                labels, words = [first], parted(more[0]) if more else []
            if self.dialect.name == "gas" and len(words) == 1:
                words = words[0].split()
            defaults = {word.partition("=")[0].strip(): word.partition("=")[2].strip() for word in words}
            body = self.body({"endm"}, {"macro", "rept", "irp", "irpc"} if self.dialect.name in ("pasmo", "sdas") else {"macro"})
            body, names = self.own(body)
            parameters = [name.partition(":")[0].removeprefix("?" if self.dialect.name == "sdas" else "") for name in defaults]
            self.macros[labels[-1]] = Macro(parameters, defaults, body, names)
        elif kind in ("rept", "irp", "irpc"):
            ends = {"endm"} if self.dialect.name in ("pasmo", "sdas") else {"endr"}
            for label in labels:
                self.items.append(Item(line, self.at, [self.label(label, line)]))
            lines = self.body(ends, {"rept", "irp", "irpc", "macro"} if ends == {"endm"} else {"rept", "irp", "irpc"})
            words = parted(rest, self.dialect)
            if kind == "rept":
                count = self.value_now(words[0] if words else "", line)
                if count > LONGEST:
                    raise Fault(f"a repetition of {count} times")
                first, step = (self.value_now(words[at], line) if len(words) > at else at - 2 for at in (2, 3))
                names = words[1:2] if self.dialect.name == "pasmo" else []
                given: Iterable[str] = (str((first + step * at) % 0x10000) for at in range(count))
            else:
                given = [word.strip("<>") for word in (words[1:] if kind == "irp" else words[1] if len(words) > 1 else "")]
                count, names = len(given), words[:1]
            body, local_names = self.own(lines)
            if count > 1 and self.lines + count * repetitions.fewest(self, body, names, line) > MOST_LINES:
                raise Fault(TOO_MANY)
            self.repeat(Macro(names, {}, body, local_names), iter(given), line, len(self.branches))
        else:
            self.assign(kind, labels, rest, line, comment)

    def assign(self, kind: str, labels: list[str], rest: str, line: Line, comment: str) -> None:
        """Gives a name a value, once or anew."""
        if not labels:
            words = parted(rest, self.dialect)
            if len(words) != 2:
                raise Fault("a value without a name")
            labels, rest = [words[0]], words[1]
        key = self.key(labels[-1], line)
        tree = self.tree(rest, line)
        self.assigned[key] = self.assigned.get(key, 0) + 1
        is_variable = kind in ("set", "=") and (self.last_assigned.get(key, 2 if kind == "set" else 1) > 1 or self.assigned[key] > 1)
        try:
            value = self.value(tree)
        except Unknown as name:
            self.is_unknown = True
            if self.before and str(name) not in self.before:
                raise Fault(f"{name} is defined nowhere") from None
            return
        if key in self.labelled:
            raise Fault(f"{key} is defined twice")
        if is_variable:
            self.symbols.pop(key, None)
            self.variables[key] = value
        elif kind in ("set", "=") and self.symbols.get(key) == value:
            pass
        else:
            self.define(key, value)
            self.items.append(Item(line, self.at, [key], "EQU", value=tree, comment=comment))

    def take_directive(self, kind: str, operation: str, rest: str, item: Item) -> None:
        """Takes a directive."""
        line = item.line
        if kind in ("bytes", "zero", "words"):
            self.take_data(kind, operation, rest, item)
        elif kind in ("space", "blkw", "fill"):
            words = parted(rest, self.dialect)
            if not words:
                raise Fault(f"{operation} without a size")
            item.size = self.value_now(words[0], line) * (2 if kind == "blkw" else 1)
            if kind == "fill" and len(words) > 1:
                width, value = self.value_now(words[1], line), self.value_now(words[2], line) if len(words) > 2 else 0
                item.data = [b"".join(value.to_bytes(8, "little", signed=value < 0)[:width] for _ in range(min(item.size, LIMIT)))]
                item.size *= width
                return
            if not 0 <= item.size <= 65536:
                raise Fault(f"a size of {item.size}")
            item.operation, item.fill = "DEFS", self.value_now(words[1], line) & 255 if len(words) > 1 else None
        elif kind in ("align", "balign", "p2align", "even"):
            words = parted(rest, self.dialect)
            step = 2 if kind == "even" else self.value_now(words[0], line) if words else 4
            step = 1 << step if kind == "p2align" or kind == "align" and self.dialect.name == "gas" else step
            if step < 1 or step > LIMIT:
                raise Fault(f"an alignment of {step}")
            item.operation, item.size = "DEFS", -self.at % step
            item.fill = self.value_now(words[1], line) & 255 if len(words) > 1 and words[1] else None
        elif kind == "org":
            self.at = item.at = self.value_now(parted(rest, self.dialect)[0] if parted(rest, self.dialect) else "", line)
        elif kind == "include":
            name = self.file_name(rest)
            if line.depth >= DEEPEST:
                raise Fault("a file that includes itself")
            path = self.found(name, line)
            self.scopes += 1
            self.push([Line(str(path), at, text, self.scopes, line.depth + 1) for at, text in enumerate(self.read(path), 1)])
        elif kind == "incbin":
            words = parted(rest, self.dialect)
            content = self.found(self.file_name(words[0] if words else ""), line).read_bytes()
            skip = self.value_now(words[1], line) if len(words) > 1 and words[1] else 0
            content = content[skip:][: self.value_now(words[2], line)] if len(words) > 2 else content[skip:]
            if len(content) > LIMIT:
                raise Fault(f"a file of {len(content)} bytes, and the ROM has 16,384")
            item.data, item.size = [content], len(content)
        elif kind == "end":
            self.is_ended = True
        elif kind == "area":
            self.enter_area(operation, rest)
        elif kind in ("define", "undefine"):
            word, _, more = rest.partition(" ")
            self.defines.pop(word, None)
            if kind == "define":
                self.defines[word] = more.strip() or "1"
        elif kind == "exitm":
            self.leave(line)
        elif kind == "local" and self.procs:
            self.scopes += 1
            self.procs[-1] |= {name: f"{name}_p{self.scopes}" for name in parted(rest, self.dialect)}
        elif operation.lower() in ("proc", "endp") and self.dialect.name == "pasmo":
            if operation.lower() == "endp" and not self.procs:
                raise Fault("ENDP without a PROC")
            self.procs = [*self.procs, {}] if operation.lower() == "proc" else self.procs[:-1]
        elif kind not in ("nothing", "local"):
            raise Fault(f"{operation} at a place where it says nothing")
        elif operation.lower().strip(".") in ("module", "proc", "endp", "endmodule") and self.dialect.name in ("sjasmplus", "pasmo"):
            raise Fault(f"{operation}, which isn't known")

    def file_name(self, text: str) -> str:
        """The name of a file as a line has it."""
        text = text.strip()
        return text[1 : text.index(text[0], 1)] if text[:1] in ("'", '"', "<", "/") and text[0] in text[1:] else text.strip("<>")

    def enter_area(self, operation: str, rest: str) -> None:
        """Goes on in another area: one of data is in RAM, from 4C00H on, and all others are one after another as they come."""
        bare = operation.lower().strip(".")
        name = (re.split(r"[\s,(]", rest.strip(), maxsplit=1)[0] if rest.strip() else "") if bare in ("area", "section") else bare
        is_data = bool(re.search(r"data|bss|heap|ram", name, re.I)) and "rodata" not in name.lower() and self.dialect.name in ("sdas", "gas")
        kept = "ram" if is_data else "rom"
        self.areas["ram" if self.area == "ram" else "rom"] = self.at
        self.area, self.at = kept, self.areas.get(kept, 0x4C00 if is_data else 0)

    def take_data(self, kind: str, operation: str, rest: str, item: Item) -> None:
        """Takes a list of bytes, of texts, or of words."""
        if self.dialect.name == "sdas" and operation.lower().strip(".") in ("ascii", "asciz", "str", "strz") and rest:
            rest = rest if rest[0] in "'\"" else '"' + rest[1 : rest.rindex(rest[0])] + '"'
            item.data = [rest[1 : rest.rindex(rest[0])].encode("latin-1")]
        else:
            words = parted(rest, self.dialect)
            if not words and self.dialect.name not in ("gas",):
                raise Fault(f"{operation} without a value")
            for word in words:
                if dialects.quoted(word) == word and word and (kind != "words" or len(word) != 3):
                    if kind == "words":
                        raise Fault(f"a text in {operation}")
                    item.data.append(dialects.text_of(word, self.dialect))
                    item.data += [b"\0"] if kind == "zero" and self.dialect.name == "gas" else []
                else:
                    item.data.append(self.tree(word, item.line))
        item.data += [b"\0"] if kind == "zero" and not (self.dialect.name == "gas" and item.data[-1:] == [b"\0"]) else []
        item.width = 2 if kind == "words" else 1
        for one in item.data:
            item.heres.append(item.at + (item.size if self.dialect.name in ("gas", "sdas") else 0))
            item.size += len(one) if isinstance(one, bytes) else item.width

    # ---- Instructions

    def operand(self, text: str, line: Line) -> tuple[str, Tree | None, str]:
        """An operand: what stands before its expression, the expression, and what stands after it."""
        bare = re.sub(r"\s+", "", text).upper().removeprefix("#") if self.dialect.name == "sdas" else re.sub(r"\s+", "", text).upper()
        if bare in ("AF'", "AF`"):
            return "AF'", None, ""
        if bare in judge.REGISTERS or bare in HALVES | {"F"}:
            return bare, None, ""
        square = self.dialect.name in ("pasmo", "sjasmplus") and bare[:1] == "[" and bare[-1:] == "]"
        if square:
            text, bare = f"({text.strip()[1:-1]})", f"({bare[1:-1]})"
        if before := re.fullmatch(r"(.*\S)\s*\(\s*(ix|iy)\s*\)", text, re.I):
            return f"({before[2].upper()}+", self.tree(before[1], line), ")"
        if bare[:1] == "(" and self.is_group(text.strip()):
            inside = text.strip()[1:-1].strip()
            if inside.upper() in judge.REGISTERS:
                return f"({inside.upper()})", None, ""
            if found := re.match(r"(ix|iy)\s*(?=[-+])", inside, re.I):
                return f"({found[1].upper()}+", self.tree("0" + inside[found.end() :] if self.dialect.name != "pasmo" else self.signed(inside[found.end() :]), line), ")"
            if found := re.fullmatch(r"(.+)\+\s*(ix|iy)", inside, re.I):
                return f"({found[2].upper()}+", self.tree(found[1], line), ")"
            return "(", self.tree(inside, line), ")"
        return "", self.tree(text, line), ""

    def signed(self, text: str) -> str:
        """The displacement after IX, whose sign binds as between two operands."""
        return "0" + text

    def is_group(self, text: str) -> bool:
        """Whether the first bracket of a text is closed by its last character."""
        depth = 0
        for at, sign in enumerate(text):
            depth += {"(": 1, ")": -1}.get(sign, 0)
            if depth == 0:
                return at == len(text) - 1
        return False

    def take_instruction(self, mnemonic: str, rest: str, item: Item) -> None:
        """Takes an instruction, in the form that it has here."""
        words = parted(rest, self.dialect)
        operands = [self.operand(word, item.line) for word in words]
        if mnemonic in UNDOCUMENTED or any(before.strip("(") in HALVES | {"F"} for before, _, _ in operands):
            raise Fault(f"{mnemonic} {rest} is no documented instruction, and the board stops there")
        for name, forms in self.forms(mnemonic, operands):
            shown = ",".join(before.removesuffix("+") + ("+0" if before.endswith("+") else "0" if tree else "") + after for before, tree, after in forms)
            read = judge.read_line(f" {name} {shown}".encode("latin-1"))
            if not isinstance(read, str):
                item.operation, item.operands, item.size = name, forms, read.size or 0
                return
        raise Fault(f"{mnemonic} {rest} is no instruction in a form that is known")

    def forms(self, mnemonic: str, operands: list[tuple[str, Tree | None, str]]) -> list[tuple[str, list[tuple[str, Tree | None, str]]]]:
        """The forms in which an instruction may be meant, the likeliest first."""
        found = [(mnemonic, operands)]
        a: tuple[str, Tree | None, str] = ("A", None, "")
        if mnemonic in ("ADD", "ADC", "SBC") and len(operands) == 1:
            found.append((mnemonic, [a, *operands]))
        if mnemonic in ("SUB", "AND", "OR", "XOR", "CP") and len(operands) == 2 and operands[0] == a:
            found.append((mnemonic, operands[1:]))
        if mnemonic == "JP" and operands and operands[-1][0] in ("HL", "IX", "IY"):
            found.append((mnemonic, [(f"({operands[-1][0]})", None, "")]))
        if mnemonic == "JP" and len(operands) == 1 and operands[0][0] in ("(IX+", "(IY+") and operands[0][1] == ("number", 0):
            found.append((mnemonic, [(operands[0][0].replace("+", ")"), None, "")]))
        if mnemonic == "EX" and len(operands) == 2:
            found.append((mnemonic, operands[::-1]))
            if operands[0][0] == "AF":
                found.append((mnemonic, [("AF", None, ""), ("AF'", None, "")]))
        if self.dialect.name in ("pasmo", "z80asm"):  # which take a group for a number where nothing is in memory
            found.append((mnemonic, [("", one[1], "") if one[0] == "(" and at == len(operands) - 1 else one for at, one in enumerate(operands)]))
        if mnemonic in ("IN", "OUT") and len(operands) == 2:
            found.append((mnemonic, [("(", one[1], ")") if one[0] == "" and one[1] else one for one in operands]))
        return found

    # ---- Passes

    def take_all(self, path: pathlib.Path) -> None:
        """Goes through the source once."""
        line = Line(str(path), 1, "")
        try:
            self.push([Line(str(path), at, text) for at, text in enumerate(self.read(path), 1)])
        except Fault as fault:
            raise Refused(line.file, line.number, str(fault)) from None
        while self.pending and not self.is_ended:
            line = self.pending.popleft()
            if line.then:
                line.then()
                continue
            self.lines += 1
            if self.lines > MOST_LINES:
                raise Refused(line.file, line.number, TOO_MANY)
            try:
                self.take(line)
            except RecursionError:
                raise Refused(line.file, line.number, "an expression of too many parts") from None
            except Fault as fault:
                refused = Refused(line.file, line.number, str(fault))
                if not self.is_told:
                    raise refused from None
                self.refused.append(str(refused))
        if self.branches:
            raise Refused(line.file, line.number, "an IF that no ENDIF ends")

    def run(self, path: pathlib.Path) -> None:
        """Goes through the source until no value changes."""
        self.file = str(path)
        for _ in range(PASSES):
            self.begin_pass()
            self.take_all(path)
            if self.symbols == self.before and not self.is_unknown or self.refused and self.symbols == self.before:
                return
        raise Refused(str(path), 1, "values that change from pass to pass")
