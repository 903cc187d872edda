"""All faults of a source that are certain: the one that is told first, and those that come once its line is out of the way.

A faulty line is replaced by room of its size where that is known, otherwise by its label alone, and the source is assembled again. After a line
whose size isn't known, what hangs on addresses isn't certain; after one that might define a name, that this name isn't defined isn't; of a name
that two lines define no value is; and after one that opens or ends something, as an IF or a macro, nothing is. hosts/web/studio/faults.js does the same with the module; tools/check/studio holds
both against each other.
"""
import re
from typing import Any, NamedTuple

import causes
import facts
import judge_source as judge

MOST = 20  # faults
ROUNDS = 60  # assemblies
LONGEST = 4000  # lines of a source that is assembled more than once
HEAD = rb"[^A-Za-z_]*(?:[A-Za-z_]\w*[^A-Za-z_]+)?"  # up to a line's first word, or to its second
WORD = re.compile(rb"[A-Za-z_][A-Za-z0-9_]*")
OPENS = re.compile(HEAD + rb"(?:IF\w*|ELSE\w*|ELIF|END\w*|MACRO|REPT|DUP|REPEAT|WHILE|STRUCT?|PROC|LOCAL|COMMENT)\b|.*/\*", re.I | re.S)
BRINGS = re.compile(HEAD + rb"(?:INCLUDE|INCBIN|READ|INSERT|EXTERN|EXTRN|GLOBAL|PUBLIC|DEFC|DEFINE|ENUM)\b", re.I)
NUMBER = re.compile(rb"[ \t]*[A-Za-z_]\w*[ \t]*:?[ \t]*(?:(?:EQU|DEFL|SET)\b|=)", re.I)
LABEL = re.compile(rb"[ \t]*([A-Za-z_]\w*)[ \t]*:")
Fault = tuple[str, int]


class Found(NamedTuple):
    """A fault: its code, its line, and sentences about its cause."""

    code: str
    line: int
    causes: list[str]


def fault_of(source: bytes) -> Fault | None:
    """The fault of a source, as the checker in Python tells it: its code, and its line."""
    found = re.fullmatch(r"refused (A\d+(?: L\d)?) line (\d+)", judge.assemble(source)[1] or "")
    return (found[1], int(found[2])) if found else None


def has_here(tree: Any) -> bool:
    """Whether an expression has the address of its line in it."""
    return tree[0] == "here" or any(has_here(part) for part in tree[1:] if isinstance(part, tuple))


class Search:
    """A source whose faulty lines are replaced, one after another."""

    def __init__(self, source: bytes):
        self.lines, self.found, self.others, self.doubted = judge.lines_of(source), list[Found](), set[bytes](), set[str]()
        self.is_moved = self.is_full = self.brings = self.is_over = False

    def source(self) -> bytes:
        """The source as it is now."""
        return b"".join(line + b"\n" for line in self.lines)

    def unsure(self) -> set[str]:
        """The names whose values aren't known: those of two lines, and those that hang on where bytes are once that isn't known."""
        names = set(self.doubted)
        for text in self.lines:
            line = judge.read_line(text)
            if not isinstance(line, str) and line.label and (self.is_unsure(line.at_once, names) if line.operation == "EQU" else self.is_moved):
                names.add(line.label)
        return names

    def is_unsure(self, tree: Any, names: set[str]) -> bool:
        """Whether the value of an expression isn't known."""
        return self.is_moved and has_here(tree) or bool(judge.names_of(tree) & names)

    def is_certain(self, code: str, refused: facts.Refused) -> bool:
        """Whether a fault would be there, whatever the lines before it should have been."""
        if code in ("A5", "A6"):
            return not self.is_moved and not self.is_full
        if code in ("A4", "A8"):
            return not self.brings and any(one["name"].encode() not in self.others for one in refused["undefined"])
        if code == "A2":
            return not self.brings or bool(refused.operation)
        if code in ("A9", "A10"):
            names, values = self.unsure(), refused["values"] if code == "A9" else []
            wrong = [one["tree"] for one in values if one["kind"] != "e" or not self.is_moved] if code == "A9" else refused.valueless()
            return any(not self.is_unsure(tree, names) for tree in wrong)
        return True

    def replace_unread(self, number: int) -> None:
        """Takes a line out of the way that says nothing: its label is left, where a colon tells it."""
        text = self.lines[number - 1]
        named, is_number = LABEL.match(text), bool(NUMBER.match(text))
        is_label = named is not None and not is_number and named[1].decode().upper() not in judge.RESERVED
        self.others |= set(WORD.findall(text))
        self.is_moved |= not is_number
        self.brings |= bool(BRINGS.match(text))
        self.lines[number - 1] = named[1] + b":" if named and is_label else b""

    def replace(self, code: str, number: int, refused: facts.Refused) -> None:
        """Takes a line out of the way that has a fault where it is: room of its size is left, or its label."""
        text, label = self.lines[number - 1], refused.label.encode()
        size = refused["at once"] if refused.operation in ("DEFS", "DS") else refused.read.size
        head = label + b":" if label else b""
        self.lines[number - 1] = head
        if code == "A3":
            self.doubted.add(refused.label)
            self.lines[number - 1] = b"" if refused.operation == "EQU" else re.sub(rb"^[ \t]*\w+[ \t]*:?", b" ", text)
        elif refused.operation == "EQU":
            self.others.add(label)
            self.lines[number - 1] = b""
        elif code in ("A8", "A9", "A10") and size is not None:
            self.lines[number - 1] = head + b" DEFS %d" % size
        else:
            self.is_moved = True
            if code in ("A5", "A6"):
                self.is_full = True
                self.lines[number - 1] = text if self.drop_origins() and refused.operation != "ORG" else head

    def drop_origins(self) -> bool:
        """Lets all bytes follow one another, so that none is where another one is; whether there was something to do."""
        origins = [at for at, text in enumerate(self.lines) if not isinstance(line := judge.read_line(text), str) and line.operation == "ORG"]
        for at in origins:
            self.lines[at] = b""
        return bool(origins)

    def take(self, code: str, number: int) -> None:
        """Takes a fault."""
        if code == "A7":
            self.found, self.is_over = [Found(code, number, [])], True
            return
        refused, text = facts.Refused(code, self.source(), number), self.lines[number - 1]
        if number not in (one.line for one in self.found) and (not self.found or self.is_certain(code, refused)):
            self.found.append(Found(code, number, list(causes.sentences(code, refused))))
        is_unread = code.startswith("A1 ") or code == "A2"
        self.is_over = code in ("A12", "A13", "A14") or judge.first_word(text) == b"IF" or is_unread and bool(OPENS.match(text.partition(b";")[0]))
        if self.is_over:
            return
        if is_unread:
            self.replace_unread(number)
        else:
            self.replace(code, number, refused)
        self.is_over = self.has_unsure_conditions()

    def has_unsure_conditions(self) -> bool:
        """Whether an IF hangs on what isn't known."""
        names = self.unsure() if self.is_moved or self.doubted else set()
        read = (judge.read_line(text) for text in self.lines if judge.first_word(text) == b"IF")
        return any(not isinstance(line, str) and line.at_once and self.is_unsure(line.at_once, names) for line in read)


def faults(source: bytes) -> list[Found]:
    """The faults of a source: first the one that is told, and then the others that are certain, by their lines."""
    search, fault = Search(source), fault_of(source)
    for _ in range(ROUNDS):
        if fault is None:
            break
        search.take(*fault)
        if search.is_over or len(search.found) == MOST or len(search.lines) > LONGEST:
            break
        fault = fault_of(search.source())
    return search.found[:1] + sorted(search.found[1:], key=lambda one: one.line)
