"""How many lines a repetition makes at least, told before they are made. For tools/lib/translating.py, which refuses one of too many at once."""
from __future__ import annotations

import re
from typing import TYPE_CHECKING

import dialects
from dialects import Fault, Unknown

if TYPE_CHECKING:
    from translating import Line, Translation

REPEATS = ("rept", "irp", "irpc")
ENDS = ("endr", "endm")


class Part:
    """A body that is being counted: how often its lines come, as far as that is known, how many it has so far, and its open IFs."""

    def __init__(self, times: int) -> None:
        self.times, self.lines, self.branches = times, 0, 0


class Count:
    """Counts the lines of a body and of what it repeats and calls. Of what depends on a condition or on a value that may change, nothing is counted but
    the line itself; a body that may end the source, or bring other lines and names, counts as none."""

    def __init__(self, translation: Translation, line: Line) -> None:
        self.translation, self.line = translation, line
        self.macros: dict[str, int] = {}

    def body(self, lines: list[str], names: set[str]) -> int:
        """The lines of a body in which these names are replaced; an Unknown where it may end early or change what follows."""
        parts = [Part(1)]
        for text in lines:
            _, labels, operation, rest = self.translation.said(text)
            kind = self.translation.kind(operation)
            if not self.is_countable(kind, operation) or any(name in word for name in names for word in (operation, *labels)):
                raise Unknown(operation)
            if kind in ENDS:
                ended = parts.pop()
                if not parts:
                    raise Unknown(operation)
                parts[-1].lines += ended.times * ended.lines
                continue
            top = parts[-1]
            top.lines += kind != "local"
            if kind in REPEATS:
                parts.append(Part(0 if top.branches else self.times(kind, rest, names)))
                words = dialects.parted(rest, self.translation.dialect)
                names = names | set(words[:1] if kind != "rept" else words[1:2]) - {""}
            elif kind in ("if", "ifdef", "ifndef", "endif"):
                top.branches += 1 if kind != "endif" else -1
            elif kind == "exitm":
                top.times = 0
            elif operation in self.translation.macros and not top.branches:
                top.lines += self.called(operation)
        return parts[0].times * parts[0].lines

    def is_countable(self, kind: str, operation: str) -> bool:
        """Whether an operation is one that neither ends the source nor brings other lines and names."""
        return kind not in ("end", "include", "define", "undefine", "macro") and (not operation or self.translation.is_operation(operation))

    def called(self, name: str) -> int:
        """The lines of a macro, which counts as none within itself."""
        if name not in self.macros:
            self.macros[name] = 0
            macro = self.translation.macros[name]
            self.macros[name] = self.body(macro.body, {*macro.parameters, *macro.names} - {""})
        return self.macros[name]

    def times(self, kind: str, rest: str, names: set[str]) -> int:
        """How often a repetition comes, where that is a number or a name whose value stays; else 0."""
        words = dialects.parted(rest, self.translation.dialect)
        if any(name in rest for name in names) or not words:
            return 0
        if kind != "rept":
            return len(words) - 1 if kind == "irp" else len(words[1]) if len(words) > 1 else 0
        try:
            tree = self.translation.tree(words[0], self.line)
            return max(0, dialects.value_of(tree, self.translation.dialect, self.lasting(words[0]).__getitem__, 0))
        except (Fault, Unknown, KeyError):
            return 0

    def lasting(self, text: str) -> dict[str, int]:
        """The names whose values no line changes; an Unknown where an expression has others, or says where it stands."""
        translation = self.translation
        words = set(re.findall(r"[A-Za-z_.?@!\\$][\w.?@$!#\\]*", text))
        if words & {*translation.variables, *translation.dialect.here} or translation.procs or "DEFINED" in text.upper():
            raise Unknown(text)
        return {name: value for name, value in translation.symbols.items() if name.isidentifier() and name not in translation.defined}


def fewest(translation: Translation, lines: list[str], names: list[str], line: Line) -> int:
    """How many lines a body makes at least, each time that it comes."""
    try:
        return Count(translation, line).body(lines, set(names) - {""})
    except (Fault, Unknown):
        return 0
