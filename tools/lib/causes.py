"""The likely causes of a refusal, by the table tools/lib/causes.json, for bin/explain. hosts/web/studio/causes.js reads the same table.

A code has groups of rules; of each group the first rule whose conditions hold says its sentence, or a group is tried for each item of a fact.

    {"if": {FACT: CONDITION, ..}, "say": SENTENCE}
    {"if": .., "from": TABLE, "of": FACT, "say": SENTENCE}
    {"each": FACT, "rules": [..]}

A condition is true or false (the fact is there, or isn't), a pattern that the whole fact has to match, a list of patterns' texts, or {"above": N} or
{"below": N}. With `from` the fact, or the first of its items, has to match the pattern of a row, whose sentence is {found}. In a sentence {FACT}
is a fact, {0} what was matched, {1} the pattern's first group, {1|hex} the same as a hexadecimal number, and {1|upper} in capitals. Patterns take
either case.
"""
import functools
import json
import pathlib
import re
from collections.abc import Iterator
from typing import Any

import facts
import judge_source

TABLE: Any = json.loads((pathlib.Path(__file__).resolve().parent / "causes.json").read_text())
FLAGS = re.IGNORECASE | re.ASCII | re.DOTALL
Groups = list[str]


class Within:
    """Facts of an item, and of what it is in."""

    def __init__(self, item: dict[str, Any], known: Any):
        self.item, self.known = item, known

    def __getitem__(self, name: str) -> Any:
        return self.item[name] if name in self.item else self.known[name]


@functools.cache
def pattern(text: str) -> re.Pattern[str]:
    """A pattern."""
    return re.compile(text, FLAGS)


def is_there(value: Any) -> bool:
    """Whether a fact is there; the number 0 is."""
    return value not in (None, False, "", [])


def shown(value: Any) -> str:
    """A fact as a sentence has it."""
    return ", ".join(map(str, value)) if isinstance(value, list) else "" if value is None else str(value)


def hexadecimal(value: Any) -> str:
    """A hexadecimal number as a source has it, of digits or of a number."""
    digits = f"{value:04X}" if isinstance(value, int) else value.upper()
    return ("" if digits[:1].isdigit() else "0") + digits + "H"


def filled(text: str, known: Any, groups: Groups) -> str:
    """A sentence with what is known, and with what a pattern has found."""

    def fill(found: re.Match[str]) -> str:
        """What is in the place of a name."""
        name, _, form = found[1].partition("|")
        value = groups[int(name)] if name.isdigit() else known[name]
        return hexadecimal(value) if form == "hex" else shown(value).upper() if form == "upper" else shown(value)

    return re.sub(r"\{([^{}]+)\}", fill, text)


def holds(condition: Any, value: Any) -> Groups | None:
    """What a condition finds in a fact; None where it doesn't hold."""
    if isinstance(condition, bool):
        return [] if is_there(value) == condition else None
    if isinstance(condition, dict):
        is_so = value is not None and value > condition.get("above", value - 1) and value < condition.get("below", value + 1)
        return [] if is_so else None
    if isinstance(condition, list):
        return [] if shown(value) in condition else None
    found = pattern(condition).fullmatch(shown(value))
    return [found[0], *(group or "" for group in found.groups())] if found else None


def row_of(table: list[list[str]], value: Any) -> tuple[str, Groups] | None:
    """The sentence of a table's first row that matches a fact, or the first of its items that one matches."""
    for item in value if isinstance(value, list) else [value]:
        for text, sentence in table:
            if item and (found := pattern(text).fullmatch(item)):
                return sentence, [found[0], *(group or "" for group in found.groups())]
    return None


def said(rule: Any, known: Any) -> str | None:
    """What a rule says; None where its conditions don't hold."""
    groups = list[str]()
    for name, condition in rule.get("if", {}).items():
        found = holds(condition, known[name])
        if found is None:
            return None
        groups = found or groups
    if "from" not in rule:
        return filled(rule["say"], known, groups)
    row = row_of(TABLE["tables"][rule["from"]], known[rule["of"]])
    return filled(rule["say"], Within({"found": filled(row[0], known, row[1])}, known), row[1]) if row else None


def sentences(code: str, known: Any) -> Iterator[str]:
    """The sentences of a code, by what is known."""
    for group in TABLE["causes"].get(code, []):
        for item in known[group["each"]] if "each" in group else [{}]:
            rules = group["rules"] if "each" in group else group
            sentence = next((one for rule in rules if (one := said(rule, Within(item, known))) is not None), None)
            if sentence is not None:
                yield sentence


def causes(code: str, source: bytes, number: int) -> list[str]:
    """Sentences about the cause of a fault in a line of a source; none where nothing is sure."""
    if code == "A7" or not 1 <= number <= len(judge_source.lines_of(source)):
        return []
    return list(sentences(code, facts.Refused(code, source, number)))
