"""A session's text beside its commands: which lines answer which command, and what addresses are called."""
import re
from collections.abc import Iterator

import judge_run
import judge_source

RAM, TOP = 0x4000, 0xFFFF  # a number by EQU below is no place
FAR, NEAR = 255, 31  # bytes from a name to a place in the program, and in RAM
WIDE = 38  # columns of an answer, where names come after it
# What has an address in it, by the command: the address, and an instruction. All others answer with a place.
FORMS = {b"dis": r"([0-9A-F]{4}) [0-9A-F]{2,8} +(\S.*)", b"history": r"\d+ ([0-9A-F]{4}) (.*)", b"": r"[a-z]+ \d+ \d+ ([0-9A-F]{4}) (.*)"}
Names = dict[int, str]


def answered(commands: bytes, session: str) -> Iterator[tuple[int, list[bytes], list[str]]]:
    """Each command that says something: its line, its words, and the lines of its answer."""
    answers, at, index = session.splitlines(), 0, 0
    for number, line in enumerate(judge_source.lines_of(commands), 1):
        words = judge_run.words_of(line)
        if not words or at >= len(answers):
            continue
        name, count = words[0], judge_run.number_of(words[-1], 256) or 1
        is_history = name == b"history" and len(words) == 2
        if is_history and not index:
            yield number, words, []
            continue
        if answers[at].startswith("refused"):
            count = 1
        elif name in (b"step", b"continue", b"frames", b"back", b"return"):
            index, count = int(answers[at].split()[1]), 1
        elif is_history:
            count = min(count, index)
        elif name != b"dis":
            count = {b"mem": (count + 15) // 16, b"regs": 2}.get(name, 1)
        yield number, words, answers[at : at + count]
        at += count


def names_of(listing: str) -> Names:
    """What addresses are called: labels, and numbers by EQU that are places in RAM or ports."""
    head, _, rows = ("\n" + listing).rpartition("\nSYMBOLS\n")
    read = [judge_source.read_line(line[20:].encode("latin-1")) for line in head.splitlines() if line[:5].isdigit()]
    numbers = {line.label for line in read if not isinstance(line, str) and line.operation == "EQU"}
    found: Names = {}
    for name, value in (row.split(" ") for row in rows.splitlines()):
        if RAM <= int(value) <= TOP or name not in numbers:
            found.setdefault(int(value), name)
    return found


def name_of(names: Names, address: int) -> str:
    """The name of an address: a symbol, or one and how far it is from there; nothing where none is near."""
    for less in range((FAR if address < RAM else NEAR) + 1):
        if address - less in names and (address < RAM) == (address - less < RAM):
            return names[address - less] + (f"+{less}" if less else "")
    return ""


def said_beside(command: bytes, answer: str, names: Names) -> str:
    """The names of the addresses that a line of a command's answer has."""
    if command == b"mem":
        return name_of(names, int(answer[:4], 16))
    if command == b"regs":
        pairs = re.findall(r"\b(BC|DE|HL|IX|IY|SP|PC)=([0-9A-F]{4})", answer) if answer.startswith("AF=") else []
        called = [(pair, name_of(names, int(value, 16)) if pair == "PC" else names.get(int(value, 16), "")) for pair, value in pairs]
        return ", ".join(f"{pair} {name}" for pair, name in called if name)
    found = re.fullmatch(FORMS.get(command, FORMS[b""]), answer)
    if not found:
        return ""
    numbers = [number for number in re.findall(r"\b0?([0-9A-F]{4})H", found[2]) if int(number, 16) in names]
    return ", ".join(filter(None, [name_of(names, int(found[1], 16)), *(f"{number}H {names[int(number, 16)]}" for number in numbers)]))


def shown(commands: bytes, session: str, names: Names) -> list[str]:
    """The text of a session with each command before its answer, and names after addresses."""
    lines, answers = list[str](), session.splitlines()
    for number, words, some in answered(commands, session):
        lines.append(f"> {judge_source.lines_of(commands)[number - 1].decode('latin-1').strip()}")
        answers = answers[len(some) :]
        for answer in some:
            beside = "" if answer.startswith("refused") else said_beside(words[0], answer, names)
            lines.append(f"{answer:<{WIDE}}  ; {beside}" if beside else answer)
    return lines + answers
