"""The manual page pacboard.1, made from what the program's own help says and from the commands that docs/USING.md shows: for bin/install and
bin/release."""
import pathlib
import re
import subprocess

ROOT = pathlib.Path(__file__).resolve().parents[2]
STATUSES = {0: "The work is done.", 1: "An input is refused; the line on standard error has the code.",
            2: "The command line can't be understood.", 3: "A file can't be read or written.", 4: "Out of memory.",
            5: "The board stopped at bytes that are no documented instruction; the report says where."}  # fmt: skip
ROW = re.compile(r"^ +(?:-\w, +)?(--[\w-]+|<\w+>)(?: <(\w+)>)? {2,}(.*)$")


def help_of(program: pathlib.Path, *words: str) -> str:
    """What the program's help says."""
    return subprocess.run([program.resolve(), *words, "--help"], capture_output=True, text=True, check=True).stdout


def roff(text: str) -> str:
    """A text as troff has it."""
    text = text.replace("\\", r"\e").replace("-", r"\-")
    return "\\&" + text if text[:1] in (".", "'") else text


def rows(text: str) -> list[str]:
    """The arguments and options of a help, each with what it is."""
    found = []
    for line in text.splitlines():
        if row := ROW.match(line):
            found += [".TP", roff(row[1].strip("<>") + (f" {row[2]}" if row[2] else "")), roff(f"{row[3].rstrip('.')}.")]
    return found


def examples(page: str) -> list[str]:
    """The commands that USING shows of the program itself."""
    after = page.partition("`pacboard` itself")[2]
    block = re.search(r"(?:^ {6}\S.*\n)+", after, re.M)
    lines = [line.strip() for line in block[0].splitlines()] if block else []
    said = re.search(r"^ {2}The first prints(?:.*\n)+?\n", after, re.M)
    return [".nf", *map(roff, lines), ".fi", ".PP", roff(" ".join(said[0].split()) if said else "")]


def page(program: pathlib.Path) -> str:
    """The manual page."""
    top, using = help_of(program), (ROOT / "docs/USING.md").read_text()
    names = re.findall(r"^  (\w+) {2,}", top.partition("Commands:")[2].partition("Options:")[0], re.M)
    texts = {name: help_of(program, name) for name in names}
    about = top.splitlines()[0]
    lines = ['.TH PACBOARD 1 "" "pacboard" "User Commands"', ".SH NAME", rf"pacboard \- {roff(about[0].lower() + about[1:])}", ".SH SYNOPSIS", ".nf"]
    lines += [roff(re.sub(r"[<>]", "", re.search(r"^Usage: (.*)$", text, re.M)[1])) for text in texts.values()]  # type: ignore[index]
    lines += [r"pacboard \-\-help | \-\-version", ".fi", ".SH DESCRIPTION",
              "A source in the assembly language of the Z80, or the ROMs of a board, and a script of what the player holds become pictures,",
              "sound, a listing and a report on standard output, the same bytes each time."]  # fmt: skip
    for name, text in texts.items():
        lines += [f".SH {name.upper()}", roff(f"{text.splitlines()[0]}."), *rows(text)]
    lines += [".SH EXAMPLES", *examples(using), ".SH EXIT STATUS"]
    for status, text in STATUSES.items():
        lines += [".TP", str(status), roff(text)]
    return "\n".join(lines) + "\n"
