"""Runs programs under traced.c, which writes down each system call that they make, and refuses some: shared by the gate's tools."""
import errno
import os
import pathlib
import subprocess
from dataclasses import dataclass
from typing import Any

FAILED = 125  # the exit status where a program can't be traced
SOURCE = pathlib.Path(__file__).resolve().parent / "traced.c"
WRITING = os.O_WRONLY | os.O_RDWR
OPENS = {"open", "openat", "creat"}


@dataclass
class Call:
    """A system call: its name, what it answers, None where it doesn't return, and what traced.c tells of its arguments."""

    name: str
    answer: int | None
    words: list[str]

    @property
    def path(self) -> str | None:
        """The path that it opens; None where it opens none."""
        return self.words[0] if self.name in OPENS else None

    @property
    def is_written(self) -> bool:
        """Whether it opens a file that is written."""
        return self.name == "creat" or self.name in OPENS and bool(int(self.words[1]) & WRITING)

    @property
    def file(self) -> int | None:
        """The descriptor that it is about; None where it is about none."""
        is_about_one = self.words and self.name not in OPENS and self.words[0].isdigit()
        return int(self.words[0]) if is_about_one else None

    def __str__(self) -> str:
        answer = "" if self.answer is None else f" = {errno.errorcode.get(-self.answer, self.answer)}"
        return f"{self.name}({', '.join(self.words)}){answer}"


def build(folder: str) -> str:
    """Compiles traced.c into a folder, and answers the path of what it becomes."""
    program = os.path.join(folder, "traced")
    subprocess.run(["cc", "-std=c11", "-O2", SOURCE, "-o", program], check=True)
    return program


def calls_of(path: str) -> list[Call]:
    """The calls that traced.c has written down."""
    with open(path, encoding="utf-8", errors="surrogateescape") as file:
        lines = [line.rstrip("\n").split("\t") for line in file]
    return [Call(name, None if answer == "none" else int(answer), words) for name, answer, *words in lines]


def how_refused(count: int, error: int) -> list[str]:
    """The words that have the call of a number refused, counted from 1, with an error."""
    return ["-r", f"{count}:{error}"]


def run(tracer: str, list_path: str, how: list[str], words: list[Any], **more: Any) -> tuple[Any, list[Call]]:
    """Runs a program under the tracer: what it comes to, as subprocess tells it, with the status 128 and the signal where one ended it, and its calls."""
    done = subprocess.run([tracer, list_path, *how, *words], check=False, **more)
    if done.returncode == FAILED:
        raise OSError(f"{words[0]} can't be traced")
    return done, calls_of(list_path)


def opened_and_closed(calls: list[Call]) -> list[str]:
    """The files that are opened, or would be, each after a +, and those that are closed, each after a -, in their order."""
    names: dict[int, str] = {}
    lines = []
    for call in calls:
        if call.path is not None:
            lines.append("+" + os.path.normpath(call.path))
            if call.answer is not None and call.answer >= 0:
                names[call.answer] = os.path.normpath(call.path)
        elif call.name == "close" and call.file in names:
            lines.append("-" + names.pop(call.file))
    return lines
