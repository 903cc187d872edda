"""What the tools with rows share: the program that they try, how they tell how far they are, the count of rows, and the last line.

A row is what is tried, and whether it is so; or what is tried, and what is wrong with it, an empty text where nothing is. One that isn't so is shown
after `FAILED: `. The last line is `N passed, M failed`, and the exit status is 0 where M is 0.
"""
import concurrent.futures
import os
import pathlib
import re
import shutil
import sys
import threading
import time
from collections.abc import Callable, Iterable
from typing import NoReturn

ROOT = pathlib.Path(__file__).resolve().parents[2]
PROGRAM = ROOT / "crates/pacboard/out/pacboard"
TELLING = 1  # seconds from one line about how far it is to the next
BESIDE = 1.8  # the same of a tool whose rows take long


class Count:
    """The rows of a tool, as they are tried."""

    def __init__(self, name: str, is_shown: bool = False, is_slow: bool = False) -> None:
        """None yet. Where rows are shown, so are those that are so; where they are slow, a line comes without them, too."""
        self.name, self.is_shown, self.is_slow = name, is_shown, is_slow
        self.passed = self.failed = 0
        self.begun = self.told = time.monotonic()
        if is_slow:
            threading.Thread(target=self.tell_beside, daemon=True).start()

    def tell_beside(self) -> NoReturn:
        """Tells again and again how long the tool has worked."""
        while True:
            time.sleep(BESIDE)
            print(f"{self.name}: {time.monotonic() - self.begun:.0f} s", file=sys.stderr, flush=True)

    def tell(self, what: str) -> None:
        """Tells what is tried, where nothing was told for some time."""
        if not self.is_slow and time.monotonic() - self.told > TELLING:
            self.told = time.monotonic()
            print(f"{self.name}: {self.passed + self.failed} rows; {what}", file=sys.stderr, flush=True)

    def row(self, what: str, is_so: object, told: str = "") -> None:
        """Counts a row; where it isn't so, it is shown with more that is told of it."""
        self.passed, self.failed = self.passed + bool(is_so), self.failed + (not is_so)
        if not is_so:
            print(f"FAILED: {what}{told and ': '}{told}", flush=True)
        elif self.is_shown:
            print(what, flush=True)
        self.tell(what)

    def rows(self, rows: Iterable[tuple[str, object]]) -> None:
        """Counts rows: what is tried, and whether it is so."""
        for what, is_so in rows:
            self.row(what, is_so)

    def faults(self, faults: Iterable[tuple[str, str]]) -> None:
        """Counts rows: what is tried, and what is wrong with it."""
        for what, wrong in faults:
            self.row(what, not wrong, wrong)

    def trials(self, trials: Iterable[tuple[str, Callable[[], str]]]) -> None:
        """Counts rows whose calls say what is wrong, in as many processes as there are processors."""
        with concurrent.futures.ProcessPoolExecutor(os.cpu_count()) as pool:
            waiting = {pool.submit(trial): what for what, trial in trials}
            while waiting:
                for future in concurrent.futures.wait(waiting, TELLING).done:
                    wrong = future.result()
                    self.row(waiting.pop(future), not wrong, wrong)
                self.tell(f"{len(waiting)} more")

    def more(self, said: str) -> str | None:
        """Counts the rows of another tool by the last line of what it said: that line, and None where it is none."""
        found = re.search(r"^(\d+) passed, (\d+) failed\Z", said.rstrip(), re.M)
        self.passed, self.failed = self.passed + int(found[1] if found else 0), self.failed + int(found[2] if found else 1)
        return found[0] if found else None

    def end(self, fewest: int = 0) -> int:
        """The last line, and the exit status; a row of its own tells where there are fewer rows than these."""
        if self.passed + self.failed < fewest:
            self.row(f"at least {fewest} rows", False)
        print(f"{self.passed} passed, {self.failed} failed", flush=True)
        return 1 if self.failed else 0


def program_of(words: list[str]) -> str:
    """The program that is tried: the one that a word names, or the one that `rt ci` leaves."""
    return os.path.realpath(words[0]) if words else str(PROGRAM)


def is_there(name: str, program: str, *others: str) -> bool:
    """Whether the program and other commands are there; a line says which aren't."""
    missing = [f"{program}, which rt ci builds"] * (not os.access(program, os.X_OK)) + [other for other in others if not shutil.which(other)]
    if missing:
        print(f"{name}: not there: {', '.join(missing)}", file=sys.stderr)
    return not missing


def main(account: str | None, tool: Callable[[list[str]], int]) -> NoReturn:
    """Runs a tool with the words of its command line, or prints its account where that is asked for."""
    if sys.argv[1:] in (["--help"], ["-h"]):
        print((account or "").strip())
        sys.exit(0)
    sys.exit(tool(sys.argv[1:]))
