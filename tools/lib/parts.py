"""Runs the parts of the gate, several at a time: .ci/run hands their table in.

    tools/lib/parts.py < TABLE

A line of the table is a part: its name; how many rows have to pass at least, or `-` where it counts none; how many processors it has work
for; the names of the parts that have to be done before it begins, or `-`; and its command. Parts begin in the order of the table, as many at
a time as there are processors for; one that has work for 0 begins as soon as it may, beside all else. `ci` counts as one less than there
are, at most, so while it is under way, others are begun, too. A part whose number has a `!` plays in real time, and comes before others at
the processors; all others but `ci` are `nice`.

{after-ci} in a command is `--beside-ci FILE` in a tree in which nothing is proved yet: FILE has what `rt ci` prints, as it comes. Elsewhere it is
`--after-ci`, and the part waits for `ci`: where crates keep the work of earlier runs, `rt ci` puts it back in the end.

A part fails by its status, and also where its last line, `N passed, M failed`, counts too few rows, since a tool whose rows are gone passes, too.
The first that fails ends all others. What a part prints is printed when it ends, with its seconds by the clock and of a processor. Every two
seconds a line on standard error tells what is under way. The last line is `N passed, M failed`, of all rows.
"""
import os
import pathlib
import re
import shlex
import signal
import subprocess
import sys
import tempfile
import time
import types
from dataclasses import dataclass, field
from typing import NoReturn

ROOT = pathlib.Path(__file__).resolve().parents[2]
CI = "ci"  # the part that proves
TELLING = 2  # seconds from one line about what is under way to the next
NICE = 10
SHOWN = 40  # last lines of what a part that fails has told
COUNTED = re.compile(r"^(\d+) passed, (\d+) failed\b.*\Z", re.M)


@dataclass
class Part:
    """A part: its name; how many rows have to pass, or None; its lanes; the names of the parts before it; its command; and, once it has begun,
    its process, when that was, and where what it prints comes."""

    name: str
    fewest: int | None
    lanes: int
    is_live: bool
    after: list[str]
    words: list[str]
    process: subprocess.Popen[bytes] | None = None
    begun: float = 0.0
    said: pathlib.Path = field(default_factory=pathlib.Path)

    @property
    def command(self) -> str:
        """Its command, as it is shown."""
        return " ".join(self.words)


def parts_of(table: str, processors: int) -> list[Part]:
    """The parts of a table."""
    parts = []
    for line in table.splitlines():
        if line.partition("#")[0].strip():
            name, fewest, lanes, after, command = line.split(None, 4)
            most = min(int(lanes.strip("!")), processors - 1 if name == CI else processors)
            names = [] if after == "-" else after.split(",")
            parts.append(Part(name, None if fewest == "-" else int(fewest), most, "!" in lanes, names, shlex.split(command)))
    for part in parts:
        if missing := {*part.after} - {other.name for other in parts}:
            sys.exit(f"parts: there is no part {min(missing)}, after which {part.name} comes")
    return parts


def is_new_tree() -> bool:
    """Whether nothing is proved here yet."""
    return not any((ROOT / "crates").glob("*/out/rlib")) and not (ROOT / ".git/rt-aside").exists()


class Gate:
    """The parts under way, and those to come."""

    def __init__(self, parts: list[Part], room: pathlib.Path, processors: int) -> None:
        self.waiting, self.running, self.room, self.processors = parts, list[Part](), room, processors
        self.done: set[str] = set()
        self.passed = self.failed = self.count = 0
        self.begun = time.monotonic()
        self.seconds = 0.0
        ci = next((part for part in parts if part.name == CI), None)
        log = self.place(ci) if ci else room / "none"
        log.touch()
        is_new = is_new_tree()
        for part in parts:
            if "{after-ci}" in part.words:
                at = part.words.index("{after-ci}")
                part.words[at : at + 1] = ["--beside-ci", str(log)] if is_new else ["--after-ci"]
                part.after += [] if is_new or not ci else [CI]

    def place(self, part: Part) -> pathlib.Path:
        """Where what a part prints comes."""
        return self.room / part.name

    def may_begin(self, part: Part) -> bool:
        """Whether what comes before it is done."""
        return self.done.issuperset(part.after)

    def begin_some(self) -> None:
        """Begins those for which there are processors."""
        free = self.processors - sum(part.lanes for part in self.running)
        for part in list(self.waiting):
            if self.may_begin(part) and (part.lanes == 0 or part.lanes <= free):
                free -= part.lanes
                self.begin(part)

    def begin(self, part: Part) -> None:
        """Begins one, as a group of processes: what it prints comes into one file, and what it tells into another."""
        self.waiting.remove(part)
        self.running.append(part)
        part.said, part.begun = self.place(part), time.monotonic()
        words = part.words if part.name == CI or part.is_live else ["nice", "-n", str(NICE), *part.words]
        with open(part.said, "ab") as said, open(f"{part.said}.told", "wb") as told:
            part.process = subprocess.Popen(words, stdin=subprocess.DEVNULL, stdout=said, stderr=told, process_group=0)

    def end_some(self) -> bool:
        """Takes those that have ended: whether all is well."""
        for part in list(self.running):
            assert part.process is not None
            pid, status, used = os.wait4(part.process.pid, os.WNOHANG)
            if pid:
                part.process.returncode = os.waitstatus_to_exitcode(status)
                self.running.remove(part)
                if not self.is_well(part, used.ru_utime + used.ru_stime):
                    return False
        return True

    def is_well(self, part: Part, seconds: float) -> bool:
        """Shows what a part has come to, and says whether that is well."""
        assert part.process is not None
        said, self.seconds, self.count = part.said.read_text(errors="replace"), self.seconds + seconds, self.count + 1
        counted = COUNTED.search(said.rstrip())
        passed = int(counted[1]) if counted else 0
        self.passed, self.failed = self.passed + passed, self.failed + (int(counted[2]) if counted else 0)
        print(f"== {part.name}, {part.command}: {time.monotonic() - part.begun:.1f} s, {seconds:.1f} s of a processor\n{said.rstrip()}", flush=True)
        self.done.add(part.name)
        told = pathlib.Path(f"{part.said}.told").read_text(errors="replace").splitlines()
        print("".join(f"{line}\n" for line in told if line.startswith("LEFT OUT")), end="", flush=True)
        if part.process.returncode:
            print("\n".join([*told[-SHOWN:], f"FAILED: {part.name}: status {part.process.returncode}"]), flush=True)
        elif part.fewest is not None and passed < part.fewest:
            print(f"FAILED: {part.name}: {passed:,} rows have passed, and not {part.fewest:,}", flush=True)
        else:
            return True
        self.failed += not (counted and int(counted[2]))
        return False

    def tell(self) -> None:
        """Tells what is under way, with the last line of the one that began first."""
        names = ", ".join(part.name for part in self.running)
        last = b""
        for part in self.running[:1]:
            for path in (part.said, pathlib.Path(f"{part.said}.told")):
                with open(path, "rb") as file:
                    file.seek(max(0, path.stat().st_size - 300))
                    last = (file.read().splitlines() or [last])[-1] or last
        print(f"gate: {time.monotonic() - self.begun:.0f} s; {names}; {last.decode(errors='replace')[-100:]}", file=sys.stderr, flush=True)

    def stop(self) -> None:
        """Ends all that is under way."""
        for part in self.running:
            try:
                assert part.process is not None
                os.killpg(part.process.pid, signal.SIGTERM)
            except ProcessLookupError:
                pass

    def run(self) -> int:
        """Runs all of them: the exit status."""
        told = time.monotonic()
        is_well = True
        while is_well and (self.running or self.waiting):
            self.begin_some()
            time.sleep(0.1)
            is_well = self.end_some()
            if time.monotonic() - told > TELLING:
                told = time.monotonic()
                self.tell()
        clock = time.monotonic() - self.begun
        print(f"== {self.count} parts: {clock:.0f} s by the clock, {self.seconds:,.0f} s of a processor", flush=True)
        print(f"{self.passed} passed, {self.failed} failed", flush=True)
        return 0 if is_well else 1


def ended(number: int, _: types.FrameType | None) -> NoReturn:
    """Ends by a signal, once what is under way is ended."""
    sys.exit(128 + number)


def main() -> int:
    """Runs the parts of the table."""
    if "--help" in sys.argv[1:]:
        print((__doc__ or "").strip())
        return 0
    processors = os.cpu_count() or 1
    for number in (signal.SIGINT, signal.SIGTERM, signal.SIGHUP):
        signal.signal(number, ended)
    os.chdir(ROOT)
    with tempfile.TemporaryDirectory(prefix="gate-") as room:
        gate = Gate(parts_of(sys.stdin.read(), processors), pathlib.Path(room), processors)
        try:
            return gate.run()
        finally:
            gate.stop()


if __name__ == "__main__":
    sys.exit(main())
