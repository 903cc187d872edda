"""Runs the hosts in C and the gate's tools over other builds of the library and the program: shared by coverage, sanitizers and second-compiler."""
import concurrent.futures
import os
import pathlib
import subprocess
import sys
import time
from dataclasses import dataclass, field

import bitcode
import rows

ROOT = pathlib.Path(__file__).resolve().parents[2]
OUT, HOSTS, CHECKS, BIN = ROOT / "hosts/out", ROOT / "hosts", ROOT / "tools/check", ROOT / "bin"
MEMORY = "/dev/shm" if os.access("/dev/shm", os.W_OK) else None  # where files cost least; None is the usual folder
TELLING = 2  # seconds from one line about what is being done to the next
LONGEST = 900  # seconds of a job
SHOWN = 12  # last lines of a job that fails, and lines about its rows
FEWER = "-DCALLS=520"  # of live.c's lists, for a build that takes longer
Words = list[str | pathlib.Path]


@dataclass
class Job:
    """A command, with more of its environment, and the exit status that it has to have."""

    words: Words
    environment: dict[str, str] = field(default_factory=dict)
    status: int = 0


def program_tools(program: pathlib.Path, is_slow: bool = False) -> dict[str, Job]:
    """The tools with rows about the program, over one build of it; of one that is slow all but the scripts of very many frames."""
    names = ("command-lines", "sources", "explanations", "resumed-runs")
    jobs = {name: Job([CHECKS / name, program]) for name in names}
    jobs["sets"] = Job([CHECKS / "sets", *["--short"] * is_slow, program])
    return jobs | {"check-programs": Job([BIN / "check-programs", ROOT / "examples", "--program", program])}


def library_tools(shared: pathlib.Path, environment: dict[str, str] | None = None) -> dict[str, Job]:
    """The tools with rows about the library, over one build of it, a shared object."""
    held_by = {"PAC_HOST": str(shared)} | (environment or {})
    tools: dict[str, Words] = {"vectors": [], "boards": [], "screens": ["--library"]}
    return {name: Job([sys.executable, CHECKS / name, *words], held_by) for name, words in tools.items()}


def c_hosts(room: pathlib.Path, compiler: Words, linked: Words, is_short: bool = True) -> dict[str, Job]:
    """The hosts in C, compiled over one build of the library into a folder; where it's short, live.c makes fewer calls than elsewhere."""
    for name in ("calls", "hostile", "live", "film"):
        how: Words = ["-std=c11", "-O1", "-g", "-pthread", "-I", HOSTS, *[FEWER] * (is_short and name == "live")]
        bitcode.run(*compiler, *how, HOSTS / f"c/{name}.c", *linked, "-o", room / name)
    roms, held = OUT / "starfall.roms", OUT / "starfall.held"
    film: Words = [room / "film", roms, held, room / "frames", room / "wave"]
    callers = {name: Job([room / name, roms]) for name in ("hostile", "live")}
    return {"calls": Job([room / "calls"]), **callers, "film": Job(film)}


def run(job: Job) -> tuple[int, str]:
    """Runs a job: its exit status, and what it says."""
    how = os.environ | job.environment
    done = subprocess.run(job.words, env=how, stdout=subprocess.PIPE, stderr=subprocess.STDOUT, errors="replace", check=False, timeout=LONGEST)
    return done.returncode, done.stdout


def try_all(teller: str, what: str, jobs: dict[str, Job]) -> dict[str, bool]:
    """Runs jobs, as many at a time as there are processors, and tells how far it is: each job's row, and whether it came to its status."""
    tried = {}
    with concurrent.futures.ThreadPoolExecutor(os.cpu_count()) as pool:
        waiting = {pool.submit(run, job): name for name, job in jobs.items()}
        begun = time.monotonic()
        while waiting:
            for future in concurrent.futures.wait(waiting, TELLING, concurrent.futures.FIRST_COMPLETED).done:
                name, (status, said) = waiting.pop(future), future.result()
                tried[f"{what}: {name}"] = is_so = status == jobs[name].status
                if not is_so:
                    lines = said.splitlines()
                    failed = [line for line in lines[:-SHOWN] if line.startswith("FAILED")]
                    print("\n".join([f"{what}: {name}: status {status}", *failed[:SHOWN], *lines[-SHOWN:]]), flush=True)
            if waiting:
                print(f"{teller}: {what}: {', '.join(waiting.values())}, {time.monotonic() - begun:.0f} s", file=sys.stderr, flush=True)
    return tried


def end(teller: str, tried: dict[str, bool]) -> int:
    """Prints rows, and the last line: the exit status."""
    count = rows.Count(teller, is_shown=True)
    count.rows(tried.items())
    return count.end()
