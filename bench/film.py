#!/usr/bin/env python3
"""Times `pacboard run`, plain Rust and a session on one film.

    bench/film.py PLAIN PACBOARD[,PACBOARD ..] [ROUNDS [SOURCE SET SCRIPT]]

PLAIN is what bench/bench.rs was compiled to, PACBOARD the built program, or several builds of it. All make the film of a source with its
manifest and script, or 1,200 frames of the mixed program where none are given: into a folder of a file system in memory, where frames and
wave are compared (a difference ends the script), and to /dev/null, and there `pacboard debug` makes it, too, by the one command `frames`.
They take turns. Printed are the least times of the processor in some rounds, in user mode and in the system, and of both together.
"""
import filecmp
import os
import resource
import subprocess
import sys
import tempfile
import tomllib

sys.dont_write_bytecode = True

from mixed import SIZES, lay, lay_set

FRAMES = 1200
INPUTS = ["P1_UP", "P1_LEFT", "P1_RIGHT", "P1_DOWN", "RACK_TEST", "COIN1", "COIN2", "CREDIT"]
INPUTS += ["P2_UP", "P2_LEFT", "P2_RIGHT", "P2_DOWN", "BOARD_TEST", "START1", "START2", "COCKTAIL"]


def spans_of(script):
    """A script's lines as plain Rust reads them: frames, and what IN0 and IN1 read, where a 0 is an input that is held."""
    with open(script) as file:
        rows = [line.split() for line in file if line.split() and not line.split()[0].startswith("#")]
    for frames, names in rows:
        held = sum(1 << INPUTS.index(name) for name in names.split(",") if name != "-")
        yield f"{frames} {~held & 255} {~held >> 8 & 255}\n"


def lay_plain(at, pacboard, source, manifest, script):
    """Lays what plain Rust reads: the ROMs, the assembled program among them, and the script."""
    subprocess.run([pacboard, "asm", source, "--rom", at("program"), "--listing", os.devnull], check=True)
    with open(manifest, "rb") as file:
        table = tomllib.load(file)
    for name in SIZES:
        with open(os.path.join(os.path.dirname(manifest), table[name]["file"]), "rb") as file:
            lay(at(name), file.read())
    lay(at("inputs"), "".join(spans_of(script)).encode())


def timed(words):
    """The seconds in user mode and in the system that a command takes."""
    before = resource.getrusage(resource.RUSAGE_CHILDREN)
    subprocess.run(words, check=True, stdout=subprocess.DEVNULL)
    after = resource.getrusage(resource.RUSAGE_CHILDREN)
    return after.ru_utime - before.ru_utime, after.ru_stime - before.ru_stime


def compare(where, rounds, commands):
    """Runs both in turn so many times, and prints the least times of each."""
    times: dict[str, list[tuple[float, float]]] = {name: [] for name in commands}
    for _ in range(rounds):
        for name, words in commands.items():
            times[name].append(timed(words))
    for name, rows in times.items():
        user, system = (min(column) for column in zip(*rows))
        both = min(sum(row) for row in rows)
        print(f"{where}, {name}: {user:.4f} seconds in user mode, {system:.4f} in the system, {both:.4f} together", flush=True)


def main():
    if "--help" in sys.argv[1:]:
        return print(__doc__.strip())
    if len(sys.argv) not in (3, 4, 7) or not "".join(sys.argv[3:4] or "1").isdigit():
        print("film.py: usage: bench/film.py PLAIN PACBOARD[,PACBOARD ..] [ROUNDS [SOURCE SET SCRIPT]]; --help tells more", file=sys.stderr)
        return 2
    plain, *builds = [os.path.abspath(word) for word in (sys.argv[1], *sys.argv[2].split(","))]
    for program in (plain, *builds):
        if not os.access(program, os.X_OK):
            print(f"film.py: {program} isn't there", file=sys.stderr)
            return 2
    rounds = int(sys.argv[3]) if len(sys.argv) > 3 else 1
    with tempfile.TemporaryDirectory(dir="/dev/shm") as folder:
        at = lambda name: f"{folder}/{name}"
        source, manifest, script = map(os.path.abspath, sys.argv[4:] or lay_set(folder, FRAMES))
        lay_plain(at, builds[0], source, manifest, script)
        lay(at("commands"), b"frames %d\n" % sum(int(span.split()[0]) for span in spans_of(script)))
        given = ["--source", source, "--set", manifest, "--script", script, "--listing", os.devnull]
        into = lambda frames, wave: [*given, "--frames", frames, "--wave", wave]
        runs = {program: [program, "run", *into(at(f"{n}.ppm"), at(f"{n}.wav"))] for n, program in enumerate(builds)}
        compare("into memory", rounds, {"plain Rust": [plain, "film", folder], **runs})
        for kind in "ppm", "wav":
            for n, program in enumerate(builds):
                if not filecmp.cmp(at("plain." + kind), at(f"{n}.{kind}"), shallow=False):
                    sys.exit(f"film.py: the file of kind {kind} of {program} differs")
            os.remove(at("plain." + kind))
            os.symlink(os.devnull, at("plain." + kind))
        nowhere = into(os.devnull, os.devnull)
        runs = {program: [program, "run", *nowhere] for program in builds}
        runs |= {f"{program} debug": [program, "debug", "--commands", at("commands"), *nowhere] for program in builds}
        compare("to /dev/null", rounds, {"plain Rust": [plain, "film", folder], **runs})
    return 0


if __name__ == "__main__":
    sys.exit(main())
