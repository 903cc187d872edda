#!/usr/bin/env python3
"""Times a debugger's session over the mixed program by `pacboard debug`: a step back, and many frames.

    bench/session.py PACBOARD[,PACBOARD ..] [ROUNDS]

PACBOARD is the built program, or several builds of it, which take turns. A session makes 102,400 steps and goes back 1,000 times by one;
what another takes that makes the steps alone is taken off. 102,400 is 25 times 4,096, the steps from a checkpoint to the next: so the first
`back 1` does 4,095 steps again and each one after it one fewer, 3,595,500 in all, and no 1,000 in a row cost more. Then one session runs
36,000 frames by one command, ten minutes of the board's time, to /dev/null. Printed are the least times of the processor in some rounds,
in user mode and in the system together.
"""
import os
import sys
import tempfile

sys.dont_write_bytecode = True

from film import timed
from mixed import lay, lay_set

BACKS = 1000
THERE = 102_400  # steps
AGAIN = sum(range(4096 - BACKS, 4096))  # steps
SHORT = 20  # frames, in which there are more than so many steps
LONG = 36_000  # frames


def least_times(folder, builds, frames, commands, rounds):
    """The least seconds that each build takes for each of some sessions over so many frames; they take turns."""
    at = lambda name: os.path.join(folder, name)
    source, manifest, script = lay_set(folder, frames)
    given = ["--source", source, "--set", manifest, "--script", script]
    given += [word for output in ("--frames", "--wave", "--listing") for word in (output, os.devnull)]
    for name, text in commands.items():
        lay(at(name), text.encode())
    runs = {(program, name): [program, "debug", *given, "--commands", at(name)] for program in builds for name in commands}
    rows = [{of: sum(timed(words)) for of, words in runs.items()} for _ in range(rounds)]
    return {of: min(row[of] for row in rows) for of in runs}


def main():
    """Times both."""
    if "--help" in sys.argv[1:]:
        return print(__doc__.strip())
    if len(sys.argv) not in (2, 3) or not "".join(sys.argv[2:] or "1").isdigit():
        print("session.py: usage: bench/session.py PACBOARD[,PACBOARD ..] [ROUNDS]; --help tells more", file=sys.stderr)
        return 2
    builds = [os.path.abspath(word) for word in sys.argv[1].split(",")]
    for program in builds:
        if not os.access(program, os.X_OK):
            print(f"session.py: {program} isn't there", file=sys.stderr)
            return 2
    rounds = int(sys.argv[2]) if len(sys.argv) > 2 else 1
    there = f"step {THERE}\n"
    with tempfile.TemporaryDirectory(dir="/dev/shm") as folder:
        backs = least_times(folder, builds, SHORT, {"there": there, "back": there + BACKS * "back 1\n"}, rounds)
        for program in builds:
            seconds = backs[program, "back"] - backs[program, "there"]
            back, step = seconds / BACKS * 1e6, seconds / AGAIN * 1e9
            print(f"{program}: {back:.1f} microseconds a back, {step:.1f} ns for a step that is done again", flush=True)
        frames = least_times(folder, builds, LONG, {"frames": f"frames {LONG}\n"}, 1)
        for program in builds:
            print(f"{program}: {frames[program, 'frames'] / LONG * 1e6:.1f} microseconds a frame, with its film", flush=True)
    return 0


if __name__ == "__main__":
    sys.exit(main())
