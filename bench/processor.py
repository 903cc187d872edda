#!/usr/bin/env python3
"""Measures the proved processor by itself: proves a program over it, bench/processor.rt.txt, builds and runs it.

    bench/processor.py [--after-ci] [ROUNDS]

The program makes 10,000,000 steps of the mixed program over the flat test bus, and prints the least time of ROUNDS, 1 to 9, and the sum of RAM
that `bench/bench.rs` prints of the same steps. It's left in hosts/out/processor. Without ROUNDS there is one short round. The crates below are
taken as they are proved, and else proved first, which takes some ten minutes; --after-ci says that `rt ci` has just proved them.
"""
import pathlib
import shutil
import subprocess
import sys

sys.dont_write_bytecode = True
HERE = pathlib.Path(__file__).resolve().parent
sys.path.insert(0, str(HERE.parent / "hosts"))
import library

CRATE, USED = "processor", ["pac_cpu", "pac_bus"]
SOURCES = {"main.rt": HERE / "processor.rt.txt", "mixed.rt": HERE / "mixed.rs"}
MADE = library.OUT / CRATE


def build(proof: library.Proof) -> None:
    """Proves and builds the program, in a folder of its own."""
    with library.laid(library.crates() | {CRATE: (False, USED)}, CRATE, "", proof, SOURCES) as folder:
        crate = folder / "crates" / CRATE
        library.run("rt", crate, "run")
        library.OUT.mkdir(exist_ok=True)
        shutil.copy(crate / "out" / CRATE, MADE)


def main(words: list[str]) -> int:
    """Builds it, and runs it in so many rounds."""
    proof, rounds = library.proof_in(words)
    if words == ["--help"]:
        print((__doc__ or "").strip())
        return 0
    if len(rounds) > 1 or not "".join(rounds or "1").isdigit():
        print("processor.py: usage: bench/processor.py [--after-ci] [ROUNDS]; --help tells more", file=sys.stderr)
        return 2
    build(proof)
    return subprocess.run([MADE, *rounds], check=False).returncode


if __name__ == "__main__":
    sys.exit(main(sys.argv[1:]))
