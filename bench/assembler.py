#!/usr/bin/env python3
"""Times `pacboard asm` on three sources of 65,535 lines, the most that a source may have, and GNU's assembler for the Z80 beside it.

    bench/assembler.py [ROUNDS [PACBOARD]]

PACBOARD is the built program, crates/pacboard/out/pacboard where it is left out. GNU's is `z80-unknown-coff-as`, in Debian's package
binutils-z80; where it isn't there, `pacboard` is timed alone. gas can't divide a number that rests on an address, so its second source has a
0 where ours has `$`. It warns of each space of no bytes, of which the third has one a line: it is told not to print that. Of a longer line
it lists the first 100 bytes alone. Printed are the least times of some rounds, in which they take turns, of gas with a listing, as
`pacboard` makes one, and without: the time on the clock, from the start of the program to its end, and that of the processor in user mode.
Beside them stand the lines a second by the clock, and the bytes of the listing.
"""
import os
import resource
import shutil
import subprocess
import sys
import tempfile
import time

ASSEMBLER = "z80-unknown-coff-as"
PACBOARD = os.path.join(os.path.dirname(os.path.abspath(__file__)), "..", "crates/pacboard/out/pacboard")
LINES = 65_535
INSTRUCTIONS = 16_384


def labels():
    """A label with an instruction in each line as long as the ROM has room, then a name for a number in each."""
    return "".join(f"L{n:05}" + (": NOP\n" if n <= INSTRUCTIONS else " EQU 1\n") for n in range(1, LINES + 1))


def expressions(place="$"):
    """A name for the value of an expression with two names in each line."""
    rest = (f"L{n:05} EQU (L00001+3)*2-L{n - 1:05}/3+{place} ; of the line above\n" for n in range(2, LINES + 1))
    return "L00001 EQU 1\n" + "".join(rest)


def longest():
    """The longest lines, of 255 bytes, and of these the dearest that were found: a label with a space of no bytes, whose fill is an
    expression with 122 names of one letter. Such a line is read in both phases."""
    rest = "V" + 30 * "+V*V-V*V" + "+V"
    return "V EQU 1\n" + "".join(f"L{n:05}:DS 0,{rest}\n" for n in range(2, LINES + 1))


def timed(words):
    """The seconds on the clock and those of the processor in user mode that a command takes."""
    before, start = resource.getrusage(resource.RUSAGE_CHILDREN).ru_utime, time.monotonic()
    subprocess.run(words, check=True)
    return time.monotonic() - start, resource.getrusage(resource.RUSAGE_CHILDREN).ru_utime - before


def commands(at, program, has_gas, name):
    """What assembles a source, each with its name: `pacboard`, and gas with a listing and without."""
    yield "pacboard", [program, "asm", at(name), "--rom", at("rom"), "--listing", at("listing of pacboard")]
    if has_gas:
        gas = [ASSEMBLER, "-W", "-o", at("code.o"), at("0 " + name)]
        yield "gas with a listing", [*gas, f"-alns={at('listing of gas with a listing')}"]
        yield "gas without", gas


def tell(at, name, how, rows):
    """Prints the least times of some rounds."""
    clock, user = (min(column) for column in zip(*rows))
    listing = at(f"listing of {how}")
    told = f", {os.path.getsize(listing):,} bytes of listing" if os.path.exists(listing) else ""
    print(f"{name}, {how}: {clock:.3f} seconds, {user:.3f} in user mode, {LINES / clock:,.0f} lines a second{told}", flush=True)


def main():
    """Times all, source by source."""
    if "--help" in sys.argv[1:]:
        return print(__doc__.strip())
    if len(sys.argv) > 3 or not "".join(sys.argv[1:2] or "1").isdigit():
        print("assembler.py: usage: bench/assembler.py [ROUNDS [PACBOARD]]; --help tells more", file=sys.stderr)
        return 2
    rounds = int(sys.argv[1]) if len(sys.argv) > 1 else 1
    program = os.path.abspath(sys.argv[2] if len(sys.argv) > 2 else PACBOARD)
    if not os.access(program, os.X_OK):
        print(f"assembler.py: {program} isn't there", file=sys.stderr)
        return 2
    has_gas = shutil.which(ASSEMBLER) is not None
    if not has_gas:
        print(f"{ASSEMBLER} isn't there; Debian's package binutils-z80 has it", file=sys.stderr)
    with tempfile.TemporaryDirectory(dir="/dev/shm") as folder:
        at = lambda name: os.path.join(folder, name)
        sources = {"labels": (labels(),) * 2, "expressions": (expressions(), expressions("0")), "longest": (longest(),) * 2}
        for name, texts in sources.items():
            for file, text in zip((name, "0 " + name), texts):
                with open(at(file), "w", encoding="ascii") as source:
                    source.write(text)
            words = dict(commands(at, program, has_gas, name))
            rows = [{how: timed(some) for how, some in words.items()} for _ in range(rounds)]
            for how in words:
                tell(at, name, how, [row[how] for row in rows])
    return 0


if __name__ == "__main__":
    sys.exit(main())
