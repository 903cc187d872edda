#!/usr/bin/env python3
"""Lays the mixed program, bench/mixed.asm, with a ROM set that shows much: for the scripts of this folder, and for bench/board.c.

    bench/mixed.py PACBOARD FILE

writes the ROM block of them, the one that the calls of hosts/pacboard.h take, with the program as PACBOARD, the built program, assembles it.
"""
import os
import subprocess
import sys
import tempfile

SOURCE = os.path.join(os.path.dirname(os.path.abspath(__file__)), "mixed.asm")
SIZES = {"tiles": (4096, 37), "sprites": (4096, 91), "colours": (32, 29), "lookup": (256, 7), "wave": (256, 5)}  # as in a ROM block


def rom(size, factor):
    """The bytes that bench.rs has for a ROM."""
    return bytes((n % 4096 * factor + n // 16) & 255 for n in range(size))


def lay(name, data):
    """Writes a file."""
    with open(name, "wb") as file:
        file.write(data)


def lay_set(folder, frames):
    """Lays a manifest with its ROMs, and a script of so many frames; the names of the source, of the manifest and of the script."""
    at = lambda name: os.path.join(folder, name)
    for name, (size, factor) in SIZES.items():
        lay(at(name + ".rom"), rom(size, factor))
    lay(at("set.toml"), "".join(f'{name}.file = "{name}.rom"\n' for name in SIZES).encode())
    lay(at("mixed.script"), b"%d -\n" % frames)
    return SOURCE, at("set.toml"), at("mixed.script")


def main(words):
    """Writes the ROM block."""
    if words == ["--help"]:
        return print(__doc__.strip())
    if len(words) != 2 or not os.access(words[0], os.X_OK):
        print("mixed.py: usage: bench/mixed.py PACBOARD FILE; --help tells more", file=sys.stderr)
        return 2
    with tempfile.TemporaryDirectory() as folder:
        program = os.path.join(folder, "program")
        subprocess.run([os.path.abspath(words[0]), "asm", SOURCE, "--rom", program, "--listing", os.devnull], check=True)
        with open(program, "rb") as file:
            lay(words[1], file.read() + b"".join(rom(*size) for size in SIZES.values()))
    return 0


if __name__ == "__main__":
    sys.exit(main(sys.argv[1:]))
