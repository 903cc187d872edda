#!/usr/bin/env python3
"""Turns a script into what is held in each frame.

    hosts/script.py SCRIPT -o FILE

writes two bytes for each frame of the script, the low one first: the mask of the inputs that are held. docs/FORMATS.md has the script, and
hosts/pacboard.h the masks. A script that is refused is told as `pacboard run` tells it, as `refused I1 line 2`, with the exit status 1.
"""
import argparse
import pathlib
import re
import sys

NAMES = """P1_UP P1_LEFT P1_RIGHT P1_DOWN RACK_TEST COIN1 COIN2 CREDIT
P2_UP P2_LEFT P2_RIGHT P2_DOWN BOARD_TEST START1 START2 COCKTAIL""".split()
MASKS = {name: 1 << bit for bit, name in enumerate(NAMES)}
LONGEST = 36_000  # frames


class Refused(Exception):
    """A script is refused."""


def mask_of(names: str) -> int | None:
    """The mask of the names of a line; None where one is unknown."""
    words = [] if names == "-" else names.split(",")
    return sum(MASKS[name] for name in set(words)) if all(name in MASKS for name in words) else None


def count_of(word: str) -> int:
    """The number that a word of digits stands for, however many there are; 0 where it isn't one, and where it has more than six."""
    digits = word.lstrip("0")
    return int(digits) if re.fullmatch("[0-9]{1,6}", digits, re.ASCII) else 0


def frames_of(text: str) -> list[int]:
    """The mask of each frame of a script's text."""
    frames: list[int] = []
    for number, line in enumerate(text.split("\n"), 1):
        words = [word for word in re.split("[ \t]+", line.removesuffix("\r")) if word]
        if not words or words[0].startswith("#"):
            continue
        count = count_of(words[0])
        if not 1 <= count <= LONGEST:
            raise Refused(f"refused I2 line {number}")
        mask = mask_of(words[1]) if len(words) == 2 else None
        if mask is None:
            raise Refused(f"refused I1 line {number}")
        frames += [mask] * count
        if len(frames) > LONGEST:
            raise Refused(f"refused I3 line {number}")
    return frames


def held_in(text: bytes) -> bytes:
    """What is held in each frame, two bytes a frame, of a script's bytes."""
    return b"".join(mask.to_bytes(2, "little") for mask in frames_of(text.decode("latin-1")))


def main() -> int:
    """Writes what is held in each frame of a script."""
    parser = argparse.ArgumentParser(prog="script.py", description=__doc__, formatter_class=argparse.RawDescriptionHelpFormatter)
    parser.add_argument("script", type=pathlib.Path)
    parser.add_argument("-o", dest="output", type=pathlib.Path, required=True)
    words = parser.parse_args()
    try:
        words.output.write_bytes(held_in(words.script.read_bytes()))
    except OSError as error:
        print(f"script.py: {error}", file=sys.stderr)
        return 3
    except Refused as error:
        print(error, file=sys.stderr)
        return 1
    return 0


if __name__ == "__main__":
    sys.exit(main())
