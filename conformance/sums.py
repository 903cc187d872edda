"""The sums of the conformance suite, each a CRC-32: of a frame's picture (red, green and blue of each pixel, row by row), of its 1,584 samples (two bytes
each, the low one first), of RAM without the stack's part, and of all RAM; and of the parts of a state that a board comes to. sums.txt, states.txt and
opcodes.txt have them. conformance/README.md says more.
"""
import array
import pathlib
import sys
import zlib
from collections.abc import Iterable, Iterator, Sequence

HERE = pathlib.Path(__file__).resolve().parent
FRAME_SUMS = ("picture", "samples", "ram", "stack")
# Parts of a state, by their places in a state file.
STATE_SUMS = {
    "processor": (30, 58), "counts": (58, 82), "ram": (82, 3154), "coordinates": (3154, 3170), "wave": (3170, 3202), "accumulators": (3202, 3214),
    "rest": (3214, 3224), "picture": (3224, 67736),
}  # fmt: skip
STACK = (0xB00, 0xBF0)  # of the 3,072 bytes of RAM: 4F00H to 4FEFH
CELL, COLUMNS, ROW = 0x42, 28, 32  # of what opcodes.asm shows in tile RAM


def hexadecimal(sums: Iterable[int]) -> str:
    """Sums in words of eight digits."""
    return " ".join(f"{one:08X}" for one in sums)


def of_samples(samples: "array.array[int]") -> int:
    """The sum of a frame's samples."""
    if sys.byteorder == "big":
        samples = array.array("h", samples)
        samples.byteswap()
    return zlib.crc32(samples.tobytes())


def of_frame(picture: bytes, samples: "array.array[int]", ram: bytes) -> tuple[int, ...]:
    """The sums of a frame: of its picture, its samples, RAM without the stack's part, and all RAM."""
    first, end = STACK
    return zlib.crc32(picture), of_samples(samples), zlib.crc32(ram[:first] + ram[end:]), zlib.crc32(ram)


def of_state(text: bytes) -> tuple[int, ...]:
    """The sums of a state's parts."""
    return tuple(zlib.crc32(text[first:end]) for first, end in STATE_SUMS.values())


def shown(tiles: bytes) -> list[str]:
    """What opcodes.asm has shown so far, of tile RAM: a line a group."""
    lines = (bytes(tiles[at : at + COLUMNS]) for at in range(CELL, CELL + 28 * ROW, ROW))
    text = [line.replace(b"\0", b" ").decode("latin-1").rstrip() for line in lines]
    return [line for line in text if line]


def is_done(lines: Sequence[str]) -> bool:
    """Whether opcodes.asm has come to its end."""
    return bool(lines) and lines[-1] == "DONE"


def expected(file: str) -> dict[tuple[str, int], tuple[int, ...]]:
    """The sums of sums.txt or states.txt, by program and frame, or program and state, the first of which is 1."""
    found = {}
    for line in (HERE / file).read_text().splitlines():
        if line and not line.startswith("#"):
            name, number, *words = line.split()
            found[name, int(number)] = tuple(int(word, 16) for word in words)
    return found


def expected_lines() -> list[str]:
    """What opcodes.asm shows."""
    return (HERE / "opcodes.txt").read_text().splitlines()


def different(names: Iterable[str], one: Sequence[int], other: Sequence[int]) -> Iterator[str]:
    """The names of the sums that differ."""
    return (name for name, here, there in zip(names, one, other) if here != there)
