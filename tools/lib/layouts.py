"""Boards, pictures and sounds as the tables of tools/check/boards and tools/check/screens lay them out and tell what they become.

A place in a block is an address of four hexadecimal digits, from which on there are these bytes, be they read or only written there; or the name of
a field or a part of blocks.py. Bytes are hexadecimal, or such and how often they are there. A picture is told by rectangles, each a colour number, or
the name of one, its first and last column and its first and last line; and by dots, the colour numbers of some pixels in hexadecimal, and column and
line of the first. What comes later is over what comes before, and all else is 0. Samples are told as how many there are of a value, one run of them
after another.
"""
import re
from collections.abc import Iterable, Mapping, Sequence
from typing import Any

import blocks
import judge_picture

WIDTH, HEIGHT = judge_picture.WIDTH, judge_picture.HEIGHT
ADDRESS = re.compile("[0-9A-F]{4}")
# Where the program writes what it can't read again: the first address, and the part.
WRITTEN = {0x5040: "wave", 0x5060: "coordinates"}


# ---- Blocks

def bytes_of(said: Any) -> bytes:
    """Bytes in hexadecimal, or such and how often they are there."""
    return bytes.fromhex(said) if isinstance(said, str) else bytes.fromhex(said[0]) * said[1]


def place_of(name: str) -> int | None:
    """The place in a block of what an address or the name of a part tells; None where it is the name of a field."""
    if name in blocks.PARTS:
        return blocks.PARTS[name][0]
    if not ADDRESS.fullmatch(name):
        return None
    address = int(name, 16)
    for first, part in WRITTEN.items():
        at, size = blocks.PARTS[part]
        if first <= address < first + size:
            return at + address - first
    found = blocks.place(address)
    if found is None:
        raise ValueError(f"{name} is the address of nothing that a board keeps")
    return found


def lay(block: bytearray, fields: Mapping[str, Any]) -> None:
    """Writes into a block what is told: bytes by their place, or the number of a field."""
    for name, said in fields.items():
        at = place_of(name)
        if at is None:
            blocks.put(block, name, said)
        else:
            block[at : at + len(bytes_of(said))] = bytes_of(said)


def found_at(block: bytes, name: str, said: Any) -> str:
    """What a block has where something is told of it."""
    at = place_of(name)
    return f"{blocks.number(block, name):X}H" if at is None else bytes(block[at : at + len(bytes_of(said))]).hex(" ").upper()


def wrong_of_fields(block: bytes, wanted: Mapping[str, Any]) -> str:
    """What a block has otherwise than is told."""
    copy = bytearray(block)
    lay(copy, wanted)
    both = {name: (found_at(block, name, said), found_at(copy, name, said)) for name, said in wanted.items()}
    return ", ".join(f"{name} is {found}, not {other}" for name, (found, other) in both.items() if found != other)


# ---- Pictures and sounds

def painted(shown: Iterable[Sequence[Any]], names: Sequence[str] = ()) -> bytes:
    """The colour numbers of a picture that shows this, with the names of the first colours."""
    picture = bytearray(WIDTH * HEIGHT)
    for what, *where in shown:
        if len(where) == 2:
            x, y = where
            picture[WIDTH * y + x : WIDTH * y + x + len(what)] = bytes(int(digit, 16) for digit in what)
        else:
            left, right, top, bottom = where
            number = names.index(what) if isinstance(what, str) else what
            for y in range(top, bottom + 1):
                picture[WIDTH * y + left : WIDTH * y + right + 1] = bytes([number]) * (right + 1 - left)
    return bytes(picture)


def coloured(picture: bytes, levels: Iterable[Iterable[int]], after: bytes = b"") -> bytes:
    """The bytes of red, green and blue of colour numbers, with some after those of each pixel."""
    pixels = [bytes(level) + after for level in levels]
    if max(picture, default=0) >= len(pixels):
        raise LookupError("a pixel's number is none of a colour")
    size = len(pixels[0])
    out = bytearray(size * len(picture))
    for at in range(size):
        out[at::size] = picture.translate(bytes(pixel[at] for pixel in pixels).ljust(256, b"\0"))
    return bytes(out)


def wrong_of_picture(picture: bytes, wanted: bytes, size: int = 1) -> str:
    """The first pixel of a picture, of so many bytes each, that is another one; an empty text where none is."""
    if picture == wanted:
        return ""
    if len(picture) != len(wanted):
        return f"a picture of {len(picture)} bytes"
    at = next(at for at in range(0, len(wanted), size) if picture[at : at + size] != wanted[at : at + size])
    found, other = (" ".join(map(str, pixels[at : at + size])) for pixels in (picture, wanted))
    return f"colour {found} at x {at // size % WIDTH}, y {at // size // WIDTH}, not {other}"


def sounded(runs: Iterable[Sequence[int]]) -> list[int]:
    """Samples: how many there are of a value, one run of them after another."""
    return [value for count, value in runs for _ in range(count)]


def differing(found: Sequence[int], wanted: Sequence[int], what: str) -> str:
    """Where two lists differ first; an empty text where they don't."""
    if list(found) == list(wanted):
        return ""
    if len(found) != len(wanted):
        return f"{len(found)} {what}s, not {len(wanted)}"
    at = next(at for at, (one, other) in enumerate(zip(found, wanted)) if one != other)
    return f"{what} {at} is {found[at]}, not {wanted[at]}"
