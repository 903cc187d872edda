"""Films and sounds as `pacboard run` writes them, how two of them differ, and pictures as PNG or PPM: shared by bin/compare-films,
bin/frame, bin/film-sheet and bin/check-programs.

A film is PPM images (binary, P6) one after another, all of one size; a sound a WAV file of one channel with 16 bits a sample.
"""
from __future__ import annotations

import array
import os
import struct
import sys
import time
import zlib
from collections.abc import Sequence

SAMPLES = 1584  # of a frame
SCALE = 2  # how often a pixel of the board stands in a picture side by side, in each direction
GREY = b"\x60\x60\x60"
# The digits 0 to 9, 3 by 5 pixels each: a row of bits an octal digit, the upper row first.
DIGITS = "75557 26227 71747 71717 55711 74717 74757 71111 75757 75717".split()


class Picture:
    """Pixels in rows from the top, three bytes each."""

    def __init__(self, width: int, height: int, pixels: bytes) -> None:
        self.width, self.height, self.pixels = width, height, pixels

    def row(self, y: int) -> bytes:
        """The bytes of a row."""
        return self.pixels[3 * self.width * y : 3 * self.width * (y + 1)]

    def colour(self, x: int, y: int) -> str:
        """A pixel's colour, as #RRGGBB."""
        at = 3 * (self.width * y + x)
        return f"#{self.pixels[at : at + 3].hex().upper()}"

    def scaled(self, count: int) -> Picture:
        """The picture with each pixel `count` times in both directions."""
        rows = []
        for y in range(self.height):
            row = self.row(y)
            rows += [b"".join(row[at : at + 3] * count for at in range(0, len(row), 3))] * count
        return Picture(self.width * count, self.height * count, b"".join(rows))

    def turned(self) -> Picture:
        """The picture turned by a quarter, clockwise, as an upright set's screen is."""
        rows = [self.row(y) for y in reversed(range(self.height))]
        columns = (b"".join(row[at : at + 3] for row in rows) for at in range(0, 3 * self.width, 3))
        return Picture(self.height, self.width, b"".join(columns))

    def save(self, path: str | os.PathLike[str]) -> None:
        """Writes it as PPM where the name ends so, and as PNG elsewhere."""
        if str(path).endswith(".ppm"):
            content = b"P6\n%d %d\n255\n" % (self.width, self.height) + self.pixels
        else:
            head = struct.pack(">IIBBBBB", self.width, self.height, 8, 2, 0, 0, 0)
            rows = b"".join(b"\0" + self.row(y) for y in range(self.height))
            parts = ((b"IHDR", head), (b"IDAT", zlib.compress(rows)), (b"IEND", b""))
            content = b"\x89PNG\r\n\x1a\n" + b"".join(chunk(*part) for part in parts)
        with open(path, "wb") as file:
            file.write(content)


def fault_text(fault: BaseException) -> str:
    """A fault as it is told: of a file its name and why, of anything else its words."""
    return f"{fault.filename}: {fault.strerror}" if isinstance(fault, OSError) else str(fault)


def chunk(kind: bytes, content: bytes) -> bytes:
    """A part of a PNG file."""
    return struct.pack(">I", len(content)) + kind + content + struct.pack(">I", zlib.crc32(kind + content))


class Film:
    """The pictures of a film, read one by one."""

    def __init__(self, path: str | os.PathLike[str]) -> None:
        self.path = path
        with open(path, "rb") as file:
            start = file.read(64)
        words = start.split(maxsplit=4)
        if not start.startswith(b"P6") or len(words) < 4 or words[3] != b"255" or not (words[1] + words[2]).isdigit():
            raise ValueError(f"{path} is no film of PPM images" + ("; it is empty" if not start else ""))
        self.width, self.height = int(words[1]), int(words[2])
        self.head = start.index(b"255") + 4
        self.size = self.head + 3 * self.width * self.height
        self.count = os.path.getsize(path) // self.size

    def __getitem__(self, number: int) -> Picture:
        """A picture, counted from 0."""
        if not 0 <= number < self.count:
            raise IndexError
        with open(self.path, "rb") as file:
            file.seek(number * self.size + self.head)
            return Picture(self.width, self.height, file.read(self.size - self.head))


def samples(path: str | os.PathLike[str]) -> array.array[int]:
    """The samples of a sound."""
    with open(path, "rb") as file:
        content = file.read()
    at = content.find(b"data")
    if content[:4] != b"RIFF" or at < 0:
        raise ValueError(f"{path} is no WAV file")
    found = array.array("h")
    found.frombytes(content[at + 8 : len(content) - (len(content) - at) % 2])
    if sys.byteorder == "big":
        found.byteswap()
    return found


def beside(pictures: Sequence[Picture], columns: int | None = None, gap: int = 8) -> Picture:
    """Pictures of one size beside one another, so many a row, as one picture."""
    width, height, columns = pictures[0].width, pictures[0].height, columns or len(pictures)
    across = columns * (width + gap) - gap
    rows = []
    for first in range(0, len(pictures), columns):
        line = pictures[first : first + columns]
        rows += [GREY * across] * (gap if first else 0)
        for y in range(height):
            row = (GREY * gap).join(picture.row(y) for picture in line)
            rows.append(row + GREY * (across - len(row) // 3))
    return Picture(across, len(rows), b"".join(rows))


def difference(one: Picture, other: Picture) -> Picture:
    """A picture that is white where two differ, and dark grey where they don't."""
    return Picture(one.width, one.height, b"".join(
        b"\xff\xff\xff" if one.pixels[at : at + 3] != other.pixels[at : at + 3] else b"\x20\x20\x20" for at in range(0, len(one.pixels), 3)
    ))


def numbered(picture: Picture, number: int, scale: int = 3) -> Picture:
    """The picture with a number in its upper left corner, black on white."""
    pixels, digits = bytearray(picture.pixels), [DIGITS[int(digit)] for digit in str(number)]
    for y in range(7 * scale):
        for x in range((4 * len(digits) + 1) * scale):
            column, row = x // scale - 1, y // scale - 1
            is_in = 0 <= row < 5 and 0 <= column and column % 4 < 3
            is_ink = is_in and int(digits[column // 4][row]) >> (2 - column % 4) & 1
            at = 3 * (picture.width * y + x)
            pixels[at : at + 3] = b"\0\0\0" if is_ink else b"\xff\xff\xff"
    return Picture(picture.width, picture.height, bytes(pixels))


def pixels_apart(one: Picture, other: Picture) -> tuple[int, tuple[int, int]]:
    """How many pixels of two pictures differ, and the first: its x and y."""
    count, first = 0, (0, 0)
    for y in range(one.height):
        row, beside = one.row(y), other.row(y)
        if row != beside:
            places = [x for x in range(one.width) if row[3 * x : 3 * x + 3] != beside[3 * x : 3 * x + 3]]
            first = first if count else (places[0], y)
            count += len(places)
    return count, first


def compare_films(one: Film, other: Film, picture: str | os.PathLike[str] | None) -> list[str]:
    """The lines about two films; none where they are alike."""
    if (one.width, one.height) != (other.width, other.height):
        return [f"pictures of {one.width} by {one.height} and of {other.width} by {other.height} pixels"]
    told, frames, pixels, shown = [], 0, 0, time.monotonic()
    for number in range(min(one.count, other.count)):
        mine, theirs = one[number], other[number]
        if mine.pixels == theirs.pixels:
            continue
        count, (x, y) = pixels_apart(mine, theirs)
        if not frames:
            told.append(f"the first is frame {number + 1}, pixel x {x} y {y}: {mine.colour(x, y)} and {theirs.colour(x, y)}")
            if picture:
                beside([mine, theirs, difference(mine, theirs)]).scaled(SCALE).save(picture)
        frames, pixels = frames + 1, pixels + count
        if time.monotonic() - shown > 2:
            shown = time.monotonic()
            print(f"compare-films: frame {number + 1} of {one.count}", file=sys.stderr, flush=True)
    if frames:
        told.insert(0, f"{frames} of {min(one.count, other.count)} frames differ, in {pixels} pixels")
    if one.count != other.count:
        told.append(f"{one.count} and {other.count} frames")
    return told


def compare_sounds(one: array.array[int], other: array.array[int]) -> list[str]:
    """The lines about two sounds; none where they are alike."""
    apart = [at for at, (mine, theirs) in enumerate(zip(one, other)) if mine != theirs]
    told = []
    if apart:
        at = apart[0]
        told.append(f"{len(apart)} of {min(len(one), len(other))} samples differ")
        told.append(f"the first is sample {at}, of frame {at // SAMPLES + 1}, at {at / 96000:.3f} s: {one[at]} and {other[at]}")
    if len(one) != len(other):
        told.append(f"{len(one)} and {len(other)} samples")
    return told


def compare(one: str | os.PathLike[str], other: str | os.PathLike[str], picture: str | os.PathLike[str] | None = None) -> list[str]:
    """The lines about two files; none where they are alike."""
    empty = [path for path in (one, other) if os.path.getsize(path) == 0]
    if empty:
        return [] if len(empty) == 2 else [f"{empty[0]} is empty"]
    with open(one, "rb") as file:
        is_sound = file.read(4) == b"RIFF"
    if is_sound:
        return compare_sounds(samples(one), samples(other))
    return compare_films(Film(one), Film(other), picture)
