"""The picture of a board's RAM, sprites and flip bit, by docs/FORMATS.md and "The board on one page" of docs/USING.md. tools/check/screens holds
pictures against it, and bench/beside_mame.py draws by its rows what MAME's board has in its RAM. This was written from these pages, without
a look at the program; but that the three high bits of a palette's byte aren't wired is from the schematics.
"""
import functools
from collections.abc import Iterable, Mapping

WIDTH, HEIGHT = 288, 224  # pixels
COLUMNS, ROWS = 36, 28  # cells
ASIDE = {0: 0x3C2, 1: 0x3E2, 34: 0x002, 35: 0x022}  # the columns that stand beside the others, and the place of each one's first cell
LINES = 4096  # of tiles, and of sprites, that are kept: of the 2,048 and 1,024 of a ROM each is drawn many times
SPRITE_COLUMNS = [8, 16, 24, 0]  # where four columns of pixels of a sprite begin, from the left


def place(column: int, row: int) -> int:
    """The place of a cell in tile RAM, and in colour RAM."""
    return ASIDE[column] + row if column in ASIDE else 0x40 + 32 * row + column - 2


def value(byte: int, x: int) -> int:
    """The value of a pixel, 0 to 3 from the left, of the four that a byte has."""
    return (byte >> 7 - x & 1) * 2 + (byte >> 3 - x & 1)


@functools.lru_cache(LINES)
def tile_line(rom: bytes, code: int, y: int) -> tuple[int, ...]:
    """The eight values of a line of a tile."""
    return tuple(value(rom[16 * code + y + (8 if x < 4 else 0)], x % 4) for x in range(8))


@functools.lru_cache(LINES)
def sprite_line(rom: bytes, code: int, y: int) -> tuple[int, ...]:
    """The sixteen values of a line of a sprite."""
    first = 64 * code + 32 * (y // 8) + y % 8
    return tuple(value(rom[first + SPRITE_COLUMNS[x // 4]], x % 4) for x in range(16))


def numbers(lookup: bytes, palette: int, values: Iterable[int]) -> list[int]:
    """The colour numbers of values in a palette, by the low five bits of its byte."""
    first = 4 * (palette % 32)
    return [lookup[first + one] % 16 for one in values]


def put_cells(line: bytearray, y: int, roms: Mapping[str, bytes], tile_ram: bytes, colour_ram: bytes) -> None:
    """Puts the cells of a row of pixels into it."""
    for column in range(COLUMNS):
        at = place(column, y // 8)
        line[8 * column : 8 * column + 8] = bytes(numbers(roms["lookup"], colour_ram[at], tile_line(roms["tiles"], tile_ram[at], y % 8)))


def put_sprite(line: bytearray, y: int, roms: Mapping[str, bytes], attributes: bytes, coordinates: bytes) -> None:
    """Puts a sprite over a row of pixels: where its palette has colour 0 it's transparent, and it shows in columns 16 to 271 alone."""
    left, down = 272 - coordinates[1], y - (coordinates[0] - 31)
    if not 0 <= down < 16:
        return
    shape = sprite_line(roms["sprites"], attributes[0] // 4, 15 - down if attributes[0] & 2 else down)
    shown = numbers(roms["lookup"], attributes[1], shape[::-1] if attributes[0] & 1 else shape)
    for x, number in enumerate(shown, left):
        if number and 16 <= x < 272:
            line[x] = number


def line_of(
    roms: Mapping[str, bytes], tile_ram: bytes, colour_ram: bytes, attributes: bytes, coordinates: bytes, is_flipped: bool, shown: int
) -> bytes:
    """The colour numbers of row `shown` of a picture. `roms` has the tiles, the sprites and the lookup PROM."""
    line, y = bytearray(WIDTH), HEIGHT - 1 - shown if is_flipped else shown
    put_cells(line, y, roms, tile_ram, colour_ram)
    for at in range(14, -2, -2):  # lower numbers in front
        put_sprite(line, y, roms, attributes[at : at + 2], coordinates[at : at + 2])
    return bytes(line[::-1] if is_flipped else line)


def picture_of(roms: Mapping[str, bytes], tile_ram: bytes, colour_ram: bytes, attributes: bytes, coordinates: bytes, is_flipped: bool) -> bytes:
    """The colour numbers of a picture, row by row from the top."""
    return b"".join(line_of(roms, tile_ram, colour_ram, attributes, coordinates, is_flipped, y) for y in range(HEIGHT))
