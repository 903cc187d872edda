"""State files, made and judged by docs/FORMATS.md alone, without a look at the program: shared by tools/check/command-lines, tools/check/refusals and
tools/check/hostile.
"""
import hashlib

import blocks

SIZE = blocks.SIZE
FRAME = 50_688  # T-states
MICROSECONDS = 16_500  # of a frame, as they are asked
DIP = blocks.FIELDS["switches"][0]
PICTURE = blocks.PARTS["picture"][0]
# The wave generator's registers that keep nothing.
UNKEPT = set(range(16)) - {5, 10, 15}


def set_digest(*parts: bytes) -> bytes:
    """The digest of a ROM set: program, tiles, sprites, colours, lookup, wave."""
    return hashlib.sha1(b"".join(parts)).digest()


def sealed(text: bytes) -> bytes:
    """A text with its digest after it."""
    return text + hashlib.sha1(text).digest()


def state_file(digest: bytes, fields: dict[int, bytes]) -> bytes:
    """The file of a board at power-on with a set of this digest, and the DIP switches at C9H, but for the bytes at some places."""
    text = bytearray(SIZE - 20)
    for at, content in {0: b"PACSTATE", 8: b"\2\0", 10: digest, DIP: b"\xc9", **fields}.items():
        text[at : at + len(content)] = content
    return sealed(bytes(text))


def number(file: bytes, at: int, size: int) -> int:
    """The number of so many bytes at a place, the low byte first."""
    return int.from_bytes(file[at : at + size], "little")


def is_out_of_range(file: bytes) -> bool:
    """Whether a field has a value that no board has, or that is written in another way."""
    time, due, accumulators = blocks.number(file, "time"), blocks.number(file, "due"), blocks.part(file, "accumulators")
    return (
        blocks.number(file, "flags") > 15
        or blocks.number(file, "IM") > 2
        or time > (1 << 52) + 22
        or 4 * blocks.number(file, "steps") > time
        or blocks.number(file, "asked") > 1 << 50
        or any(value > 15 or value and at in UNKEPT for at, value in enumerate(blocks.part(file, "wave")))
        or any(number(accumulators, at, 4) >= 1 << 20 for at in (0, 4, 8))
        or blocks.number(file, "request") > 1
        or blocks.number(file, "blanks") > 15
        or due > 3
        or not due & 1 and blocks.number(file, "sample") != 0
        or max(blocks.part(file, "picture")) > 15
    )


def fault(file: bytes, digest: bytes, frames: int) -> str | None:
    """Why no run of so many frames of a set with this digest begins from a file; None where one does."""
    if not b"PACSTATE".startswith(file[:8]):
        return "V1"
    if len(file) >= 10 and number(file, 8, 2) not in (1, 2):
        return "V2"
    if len(file) != SIZE:
        return "V3"
    if sealed(file[:-20]) != file:
        return "V5"
    if file[10:30] != digest:
        return "V6"
    if is_out_of_range(file):
        return "V4"
    time = blocks.number(file, "time")
    if blocks.number(file, "due") or time % FRAME >= 32:
        return "V7"
    if time // FRAME * FRAME + FRAME * frames > 1 << 52 or blocks.number(file, "asked") + MICROSECONDS * frames > 1 << 50:
        return "V8"
    return None
