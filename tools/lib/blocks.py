"""The block of a board's state by the names of its fields, and ROM blocks, from docs/FORMATS.md and hosts/pacboard.h alone: what tools
that try the board's library lay out before a call and read after it.
"""
SIZE = 67_756
BYTES = "A F B C D E H L A' F' B' C' D' E' H' L'".split()
WORDS = "IX IY SP PC".split()
# the place and the size in bytes of what has a number, low byte first
FIELDS = {
    **{name: (30 + at, 1) for at, name in enumerate(BYTES)},
    **{name: (46 + 2 * at, 2) for at, name in enumerate(WORDS)},
    "I": (54, 1), "R": (55, 1), "flags": (56, 1), "IM": (57, 1), "time": (58, 8), "steps": (66, 8), "asked": (74, 8),
    "latch": (3214, 1), "vector": (3215, 1), "request": (3216, 1), "blanks": (3217, 1), "held": (3218, 2), "switches": (3220, 1),
    "due": (3221, 1), "sample": (3222, 2),
}  # fmt: skip
FLAGS = {"IFF1": 1, "IFF2": 2, "HALT": 4, "EI": 8}  # bits of the field `flags`
# the place and the size in bytes of what is a row of bytes
PARTS = {
    "tile RAM": (82, 1024), "colour RAM": (1106, 1024), "work RAM": (2130, 1024), "coordinates": (3154, 16), "wave": (3170, 32),
    "accumulators": (3202, 12), "picture": (3224, 64_512),
}  # fmt: skip
# where the program finds the RAM: the first address, and the part
RAM = {0x4000: "tile RAM", 0x4400: "colour RAM", 0x4C00: "work RAM"}
# the sizes in bytes of the parts of a ROM block, in its order
ROMS = {"program": 16_384, "tiles": 4_096, "sprites": 4_096, "colours": 32, "lookup": 256, "wave": 256}


def number(block: bytes, name: str) -> int:
    """The number of a field, a flag or a pair of registers, as BC."""
    if name in FLAGS:
        return int(number(block, "flags") & FLAGS[name] != 0)
    if name not in FIELDS and len(name.rstrip("'")) == 2:
        high, low = (letter + name[2:] for letter in name[:2])
        return number(block, high) * 256 + number(block, low)
    at, size = FIELDS[name]
    return int.from_bytes(block[at : at + size], "little")


def put(block: bytearray, name: str, value: int) -> None:
    """Writes the number of a field, a flag or a pair of registers into a block, which is a bytearray."""
    if name in FLAGS:
        put(block, "flags", number(block, "flags") & ~FLAGS[name] | value * FLAGS[name])
    elif name not in FIELDS and len(name.rstrip("'")) == 2:
        high, low = (letter + name[2:] for letter in name[:2])
        put(block, high, value // 256)
        put(block, low, value % 256)
    else:
        at, size = FIELDS[name]
        block[at : at + size] = value.to_bytes(size, "little")


def part(block: bytes, name: str) -> bytes:
    """The bytes of a part."""
    at, size = PARTS[name]
    return bytes(block[at : at + size])


def place(address: int) -> int | None:
    """The place in a block of the RAM that has an address, by its first one; None where the address is that of no RAM."""
    for first, name in RAM.items():
        at, size = PARTS[name]
        if first <= address < first + size:
            return at + address - first
    return None


def rom_block(**parts: bytes | dict[int, bytes]) -> bytes:
    """A ROM block: each part is bytes at their addresses, or the bytes from its beginning on; all else is 0."""
    block = bytearray()
    for name, size in ROMS.items():
        given, room = parts.get(name, {}), bytearray(size)
        for at, content in given.items() if isinstance(given, dict) else [(0, given)]:
            if at + len(content) > size:
                raise ValueError(f"{name} has {size} bytes, and {len(content)} of them don't begin at {at}")
            room[at : at + len(content)] = content
        block += room
    return bytes(block)
