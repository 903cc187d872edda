#!/usr/bin/env python3
"""Makes an animated GIF of some pictures of a run: docs/animation.py FRAMES.ppm OUT.gif [FIRST COUNT STEP].

    ./run-example starfall
    docs/animation.py examples/out/starfall/frames.ppm docs/starfall.gif 267 100 3

makes the one of the README: 100 pictures from number 267 on, each third one, which is the board's speed within a hundredth, since a GIF
counts hundredths of a second and three frames take 4.95 of them. The board has 16 colours at most, so none is lost. It needs Python's
standard library alone.
"""
import struct
import sys
import time

WIDTH, HEIGHT = 288, 224
HEAD = b"P6\n288 224\n255\n"
PIXELS = WIDTH * HEIGHT
FRAMES_A_SECOND = 2000 / 33


def pictures(path, first, count, step):
    """Pictures of a film as lists of colours, each three bytes."""
    with open(path, "rb") as film:
        for at in range(first, first + count * step, step):
            film.seek(at * (len(HEAD) + 3 * PIXELS))
            if film.read(len(HEAD)) != HEAD:
                sys.exit(f"animation.py: {path} has no picture {at}")
            data = film.read(3 * PIXELS)
            yield [data[k:k + 3] for k in range(0, 3 * PIXELS, 3)]


def packed(numbers, bits):
    """Numbers below 2^bits by LZW, as a GIF has them: in blocks of 255 bytes, after the count of bits."""
    clear, end = 1 << bits, (1 << bits) + 1
    codes, width, out, filled, data = dict[tuple[int, int], int](), bits + 1, clear, bits + 1, bytearray()
    word = numbers[0]

    def put(code):
        """Appends a code to the bytes."""
        nonlocal out, filled
        out |= code << filled
        filled += width
        while filled >= 8:
            data.append(out & 255)
            out >>= 8
            filled -= 8

    known = end + 1
    for number in numbers[1:]:
        longer = codes.get((word, number))
        if longer is not None:
            word = longer
            continue
        put(word)
        if known < 4096:
            codes[word, number] = known
            known += 1
            if known > 1 << width and width < 12:
                width += 1
        else:
            put(clear)
            codes, width, known = {}, bits + 1, end + 1
        word = number
    put(word)
    put(end)
    if filled:
        data.append(out & 255)
    blocks = [data[k:k + 255] for k in range(0, len(data), 255)]
    return bytes([bits]) + b"".join(bytes([len(block)]) + block for block in blocks) + b"\0"


def box(now, before):
    """The least rectangle outside which two pictures are equal: left, top, width, height."""
    rows = [y for y in range(HEIGHT) if now[y * WIDTH:(y + 1) * WIDTH] != before[y * WIDTH:(y + 1) * WIDTH]] or [0]
    columns = [x for x in range(WIDTH) if now[x::WIDTH] != before[x::WIDTH]] or [0]
    return columns[0], rows[0], columns[-1] - columns[0] + 1, rows[-1] - rows[0] + 1


def image(now, before, clear, bits, hundredths):
    """A picture after the one before it: what has changed, and `clear` where nothing has."""
    left, top, width, height = box(now, before) if before else (0, 0, WIDTH, HEIGHT)
    places = [y * WIDTH + x for y in range(top, top + height) for x in range(left, left + width)]
    numbers = [clear if before and now[at] == before[at] else now[at] for at in places]
    control = b"\x21\xf9\x04" + struct.pack("<BHBB", 5, hundredths, clear, 0)
    return control + b"\x2c" + struct.pack("<HHHHB", left, top, width, height, 0) + packed(numbers, bits)


def main():
    words = sys.argv[1:]
    if words == ["--help"]:
        print(__doc__, end="")
        return
    if len(words) not in (2, 5) or not all(word.isdigit() for word in words[2:]):
        sys.exit("animation.py: usage: docs/animation.py FRAMES.ppm OUT.gif [FIRST COUNT STEP]; --help tells more")
    first, count, step = map(int, words[2:] or (0, 100, 3))
    colours, film = dict[bytes, int](), []
    for picture in pictures(words[0], first, count, step):
        film.append([colours.setdefault(colour, len(colours)) for colour in picture])
    bits = 5  # 16 colours, and one that leaves a pixel as it was
    palette = b"".join(colours).ljust(3 << bits, b"\0")
    out = b"GIF89a" + struct.pack("<HHBBB", WIDTH, HEIGHT, 0xF0 | bits - 1, 0, 0) + palette
    out += b"\x21\xff\x0bNETSCAPE2.0\x03\x01\x00\x00\x00"
    told = time.monotonic()
    for at, picture in enumerate(film):
        if time.monotonic() - told > 1:
            told = time.monotonic()
            print(f"animation.py: picture {at} of {count}", file=sys.stderr, flush=True)
        out += image(picture, film[at - 1] if at else None, len(colours), bits, round(100 * step / FRAMES_A_SECOND))
    with open(words[1], "wb") as file:
        file.write(out + b"\x3b")
    print(f"{words[1]}: {count} pictures, {len(colours)} colours, {len(out) + 1} bytes")


try:
    main()
except OSError as fault:
    sys.exit(f"animation.py: {fault.filename}: {fault.strerror}")
