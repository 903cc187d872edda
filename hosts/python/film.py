#!/usr/bin/env python3
"""Plays a ROM block, and writes its film and its sound byte for byte as `pacboard run` does.

    hosts/python/film.py ROMS HELD FRAMES.ppm WAVE.wav

ROMS is made by hosts/roms.py, and HELD, which has two bytes for each frame, by hosts/script.py. The exit status is 0, 2 for other words,
3 where a file can't be read or written, 4 where an input is refused, and 5 where the board stopped.
"""
import array
import struct
import sys

sys.dont_write_bytecode = True

try:
    import pacboard
except OSError as error:
    print(f"film.py: {error}", file=sys.stderr)
    sys.exit(3)


def wave_head(samples: int) -> bytes:
    """The head of a sound of so many samples."""
    rate, size = pacboard.SAMPLE_RATE, 2 * samples
    return struct.pack("<4sI8sIHHIIHH4sI", b"RIFF", 36 + size, b"WAVEfmt ", 16, 1, 1, rate, 2 * rate, 2, 16, b"data", size)


def main(words: list[str]) -> int:
    """Writes film and sound."""
    if len(words) != 4:
        print((__doc__ or "").strip())
        return 0 if "--help" in words else 2
    with open(words[0], "rb") as file:
        board = pacboard.LiveBoard(file.read())
    with open(words[1], "rb") as file:
        held = pacboard.held_of(file.read())
    ran = pacboard.Ran()
    with open(words[2], "wb") as frames, open(words[3], "wb") as wave:
        wave.write(wave_head(pacboard.FRAME_SAMPLES * len(held)))
        for mask in held:
            samples, ran.pictures = array.array("h"), 0
            if not ran.stop:
                board.hold(mask)
                ran, samples = board.run(pacboard.FRAME_MICROSECONDS)
            wave.write(samples.tobytes().ljust(2 * pacboard.FRAME_SAMPLES, b"\0"))  # silence after a stop
            if ran.pictures:
                frames.write(board.ppm())
    if ran.stop:
        print(f"film.py: the board stopped at {ran.pc:04X}", file=sys.stderr)
        return 5
    return 0


if __name__ == "__main__":
    sys.exit(pacboard.status_of("film.py", main, sys.argv[1:]))
