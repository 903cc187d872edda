#!/usr/bin/env python3
"""Plays a ROM block, keeps the board each second, and goes back: what is played again is equal, byte by byte.

    hosts/python/rewind.py ROMS HELD

A copy of the board's block is all that a way back needs. From each second that was kept the rest is played again with the same inputs, and
held against the first time: each sample, each picture and the block at the end. Then the last second is played with nothing held. A line
tells of each way back; the exit status is 1 where one differs, 2 for other words, 3 where a file can't be read, and 4 where an input is refused.
"""
import hashlib
import sys

sys.dont_write_bytecode = True

try:
    import pacboard
except OSError as error:
    print(f"rewind.py: {error}", file=sys.stderr)
    sys.exit(3)

SECOND = 61  # frames, a little more than a second


def played(board: pacboard.LiveBoard, held: list[int]) -> list[str]:
    """Plays frames: a sum of each one's samples and picture."""
    sums = []
    for mask in held:
        board.hold(mask)
        _, samples = board.run(pacboard.FRAME_MICROSECONDS)
        sums.append(hashlib.sha1(samples.tobytes() + board.draw()).hexdigest())
    return sums


def main(words: list[str]) -> int:
    """Plays, goes back, and compares."""
    if len(words) != 2:
        print((__doc__ or "").strip())
        return 0 if "--help" in words else 2
    with open(words[0], "rb") as file:
        board = pacboard.LiveBoard(file.read())
    with open(words[1], "rb") as file:
        held = pacboard.held_of(file.read())
    if not held:
        raise ValueError("there is no frame to go back to")
    kept, sums = dict[int, bytes](), list[str]()
    for at in range(0, len(held), SECOND):
        kept[at] = board.block
        sums += played(board, held[at : at + SECOND])
    end, wrong = board.block, 0
    for at, block in reversed(kept.items()):
        board.block = block
        is_same = played(board, held[at:]) == sums[at:] and board.block == end
        wrong += not is_same
        print(f"back to frame {at}, and {len(held) - at} frames again: {'equal' if is_same else 'OTHER'}", flush=True)
    board.block = kept[max(kept)]
    other = played(board, [0] * (len(held) - max(kept)))
    count = sum(one != two for one, two in zip(other, sums[max(kept) :]))
    print(f"back to frame {max(kept)}, with nothing held: {count} of {len(other)} frames are others")
    return 1 if wrong else 0


if __name__ == "__main__":
    sys.exit(pacboard.status_of("rewind.py", main, sys.argv[1:]))
