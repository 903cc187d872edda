"""A live board with breakpoints, watched addresses, and the way back to earlier moments, as server.py needs it for gdb.

The way back is by kept blocks and by playing again from there: until the board is changed from outside it always does the same.
"""
import pathlib
import sys
from collections.abc import Callable
from typing import NamedTuple

sys.path.insert(0, str(pathlib.Path(__file__).resolve().parents[1] / "python"))

import pacboard

STRETCH, MOST_KEPT = 50_688, 2000  # T-states from one kept moment to the next at first, a frame's, and how many are kept
LONGEST_STEP = 23  # T-states
BEGIN, CALLED = 0, 6  # why it ended, besides pacboard's reasons: at the first moment that is known, and since somebody called


class Kept(NamedTuple):
    """A moment to which there is a way back: its T-states since power-on, the block, and whether it was changed from outside there."""

    time: int
    block: bytes
    is_changed: bool


class Board(pacboard.LiveBoard):
    """The board, the addresses at which it is to end, and earlier moments. A call that goes on or back answers why it ended."""

    def __init__(self, roms: bytes, switches: int) -> None:
        """A board at power-on."""
        super().__init__(roms, switches)
        self.kept = list[Kept]()
        self.places, self.watched = bytearray(1 << 16), bytearray(1 << 16)
        self.keep(is_changed=True)

    @property
    def time(self) -> int:
        """T-states since power-on."""
        return self.registers().time

    def change(self, at: list[int], content: bytes) -> None:
        """Changes these bytes of the block: there is no way back from there."""
        block = bytearray(self.block)
        for place, byte in zip(at, content, strict=True):
            block[place] = byte
        self.block = bytes(block)
        self.kept.clear()
        self.keep(is_changed=True)

    def keep(self, is_changed: bool = False) -> None:
        """Keeps this moment, where it is changed or a frame after the last one; every second one goes where there are many, but for those
        that the way from an earlier one doesn't lead to."""
        time = self.time
        if is_changed:
            self.kept = [one for one in self.kept if one.time < time]
        elif time < self.kept[-1].time + STRETCH:
            return
        self.kept.append(Kept(time, self.block, is_changed))
        if len(self.kept) > MOST_KEPT:
            self.kept = [one for at, one in enumerate(self.kept) if at % 2 == 0 or one.is_changed]

    def go_to(self, time: int, heeds: bool = False) -> pacboard.Until:
        """Goes on to a time, or to a stop; and where it heeds them, to a breakpoint, after a step at least, or past what is watched."""
        ran, _ = self.until(max(time - self.time, 0), self.places if heeds else b"", watched=self.watched if heeds else b"")
        return ran

    def step_on(self) -> pacboard.Until:
        """Takes one step."""
        ran = self.go_to(self.time + 1, heeds=True)
        self.keep()
        return ran

    def go_on(self, is_called: Callable[[], bool]) -> pacboard.Until:
        """Goes on to a breakpoint, past a watched access, to a stop, or to where somebody calls."""
        while (ran := self.go_to(self.time + STRETCH, heeds=True)).why == pacboard.UNTIL_TIME:
            self.keep()
            if is_called():
                return pacboard.Until(why=CALLED)
        self.keep()
        return ran

    def go_frames(self, count: int) -> bool:
        """Goes on to the vertical blank so many frames from here; false where the board stops before."""
        for _ in range(count):
            if self.go_to((self.time // STRETCH + 1) * STRETCH).why == pacboard.UNTIL_STOP:
                return False
            self.keep()
        return True

    def back_before(self, time: int) -> None:
        """Goes back to the last kept moment before a time."""
        while len(self.kept) > 1 and self.kept[-1].time >= time:
            self.kept.pop()
        self.block = self.kept[-1].block

    def go_before(self, time: int) -> None:
        """Goes on to the last moment before a time, which is later than now."""
        self.go_to(time - LONGEST_STEP)
        while self.time < time:
            block = self.block
            self.step()
        self.block = block

    def step_back(self) -> pacboard.Until:
        """Takes one step back."""
        if (time := self.time) <= self.kept[0].time:
            return pacboard.Until(why=BEGIN)
        self.back_before(time)
        self.go_before(time)
        return pacboard.Until(why=pacboard.UNTIL_TIME)

    def last_end(self, time: int) -> tuple[int, pacboard.Until]:
        """Goes on to a time: when from now on the last breakpoint comes before it, or the last watched access is over, and which it is."""
        found = time, pacboard.Until(why=pacboard.UNTIL_TIME)
        while (now := self.registers()).time < time:
            if self.places[now.pc]:
                found = now.time, pacboard.Until(why=pacboard.UNTIL_PLACE)
            if (ran := self.go_to(time, heeds=True)).why == pacboard.UNTIL_ACCESS:
                found = self.time, ran
        return found

    def go_back(self) -> pacboard.Until:
        """Goes back to the last moment at a breakpoint or before a watched access, or to the first that is known."""
        time = self.time
        while time > self.kept[0].time:
            self.back_before(time)
            found, ran = self.last_end(time)
            self.block = self.kept[-1].block
            if ran.why == pacboard.UNTIL_PLACE:
                self.go_to(found)
                return ran
            if ran.why == pacboard.UNTIL_ACCESS:
                self.go_before(found)
                return ran
            time = self.kept[-1].time
        return pacboard.Until(why=BEGIN)
