// Who wrote, or read, a byte: found by asking the board twice.
//
// A piece of the run is played as it is, and again with the byte turned into another one. Where both end alike but for the byte, and it is
// still the other one, the piece neither wrote nor read it; else its halves are asked, down to a step. A piece that puts back what it read from
// there, and leaves no trace of it, is taken for one that didn't touch it.

import { FRAME_MICROSECONDS, Refused } from '../board.js';
import { clocksOf, placeInFrame, STRIDE } from './run.js';
import { PLACES } from './tables.js';

const MASKS = [0xff, 0x0f, 0x07, 0x01]; // what another byte differs by: the first that the board takes there
// What is compared: no picture, no sound, and nothing of what is asked and held, which no step changes.
const COMPARED = [[PLACES.AT_A, PLACES.AT_ASKED], [PLACES.AT_TILE_RAM, PLACES.AT_ACCUMULATORS], [PLACES.AT_LATCH, PLACES.AT_HELD]];

// Where a block has the byte of an address that can be written; nothing for others. The RAM is there once more from 6000H on, and so on.
export function placeOf(address) {
    const at = address & 0x7fff & ~0x2000, port = at & 0xff;
    if (at >= 0x4000 && at < 0x4400) return PLACES.AT_TILE_RAM + at - 0x4000;
    if (at >= 0x4400 && at < 0x4800) return PLACES.AT_COLOUR_RAM + at - 0x4400;
    if (at >= 0x4c00 && at < 0x5000) return PLACES.AT_WORK_RAM + at - 0x4c00;
    if (at >= 0x5000 && at < 0x6000 && port >= 0x40 && port < 0x60) return PLACES.AT_WAVE_REGISTERS + port - 0x40;
    if (at >= 0x5000 && at < 0x6000 && port >= 0x60 && port < 0x70) return PLACES.AT_COORDINATES + port - 0x60;
    return null;
}

// A block with the byte at a place turned into another one.
function turned(block, at, mask) {
    const other = block.slice();
    other[at] ^= mask;
    return other;
}

// The mask by which the byte at a place can be turned into another one; nothing where it keeps none.
function maskAt(board, block, at) {
    for (const mask of MASKS) {
        try {
            board.block = turned(block, at, mask);
            return mask;
        } catch (error) {
            if (!(error instanceof Refused)) throw error;
        }
    }
    return null;
}

// A board's block with its clocks.
function seen(board) {
    return { block: board.block, ...clocksOf(board) };
}

// What comes of a block after so many T-states.
function after(board, block, ticks) {
    board.block = block;
    board.until(ticks);
    return seen(board);
}

// Whether two blocks are alike but for the byte at a place, which is what it was before in both: `before` and turned.
function isUntouched(one, other, at, before, mask) {
    return one[at] === before && other[at] === (before ^ mask) && COMPARED.every(([from, to]) => {
        for (let byte = from; byte < to; byte++) if (one[byte] !== other[byte] && byte !== at) return false;
        return true;
    });
}

// The middle of a piece, at a step's end.
function middle(board, head, end) {
    for (let half = end.ticks - head.ticks >> 1; ; half >>= 1) {
        const found = after(board, head.block, half);
        if (found.ticks < end.ticks) return found;
    }
}

// What touches the byte at a place within a piece, the last one first.
function* touches(board, head, end, at, mask) {
    if (end.steps === head.steps) return;
    const other = after(board, turned(head.block, at, mask), end.ticks - head.ticks), old = head.block[at];
    if (isUntouched(end.block, other.block, at, old, mask)) return;
    if (end.steps > head.steps + 1) {
        const half = middle(board, head, end);
        yield* touches(board, half, end, at, mask);
        yield* touches(board, head, half, at, mask);
        return;
    }
    board.block = head.block;
    const { pc, iff1 } = board.registers, value = end.block[at];
    const isInterrupt = iff1 && head.block[PLACES.AT_REQUEST] === 1 && end.block[PLACES.AT_REQUEST] === 0;
    const isWrite = value !== old || other.block[at] !== (old ^ mask);
    yield { ticks: head.ticks, isWrite, old, value, pc, isInterrupt, steps: head.steps, ...placeInFrame(head.ticks) };
}

// Whether nothing touches the byte at a place in the stride from a snapshot of a run to the next one.
function isStrideUntouched({ board, snapshots, tape }, first, at, mask) {
    const [from, to] = [snapshots[first / STRIDE], snapshots[first / STRIDE + 1]];
    board.block = turned(from, at, mask);
    for (let frame = first; frame < first + STRIDE; frame++) {
        board.hold(tape.at(frame));
        if (board.run(FRAME_MICROSECONDS).stop !== 0) return false;
    }
    return isUntouched(to, board.block, at, from[at], mask);
}

// The beginnings of a run's frames from one on, up to a moment, and that moment.
function headsOf(run, first, last) {
    const heads = [];
    run.restore(first);
    while (run.canGo && (run.frame < last.frame || last.inside > run.inside)) {
        run.begins();
        heads.push(seen(run.board));
        if (run.frame < last.frame) run.next();
        else run.part(last.inside);
    }
    heads.push(seen(run.board));
    return heads;
}

// What has touched the byte at an address before this moment, the last one first; between two of them nothing, to let others go on. It plays
// the run that it is handed back and forth. Where a stride had no touch, the one before it is first asked as a whole.
export function* touchesOf(run, address) {
    const at = placeOf(address), { board } = run, mask = at === null ? null : maskAt(board, board.block, at);
    if (mask === null) return;
    let last = { frame: run.frame, inside: run.inside }, isFound = true;
    for (let first; last.frame > 0 || last.inside > 0; last = { frame: first, inside: 0 }) {
        first = STRIDE * Math.floor((last.inside > 0 ? last.frame : last.frame - 1) / STRIDE);
        if (!isFound && isStrideUntouched(run, first, at, mask)) {
            yield null;
            continue;
        }
        isFound = false;
        const heads = headsOf(run, first, last);
        yield null;
        for (let frame = heads.length - 2; frame >= 0; frame--) {
            for (const { ticks, ...touch } of touches(board, heads[frame], heads[frame + 1], at, mask)) {
                isFound = true;
                yield { frame: first + frame, inside: ticks - heads[frame].ticks, ...touch };
            }
            yield null;
        }
    }
}
