// A run: a board that plays a tape, with a snapshot each second, so that each moment is one short play away.
//
// A moment is a frame and the T-states of it that have gone by, at the end of a step. Frames count from the run's beginning, a power-on or a state
// that was read. Within a frame the board is asked for no time, which its end is: so a moment's block hangs on no way to it.

import { FRAME_MICROSECONDS, HEIGHT } from '../board.js';
import { PLACES } from './tables.js';

export const STRIDE = 60; // frames between two snapshots
export const FRAME_TICKS = 50688, LINE_TICKS = 192;
const FIRST_LINE = 41; // of a frame's 264: the one before it is the last that isn't seen

// A number of a block, its low byte first.
function numberIn(block, at, size) {
    let value = 0;
    for (let byte = size - 1; byte >= 0; byte--) value = value * 256 + block[at + byte];
    return value;
}

// The T-states in microseconds.
function ticksIn(microseconds) {
    return Math.floor(microseconds / 125) * 384 + Math.floor(microseconds % 125 * 384 / 125);
}

// The clocks of a board: its T-states and steps since power-on.
export function clocksOf(board) {
    const { time, steps } = board.registers;
    return { ticks: Number(time), steps: Number(steps) };
}

// Where in a frame a time is: the T-state since the blank, and the line of the picture that is drawn then, if one is.
export function placeInFrame(ticks) {
    const tick = ticks % FRAME_TICKS, line = Math.floor(tick / LINE_TICKS) - FIRST_LINE;
    return { tick, line: line >= 0 && line < HEIGHT ? line : null };
}

export class Run {
    constructor(board, roms, tape, start = null) {
        Object.assign(this, { board, roms, tape });
        board.begin(roms);
        if (start) board.block = start;
        this.snapshots = [board.block];
        this.origin = numberIn(this.snapshots[0], PLACES.AT_ASKED, 8);
        this.frame = 0;
        this.inside = 0;
        this.stop = null;
        this.near = null; // the last frame that was gone into: its block at the beginning
    }

    // The block that it began with.
    get start() {
        return this.snapshots[0];
    }

    // Whether nothing has stopped it, and no time is left to ask for.
    get canGo() {
        return this.stop === null;
    }

    // Holds what the tape has for this frame, where it begins.
    begins() {
        if (this.inside > 0) return;
        if (this.frame === this.snapshots.length * STRIDE) this.snapshots.push(this.board.block);
        this.board.hold(this.tape.at(this.frame));
    }

    // Runs to the end of this frame: the samples.
    next() {
        this.begins();
        const { samples, ticks, stop, pc } = this.board.run(FRAME_MICROSECONDS);
        if (stop !== 0) {
            this.stop = { stop, pc };
            this.inside += Number(ticks);
        } else {
            this.frame++;
            this.inside = 0;
        }
        return samples;
    }

    // Goes on within this frame, so many T-states at most, until the processor is before an address of a set, or has just used a watched one:
    // what was done. At the frame's end the next one begins.
    part(ticks, places = null, watched = null) {
        this.begins();
        const left = ticksIn(this.origin + FRAME_MICROSECONDS * (this.frame + 1)) - clocksOf(this.board).ticks;
        const ran = left > 0 ? this.board.until(Math.min(ticks, left), places, watched) : { ticks: 0, stop: 0, why: 'time', samples: [] };
        this.inside += Number(ran.ticks);
        if (ran.stop !== 0) this.stop = { stop: ran.stop, pc: ran.pc };
        else if (ran.ticks >= left) this.next();
        return ran;
    }

    // Goes on by a step.
    step() {
        this.enters();
        this.part(1);
    }

    // Keeps where this frame begins, so that its moments are near.
    enters() {
        if (this.inside === 0) this.near = { frame: this.frame, block: this.board.block };
    }

    // Goes to the moment of another run, which is this one on another board and went on from it.
    takes({ board, frame, inside, stop, snapshots, near }) {
        this.board.block = board.block;
        Object.assign(this, { frame, inside, stop, snapshots: snapshots.slice(), near });
    }

    // Forgets what comes after a frame's beginning, since what is held from there on has changed.
    forget(frame) {
        this.snapshots.length = Math.min(this.snapshots.length, Math.floor(frame / STRIDE) + 1);
        if (this.near?.frame > frame) this.near = null;
        if (this.frame > frame || this.frame === frame && this.inside > 0) this.restore(frame);
    }

    // Goes back to the last snapshot that is no later than a frame.
    restore(frame) {
        const at = Math.min(Math.floor(frame / STRIDE), this.snapshots.length - 1);
        const isNear = this.near?.frame > at * STRIDE && this.near.frame <= frame;
        this.board.block = isNear ? this.near.block : this.snapshots[at];
        this.frame = isNear ? this.near.frame : at * STRIDE;
        this.inside = 0;
        this.stop = null;
    }

    // The frame from which a frame is played, where it isn't come to by going on.
    before(frame) {
        return frame;
    }

    // The steps to a moment, each at most a frame; where the board stops on the way it stays there.
    *to(frame, inside = 0) {
        const isAhead = this.canGo && (frame > this.frame || frame === this.frame && inside >= this.inside);
        const nearest = STRIDE * Math.min(Math.floor(this.before(frame) / STRIDE), this.snapshots.length - 1);
        if (!isAhead || nearest > this.frame) this.restore(this.before(frame));
        while (this.canGo && this.frame < frame) {
            this.next();
            yield this.frame;
        }
        if (!this.canGo || inside <= this.inside) return this;
        this.enters();
        this.part(inside - this.inside);
        return this;
    }

    // Goes to a moment at once.
    go(frame, inside = 0) {
        for (const _ of this.to(frame, inside));
        return this;
    }
}

// What another ROM block makes of a run's snapshots, each moment from one that is a second old, or two: no run, but a look ahead at what the
// run will be under that block, as far as nothing before the snapshot would have been otherwise.
export class Preview extends Run {
    before(frame) {
        return Math.max(0, frame - STRIDE);
    }

    enters() {}

    // Its own moments take the place of the run's.
    next() {
        const samples = super.next();
        if (this.canGo && this.frame % STRIDE === 0 && this.inside === 0) this.snapshots[this.frame / STRIDE] = this.board.block;
        return samples;
    }
}

// The snapshots of a run on another board, under its ROM block or another one.
function copied(run, kind, board, roms) {
    board.begin(roms);
    return Object.assign(Object.create(kind), run, { board, roms, snapshots: run.snapshots.slice(), near: null });
}

// The run once more, on another board and at the same moment: it goes where that one doesn't.
export function beside(run, board) {
    const other = copied(run, Object.getPrototypeOf(run), board, run.roms);
    board.block = run.board.block;
    return other;
}

// A preview of a run under another ROM block, at the same moment.
export function previewOf(run, board, roms) {
    const other = copied(run, Preview.prototype, board, roms);
    other.restore(other.before(run.frame));
    return other.go(run.frame, run.inside);
}
