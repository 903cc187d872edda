// Moments between frames: a step on and back, and the next or last time that the processor comes to an address. All of it is asked of the board.

import { clocksOf, FRAME_TICKS, STRIDE } from './run.js';

const LONGEST_STEP = 23; // T-states
const ADDRESSES = 65536, LONGEST_CODE = 4; // bytes
const REPEATS = /^(?:LD|CP|IN|OT)[ID]R\b/;
const FRAMES_BACK = 120; // in which a call is looked for

// The address of the next instruction.
export function pcOf(run) {
    return run.board.registers.pc;
}

// Goes on by a step.
export function stepOn(run) {
    if (run.canGo) run.step();
}

// Goes to the moment before the last step.
export function stepBack(run) {
    const { frame, inside } = run, { steps } = clocksOf(run.board);
    if (frame > 0 || inside > 0) {
        const [last, end] = inside > 0 ? [frame, inside] : [frame - 1, FRAME_TICKS];
        run.go(last, Math.max(0, end - 3 * LONGEST_STEP));
        while (run.canGo && clocksOf(run.board).steps < steps - 1) run.step();
    }
    return run;
}

// A set of addresses, each with what it has there.
function setOf(pairs) {
    const set = new Uint8Array(ADDRESSES);
    for (const [address, kinds] of pairs) set[address] = kinds;
    return set;
}

// What a run is to stop at: before addresses, and after accesses to others, each with what is watched of it, 1 writes, 2 reads, 3 both; and what
// has to hold there, which is looked at where one of them is met alone: by board and registers, and by the access, nothing where there was none.
export class Stops {
    constructor(addresses, holds = () => true, watched = []) {
        const places = Array.from(addresses, (address) => [address, 1]);
        Object.assign(this, { places: setOf(places), watched: watched.length === 0 ? null : setOf(watched), holds });
    }

    // Whether the run is at one of the addresses.
    isMet(run) {
        const { registers } = run.board;
        return this.places[registers.pc] !== 0 && this.holds(run.board, registers, null);
    }

    // The stop that it has come to, by what was done last: the access, or that it is at an address; nothing where it is at none.
    met(run, ran) {
        if (ran.why === 'access' && this.holds(run.board, run.board.registers, ran)) return ran;
        return (ran.why === 'place' || ran.why === 'access') && this.isMet(run) ? { access: 0 } : null;
    }
}

// Goes on to the next stop within this frame, with one step at least: that stop, if there is one. `heard` gets the samples.
export function goesTo(run, stops, heard = () => undefined) {
    const { frame } = run;
    while (run.canGo && run.frame === frame) {
        const ran = run.part(FRAME_TICKS, stops.places, stops.watched);
        heard(ran.samples);
        const met = stops.met(run, ran);
        if (met) return met;
    }
    return null;
}

// Goes on to the next stop, at the latest so many frames on: that stop, if there is one.
export function* onTo(run, stops, frames) {
    const last = run.frame + frames;
    while (run.canGo && run.frame < last) {
        const met = goesTo(run, stops);
        if (met) return met;
        yield run.frame;
    }
    return false;
}

// Goes back to the last stop before this moment, at the earliest so many frames back: that stop, if there is one. The last frame is looked through
// at first, and then twice as many at a time, up to the stride that begins with a snapshot.
export function* backTo(run, stops, frames = Infinity) {
    const begun = { frame: run.frame, inside: run.inside };
    const isBefore = ({ frame, inside }) => run.frame < frame || run.frame === frame && run.inside < inside;
    for (let end = begun, size = 1; end.frame > begun.frame - frames && (end.frame > 0 || end.inside > 0); size *= 2) {
        const last = end.inside > 0 ? end.frame : end.frame - 1, from = { frame: Math.max(last - last % STRIDE, last - size + 1), inside: 0 };
        let found = null;
        run.go(from.frame);
        for (let met = stops.isMet(run) ? { access: 0 } : null; run.canGo && isBefore(end); met = goesTo(run, stops)) {
            if (met) found = { frame: run.frame, inside: run.inside, met };
            yield run.frame;
        }
        if (found) {
            run.go(found.frame, found.inside);
            return found.met;
        }
        end = from;
    }
    run.go(begun.frame, begun.inside);
    return false;
}

// ---- Over a call, out of one, and back: by what a step does to the stack

// The other number less one, as 16 bits with a sign: how far above it a stack pointer is.
function above(one, other) {
    return (one - other << 16) >> 16;
}

// The word at an address.
function wordAt(board, address) {
    const [low, high] = [address, address + 1].map((at) => board.peek(at & 0xffff, 1)[0]);
    return low + 256 * high;
}

// Whether the step from one place to another has left the way: no instruction begins just after it.
function hasJumped(from, to) {
    const size = to - from & 0xffff;
    return size === 0 || size > LONGEST_CODE;
}

// The stops at one address, with the stack where it was.
function back(address, sp) {
    return new Stops([address], (board, registers) => registers.sp === sp);
}

// Goes on by a step; where that is a call, to its return, and where it's a round of a repeating instruction, of which `text` is, to its last one.
// What an interrupt does is gone over, too. Whether it ends within so many frames.
export function* stepOver(run, text, frames) {
    const { pc, sp, halted } = run.board.registers, last = run.frame + frames, isLong = halted || REPEATS.test(text);
    const leaves = new Stops(Array(ADDRESSES).keys());
    leaves.places[pc] = 0;
    for (run.step(); run.canGo;) {
        const now = run.board.registers, pushed = wordAt(run.board, now.sp);
        if (above(sp, now.sp) === 2 && now.pc !== pushed && (pushed === pc || !hasJumped(pc, pushed))) {
            if (!(yield* onTo(run, back(pushed, sp), last - run.frame))) return false;
            if (pushed !== pc || halted) return true;
            run.step(); // (an interrupt came first)
        } else if (!isLong || now.pc !== pc) return true;
        else if (!(yield* onTo(run, leaves, last - run.frame))) return false;
    }
    return false;
}

// Goes on to where the routine that the processor is in has returned: `returns` are the addresses of instructions that may. Whether it does within
// so many frames.
export function* stepOut(run, returns, frames) {
    const { sp } = run.board.registers, last = run.frame + frames, stops = new Stops(returns, (board, now) => above(now.sp, sp) >= 0);
    while (run.canGo && (stops.isMet(run) || (yield* onTo(run, stops, last - run.frame)))) {
        const before = run.board.registers;
        run.step();
        if (above(run.board.registers.sp, before.sp) === 2) return true;
    }
    return false;
}

// Each moment of a frame before one of it: its place and where the stack is.
function trailOf(run, frame, inside) {
    const trail = [];
    run.go(frame);
    while (run.canGo && run.frame === frame && run.inside < inside) {
        const { pc, sp } = run.board.registers;
        trail.push({ frame, inside: run.inside, pc, sp });
        run.step();
    }
    return trail;
}

// Goes back to the last moment before this one that is wanted, by itself and by the one after it: whether there is one.
function* backWhere(run, isWanted) {
    const begun = { frame: run.frame, inside: run.inside };
    let after = run.board.registers, { frame, inside } = begun;
    if (inside === 0) [frame, inside] = [frame - 1, Infinity];
    for (; frame >= 0 && frame > begun.frame - FRAMES_BACK; [frame, inside] = [frame - 1, Infinity]) {
        for (const moment of trailOf(run, frame, inside).reverse()) {
            if (isWanted(moment, after)) {
                run.go(moment.frame, moment.inside);
                return true;
            }
            after = moment;
        }
        yield frame;
    }
    run.go(begun.frame, begun.inside);
    return false;
}

// Goes back by a step; where that is a return, to the call, and where it's a round of a repeating instruction, to before its first one: `textAt`
// gives the instruction at an address. Whether there is such a moment.
export function* backOver(run, textAt) {
    const now = run.board.registers, begun = { frame: run.frame, inside: run.inside };
    stepBack(run);
    const { pc, sp } = run.board.registers, isRound = REPEATS.test(textAt(pc));
    if (!isRound && !(above(now.sp, sp) === 2 && hasJumped(pc, now.pc))) return run.frame !== begun.frame || run.inside !== begun.inside;
    run.go(begun.frame, begun.inside);
    if (!isRound) return yield* backWhere(run, (moment) => above(moment.sp, now.sp) >= 0);
    const found = yield* backWhere(run, (moment) => above(moment.sp, sp) >= 0 && moment.pc !== pc);
    if (found) run.step();
    return found;
}

// Goes back to the call of the routine that the processor is in: whether there was one within two seconds.
export function* backOut(run) {
    let level = run.board.registers.sp;
    return yield* backWhere(run, ({ pc, sp }, after) => {
        if (above(sp, level) <= 0) return false;
        level = sp;
        return above(sp, after.sp) === 2 && hasJumped(pc, after.pc);
    });
}
