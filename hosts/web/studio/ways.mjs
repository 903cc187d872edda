// Tries steps over calls, ways out of routines and breakpoints with conditions, on and back, against the steps that the calls of a block show, a
// microsecond at a time.

import { Board } from '../board.js';
import { traceOf } from '../blocks.mjs';
import { conditionOf } from './conditions.js';
import { Listing } from './listing.js';
import { backOut, backOver, backTo, onTo, stepBack, stepOn, stepOut, stepOver, Stops } from './look.js';
import { beside, clocksOf, Run } from './run.js';
import { Session } from './session.js';
import { Tape, masksOf } from './tape.js';
import { touchesOf } from './who.js';
import { hex, textOf } from './bytes.js';

const FIRST = 58, FRAMES = 3; // that are looked at step by step: a snapshot is among them
const FAR = 5; // frames
const COPY = 0x0117, MAIN = 0x53; // the LDIR that gives the sprites' places, and where the processor waits for an interrupt
const WRITTEN = 0x5062, READ = 0x4c32; // one of these places, and the byte that is copied there
const CONDITIONS = [ // at the LDIR, and what has to hold of a moment
    ['BC = 9', ({ b, c }) => 256 * b + c === 9],
    ['C<>1 and HL >= PLACE', ({ c, h, l }) => c !== 1 && 256 * h + l >= 0x4c30],
    ['DE > 506FH-1', ({ d, e }) => 256 * d + e > 0x506e],
    ['A < 30H', ({ a }) => a < 0x30],
    ['c <= 0011B', ({ c }) => c <= 3],
    ['(0117H) = 0EDH', () => true],
    ['(PLACES-5060H) = 1', () => false],
    ['F = F', () => true],
    ['IM = 2 and IFF = 0 and SP < 5000H', ({ interruptMode, iff1, sp }) => interruptMode === 2 && !iff1 && sp < 0x5000],
];
const NONE = ['A', 'A=', '=3', 'A = NOWHERE', 'A = 3 and', 'A = (', 'A = 65536', 'A 3', '(A = 3', 'A = 3 or B = 4', 'A = 5 = 6'];

// The value of a generator at its end.
function end(steps) {
    for (;;) {
        const { done, value } = steps.next();
        if (done) return value;
    }
}

// A run of starfall beside what a block's calls show of three frames of it: each moment by its steps.
class Ground {
    constructor(files, assembler, source, masks) {
        const { rom, listing } = assembler.assemble(new Uint8Array(source)), module = new WebAssembly.Module(files['pac_host.wasm']);
        const roms = Uint8Array.from([...rom, ...files.set]), board = new Board(new WebAssembly.Instance(module, {}).exports, roms);
        Object.assign(this, { assembler, module, roms, masks, run: new Run(board, roms, new Tape(masks)), places: new Map() });
        this.symbols = new Listing(textOf(listing), source.toString().split('\n')).symbols;
        this.trace = traceOf(module, roms, masks, FIRST, FRAMES);
        this.begun = this.trace[0].steps;
    }

    // The registers at a moment.
    at(steps) {
        return this.trace[steps - this.begun];
    }

    // The steps that the run has done.
    get steps() {
        return clocksOf(this.run.board).steps;
    }

    // The moments, but the first one of all.
    get all() {
        return [...this.places.keys()].slice(1);
    }

    goes(steps) {
        const { frame, inside } = this.places.get(steps);
        return this.run.go(frame, inside);
    }

    textAt(address) {
        return this.assembler.disassembled(this.run.board.peek(address, 4), address).text;
    }

    // Whether the step at a moment pushes the way back, and goes elsewhere: a call, or an interrupt's acceptance.
    isPush(steps) {
        const [here, next] = [this.at(steps), this.at(steps + 1)];
        return next !== undefined && here.sp - next.sp === 2 && (next.pc - here.pc & 0xffff) > 4;
    }

    // Whether it's a call by the text of its instruction.
    isCall(steps) {
        return this.isPush(steps) && new RegExp(`^CALL .*\\b0?${hex(this.at(steps + 1).pc)}H$`).test(this.textAt(this.at(steps).pc));
    }

    // The next moment at an address with the stack as it is at a moment.
    after(steps, pc) {
        for (let next = steps + 1; ; next++) if (this.at(next).pc === pc && this.at(next).sp === this.at(steps).sp) return next;
    }

    // The moment after a call.
    returned(steps) {
        return this.after(steps, this.at(steps).pc + 3);
    }
}

// Single steps, on and back.
function byStep(it, row) {
    const { run, places } = it, names = ['pc', 'sp', 'a', 'f', 'ix', 'alternateA', 'r'];
    let isSame = true;
    for (run.go(FIRST); run.frame < FIRST + FRAMES; stepOn(run)) {
        const { registers } = run.board, wanted = it.at(it.steps);
        isSame &&= wanted !== undefined && names.every((name) => registers[name] === wanted[name]);
        places.set(it.steps, { frame: run.frame, inside: run.inside });
    }
    row(`${places.size} steps on are those of a block's calls`, isSame && places.size > 20000);
    const some = it.all.filter((_, number) => number % 997 === 5);
    row('and so are steps back', some.every((at) => (it.goes(at), stepBack(run), it.steps === at - 1)));
    const plain = some.filter((at) => !it.isPush(at) && it.at(at).pc !== MAIN && it.at(at + 1).pc !== it.at(at).pc);
    row('a step over what calls nothing is one step', plain.length > 5 && plain.every((at) => {
        it.goes(at);
        return end(stepOver(run, it.textAt(it.at(at).pc), FAR)) && it.steps === at + 1;
    }));
}

// Over calls, repeating instructions and interrupts: to the next moment at the way back with the stack as it was.
function over(it, calls, row) {
    const { run, all } = it, text = (address) => it.textAt(address);
    row(`${calls.length} calls are stepped over`, calls.length > 10 && calls.every((at) => {
        it.goes(at);
        return end(stepOver(run, text(it.at(at).pc), FAR)) && it.steps === it.returned(at);
    }));
    row('and back over', calls.every((at) => (it.goes(it.returned(at)), end(backOver(run, text)) && it.steps === at)));
    const repeats = all.filter((at) => it.at(at).pc === COPY && it.at(at - 1).pc !== COPY);
    row('a repeating instruction is stepped over as one', repeats.length === FRAMES && repeats.every((at) => {
        it.goes(at);
        return end(stepOver(run, 'LDIR', FAR)) && it.steps === at + 16 && end(backOver(run, text)) && it.steps === at;
    }));
    const halted = all.find((at) => at > all[5000] && it.at(at).pc === MAIN && it.at(at - 1).pc === MAIN);
    let next = halted + 1;
    while (it.at(next).pc !== MAIN || it.at(next - 1).sp >= it.at(halted).sp) next++;
    it.goes(halted);
    row('and so is what an interrupt does, out of a halt', end(stepOver(run, text(MAIN), FAR)) && it.steps === next && !run.board.registers.halted);
}

// The innermost call or interrupt around a moment within a call.
function around(it, call, within) {
    let level = it.at(within).sp;
    for (let back = within - 1; back > call; back--) {
        if (it.at(back).sp <= level) continue;
        level = it.at(back).sp;
        if (it.isPush(back)) return back;
    }
    return call;
}

// Out of routines, to the moment after their call, and back to it.
function out(it, calls, row) {
    const { run, roms, assembler } = it, inside = [];
    const isReturn = (_, address) => assembler.disassembled(roms.subarray(address, address + 4), address).text.startsWith('RET');
    const returns = [...Array(0x4000).keys()].filter(isReturn);
    for (const call of calls) for (let within = call + 1; within < it.returned(call); within += 211) inside.push([within, around(it, call, within)]);
    row(`out of a routine, from ${inside.length} moments`, inside.length > 15 && inside.every(([within, call]) => {
        it.goes(within);
        return end(stepOut(run, returns, FAR)) && it.steps === (it.isCall(call) ? it.returned(call) : it.after(call, it.at(call).pc));
    }));
    row('and back to its call', inside.every(([within, call]) => (it.goes(within), end(backOut(run)) && it.steps === call)));
    const begun = it.all[9000];
    it.goes(begun);
    row('where nothing returns the run stays', end(backTo(run, new Stops([0x3fff]), 2)) === false && it.steps === begun);
}

// The steps at which a run comes to stops within the frames that are looked at, on and back.
function met(it, stops) {
    const { run } = it, on = [], back = [];
    run.go(FIRST);
    while (end(onTo(run, stops, FRAMES)) && run.frame < FIRST + FRAMES) on.push(it.steps);
    run.go(FIRST + FRAMES);
    while (end(backTo(run, stops, FRAMES + 1)) && run.frame >= FIRST) back.push(it.steps);
    return [on.join(), back.reverse().join()];
}

// Whether DE is an address.
function isAt({ d, e }, address) {
    return 256 * d + e === address;
}

// Breakpoints: each moment at an address at which a condition holds, and no other.
function breakpoints(it, row) {
    const { all, symbols } = it;
    for (const [condition, holds] of CONDITIONS) {
        const isWanted = conditionOf(condition, symbols), wanted = all.filter((at) => it.at(at).pc === COPY && holds(it.at(at)));
        const text = wanted.join(), found = met(it, new Stops([COPY], (board) => isWanted(board)));
        row(`${condition}: at ${wanted.length} of ${16 * FRAMES} times, on and back`, found.every((one) => one === text));
    }
    for (const condition of NONE) {
        let told = '';
        try {
            conditionOf(condition, symbols);
        } catch (error) {
            told = error.message;
        }
        row(`${condition} is no condition`, told.length > 10, told);
    }
    const set = [COPY, 0x0102, symbols.get('SING')], wanted = all.filter((at) => set.includes(it.at(at).pc)), found = met(it, new Stops(set));
    row(`${wanted.length} times at one of three addresses`, wanted.length > 50 && found.every((one) => one === wanted.join()));
    for (const [condition, holds] of [['', () => true], ['IFF = 1', () => false]]) {
        const isWanted = conditionOf(condition, symbols), writes = all.filter((at) => it.at(at).pc === COPY && isAt(it.at(at), WRITTEN));
        const after = writes.map((at) => at + 1).filter((at) => holds(it.at(at))).join();
        const stops = met(it, new Stops([], (board, registers, { address }) => address === WRITTEN && isWanted(board), [[WRITTEN, 1]]));
        row(`after ${writes.length} writes to ${hex(WRITTEN)}H${condition && ` where ${condition}`}`, writes.length >= FRAMES && stops.every((one) => one === after));
    }
}

// Watched accesses: each one of a kind with its byte, and no other, as the board shows it where that byte is another one.
function accesses(it, row) {
    const { module, roms, run } = it, touched = [], isWithin = () => run.frame < FIRST + FRAMES;
    for (const touch of touchesOf(beside(run.go(FIRST + FRAMES), new Board(new WebAssembly.Instance(module, {}).exports, roms)), READ)) {
        if (touch?.frame < FIRST) break;
        if (touch) touched.push(touch);
    }
    for (const [kinds, name] of [[1, 'writes'], [2, 'reads'], [3, 'both']]) {
        const stops = new Stops([], () => true, [[READ, kinds]]), told = [], back = [], tell = ({ access, address, before, after }) =>
            `${it.steps} ${access} ${address} ${before} ${after}`;
        const wanted = touched.filter(({ isWrite }) => kinds & (isWrite ? 1 : 2)).reverse()
            .map(({ steps, isWrite, old, value }) => `${steps + 1} ${isWrite ? 1 : 2} ${READ} ${old} ${value}`);
        run.go(FIRST);
        for (let met; (met = end(onTo(run, stops, FRAMES))) && isWithin();) told.push(tell(met));
        run.go(FIRST + FRAMES);
        for (let met; (met = end(backTo(run, stops, FRAMES + 1))) && run.frame >= FIRST;) back.push(tell(met));
        row(`${name} of ${hex(READ)}H: each of ${wanted.length}, and its byte`, wanted.length >= FRAMES && told.join() === wanted.join(), `${told} / ${wanted}`);
        row('and back', back.reverse().join() === wanted.join(), `${back} / ${wanted}`);
    }
}

// A session that plays rests at a breakpoint, goes on from it, and ends each frame as it would without one.
async function resting(it, row) {
    const { module, roms, masks, run, all } = it, session = new Session(module, roms, { held: 0 }, () => undefined);
    const first = all.find((at) => it.at(at).pc === COPY), wanted = run.go(FIRST + FRAMES).board.block.join();
    session.begin(roms, masks);
    await session.go(FIRST);
    session.stops = new Stops([COPY], (board, { c }) => c === 5);
    const isRested = session.advance() === null && session.isAtStop && session.run.canGo;
    row('a session rests at a breakpoint', isRested && clocksOf(session.run.board).steps === first + 11);
    let frames = 0;
    while (session.run.frame < FIRST + FRAMES) frames += session.advance() === null ? 0 : 1;
    row('and goes on from there to where it goes without one', frames === FRAMES && session.run.board.block.join() === wanted);
    await session.go(FIRST);
    const scout = session.scout('line');
    end(onTo(scout, new Stops([0x0135]), FAR));
    session.takes(scout);
    const isThere = session.run.frame === scout.frame && session.run.inside === scout.inside && session.run.board.registers.pc === 0x0135;
    row('and takes the moment of a scout', isThere && session.run.go(FIRST + FRAMES).board.block.join() === wanted);
}

export async function ways(files, assembler, { example, row }) {
    const it = new Ground(files, assembler, example('starfall', 'asm'), masksOf(example('starfall', 'script').toString()));
    byStep(it, row);
    const { all } = it, calls = all.filter((at) => at < all.at(-1) - 12000 && it.isCall(at)).filter((_, number) => number % 5 === 0);
    over(it, calls, row);
    out(it, calls, row);
    breakpoints(it, row);
    accesses(it, row);
    await resting(it, row);
}
