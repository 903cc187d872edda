// Times what the studio asks of the board while the game rests: who wrote a byte, the way to an address, on and back, and steps.
//
//   node bench/studio.mjs hosts/out/pac_host.wasm GAME.roms GAME.held
//
// hosts/build makes the last two for each example, bench/mixed.py the ROM block of the mixed program, for which GAME.held may be /dev/null. Of
// three rounds the least is told, each from a moment 600 frames after power-on. hosts/web/build makes the module.
import { readFileSync } from 'node:fs';
import { Board } from '../hosts/web/board.js';
import { backTo, onTo, stepBack, stepOn, stepOver, Stops } from '../hosts/web/studio/look.js';
import { Run } from '../hosts/web/studio/run.js';
import { Tape } from '../hosts/web/studio/tape.js';
import { touchesOf } from '../hosts/web/studio/who.js';

const FRAMES = 600, AHEAD = 300, ROUNDS = 3, STEPS = 1000;
const NEVER = 0x3fff, BYTES = [0x5061, 0x4040, 0x4400]; // an address that is no instruction, and bytes
const [file, roms, held] = process.argv.slice(2, 5).map((path) => new Uint8Array(readFileSync(path)));
const masks = new Uint16Array(held.buffer.slice(0, held.length & ~1)), module = new WebAssembly.Module(file);
const run = new Run(new Board(new WebAssembly.Instance(module, {}).exports, roms), roms, new Tape(masks));

// The value of a generator at its end.
function end(steps) {
    for (;;) {
        const { done, value } = steps.next();
        if (done) return value;
    }
}

// The frame of the last write of a byte; nothing where there is none.
function lastWrite(address) {
    for (const touch of touchesOf(run, address)) if (touch?.isWrite) return touch.frame;
    return null;
}

// Tells the least time of some rounds, and what it comes to.
function timed(what, does) {
    let least = Infinity, told = '';
    for (let round = 0; round < ROUNDS; round++) {
        run.go(FRAMES);
        const begun = performance.now();
        told = does();
        least = Math.min(least, performance.now() - begun);
    }
    console.log(`${what.padEnd(56)} ${least.toFixed(2).padStart(9)} ms  ${told ?? 'none'}`);
}

const never = new Stops([NEVER]);
for (const address of BYTES) timed(`the last write of ${address.toString(16).toUpperCase()}H, by its frame`, () => lastWrite(address));
timed(`${AHEAD} frames on, to no address`, () => end(onTo(run, never, AHEAD)));
timed(`${FRAMES} frames back, to no address`, () => end(backTo(run, never)));
timed(`${STEPS} steps on`, () => { for (let step = 0; step < STEPS; step++) stepOn(run); });
timed('20 steps back', () => { for (let step = 0; step < 20; step++) stepBack(run); });
timed('a step over', () => end(stepOver(run, '', 1)));
