// Times the calls of the board's module on a ROM block, as hosts/web/board.js makes them: 600 frames, nine times, of which the least is told.
//
//   node bench/host.mjs hosts/out/pac_host.wasm hosts/out/starfall.roms
//
// Nothing is held. First frames alone, one after another; then whole ones, each with all of its calls and each call by itself; and then what
// looks in, on the last board. hosts/web/build makes the module.
import { readFile } from 'node:fs/promises';
import { Board, FRAME_MICROSECONDS } from '../hosts/web/board.js';

const FRAMES = 600, ROUNDS = 9, CALLS = 2000;
const [module, roms] = await Promise.all(process.argv.slice(2, 4).map((path) => readFile(path)));
const least = new Map();

// Keeps the least time of so many calls, for each of them.
function timed(name, calls, does) {
    const begun = performance.now();
    for (let call = 0; call < calls; call++) does();
    const each = 1000 * (performance.now() - begun) / calls;
    least.set(name, Math.min(least.get(name) ?? Infinity, each));
}

const frame = { hold: (board) => board.hold(0), run: (board) => board.run(FRAME_MICROSECONDS), draw: (board) => board.draw() };
const looks = {
    'run of nothing': (board) => board.run(0),
    step: (board) => board.step(),
    registers: (board) => board.registers,
    'peek, a byte': (board) => board.peek(0x4c00, 1),
    'peek, 1,024 bytes': (board) => board.peek(0x4c00, 1024),
    'block, taken': (board) => board.block,
    'block, put back': (board, kept) => { board.block = kept; },
};
for (let round = 0; round < ROUNDS; round++) {
    const alone = await Board.powerOn(module, new Uint8Array(roms)), board = await Board.powerOn(module, new Uint8Array(roms));
    timed('run, a frame', FRAMES, () => alone.run(FRAME_MICROSECONDS));
    timed('hold, run and draw', FRAMES, () => Object.values(frame).forEach((does) => does(board)));
    for (const [name, does] of Object.entries(frame)) timed(`${name}, one after another`, FRAMES, () => does(board));
    const kept = board.block;
    for (const [name, does] of Object.entries(looks)) timed(name, CALLS, () => does(board, kept));
}
for (const [name, each] of least) console.log(`${name.padEnd(26)} ${each.toFixed(2).padStart(8)} microseconds`);
