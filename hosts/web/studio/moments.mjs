// Tries steps, ways to an address and who touched a byte, against the program's debugger and against each step of the run.

import { writeFileSync } from 'node:fs';
import path from 'node:path';
import { Board, FRAME_MICROSECONDS } from '../board.js';
import { equal } from './bytes.js';
import { backTo, onTo, pcOf, stepBack, stepOn, Stops } from './look.js';
import { shownAt } from './pixel.js';
import { beside, clocksOf, Run } from './run.js';
import { palettesOf, SHEETS, spritesOf, tilesOf } from './sheets.js';
import { Tape, masksOf } from './tape.js';
import { placeOf, touchesOf } from './who.js';
import { soundOf, voicesOf } from './voices.js';

const COMMANDS = 'frames 18\nframes 1\nstep 1\nbreak 0117\ncontinue\nstep 2\nback 1\n';

// The value of a generator at its end.
function end(steps) {
    for (;;) {
        const { done, value } = steps.next();
        if (done) return value;
    }
}

// The first touches of a byte.
function first(run, address, count, isWanted = ({ isWrite }) => isWrite) {
    const found = [];
    for (const touch of touchesOf(run, address)) {
        if (touch && isWanted(touch)) found.push(touch);
        if (found.length === count) break;
    }
    return found;
}

const place = (run) => {
    const { steps, ticks } = clocksOf(run.board);
    return `${steps} ${ticks} ${pcOf(run).toString(16).toUpperCase().padStart(4, '0')}`;
};

export async function moments(files, assembler, { example, pacboard, at, row, ROOT }) {
    const module = await WebAssembly.compile(files['pac_host.wasm']), roms = new Uint8Array(25120),
        { rom } = assembler.assemble(new Uint8Array(example('starfall', 'asm')));
    roms.set(rom);
    roms.set(files.set, rom.length);
    const board = () => new Board(new WebAssembly.Instance(module, {}).exports, roms);
    const masks = masksOf(example('starfall', 'script').toString()), run = new Run(board(), roms, new Tape(masks));

    writeFileSync(at('look.commands'), COMMANDS);
    const words = ['debug', '--set', 'examples/set.toml', '--source', 'examples/starfall.asm', '--script',
        'examples/starfall.script'].map((word) => (word.includes('/') ? path.join(ROOT, word) : word));
    const told = pacboard(...words, '--commands', at('look.commands'), '--frames', '/dev/null', '--wave', '/dev/null', '--listing',
        '/dev/null').stdout.toString();
    const wanted = told.split('\n').filter((line) => /^(frame|step|break|back) /.test(line)).map((line) => line.split(' ').slice(1, 4).join(' '));
    const does = [() => run.go(18), () => run.go(19), () => stepOn(run), () => end(onTo(run, new Stops([0x117]), 2)), () => (stepOn(run), stepOn(run)),
        () => stepBack(run)];
    const places = does.map((one) => (one(), place(run)));
    row('steps, and the way to an address, are those of pacboard debug', wanted.length === 6 && places.join() === wanted.join(),
        `${places} / ${wanted}`);

    run.go(300);
    const kept = run.board.block;
    run.go(600);
    run.go(300);
    row('a moment that is left and come back to is the same', equal(run.board.block, kept));
    const mid = run.go(299, 23890).board.block;
    run.go(300);
    row('and so is one between', equal(run.board.block, kept) && equal(run.go(299, 23890).board.block, mid));

    // each step of two frames by itself, with what it writes
    const addresses = [0x4c00, 0x4c02, 0x4c30, 0x4fe5, 0x5061, 0x5051, 0x4ff0, 0x43c2];
    const written = new Map(addresses.map((address) => [address, []])), passed = [];
    run.go(20);
    while (run.frame < 22) {
        const before = run.board.block, { steps } = clocksOf(run.board);
        passed.push([pcOf(run), steps]);
        stepOn(run);
        const after = run.board.block;
        for (const address of addresses) if (before[placeOf(address)] !== after[placeOf(address)]) written.get(address).push(steps);
    }
    run.go(22);
    for (const address of addresses) {
        const found = [];
        for (const touch of touchesOf(beside(run, board()), address)) {
            if (touch && touch.frame < 20) break;
            if (touch?.isWrite && touch.old !== touch.value) found.push(touch.steps);
        }
        row(`who wrote ${address.toString(16)}: each step that changed it, and no other`, found.reverse().join() === written.get(address).join(),
            `${found} / ${written.get(address)}`);
    }
    const [copy] = first(beside(run.go(20), board()), 0x5061, 1);
    row('the write of docs/DEBUGGING.md', copy.frame === 19 && copy.steps === 196647 && copy.tick === 467 && copy.pc === 0x117 && copy.old === 0xc0
        && copy.value === 0xbe);
    const writes = first(beside(run, board()), 0x5061, 3).map(({ frame, pc }) => `${frame} ${pc}`);
    row('writes that change nothing are told too', writes.join() === '19 279,18 279,17 279', writes.join());
    const reads = first(beside(run, board()), 0x4c31, 8, ({ isWrite }) => !isWrite);
    row('and who read the byte that it copies', reads.some(({ pc, steps }) => pc === 0x117 && steps === 196647));

    for (const address of [0x0117, 0x0102, 0x0000]) {
        const stops = new Stops([address]), first = clocksOf(run.go(20).board).steps;
        const all = passed.filter(([pc]) => pc === address).map(([, steps]) => steps), found = [];
        while (end(onTo(run, stops, 3)) && run.frame < 22) found.push(clocksOf(run.board).steps);
        row(`each time that the processor comes to ${address.toString(16)}`, found.join() === all.filter((steps) => steps > first).join(),
            `${found.length} ${all.length}`);
        const back = [];
        run.go(22);
        while (end(backTo(run, stops)) && run.frame >= 20) back.push(clocksOf(run.board).steps);
        row('and back, the last first', back.reverse().join() === all.join(), `${back.length} ${all.length}`);
    }

    run.go(281);
    const cells = [[100, 100, 0x41ca], [16, 0, 0x4040], [0, 0, 0x43c2], [8, 8, 0x43e3], [287, 223, 0x4022 + 27], [279, 0, 0x4002]];
    const probe = board();
    for (const [x, y, address] of cells) {
        const found = shownAt(beside(run, probe), x, y), cell = found?.under ?? found;
        row(`the cell at ${x}, ${y}`, cell?.address === address && cell.colour === address + 0x400, JSON.stringify(found));
    }
    row('the boat is a sprite', [170, 174, 178, 182].some((x) => shownAt(beside(run, probe), x, 150)?.kind === 'sprite'));
    row('before the first picture nothing shows', shownAt(beside(run.go(0), probe), 5, 5) === null);

    const image = (name) => ({ ...SHEETS[name], data: new Uint8ClampedArray(4 * SHEETS[name].width * SHEETS[name].height) });
    const [tiles, sprites, palettes] = ['tiles', 'sprites', 'palettes'].map(image), easel = board();
    tilesOf(easel, roms, 1, tiles);
    spritesOf(easel, roms, 8, sprites);
    palettesOf(easel, roms, palettes);
    const colour = (sheet, x, y) => sheet.data.slice(4 * (y * sheet.width + x), 4 * (y * sheet.width + x) + 4).join();
    const byte = (number) => { // of the colour PROM, as docs/FORMATS.md weighs it
        const value = files.set[8192 + number], bit = (which) => value >> which & 1;
        return [33 * bit(0) + 71 * bit(1) + 151 * bit(2), 33 * bit(3) + 71 * bit(4) + 151 * bit(5), 81 * bit(6) + 174 * bit(7), 255].join();
    };
    const entry = (palette, value) => byte(files.set[8224 + 4 * palette + value] & 15);
    const squares = Array.from({ length: 128 }, (_, square) => colour(palettes, 8 * (square % 32) + 3,
        8 * Math.floor(square / 32) + 3) === entry(square >> 2, square & 3));
    row('the palettes are those of the PROMs', squares.every(Boolean), squares.indexOf(false).toString());
    const pixel = (at, x, y) => { // of a tile, as docs/FORMATS.md has it
        const value = files.set[16 * at + (x < 4 ? 8 : 0) + y], bit = x & 3;
        return 2 * (value >> 7 - bit & 1) + (value >> 3 - bit & 1);
    };
    let others = 0;
    for (let tile = 0; tile < 256; tile++)
        for (let y = 0; y < 8; y++) for (let x = 0; x < 8; x++) others += colour(tiles, 8 * (tile % 32) + x,
            8 * Math.floor(tile / 32) + y) === entry(1, pixel(tile, x, y)) ? 0 : 1;
    row('the tiles are those of the ROM', others === 0, String(others));
    row('there are sprites', new Set(Array.from({ length: 4096 }, (_, at) => colour(sprites, at % 256, Math.floor(at / 256)))).size > 3);
    run.go(300);
    const voices = voicesOf(run.board.block);
    row('three voices, each within hearing', voices.length === 3 && voices.every(({ hertz, waveform, volume }) => hertz > 20 && hertz < 10000
        && waveform < 8 && volume < 16));
    const sounds = [0, 1, 2].map((voice) => soundOf(easel, roms, run.board.block, voice).join());
    row('each sounds alone', new Set(sounds).size === 3 && sounds.every((sound) => new Set(sound.split(',')).size > 2));
    const quiet = run.board.block;
    quiet[3170 + 0x15] = 0;
    row('and not at all without a volume', new Set(soundOf(easel, roms, quiet, 0)).size === 1);
    row('a frame has 16,500 microseconds', FRAME_MICROSECONDS === 16500);
}
