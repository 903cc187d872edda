// Tries the board's module in node, and the page in Chromium: hosts/web/test calls it.

import { createHash } from 'node:crypto';
import { readFile } from 'node:fs/promises';
import path from 'node:path';
import { fileURLToPath } from 'node:url';
import { areOf, Block } from './blocks.mjs';
import { Browser, programOf, serve } from './browser.mjs';
import { Board, FRAME_MICROSECONDS, FRAME_SAMPLES, HEIGHT, INPUTS, SAMPLE_RATE, SWITCHES, Trapped, WIDTH } from './board.js';

const HERE = path.dirname(fileURLToPath(import.meta.url));
const FOLDER = path.resolve(process.argv[2]);
const SHOWN = 281; // the frame whose picture the canvas has to show
const SCALE = 2; // of the canvas on the screen
const PLAYED = 10; // seconds
const HELD = 3218; // where a block has the mask of what is held
const CALLS = 400; // by chance, on a board and on a block
const PASSED = [0x0117, 0x0102, 0x0135, 0x0053, 0x0141]; // addresses of starfall
const RATE = 2000 / 33; // frames a second

let passed = 0, failed = 0;

// Counts what was tried, and tells it.
function row(what, isSo) {
    if (isSo) passed++;
    else failed++;
    console.log(isSo ? what : `FAILED: ${what}`);
}

// The code with which a call is refused; 0 where it isn't.
function codeOf(call) {
    try {
        call();
        return 0;
    } catch (error) {
        if (error.code === undefined) throw error;
        return error.code;
    }
}

// The error that a call throws; nothing where it throws none.
function thrown(call) {
    try {
        call();
    } catch (error) {
        return error;
    }
}

// The mask of each frame of an example.
async function heldOf(name) {
    const bytes = await readFile(path.join(FOLDER, `${name}.held`));
    return Array.from({ length: bytes.length / 2 }, (_, at) => bytes.readUInt16LE(2 * at));
}

// The head of a sound of so many samples.
function waveHead(samples) {
    const head = Buffer.alloc(44);
    head.write('RIFF', 0, 'latin1');
    head.writeUInt32LE(36 + 2 * samples, 4);
    head.write('WAVEfmt ', 8, 'latin1');
    [16, 1 | 1 << 16, SAMPLE_RATE, 2 * SAMPLE_RATE, 2 | 16 << 16].forEach((field, at) => head.writeUInt32LE(field, 16 + 4 * at));
    head.write('data', 36, 'latin1');
    head.writeUInt32LE(2 * samples, 40);
    return head;
}

// A picture without its fourth bytes.
function pixels(rgba) {
    const rgb = Buffer.alloc(3 * WIDTH * HEIGHT);
    for (let at = 0; at < WIDTH * HEIGHT; at++)
        for (let colour = 0; colour < 3; colour++) rgb[3 * at + colour] = rgba[4 * at + colour];
    return rgb;
}

// Plays a frame: its samples, with silence after a stop, and whether there is a picture.
function played(board, mask) {
    board.hold(mask);
    const { samples, pictures } = board.run(FRAME_MICROSECONDS);
    const whole = new Int16Array(FRAME_SAMPLES);
    whole.set(samples);
    return { samples: Buffer.from(whole.buffer), isPicture: pictures > 0 };
}

// Plays an example without a window, and compares its film and sound by their sums.
async function film(module, name, sums) {
    const held = await heldOf(name);
    const board = await Board.powerOn(module, await readFile(path.join(FOLDER, `${name}.roms`)));
    const frames = createHash('sha1'), wave = createHash('sha1').update(waveHead(FRAME_SAMPLES * held.length));
    let spent = 0n;
    for (const mask of held) {
        const begun = process.hrtime.bigint();
        const { samples, isPicture } = played(board, mask);
        spent += process.hrtime.bigint() - begun;
        wave.update(samples);
        if (isPicture) frames.update(`P6\n${WIDTH} ${HEIGHT}\n255\n`).update(pixels(board.draw()));
    }
    const told = `${held.length} frames, ${(Number(spent) / 1e6 / held.length).toFixed(3)} ms each without drawing`;
    row(`node, ${name}: ${told}`, frames.digest('hex') === sums[`${name}/frames.ppm`] && wave.digest('hex') === sums[`${name}/wave.wav`]);
}

// What is refused, and snapshots.
async function refusals(module) {
    const roms = await readFile(path.join(FOLDER, 'starfall.roms'));
    const board = await Board.powerOn(module, roms);
    row('node: the module needs nothing of its host', WebAssembly.Module.imports(await WebAssembly.compile(module)).length === 0);
    const short = [() => board.begin(roms.subarray(1)), () => { board.sockets = roms.subarray(1); }, () => board.beside(roms.subarray(1))];
    row('node: a ROM block of another length', short.every((call) => codeOf(call) === 1));
    for (let frame = 0; frame < 30; frame++) played(board, 0);
    const kept = board.block, file = board.save();
    for (const byte of [0, 255]) {
        const code = codeOf(() => { board.block = new Uint8Array(kept.length).fill(byte); });
        row(`node: a state of ${byte === 0 ? 'zeros' : 'FFH'}`, code === 2 && Buffer.from(kept).equals(board.block));
    }
    row('node: a state of another length', codeOf(() => { board.block = kept.subarray(1); }) === 1);
    row('node: less room than samples', codeOf(() => board.run(200000)) === 4);
    const first = [...Array(30)].map(() => played(board, INPUTS.P1_LEFT).samples), end = board.block;
    board.block = kept;
    const again = [...Array(30)].map(() => played(board, INPUTS.P1_LEFT).samples);
    row('node: back to a snapshot, and the same again', Buffer.concat(first).equals(Buffer.concat(again)) && Buffer.from(end).equals(board.block));
    board.load(file);
    row('node: a state file is read back', Buffer.from(kept).equals(board.block));
    file[100] ^= 1;
    row('node: a damaged state file', codeOf(() => board.load(file)) === 15);
    row('node: a state file that is cut', codeOf(() => board.load(file.slice(0, 1000))) === 13);
}

// What is refused before it crosses to the module, and what is told once a call has ended in a trap.
async function guards(module) {
    const roms = await readFile(path.join(FOLDER, 'starfall.roms'));
    const board = await Board.powerOn(module, roms), kept = board.block, text = board.save();
    const numbers = [-1, 2 ** 32, 0.5, NaN, undefined, '1'];
    row('node: no other number than a whole one that fits', numbers.every((number) =>
        thrown(() => board.run(number)) instanceof RangeError && thrown(() => board.hold(number)) instanceof RangeError));
    row('node: no mask of more than 16 inputs', thrown(() => board.hold(0x10000)) instanceof RangeError);
    row('node: and nothing is changed', Buffer.from(board.block).equals(kept));
    const neighbour = board.beside();
    outside(board.calls);
    row('node: a place outside the memory is told as a trap', thrown(() => board.run(1)) instanceof Trapped);
    const areTrapped = (one) => [...usesOf(one, roms, kept, text), () => one.beside()].every((call) => thrown(call) instanceof Trapped);
    row('node: and so is each use of the board after it', areTrapped(board));
    row('node: and of those beside it', areTrapped(neighbour));
    const other = await Board.powerOn(module, roms);
    row('node: another board goes on', thrown(() => other.hold(0)) === undefined);
}

// Each use of a board.
function usesOf(board, roms, kept, text) {
    return [() => board.hold(0), () => board.run(1), () => board.step(), () => board.until(1), () => board.registers, () => board.draw(),
        () => board.peek(0, 1), () => board.save(), () => board.load(text), () => board.reset(), () => board.block, () => { board.block = kept; },
        () => { board.sockets = roms; }, () => board.begin(roms), () => board.close()];
}

// Has the handles of an instance's boards lie about where their memory is: it's outside. They begin as many bytes before that memory.
function outside({ memory, __heap_base: base, pac_live_size: size }) {
    const view = new DataView(memory.buffer);
    for (let at = Math.ceil(Number(base.value) / 16) * 16; at + 32 < memory.buffer.byteLength; at += 16)
        if (view.getBigUint64(at, true) === BigInt(at + 32) && view.getBigUint64(at + 8, true) === size()) view.setBigUint64(at, 1n << 31n, true);
}

// What a run has told as a block's call writes it.
function asWritten({ ticks, samples, pictures, stop, pc, bytes, vector }) {
    const ran = Buffer.alloc(32);
    ran.writeBigUInt64LE(ticks, 0);
    [samples.length, pictures, stop].forEach((value, at) => ran.writeUInt32LE(value, 8 + 4 * at));
    ran.writeUInt16LE(pc, 20);
    ran.set([...bytes, vector], 22);
    return Buffer.concat([ran, Buffer.from(samples.buffer)]);
}

// Calls by chance on a board, and the same on a block: each answer and all bytes are the same.
async function calls(module) {
    const roms = await readFile(path.join(FOLDER, 'starfall.roms')), compiled = await WebAssembly.compile(module);
    const board = new Board(new WebAssembly.Instance(compiled, {}).exports, roms), block = new Block(compiled, roms);
    let state = 5, kept = board.block;
    const chance = (below) => (state = Math.imul(state, 1103515245) + 12345 >>> 0) % 65521 % below;
    const made = {
        hold: () => { const mask = chance(65536); board.hold(mask); block.does('pac_hold', mask, 0xffff); return true; },
        run: () => { const time = chance(2) ? 16500 : chance(500); return asWritten(board.run(time)).equals(block.run(time)); },
        step: () => { board.step(); block.step(); return true; },
        draw: () => { block.does('pac_draw', block.rgba); return Buffer.from(board.draw()).equals(Buffer.from(block.rgba)); },
        peek: () => {
            const at = chance(65536), bytes = block.text.subarray(0, 1 + chance(600));
            block.does('pac_peek', at, bytes);
            return Buffer.from(board.peek(at, bytes.length)).equals(Buffer.from(bytes));
        },
        save: () => {
            const text = board.save();
            block.does('pac_save', block.text);
            board.load(text);
            return Buffer.from(text).equals(Buffer.from(block.text));
        },
        reset: () => { if (chance(4) === 0) { board.reset(); block.does('pac_reset'); } return true; },
        keep: () => { kept = board.block; return true; },
        back: () => { board.block = kept; block.block.set(kept); return true; },
        sockets: () => { board.sockets = roms; return true; },
    };
    const names = Object.keys(made), done = {};
    for (let call = 0; call < CALLS; call++) {
        const name = names[chance(names.length)], isSame = made[name](), { registers } = board;
        const isOne = isSame && areOf(registers, block) && Buffer.from(board.block).equals(Buffer.from(block.block));
        if (!isOne) return row(`node: call ${call}, ${name}`, false);
        done[name] = (done[name] ?? 0) + 1;
    }
    row(`node: ${CALLS} calls by chance are those of a block, and so are the registers`, names.every((name) => done[name] > 10));
}

// Single steps until so many T-states are over, or the processor is before an address of a set: what `until` has to tell.
function stepped(board, ticks, places) {
    const samples = [];
    let gone = 0n, why = 'time';
    while (gone < ticks && why === 'time') {
        const step = board.step();
        gone += step.ticks;
        samples.push(...step.samples);
        if (places !== null && places[board.registers.pc] !== 0) why = 'place';
    }
    return { ticks: gone, why, samples, pc: board.registers.pc };
}

// What is done until a time or an address, against single steps.
async function untils(module) {
    const roms = await readFile(path.join(FOLDER, 'starfall.roms')), board = await Board.powerOn(module, roms), other = board.beside();
    const places = new Uint8Array(65536), ends = { time: 0, place: 0 };
    for (let frame = 0; frame < 30; frame++) for (const one of [board, other]) played(one, INPUTS.P1_LEFT);
    let isSame = true;
    for (let turn = 0; turn < 150; turn++) {
        const set = turn % 3 === 0 ? null : places, ticks = turn % 5 === 0 ? 1 : turn * 7919 % 20000;
        PASSED.forEach((address, at) => { places[address] = turn >> at & 1; });
        const ran = board.until(ticks, set), wanted = stepped(other, ticks, set);
        ends[ran.why]++;
        isSame &&= ran.ticks === wanted.ticks && ran.why === wanted.why && ran.samples.join() === wanted.samples.join() && ran.pc === wanted.pc
            && ran.stop === 0 && Buffer.from(board.block).equals(other.block);
    }
    row(`node: ${ends.place} ways to an address and ${ends.time} to a time are those by single steps`, isSame && ends.place > 30 && ends.time > 30);
    const full = board.until(400_000), rest = board.until(Number(400_000n - full.ticks)), wanted = stepped(other, 400_000, null);
    row('node: a way that has no more room goes on from there', full.why === 'full' && rest.why === 'time'
        && full.ticks + rest.ticks === wanted.ticks && [...full.samples, ...rest.samples].join() === wanted.samples.join());
    const all = [board, other].map((one) => one.run(FRAME_MICROSECONDS));
    row('node: and the frame after it ends alike', all[0].ticks === all[1].ticks && Buffer.from(board.block).equals(other.block));
    const none = roms.slice();
    none.set([0xed, 0], 0);
    const stopped = board.beside(none), told = stopped.until(1000);
    row('node: a stop is told', told.why === 'stop' && told.stop === 1 && told.pc === 0 && told.bytes[0] === 0xed && stopped.registers.steps === 0n);
    row('node: no set of another length', [[new Uint8Array(5)], [null, new Uint8Array(65537)]].every((sets) => codeOf(() => board.until(1, ...sets)) === 1));
    const writer = roms.slice(), watched = new Uint8Array(65536);
    writer.set([0x21, 0x00, 0x4c, 0x36, 0x05, 0x7e, 0x34, 0xc3, 0x00, 0x00]); // LD HL,4C00H; LD (HL),5; LD A,(HL); INC (HL); JP 0
    const written = board.beside(writer), accesses = (kinds, count) => {
        watched[0x4c00] = kinds;
        return Array.from({ length: count }, () => written.until(1000, null, watched)).map(({ why, pc, address, access, before, after }) =>
            [why, pc, address, access, before, after].join(' ')).join(', ');
    };
    row('node: writes and reads are told', accesses(3, 4) === 'access 5 19456 1 0 5, access 6 19456 2 5 5, access 7 19456 1 5 6, access 5 19456 1 6 5');
    row('node: and what isn\'t watched isn\'t', accesses(1, 2) === 'access 7 19456 1 5 6, access 5 19456 1 6 5' && accesses(0, 1).startsWith('time '));
}

// Boards that lie in one instance, and those that are closed.
async function neighbours(module) {
    const roms = await readFile(path.join(FOLDER, 'starfall.roms')), other = await readFile(path.join(FOLDER, 'hello.roms'));
    const first = await Board.powerOn(module, roms), { byteLength } = first.calls.memory.buffer;
    for (let frame = 0; frame < 20; frame++) played(first, 0);
    const kept = first.block;
    for (let turn = 0; turn < 1000; turn++) {
        const second = first.beside(turn % 2 ? roms : other);
        if (turn % 100 === 0) second.run(FRAME_MICROSECONDS);
        second.close();
    }
    row('node: a thousand boards are opened and closed in one memory', first.calls.memory.buffer.byteLength === byteLength);
    row('node: and the one beside them stays as it was', Buffer.from(first.block).equals(kept));
    const some = [];
    const fault = thrown(() => { for (;;) some.push(first.beside()); });
    row(`node: ${some.length + 1} boards have room`, some.length >= 3 && fault?.message === "the module's memory is too small");
    some.forEach((board, at) => board.hold(at));
    row('node: each is its own', some.every((board, at) => board.block[HELD] === at));
    some[0].close();
    const again = first.beside(other), alone = await Board.powerOn(module, other);
    for (const board of [again, alone]) board.run(FRAME_MICROSECONDS);
    row('node: one that is closed makes room for another', Buffer.from(again.block).equals(alone.block));
    const closed = some[0], text = again.save();
    row('node: a closed board is refused each call', usesOf(closed, roms, kept, text).every((call) => codeOf(call) === 5));
    row('node: which changes none of the others', Buffer.from(first.block).equals(kept) && Buffer.from(again.block).equals(alone.block));
}

// The picture of a frame of starfall.
async function pictureOf(module, frame) {
    const board = await Board.powerOn(module, await readFile(path.join(FOLDER, 'starfall.roms')));
    for (const mask of (await heldOf('starfall')).slice(0, frame)) played(board, mask);
    return pixels(board.draw());
}

// A picture as it is on the screen: each pixel as a square.
function scaled(rgb) {
    const large = Buffer.alloc(rgb.length * SCALE * SCALE);
    for (let at = 0; at < large.length; at++) {
        const x = Math.floor(at / 3) % (SCALE * WIDTH), y = Math.floor(at / 3 / (SCALE * WIDTH));
        large[at] = rgb[3 * (Math.floor(y / SCALE) * WIDTH + Math.floor(x / SCALE)) + at % 3];
    }
    return large;
}

// The page, without a window.
async function page(module, program) {
    const server = await serve({ '/web/': HERE, '/out/': FOLDER });
    const browser = await Browser.open(program, `http://127.0.0.1:${server.address().port}/web/index.html`);
    try {
        await browser.until('window.host !== undefined');
        const held = JSON.stringify((await heldOf('starfall')).slice(0, SHOWN));
        await browser.value(`${held}.forEach((mask) => { host.held = mask; host.frame(); }), host.held = 0, host.show()`);
        const shot = await browser.shot('#picture');
        row(`page: the canvas shows frame ${SHOWN}, pixel by pixel`, shot.equals(scaled(await pictureOf(module, SHOWN))));
        const masks = `[host.held, host.board.block[${HELD}] + 256 * host.board.block[${HELD + 1}]]`;
        for (const [key, mask] of [['ArrowLeft', INPUTS.P1_LEFT], ['Digit5', INPUTS.COIN1], ['Digit1', INPUTS.START1]]) {
            await browser.key(key, true);
            await browser.value('host.frame().length');
            const [held, inBoard] = await browser.value(masks);
            await browser.key(key, false);
            row(`page: the key ${key}`, held === mask && inBoard === mask && await browser.value('host.held') === 0);
        }
        await live(browser);
    } finally {
        await browser.close();
        server.close();
    }
}

// Plays for some seconds, and tells how it went. A key has begun it.
async function live(browser) {
    await browser.until('host.isPlaying && host.taken > 0');
    const told = 'host.audio.currentTime, host.taken, host.dry, host.frames';
    await browser.pause(2);
    const first = await browser.value(`[${told}]`);
    for (let second = 1; second <= PLAYED; second++) {
        await browser.pause(1);
        process.stderr.write(`test: ${second} of ${PLAYED} seconds are played\n`);
    }
    const last = await browser.value(`[${told}]`);
    const [seconds, taken, dry, frames] = last.map((number, at) => number - first[at]);
    console.log(`page: ${seconds.toFixed(2)} s, ${(frames / seconds).toFixed(2)} frames a second (the board's are ${RATE.toFixed(2)}), ` +
        `${taken} samples were heard, and ${dry} came too late`);
    row('page: it plays', frames > 0 && taken > 0);
}

const module = await readFile(path.join(FOLDER, 'pac_host.wasm'));
const text = await readFile(path.join(HERE, '../../examples/outputs.sha1'), 'utf8');
const sums = Object.fromEntries(text.trim().split('\n').map((line) => line.split('  ').reverse()));
await refusals(module);
await guards(module);
await calls(module);
await untils(module);
await neighbours(module);
for (const name of new Set(Object.keys(sums).map((file) => path.dirname(file)))) await film(module, name, sums);
const program = programOf(['chromium', 'chromium-browser', 'google-chrome']);
if (program === undefined) console.log("page: left out, since Chromium isn't there");
else await page(module, program);
console.log(`${passed} passed, ${failed} failed`);
process.exitCode = failed === 0 ? 0 : 1;
