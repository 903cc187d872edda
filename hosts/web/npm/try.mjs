// Tries the installed package pacboard: `node try.mjs REPOSITORY` in a folder whose node_modules has it. The film and the sound of starfall have
// to have their recorded sums, and its ROM has to be that of its ROM block. The last line is `N passed, M failed`.

import { createHash } from 'node:crypto';
import { readFile } from 'node:fs/promises';
import path from 'node:path';
import * as pacboard from 'pacboard';

const { assembler, board, FRAME_MICROSECONDS, FRAME_SAMPLES, HEIGHT, SAMPLE_RATE, WIDTH } = pacboard;
const ROOT = process.argv[2], OUT = path.join(ROOT, 'hosts/out');
const NAME = 'starfall';
let passed = 0, failed = 0;

// Counts what was tried, and shows what isn't so.
function row(what, isSo) {
    if (isSo) passed++;
    else failed++;
    if (!isSo) console.log(`FAILED: ${what}`);
}

// The name of the error that a call throws; nothing where it throws none.
async function faultOf(call) {
    try {
        await call();
        return '';
    } catch (error) {
        return error.constructor.name;
    }
}

// The names that index.d.ts declares: those of the module, and the methods of each class.
function declared(text) {
    const names = [...text.matchAll(/^export (?:const|function|class) (\w+)/gm)].map((found) => found[1]).sort();
    const classes = [...text.matchAll(/^export class (\w+)[^{]*\{([^}]*(?:\{[^}]*\}[^}]*)*?)^\}/gm)];
    const members = Object.fromEntries(classes.map(([, name, body]) =>
        [name, [...new Set([...body.matchAll(/^ {4}(?:(?:static|set|get) )?(\w+)\(/gm)].map((found) => found[1]))].sort()]));
    return { names, members };
}

// Holds the types against the module.
async function types(folder) {
    const { names, members } = declared(await readFile(path.join(folder, 'index.d.ts'), 'utf8'));
    row(`the types are of the ${names.length} exports`, names.length >= 15 && names.join() === Object.keys(pacboard).sort().join());
    for (const [name, found] of Object.entries(members)) {
        const its = pacboard[name];
        row(`${name} has ${found.join(', ')}`, found.length > 0 && found.every((member) => member in its.prototype || member in its));
    }
    row('classes with their methods', members.Board.length >= 10 && members.Assembler.length >= 3);
}

// Plays the example's film: the sums of its pictures and its sound.
async function film() {
    const held = await readFile(path.join(OUT, `${NAME}.held`)), it = await board(await readFile(path.join(OUT, `${NAME}.roms`)));
    const count = held.length / 2, frames = createHash('sha1'), wave = createHash('sha1'), head = Buffer.alloc(44);
    head.write('RIFF', 0, 'latin1');
    head.writeUInt32LE(36 + 2 * FRAME_SAMPLES * count, 4);
    head.write('WAVEfmt ', 8, 'latin1');
    [16, 1 | 1 << 16, SAMPLE_RATE, 2 * SAMPLE_RATE, 2 | 16 << 16].forEach((field, at) => head.writeUInt32LE(field, 16 + 4 * at));
    head.write('data', 36, 'latin1');
    head.writeUInt32LE(2 * FRAME_SAMPLES * count, 40);
    wave.update(head);
    const rgb = Buffer.alloc(3 * WIDTH * HEIGHT);
    for (let at = 0; at < count; at++) {
        it.hold(held.readUInt16LE(2 * at));
        wave.update(Buffer.from(it.run(FRAME_MICROSECONDS).samples.buffer));
        const rgba = it.draw();
        for (let pixel = 0; pixel < WIDTH * HEIGHT; pixel++) {
            rgb[3 * pixel] = rgba[4 * pixel];
            rgb[3 * pixel + 1] = rgba[4 * pixel + 1];
            rgb[3 * pixel + 2] = rgba[4 * pixel + 2];
        }
        frames.update(`P6\n${WIDTH} ${HEIGHT}\n255\n`).update(rgb);
    }
    return [frames.digest('hex'), wave.digest('hex')];
}

const text = await readFile(path.join(ROOT, 'examples/outputs.sha1'), 'utf8');
const sums = Object.fromEntries(text.trim().split('\n').map((line) => line.split('  ').reverse()));
await types(path.dirname(new URL(import.meta.resolve('pacboard')).pathname));
const [pictures, sound] = await film();
row('the film of starfall', pictures === sums[`${NAME}/frames.ppm`]);
row('its sound', sound === sums[`${NAME}/wave.wav`]);
const made = (await assembler()).assemble(await readFile(path.join(ROOT, `examples/${NAME}.asm`)));
const roms = await readFile(path.join(OUT, `${NAME}.roms`));
row('the ROM of starfall', made.code === 0 && Buffer.from(made.rom).equals(roms.subarray(0, pacboard.ROM_SIZE)) && made.listing.length > 1000);
row('a fault', pacboard.faultText((await assembler()).assemble(Buffer.from(' LD A,Y\n'))).startsWith('A'));
row('short ROMs', await faultOf(() => board(new Uint8Array(5))) === 'Refused');
const one = await board(roms), other = one.beside(), places = new Uint8Array(65536);
places[0x0117] = 1;
row('a way to an address', [...Array(20)].some(() => other.until(100_000, places).why === 'place') && other.registers.pc === 0x0117);
other.close();
row('a board that is closed', await faultOf(() => other.step()) === 'Refused' && one.step().ticks > 0n);
row('no number', await faultOf(async () => (await board(roms)).hold('P1_UP')) === 'RangeError');
console.log(`${passed} passed, ${failed} failed`);
process.exitCode = failed === 0 ? 0 : 1;
