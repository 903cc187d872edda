// `pacboard asm` and `pacboard run` by the modules inside docs/studio.html, in node: what ./run-example and ./publish take where nothing is built.
//
//     node hosts/web/studio/command.mjs asm SOURCE --rom FILE --listing FILE
//     node hosts/web/studio/command.mjs run --set FILE --script FILE [--source FILE] [--whole] --frames FILE --wave FILE --listing FILE
//     node hosts/web/studio/command.mjs roms --set FILE --source FILE -o FILE
//
// Outputs, the lines of refusals and the exit statuses are those of the program, but that a write fault tells no count; --load, --save and --dip
// aren't there. The third writes the ROM block of hosts/roms.py.

import {
    closeSync, fchmodSync, fsyncSync, lstatSync, openSync, readFileSync, readlinkSync, realpathSync, renameSync, statSync, unlinkSync,
    writeSync,
} from 'node:fs';
import path from 'node:path';
import { fileURLToPath } from 'node:url';
import { Board, FRAME_MICROSECONDS, FRAME_SAMPLES, HEIGHT, SAMPLE_RATE, WIDTH } from '../board.js';
import { Assembler } from './assembler.js';
import { Fault, hex, MOST, textOf } from './bytes.js';
import { filesOf } from './payload.js';
import { clocksOf } from './run.js';
import { namedFiles, setOf } from './set.js';
import { masksOf } from './tape.js';

const PAGE = path.resolve(path.dirname(fileURLToPath(import.meta.url)), '../../../docs/studio.html');
const MOST_LINKS = 40; // that a name leads through
const WHOLE = '--whole', DRAFTS = 9; // an option without a value; so many new files may be beside an output
const READ = 3, REFUSED = 1, USED = 2, STOPPED = 5; // exit statuses
const NO_SOURCE = { rom: new Uint8Array(0), listing: new TextEncoder().encode('SYMBOLS\n') }; // the set has the program
const NAME = /^[^/](?:.*[^/])?$/s;

// Ends with a line on standard error.
class Ending extends Error {
    constructor(status, line) {
        super(line);
        this.status = status;
    }
}

// The files inside the page.
export function inside(page = PAGE) {
    const found = /<script id="payload" type="text\/plain">([^<]*)</.exec(readFileSync(page, 'utf8'));
    return filesOf(found[1]);
}

// The bytes of a file; `name` is what is told where it can't be read.
function bytesOf(file, name = file) {
    try {
        const { size } = statSync(file);
        if (size > MOST) throw new Error('too large');
        return new Uint8Array(readFileSync(file));
    } catch {
        throw new Ending(READ, `read fault ${name}`);
    }
}

// The options of a command line, each with its value; the word without a dash as ''. Those of `more` may be left out.
function optionsOf(words, names, more = []) {
    const found = {};
    for (let at = 0; at < words.length; at++) {
        const [name, value] = words[at] === WHOLE ? [WHOLE, ''] : words[at].startsWith('-') ? words[at].split(/=(.*)/s) : ['', words[at]];
        if (![...names, ...more].includes(name) || name in found) throw new Ending(USED, `error: ${words[at]} isn't known here`);
        found[name] = value ?? words[++at];
    }
    for (const name of names) if (found[name] === undefined) throw new Ending(USED, `error: ${name || 'SOURCE'} is missing`);
    return found;
}

// Opens a new file beside an output, which is there or isn't: its name and its handle.
function drafted(file, found) {
    for (let number = 1; ; number++) {
        try {
            const draft = `${file}.unfinished-${number}`, handle = openSync(draft, 'wx');
            if (found) fchmodSync(handle, found.mode & 0o7777);
            return [draft, handle];
        } catch (error) {
            if (error.code !== 'EEXIST' || number === DRAFTS) throw error;
        }
    }
}

// Creates outputs, empty: each by what it is called. Where there are `drafts`, plain files are written beside their places, and told there.
function created(files, drafts = null) {
    return Object.fromEntries(Object.entries(files).map(([name, file]) => {
        try {
            const found = lstatSync(file, { throwIfNoEntry: false });
            if (drafts === null || found && !found.isFile()) return [name, openSync(file, 'w')];
            const [draft, handle] = drafted(file, found);
            drafts.push({ name, file, draft, handle });
            return [name, handle];
        } catch {
            throw new Ending(READ, `write fault ${name} after 0 bytes`);
        }
    }));
}

// Lets drafts take their places, which the system has written out.
function placed(drafts) {
    while (drafts.length > 0) {
        const { name, file, draft } = drafts[0];
        try {
            renameSync(draft, file);
        } catch {
            throw new Ending(READ, `write fault ${name}`);
        }
        drafts.shift();
    }
}

// Writes all of some bytes.
function written(name, file, bytes) {
    try {
        for (let at = 0; at < bytes.length;) at += writeSync(file, bytes, at);
    } catch {
        throw new Ending(READ, `write fault ${name}`);
    }
}

// The path of a file that a manifest names, past links that stay in its folder (docs/FORMATS.md); null where they leave it.
function pathOf(folder, name) {
    let left = name.split('/'), place = folder, depth = 0, links = MOST_LINKS;
    while (left.length > 0) {
        const [part, ...more] = left, there = `${place}/${part}`, isHere = part === '' || part === '.';
        const after = isHere ? depth : part === '..' ? depth - 1 : depth + 1;
        if (lstatSync(there, { throwIfNoEntry: false })?.isSymbolicLink()) {
            const text = readlinkSync(there);
            if (text.startsWith('/') || links === 0) return null;
            [left, links] = [[...text.split('/'), ...more], links - 1];
        } else if (after < 0) return null;
        else [place, depth, left] = [there, after, more];
    }
    return place;
}

// The files of a manifest beside it. Where the manifest is none, no file is read.
function filesBeside(manifest, text) {
    const folder = path.dirname(manifest);
    return namedFiles(text).map((name) => {
        const place = NAME.test(name) && !name.split('/').includes('..') ? pathOf(folder, name) : null;
        if (place === null || !statSync(place, { throwIfNoEntry: false })?.isFile()) throw new Ending(READ, `read fault ${name}`);
        return { name, bytes: bytesOf(place, name) };
    });
}

// A refusal as the program tells it.
function told(error) {
    if (!(error instanceof Fault)) return error;
    const isNamed = error.place && !(error.name === 'M1'); // (an M1 is told without its place)
    return new Ending(REFUSED, `refused ${error.name}${isNamed ? ` ${error.place}` : ''}`);
}

// What a source assembles to.
function assembled(assembler, source) {
    const { rom, listing, fault } = assembler.assemble(source);
    if (fault) throw new Ending(REFUSED, `refused ${fault.code} line ${fault.line}`);
    return { rom, listing };
}

// The head of a sound of so many samples.
export function waveHead(samples) {
    const head = Buffer.alloc(44);
    head.write('RIFF', 0, 'latin1');
    head.writeUInt32LE(36 + 2 * samples, 4);
    head.write('WAVEfmt ', 8, 'latin1');
    [16, 1 | 1 << 16, SAMPLE_RATE, 2 * SAMPLE_RATE, 2 | 16 << 16].forEach((field, at) => head.writeUInt32LE(field, 16 + 4 * at));
    head.write('data', 36, 'latin1');
    head.writeUInt32LE(2 * samples, 40);
    return head;
}

// A picture as a PPM image.
export function imageOf(rgba) {
    const image = Buffer.alloc(15 + 3 * WIDTH * HEIGHT);
    image.write(`P6\n${WIDTH} ${HEIGHT}\n255\n`, 'latin1');
    for (let from = 0, to = 15; from < rgba.length; from += 4, to += 3) {
        image[to] = rgba[from];
        image[to + 1] = rgba[from + 1];
        image[to + 2] = rgba[from + 2];
    }
    return image;
}

// Plays masks on a board: `heard` gets each frame's samples, `seen` each image. What stopped it, or nothing, and how many images came.
export function film(board, masks, heard, seen) {
    let images = 0;
    for (const [frame, mask] of masks.entries()) {
        board.hold(mask);
        const ran = board.run(FRAME_MICROSECONDS);
        heard(Buffer.from(ran.samples.buffer, ran.samples.byteOffset, ran.samples.byteLength));
        if (ran.pictures > 0) seen(imageOf(board.draw()));
        images += ran.pictures > 0 ? 1 : 0;
        if (ran.stop === 0) continue;
        heard(Buffer.alloc(2 * (FRAME_SAMPLES * (masks.length - frame) - ran.samples.length)));
        return { images, stop: ran };
    }
    return { images, stop: null };
}

// The report of a run.
function reportOf(board, frames, { images, stop }) {
    const { steps, ticks } = clocksOf(board);
    const end = stop === null ? 'end done' : stop.stop === 1 ? `stop S1 at ${hex(stop.pc)} bytes ${stop.bytes.map((byte) => hex(byte, 2)).join(' ')}`
        : `stop S2 at ${hex(stop.pc)} byte ${hex(stop.vector, 2)}`;
    return `frames ${images} of ${frames}\nsteps ${steps} ticks ${ticks}\n${end}\n`;
}

async function asm(words, files) {
    const options = optionsOf(words, ['', '--rom', '--listing']), source = bytesOf(options['']);
    const outputs = created({ rom: options['--rom'], listing: options['--listing'] });
    const { rom, listing } = assembled(await Assembler.of(files['pac_source.wasm']), source);
    written('rom', outputs.rom, rom);
    written('listing', outputs.listing, listing);
    return 0;
}

// Runs, and lets the outputs take their places; where it fails, none does.
async function run(words, files) {
    const drafts = [];
    try {
        const status = await ran(words, files, drafts);
        placed(drafts);
        return status;
    } finally {
        drafts.forEach(({ draft }) => unlinkSync(draft));
    }
}

async function ran(words, files, drafts) {
    const options = optionsOf(words, ['--set', '--script', '--frames', '--wave', '--listing'], ['--source', WHOLE]);
    const hasSource = '--source' in options;
    const [source, manifest, script] = ['--source', '--set', '--script'].map((name) => (name in options ? bytesOf(options[name]) : null));
    const parts = filesBeside(options['--set'], textOf(manifest));
    const places = { frames: options['--frames'], wave: options['--wave'], listing: options['--listing'] };
    const outputs = created(places, WHOLE in options ? drafts : null);
    const { rom, listing } = hasSource ? assembled(await Assembler.of(files['pac_source.wasm']), source) : NO_SOURCE;
    let set, masks;
    try {
        set = await setOf([{ name: 'set.toml', bytes: manifest }, ...parts], hasSource);
        masks = masksOf(Buffer.from(script).toString('latin1'));
    } catch (error) {
        throw told(error);
    }
    written('listing', outputs.listing, listing);
    const board = await Board.powerOn(files['pac_host.wasm'], Buffer.concat([rom, set.bytes]));
    written('wave', outputs.wave, waveHead(FRAME_SAMPLES * masks.length));
    const end = film(board, masks, (samples) => written('wave', outputs.wave, samples), (image) => written('frames', outputs.frames, image));
    process.stdout.write(reportOf(board, masks.length, end));
    drafts.forEach(({ handle }) => fsyncSync(handle));
    Object.values(outputs).forEach(closeSync);
    return end.stop === null ? 0 : STOPPED;
}

async function roms(words, files) {
    const options = optionsOf(words, ['--set', '--source', '-o']), [source, manifest] = ['--source', '--set'].map((name) => bytesOf(options[name]));
    const parts = filesBeside(options['--set'], textOf(manifest)), { rom } = assembled(await Assembler.of(files['pac_source.wasm']), source);
    const set = await setOf([{ name: 'set.toml', bytes: manifest }, ...parts], true).catch((error) => { throw told(error); });
    written('roms', created({ roms: options['-o'] }).roms, Buffer.concat([rom, set.bytes]));
    return 0;
}

async function main([name, ...words]) {
    const does = { asm, run, roms }[name];
    if (!does) throw new Ending(USED, 'error: the commands are asm, run and roms');
    return does(words, await inside());
}

if (process.argv[1] && realpathSync(process.argv[1]) === fileURLToPath(import.meta.url)) {
    process.exitCode = await main(process.argv.slice(2)).catch((error) => {
        if (!(error instanceof Ending)) throw error;
        console.error(error.message);
        return error.status;
    });
}
