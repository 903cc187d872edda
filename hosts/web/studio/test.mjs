// Tries in node what the studio is made of, with the modules inside its page, against the built program: tools/check/studio calls it.
//
//     node hosts/web/studio/test.mjs PAGE PACBOARD FOLDER
//
// FOLDER has rows.json, more.json and files.json, which tools/lib/faulty.py lays there: sources, scripts and manifests with the faults and the
// likely causes that bin/explain has for them. The last line is `N passed, M failed`.

import { createHash } from 'node:crypto';
import { existsSync, mkdirSync, readFileSync, writeFileSync } from 'node:fs';
import path from 'node:path';
import { spawnSync } from 'node:child_process';
import { Board, FRAME_SAMPLES, Refused } from '../board.js';
import { Assembler } from './assembler.js';
import { bytesOf, deflated, equal, inflated, linkable, textOf, unbase64 } from './bytes.js';
import { causesOf, meaningOf } from './causes.js';
import { film, inside, waveHead } from './command.mjs';
import { faultsOf } from './faults.js';
import { taken } from './files.js';
import { Listing } from './listing.js';
import { marked } from './marks.js';
import { fragmentOf, fromFragment } from './outputs.js';
import { payloadOf, filesOf } from './payload.js';
import { setOf } from './set.js';
import { Tape, masksOf, scriptOf } from './tape.js';
import { moments } from './moments.mjs';
import { sessions } from './sessions.mjs';
import { ways } from './ways.mjs';

const [PAGE, PACBOARD, FOLDER] = process.argv.slice(2);
const ROOT = path.resolve(path.dirname(PAGE), '..');
const EXAMPLES = ['starfall', 'hello', 'welcome', 'sunset'];
const RANDOM = 1000, SCRIPTS = 100;

let passed = 0, failed = 0;

function row(what, isSo, told = '') {
    if (isSo) passed++;
    else failed++;
    console.log(isSo ? what : `FAILED: ${what}${told ? `: ${told}` : ''}`);
}

// Numbers that come in the same order each time.
function numbers(seed) {
    let state = seed;
    return (below) => {
        state = Math.imul(state ^ state >>> 15, 0x2c1b3c6d) + 0x9e3779b9 | 0;
        return ((state ^ state >>> 13) >>> 0) % below;
    };
}

const example = (name, end) => readFileSync(path.join(ROOT, `examples/${name}.${end}`));
const at = (name) => path.join(FOLDER, name);
const pacboard = (...words) => spawnSync(PACBOARD, words, { maxBuffer: 1 << 26 });

// What the program makes of a source: its ROM and its listing, or the line of its fault.
function assembledByProgram(source) {
    writeFileSync(at('source'), source);
    const { status, stderr } = pacboard('asm', at('source'), '--rom', at('rom'), '--listing', at('listing'));
    return status === 0 ? { rom: readFileSync(at('rom')), listing: readFileSync(at('listing')) } : { fault: stderr.toString().trim() };
}

// Whether the module makes the same of a source.
function isSame(assembler, source) {
    const wanted = assembledByProgram(source), { rom, listing, fault } = assembler.assemble(new Uint8Array(source));
    if (fault) return wanted.fault === `refused ${fault.code} line ${fault.line}`;
    return wanted.fault === undefined && equal(rom, wanted.rom) && equal(listing, wanted.listing);
}

// Sources of the table, of the examples, and such as come of the examples by chance.
function sources(assembler, rows) {
    const wrong = rows.filter(({ source }) => !isSame(assembler, Buffer.from(source, 'latin1')));
    row(`${rows.length} sources of tools/check/sources: ROM, listing and fault are the program's`, rows.length > 300 && wrong.length === 0,
        JSON.stringify(wrong[0])?.slice(0, 300));
    for (const name of EXAMPLES) row(`${name}: ROM and listing are the program's`, isSame(assembler, example(name, 'asm')));
    const chance = numbers(7), lines = EXAMPLES.flatMap((name) => example(name, 'asm').toString().split('\n'));
    let faults = 0, others = 0;
    for (let turn = 0; turn < RANDOM; turn++) {
        const whole = example(EXAMPLES[chance(EXAMPLES.length)], 'asm').toString().split('\n');
        const some = chance(4) ? whole : Array.from({ length: 1 + chance(30) }, () => lines[chance(lines.length)]);
        for (let edits = chance(3); edits > 0; edits--) some[chance(some.length)] = chance(2) ? '        NOP' : lines[chance(lines.length)];
        let text = some.join('\n').replace(/\b\d\b/g, (digit) => (chance(100) ? digit : String(chance(400))));
        if (chance(5) === 0) text = text.slice(0, chance(text.length)) + String.fromCharCode(chance(256)) + text.slice(chance(text.length));
        const source = Buffer.from(text, 'latin1');
        faults += assembler.assemble(new Uint8Array(source)).fault ? 1 : 0;
        others += isSame(assembler, source) ? 0 : 1;
    }
    row(`${RANDOM} sources by chance, of which ${faults} are refused: the program says the same of each`, others === 0 && faults > 100
        && faults < RANDOM - 100, String(others));
    row('no memory is out after them', assembler.isClean, String(assembler.isClean));
    const long = Array.from({ length: 65535 }, (_, line) => (line < 16000 ? '        NOP' : `; line ${line}`)).join('\n'), since = performance.now();
    const { fault, listing } = assembler.assemble(bytesOf(long));
    row('65,535 lines', !fault && listing.length > 65535 * 21);
    console.log(`65,535 lines in ${(performance.now() - since).toFixed(0)} ms`);
    const most = assembler.assemble(bytesOf('\n'.repeat(65536))).fault;
    row('65,536 lines are A7', most?.code === 'A7' && most.line === 65536);
}

// The disassembler, over bytes by chance.
function disassembly(assembler) {
    const chance = numbers(11), bytes = Uint8Array.from({ length: 65536 }, () => chance(256));
    for (let at = 0; at < 4096; at += 4) bytes.set([[0xcb, 0xdd, 0xed, 0xfd][at >> 2 & 3], at >> 4 & 255], at);
    writeFileSync(at('bytes'), bytes);
    const wanted = pacboard('dis', at('bytes')).stdout.toString().trimEnd().split('\n');
    let place = 0;
    const others = wanted.filter((line) => {
        const { text, size } = assembler.disassembled(bytes.subarray(place, place + 4), place), address = place;
        place += size;
        const digits = Array.from(bytes.subarray(address, place), (byte) => byte.toString(16).toUpperCase().padStart(2, '0')).join('');
        return line !== `${address.toString(16).toUpperCase().padStart(4, '0')} ${digits.padEnd(8)} ${text}`;
    });
    row(`${wanted.length} instructions are disassembled as the program does it`, others.length === 0 && wanted.length > 20000, others[0]);
}

// The films, sounds, listings and reports of the examples, by their sums.
async function films(files, assembler) {
    const sums = Object.fromEntries(readFileSync(path.join(ROOT, 'examples/outputs.sha1'),
        'utf8').trim().split('\n').map((line) => line.split('  ').reverse()));
    for (const name of EXAMPLES) {
        const { rom, listing } = assembler.assemble(new Uint8Array(example(name, 'asm'))), masks = masksOf(example(name, 'script').toString());
        const board = await Board.powerOn(files['pac_host.wasm'], Buffer.concat([rom, files.set]));
        const frames = createHash('sha1'), wave = createHash('sha1').update(waveHead(FRAME_SAMPLES * masks.length));
        film(board, masks, (samples) => wave.update(samples), (image) => frames.update(image));
        row(`${name}: the film`, frames.digest('hex') === sums[`${name}/frames.ppm`]);
        row(`${name}: the sound`, wave.digest('hex') === sums[`${name}/wave.wav`]);
        row(`${name}: the listing`, createHash('sha1').update(listing).digest('hex') === sums[`${name}/listing.txt`]);
    }
}

// What the processor would read.
async function looks(files) {
    const roms = Buffer.concat([files['starfall.rom'], files.set]), board = await Board.powerOn(files['pac_host.wasm'], roms);
    board.hold(1);
    for (let frame = 0; frame < 10; frame++) board.run(16500);
    const before = board.block, memory = board.peek(0, 0x8000);
    row('a look at the memory: program, RAM, inputs, switches', Buffer.from(memory.subarray(0, 0x4000)).equals(roms.subarray(0, 0x4000))
        && equal(memory.subarray(0x4c00, 0x5000), before.subarray(2130, 3154)) && memory[0x5000] === 0xfe && memory[0x5080] === 0xc9
            && memory[0x4800] === 0xbf);
    row('which changes nothing, and goes round', equal(board.block, before) && equal(board.peek(0xffff, 2).subarray(1), memory.subarray(0, 1)));
}

// What listings tell beside the lines.
function listings(assembler) {
    for (const name of EXAMPLES) {
        const source = example(name, 'asm'), { listing } = assembler.assemble(new Uint8Array(source));
        writeFileSync(at('listing'), listing);
        const read = new Listing(textOf(listing), source.toString().split('\n'));
        const ticks = spawnSync('python3', [path.join(ROOT, 'bin/symbols'), '--ticks', at('listing')], { encoding: 'utf8' }).stdout.split('\n');
        const others = ticks.filter((line) => /^\d{5} [0-9A-F]{4}/.test(line)).filter((line) => {
            const found = read.lines[Number(line.slice(0, 5))];
            return found.ticks !== line.slice(20, 25).trim() || found.address !== parseInt(line.slice(6, 10), 16);
        });
        row(`${name}: addresses and T-states are those of bin/symbols`, others.length === 0, others[0]);
        const symbols = spawnSync('python3', [path.join(ROOT, 'bin/symbols'), at('listing')], { encoding: 'utf8' }).stdout.trimEnd().split('\n');
        row(`${name}: and so are the symbols`, symbols.every((line, place) => line.split(' ')[0] === [...read.symbols.keys()][place]));
    }
    const lines = EXAMPLES.flatMap((name) => example(name, 'asm').toString().split('\n'));
    row('marked words are the line', lines.every((line) => marked(line).map(([, text]) => text).join('') === line));
}

// What is said of faults: what bin/explain says.
function causes(rows) {
    const faults = rows.filter(({ fault }) => fault), others = [];
    for (const { source, fault, causes: wanted } of faults) {
        const [, code, line] = /^refused (A\d+(?: L\d)?) line (\d+)$/.exec(fault), said = causesOf(code, Buffer.from(source, 'latin1'), Number(line));
        if (said.join('\n') !== wanted.join('\n') || !meaningOf(code)) others.push({ code, line: source.split('\n')[line - 1]?.slice(0, 60), said, wanted });
    }
    const silent = faults.filter(({ fault, causes: wanted }) => wanted.length === 0 && !fault.startsWith('refused A7 '));
    row(`causes of ${faults.length} faults: those of bin/explain`, faults.length > 700 && others.length === 0, `${others.length}: ${JSON.stringify(others.slice(0, 6))}`);
    row('each has one', silent.length === 0, JSON.stringify(silent.slice(0, 6)));
}

// All faults of sources with some of them: those of bin/explain, with their causes.
function moreFaults(rows, assembler) {
    const others = rows.filter(({ source, faults }) => {
        const told = faultsOf(assembler, Buffer.from(source, 'latin1')).map(({ code, line, causes: said }) => [code, line, said]);
        return JSON.stringify(told) !== JSON.stringify(faults);
    });
    const count = rows.reduce((sum, { faults }) => sum + faults.length, 0);
    row(`${count} faults of ${rows.length} sources: those of bin/explain`, count > 2 * rows.length && rows.length > 100 && others.length === 0,
        JSON.stringify(others.slice(0, 2))?.slice(0, 500));
}

// What is said of scripts and manifests that are refused.
async function causesOfFiles(files) {
    for (const { kind, code, text, line, causes: wanted } of files) {
        const parts = [...text.matchAll(/file = "(.*?)"/g)].map(([, name]) => name).filter((name) => existsSync(at(name)));
        const set = [['set.toml', bytesOf(text)], ...parts.map((name) => [name, new Uint8Array(readFileSync(at(name)))])];
        const refused = kind === 'script' ? taken([{ name: 'some.script', bytes: bytesOf(text) }])
            : setOf(set.map(([name, bytes]) => ({ name, bytes })), true);
        const told = await refused.then(() => null, (error) => error), head = `some.script, line ${line}: ${meaningOf(code)}; `;
        const isSo = told?.name === code && told.message === (kind === 'script' ? head : '') + wanted.join('; ') && wanted.length > 0;
        row(`a ${kind} that is ${code}, as bin/explain says it`, isSo, `${told?.name} ${told?.message}, not ${wanted.join('; ')}`);
    }
}

// Scripts, sets and what is packed.
async function inputs(files) {
    const chance = numbers(3), words = ['10 -', '5 P1_LEFT', '# no', '', ' 7\tP1_UP,START1 ', '36000 -', '0 -', '5 P1_UPP', '5', '5 - -',
        '1 COIN1\r', '007 CREDIT', '99999 -'];
    let others = 0;
    writeFileSync(at('hello.asm'), example('hello', 'asm'));
    for (let turn = 0; turn < SCRIPTS; turn++) {
        const text = Array.from({ length: chance(8) }, () => words[chance(turn % 2 ? 5 : words.length)]).join('\n');
        writeFileSync(at('some.script'), text);
        const { status, stdout, stderr } = pacboard('run', '--set', path.join(ROOT, 'examples/set.toml'), '--source', at('hello.asm'), '--script',
            at('some.script'),
            '--frames', '/dev/null', '--wave', '/dev/null', '--listing', '/dev/null');
        let told;
        try {
            told = `frames ${masksOf(text).length} of`;
        } catch (error) {
            told = `refused ${error.name} ${error.place}`;
        }
        others += (status === 0 ? stdout : stderr).toString().startsWith(told) ? 0 : 1;
    }
    row(`${SCRIPTS} scripts: as long as the program has them, or refused as it does`, others === 0, String(others));
    const masks = Array.from({ length: 5000 }, () => chance(4) * 2 ** chance(15) & 0xffff);
    row('a tape as a script, and read again', masksOf(scriptOf(Uint16Array.from(masks))).join() === masks.join());
    const tape = new Tape(masks);
    tape.cut(4000);
    for (let frame = 0; frame < 3000; frame++) tape.add(frame & 15);
    row('a tape that is cut and goes on', tape.length === 7000 && tape.at(3999) === masks[3999] && tape.at(4017) === 1 && tape.at(7000) === 0);
    const names = ['set.toml', 'tiles.rom', 'sprites.rom', 'colours.prom', 'lookup.prom', 'wave.prom'];
    const set = names.map((name) => ({ name, bytes: new Uint8Array(readFileSync(path.join(ROOT, 'examples', name))) }));
    row("the examples' set by its manifest", equal((await setOf(set, true)).bytes, files.set));
    set[1].bytes[5] ^= 1;
    row('another tile is M4', (await setOf(set, true).catch((error) => error)).name === 'M4');
    row('a source among files', (await taken([{ name: 'a/b.asm', bytes: bytesOf('NOP\r\n') }])).source.text === 'NOP\n');
    const some = Uint8Array.from(masks), packed = await deflated(some);
    row('packed and unpacked', equal(await inflated(packed), some) && equal(unbase64(linkable(packed)), packed));
    row('no more is unpacked than is taken', (await inflated(packed, 100).catch((error) => error)).name === 'too large');
    const linked = await fromFragment(await fragmentOf('; ÄÖ\n NOP\n', Uint16Array.from([1, 1, 2])));
    row('a link', linked.source === '; ÄÖ\n NOP\n' && masksOf(linked.script).join() === '1,1,2');
    for (const fragment of ['#source=%%%', '#source=AAAA', '#source=']) {
        const told = await fromFragment(fragment).then((found) => (found === null ? 'nothing' : found.source === '' ? 'empty' : 'taken'),
            (error) => error.name);
        row(`the link ${fragment} is refused`, ['damaged', 'empty', 'no source'].includes(told), told);
    }
    const again = await filesOf(await payloadOf({ a: some, b: bytesOf('b') }));
    row('a payload', equal(again.a, some) && textOf(again.b) === 'b');
}

// A manifest with a program of its own, that of an example, and the rest of the examples' set.
function setWithProgram() {
    const { rom } = assembledByProgram(example('hello', 'asm')), text = example('set', 'toml').toString();
    for (const [, name] of text.matchAll(/file = "(.*)"/g)) writeFileSync(at(name), readFileSync(path.join(ROOT, 'examples', name)));
    const tables = [1, 2, 3, 4].map((quarter) => {
        writeFileSync(at(`${quarter}.rom`), rom.subarray(4096 * (quarter - 1), 4096 * quarter));
        return `[[program]]\nfile = "${quarter}.rom"\n`;
    });
    writeFileSync(at('own.toml'), tables.join('') + text);
    return at('own.toml');
}

// `run` of hosts/web/studio/command.mjs, as a program.
function commands() {
    const command = path.join(ROOT, 'hosts/web/studio/command.mjs'), set = path.join(ROOT, 'examples/set.toml');
    const bad = at('bad.asm'), stops = at('stops.asm'), script = at('short.script');
    writeFileSync(bad, 'NOP\n JP NOWHERE\n');
    writeFileSync(stops, '        LD BC,5000\nCOUNT:  DEC BC\n        LD A,B\n        OR C\n        JR NZ,COUNT\n        DEFB 0EDH,00H\n');
    writeFileSync(script, '5 -\n');
    writeFileSync(at('bad.script'), '5 -\n5 NONE\n');
    writeFileSync(at('none.toml'), 'tiles =\n');
    writeFileSync(at('missing.toml'), '[tiles]\nfile = "none.rom"\n');
    const run = (source, some = script, manifest = set) => ['run', '--set', manifest, '--script', some, '--source', source];
    const own = ['run', '--set', setWithProgram(), '--script', script];
    const rows = [
        run(path.join(ROOT, 'examples/welcome.asm'), path.join(ROOT, 'examples/welcome.script')), run(stops), run(bad), run(at('nowhere.asm')),
        own, [...own, '--whole'], [...run(bad), '--whole'], run(stops, script, own[2]), ['run', '--script', script, '--set', set],
        run(stops, at('bad.script')), run(stops, script, at('none.toml')), run(stops, script, at('missing.toml')), run(stops, at('nowhere.script')),
    ];
    for (const [number, words] of rows.entries()) {
        const [ours, theirs] = [[process.execPath, command], [PACBOARD]].map(([program, ...head], which) => {
            const folder = at(`${number}-${which}`);
            mkdirSync(folder, { recursive: true });
            const outputs = ['frames', 'wave', 'listing'].flatMap((name) => [`--${name}`, path.join(folder, name)]);
            const { status, stdout, stderr } = spawnSync(program, [...head, ...words, ...outputs]);
            const made = ['frames', 'wave', 'listing'].map((name) => { try { return readFileSync(path.join(folder,
                name)).toString('latin1'); } catch { return null; } });
            return JSON.stringify([status, stdout.toString(), stderr.toString(), made.map((one) => one
                && createHash('sha1').update(one).digest('hex'))]);
        });
        row(`command.mjs ${words.slice(0, 1)} of ${path.basename(words.at(-1))}, ${path.basename(words[4])}, ${path.basename(words[2])}: as pacboard`, ours === theirs, `${ours} ${theirs}`);
    }
}

async function main() {
    const files = await inside(PAGE), assembler = await Assembler.of(files['pac_source.wasm']),
        rows = JSON.parse(readFileSync(at('rows.json'), 'utf8'));
    await films(files, assembler);
    await looks(files);
    sources(assembler, rows);
    disassembly(assembler);
    listings(assembler);
    causes(rows);
    moreFaults(JSON.parse(readFileSync(at('more.json'), 'utf8')), assembler);
    await causesOfFiles(JSON.parse(readFileSync(at('files.json'), 'utf8')));
    await inputs(files);
    await moments(files, assembler, { example, pacboard, at, row, ROOT });
    await sessions(files, assembler, { example, row });
    await ways(files, assembler, { example, row });
    commands();
    row('what is refused by the board has a code', new Refused(4).code === 4);
}

main().catch((error) => row('the tests come to their end', false, error.stack)).finally(() => {
    console.log(`${passed} passed, ${failed} failed`);
    process.exitCode = failed ? 1 : 0;
});
