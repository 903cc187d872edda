// What nobody means well by, handed to the studio: each is refused by name and cause, nothing of it runs, and the page goes on.

import { constants, deflateRawSync } from 'node:zlib';

const GIGABYTE = 1 << 30, PIECE = 1 << 20;
const MARKUP = '<img src=x onerror=window.hacked=1>';

// A gigabyte of zeros, deflated: a piece again and again, which hangs on none before it.
function gigabyteOfZeros() {
    const piece = deflateRawSync(Buffer.alloc(PIECE), { level: 9, finishFlush: constants.Z_FULL_FLUSH });
    return Buffer.concat([...Array(GIGABYTE / PIECE).fill(piece), Buffer.from([3, 0])]);
}

// A zip of files: each a name, its bytes as they are packed, how, and the size that is told.
export function zipOf(files) {
    const pieces = [], list = [];
    let at = 0;
    for (const { name, packed, method = 8, size } of files) {
        const path = Buffer.from(name), local = Buffer.alloc(30), entry = Buffer.alloc(46);
        local.writeUInt32LE(0x04034b50, 0);
        local.writeUInt16LE(method, 8);
        local.writeUInt32LE(packed.length, 18);
        local.writeUInt32LE(size, 22);
        local.writeUInt16LE(path.length, 26);
        entry.writeUInt32LE(0x02014b50, 0);
        entry.writeUInt16LE(method, 10);
        entry.writeUInt32LE(packed.length, 20);
        entry.writeUInt32LE(size, 24);
        entry.writeUInt16LE(path.length, 28);
        entry.writeUInt32LE(at, 42);
        pieces.push(local, path, packed);
        list.push(entry, path);
        at += local.length + path.length + packed.length;
    }
    const end = Buffer.alloc(22), head = Buffer.concat(list);
    end.writeUInt32LE(0x06054b50, 0);
    end.writeUInt16LE(files.length, 8);
    end.writeUInt16LE(files.length, 10);
    end.writeUInt32LE(head.length, 12);
    end.writeUInt32LE(at, 16);
    return Buffer.concat([...pieces, head, end]);
}

const stored = (name, bytes) => ({ name, packed: Buffer.from(bytes), method: 0, size: bytes.length });

// What is handed over: a name for it, files, and what the page has to say in front of the cause, and in it.
function rows() {
    const zeros = gigabyteOfZeros(), manifest = '[tiles]\nfile = "tiles.rom"\n';
    const dumps = [['a.6e', 4096], ['a.6f', 4096], ['a.6h', 4096], ['a.6j', 4096], ['a.5e', 4096], ['a.5f', 4096], ['a.7f', 32], ['a.4a', 256],
        ['a.1m', 256]];
    return [
        ['a zip of 1 GB of zeros', { 'zeros.zip': zipOf([{ name: 'zeros.asm', packed: zeros, size: GIGABYTE }]) }, 'too large',
            'zeros.asm in zeros.zip'],
        ['one that says it has 4,096 bytes', { 'zeros.zip': zipOf([{ name: 'zeros.5e', packed: zeros, size: 4096 }]) }, 'too large',
            'zeros.5e in zeros.zip'],
        ['a zip that is cut', { 'cut.zip': zipOf([stored('a.asm', 'NOP\n')]).subarray(0, 60) }, 'no zip', 'cut.zip'],
        ['a zip whose list is another', { 'list.zip': Buffer.concat([zipOf([stored('a.asm', 'NOP\n')]).subarray(0, -6),
            Buffer.from([255, 255, 255, 255, 0, 0])]) }, '', 'list.zip'],
        ['a zip with many files', { 'many.zip': zipOf(Array.from({ length: 300 }, (_, at) => stored(`${at}.asm`, 'NOP\n'))) }, 'too many',
            'many.zip'],
        ['a zip with markup for a name', { 'mine.zip': zipOf([stored(MARKUP, 'x')]) }, 'unknown', MARKUP],
        ['a name of markup', { [`${MARKUP}.txt`]: 'x' }, 'unknown', MARKUP],
        ['a script with a fault', { 'mine.script': '10 -\n5 P1_UPP\n' }, 'I1', 'line 2'],
        ['a script of markup', { 'mine.script': MARKUP }, 'I2', 'line 1'],
        ['a script of 36,001 frames', { 'mine.script': '36000 -\n1 -\n' }, 'I3', 'line 2'],
        ['a source of zeros', { 'mine.asm': Buffer.alloc(100) }, 'no source', 'mine.asm'],
        ['a source of 65,536 lines', { 'mine.asm': '\n'.repeat(65536) }, 'A7', '65,536'],
        ['two sources', { 'a.asm': 'NOP\n', 'b.asm': 'NOP\n' }, 'two sources', 'b.asm'],
        ['a state of another length', { 'mine.state': 'PACSTATE' }, 'V3', 'mine.state'],
        ['a state that is none', { 'mine.state': Buffer.alloc(67756) }, 'V1', 'mine.state'],
        ['a manifest that is none', { 'set.toml': MARKUP }, 'M1', 'line 1'],
        ['a manifest with a file that is missing', { 'set.toml': `${manifest}[sprites]\nfile = "s"\n[colours]\nfile = "c"\n[lookup]\nfile = "l"\n[wave]\nfile = "w"\n` }, 'M5', 'tiles.rom'],
        ['a manifest without a part', { 'set.toml': manifest }, 'M2', 'sprites'],
        ['dumps without the last', Object.fromEntries(dumps.slice(0, 8).map(([name, size]) => [name, Buffer.alloc(size)])), 'M2', 'wave'],
        ['a dump of another size', Object.fromEntries(dumps.map(([name, size], at) => [name, Buffer.alloc(size + (at === 6 ? 1 : 0))])), 'M3',
            'colours'],
        ['half of a program', Object.fromEntries(dumps.slice(1).map(([name, size]) => [name, Buffer.alloc(size)])), 'M2', 'program1'],
    ];
}

// Hands all of it over.
export async function hostile(page, row) {
    const before = await page.value('studio.editor.text'), { roms } = await page.value('({ roms: Array.from(studio.session.roms).join().length })');
    for (const [what, files, name, cause] of rows()) {
        const told = await page.hand(files);
        row(`${what} is refused by name`, told.startsWith(name) && told.includes(cause), told);
    }
    row('nothing of it runs, and nothing is an element', await page.value("window.hacked === undefined && document.querySelectorAll('img').length === 0"));
    row('what was there stays', (await page.value('studio.editor.text')) === before
        && (await page.value('Array.from(studio.session.roms).join().length')) === roms);
    await page.value(`studio.begin(${JSON.stringify(MARKUP)}, ${JSON.stringify(`; ${MARKUP}\nX: JR X\n${MARKUP}\n`)})`);
    await page.until("!document.getElementById('problem').hidden");
    row('a source of markup is text, and refused', await page.value("window.hacked === undefined && document.querySelectorAll('img').length === 0"));
    const lines = Array.from({ length: 65535 }, (_, at) => (at < 16000 ? '        NOP' : `; line ${at + 1}`)).join('\n');
    const since = Date.now();
    await page.hand({ 'long.asm': lines });
    await page.until("document.getElementById('assembled').textContent.includes('16,000 of 16,384')");
    console.log(`65,535 lines: ${Date.now() - since} ms; ${await page.value("document.getElementById('assembled').textContent")}`);
    await page.value('(studio.editor.show(60000), new Promise((then) => requestAnimationFrame(() => requestAnimationFrame(then))))');
    row('of 65,535 lines those that are seen are drawn', await page.value("document.querySelectorAll('.view .row').length < 120 && document.querySelector('.view').textContent.includes('line 60005')"));
    await page.value("studio.begin('hello', new TextDecoder().decode(studio.files['hello.asm']))");
    const { frames } = await page.value('({ frames: studio.loop.frames })');
    await page.until(`studio.loop.frames > ${frames} + 20`);
    row('the page goes on', await page.value('studio.session.run.canGo'));
}

