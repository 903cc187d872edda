// Tries the assembler's module in node, as hosts/c/source.c tries the library for C.
//
//   node sources.mjs MODULE asm           assembles sources from standard input, each after its length in 4 bytes, the low one first, and
//                                         writes of each what the call answers, what it tells, the ROM and the listing
//   node sources.mjs MODULE dis FILE      disassembles a file of at most 65,536 bytes, as `pacboard dis` does
//   node sources.mjs MODULE refuse FILE.. refuses each call for memory that a source makes in turn: 5 has to be answered, and no block kept
//   node sources.mjs MODULE time FILE     tells how long a source takes, the least of 20 times, in milliseconds
//
// After each call no block of memory may be out, which hosts/web/source.js looks at.

import { readFileSync, writeSync } from 'node:fs';
import { Assembler, ROM_SIZE } from './source.js';

const [module, what, ...files] = process.argv.slice(2);
const assembler = await Assembler.load(readFileSync(module));
const TIMES = 20;

// Writes all of some bytes.
function write(bytes) {
    for (let at = 0; at < bytes.length; ) at += writeSync(1, bytes, at);
}

// Assembles sources from standard input.
function assembleAll() {
    const stream = readFileSync(0);
    for (let at = 0; at < stream.length; ) {
        const size = stream.readUInt32LE(at), head = Buffer.alloc(20);
        const made = assembler.assemble(stream.subarray(at + 4, at + 4 + size));
        at += 4 + size;
        head.writeUInt32LE(made.code, 0);
        head.writeBigUInt64LE(BigInt(made.listing?.length ?? 0), 4);
        head.writeUInt32LE(made.line, 12);
        head.writeUInt16LE(made.fault, 16);
        head.writeUInt16LE(made.token, 18);
        write(Buffer.concat([head, made.rom ?? Buffer.alloc(ROM_SIZE), made.listing ?? Buffer.alloc(0)]));
    }
}

// Disassembles a file.
function disassemble(file) {
    const code = readFileSync(file), lines = [];
    for (let at = 0; at < code.length; ) {
        const { size, text } = assembler.disassemble(code.subarray(at, at + 4), at);
        const bytes = code.subarray(at, at + size).toString('hex').toUpperCase();
        lines.push(`${at.toString(16).toUpperCase().padStart(4, '0')} ${bytes.padEnd(8)} ${text}\n`);
        at += size;
    }
    write(Buffer.from(lines.join('')));
}

// Refuses each call for memory that the assembly of a source makes.
function refuse(file) {
    const source = readFileSync(file);
    assembler.assemble(source);
    const calls = assembler.heap.asked;
    let wrong = 0;
    for (let call = 1; call <= calls; call++) {
        assembler.heap.refused = call;
        const made = assembler.assemble(source);
        wrong += made.code !== 5 || made.rom !== undefined;
    }
    assembler.heap.refused = 0;
    return [calls >= 2 && wrong === 0, `${file}: ${calls} calls for memory, each refused`];
}

// How long a source takes.
function spent(file) {
    const source = readFileSync(file);
    let least = Infinity;
    for (let time = 0; time < TIMES; time++) {
        const begun = process.hrtime.bigint();
        assembler.assemble(source);
        least = Math.min(least, Number(process.hrtime.bigint() - begun) / 1e6);
    }
    return `${file}: ${least.toFixed(2)} ms`;
}

if (what === 'asm') assembleAll();
else if (what === 'dis') disassemble(files[0]);
else if (what === 'time') console.log(spent(files[0]));
else {
    const rows = files.map(refuse);
    for (const [isSo, told] of rows) console.log(isSo ? told : `FAILED: ${told}`);
    const passed = rows.filter(([isSo]) => isSo).length;
    console.log(`${passed} passed, ${rows.length - passed} failed`);
}
