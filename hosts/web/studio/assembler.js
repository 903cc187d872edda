// The proved assembler and disassembler as the studio wants them: a fault as a code and a line, and one that is made anew where it has failed.

import { hex } from './bytes.js';
import { Assembler as Source } from '../source.js';

const DONE = 0, MEMORY = 5, FAULT = 6; // what an assembly answers

export class Assembler {
    // The assembler of a module's bytes; where there are none, one that isn't there.
    static async of(module) {
        const made = new Assembler();
        made.module = module;
        await made.load();
        return made;
    }

    async load() {
        this.source = this.module ? await Source.load(this.module) : null;
    }

    get isThere() {
        return this.source !== null && !this.source.isBroken;
    }

    // Whether the last call has given back all memory that it took.
    get isClean() {
        return this.source.heap.out === 0;
    }

    // What the bytes of a source assemble to: { rom, listing }, or { fault: { code, line } }.
    assemble(bytes) {
        const { code, rom, listing, line, fault, token } = this.source.assemble(bytes);
        if (code === DONE) return { rom, listing };
        if (code === FAULT) return { fault: { code: `A${fault}${token === 0 ? '' : ` L${token}`}`, line } };
        throw new Error(code === MEMORY ? 'there is too little memory for this source' : `the assembler answers ${code}`);
    }

    // The text of the instruction with which bytes begin, the first of them at an address, and its size.
    disassembled(bytes, address) {
        if (!this.isThere) return { text: `DEFB ${hex(bytes[0], 2)}H`, size: 1 };
        return this.source.disassemble(bytes, address);
    }
}
