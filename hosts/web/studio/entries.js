// The ways into the studio: files that are opened or dropped, and those that ./play sends.

import { bytesOf, Fault, hex } from './bytes.js';
import { meaningOf } from './causes.js';
import { readFile, stemOf, taken } from './files.js';
import { refuse, tell } from './parts.js';

const PROGRAM = 16384; // bytes of a ROM block that are the program

export class Entries {
    constructor(studio) {
        this.studio = studio;
    }

    // Takes files that somebody has opened or dropped.
    async opens(files) {
        try {
            await this.takes(await taken(await Promise.all(files.map(readFile))));
        } catch (error) {
            refuse(error);
        }
    }

    // Takes what files have in them, all of it or nothing.
    async takes({ source, script, state, set, program }, isQuiet = false) {
        const { studio } = this, { session } = studio, kept = studio.set, text = source?.text ?? studio.editor.text;
        const own = set?.hasProgram ? set.bytes.slice(0, PROGRAM) : program?.bytes ?? null;
        if (set) studio.set = set.hasProgram ? set.bytes.slice(PROGRAM) : set.bytes;
        try {
            if (state) await this.loads(state, source, own, script?.masks ?? []);
            else if (source) await studio.begin(stemOf(source.name), text, script?.masks ?? [], { isDemo: isQuiet && script !== undefined });
            else if (own) await studio.begin(program ? stemOf(program.name) : 'set', this.sourceOfRom(own), script?.masks ?? [], { rom: own });
            else session.begin(studio.romsOf(session.roms.slice(0, PROGRAM)), script?.masks ?? session.tape.all());
        } catch (error) {
            studio.set = kept;
            throw error;
        }
        const names = [source, script, state, set && { name: 'a set' }, program].filter(Boolean).map(({ name }) => name);
        if (!isQuiet) tell('Opened', names.join(', '));
        if (!studio.loop.isPlaying) studio.deck.play();
    }

    // A source for a program that came as bytes.
    sourceOfRom(rom) {
        const rows = ['; A program that came as bytes.', ''];
        for (let row = 0; row < rom.length; row += 16) rows.push(`        DEFB ${Array.from(rom.subarray(row, row + 16), (byte) => `0${hex(byte, 2)}H`).join(',')}`);
        return `${rows.join('\n')}\n`;
    }

    // Goes on from a state file, under a source or a program where one came with it; refused before anything is changed.
    async loads({ name, bytes }, source, program, masks) {
        const { studio } = this, { session } = studio, { probe } = session;
        const rom = source ? studio.assembler.assemble(bytesOf(source.text)).rom : program ?? session.roms.slice(0, PROGRAM);
        if (!rom) throw new Fault('refused', `${source.name} has a fault, so the state has no program: open it alone to see which`);
        const roms = studio.romsOf(rom);
        probe.begin(roms);
        try {
            probe.load(bytes);
        } catch (error) {
            const code = /V\d/.exec(error.message)?.[0];
            throw code ? new Fault(code, `${name}: ${meaningOf(code)}`) : error;
        }
        const start = probe.block;
        if (source) await studio.begin(stemOf(source.name), source.text);
        session.begin(roms, masks, { start });
    }

    // What ./play sends: the source, its script and its set as they are on the disk.
    async follows(files, { isFirst, places, refused }) {
        const { studio } = this;
        if (refused !== null) {
            studio.untranslated(refused);
            this.isLate = isFirst || this.isLate;
            return;
        }
        try {
            const found = await taken(files), isNew = isFirst || this.isLate || !found.source || found.set !== undefined;
            this.isLate = false;
            studio.places = places;
            if (isNew) await this.takes(found, true);
            else if (found.source.text !== studio.editor.text) {
                studio.editor.replace(found.source.text);
                studio.isChanged = false;
                await studio.assemble();
            }
        } catch (error) {
            refuse(error);
        }
    }
}
