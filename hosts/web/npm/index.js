// The proved board and assembler as a package: hosts/web/board.js and source.js, with the modules beside this file.

import { Board, SWITCHES } from './board.js';
import { Assembler } from './source.js';

export {
    Board, FRAME_MICROSECONDS, FRAME_SAMPLES, HEIGHT, INPUTS, Refused, SAMPLE_RATE, SWITCHES, Trapped, WIDTH, canRun,
} from './board.js';
export { Assembler, Broken, CODES, ROM_SIZE, faultText } from './source.js';

// The bytes of a module: from the file where this one is a file, as in node, and else from where this one came from.
async function bytesOf(place) {
    if (place.protocol === 'file:') {
        const { readFile } = await import('node:fs/promises');
        return new Uint8Array(await readFile(place));
    }
    const answer = await fetch(place);
    if (!answer.ok) throw new Error(`${place}: ${answer.status}`);
    return new Uint8Array(await answer.arrayBuffer());
}

// A board at power-on, with a ROM block.
export async function board(roms, switches = SWITCHES) {
    return Board.powerOn(await bytesOf(new URL('./pac_host.wasm', import.meta.url)), roms, switches);
}

// The assembler.
export async function assembler() {
    return Assembler.load(await bytesOf(new URL('./pac_source.wasm', import.meta.url)));
}
