// What shows at a pixel: asked of the board, by changing what might, and looking whether the pixel changes.

import { WIDTH } from '../board.js';
import { LINE_TICKS } from './run.js';
import { PLACES } from './tables.js';

const LOOKUP = 16384 + 4096 + 4096 + 32; // where a ROM block has its palettes
const PALETTES = 32, SPRITES = 8, CELLS = 1024;
const BEFORE = 60, AFTER = 100; // T-states: from before the moment at which a line is drawn to after it
const ONE = 1, OTHER = 2; // colour numbers
const SHAPES = PLACES.AT_WORK_RAM + 0x3f0;

// Goes to the moment before the line with this pixel was drawn, for the picture that a run shows.
function goBefore(run, y) {
    const tick = LINE_TICKS * (41 + y) - BEFORE, isOfThis = run.inside > tick + AFTER;
    if (!isOfThis && run.frame === 0) return false;
    run.go(isOfThis ? run.frame : run.frame - 1, tick);
    return run.canGo;
}

// The colour number of a pixel that comes of a block with this ROM block.
function pixelAfter(run, block, roms, at) {
    run.board.sockets = roms;
    run.board.block = block;
    run.board.until(AFTER);
    return run.board.block[PLACES.AT_PICTURE + at];
}

// A ROM block whose palettes are made anew: each colour number by its palette's number, its own place in it, and the one that was there.
function repainted(roms, paint) {
    const other = roms.slice();
    for (let entry = 0; entry < 4 * PALETTES; entry++) other[LOOKUP + entry] = paint(entry >> 2, entry & 3, roms[LOOKUP + entry] & 15);
    return other;
}

// The sprite that shows at a pixel, or nothing: the one whose pixel changes with its palette.
function spriteAt(run, block, at) {
    const palettes = Array.from({ length: SPRITES }, (_, sprite) => block[SHAPES + 2 * sprite + 1] & 31);
    const free = Array.from({ length: PALETTES }, (_, palette) => palette).find((palette) => !palettes.includes(palette));
    for (let sprite = 0; sprite < SPRITES; sprite++) {
        const own = palettes[sprite], other = block.slice();
        other[SHAPES + 2 * sprite + 1] = free;
        other.fill(own, PLACES.AT_COLOUR_RAM, PLACES.AT_COLOUR_RAM + CELLS);
        const roms = repainted(run.roms, (palette, entry, colour) =>
            (palette === free ? (run.roms[LOOKUP + 4 * own + entry] & 15 ? OTHER : 0) : colour ? ONE : 0));
        if (pixelAfter(run, other, roms, at) === OTHER) return sprite;
    }
    return null;
}

// The place in the tile RAM of the cell that shows at a pixel, bit by bit.
function cellAt(run, block, at) {
    const roms = repainted(run.roms, (palette) => (palette === 1 ? OTHER : ONE));
    let cell = 0;
    for (let bit = 1; bit < CELLS; bit <<= 1) {
        const other = block.slice();
        other.fill(0, PLACES.AT_COORDINATES, PLACES.AT_COORDINATES + PLACES.COORDINATES_SIZE);
        for (let place = 0; place < CELLS; place++) other[PLACES.AT_COLOUR_RAM + place] = place & bit ? 1 : 0;
        if (pixelAfter(run, other, roms, at) === OTHER) cell |= bit;
    }
    return cell;
}

// What shows at a pixel of the picture of a run: a sprite or a cell, with its addresses. The run is played elsewhere by it. Nothing before the
// first picture.
export function shownAt(run, x, y) {
    const at = WIDTH * y + x;
    if (!goBefore(run, y)) return null;
    const block = run.board.block, frame = run.frame, sprite = spriteAt(run, block, at);
    const cell = cellAt(run, block, at);
    run.board.sockets = run.roms;
    run.restore(frame);
    const tile = block[PLACES.AT_TILE_RAM + cell], paint = block[PLACES.AT_COLOUR_RAM + cell] & 31;
    const under = { kind: 'cell', address: 0x4000 + cell, colour: 0x4400 + cell, code: tile, palette: paint };
    if (sprite === null) return under;
    const [shape, palette] = block.slice(SHAPES + 2 * sprite, SHAPES + 2 * sprite + 2);
    const [top, left] = block.slice(PLACES.AT_COORDINATES + 2 * sprite, PLACES.AT_COORDINATES + 2 * sprite + 2);
    return {
        kind: 'sprite', sprite, address: 0x4ff0 + 2 * sprite, place: 0x5060 + 2 * sprite, code: shape >> 2, palette: palette & 31,
        isMirrored: (shape & 1) !== 0, isFlipped: (shape & 2) !== 0, x: 272 - left, y: top - 31, under,
    };
}
