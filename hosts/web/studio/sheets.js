// Tiles, sprites and palettes as pictures that the board draws: its RAM is filled with them, and a frame goes by.

import { FRAME_MICROSECONDS, WIDTH } from '../board.js';
import { PLACES } from './tables.js';

const HALT = 0x76;
const TILES = 16384, TILE_BYTES = 4096;
const FIRST = 0x40; // of the tile RAM: the cell in column 2, row 0; 32 cells a row
const LEFT = 16; // pixels: where column 2 begins
const SHAPES = PLACES.AT_WORK_RAM + 0x3f0;
export const SHEETS = { tiles: { width: 256, height: 64 }, sprites: { width: 256, height: 64 }, palettes: { width: 256, height: 32 } };

// The ROM block of a program that waits.
export function waiting(roms) {
    const other = roms.slice();
    other.fill(0, 0, 16384);
    other[0] = HALT;
    return other;
}

// The picture of a board whose RAM somebody has filled.
function drawn(board, roms, fill) {
    board.begin(roms);
    const { block } = board;
    fill(block);
    board.block = block;
    board.run(FRAME_MICROSECONDS);
    return board.draw();
}

// Copies a part of a picture onto another.
function copy(rgba, from, to, at, width, height) {
    for (let y = 0; y < height; y++) {
        const source = 4 * ((from.y + y) * WIDTH + from.x), target = 4 * ((at.y + y) * to.width + at.x);
        to.data.set(rgba.subarray(source, source + 4 * width), target);
    }
}

// All 256 tiles in a palette, 32 a row.
export function tilesOf(board, roms, palette, image) {
    const rgba = drawn(board, waiting(roms), (block) => {
        for (let tile = 0; tile < 256; tile++) {
            block[PLACES.AT_TILE_RAM + FIRST + tile] = tile;
            block[PLACES.AT_COLOUR_RAM + FIRST + tile] = palette;
        }
    });
    copy(rgba, { x: LEFT, y: 0 }, image, { x: 0, y: 0 }, 256, 64);
}

// All 64 sprites in a palette, 16 a row, before a background of nothing: eight at a time.
export function spritesOf(board, roms, palette, image) {
    const bare = waiting(roms);
    bare.fill(0, TILES, TILES + TILE_BYTES);
    for (let first = 0; first < 64; first += 8) {
        const rgba = drawn(board, bare, (block) => {
            for (let sprite = 0; sprite < 8; sprite++) {
                block[SHAPES + 2 * sprite] = 4 * (first + sprite);
                block[SHAPES + 2 * sprite + 1] = palette;
                block[PLACES.AT_COORDINATES + 2 * sprite] = 31 + 16;
                block[PLACES.AT_COORDINATES + 2 * sprite + 1] = 272 - (LEFT + 16 * sprite);
            }
        });
        copy(rgba, { x: LEFT, y: 16 }, image, { x: 16 * (first % 16), y: 16 * Math.floor(first / 16) }, 128, 16);
    }
}

// All 32 palettes, eight a row, each of four squares of eight pixels: by tiles that are full of one value.
export function palettesOf(board, roms, image) {
    const full = waiting(roms);
    for (let value = 0; value < 4; value++) full.fill((value & 2 ? 0xf0 : 0) | (value & 1 ? 0x0f : 0), TILES + 16 * value, TILES + 16 * value + 16);
    const rgba = drawn(board, full, (block) => {
        for (let cell = 0; cell < 128; cell++) {
            block[PLACES.AT_TILE_RAM + FIRST + cell] = cell & 3;
            block[PLACES.AT_COLOUR_RAM + FIRST + cell] = cell >> 2;
        }
    });
    copy(rgba, { x: LEFT, y: 0 }, image, { x: 0, y: 0 }, 256, 32);
}
