// The three voices: what their registers hold, and how each sounds alone, which the board plays.

import { FRAME_MICROSECONDS, SAMPLE_RATE } from '../board.js';
import { waiting } from './sheets.js';
import { PLACES } from './tables.js';

// Of each voice, counted from 5040H: its waveform, the lowest nibble of its frequency and how many it has, and its volume.
const VOICES = [
    { waveform: 0x05, frequency: 0x10, nibbles: 5, volume: 0x15 },
    { waveform: 0x0a, frequency: 0x16, nibbles: 4, volume: 0x1a },
    { waveform: 0x0f, frequency: 0x1b, nibbles: 4, volume: 0x1f },
];
const WHOLE = 20; // bits of a frequency
const SHOWN = 480; // samples
const SOUND = 2; // the latch that turns the sound on

// The registers of each voice of a block.
export function voicesOf(block) {
    const register = (at) => block[PLACES.AT_WAVE_REGISTERS + at];
    return VOICES.map(({ waveform, frequency, nibbles, volume }) => {
        let value = 0;
        for (let nibble = nibbles - 1; nibble >= 0; nibble--) value = 16 * value + (register(frequency + nibble) & 15);
        value *= 16 ** (WHOLE / 4 - nibbles);
        return { waveform: register(waveform) & 7, hertz: value * SAMPLE_RATE / 2 ** WHOLE, volume: register(volume) & 15, value };
    });
}

// How a voice of a block sounds alone: samples of a board whose program waits, with the others silent.
export function soundOf(board, roms, block, voice) {
    board.begin(waiting(roms));
    const bytes = board.block, from = PLACES.AT_WAVE_REGISTERS;
    bytes.set(block.subarray(from, from + PLACES.WAVE_REGISTERS_SIZE), from);
    bytes[PLACES.AT_LATCH] |= SOUND;
    VOICES.forEach(({ volume }, other) => {
        if (other !== voice) bytes[PLACES.AT_WAVE_REGISTERS + volume] = 0;
    });
    board.block = bytes;
    return board.run(FRAME_MICROSECONDS >> 1).samples.slice(0, SHOWN);
}
