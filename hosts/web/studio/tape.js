// What is held in each frame, and the script that says so.

import { INPUTS } from '../board.js';
import { Fault } from './bytes.js';

export const LONGEST = 36000; // frames of a script

export const NAMES = Object.keys(INPUTS);

// The inputs of a run, a mask for each frame.
export class Tape {
    constructor(masks = []) {
        this.masks = Uint16Array.from(masks);
        this.length = masks.length;
    }

    // What is held in a frame; nothing after the last one.
    at(frame) {
        return frame < this.length ? this.masks[frame] : 0;
    }

    // Adds a frame.
    add(mask) {
        if (this.length === this.masks.length) {
            const more = new Uint16Array(Math.max(600, 2 * this.length));
            more.set(this.masks);
            this.masks = more;
        }
        this.masks[this.length++] = mask;
    }

    // Forgets all from a frame on.
    cut(frame) {
        this.length = Math.min(this.length, frame);
    }

    // Its masks, each frame's.
    all() {
        return this.masks.slice(0, this.length);
    }
}

// The names of a mask, as a script has them.
export function namesOf(mask) {
    return NAMES.filter((name) => mask & INPUTS[name]).join(',') || '-';
}

// Masks as a script.
export function scriptOf(masks) {
    const lines = ['# What is held: so many frames, then names. Played in the studio.'];
    for (let at = 0; at < masks.length;) {
        let end = at;
        while (end < masks.length && masks[end] === masks[at]) end++;
        lines.push(`${end - at} ${namesOf(masks[at])}`);
        at = end;
    }
    return lines.join('\n') + '\n';
}

// The number that a word stands for, from 1 to the longest; 0 where it is none.
function countOf(word) {
    return /^0*[1-9][0-9]{0,4}$/.test(word) && Number(word) <= LONGEST ? Number(word) : 0;
}

// The mask of a word of names; nothing where one of them is unknown.
function maskOf(word) {
    if (word === '-') return 0;
    const names = word.split(',');
    return names.every((name) => NAMES.includes(name)) ? names.reduce((mask, name) => mask | INPUTS[name], 0) : null;
}

// The masks of a script; refused as the program refuses it.
export function masksOf(text) {
    const masks = [];
    text.split('\n').forEach((line, at) => {
        const words = line.replace(/\r$/, '').split(/[ \t]+/).filter(Boolean), place = `line ${at + 1}`;
        if (words.length === 0 || words[0].startsWith('#')) return;
        const count = countOf(words[0]), mask = words.length === 2 ? maskOf(words[1]) : null;
        if (count === 0) throw new Fault('I2', `${place} of the script: its first word isn't a number from 1 to 36000`, place);
        if (mask === null) throw new Fault('I1', `${place} of the script: names of inputs are missing or unknown, or a word is too many`, place);
        if (masks.length + count > LONGEST) throw new Fault('I3', `${place} of the script: up to here there are more than 36,000 frames`, place);
        for (let frame = 0; frame < count; frame++) masks.push(mask);
    });
    return masks;
}
