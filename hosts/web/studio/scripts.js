// A script that is read as a file: what is told where it's refused.

import { Fault, textOf } from './bytes.js';
import { meaningOf, sentences } from './causes.js';
import { near } from './facts.js';
import { linesOf } from './reader.js';
import { masksOf, NAMES } from './tape.js';

const LONGEST = 36000; // frames of a script

function wordsOf(line) {
    return line.split(/[ \t]+/).filter(Boolean);
}

// The frames that a line counts; none in a comment.
function countOf(line) {
    const count = Number(/^0*(\d{1,5})$/.exec(wordsOf(line)[0] ?? '')?.[1] ?? 0);
    return count <= LONGEST ? count : 0;
}

// Sentences about the cause of a fault in a line of a script, which is bytes.
export function causesOfScript(code, script, number) {
    const lines = linesOf(script), words = wordsOf(lines[number - 1] ?? '');
    const unknown = words.length === 2 ? words[1].split(',').filter((name) => !NAMES.includes(name)) : [];
    const known = {
        words: words.length, count: words[0] ?? '', inputs: NAMES, frames: lines.slice(0, number).reduce((sum, line) => sum + countOf(line), 0),
        'unknown inputs': unknown.map((name) => ({ name, near: near(name, NAMES) })),
    };
    return sentences(code, (name) => known[name] ?? null);
}

// The masks of a script as a file; refused by its line, with what that means and the likely cause.
export function masksOfFile({ name, bytes }) {
    try {
        return masksOf(textOf(bytes));
    } catch (error) {
        if (!(error instanceof Fault) || !/^I\d$/.test(error.name)) throw error;
        const told = [meaningOf(error.name), ...causesOfScript(error.name, bytes, Number(error.place.slice(5)))];
        throw new Fault(error.name, `${name}, ${error.place}: ${told.join('; ')}`, error.place);
    }
}
