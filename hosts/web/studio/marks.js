// The words of a line of a source, each with its kind, so that the editor can mark them.

import { DIRECTIVES, MNEMONICS, REGISTERS } from './tables.js';

const TOKEN = /([ \t]+)|(;.*)|('(?:[^']|'')*'?)|([Aa][Ff]')|([A-Za-z_]\w*)|(\d\w*)|([$:,()+*/-])|([^])/gy;
const WORDS = new Map([
    ...MNEMONICS.map((word) => [word, 'operation']), ...DIRECTIVES.map((word) => [word, 'directive']),
    ...REGISTERS.map((word) => [word, 'register']),
]);

// The kind of a name: the first name of a line is its label where it is no operation.
function kindOf(word, isFirst) {
    const kind = WORDS.get(word.toUpperCase());
    return isFirst && kind !== 'operation' && kind !== 'directive' ? 'label' : kind ?? 'name';
}

// The words of a line as pairs of a kind and a text, which together are the line.
export function marked(line) {
    const words = [];
    let isFirst = true;
    TOKEN.lastIndex = 0;
    for (let found; TOKEN.lastIndex < line.length && (found = TOKEN.exec(line));) {
        const [text, blank, comment, quoted, alternate, name, number, sign] = found;
        const kind = blank ? '' : comment ? 'comment' : quoted ? 'text' : alternate ? 'register'
            : name ? kindOf(name, isFirst) : number ? 'number' : sign ? 'sign' : 'wrong';
        if (!blank) isFirst = false;
        words.push([kind, text]);
    }
    return words;
}
