// All faults of a source that are certain: the one that the assembler tells, and those that it tells once that line is out of the way, as
// tools/lib/more_faults.py has it, which says how; tools/check/studio holds both against each other.

import { sentences } from './causes.js';
import { Refused } from './facts.js';
import { firstWord, linesOf, namesOf, OPERATIONS, readLine } from './reader.js';
import { REGISTERS } from './tables.js';

const MOST = 20; // faults
const ROUNDS = 60; // assemblies
export const LONGEST = 4000; // lines of a source that is assembled more than once
const HEAD = '^[^A-Za-z_]*(?:[A-Za-z_]\\w*[^A-Za-z_]+)?'; // up to a line's first word, or to its second
const WORD = /[A-Za-z_]\w*/g;
const OPENS = new RegExp(`${HEAD}(?:IF\\w*|ELSE\\w*|ELIF|END\\w*|MACRO|REPT|DUP|REPEAT|WHILE|STRUCT?|PROC|LOCAL|COMMENT)\\b|^.*/\\*`, 'is');
const BRINGS = new RegExp(`${HEAD}(?:INCLUDE|INCBIN|READ|INSERT|EXTERN|EXTRN|GLOBAL|PUBLIC|DEFC|DEFINE|ENUM)\\b`, 'i');
const NUMBER = /^[ \t]*[A-Za-z_]\w*[ \t]*:?[ \t]*(?:(?:EQU|DEFL|SET)\b|=)/i;
const LABEL = /^[ \t]*([A-Za-z_]\w*)[ \t]*:/;

function hasHere(tree) {
    return tree[0] === 'here' || tree.slice(1).some((part) => Array.isArray(part) && hasHere(part));
}

// A source whose faulty lines are replaced, one after another.
class Search {
    constructor(source) {
        Object.assign(this, { lines: linesOf(source), found: [], others: new Set(), doubted: new Set() });
        Object.assign(this, { isMoved: false, isFull: false, brings: false, isOver: false });
    }

    // The source as it is now.
    get source() {
        return Uint8Array.from(this.lines.map((line) => `${line}\n`).join(''), (letter) => letter.charCodeAt(0));
    }

    // The names whose values aren't known: those of two lines, and those that hang on where bytes are once that isn't known.
    unsure() {
        const names = new Set(this.doubted);
        for (const line of this.lines.map(readLine))
            if (line?.label && (line.operation === 'EQU' ? this.isUnsure(line.atOnce, names) : this.isMoved)) names.add(line.label);
        return names;
    }

    isUnsure(tree, names) {
        return this.isMoved && hasHere(tree) || namesOf(tree).some((name) => names.has(name));
    }

    // Whether a fault would be there, whatever the lines before it should have been.
    isCertain(code, refused) {
        if (code === 'A5' || code === 'A6') return !this.isMoved && !this.isFull;
        if (code === 'A4' || code === 'A8') return !this.brings && refused.undefined().some(({ name }) => !this.others.has(name));
        if (code === 'A2') return !this.brings || refused.operation !== '';
        if (code !== 'A9' && code !== 'A10') return true;
        const names = this.unsure(), values = code === 'A9' ? refused.values().filter(({ kind }) => kind !== 'e' || !this.isMoved) : [];
        return (code === 'A9' ? values.map(({ tree }) => tree) : refused.valueless()).some((tree) => !this.isUnsure(tree, names));
    }

    // Takes a line out of the way that says nothing: its label is left, where a colon tells it.
    replaceUnread(number) {
        const text = this.lines[number - 1], name = LABEL.exec(text)?.[1], isNumber = NUMBER.test(text);
        const isLabel = name !== undefined && !isNumber && !OPERATIONS.has(name.toUpperCase()) && !REGISTERS.includes(name.toUpperCase());
        for (const word of text.match(WORD) ?? []) this.others.add(word);
        this.isMoved ||= !isNumber;
        this.brings ||= BRINGS.test(text);
        this.lines[number - 1] = isLabel ? `${name}:` : '';
    }

    // Takes a line out of the way that has a fault where it is: room of its size is left, or its label.
    replace(code, number, refused) {
        const text = this.lines[number - 1], { label, operation } = refused, head = label ? `${label}:` : '';
        const size = operation === 'DEFS' || operation === 'DS' ? refused.atOnce() : refused.read.size;
        this.lines[number - 1] = head;
        if (code === 'A3') {
            this.doubted.add(label);
            this.lines[number - 1] = operation === 'EQU' ? '' : text.replace(/^[ \t]*\w+[ \t]*:?/, ' ');
        } else if (operation === 'EQU') {
            this.others.add(label);
            this.lines[number - 1] = '';
        } else if (['A8', 'A9', 'A10'].includes(code) && size !== null) this.lines[number - 1] = `${head} DEFS ${size}`;
        else {
            this.isMoved = true;
            if (code !== 'A5' && code !== 'A6') return;
            this.isFull = true;
            this.lines[number - 1] = this.dropOrigins() && operation !== 'ORG' ? text : head;
        }
    }

    // Lets all bytes follow one another, so that none is where another one is; whether there was something to do.
    dropOrigins() {
        const isOrigin = this.lines.map((line) => readLine(line)?.operation === 'ORG');
        this.lines = this.lines.map((line, at) => (isOrigin[at] ? '' : line));
        return isOrigin.includes(true);
    }

    // Takes a fault.
    take({ code, line: number }) {
        if (code === 'A7') {
            this.found.push({ code, line: number, causes: [] });
            this.isOver = true;
            return;
        }
        const refused = new Refused(code, this.source, number), text = this.lines[number - 1], isNew = this.found.every(({ line }) => line !== number);
        if (isNew && (this.found.length === 0 || this.isCertain(code, refused)))
            this.found.push({ code, line: number, causes: sentences(code, (name) => refused.fact(name)) });
        const isUnread = code.startsWith('A1 ') || code === 'A2';
        this.isOver = ['A12', 'A13', 'A14'].includes(code) || firstWord(text) === 'IF' || isUnread && OPENS.test(text.split(';')[0]);
        if (this.isOver) return;
        if (isUnread) this.replaceUnread(number);
        else this.replace(code, number, refused);
        this.isOver = this.hasUnsureConditions();
    }

    // Whether an IF hangs on what isn't known.
    hasUnsureConditions() {
        const names = this.isMoved || this.doubted.size > 0 ? this.unsure() : new Set(), conditions = this.lines.filter((line) => firstWord(line) === 'IF').map(readLine);
        return conditions.some((line) => line?.atOnce && this.isUnsure(line.atOnce, names));
    }
}

// The faults of a source, which is bytes, each { code, line, causes }: first the one that is told, and then the others that are certain, by their lines.
export function faultsOf(assembler, source) {
    const search = new Search(source);
    let { fault } = assembler.assemble(source);
    for (let round = 0; round < ROUNDS && fault; round++) {
        search.take(fault);
        if (search.isOver || search.found.length === MOST || search.lines.length > LONGEST) break;
        ({ fault } = assembler.assemble(search.source));
    }
    return [...search.found.slice(0, 1), ...search.found.slice(1).sort((one, other) => one.line - other.line)];
}
