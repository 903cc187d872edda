// The likely causes of a refusal, by the table tools/lib/causes.json, which tools/lib/causes.py reads for bin/explain; what its rules are is told there.

import { Refused } from './facts.js';
import { linesOf } from './reader.js';
import { CAUSES } from './tables.js';

const patterns = new Map();

// What a code means.
export function meaningOf(code) {
    return CAUSES.meanings[code] ?? 'it is refused';
}

// What a pattern finds in a text, which it has to match as a whole; nothing where it doesn't.
function matched(text, value) {
    if (!patterns.has(text)) patterns.set(text, new RegExp(`^(?:${text})$`, 'is'));
    const found = patterns.get(text).exec(value);
    return found && [...found].map((group) => group ?? '');
}

// Whether a fact is there; the number 0 is.
function isThere(value) {
    return value !== null && value !== undefined && value !== false && value !== '' && !(Array.isArray(value) && value.length === 0);
}

// A fact as a sentence has it.
function shown(value) {
    return Array.isArray(value) ? value.join(', ') : value === null || value === undefined ? '' : String(value);
}

// A hexadecimal number as a source has it, of digits or of a number.
function hexadecimal(value) {
    const digits = typeof value === 'number' ? value.toString(16).toUpperCase().padStart(4, '0') : value.toUpperCase();
    return `${/^\d/.test(digits) ? '' : '0'}${digits}H`;
}

// A sentence with what is known, and with what a pattern has found.
function filled(text, fact, groups) {
    return text.replace(/\{([^{}]+)\}/g, (_, place) => {
        const [name, form] = place.split('|'), value = /^\d+$/.test(name) ? groups[Number(name)] : fact(name);
        return form === 'hex' ? hexadecimal(value) : form === 'upper' ? shown(value).toUpperCase() : shown(value);
    });
}

// What a condition finds in a fact; nothing where it doesn't hold.
function found(condition, value) {
    if (typeof condition === 'boolean') return isThere(value) === condition ? [] : null;
    if (Array.isArray(condition)) return condition.includes(shown(value)) ? [] : null;
    if (typeof condition === 'string') return matched(condition, shown(value));
    return value !== null && value > (condition.above ?? -Infinity) && value < (condition.below ?? Infinity) ? [] : null;
}

// The sentence of a table's first row that matches a fact, or the first of its items that one matches.
function rowOf(table, value) {
    for (const item of Array.isArray(value) ? value : [value]) {
        for (const [text, sentence] of table) {
            const groups = item ? matched(text, item) : null;
            if (groups) return { sentence, groups };
        }
    }
    return null;
}

// What a rule says; nothing where its conditions don't hold.
function said(rule, fact) {
    let groups = [];
    for (const [name, condition] of Object.entries(rule.if ?? {})) {
        const some = found(condition, fact(name));
        if (some === null) return null;
        if (some.length > 0) groups = some;
    }
    if (!rule.from) return filled(rule.say, fact, groups);
    const row = rowOf(CAUSES.tables[rule.from], fact(rule.of));
    if (row === null) return null;
    const sentence = filled(row.sentence, fact, row.groups);
    return filled(rule.say, (name) => (name === 'found' ? sentence : fact(name)), row.groups);
}

// The sentences of a code, by what is known: `fact` gives a fact by its name.
export function sentences(code, fact) {
    const all = [];
    for (const group of CAUSES.causes[code] ?? []) {
        for (const item of group.each ? fact(group.each) : [{}]) {
            const within = (name) => (name in item ? item[name] : fact(name));
            let sentence = null;
            for (const rule of group.rules ?? group) if ((sentence = said(rule, within)) !== null) break;
            if (sentence !== null) all.push(sentence);
        }
    }
    return all;
}

// Sentences about the cause of a fault in a line of a source, which is bytes; none where nothing is sure.
export function causesOf(code, source, number) {
    if (code === 'A7' || number < 1 || number > linesOf(source).length) return [];
    const refused = new Refused(code, source, number);
    return sentences(code, (name) => refused.fact(name));
}
