// The pane of the memory: bytes with names; a click on one asks who wrote it.

import { hex } from './bytes.js';
import { made } from './parts.js';
import { placeOf } from './who.js';

const ROWS = 24; // of 16 bytes
const PARTS_OF_MEMORY = [
    ['Work RAM', 0x4c00], ['Tiles shown', 0x4000], ['Palettes shown', 0x4400], ['Sprites', 0x4ff0], ['Voices', 0x5040],
        ['Places of sprites', 0x5060], ['Program', 0],
];

export class MemoryPane {
    constructor(root, studio) {
        Object.assign(this, { root, studio, from: 0x4c00, chosen: null, before: null });
        this.field = made('input', { className: 'field', size: 17, placeholder: 'address or name',
            'aria-label': 'Address in hexadecimal, or a name', 'data-keys': '' });
        this.field.addEventListener('change', () => this.find(this.field.value.trim()));
        const parts = made('select', { 'aria-label': 'Part of the memory' }, ...PARTS_OF_MEMORY.map(([name, from]) => made('option',
            { value: from }, `${hex(from)}  ${name}`)));
        parts.addEventListener('change', () => this.at(Number(parts.value)));
        const names = made('datalist', { id: 'names' });
        this.field.setAttribute('list', 'names');
        Object.assign(this, { parts, names });
        this.told = made('span', { className: 'dim mono' });
        this.view = made('div', { className: 'bytes', 'data-keys': '' });
        this.view.addEventListener('keydown', (event) => this.key(event));
        root.append(made('div', { className: 'tools' }, parts, this.field, names, this.told), this.view);
        this.view.addEventListener('click', ({ target }) => {
            const byte = target.closest('button');
            if (byte) this.studio.asks(Number(byte.dataset.at));
        });
        this.view.addEventListener('mouseover', ({ target }) => {
            const byte = target.closest('button');
            this.told.textContent = byte ? this.saying(Number(byte.dataset.at)) : '';
        });
    }

    // Arrows go from byte to byte.
    key(event) {
        const step = { ArrowLeft: -1, ArrowRight: 1, ArrowUp: -16, ArrowDown: 16 }[event.key], from = Number(event.target.dataset.at);
        if (step === undefined || Number.isNaN(from)) return;
        event.preventDefault();
        this.view.querySelector(`[data-at="${from + step}"]`)?.focus();
    }

    // Goes to an address or a name.
    find(text) {
        const address = this.studio.addressIn(text);
        if (address === null) this.told.textContent = `${text}: no address and no name`;
        else this.at(address);
    }

    at(address) {
        this.from = Math.min(address & 0xfff0, 0x10000 - 16 * ROWS);
        this.chosen = address;
        this.studio.look();
    }

    // What a byte is called.
    saying(address) {
        const name = this.studio.listing?.nameOf(address, 63), value = this.bytes?.[address - this.from] ?? 0;
        return `${hex(address)}${name ? ` ${name}` : ''} = ${hex(value, 2)} (${value})`;
    }

    show(block) {
        const { listing } = this.studio;
        if (listing && listing !== this.listed) {
            this.listed = listing;
            this.names.replaceChildren(...[...listing.symbols].filter(([, value]) => value >= 0x4000
                && value <= 0xffff).map(([name]) => made('option', { value: name })));
        }
        this.bytes = this.studio.bytesAt(block, this.from, 16 * ROWS);
        const rows = [];
        for (let row = 0; row < ROWS; row++) {
            const first = this.from + 16 * row;
            rows.push(made('span', {}, hex(first)));
            for (let at = first; at < first + 16; at++) rows.push(this.byte(at, this.bytes[at - this.from]));
            const found = [...Array(16).keys()].flatMap((less) => listing?.names.get(first + less)?.slice(0, 1) ?? []).slice(0, 4);
            rows.push(made('span', {}, found.join(' ')));
        }
        this.view.replaceChildren(...rows);
        this.before = { from: this.from, bytes: this.bytes };
    }

    byte(at, value) {
        const isFresh = this.before?.from === this.from && this.before.bytes[at - this.from] !== value;
        const className = [at === this.chosen ? 'chosen' : '', value === 0 ? 'zero' : '', isFresh ? 'fresh' : ''].join(' ');
        return made('button', { type: 'button', className, tabIndex: at === (this.chosen ?? this.from) ? 0 : -1, disabled: placeOf(at) === null
            && at >= 0x4000, data: { at } }, hex(value, 2));
    }
}
