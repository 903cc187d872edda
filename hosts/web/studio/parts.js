// Small parts of the page: elements made of text alone, icons, what is told for a moment.

import { hex } from './bytes.js';

const DRAWN = {
    play: 'M7 4.5v11l9-5.5z|solid', pause: 'M6 4.5v11M13.5 4.5v11', 'on-frame': 'M5 5v10l7-5zM15 5v10', 'back-frame': 'M15 5v10l-7-5zM5 5v10',
    'on-step': 'M4 13a6 6 0 0 1 11-3.4M15.6 5.4V10H11', 'back-step': 'M16 13a6 6 0 0 0-11-3.4M4.4 5.4V10H9',
    over: 'M3.5 10a6.8 6 0 0 1 12.6-1M16.6 4.6V9.2H12M9 15.5h2', out: 'M10 13V4M6 8l4-4 4 4M4 16.5h12',
    again: 'M5 10a5.5 5.5 0 1 0 2-4.3M7 2.6v3.6h3.6', sound: 'M4 8v4h3l4 3.4V4.6L7 8zM13.5 7.5a4 4 0 0 1 0 5M15.6 5.2a7 7 0 0 1 0 9.6',
    quiet: 'M4 8v4h3l4 3.4V4.6L7 8zM14 8l4 4M18 8l-4 4', turn: 'M4 9a7 7 0 0 1 12-2.6M16.4 3v4h-4M5 12h10v5H5z',
        full: 'M4 8V4h4M12 4h4v4M16 12v4h-4M8 16H4v-4',
};

export const at = (id) => document.getElementById(id);

// An element with properties, attributes for those with a dash, and children: texts are texts, whatever they have in them.
export function made(name, properties = {}, ...children) {
    const element = document.createElement(name);
    for (const [key, value] of Object.entries(properties)) {
        if (key.includes('-')) element.setAttribute(key, value);
        else if (key === 'data') Object.assign(element.dataset, value);
        else element[key] = value;
    }
    element.append(...children.filter((child) => child !== null));
    return element;
}

// Puts an icon into a button.
export function icon(button, name) {
    const [path, kind] = DRAWN[name].split('|'), space = 'http://www.w3.org/2000/svg';
    const picture = document.createElementNS(space, 'svg'), line = document.createElementNS(space, 'path');
    picture.setAttribute('viewBox', '0 0 20 20');
    picture.setAttribute('aria-hidden', 'true');
    line.setAttribute('d', path);
    if (kind) line.setAttribute('class', kind);
    picture.append(line);
    button.replaceChildren(picture);
}

let fading = 0;

// Tells something for a while: a name in front, and a sentence.
export function tell(name, sentence, isBad = false) {
    const toast = at('toast');
    toast.querySelector('b').textContent = name;
    toast.querySelector('span').textContent = sentence;
    toast.classList.toggle('bad', isBad);
    toast.hidden = false;
    clearTimeout(fading);
    fading = setTimeout(() => { toast.hidden = true; }, isBad ? 9000 : 3500);
}

// Tells why something that was handed in is refused; what is no refusal is told too, and thrown on.
export function refuse(error) {
    tell(error.name === 'Error' ? 'Refused' : error.name, error.message, true);
    if (!(error instanceof Error)) throw error;
}

// An address with its name, if it has one.
export function addressed(listing, address, most = 0) {
    const name = listing?.nameOf(address, most);
    return name ? `${hex(address)} ${name}` : hex(address);
}

// A button that looks like a link.
export function link(text, title, clicked) {
    return made('button', { className: 'linklike', type: 'button', title, onclick: clicked }, text);
}

// Hands bytes to the browser as a file.
export function download(name, content, type = 'application/octet-stream') {
    const address = URL.createObjectURL(content instanceof Blob ? content : new Blob([content], { type }));
    made('a', { href: address, download: name }).click();
    setTimeout(() => URL.revokeObjectURL(address), 10_000);
}
