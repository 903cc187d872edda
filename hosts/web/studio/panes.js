// The panes that look in: which of them is open, and what it is shown.

import { MemoryPane } from './memory.js';
import { at, made } from './parts.js';
import { PicturesPane } from './pictures.js';
import { ProcessorPane } from './processor.js';
import { VoicesPane } from './sounds.js';
import { StopsPane } from './stops.js';
import { TouchesPane } from './touches.js';

const KEYS = [
    ['Arrows', 'joystick of player 1; R D F G that of player 2'], ['1 2', 'start buttons'], ['5 6 7', 'coins, and a credit'],
        ['P', 'play or pause; Ctrl Space everywhere'],
    [', .', 'a frame back, a frame on'], ['F10', 'a step on; here and below, with Shift the same way back'],
        ['F6', 'over a call'], ['F7', 'out of a routine, to its return'], ['F8', 'to the next breakpoint; Ctrl F8 sets one at the caret'],
        ['F9', 'to the line with the caret'],
    ['Click', 'on a line\'s number: a breakpoint, with Shift run to it; on the paused picture: what shows there; on a byte: who wrote it'],
        ['Esc Tab', 'out of the editor'],
];
const WORDS = 'A page can look in but promise nothing: the board and the assembler inside are proved, and what is around them is tested.';

// The pane that tells the keys.
class HelpPane {
    constructor(root) {
        root.append(made('div', { className: 'keys-list' }, ...KEYS.flatMap(([key, text]) =>
            [made('span', {}, ...key.split(' ').flatMap((one) => [made('kbd', {}, one), ' '])), made('span', {}, text)])),
            made('p', {}, ''), made('p', {}, WORDS));
    }

    show() {}
}

export class Panes {
    constructor(studio) {
        const root = (name) => at(`pane-${name}`);
        this.all = {
            processor: new ProcessorPane(root('processor'), studio), memory: new MemoryPane(root('memory'), studio),
                pictures: new PicturesPane(root('pictures'), studio),
            voices: new VoicesPane(root('voices'), studio), who: new TouchesPane(root('who'), studio), stops: new StopsPane(root('stops'), studio),
                help: new HelpPane(root('help')),
        };
        this.studio = studio;
        this.tabs = [...document.querySelectorAll('[data-tab]')];
        for (const tab of this.tabs) {
            tab.setAttribute('aria-controls', `pane-${tab.dataset.tab}`);
            tab.addEventListener('click', () => this.open(tab.dataset.tab));
            tab.addEventListener('keydown', (event) => this.key(event, tab));
        }
        this.open('processor', false);
    }

    // Arrows go from tab to tab.
    key(event, tab) {
        const step = { ArrowRight: 1, ArrowLeft: -1 }[event.key];
        if (!step) return;
        const next = this.tabs[(this.tabs.indexOf(tab) + step + this.tabs.length) % this.tabs.length];
        this.open(next.dataset.tab);
        next.focus();
        event.preventDefault();
        event.stopPropagation();
    }

    open(name, isShown = true) {
        this.name = name;
        for (const tab of this.tabs) {
            const isOpen = tab.dataset.tab === name;
            tab.setAttribute('aria-selected', isOpen);
            tab.tabIndex = isOpen ? 0 : -1;
            at(`pane-${tab.dataset.tab}`).hidden = !isOpen;
        }
        if (isShown) this.studio.look();
    }

    show(block) {
        this.all[this.name].show(block);
    }
}
