// What the tests of the studio do in a browser, beside what hosts/web/browser.mjs does.

import { Browser } from '../browser.mjs';
import { Firefox } from './firefox.mjs';

const KEYS = {
    ArrowLeft: 37, ArrowUp: 38, ArrowRight: 39, ArrowDown: 40, Digit1: 49, Digit5: 53, KeyP: 80, Comma: 188, Period: 190, F6: 117, F7: 118, F8: 119, F9: 120, F10: 121, Tab: 9,
        Escape: 27,
};
const LONGEST = 60; // seconds until the page has to be so far
const NAMES = { Digit1: '1', Digit5: '5', KeyP: 'p', Comma: ',', Period: '.' };

// A page in a browser of its own, and what went wrong in it.
export async function opened(program, address, { width = 1440, height = 900 } = {}) {
    if (program.startsWith('firefox')) return Firefox.open(program, address, { width, height });
    const browser = await Browser.open(program, 'about:blank');
    browser.faults = [];
    const read = browser.read.bind(browser);
    browser.read = (piece) => {
        for (const message of piece.split('\0')) {
            const isFault = /"Runtime\.exceptionThrown"|"Log\.entryAdded".*"level":"error"|"Runtime\.consoleAPICalled","params":\{"type":"error"/.test(message);
            if (isFault && !message.includes('favicon')) browser.faults.push(message.slice(0, 600));
        }
        read(piece);
    };
    await browser.call('Emulation.setDeviceMetricsOverride', { width, height, deviceScaleFactor: 1, mobile: false });
    for (const domain of ['Runtime', 'Log', 'Page', 'DOM']) await browser.call(`${domain}.enable`);
    await browser.visit(address);
    return browser;
}

// Goes to an address.
Browser.prototype.visit = async function visit(address) {
    await this.call('Page.navigate', { url: address });
    for (let tenth = 0; tenth < 300; tenth++) {
        await this.pause(0.1);
        const isThere = await this.value('document.readyState === "complete" && (window.studio?.loop.frames > 0 || window.game?.loop.frames > 0)').catch(() => false);
        if (isThere) return;
    }
    throw new Error(`${address} doesn't begin: ${this.faults.join('\n')}`);
};

// Waits until an expression is true in the page.
Browser.prototype.until = async function until(expression) {
    for (let tenth = 0; !(await this.value(expression)); tenth++) {
        if (tenth === 10 * LONGEST) throw new Error(`${expression}: ${await this.value("[...document.querySelectorAll('[role=status]')].map((one) => one.textContent).join(' / ')")}`);
        await this.pause(0.1);
    }
};

// A key goes down, and up.
Browser.prototype.press = async function press(code, modifiers = 0) {
    for (const type of ['keyDown', 'keyUp']) await this.strike(code, type, modifiers);
};

Browser.prototype.strike = function strike(code, type, modifiers = 0) {
    const key = NAMES[code] ?? code;
    return this.call('Input.dispatchKeyEvent', { type, code, key, modifiers, windowsVirtualKeyCode: KEYS[code] });
};

// Clicks at a place of an element, from 0 to 1.
Browser.prototype.click = async function click(selector, across = 0.5, down = 0.5) {
    const { x, y, width, height } = await this.value(`document.querySelector(${JSON.stringify(selector)}).getBoundingClientRect().toJSON()`);
    const place = { x: x + across * width, y: y + down * height, button: 'left', clickCount: 1 };
    for (const type of ['mousePressed', 'mouseReleased']) await this.call('Input.dispatchMouseEvent', { type, ...place });
};

// Hands files to the page as if they were opened: names with bytes.
Browser.prototype.hand = function hand(files) {
    const told = Object.entries(files).map(([name, bytes]) => [name, Buffer.from(bytes).toString('base64')]);
    return this.value(`studio.entries.opens(${JSON.stringify(told)}.map(([name, text]) => new File([Uint8Array.from(atob(text), (one) => one.charCodeAt(0))], name)))
        .then(() => { const toast = document.getElementById('toast'); return toast.hidden ? '' : toast.textContent; })`);
};

// What the page offers for download while an expression is done: its name and bytes.
Browser.prototype.saved = async function saved(expression) {
    const text = await this.value(`(async () => {
        const kept = [], create = URL.createObjectURL, click = HTMLAnchorElement.prototype.click;
        URL.createObjectURL = (blob) => { kept.push(blob); return create(blob); };
        HTMLAnchorElement.prototype.click = function () { kept.push(this.download); };
        try { await (${expression}); for (let turn = 0; kept.length < 2 && turn < 100; turn++) await new Promise((then) => setTimeout(then, 20)); }
        finally { URL.createObjectURL = create; HTMLAnchorElement.prototype.click = click; }
        const bytes = new Uint8Array(await kept[0].arrayBuffer());
        let letters = '';
        for (let at = 0; at < bytes.length; at += 8192) letters += String.fromCharCode(...bytes.subarray(at, at + 8192));
        return JSON.stringify([kept[1], btoa(letters)]);
    })()`);
    const [name, letters] = JSON.parse(text);
    return { name, bytes: Buffer.from(letters, 'base64') };
};

// The picture of the page's canvas, four bytes a pixel.
Browser.prototype.canvas = async function canvas() {
    const letters = await this.value(`(() => {
        const { data } = document.getElementById('picture').getContext('2d').getImageData(0, 0, 288, 224);
        let text = '';
        for (let at = 0; at < data.length; at += 8192) text += String.fromCharCode(...data.subarray(at, at + 8192));
        return btoa(text);
    })()`);
    return Buffer.from(letters, 'base64');
};
