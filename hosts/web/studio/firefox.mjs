// A Firefox without a window, which the tests of the studio lead over its Marionette protocol as browse.mjs leads a Chromium.

import { spawn } from 'node:child_process';
import { mkdtempSync, rmSync, writeFileSync } from 'node:fs';
import net from 'node:net';
import os from 'node:os';
import path from 'node:path';
import { Browser } from '../browser.mjs';

const LONGEST = 60; // seconds until it answers
const SCRIPT = 60_000; // milliseconds that an expression may take
const KEYS = { ArrowLeft: '\uE012', ArrowUp: '\uE013', ArrowRight: '\uE014', ArrowDown: '\uE015', F6: '\uE036', F7: '\uE037', F8: '\uE038', F9: '\uE039', F10: '\uE03A', Tab: '\uE004',
    Escape: '\uE00C', Digit1: '1', Digit5: '5', KeyP: 'p', Comma: ',', Period: '.' };
const SHIFT = '\uE008', CONTROL = '\uE009';
const HELD = [[8, SHIFT], [2, CONTROL]]; // the bits that say what is held with a key
const WISHES = (port) => [['marionette.port', port], ['media.autoplay.default', 0], ['full-screen-api.allow-trusted-requests-only', false],
    ['full-screen-api.warning.timeout', 0], ['browser.shell.checkDefaultBrowser', false], ['media.volume_scale', '0.0']];
const FAULTS = `window.addEventListener('error', ({ message }) => (window.wrong ??= []).push(message));
    window.addEventListener('unhandledrejection', ({ reason }) => (window.wrong ??= []).push(String(reason)));`;

// A port that nothing listens on.
function freePort() {
    return new Promise((then) => {
        const server = net.createServer().listen(0, '127.0.0.1', () => {
            const { port } = server.address();
            server.close(() => then(port));
        });
    });
}

// A connection, as soon as something listens there.
async function connected(port) {
    for (let tenth = 0; tenth < 10 * LONGEST; tenth++) {
        const socket = net.connect(port, '127.0.0.1');
        const isThere = await new Promise((then) => socket.once('connect', () => then(true)).once('error', () => then(false)));
        if (isThere) return socket;
        await new Promise((then) => setTimeout(then, 100));
    }
    throw new Error('Firefox does not answer');
}

export class Firefox extends Browser {
    // Opens a page.
    static async open(program, address, { width, height }) {
        const browser = new Firefox(), port = await freePort();
        browser.folder = mkdtempSync(path.join(os.tmpdir(), 'studio-firefox-'));
        writeFileSync(path.join(browser.folder, 'user.js'), WISHES(port).map(([name, value]) => `user_pref("${name}", ${JSON.stringify(value)});\n`).join(''));
        browser.process = spawn(program, ['--headless', '--marionette', '--profile', browser.folder], { stdio: 'ignore' });
        browser.waiting = new Map();
        browser.bytes = Buffer.alloc(0);
        browser.socket = await connected(port);
        browser.socket.on('data', (piece) => browser.take(piece));
        browser.process.on('exit', () => browser.waiting.forEach(([, fail]) => fail(new Error('Firefox has ended'))));
        await browser.ask('WebDriver:NewSession', { capabilities: { alwaysMatch: { timeouts: { script: SCRIPT } } } });
        await browser.ask('WebDriver:SetWindowRect', { width, height: height + 86 }); // what stands above the page
        await browser.visit(address);
        return browser;
    }

    // Takes messages, each after its length.
    take(piece) {
        this.bytes = Buffer.concat([this.bytes, piece]);
        for (;;) {
            const colon = this.bytes.indexOf(58), from = colon + 1, to = from + Number(this.bytes.toString('latin1', 0, Math.max(colon, 0)));
            if (colon < 0 || this.bytes.length < to) return;
            const [, id, error, result] = [].concat(JSON.parse(this.bytes.toString('utf8', from, to)));
            this.bytes = this.bytes.subarray(to);
            const [then, fail] = this.waiting.get(id) ?? [];
            this.waiting.delete(id);
            if (error) fail?.(new Error(`${error.error}: ${error.message}`));
            else then?.(result);
        }
    }

    // Asks for something by the protocol.
    ask(name, words = {}) {
        const id = this.next = (this.next ?? 0) + 1, text = Buffer.from(JSON.stringify([0, id, name, words]));
        this.socket.write(Buffer.concat([Buffer.from(`${text.length}:`), text]));
        return new Promise((then, fail) => this.waiting.set(id, [then, fail]));
    }

    // What has gone wrong in the page; the list is what the last expression left.
    get faults() {
        return this.wrong ?? [];
    }

    // The value of an expression in the page.
    async value(expression) {
        const script = `const then = arguments[arguments.length - 1];
            (async () => (${expression}))().then((it) => then([it ?? null, null, window.wrong ?? []]), (fault) => then([null, fault + ' ' + fault?.stack, []]));`;
        const { value: [it, fault, wrong] } = await this.ask('WebDriver:ExecuteAsyncScript', { script, args: [], sandbox: null, newSandbox: false });
        this.wrong = wrong;
        if (fault !== null) throw new Error(fault);
        return it;
    }

    // Goes to an address.
    async visit(address) {
        await this.ask('WebDriver:Navigate', { url: address });
        await this.ask('WebDriver:ExecuteScript', { script: FAULTS, args: [], sandbox: null, newSandbox: false });
        for (let tenth = 0; tenth < 300; tenth++) {
            await this.pause(0.1);
            if (await this.value('window.studio?.loop.frames > 0 || window.game?.loop.frames > 0').catch(() => false)) return;
        }
        throw new Error(`${address} doesn't begin: ${this.faults.join('\n')}`);
    }

    // Some actions, as WebDriver has them.
    act(type, id, actions, parameters) {
        return this.ask('WebDriver:PerformActions', { actions: [{ type, id, actions, ...(parameters && { parameters }) }] });
    }

    // A key goes down or up, with those that are held with it.
    strike(code, type, modifiers = 0) {
        const held = HELD.filter(([bit]) => modifiers & bit).map(([, value]) => value), isDown = type === 'keyDown';
        const keys = isDown ? [...held, KEYS[code]] : [KEYS[code], ...held];
        return this.act('key', 'keys', keys.map((value) => ({ type, value })));
    }

    // Clicks at a place of an element, from 0 to 1.
    async click(selector, across = 0.5, down = 0.5) {
        const { x, y, width, height } = await this.value(`document.querySelector(${JSON.stringify(selector)}).getBoundingClientRect().toJSON()`);
        const place = { type: 'pointerMove', x: Math.round(x + across * width), y: Math.round(y + down * height), duration: 0 };
        await this.act('pointer', 'mouse', [place, { type: 'pointerDown', button: 0 }, { type: 'pointerUp', button: 0 }], { pointerType: 'mouse' });
    }

    // Ends it.
    async close() {
        await this.ask('Marionette:Quit', { flags: ['eForceQuit'] }).catch(() => undefined);
        if (this.process.exitCode === null) await new Promise((then) => this.process.on('exit', then));
        this.socket.destroy();
        rmSync(this.folder, { recursive: true, force: true, maxRetries: 5 });
    }
}
