// A Chromium without a window, which hosts/web/test.mjs leads over its pipe of the DevTools protocol; and a server of the page's files.

import { spawn, spawnSync } from 'node:child_process';
import { createReadStream, existsSync, mkdtempSync, rmSync } from 'node:fs';
import { createServer } from 'node:http';
import os from 'node:os';
import path from 'node:path';
import { inflateSync } from 'node:zlib';

const KINDS = { '.html': 'text/html', '.js': 'text/javascript', '.wasm': 'application/wasm' };
const CODES = { ArrowLeft: 37, Digit1: 49, Digit5: 53 }; // of keys, as Windows numbers them
const WORDS = [
    '--headless=new', '--disable-gpu', '--remote-debugging-pipe', '--force-color-profile=srgb', '--hide-scrollbars', '--no-first-run',
    '--mute-audio', ...(process.getuid() === 0 ? ['--no-sandbox'] : []), // which root can't have
];
const LONGEST = 60; // seconds until the page has to be so far

// The path of the first of some programs that is installed.
export function programOf(names) {
    return names.find((name) => spawnSync('sh', ['-c', `command -v ${name}`]).status === 0);
}

// Serves the files of folders, each under its prefix.
export function serve(folders) {
    const server = createServer((request, answer) => {
        const { pathname } = new URL(request.url, 'http://host');
        const prefix = Object.keys(folders).find((one) => pathname.startsWith(one));
        const file = prefix && path.join(folders[prefix], path.normalize(pathname.slice(prefix.length)));
        if (!file || !existsSync(file)) return answer.writeHead(404).end();
        answer.writeHead(200, { 'Content-Type': KINDS[path.extname(file)] ?? 'application/octet-stream' });
        return createReadStream(file).pipe(answer);
    });
    return new Promise((then) => server.listen(0, '127.0.0.1', () => then(server)));
}

// The pixels of a PNG image of 8 bit colours, three bytes each.
function decoded(png) {
    const width = png.readUInt32BE(16), height = png.readUInt32BE(20), size = png[25] === 6 ? 4 : 3;
    const pieces = [];
    for (let at = 8; at < png.length; at += 12 + png.readUInt32BE(at))
        if (png.toString('latin1', at + 4, at + 8) === 'IDAT') pieces.push(png.subarray(at + 8, at + 8 + png.readUInt32BE(at)));
    const raw = inflateSync(Buffer.concat(pieces)), row = size * width;
    const bytes = Buffer.alloc(height * row), rgb = Buffer.alloc(3 * width * height);
    const byte = (y, x) => (y < 0 || x < 0 ? 0 : bytes[y * row + x]);
    for (let y = 0; y < height; y++)
        for (let x = 0; x < row; x++) {
            const [left, up, corner] = [byte(y, x - size), byte(y - 1, x), x < size ? 0 : byte(y - 1, x - size)];
            const sum = left + up - corner;
            const [toLeft, toUp, toCorner] = [left, up, corner].map((one) => Math.abs(sum - one));
            const paeth = toLeft <= toUp && toLeft <= toCorner ? left : toUp <= toCorner ? up : corner;
            bytes[y * row + x] = raw[y * (row + 1) + 1 + x] + [0, left, up, (left + up) >> 1, paeth][raw[y * (row + 1)]];
        }
    for (let at = 0; at < rgb.length; at++) rgb[at] = bytes[Math.floor(at / 3) * size + at % 3];
    return rgb;
}

export class Browser {
    // Opens a page.
    static async open(program, address) {
        const browser = new Browser();
        browser.folder = mkdtempSync(path.join(os.tmpdir(), 'hosts-web-'));
        const words = [...WORDS, `--user-data-dir=${browser.folder}`, 'about:blank'];
        browser.process = spawn(program, words, { stdio: ['ignore', 'ignore', 'ignore', 'pipe', 'pipe'] });
        browser.waiting = new Map();
        browser.text = '';
        browser.process.stdio[4].setEncoding('utf8').on('data', (piece) => browser.read(piece));
        browser.process.on('exit', () => browser.waiting.forEach(([, fail]) => fail(new Error('Chromium has ended'))));
        const { targetId } = await browser.call('Target.createTarget', { url: address });
        browser.session = (await browser.call('Target.attachToTarget', { targetId, flatten: true })).sessionId;
        const screen = { width: 800, height: 700, deviceScaleFactor: 1, mobile: false };
        await browser.call('Emulation.setDeviceMetricsOverride', screen);
        return browser;
    }

    // Takes messages, each ended by a zero.
    read(piece) {
        const messages = (this.text + piece).split('\0');
        this.text = messages.pop();
        for (const { id, result, error } of messages.map(JSON.parse)) {
            const [then, fail] = this.waiting.get(id) ?? [];
            this.waiting.delete(id);
            if (error) fail?.(new Error(error.message));
            else then?.(result);
        }
    }

    // Calls a method of the protocol.
    call(method, params = {}) {
        const id = this.next = (this.next ?? 0) + 1;
        this.process.stdio[3].write(`${JSON.stringify({ id, method, params, sessionId: this.session })}\0`);
        return new Promise((then, fail) => this.waiting.set(id, [then, fail]));
    }

    // The value of an expression in the page.
    async value(expression) {
        const words = { expression: `(${expression})`, returnByValue: true, awaitPromise: true };
        const { result, exceptionDetails } = await this.call('Runtime.evaluate', words);
        if (exceptionDetails) throw new Error(exceptionDetails.exception?.description ?? exceptionDetails.text);
        return result.value;
    }

    // Waits for some seconds.
    pause(seconds) {
        return new Promise((then) => setTimeout(then, 1000 * seconds));
    }

    // Waits until an expression is true in the page.
    async until(expression) {
        for (let tenth = 0; !(await this.value(expression)); tenth++) {
            if (tenth === 10 * LONGEST) throw new Error(`${expression}: ${await this.value("document.getElementById('told').textContent")}`);
            await this.pause(0.1);
        }
    }

    // A key goes down or up.
    key(code, isDown) {
        return this.call('Input.dispatchKeyEvent', { type: isDown ? 'keyDown' : 'keyUp', code, key: code, windowsVirtualKeyCode: CODES[code] });
    }

    // The pixels of an element as it is on the screen.
    async shot(selector) {
        const { x, y, width, height } = await this.value(`document.querySelector('${selector}').getBoundingClientRect().toJSON()`);
        const { data } = await this.call('Page.captureScreenshot', { format: 'png', clip: { x, y, width, height, scale: 1 } });
        return decoded(Buffer.from(data, 'base64'));
    }

    // Ends it.
    async close() {
        await this.call('Browser.close').catch(() => undefined);
        if (this.process.exitCode === null) await new Promise((then) => this.process.on('exit', then));
        rmSync(this.folder, { recursive: true, force: true });
    }
}
