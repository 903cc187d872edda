// Tries the npm package in Chromium, as a page imports it: `node page.mjs PACKAGE OUT`, where OUT has the ROM block of starfall. A frame of the page has
// to be that of node. The last line is `N passed, M failed`; the exit status is 2 where there is no Chromium.

import { createHash } from 'node:crypto';
import { readFile } from 'node:fs/promises';
import path from 'node:path';
import { pathToFileURL } from 'node:url';
import { Browser, programOf, serve } from '../browser.mjs';

const FRAMES = 100;
const [folder, out] = process.argv.slice(2).map((place) => path.resolve(place));
const program = programOf(['chromium', 'chromium-browser', 'google-chrome']);
let passed = 0, failed = 0;

// Counts what was tried, and shows what isn't so.
function row(what, isSo) {
    if (isSo) passed++;
    else failed++;
    if (!isSo) console.log(`FAILED: ${what}`);
}

// The picture after some frames, by the package of an address; the page has this function's text.
async function picture(address, roms, frames) {
    const { board, FRAME_MICROSECONDS } = await import(address);
    const it = await board(roms);
    for (let frame = 0; frame < frames; frame++) {
        it.hold(0);
        it.run(FRAME_MICROSECONDS);
    }
    return it.draw();
}

// What is tried in the page.
async function page(browser) {
    const roms = "new Uint8Array(await (await fetch('/out/starfall.roms')).arrayBuffer())";
    const shown = `crypto.subtle.digest('SHA-1', await (${picture})('/npm/index.js', ${roms}, ${FRAMES}))`;
    const digest = await browser.value(`(async () => [...new Uint8Array(await ${shown})])()`);
    const wanted = await picture(pathToFileURL(path.join(folder, 'index.js')).href, await readFile(path.join(out, 'starfall.roms')), FRAMES);
    row(`frame ${FRAMES} in a page`, Buffer.from(digest).equals(createHash('sha1').update(wanted).digest()) && new Set(wanted).size > 2);
    const made = "(await (await import('/npm/index.js')).assembler()).assemble(new TextEncoder().encode(' LD A,42H\\n'))";
    const [code, first, second] = await browser.value(`(async () => { const { code, rom } = ${made}; return [code, rom[0], rom[1]]; })()`);
    row('a program assembled in a page', code === 0 && first === 0x3e && second === 0x42);
}

if (program === undefined) {
    process.exitCode = 2;
} else {
    const server = await serve({ '/npm/': folder, '/out/': out });
    const browser = await Browser.open(program, `http://127.0.0.1:${server.address().port}/npm/index.js`);
    try {
        await browser.until("document.readyState === 'complete' && location.pathname === '/npm/index.js'");
        await page(browser);
    } finally {
        await browser.close();
        server.close();
    }
    console.log(`${passed} passed, ${failed} failed`);
    if (failed) process.exitCode = 1;
}
