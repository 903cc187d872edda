// Makes the pictures of docs/STUDIO.md, in Chromium, and packs them by pngquant where it is there.
//
//     node hosts/web/studio/photograph.mjs

import { writeFileSync } from 'node:fs';
import path from 'node:path';
import { spawnSync } from 'node:child_process';
import { fileURLToPath, pathToFileURL } from 'node:url';
import { programOf } from '../browser.mjs';
import { opened } from './browse.mjs';

const DOCS = path.resolve(path.dirname(fileURLToPath(import.meta.url)), '../../../docs');
const ALL = { x: 0, y: 0, width: 1280, height: 800 }, RIGHT = '.right', LEFT = '.left', DOWN = '.looking';
const SHOWN = 281; // the frame of starfall

// What each picture shows: what is done before, and which part of the page it has.
const PICTURES = {
    source: ['studio.editor.visit(287), studio.editor.area.setSelectionRange(0, 0), studio.panes.open("processor")', null],
    fault: [`(() => { const { area } = studio.editor, at = area.value.indexOf('STARS   EQU 4 ') + 12; area.scrollTop = 0; area.focus(); area.setSelectionRange(at, at + 1);
        document.execCommand('insertText', false, 'FOUR'); })()`, LEFT],
    memory: ["document.execCommand('undo'), studio.panes.open('memory')", DOWN],
    pictures: ['studio.deck.tellPixel(174, 152)', RIGHT],
    voices: ["studio.panes.open('voices')", DOWN],
    who: ['studio.asks(0x5061)', DOWN],
    stops: [`studio.visits(20, 0), studio.panes.open('stops'), ['161', '165'].forEach((line) => studio.picks(Number(line), false)),
        (document.querySelector('.stops input').value = 'BC = 10H'), studio.panes.all.stops.renew(), studio.deck.toStop(false)`, null],
};

async function main() {
    const page = await opened(programOf(['chromium', 'chromium-browser', 'google-chrome']), pathToFileURL(path.join(DOCS, 'studio.html')).href, ALL);
    await page.value('studio.deck.pause()');
    await page.value(`studio.visits(${SHOWN}, 0)`);
    for (const [name, [does, selector]] of Object.entries(PICTURES)) {
        await page.value(`(async () => { await (${does}); })()`);
        await page.pause(1.5);
        const { x, y, width, height } = selector ? await page.value(`document.querySelector('${selector}').getBoundingClientRect().toJSON()`) : ALL;
        const { data } = await page.call('Page.captureScreenshot', { format: 'png', clip: { x, y, width, height, scale: 1 } });
        const file = path.join(DOCS, `studio-${name}.png`);
        writeFileSync(file, Buffer.from(data, 'base64'));
        spawnSync('pngquant', ['--force', '--strip', '--speed', '1', '--output', file, '64', file]);
        console.log(file);
    }
    await page.close();
}

main();
