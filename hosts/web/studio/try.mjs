// Tries the studio in Chromium without a window, or in Firefox: tools/check/studio calls it.
//
//     node hosts/web/studio/try.mjs [--firefox] PAGE PACBOARD FOLDER [ADDRESS FILE]
//
// PAGE is docs/studio.html, PACBOARD the built program, FOLDER one for what is made on the way; ADDRESS is that of a page that ./play serves, and
// FILE the source that it follows. The last line is `N passed, M failed`.

import { createHash } from 'node:crypto';
import { existsSync, readFileSync, writeFileSync } from 'node:fs';
import path from 'node:path';
import { pathToFileURL } from 'node:url';
import { spawnSync } from 'node:child_process';
import { programOf } from '../browser.mjs';
import { opened } from './browse.mjs';
import { hostile } from './hostile.mjs';

const WORDS = process.argv.slice(2), IS_FIREFOX = WORDS[0] === '--firefox';
const [PAGE, PACBOARD, FOLDER, ADDRESS, FILE] = WORDS.slice(IS_FIREFOX ? 1 : 0);
const BROWSER = programOf(IS_FIREFOX ? ['firefox-esr', 'firefox'] : ['chromium', 'chromium-browser', 'google-chrome']);
const ROOT = path.resolve(path.dirname(PAGE), '..');
const IMAGE = 193551, HEAD = 15; // bytes of an image, and of its head
const FILMED = 200; // tenths of a second, at most
const SLOWEST = 20; // frames a second: the machine may be busy, and the true rate is told
const OPENED = 1000, KEYED = 100; // milliseconds: told, and judged at this many times as long, since the machine may be busy
const BUSY = 4;
const HELD = 3218, DIGEST = 20; // of a state file: where what is held is, and the bytes at its end

let passed = 0, failed = 0;

function row(what, isSo, told = '') {
    if (isSo) passed++;
    else failed++;
    console.log(isSo ? what : `FAILED: ${what}${told ? `: ${told}` : ''}`);
}

// Whether two state files are those of one board, whatever it holds: the program lets all go at a run's end.
function isSameBoard(one, other) {
    const parts = [[0, HELD], [HELD + 2, one.length - DIGEST]];
    return one.length === other.length && parts.every(([from, to]) => one.subarray(from, to).equals(other.subarray(from, to)));
}

const sum = (bytes) => createHash('sha1').update(bytes).digest('hex');

// A run of the program: its last picture, as four bytes a pixel, and the state at its end.
function played(source, script, set = path.join(ROOT, 'examples/set.toml')) {
    const at = (name) => path.join(FOLDER, name);
    writeFileSync(at('run.asm'), source);
    writeFileSync(at('run.script'), script);
    const words = ['run', '--set', set, '--source', at('run.asm'), '--script', at('run.script'), '--frames', at('run.ppm'), '--wave', at('run.wav'),
        '--listing', at('run.txt'), '--save', at('run.state')];
    const { status, stderr } = spawnSync(PACBOARD, words, { encoding: 'utf8' });
    if (status !== 0 && status !== 5) throw new Error(`pacboard run: ${status} ${stderr}`);
    const last = readFileSync(at('run.ppm')).subarray(-IMAGE).subarray(HEAD), rgba = Buffer.alloc(4 * last.length / 3, 255);
    for (let pixel = 0; pixel < last.length / 3; pixel++) last.copy(rgba, 4 * pixel, 3 * pixel, 3 * pixel + 3);
    return { rgba, state: readFileSync(at('run.state')) };
}

// The lines of a script up to a frame.
function scriptTo(text, frames) {
    const lines = [];
    for (const line of text.split('\n').filter((one) => /^\d/.test(one))) {
        const [count, names] = line.split(' '), some = Math.min(Number(count), frames);
        if (some > 0) lines.push(`${some} ${names}`);
        frames -= some;
    }
    return `${lines.join('\n')}\n`;
}

const example = (name, end) => readFileSync(path.join(ROOT, `examples/${name}.${end}`), 'utf8');
const rest = 'studio.deck.pause()';
const goes = (frame, inside = 0) => `studio.visits(${frame}, ${inside})`;
const settled = '!studio.session.isBusy';

// It opens, plays by itself, and is played.
async function playing(page) {
    const opening = await page.value("performance.getEntriesByName('first picture')[0].startTime");
    row('it opens with a picture', opening < BUSY * OPENED, `${Math.round(opening)} ms`);
    console.log(`the first picture after ${Math.round(opening)} ms`);
    row('starfall plays, as a demo', await page.value("studio.session.isDemo && studio.loop.isPlaying && document.getElementById('mode').textContent.startsWith('Demo')"));
    await page.value(rest);
    await page.value(goes(281));
    const starfall = played(example('starfall', 'asm'), scriptTo(example('starfall', 'script'), 281));
    row('frame 281 of it, pixel by pixel, is that of pacboard run', starfall.rgba.equals(await page.canvas()));
    await page.value('studio.deck.play()');
    await page.pause(0.3);
    await page.click('#frame');
    await page.strike('ArrowRight', 'keyDown');
    await page.pause(0.5);
    await page.strike('ArrowRight', 'keyUp');
    await page.pause(0.3);
    row('a key takes over, and is held and let go', await page.value("!studio.session.isDemo && studio.session.tape.all().includes(4) && studio.session.tape.all().at(-1) === 0"));
    const rate = await page.value(`(async () => { const from = studio.loop.frames, since = performance.now(); await new Promise((then) => setTimeout(then, 3000));
        return [(studio.loop.frames - from) / (performance.now() - since) * 1000, studio.speaker.isOn, studio.speaker.dry / 96000]; })()`);
    row('60.6 frames a second, as far as the machine has time', rate[0] > SLOWEST && rate[0] < 62, String(rate));
    const isHeard = !IS_FIREFOX || await page.value("studio.speaker.context?.state === 'running'");
    if (isHeard) row('with sound', rate[1]);
    else console.log('left out: sound, and a film with it, since this Firefox finds no device for it');
    console.log(`${rate[0].toFixed(2)} frames a second with sound, of which ${rate[2].toFixed(2)} s came too late`);
    await page.value(rest);
    const { frame, state } = await page.value('({ frame: studio.session.run.frame, state: Array.from(studio.session.run.board.save()) })');
    const script = await page.saved("document.querySelector('[data-save=script]').click()");
    const again = played(example('starfall', 'asm'), scriptTo(script.bytes.toString(), frame));
    row('what was played, as a script, is the same picture under pacboard run', again.rgba.equals(await page.canvas()));
    row('and the same state, to the byte, but for what is held', isSameBoard(again.state, Buffer.from(state)));
    return script.bytes;
}

// The slider, frames and steps, on and back.
async function moving(page) {
    const { frame } = await page.value('({ frame: studio.session.run.frame })'), block = 'Array.from(studio.session.run.board.block).join()';
    await page.value(`(() => { const slider = document.getElementById('moment'); slider.value = 100; slider.dispatchEvent(new Event('input')); slider.dispatchEvent(new Event('change')); })()`);
    await page.until(settled);
    row('the slider goes to a frame', (await page.value('studio.moment')) === '100:0' && frame > 100);
    const hundred = sum(await page.value(block));
    await page.press('Period');
    await page.until(settled);
    row('a frame on', (await page.value('studio.moment')) === '101:0');
    await page.press('Comma');
    await page.until(settled);
    row('and back, to the same bytes', (await page.value('studio.moment')) === '100:0' && sum(await page.value(block)) === hundred);
    const states = [hundred];
    for (let step = 0; step < 20; step++) {
        await page.press('F10');
        states.push(sum(await page.value(block)));
    }
    row('twenty steps on are twenty moments', new Set(states).size === 21);
    let isSame = true;
    for (let step = 19; step >= 0; step--) {
        await page.press('F10', 8);
        const { steps } = await page.value('({ steps: studio.session.run.board.block.slice(66, 74).join() })');
        isSame &&= steps.length > 0;
        if (step === 0) isSame &&= sum(await page.value('Array.from(studio.session.run.board.block.slice(0, 74)).join()')) === sum(await page.value(`studio.visits(100, 0).then(() => Array.from(studio.session.run.board.block.slice(0, 74)).join())`));
    }
    row('and twenty back come to where they began', isSame);
    const tape = await page.value('studio.session.tape.length');
    await page.value('studio.deck.play()');
    await page.until(`studio.session.run.frame > 110`);
    row('what was played is played again, and stays', (await page.value('studio.session.tape.length')) === tape);
    await page.value(rest);
}

// Gamepads, fingers, the quarter turn and the full screen.
async function holding(page) {
    await page.value('studio.deck.play()');
    const waited = await page.value(`new Promise((then) => { const since = performance.now(), from = studio.loop.frames;
        dispatchEvent(new KeyboardEvent('keydown', { code: 'ArrowLeft' }));
        (function wait() { if (studio.loop.frames > from) then(performance.now() - since); else requestAnimationFrame(wait); })(); })`);
    console.log(`${waited.toFixed(0)} ms from a key to its frame`);
    row('a key is in a frame within a tenth of a second', waited < BUSY * KEYED, String(waited));
    await page.value("dispatchEvent(new Event('blur'))");
    row('where the window loses the keys all are let go', await page.value('studio.controls.held === 0'));
    await page.value('navigator.getGamepads = () => [null, { connected: true, axes: [0.9, -0.9], buttons: Array.from({ length: 16 }, (_, at) => ({ pressed: at === 9 })) }]');
    await page.until('studio.controls.held === 0x2005');
    row('a gamepad holds joystick and start', true);
    await page.value('(navigator.getGamepads = () => [])');
    await page.until('studio.controls.held === 0');
    await page.value("studio.editor.area.focus()");
    await page.strike('ArrowLeft', 'keyDown');
    await page.strike('ArrowLeft', 'keyUp');
    row('keys in the editor are not the board\'s', await page.value('!studio.session.tape.all().slice(-3).includes(2)'));
    await page.value(rest);
    await page.click('#turn');
    const { width, height } = await page.value("document.getElementById('frame').getBoundingClientRect().toJSON()");
    row('a quarter turn', height > width && await page.value("document.getElementById('turn').getAttribute('aria-pressed') === 'true'"));
    await page.click('#frame', 1 - 100.5 / 224, 60.5 / 288);
    const told = await page.value("document.querySelector('.told-here').textContent");
    row('a click on it tells the pixel', told.startsWith('Pixel 60, 100:'), told);
    await page.click('#turn');
    await page.click('#full');
    await page.pause(0.5);
    row('full screen', await page.value("document.fullscreenElement === document.getElementById('stage')"));
    await page.value('document.exitFullscreen()');
    await page.pause(0.3);
}

// The player on a phone.
async function touching() {
    const page = await opened(BROWSER, pathToFileURL(PAGE).href, { width: 390, height: 844 });
    await page.call('Emulation.setTouchEmulationEnabled', { enabled: true });
    await page.call('Emulation.setDeviceMetricsOverride', { width: 390, height: 844, deviceScaleFactor: 2, mobile: true });
    await page.pause(0.5);
    const { x, y, width, height } = await page.value("document.getElementById('stick').getBoundingClientRect().toJSON()");
    row('on a phone there is a joystick for a finger', width > 100 && y + height < 844);
    await page.call('Input.dispatchTouchEvent', { type: 'touchStart', touchPoints: [{ x: x + 0.9 * width, y: y + 0.5 * height }] });
    await page.pause(0.2);
    row('which is held', await page.value('studio.controls.held === 4 && !studio.session.isDemo'));
    await page.call('Input.dispatchTouchEvent', { type: 'touchEnd', touchPoints: [] });
    await page.pause(0.2);
    row('and let go', await page.value('studio.controls.held === 0'));
    row('the picture is as wide as the phone', await page.value("document.getElementById('frame').getBoundingClientRect().width === 390 && document.documentElement.scrollWidth <= 390"));
    await page.close();
}

// Who wrote a byte, what shows at a pixel, and the way to a line: the session of docs/DEBUGGING.md.
async function looking(page) {
    await page.value("studio.begin('starfall', new TextDecoder().decode(studio.files['starfall.asm']), Array(600).fill(0).map((_, at) => (at >= 18 && at < 32 ? 4 : 0)))");
    await page.value(rest);
    await page.value(goes(20));
    await page.value('studio.asks(0x5061)');
    await page.until("document.querySelectorAll('.touches > *').length >= 12");
    const touch = await page.value("document.querySelector('.touches > *').textContent");
    row('who wrote 5061H: the LDIR in frame 19, at T-state 467', touch.startsWith('19T 467C0 → BE') && touch.includes('0117'), touch);
    await page.value("document.querySelector('.touches button').click()");
    await page.until("studio.moment !== '20:0'");
    row('and the way there', (await page.value('studio.session.run.board.block.slice(66, 70).join()')) === [196647 & 255, 196647 >> 8 & 255,
        196647 >> 16, 0].join());
    await page.value(goes(281));
    const [top, left] = await page.value('Array.from(studio.session.run.board.block.slice(3154, 3156))'), x = 272 - left + 8, y = top - 31 + 10;
    const boat = await page.value(`studio.deck.tellPixel(${x}, ${y})`), sky = await page.value('studio.deck.tellPixel(100, 100)');
    row('a click on the boat tells its sprite', boat.kind === 'sprite' && boat.palette === 8 && [1, 2].includes(boat.code), JSON.stringify(boat));
    row('a click on the sky tells its cell', sky.kind === 'cell' && sky.address === 0x41ca && sky.colour === 0x45ca && sky.palette === 1,
        JSON.stringify(sky));
    await page.click('#frame', (x + 0.5) / 288, (y + 0.5) / 224);
    row('by the mouse too', (await page.value("document.querySelector('.told-here').textContent")).includes('sprite'));
    await page.value(goes(18));
    const line = await page.value('studio.listing.lineAt.get(0x0117)');
    await page.value(`studio.editor.show(${line})`);
    await page.until(`document.querySelector('.gutter [data-line="${line}"]') !== null`);
    await page.value(`document.querySelector('.gutter [data-line="${line}"]').dispatchEvent(new MouseEvent('click', { bubbles: true, shiftKey: true }))`);
    await page.until(`studio.moment !== '18:0' && ${settled}`);
    const place = await page.value('[...studio.session.run.board.block.slice(52, 54), ...studio.session.run.board.block.slice(66, 69)].join()');
    row('a click with Shift on the number of the LDIR runs to it', place === [0x17, 0x01, ...[0, 8, 16].map((bit) => 185803 - 1 >> bit & 255)].join()
        || place.startsWith('23,1,'), place);
    const moment = await page.value('studio.moment');
    await page.value(`studio.runsTo(${line}, true)`);
    const before = await page.value('studio.moment');
    row('and back to the time before', before !== moment && (await page.value('studio.session.run.board.block.slice(52, 54).join()')) === '23,1',
        `${moment} ${before}`);
    for (const pane of ['processor', 'memory', 'pictures', 'voices', 'who', 'help']) await page.value(`studio.panes.open('${pane}')`);
    row('each pane opens', page.faults.length === 0, page.faults.join('\n'));
}

// Breakpoints, and the ways over calls and out of them: the session of docs/DEBUGGING.md, whose steps are those of `pacboard debug`.
async function breaking(page) {
    await page.value("studio.begin('starfall', new TextDecoder().decode(studio.files['starfall.asm']), Array(600).fill(0).map((_, at) => (at >= 18 && at < 32 ? 4 : 0)))");
    await page.value(rest);
    await page.value(goes(18));
    const line = await page.value('studio.listing.lineAt.get(0x0117)'), number = (at) => `.gutter [data-line="${at}"]`;
    const where = () => page.value('(({ pc, steps }) => `${pc.toString(16)} ${steps}`)(studio.session.run.board.registers)');
    const marked = () => page.value("[...document.querySelectorAll('.gutter .stop')].map(({ dataset }) => Number(dataset.line)).join()");
    const shown = () => page.value("[...document.querySelectorAll('.stops > *')].map(({ textContent }) => textContent).join(' / ')");
    const drawn = 'new Promise((then) => requestAnimationFrame(() => requestAnimationFrame(then)))';
    const conditions = (text) => page.value(`(() => { const field = document.querySelector('.stops input'); field.value = ${JSON.stringify(text)}; field.dispatchEvent(new Event('change')); })()`);
    const strikes = async (key, modifiers = 0) => {
        await page.press(key, modifiers);
        await page.until(settled);
        return where();
    };
    await page.value(`(studio.editor.show(${line}), ${drawn})`);
    await page.click(`${number(line)} b`);
    await page.value(drawn);
    await page.value("studio.panes.open('stops')");
    row('a click on a number sets a breakpoint', (await marked()) === String(line) && (await shown()) === `line ${line}  0117×`, await shown());
    await page.value('studio.deck.play()');
    await page.until('!studio.loop.isPlaying');
    const rested = await page.value("[document.getElementById('mode').textContent, studio.editor.current, studio.session.isReplay].join()");
    row('what is played rests there', (await where()) === '117 185802' && rested === `At a breakpoint,${line},true`, `${await where()} ${rested}`);
    row('F8 goes on to the next time', (await strikes('F8')) === '117 185803');
    await conditions('BC = 10H');
    row('a condition is looked at there: the time of docs/DEBUGGING.md', (await strikes('F8')) === '117 196646', await where());
    row('and Shift F8 goes back to the time before', (await strikes('F8', 8)) === '117 185802', await where());
    await conditions('(WORK) = NOWHERE');
    row('a condition that is none says so, and stops nothing', (await shown()).includes('NOWHERE is no register') && await page.value('studio.session.stops === null'));
    await conditions('');
    const call = await page.value('studio.listing.lineAt.get(0x011d)'), caret = (at) => page.value(`studio.editor.visit(${at})`);
    await caret(call);
    const there = await strikes('F9'), after = await strikes('F6');
    row('F6 steps over a call', there.startsWith('11d ') && after.startsWith('120 ') && Number(after.slice(4)) > Number(there.slice(4)) + 5, `${there}, ${after}`);
    row('and Shift F6 back over it', (await strikes('F6', 8)) === there);
    const inside = await strikes('F10');
    await page.press('F10');
    row('F7 goes out of it', inside.startsWith('135 ') && (await strikes('F7')) === after, await where());
    await strikes('F9', 8);
    await page.press('F10');
    await page.press('F10');
    row('and Shift F7 back to its call', (await strikes('F7', 8)) === there, await where());
    await page.value("(({ area }) => { area.focus(); area.setSelectionRange(0, 0); document.execCommand('insertText', false, '; one more\\n'); })(studio.editor)");
    await page.value(`(studio.editor.show(${line}), ${drawn})`);
    row('a breakpoint goes with its line', (await marked()) === String(line + 1) && (await shown()) === `line ${line + 1}  0117×`, `${await marked()} ${await shown()}`);
    await page.until('!studio.editor.isStale');
    row('and stays at its place once that is assembled', (await marked()) === String(line + 1) && (await shown()) === `line ${line + 1}  0117×`, await shown());
    await page.value("document.execCommand('undo')");
    await page.until(`document.querySelector('.stops').textContent.includes('line ${line} ')`);
    await page.value(drawn);
    await page.click(`${number(line)} b`);
    row('a second click takes it away', (await shown()) === '' && await page.value('studio.session.stops === null'));
    await caret(call);
    await page.press('F8', 2);
    row('Ctrl F8 sets one at the caret', (await shown()) === `line ${call}  011D×`, await shown());
    await page.value("(({ field }) => { field.value = 'SING'; field.dispatchEvent(new Event('change')); })(studio.panes.all.stops)");
    row('and a name one at its address', (await shown()).endsWith(' / 0135×'), await shown());
    const watches = (text) => page.value(`(({ watched }) => { watched.value = '${text}'; watched.dispatchEvent(new Event('change')); })(studio.panes.all.stops)`);
    await watches('WORK');
    row('and one after writes to it', (await shown()).endsWith(' / written to  4C00×'), await shown());
    await watches('rw WORK');
    row('or after reads, too', (await shown()).endsWith(' / read or written to  4C00×'), await shown());
    await watches('R 4C31');
    await page.value('studio.panes.all.stops.all.splice(0, 3), studio.panes.all.stops.renew()');
    await strikes('F8');
    const told = await page.value("document.getElementById('mode').textContent");
    row('and after reads alone, which are told', (await shown()) === 'read  4C31×' && /^4C31 read, [0-9A-F]{2}$/.test(told), `${await shown()} ${told}`);
    await page.value("studio.begin('hello', new TextDecoder().decode(studio.files['hello.asm']))");
    row('another source has none', (await shown()) === '' && await page.value('studio.session.stops === null'));
    await page.value(rest);
}

// The same moment under new code, and what is refused.
async function editing(page) {
    const source = example('starfall', 'asm'), other = source.replace('STARS   EQU 4 ', 'STARS   EQU 2 ');
    await page.value(`studio.begin('starfall', ${JSON.stringify(source)}, ${JSON.stringify(Array.from({ length: 600 }, (_, at) => (at >= 140 && at < 144 ? 8192 : at % 90 < 30 ? 4 : at % 90 < 60 ? 2 : 0)))})`);
    await page.value(rest);
    await page.value(goes(600));
    const script = await page.saved("document.querySelector('[data-save=script]').click()");
    const before = await page.canvas(), since = Date.now();
    await page.value(`(() => { const { area } = studio.editor, at = area.value.indexOf('STARS   EQU 4 ') + 12; area.focus(); area.setSelectionRange(at, at + 1); document.execCommand('insertText', false, '2'); })()`);
    await page.until("document.getElementById('assembled').textContent.includes('same moment')");
    console.log(`${Date.now() - since} ms from the key: ${await page.value("document.getElementById('assembled').textContent")}`);
    const wanted = played(other, scriptTo(script.bytes.toString(), 600)), now = await page.canvas();
    row('an edit shows the same moment under new code', wanted.rgba.equals(now) && !now.equals(before));
    row('and its state is that of pacboard run', isSameBoard(wanted.state,
        Buffer.from(await page.value('Array.from(studio.session.run.board.save())'))));
    await page.value("document.execCommand('insertText', false, '+WHERE')");
    await page.until("!document.getElementById('problem').hidden");
    const told = await page.value("document.getElementById('problem').textContent");
    row('a fault is told with its line, its code and a cause', /A4 {2}line 7/.test(told) && told.includes('WHERE is defined nowhere'), told);
    row('its line is marked', (await page.value('studio.editor.fault')) === 7);
    const stands = (text) => `(() => { const { area } = studio.editor, at = ${text}; area.setSelectionRange(at, at); })()`;
    await page.value(stands('area.value.length'));
    await page.value("document.execCommand('insertText', false, '        LD A,300')");
    await page.until("document.getElementById('problem-others').textContent.includes('also')");
    const also = await page.value("document.getElementById('problem-others').textContent"), last = other.split('\n').length;
    row('another fault is told, too, and its line is marked', also.includes('A9  the value is 300') && (await page.value(`studio.editor.others.has(${last})`)), also);
    await page.value("document.execCommand('undo')");
    await page.value(stands("area.value.indexOf('+WHERE') + 6"));
    row('and the old program stays', now.equals(await page.canvas()));
    const margins = (line) => `document.querySelector('.gutter [data-line="${line}"]').textContent`;
    const [above, below] = [await page.value(margins(6)), await page.value('studio.editor.rowOf(161).address')];
    await page.value("document.execCommand('insertText', false, '\\n')");
    row('addresses stay beside their lines', (await page.value(margins(6))) === above && (await page.value('studio.editor.rowOf(162).address')) === below && below === 0x117);
    await page.value("document.execCommand('undo')");
    await page.value('studio.deck.play()');
    await page.pause(0.4);
    row('and goes on', await page.value('studio.session.run.frame > 600'));
    await page.value(rest);
    await page.value("document.execCommand('undo')");
    await page.until("document.getElementById('problem').hidden");
    row("the browser's way back takes it away", (await page.value('studio.editor.text')) === other);
}

// A preview, until a long session is played again.
async function previewing(page) {
    const source = example('starfall', 'asm'), held = Array.from({ length: 3000 }, (_, at) => (at % 90 < 30 ? 4 : 0));
    const types = (from, to) => page.value(`(() => { const { area } = studio.editor, at = area.value.indexOf('${from}'); area.focus();
        area.setSelectionRange(at, at + ${from.length}); document.execCommand('insertText', false, '${to}'); })()`);
    const told = "document.getElementById('assembled').textContent";
    await page.value(`studio.begin('starfall', ${JSON.stringify(source)}, ${JSON.stringify(held)})`);
    await page.value(rest);
    await page.value(goes(3000));
    await types('STARS   EQU 4 ', 'STARS   EQU 2 ');
    await page.until("studio.session.isPreview && /^Preview.*%/.test(document.getElementById('mode').textContent)");
    const mode = await page.value("document.getElementById('mode').textContent + document.getElementById('stage').className");
    row('a long session is previewed at once, and the page says so', /^Preview; replayed: \d+%stage.* preview$/.test(mode), mode);
    const { bytes } = await page.saved("document.querySelector('[data-save=state]').click()");
    const { state } = played(source.replace('STARS   EQU 4 ', 'STARS   EQU 2 '), scriptTo(held.map((mask) => `1 ${mask ? 'P1_RIGHT' : '-'}`).join('\n'), 3000));
    row('a state that is saved meanwhile is that of all of it', isSameBoard(state, bytes));
    await page.until(`${told}.includes('same moment')`);
    row('whether the preview was right is told', / \(3,000 frames, not as previewed\)$/.test(await page.value(told)), await page.value(told));
    await types('        LD SP,STACK', '        NOP\\n        LD SP,STACK');
    await page.until("document.getElementById('mode').textContent.startsWith('Playing it again')");
    row('where names have moved there is none', !await page.value('studio.session.isPreview'));
    await page.until(`${told}.endsWith('(3,000 frames)')`);
    await page.value(`studio.begin('starfall', ${JSON.stringify(source)})`);
    await page.value(rest);
}

// A source that ./play has translated: faults are told by the lines of the file on the disk.
async function translated(page) {
    const problem = "document.getElementById('problem').textContent", source = '        LD A,1\n        ORG 0\n        LD A,2\n';
    await page.value("studio.entries.follows([], { isFirst: false, places: [], refused: '/a/b.asm:7: there is no X' })");
    const refused = await page.value(problem);
    row('why a source is not translated is told', refused.includes('b.asm:7') && refused.includes('there is no X'), refused);
    await page.value(`studio.entries.follows([{ name: 'b.asm', bytes: new TextEncoder().encode(${JSON.stringify(source)}) }], { isFirst: false,
        places: [['/a/b.asm', '11'], ['/a/c.inc', '12'], ['/a/b.asm', '13']], refused: null })`);
    await page.until("document.getElementById('problem').textContent.includes('A6')");
    const told = await page.value(problem);
    row('and faults by their lines on the disk', /A6 {2}line 13 of b\.asm/.test(told) && told.includes('line 11 of b.asm has bytes'), told);
    await page.value("studio.entries.follows([{ name: 'b.asm', bytes: new TextEncoder().encode('        NOP') }], { isFirst: false, places: [], refused: null })");
    await page.until("document.getElementById('problem').hidden");
}

// A film of what is played, as the browser records it.
async function filming(page) {
    await page.value("document.querySelector('[data-save=film]').click()");
    const size = '(studio.exits.film?.pieces.reduce((sum, { size }) => sum + size, 0) ?? 0)';
    for (let tenth = 0; tenth < FILMED && await page.value(size) < 10_000; tenth++) await page.pause(0.1);
    const told = await page.value(`JSON.stringify([${size}, studio.exits.film?.recorder.state, studio.speaker.context?.state, studio.speaker.isOn, studio.loop.isPlaying, studio.loop.frames,
        studio.exits.film?.recorder.stream.getTracks().map(({ kind, readyState, muted }) => [kind, readyState, muted]), document.visibilityState])`);
    const film = await page.saved("document.querySelector('[data-save=film]').click()");
    row('a film is recorded', film.bytes.length > 10_000 && film.bytes.readUInt32BE(0) === 0x1a45dfa3, `${film.name} ${film.bytes.length} ${told}`);
}

// What goes out and comes in again.
async function outside(page, script) {
    const state = await page.saved("document.querySelector('[data-save=state]').click()");
    await page.value("studio.begin('hello', new TextDecoder().decode(studio.files['hello.asm']))");
    await page.value(rest);
    const other = await page.hand({ 'mine.state': state.bytes });
    row('a state of another set is refused by name', other.startsWith('V6mine.state'), other);
    await page.value("studio.begin('starfall', studio.text = new TextDecoder().decode(studio.files['starfall.asm']).replace('STARS   EQU 4 ', 'STARS   EQU 2 '))");
    row('a state goes on where it was', (await page.hand({ 'mine.state': state.bytes })).startsWith('Opened'));
    const beside = await page.hand({ 'other.asm': example('hello', 'asm'), 'mine.state': state.bytes });
    row('a state beside another source is refused, and nothing of them is taken', beside.startsWith('V6mine.state')
        && (await page.value('studio.name')) === 'starfall', beside);
    await page.hand({ 'mine.script': script });
    row('a script is read as it was written', (await page.saved("document.querySelector('[data-save=script]').click()")).bytes.equals(script));
    const picture = await page.saved("document.querySelector('[data-save=picture]').click()");
    row('a picture is a PNG', picture.bytes.readUInt32BE(0) === 0x89504e47 && picture.bytes.readUInt32BE(16) === 288);
    if (await page.value("studio.speaker.context?.state === 'running'") || !IS_FIREFOX) await filming(page);
    await page.value(rest);
    const source = await page.value('studio.editor.text');
    await page.value('studio.exits.link()');
    const address = await page.value('location.href');
    const linked = await opened(BROWSER, address);
    row('a link has the source and what was played in it', (await linked.value('studio.editor.text')) === source
        && (await linked.value('studio.session.tape.length')) > 0);
    await linked.close();
    await page.value('studio.session.isWhole()'); // so that no replay draws between this look and the next
    const shown = await page.canvas(), game = await page.saved("document.getElementById('publish').click()"), file = path.join(FOLDER, 'mine.html');
    const frames = (await page.value('studio.session.run.frame')) === 60 ? 61 : 60; // after which the game shows another picture than the studio
    writeFileSync(file, game.bytes);
    const alone = await opened(BROWSER, pathToFileURL(file).href);
    await alone.value('game.loop.pause()');
    const first = await alone.value('(() => { const { game: it } = game; it.board.begin(it.roms); for (let frame = 0; frame < ' + frames
        + '; frame++) { it.board.hold(it.masks[frame]); it.board.run(16500); } it.show(); return it.masks.length; })()');
    const wanted = played(source, scriptTo(script.toString(), frames));
    row('a published game plays from file://, alone', first > 0 && wanted.rgba.equals(await alone.canvas()) && alone.faults.length === 0,
        alone.faults.join('\n'));
    const poster = /<img id="poster" class="poster" alt="" src="(data:image\/png;base64,[\w+/=]*)">/.exec(game.bytes.toString())?.[1];
    await alone.value(`(async () => {
        const picture = document.createElement('img'), context = document.getElementById('picture').getContext('2d');
        picture.src = '${poster}';
        await picture.decode();
        context.drawImage(picture, 0, 0);
    })()`);
    row('its poster is what the studio showed', shown.equals(await alone.canvas()) && !shown.equals(wanted.rgba));
    row('which is gone once the game has begun', await alone.value("document.getElementById('poster') === null"));
    console.log(`published: ${game.bytes.length} bytes`);
    await alone.close();
}

// The page that ./play serves.
async function following(page) {
    row('./play shows the source', (await page.value('studio.editor.text')) === readFileSync(FILE, 'utf8'));
    await page.value(rest);
    await page.value(goes(120));
    const since = Date.now();
    writeFileSync(FILE, readFileSync(FILE, 'utf8').replace('STARS   EQU 4 ', 'STARS   EQU 1 '));
    await page.until("studio.editor.text.includes('STARS   EQU 1 ') && document.getElementById('assembled').textContent.includes('same moment')");
    console.log(`${Date.now() - since} ms from the disk to the same moment`);
    row('a change on the disk is the same moment under new code', (await page.value('studio.moment')) === '120:0');
    await page.value('(studio.session.isDemo = false, studio.deck.play())');
    await page.pause(0.3);
    await page.value(rest);
    const written = FILE.replace(/\.asm$/, '.played.script');
    const isWritten = () => existsSync(written) && /^\d+ /m.test(readFileSync(written, 'utf8'));
    for (let turn = 0; turn < 50 && !isWritten(); turn++) await page.pause(0.1);
    row('what is played is written beside it', isWritten());
}

async function main() {
    const page = await opened(BROWSER, pathToFileURL(PAGE).href);
    try {
        const script = await playing(page);
        await moving(page);
        await holding(page);
        await looking(page);
        await breaking(page);
        await editing(page);
        await outside(page, script);
        await previewing(page);
        await translated(page);
        await hostile(page, row);
        row('nothing went wrong on the way', page.faults.length === 0, page.faults.join('\n'));
    } finally {
        await page.close();
    }
    if (IS_FIREFOX) console.log('left out: fingers on a phone, which this Firefox has no way to');
    else await touching();
    if (ADDRESS) {
        const live = await opened(BROWSER, ADDRESS);
        await following(live);
        row('nor with ./play', live.faults.length === 0, live.faults.join('\n'));
        await live.close();
    }
}

main().catch((error) => row('the tests come to their end', false, error.stack)).finally(() => {
    console.log(`${passed} passed, ${failed} failed`);
    process.exitCode = failed ? 1 : 0;
});
