// Tries the same moment under new code, with what may come between: another edit, a way back, a key, an end; and what is shown meanwhile.

import { Board } from '../board.js';
import { equal } from './bytes.js';
import { Run } from './run.js';
import { Session } from './session.js';
import { Tape } from './tape.js';

const LONG = 3000, SOME = 1200; // frames

// The block of a run of its own at a moment.
function direct(board, roms, masks, frame, inside = 0) {
    return new Run(board, roms, new Tape(masks), null).go(frame, inside).board.block;
}

// The look ahead that is shown until all is played again.
async function previews({ session, controls, masks, variant, begin, isAt, row, board }) {
    const block = () => session.run.board.block;
    await begin(SOME);
    const since = performance.now(), whole = session.replace(variant(2), undefined, true), shown = performance.now() - since;
    const old = new Run(board, variant(4), new Tape(masks)).go(SOME - 60), kept = old.board.block;
    board.sockets = variant(2);
    board.block = kept;
    for (let frame = SOME - 60; frame < SOME; frame++) {
        board.hold(masks[frame]);
        board.run(16500);
    }
    row('a long session is previewed: the new code from the snapshot a second ago', session.isPreview && equal(block(), board.block)
        && equal(session.roms, variant(2)));
    const scout = session.scout('pixel');
    row('which may be looked at', equal(scout.board.block, block()));
    row('and is replaced by all of it', await whole && !session.isPreview && session.wasRight === false && isAt(2, SOME));
    console.log(`a preview of ${SOME} frames after ${shown.toFixed(0)} ms`);

    await begin(SOME);
    const unread = variant(4).slice();
    unread[0x3fff] ^= 1;
    const right = session.replace(unread, undefined, true);
    row('it is right where nothing before it read what has changed', session.isPreview && await right && session.wasRight === true
        && equal(session.run.roms, unread) && equal(block(), direct(board, unread, masks, SOME)));
    await begin(600);
    const short = session.replace(variant(2), undefined, true);
    row('a short session has none', !session.isPreview && await short && session.wasRight === null && isAt(2, 600));
    await begin(SOME);
    const none = variant(4).slice();
    none.fill(0xed, 0, 0x100);
    const stops = session.replace(none, undefined, true);
    row('nor has one that stops', !session.isPreview && isAt(4, SOME) && await stops && session.run.stop !== null);

    await begin(SOME);
    const undone = [session.replace(variant(2), undefined, true), session.replace(variant(4), undefined, true)];
    row('the old code once more ends it', !session.isPreview && isAt(4, SOME) && await undone[0] === false && await undone[1] === true && isAt(4, SOME));
    await begin(SOME);
    const two = [session.replace(variant(2), undefined, true), session.replace(variant(1), undefined, true)];
    row('another edit has a preview of its own', session.isPreview && equal(session.roms, variant(1)) && await two[0] === false && await two[1] === true
        && isAt(1, SOME));
    await begin(SOME);
    const moved = session.replace(variant(2), undefined, true);
    session.run.go(950);
    controls.held = 8;
    session.take();
    for (let frame = 0; frame < 100; frame++) session.advance();
    const held = [...masks.slice(0, 950), ...Array(100).fill(8)], there = block();
    session.run.go(1000);
    session.run.go(1050);
    row('a preview that is played goes where it went', session.isPreview && equal(block(), there));
    row('and so goes all of it', await moved && isAt(2, 1050, 0, held));
    controls.held = 0;
    await begin(SOME);
    session.replace(variant(2), undefined, true);
    session.begin(variant(1), masks.slice(0, 30));
    row('a new beginning ends it', !session.isPreview && await session.go(30) && isAt(1, 30) && session.spare.length === 2);
}

export async function sessions(files, assembler, { example, row }) {
    const module = await WebAssembly.compile(files['pac_host.wasm']), source = example('starfall', 'asm').toString();
    const romsOf = (text) => Buffer.concat([assembler.assemble(new TextEncoder().encode(text)).rom, files.set]);
    const variant = (stars) => romsOf(source.replace('STARS   EQU 4 ', `STARS   EQU ${stars} `));
    const masks = Array.from({ length: LONG }, (_, frame) => (frame >= 140 && frame < 144 ? 8192 : frame % 90 < 30 ? 4 : frame % 90 < 60 ? 2 : 0));
    const controls = { held: 0 }, session = new Session(module, romsOf(source), controls, () => undefined), board = session.board();
    const begin = async (frame, inside = 0) => {
        session.begin(romsOf(source), masks);
        await session.go(frame, inside);
    };
    const isAt = (stars, frame, inside = 0, held = masks) => session.run.frame === frame && session.run.inside >= inside
        && equal(session.run.board.block, direct(board, variant(stars), held, frame, inside));

    await begin(LONG);
    row('a session goes where a run goes', isAt(4, LONG));
    let slices = 0;
    const since = performance.now();
    row('the same moment under new code', await session.replace(variant(2), () => { slices++; }) && isAt(2, LONG));
    console.log(`${LONG} frames again in ${(performance.now() - since).toFixed(0)} ms, told ${slices} times`);
    await begin(700, 5000);
    row('within a frame too', await session.replace(variant(3)) && isAt(3, 700, 5000));

    await begin(LONG);
    const [first, second] = [session.replace(variant(1)), session.replace(variant(2))];
    row('the next edit calls it off', await first === false && await second === true && isAt(2, LONG));

    await begin(LONG);
    const replaced = session.replace(variant(2)), went = session.go(90);
    row('a way back meanwhile ends under the new code', await replaced && (await went, true));
    for (let turn = 0; session.isBusy && turn < 1000; turn++) await new Promise((then) => setTimeout(then, 5));
    row('where one wanted to', isAt(2, 90));

    await previews({ session, controls, masks, variant, begin, isAt, row, board });

    await begin(400);
    const changed = session.replace(variant(1));
    session.run.go(200);
    controls.held = 8;
    session.take();
    for (let frame = 0; frame < 100; frame++) session.advance();
    const held = [...masks.slice(0, 200), ...Array(100).fill(8)];
    row('a key meanwhile is held under the new code', await changed && isAt(1, 300, 0, held));
    session.run.go(250);
    session.run.go(120);
    row('and no snapshot is of what was held before', isAt(1, 120) && equal(session.run.go(300).board.block, direct(board, variant(1), held, 300)));

    await begin(300);
    const none = Buffer.concat([Buffer.alloc(16384), files.set]);
    none.set([0xed, 0], 0);
    row('new code that stops is shown where it stops', await session.replace(none) && session.run.stop?.pc === 0 && !session.run.canGo
        && session.advance() === null);
    row('and the next edit goes on from there', await session.replace(variant(4)) && session.run.canGo);
    const { start } = new Run(board, variant(4), new Tape(masks), direct(board, variant(4), masks, 50));
    session.begin(variant(4), masks, { start });
    await session.go(10);
    row('from a state the moments go on', session.run.start.length === 67756 && await session.replace(variant(2)) && session.run.frame === 10);
    session.begin(variant(4), masks.slice(0, 20), { isDemo: true });
    for (let frame = 0; frame < 25; frame++) session.advance();
    row('a demo begins again at its end', session.run.frame === 5 && session.tape.length === 20);
    session.begin(variant(4), Array(36000).fill(0));
    session.run.frame = 36000;
    row('after ten minutes it rests', session.advance() === null);
}
