// The menu of what goes out, and the ways in: buttons, and dropping.

import { at, download, refuse, tell } from './parts.js';
import { textOf } from './bytes.js';
import { Film, fragmentOf, published } from './outputs.js';
import { scriptOf } from './tape.js';

const OF_THE_RUN = ['state', 'picture']; // what is saved of a whole run, and of no preview

export class Exits {
    constructor(studio) {
        this.studio = studio;
        this.film = null;
        for (const button of document.querySelectorAll('[data-save]')) {
            button.addEventListener('click', () => this.save(button.dataset.save).catch(refuse));
        }
        at('link').addEventListener('click', () => this.link().catch(refuse));
        at('publish').addEventListener('click', () => this.publish().catch(refuse));
        at('open').addEventListener('click', () => at('files').click());
        at('files').addEventListener('change', ({ target }) => {
            studio.opens([...target.files]);
            target.value = '';
        });
        const menu = document.querySelector('.menu');
        addEventListener('pointerdown', ({ target }) => { if (!menu.contains(target)) menu.open = false; });
        menu.addEventListener('keydown', ({ key }) => { if (key === 'Escape') menu.open = false; });
        this.drops();
    }

    // Takes what is dropped anywhere.
    drops() {
        let depth = 0;
        const isFiles = ({ dataTransfer }) => [...dataTransfer?.types ?? []].includes('Files');
        addEventListener('dragenter', (event) => { if (isFiles(event)) at('drop').hidden = ++depth === 0; });
        addEventListener('dragleave', (event) => { if (isFiles(event)) at('drop').hidden = --depth === 0; });
        addEventListener('dragover', (event) => { if (isFiles(event)) event.preventDefault(); });
        addEventListener('drop', (event) => {
            if (!isFiles(event)) return;
            event.preventDefault();
            depth = 0;
            at('drop').hidden = true;
            this.studio.entries.opens([...event.dataTransfer.files]);
        });
    }

    // What was played.
    get masks() {
        return this.studio.session.tape.all();
    }

    // Hands over one of the files.
    async save(kind) {
        const { studio } = this, { name, session } = studio;
        document.querySelector('.menu').open = kind === 'film' ? document.querySelector('.menu').open : false;
        if (kind === 'source') studio.isChanged = false;
        if (OF_THE_RUN.includes(kind)) await session.isWhole();
        if (kind === 'source') download(`${name}.asm`, studio.editor.text, 'text/plain');
        else if (kind === 'script') await this.script();
        else if (kind === 'state') download(`${name}.state`, session.run.board.save());
        else if (kind === 'picture') at('picture').toBlob((blob) => download(`${name}.png`, blob));
        else if (kind === 'listing') download(`${name}.txt`, studio.listingText ?? '', 'text/plain');
        else if (kind === 'rom') download(`${name}.rom`, session.roms.slice(0, 16384));
        else await this.record();
    }

    // The script of what was played: to the disk where ./play serves the page, else as a file.
    async script() {
        const { studio } = this, script = scriptOf(this.masks);
        if (!studio.live.isThere) download(`${studio.name}.script`, script, 'text/plain');
        else tell('Written', await studio.live.keep(script));
    }

    // Where ./play serves the page, what somebody played is kept with each pause.
    keeps() {
        const { studio } = this, { session } = studio;
        if (studio.live.isThere && !session.isDemo && session.tape.length > 0) studio.live.keep(scriptOf(this.masks)).catch(refuse);
    }

    // Begins a film, or ends it and hands it over.
    async record() {
        const { studio } = this, button = document.querySelector('[data-save=film]');
        if (this.film) {
            const { film } = this;
            this.film = null;
            button.setAttribute('aria-pressed', false);
            button.firstChild.textContent = 'Record a film ';
            const blob = await film.stop();
            download(`${studio.name}.${blob.type.includes('mp4') ? 'mp4' : 'webm'}`, blob);
            return;
        }
        await studio.speaker.begin().catch(() => undefined);
        this.film = new Film(at('picture'), studio.speaker);
        button.setAttribute('aria-pressed', true);
        button.firstChild.textContent = 'End the film ';
        studio.deck.play();
        tell('Recording', 'The film has what is played from now on; the same entry of the menu ends it.');
    }

    async link() {
        const { studio } = this, address = `${location.href.replace(/#.*$/s, '')}${await fragmentOf(studio.editor.text, this.masks)}`;
        history.replaceState(null, '', address);
        studio.isChanged = false;
        try {
            await navigator.clipboard.writeText(address);
            tell('Copied', 'The link has the source and what was played in it.');
        } catch {
            tell('Link', 'It is in the address bar, and has the source and what was played in it.');
        }
    }

    async publish() {
        const { studio } = this, { files, session } = studio;
        await session.isWhole();
        const script = new TextEncoder().encode(scriptOf(this.masks));
        const parts = { 'pac_host.wasm': files['pac_host.wasm'], roms: session.roms, 'sound.js': files['sound.js'],
            ...(session.tape.length ? { script } : {}) };
        const poster = at('picture').toDataURL('image/png'), isTurned = at('stage').classList.contains('turned');
        download(`${studio.name}.html`, await published(textOf(files['game.html']), studio.name, parts, poster, isTurned), 'text/html');
        tell('Published', `${studio.name}.html has the game alone, and runs anywhere.`);
    }
}
