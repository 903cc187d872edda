// The studio that ./play serves: it follows files on the disk, and sends what was played there.

import { unbase64 } from './bytes.js';

const PAUSE = 1000; // milliseconds, where the server doesn't answer

export class Live {
    // `changed` is called with the files as they are on the disk, at first and after each change: of a source in another dialect with its translation,
    // and with file and line of each line's origin, or with why it isn't translated.
    constructor(changed) {
        Object.assign(this, { changed, version: '', isThere: location.protocol === 'http:' && location.search === '?live' });
    }

    // Asks for the files again and again; an answer comes once they have changed.
    async follow() {
        for (;;) {
            try {
                const answer = await fetch(`files?since=${this.version}`, { cache: 'no-store' });
                if (answer.status === 200) {
                    const { version, files, is_first: isFirst, places = [], refused = null } = await answer.json();
                    this.version = version;
                    await this.changed(files.map(({ name, base64 }) => ({ name, bytes: unbase64(base64) })), { isFirst, places, refused });
                } else if (answer.status !== 204) throw new Error(answer.statusText);
            } catch {
                await new Promise((then) => setTimeout(then, PAUSE));
            }
        }
    }

    // Sends a script, which is written beside the source: the name that it has there.
    async keep(script) {
        const answer = await fetch('script', { method: 'POST', body: script, headers: { 'Content-Type': 'text/plain' } });
        if (!answer.ok) throw new Error('the script can\'t be written');
        return answer.text();
    }
}
