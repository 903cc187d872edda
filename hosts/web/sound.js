// The sound's end of the page: gives the samples that come by message to the audio device, and tells how many it has given.

const TOLD = 8; // how many pieces of 128 samples go by between two messages

class Sound extends AudioWorkletProcessor {
    constructor() {
        super();
        this.queue = []; // of arrays of samples
        this.at = 0; // of the first of them
        this.taken = 0; // samples that were given
        this.dry = 0; // samples that were wanted and not there, after the first one came
        this.isBegun = false;
        this.pieces = 0;
        this.port.onmessage = ({ data }) => {
            if (data.length > 0) this.queue.push(data);
            this.isBegun = true;
        };
    }

    // The next sample, from -1 to 1.
    next() {
        if (this.queue.length === 0) {
            this.dry += this.isBegun;
            return 0;
        }
        const sample = this.queue[0][this.at++] / 32768;
        this.taken++;
        if (this.at === this.queue[0].length) {
            this.queue.shift();
            this.at = 0;
        }
        return sample;
    }

    process(inputs, [[channel]]) {
        for (let at = 0; at < channel.length; at++) channel[at] = this.next();
        if (++this.pieces % TOLD === 0) this.port.postMessage({ taken: this.taken, dry: this.dry });
        return true;
    }
}

registerProcessor('sound', Sound);
