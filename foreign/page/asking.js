"use strict";
/*
 * The worker, from what tools/page has put into built.js: a question goes to it, and what it says comes back. A question that is still being
 * answered when another comes, or is stopped, is ended with its worker.
 */
function fromBase64(text) {
    return Uint8Array.from(atob(text), (sign) => sign.charCodeAt(0));
}

class Asking {
    /* `hear` is told what the worker says of the last question. */
    constructor(hear) {
        this.hear = hear;
        this.source = URL.createObjectURL(new Blob([fromBase64(BUILT.worker)], { type: "text/javascript" }));
        this.bytes = fromBase64(BUILT.library);
        [this.worker, this.asked, this.busy] = [undefined, 0, false];
    }

    begin() {
        this.worker = new Worker(this.source);
        this.worker.onmessage = ({ data }) => {
            if (data.id === this.asked && this.busy) {
                this.busy = !data.done;
                // a library that has failed is not asked again
                if (data.broken !== undefined) this.stop();
                this.hear(data);
            }
        };
        this.worker.onerror = ({ message }) => {
            this.stop();
            this.hear({ broken: message });
        };
        this.worker.postMessage({ module: this.bytes });
    }

    stop() {
        this.worker?.terminate();
        [this.worker, this.busy] = [undefined, false];
    }

    ask(rules) {
        if (this.busy) this.stop();
        if (this.worker === undefined) this.begin();
        this.asked += 1;
        this.busy = true;
        this.worker.postMessage({ id: this.asked, rules });
    }
}
