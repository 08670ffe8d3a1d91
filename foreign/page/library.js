"use strict";
/*
 * The library in wasm, as the page's worker and compare.js call it: bytes of the module in, functions out.
 *
 * The proved functions take lengths of 64 bits, so BigInt here; the three around them take 32 bits. A slice is lent by its place in the
 * module's memory. That memory may grow in a call, so views of it are made anew behind each.
 */
const TOLD_BYTES = 8;

const view = (calls, at, length) => new Uint8Array(calls.memory.buffer, at, length);

/* Lends so many bytes of the module's memory, and takes them back. */
function lent(calls, length, work) {
    const at = calls.bradovusc_lend(length);
    try {
        return work(at);
    } finally {
        calls.bradovusc_forget(at, length);
    }
}

/* Answers a request: the tool's exit status, and its objects. */
function request(calls, asked) {
    const given = new TextEncoder().encode(JSON.stringify(asked));
    return lent(calls, given.length, (at) => lent(calls, TOLD_BYTES, (told) => {
        view(calls, at, given.length).set(given);
        const status = calls.bradovusc_request(at, given.length, told, told + 4);
        const [lines, length] = new Uint32Array(view(calls, told, TOLD_BYTES).slice().buffer);
        const text = new TextDecoder().decode(view(calls, lines, length));
        calls.bradovusc_forget(lines, length);
        return { status, objects: text.split("\n").filter(Boolean).map((line) => JSON.parse(line)) };
    }));
}

/*
 * Calls `clash` or `decide` with a sheet and two buffers, each a length and the byte that it is filled with. What comes back: the number, what
 * is told, and both buffers afterwards.
 */
function ask(calls, name, sheet, work, answer, toldNumbers) {
    const toldBytes = toldNumbers * TOLD_BYTES;
    return lent(calls, toldBytes + TOLD_BYTES + sheet.length + work.length + answer.length, (start) => {
        const told = Math.ceil(start / TOLD_BYTES) * TOLD_BYTES;
        const sheetAt = told + toldBytes;
        const workAt = sheetAt + sheet.length;
        const answerAt = workAt + work.length;
        view(calls, sheetAt, sheet.length).set(sheet);
        view(calls, workAt, work.length).fill(work.fill);
        view(calls, answerAt, answer.length).fill(answer.fill);
        const number = calls[`bradovusc_${name}`](sheetAt, BigInt(sheet.length), workAt, BigInt(work.length),
            answerAt, BigInt(answer.length), told, BigInt(toldNumbers));
        return {
            number,
            told: Array.from(new BigUint64Array(view(calls, told, toldBytes).slice().buffer)),
            work: view(calls, workAt, work.length).slice(),
            answer: view(calls, answerAt, answer.length).slice(),
        };
    });
}

function openLibrary(bytes) {
    const calls = new WebAssembly.Instance(new WebAssembly.Module(bytes)).exports;
    return { request: (asked) => request(calls, asked), ask: (...words) => ask(calls, ...words) };
}

if (typeof module !== "undefined") {
    module.exports = { openLibrary };
}
