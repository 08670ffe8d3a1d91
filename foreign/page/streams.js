"use strict";
/*
 * streams.js clash|decide MODULE <CASES: answers a stream of cases by the library in wasm, line for line as foreign/c/many.c and
 * foreign/c/decided.c do by the native one: number, count, place and written length, and every byte of both buffers.
 */
const { readFileSync, writeSync } = require("node:fs");
const { openLibrary } = require("./library.js");

const WORK_FILL = 90;
const ANSWER_FILL = 165;
const HEAD = 10;
const TOLD = { clash: 3, decide: 4 };

const each = (bytes) => Array.from(bytes, (byte) => " " + byte.toString(16).padStart(2, "0")).join("");
const all = (bytes, wanted) => bytes.every((byte) => byte === wanted);
const lent = (bytes, fill) => (all(bytes, fill) ? " unchanged" : each(bytes));

function front(answer, written) {
    if (written > answer.length) {
        return ", more than the answer buffer" + each(answer);
    }
    return ", written" + each(answer.subarray(0, written)) + ", rest" + lent(answer.subarray(written), ANSWER_FILL);
}

function line(name, { number, told, work, answer }) {
    const [count, place, written, search] = told;
    const worked = all(work, 0) ? " all zero" : lent(work, WORK_FILL);
    const decided = name === "decide" ? `, search ${search}` : "";
    return `${number} ${count} ${place} ${written}${front(answer, Number(written))}, work${worked}${decided}\n`;
}

function* cases(stream) {
    let at = 0;
    while (at < stream.length) {
        const sheetLength = stream.readUInt16LE(at + 8);
        const sheet = stream.subarray(at + HEAD, at + HEAD + sheetLength);
        if (sheet.length !== sheetLength) {
            throw new Error("the stream stops inside a case");
        }
        yield { work: stream.readUInt32LE(at), answer: stream.readUInt32LE(at + 4), sheet };
        at += HEAD + sheetLength;
    }
}

const [name, file] = process.argv.slice(2);
const library = openLibrary(readFileSync(file));
for (const { work, answer, sheet } of cases(readFileSync(0))) {
    const buffer = (length, fill) => ({ length, fill });
    writeSync(1, line(name, library.ask(name, sheet, buffer(work, WORK_FILL), buffer(answer, ANSWER_FILL), TOLD[name])));
}
