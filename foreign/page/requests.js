"use strict";
/*
 * requests.js --requests FILES..: requests about files of rules, one a line.
 * requests.js MODULE REQUESTS ANSWERS: answers the requests of a file by the library in wasm, and holds each answer to the one that
 * foreign/asking/examples/answers.rs has given: the status, and every object.
 */
const { deepStrictEqual } = require("node:assert");
const { readFileSync } = require("node:fs");
const { openLibrary } = require("./library.js");

/* As the file is, with all that can be told, and with one of its templates in parts. */
function requests(file) {
    const text = readFileSync(file, "utf8");
    const told = { steps: true, bands: true, words: true, summary: true, room: 356 };
    const template = text.match(/^[A-Za-z0-9_-]+\s*=\s*([^#\n]*)$/m)?.[1] ?? "";
    const parts = { left: { template }, right: { template: "{x}" }, bands: true, words: true };
    return [{ files: [{ name: file, text }] }, { rules: text, ...told }, parts];
}

const lines = (file) => readFileSync(file, "utf8").split("\n").slice(0, -1).map((line) => JSON.parse(line));

const [first, ...files] = process.argv.slice(2);
if (first === "--requests") {
    files.flatMap(requests).forEach((request) => console.log(JSON.stringify(request)));
} else {
    const library = openLibrary(readFileSync(first));
    const [asked, answers] = files.map(lines);
    deepStrictEqual(asked.length, answers.length);
    asked.forEach((request, index) => deepStrictEqual(library.request(request), answers[index]));
    console.log(`${asked.length} requests about rules in wasm, every object as natively`);
}
