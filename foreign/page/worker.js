"use strict";
/*
 * Asks the library away from the page. First all pairs in little room, which is quick; then each pair that is not decided by that, one after
 * the other, in room that grows. What the page wants to stop, it stops by ending the worker.
 */
const FIRST_ROOM = 356;
const TELLS = { steps: true, bands: true, words: true };
let library;

function answer(id, rules) {
    const first = library.request({ rules, room: FIRST_ROOM, summary: true, no_clash: false, ...TELLS });
    postMessage({ id, ...first });
    for (const { answer, left, right } of first.objects) {
        if (answer === "not decided") {
            const { objects } = library.request({ rules, pairs: [[left, right]], ...TELLS });
            postMessage({ id, pair: objects[0] });
        }
    }
    postMessage({ id, done: true });
}

onmessage = ({ data }) => {
    if (data.module !== undefined) {
        library = openLibrary(data.module);
        return;
    }
    try {
        answer(data.id, data.rules);
    } catch (error) {
        postMessage({ id: data.id, broken: String(error) });
    }
};
