"use strict";
/*
 * Code 39: the widths of bars and gaps. A character has five bars and four gaps between them, three of the nine wide, and one narrow gap
 * behind it; the sign * stands at both ends.
 */
const WIDE = 3;
const CHARACTER_MODULES = 16;
const QUIET_MODULES = 10;
const ENDS = "*";

/* Forty signs in rows of ten: the row says which gap is wide, the place in it which two bars. The other four have three wide gaps. */
const ROWS = ["UVWXYZ-. *", "1234567890", "ABCDEFGHIJ", "KLMNOPQRST"];
const WIDE_BARS = [[0, 4], [1, 4], [0, 1], [2, 4], [0, 2], [1, 2], [3, 4], [0, 3], [1, 3], [2, 3]];
const NARROW_GAP = { "$": 3, "/": 2, "+": 1, "%": 0 };

function wideBars(sign) {
    const row = ROWS.find((signs) => signs.includes(sign));
    return row === undefined ? [] : WIDE_BARS[row.indexOf(sign)];
}

function wideGaps(sign) {
    const row = ROWS.findIndex((signs) => signs.includes(sign));
    return row >= 0 ? [row] : [0, 1, 2, 3].filter((gap) => gap !== NARROW_GAP[sign]);
}

/* The bars of a text with * at both ends, in modules from the first bar on: where each begins, and how wide it is. */
function bars(text) {
    const found = [];
    [...ENDS + text + ENDS].forEach((sign, index) => {
        const [thick, apart] = [wideBars(sign), wideGaps(sign)];
        let at = index * CHARACTER_MODULES;
        for (let bar = 0; bar < 5; bar += 1) {
            const width = thick.includes(bar) ? WIDE : 1;
            found.push({ at, width });
            at += width + (apart.includes(bar) ? WIDE : 1);
        }
    });
    return found;
}

/* How many signs spell each character of a label: one, or in Full ASCII two where the first is a shift sign. */
function signsOfEach(label, spelt) {
    if (spelt === undefined) {
        return [...label].map(() => 1);
    }
    return spelt.match(/[$/+%]?./gs).map((signs) => signs.length);
}

if (typeof module !== "undefined") {
    module.exports = { bars, signsOfEach };
}
