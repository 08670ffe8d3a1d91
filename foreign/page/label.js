"use strict";
/*
 * A label as a drawing: the bar code, and above and below it in bands how each rule reads it, with the names of the fields. It is black on
 * white, whatever the colours of the page are, since a scanner is to read it.
 */
const BAND = 22;
const WIDEST_MODULE = 3;
const NAME = 15;
const GAP = 5;
const BARS = 72;
const SIGN_WIDTH = 7.3;
const COLOURS = 4;
const SVG = "http://www.w3.org/2000/svg";

function svg(name, attributes, text) {
    const element = document.createElementNS(SVG, name);
    Object.entries(attributes).forEach(([key, value]) => element.setAttribute(key, value));
    if (text !== undefined) {
        element.textContent = text;
    }
    return element;
}

/* A character as it is shown in a band: what has no sign of its own gets one. */
function shown(sign) {
    const code = sign.codePointAt(0);
    if (code === 32) return "\u2423";
    if (code < 32) return String.fromCodePoint(0x2400 + code);
    return code === 127 ? "\u2421" : sign;
}

/* The names of a rule's fields in the order in which they first stand: the place is the colour. */
function fieldsOf(bands) {
    return [...new Set(bands.filter((band) => "field" in band).map((band) => band.field))];
}

const colourOf = (fields, band) => ("field" in band ? `field${fields.indexOf(band.field) % COLOURS}` : "fixed");

/* Where the characters of a label begin, in pixels, and the one behind each up to `count`: dropped spaces lie where the end sign is. */
function edges(signs, count, module) {
    const found = [(QUIET_MODULES + CHARACTER_MODULES) * module];
    for (let index = 0; index < count; index += 1) {
        found.push(found[index] + (signs[index] ?? 1) * CHARACTER_MODULES * module);
    }
    return found;
}

/* Names in rows, so that none stands over another: for each band with a field its row and the middle of its name. */
function rowsOfNames(bands, at, width) {
    const ends = [];
    return bands.filter((band) => "field" in band).map((band) => {
        const words = band.from === band.to ? `${band.field} (empty)` : band.field;
        const half = (words.length * SIGN_WIDTH) / 2;
        const middle = (at[band.from] + at[band.to]) / 2;
        const x = Math.max(half, Math.min(width - half, middle));
        let row = ends.findIndex((end) => end + GAP < x - half);
        row = row < 0 ? ends.length : row;
        ends[row] = x + half;
        return { words, x, middle, row };
    });
}

/* One rule's bands and names: its height, and what draws it with its band at `y`, the names away from the bars. */
function reading(bands, text, at, width, module) {
    const fields = fieldsOf(bands);
    const names = rowsOfNames(bands, at, width);
    const rows = Math.max(1, ...names.map((name) => name.row + 1));
    const draw = (into, y, side) => {
        for (const { words, x, middle, row } of names) {
            const line = side < 0 ? y - 4 - row * NAME : y + BAND + 12 + row * NAME;
            const from = side < 0 ? y : y + BAND;
            into.append(svg("line", { x1: middle, y1: from, x2: x, y2: side < 0 ? line + 1 : line - 10, class: "lead" }));
            into.append(svg("text", { x, y: line, class: "name" }, words));
        }
        // a band of no character is a line between its neighbours, and so is drawn over them
        for (const band of [...bands].sort((one, other) => (one.from === one.to) - (other.from === other.to))) {
            const [from, to] = [at[band.from], at[band.to]];
            const dropped = band.to > text.length ? " dropped" : "";
            into.append(svg("rect", {
                x: from === to ? from - 3 : from, y, width: from === to ? 4 : to - from - module, height: BAND,
                class: `band ${colourOf(fields, band)}${dropped}`,
            }));
            for (let index = band.from; index < band.to; index += 1) {
                const middle = (at[index] + at[index + 1] - module) / 2;
                into.append(svg("text", { x: middle, y: y + 16, class: "sign" }, shown(text[index] ?? " ")));
            }
        }
    };
    return { height: BAND + 4 + rows * NAME, draw };
}

/* The drawing of a clash, as wide as `room` allows, one to three pixels for a module. `cover(read)` dims what a way has not read yet. */
function drawLabel(clash, room) {
    const text = [...clash.label];
    const spelt = clash.spelt ?? clash.label;
    const signs = signsOfEach(clash.label, clash.spelt);
    const modules = (spelt.length + 2) * CHARACTER_MODULES + 2 * QUIET_MODULES;
    const module = Math.max(1, Math.min(WIDEST_MODULE, Math.floor(room / modules)));
    const count = Math.max(text.length, ...[...clash.left_bands, ...clash.right_bands].map((band) => band.to));
    const at = edges(signs, count, module);
    const width = Math.max(modules * module, at[count] + QUIET_MODULES * module);
    const [above, below] = [clash.left_bands, clash.right_bands].map((bands) => reading(bands, text, at, width, module));
    const [bandAbove, barsAt] = [above.height - BAND, above.height + GAP];
    const bandBelow = barsAt + BARS + GAP;
    const height = bandBelow + below.height;
    const drawing = svg("svg", { width, height, viewBox: `0 0 ${width} ${height}`, class: "label", role: "img" });
    drawing.append(svg("title", {}, spoken(clash)), svg("rect", { x: 0, y: 0, width, height, class: "paper" }));
    above.draw(drawing, bandAbove, -1);
    for (const bar of bars(spelt)) {
        const x = (QUIET_MODULES + bar.at) * module;
        drawing.append(svg("rect", { x, y: barsAt, width: bar.width * module, height: BARS, class: "code" }));
    }
    below.draw(drawing, bandBelow, 1);
    const veil = svg("rect", { x: 0, y: bandAbove, width: 0, height: bandBelow + BAND - bandAbove, class: "veil" });
    drawing.append(veil);
    const cover = (read) => {
        const from = read === undefined ? width : at[Math.min(read, count)];
        veil.setAttribute("x", from);
        veil.setAttribute("width", Math.max(0, width - from));
    };
    return { drawing, cover, width };
}

/* The same in words, for who does not see it. */
function spoken(clash) {
    const text = [...clash.label];
    const reads = (bands) => bands.map((band) => {
        const part = text.slice(band.from, band.to).map(shown).join("") || "nothing";
        return "field" in band ? `${band.field} ${part}` : part;
    }).join(", ");
    const spelt = clash.spelt === undefined ? "" : `, spelt ${clash.spelt}`;
    return `Bar code in Code 39 of ${text.map(shown).join("")}${spelt}. ${clash.left} reads ${reads(clash.left_bands)}. ` +
        `${clash.right} reads ${reads(clash.right_bands)}.`;
}
