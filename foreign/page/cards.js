"use strict";
/*
 * What was said, in cards: a clash with its label, a pair that is not decided, a mistake, a fault of the page.
 */

/* How one rule reads the label: its name, and what its fields hold, in the colours of its bands. */
function readingLine(rule, line, bands, texts) {
    const fields = fieldsOf(bands);
    const chips = fields.map((field, index) => element("span", { class: `chip field${index % COLOURS}` },
        `${field} = ${JSON.stringify(texts[field] ?? "")}`));
    return element("p", { class: "reading" }, element("b", {}, rule), element("span", { class: "none" }, ` line ${line} `),
        ...(chips.length > 0 ? chips : [element("span", { class: "none" }, "no fields")]));
}

/* Whether one of the rules makes spaces at the end, which are dropped from the label. */
function droppedLine(clash) {
    const longest = Math.max(...[...clash.left_bands, ...clash.right_bands].map((band) => band.to));
    return longest > [...clash.label].length
        ? [element("p", { class: "none" }, "Spaces at the end of a label are dropped: what is dashed in a band is not on the label.")] : [];
}

function clashCard(clash, room, kept) {
    const titles = element("h3", {}, `${clash.left} and ${clash.right} `, element("em", {}, "clash"));
    if (clash.label === undefined) {
        return element("article", { class: "card clash" }, titles, element("pre", {}, clash.words));
    }
    const { drawing, cover, width } = drawLabel(clash, room);
    const wider = width > room ? [element("p", { class: "none" }, "The label is wider than this page: it can be scrolled.")] : [];
    const spelt = clash.spelt === undefined ? [] : [" spelt ", element("code", { class: "spelt" }, clash.spelt)];
    return element("article", { class: "card clash" }, titles,
        element("p", {}, "Label: ", element("code", { class: "text" }, [...clash.label].map(shown).join("") || "the empty one"), ...spelt),
        readingLine(clash.left, clash.left_line, clash.left_bands, clash.left_fields),
        element("div", { class: "drawing", tabindex: 0, role: "group", "aria-label": "The label as a bar code" }, drawing),
        readingLine(clash.right, clash.right_line, clash.right_bands, clash.right_fields),
        ...wider,
        ...droppedLine(clash),
        wayPanel(clash, kept, cover));
}

/* A pair that is not decided: still being searched, stopped, or in the library's words. */
function openCard(pair, how) {
    const says = {
        searching: "Not decided yet: the search goes on in more room.",
        stopped: "Not decided: the search was stopped. That is neither a clash nor a “no”.",
        ended: "Not decided. That is neither a clash nor a “no”: the two may clash.",
    };
    return element("article", { class: `card open ${how}` },
        element("h3", {}, `${pair.left} and ${pair.right} `, element("em", {}, "not decided")),
        element("p", {}, says[how]),
        ...(how === "ended" ? [element("pre", {}, pair.words.trimEnd())] : []));
}

/* A mistake with its caret; the button goes to its place. */
function mistakeCard(mistake, goTo) {
    const place = element("button", { type: "button" }, `Go to line ${mistake.line}`);
    place.addEventListener("click", () => goTo(mistake));
    return element("article", { class: "card mistake" }, element("pre", {}, mistake.words.trimEnd()), place);
}

const wordsCard = (kind, words) => element("article", { class: `card ${kind}` }, element("p", {}, words));
