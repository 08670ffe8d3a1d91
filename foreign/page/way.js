"use strict";
/*
 * The way to a label, step by step, forward and back: what was done, the label read so far, and what is still to be read of the two rules.
 */

const SPACES = "\\s*";
const quoted = (text) => `\u201c${[...text].map(shown).join("")}\u201d`;

/* A field as it is told: by its rule too, where both rules have a field of that name; the spaces at the end of a rule have none. */
function fieldWords(field, rule, clash) {
    if (field === SPACES) return `the spaces behind ${rule}`;
    return field in clash.left_fields && field in clash.right_fields ? `${field} of ${rule}` : field;
}

/* What was done at a step, in the words of the rules: a field reads a character, or is struck. */
function stepWords(step, clash) {
    const [left, right] = [[step.left_field, clash.left], [step.right_field, clash.right]]
        .map(([field, rule]) => (field === undefined ? undefined : fieldWords(field, rule, clash)));
    const one = left ?? right;
    const spaces = (step.left_field ?? step.right_field) === SPACES;
    if (step.kind === "start") {
        return step.label === "" ? "the two rules" : `both begin with ${quoted(step.label)}`;
    }
    if (step.kind !== "character") {
        return `${one} ${spaces ? "are" : "is"} struck`;
    }
    const read = quoted(step.character);
    if (one === undefined) return `both read ${read}`;
    if (left !== undefined && right !== undefined) return `${left} and ${right} read ${read}`;
    return `${one} ${spaces ? "read" : "reads"} ${read}, which stands in ${left === undefined ? clash.left : clash.right}`;
}

/* A side in words of the notation, or that nothing of it is left. */
function sideElement(text) {
    return text === "" ? element("span", { class: "none" }, "nothing more") : element("code", {}, text);
}

/* What the panel is put together from. */
function wayParts(clash, last) {
    return {
        back: element("button", { type: "button", class: "back" }, "\u2190 Back"),
        forward: element("button", { type: "button", class: "forward" }, "Forward \u2192"),
        slider: element("input", { type: "range", min: 0, max: last, "aria-label": "Step of the way" }),
        count: element("span", { class: "count" }),
        words: element("p", { class: "done", "aria-live": "polite" }),
        label: element("dd", {}),
        left: element("dd", {}),
        right: element("dd", {}),
    };
}

function putTogether(clash, { back, forward, slider, count, words, label, left, right }) {
    return element("details", { class: "way" },
        element("summary", {}, "The way to it, step by step"),
        element("div", { class: "buttons" }, back, slider, forward, count),
        words,
        element("dl", {}, element("dt", {}, "Label so far"), label,
            element("dt", {}, `${clash.left} has still`), left,
            element("dt", {}, `${clash.right} has still`), right),
        element("p", { class: "none" }, element("code", {}, "\\s*"), " is any number of spaces at the end of a label, which are dropped."));
}

/* The panel of a clash. `kept` remembers whether it is open and at which step, and `cover` dims what is not read yet. */
function wayPanel(clash, kept, cover) {
    if (clash.steps === null) {
        return element("p", { class: "none" }, `There is no way to show: ${clash.steps_reason}.`);
    }
    const last = clash.steps.length - 1;
    const parts = wayParts(clash, last);
    const panel = putTogether(clash, parts);
    const show = (step) => {
        kept.step = Math.max(0, Math.min(last, step));
        const row = clash.steps[kept.step];
        parts.slider.value = kept.step;
        [parts.back.disabled, parts.forward.disabled] = [kept.step === 0, kept.step === last];
        parts.count.textContent = `Step ${kept.step} of ${last}`;
        parts.words.textContent = stepWords(row, clash);
        parts.slider.setAttribute("aria-valuetext", `${parts.count.textContent}: ${parts.words.textContent}`);
        parts.label.replaceChildren(element("code", {}, [...row.label].map(shown).join("") || "\u2013"));
        parts.left.replaceChildren(sideElement(row.left));
        parts.right.replaceChildren(sideElement(row.right));
        cover(kept.open && kept.step < last ? [...row.label].length : undefined);
    };
    parts.back.addEventListener("click", () => show(kept.step - 1));
    parts.forward.addEventListener("click", () => show(kept.step + 1));
    parts.slider.addEventListener("input", () => show(Number(parts.slider.value)));
    panel.open = kept.open;
    panel.addEventListener("toggle", () => {
        kept.open = panel.open;
        show(kept.step);
    });
    show(kept.step);
    return panel;
}
