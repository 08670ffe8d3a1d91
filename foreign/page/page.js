"use strict";
/*
 * The page: what is typed is asked, and what the worker says is shown. The rules stand in the link's fragment, which no browser sends.
 */
const AT_FIRST = 40;
const WAIT = 150;
const FRAGMENT = "rules=";
const at = (id) => document.getElementById(id);
const [rules, found, summary, stopButton] = [at("rules"), at("found"), at("summary"), at("stop")];
const [opened, drawn] = [new Map(), new Map()];
let [objects, how, limit, timer] = [[], "waiting", AT_FIRST, undefined];

/* What is typed and not yet asked comes before what is still being said of the last question. */
const tellState = () => { document.body.dataset.state = timer === undefined ? how : "typed"; };

const counted = (number, one, many) => `${number.toLocaleString("en")} ${number === 1 ? one : many}`;
const keyOf = (pair) => JSON.stringify([pair.left, pair.right]);

function keptOf(pair) {
    const key = keyOf(pair);
    if (!opened.has(key)) {
        opened.set(key, { open: false, step: 0 });
    }
    return opened.get(key);
}

/* The counts, as the tool tells them. A pair that is still being searched is no more than not decided. */
function summaryWords(tally) {
    const pairs = objects.filter((object) => "answer" in object);
    const number = (answer) => pairs.filter((pair) => pair.answer === answer).length;
    const [clashes, open] = [number("clash"), number("not decided")];
    const [searched, apart] = [how === "searching" ? ", searching" : "", tally.pairs - clashes - open];
    return `${counted(tally.rules, "rule", "rules")}, ${counted(tally.pairs, "pair", "pairs")}: ` +
        `${counted(clashes, "clash", "clashes")}, ${open.toLocaleString("en")} not decided${searched}, ${apart.toLocaleString("en")} without a clash`;
}

function mistakesWords() {
    const all = objects.find((object) => "mistakes" in object)?.mistakes ?? objects.filter((object) => "mistake" in object).length;
    return all === 0 ? "" : `${counted(all, "mistake", "mistakes")}. Nothing is asked before that is mended.`;
}

/* Selects a mistake's place. Columns count characters, a selection UTF-16. */
function goTo({ line, column, width }) {
    const lines = rules.value.split("\n");
    const before = lines.slice(0, line - 1).reduce((sum, text) => sum + text.length + 1, 0);
    const signs = [...(lines[line - 1] ?? "")];
    const start = before + signs.slice(0, column - 1).join("").length;
    rules.focus();
    rules.setSelectionRange(start, start + signs.slice(column - 1, column - 1 + width).join("").length);
}

function cardOf(object) {
    if (object.answer === "clash") return clashCard(object, found.clientWidth - 46, keptOf(object));
    if (object.answer === "not decided") return openCard(object, object.open);
    if (object.mistake !== undefined) return mistakeCard(object, goTo);
    if (object.mistakes !== undefined) return wordsCard("mistake", `Of ${object.mistakes} mistakes the first ${object.told} are told.`);
    return wordsCard(object.status === 5 ? "hint" : "mistake", object.error);
}

/* The card of an object, drawn once, so that what is open or has the focus stays while other pairs are still searched. */
function cardFor(object) {
    if (!drawn.has(object)) {
        drawn.set(object, cardOf(object));
    }
    return drawn.get(object);
}

/* Puts these where the answers are, and moves none that stands in its place already. */
function place(cards) {
    cards.forEach((card, index) => {
        if (found.children[index] !== card) {
            found.insertBefore(card, found.children[index] ?? null);
        }
    });
    while (found.children.length > cards.length) {
        found.lastChild.remove();
    }
}

/* Shows all that is known, clashes first. */
function show() {
    const tally = objects.find((object) => "summary" in object);
    const order = { clash: 0, "not decided": 1 };
    const told = objects.filter((object) => object !== tally && object.answer !== "no clash");
    const sorted = told.sort((one, other) => (order[one.answer] ?? 2) - (order[other.answer] ?? 2));
    const cards = sorted.slice(0, limit).map(cardFor);
    if (tally !== undefined && tally.pairs > 0 && cards.length === 0) {
        cards.push(wordsCard("good", "No two rules make the same label."));
    }
    if (sorted.length > limit) {
        const more = element("button", { type: "button", class: "more" }, `Show ${sorted.length - limit} more`);
        more.addEventListener("click", () => { limit = Infinity; show(); });
        cards.push(more);
    }
    place(cards);
    summary.textContent = tally === undefined ? mistakesWords() : summaryWords(tally);
    stopButton.hidden = how !== "searching";
    tellState();
}

/* What the worker says: the first answers, then pairs that took longer, then that it is done. */
function hear(said) {
    if (said.broken !== undefined) {
        how = "broken";
        objects = [{ error: `This page has a fault, and there is no answer: ${said.broken}`, status: 3 }];
    } else if (said.done) {
        how = "done";
    } else if (said.pair !== undefined) {
        const key = keyOf(said.pair);
        objects = objects.map((object) => (object.answer !== undefined && keyOf(object) === key ? { ...said.pair, open: "ended" } : object));
    } else {
        drawn.clear();
        objects = said.objects.map((object) => (object.answer === "not decided" ? { ...object, open: "searching" } : object));
    }
    show();
}
const library = new Asking(hear);

function stop() {
    if (how === "searching") {
        library.stop();
        how = "stopped";
        objects = objects.map((object) => (object.open === "searching" ? { ...object, open: "stopped" } : object));
        show();
        rules.focus();
    }
}

function ask() {
    clearTimeout(timer);
    [timer, how, limit] = [undefined, "searching", AT_FIRST];
    stopButton.hidden = false;
    tellState();
    library.ask(rules.value);
}

function typed() {
    at("linked").textContent = "";
    clearTimeout(timer);
    timer = setTimeout(() => {
        carry();
        ask();
    }, WAIT);
    tellState();
}

const linkOf = (text) => location.href.replace(/#.*$/s, "") + "#" + FRAGMENT + encodeURIComponent(text);

/* Puts the rules into the link of this page. A browser may refuse a long one, or the hundredth within seconds. */
function carry() {
    try {
        history.replaceState(null, "", linkOf(rules.value));
        return true;
    } catch {
        return false;
    }
}

/* The rules that the link carries, or none. */
function carried() {
    const fragment = location.hash.slice(1);
    try {
        return fragment.startsWith(FRAGMENT) ? decodeURIComponent(fragment.slice(FRAGMENT.length)) : undefined;
    } catch {
        return undefined;
    }
}

function take(text) {
    rules.value = text;
    ask();
}

at("link").addEventListener("click", async () => {
    const carried = carry() ? "The link is in the address bar. The rules stand in it, behind the #." : "This browser takes no link of that length.";
    const copied = await navigator.clipboard?.writeText(linkOf(rules.value)).then(() => true, () => false);
    at("linked").textContent = copied ? "The link is copied. The rules stand in it, behind the #." : carried;
});
document.querySelector(".skip").addEventListener("click", (event) => {
    // the fragment has the rules, so the focus goes without one
    event.preventDefault();
    at("answers").focus();
});
at("examples").append(element("option", { value: "" }, "Examples"), ...Object.keys(EXAMPLES).map((name) => element("option", {}, name)));
at("examples").addEventListener("change", ({ target }) => {
    const text = EXAMPLES[target.value];
    target.value = "";
    if (text !== undefined) {
        rules.value = text;
        typed();
    }
});
at("version").textContent = `Bradovusc ${BUILT.version}`;
rules.addEventListener("input", typed);
stopButton.addEventListener("click", stop);
addEventListener("hashchange", () => { if (carried() !== undefined) take(carried()); });
let width = innerWidth;
addEventListener("resize", () => {
    if (innerWidth !== width) {
        width = innerWidth;
        drawn.clear();
        show();
    }
});
addEventListener("keydown", (event) => {
    if (event.key === "Escape") stop();
    if (event.key === "Enter" && (event.ctrlKey || event.metaKey)) ask();
});
take(carried() ?? Object.values(EXAMPLES)[0]);
