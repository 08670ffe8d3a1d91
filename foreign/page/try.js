"use strict";
/*
 * try.js CHROMIUM PAGE PICTURES: tries the page in Chromium: types, waits, and reads the answers; zbarimg reads the labels off pictures of the
 * bar codes, which are kept in the folder PICTURES. The exit status is 1, and it says why, where something is not as it must be.
 */
const assert = require("node:assert/strict");
const { execFileSync } = require("node:child_process");
const { mkdirSync, writeFileSync } = require("node:fs");
const { join, resolve } = require("node:path");
const { pathToFileURL } = require("node:url");
const { connect, openPage } = require("./chromium.js");

const [program, folder, pictures] = process.argv.slice(2);
const address = pathToFileURL(resolve(folder, "index.html")).href;
const DESKTOP = [1280, 900, 1, false];
const TELEPHONE = [360, 740, 3, false];
const LATCHES = "mortice = LT{size}{finish}\n size = [0-9][0-9]\n finish = BR|CH|SS\nrim = LT{set}C{turn}\n set = [0-9]+\n turn = H|K|T\n";
const UNDECIDED = "left = {n}{kind}-A1{n}\nright = {n}{kind}-A2{n}\n";
/* so many pairs, none of them decided, that a search takes seconds */
const SLOW = Array.from({ length: 20 }, (_, index) => `slow${index} = {n}{kind}-A${index}-{n}\n`).join("");
const LONG = "long = PART-{n}\n n = [0-9]{35}\nother = PART-{m}\n m = [0-9]*7\n";
const DONE = "document.body?.dataset.state === 'done'";

const texts = (page, selector) => page.evaluate(`[...document.querySelectorAll(${JSON.stringify(selector)})].map((one) => one.textContent)`);

async function typeRules(page, rules) {
    await page.evaluate("document.getElementById('rules').focus(); document.getElementById('rules').select()");
    await page.press("Delete", 46);
    await page.type(rules);
    await page.until(`document.getElementById('rules').value === ${JSON.stringify(rules)}`);
}

async function answered(page, rules) {
    await typeRules(page, rules);
    await page.until("document.body.dataset.state !== 'typed'");
    await page.until(DONE);
}

/* What a scanner reads off the picture of the first label. */
async function scanned(page, name) {
    const file = join(pictures, `${name}.png`);
    writeFileSync(file, await page.picture("svg.label"));
    const words = ["--quiet", "--raw", "-Sdisable", "-Scode39.enable", file];
    return execFileSync("zbarimg", words, { encoding: "utf8", stdio: ["ignore", "pipe", "ignore"] }).replace(/\n$/, "");
}
const keep = async (page, name) => writeFileSync(join(pictures, `${name}.png`), await page.picture());

const tests = {
    async "two latches: label, bands and bar code"(page) {
        await answered(page, LATCHES);
        assert.deepEqual(await texts(page, "#summary"), ["2 rules, 1 pair: 1 clash, 0 not decided, 0 without a clash"]);
        assert.deepEqual(await texts(page, "article.clash .text"), ["LT00CH"]);
        assert.deepEqual(await texts(page, "svg .name"), ["size", "finish", "set", "turn"]);
        assert.deepEqual(await texts(page, ".chip"), ['size = "00"', 'finish = "CH"', 'set = "00"', 'turn = "H"']);
        assert.deepEqual((await texts(page, "svg .sign")).join(""), "LT00CHLT00CH");
        await keep(page, "desktop");
        assert.equal(await scanned(page, "latches"), "LT00CH");
    },

    async "the way, step by step, by keyboard"(page) {
        await answered(page, LATCHES);
        await page.evaluate("document.querySelector('.way summary').focus()");
        await page.press("Enter", 13, "\r");
        await page.until("document.querySelector('.way').open");
        const label = async () => (await texts(page, ".way dd code"))[0];
        assert.equal(await label(), "LT");
        await page.evaluate("document.querySelector('.way input').focus()");
        const seen = [];
        for (let step = 0; step < 10; step += 1) {
            await page.press("ArrowRight", 39);
            seen.push(await label());
        }
        assert.deepEqual(seen, ["LT0", "LT00", "LT00", "LT00", "LT00C", "LT00CH", "LT00CH", "LT00CH", "LT00CH", "LT00CH"]);
        assert.deepEqual(await texts(page, ".way .count"), ["Step 10 of 10"]);
        assert.deepEqual(await texts(page, ".way dd .none"), ["nothing more", "nothing more"]);
        await page.evaluate("document.querySelector('.way .back').focus()");
        for (let step = 0; step < 5; step += 1) await page.press("Enter", 13, "\r");
        assert.deepEqual(await texts(page, ".way .count"), ["Step 5 of 10"]);
        assert.deepEqual(await texts(page, ".way .done"), ["finish reads \u201cC\u201d, which stands in rim"]);
        await keep(page, "way");
    },

    async "why there is no way to show"(page) {
        await answered(page, LATCHES);
        for (const reason of ["on the way a side would grow above 48 tokens", "the way would have more than 65,534 steps"]) {
            const clash = JSON.stringify({ steps: null, steps_reason: reason });
            assert.equal(await page.evaluate(`wayPanel(${clash}).textContent`), `There is no way to show: ${reason}.`);
        }
    },

    async "a mistake with its caret, and the way to its place"(page) {
        await answered(page, "latch = LT{size}\n  size = [0-9\n");
        const [shown] = await texts(page, "article.mistake pre");
        assert.match(shown, /size = \[0-9\n.*\^/);
        assert.equal(await page.evaluate("document.querySelectorAll('article.clash, article.good').length"), 0);
        await keep(page, "mistake");
        await page.evaluate("document.querySelector('article.mistake button').focus()");
        await page.press("Enter", 13, "\r");
        assert.deepEqual(await texts(page, "#summary"), ["1 mistake. Nothing is asked before that is mended."]);
        const before = await page.evaluate("document.activeElement.value.slice(0, document.activeElement.selectionStart)");
        assert.equal(before, "latch = LT{size}\n  size = ");
    },

    async "no clash, and no rule at all"(page) {
        await answered(page, "a = A{x}\nb = B{x}\n");
        assert.deepEqual(await texts(page, "article.good"), ["No two rules make the same label."]);
        await answered(page, "");
        assert.equal(await page.evaluate("document.querySelectorAll('article.hint').length"), 1);
        assert.equal(await page.evaluate("document.querySelectorAll('article.good').length"), 0);
    },

    async "an undecided pair is neither a clash nor a no"(page) {
        await answered(page, UNDECIDED);
        assert.deepEqual(await texts(page, "#summary"), ["2 rules, 1 pair: 0 clashes, 1 not decided, 0 without a clash"]);
        const [card] = await texts(page, "article.open.ended");
        assert.match(card, /Not decided\. That is neither a clash nor a \u201cno\u201d/);
        assert.match(card, /room for 65,535 was not enough/);
        assert.equal(await page.evaluate("document.querySelectorAll('article.good').length"), 0);
        await keep(page, "undecided");
    },

    async "a long search: the page answers meanwhile, and it can be stopped"(page) {
        await typeRules(page, LATCHES + SLOW);
        await page.until("document.querySelectorAll('article.open.searching').length > 30");
        await page.evaluate("document.querySelector('.way summary').focus()");
        await page.press("Enter", 13, "\r");
        await page.until("document.querySelectorAll('article.open.ended').length > 2");
        assert.ok(await page.evaluate("document.querySelector('.way').open && document.activeElement.parentElement.className === 'way'"));
        assert.equal(await page.evaluate("document.getElementById('stop').hidden"), false);
        await page.press("Escape", 27);
        await page.until("document.body.dataset.state === 'stopped'");
        assert.match((await texts(page, "article.open.stopped"))[0], /Not decided: the search was stopped/);
        assert.equal(await page.evaluate("document.getElementById('stop').hidden"), true);
        assert.match((await texts(page, "#summary"))[0], /^22 rules, 231 pairs: 1 clash, \d+ not decided, /);
        await answered(page, LATCHES);
    },

    async "another question while one is searched"(page) {
        await typeRules(page, SLOW);
        await page.until("document.querySelector('article.open.searching') !== null");
        await answered(page, LATCHES);
        assert.deepEqual(await texts(page, "article.clash .text"), ["LT00CH"]);
        assert.equal(await page.evaluate("document.querySelectorAll('article.open').length"), 0);
        await typeRules(page, SLOW);
        await page.until("document.querySelector('article.open.searching') !== null");
        await page.evaluate("document.getElementById('stop').click()");
        await page.until("document.body.dataset.state === 'stopped'");
        assert.equal(await page.evaluate("document.querySelectorAll('article.open.searching').length"), 0);
    },

    async "forty rules"(page) {
        const apart = Array.from({ length: 39 }, (_, index) => `rule${index} = R${index}-{n}\n n = [0-9]{3}\n`);
        await answered(page, apart.join("") + "any = R{rest}\n");
        assert.deepEqual(await texts(page, "#summary"), ["40 rules, 780 pairs: 39 clashes, 0 not decided, 741 without a clash"]);
        const labels = await texts(page, "article.clash .text");
        assert.deepEqual(labels, Array.from({ length: 39 }, (_, index) => `R${index}-000`));
        assert.equal(await scanned(page, "forty"), labels[0]);
    },

    async "very many clashes, and very many mistakes"(page) {
        await answered(page, Array.from({ length: 11 }, (_, index) => `r${index} = {x}\n`).join(""));
        assert.equal(await page.evaluate("document.querySelectorAll('article.clash').length"), 40);
        assert.deepEqual(await texts(page, ".more"), ["Show 15 more"]);
        await page.evaluate("document.querySelector('.more').focus()");
        await page.press("Enter", 13, "\r");
        assert.equal(await page.evaluate("document.querySelectorAll('article.clash').length"), 55);
        assert.equal(await page.evaluate("document.querySelectorAll('.more').length"), 0);
        await answered(page, "a = b\n".repeat(60));
        assert.match((await texts(page, "#summary"))[0], /^\d+ mistakes\./);
    },

    async "a label of 40 characters, also on a telephone"(page) {
        const wanted = "PART-" + "0".repeat(34) + "7";
        await answered(page, LONG);
        assert.deepEqual(await texts(page, "article.clash .text"), [wanted]);
        assert.equal(wanted.length, 40);
        assert.equal(await scanned(page, "long"), wanted);
        await page.look(...TELEPHONE);
        await page.until("innerWidth === 360");
        assert.ok(await page.evaluate("document.scrollingElement.scrollWidth <= innerWidth"), "the page is wider than the telephone");
        await keep(page, "long-page");
        // held sideways, all of it is seen
        await page.look(740, 360, 3, false);
        await page.until("innerWidth === 740 && document.querySelector('.drawing').scrollWidth <= document.querySelector('.drawing').clientWidth");
        assert.equal(await scanned(page, "long-telephone"), wanted);
    },

    async "Full ASCII as it is spelt"(page) {
        await answered(page, "full ascii\nbox = Box\\s{size}\\#{n}\n size = [a-z]+\n n = [0-9]+\nnote = Box\\s{rest}\n");
        assert.deepEqual(await texts(page, "article.clash .spelt"), ["B+O+X +A/C0"]);
        assert.equal(await scanned(page, "ascii"), "B+O+X +A/C0");
        await keep(page, "ascii-page");
    },

    async "spaces at the end, an empty text, a field twice"(page) {
        await answered(page, "lt = LT{x}\nl = L{y}\n y = [A-Z]\n");
        assert.equal(await scanned(page, "spaces"), "LT");
        assert.equal(await page.evaluate("document.querySelectorAll('.band.dropped').length"), 1);
        await answered(page, "a = {x}A{n}-{n}\n x = B*\n n = [0-9]\nb = A7-7\n");
        assert.deepEqual(await texts(page, "svg .name"), ["x (empty)", "n", "n"]);
        assert.equal(await scanned(page, "twice"), "A7-7");
    },

    async "every character of Code 39"(page) {
        const all = ["0123456789ABCDEFGHIJKLM", "NOPQRSTUVWXYZ-.$/+%"];
        for (const text of all) {
            await answered(page, `a = ${text}\nb = {x}\n`);
            assert.equal(await scanned(page, "characters"), text);
        }
        await answered(page, "a = A\\sB\nb = {x}\n");
        assert.equal(await scanned(page, "characters"), "A B");
    },

    async "the link carries the rules"(page, connection) {
        await answered(page, LATCHES);
        const link = await page.evaluate("location.href");
        assert.equal(link, `${address}#rules=${encodeURIComponent(LATCHES)}`);
        const other = await openPage(connection, link);
        await other.until(DONE);
        assert.equal(await other.evaluate("document.getElementById('rules').value"), LATCHES);
        assert.deepEqual(await texts(other, "article.clash .text"), ["LT00CH"]);
    },

    async "light and dark, wide and narrow; all is reached by keyboard"(page) {
        const background = "getComputedStyle(document.body).backgroundColor";
        await answered(page, LATCHES);
        const light = await page.evaluate(background);
        await page.look(1280, 900, 1, true);
        assert.notEqual(await page.evaluate(background), light);
        await keep(page, "dark");
        assert.equal(await scanned(page, "dark-label"), "LT00CH");
        await page.look(360, 740, 3, true);
        assert.ok(await page.evaluate("document.scrollingElement.scrollWidth <= innerWidth"), "the page is wider than the telephone");
        await keep(page, "telephone");
        assert.equal(await scanned(page, "telephone-label"), "LT00CH");
        await page.evaluate("document.querySelector('.skip').focus()");
        const reached = [];
        for (let number = 0; number < 6; number += 1) {
            await page.press("Tab", 9);
            const here = "[document.activeElement, document.activeElement.parentElement]";
            reached.push(await page.evaluate(`${here}.map((at) => at.id || at.className).find(Boolean)`));
        }
        assert.deepEqual(reached, ["examples", "link", "rules", "help", "drawing", "way"]);
    },

    async "nothing is sent anywhere"(page) {
        await answered(page, LATCHES);
        const sent = page.requests.filter((url) => !/^(file|blob|data):/.test(url));
        assert.deepEqual(sent, []);
        assert.ok(page.requests.length > 5);
        await assert.rejects(page.evaluate("fetch('https://localhost/')"));
    },
};

async function main() {
    mkdirSync(pictures, { recursive: true });
    const connection = connect(program);
    try {
        for (const [name, test] of Object.entries(tests)) {
            const page = await openPage(connection, address);
            await page.look(...DESKTOP);
            await page.until(DONE);
            try {
                await test(page, connection);
            } catch (error) {
                throw new Error(`${name}: ${error.message}`);
            }
            console.log(`${name}`);
        }
        console.log(`${Object.keys(tests).length} trials of the page`);
    } finally {
        connection.end();
    }
}
main().catch((error) => {
    console.error(error.message);
    process.exitCode = 1;
});
