"use strict";
/*
 * Drives Chromium without a window, by its debugging protocol over two pipes: opens a page, evaluates, types, presses keys, takes pictures.
 */
const { spawn } = require("node:child_process");

const DEADLINE = 60_000;
const sleep = (milliseconds) => new Promise((done) => setTimeout(done, milliseconds));

/* The connection: messages are JSON, each with a zero byte behind it. */
function connect(program) {
    const words = ["--headless=new", "--remote-debugging-pipe", "--no-first-run", "--disable-gpu", "--hide-scrollbars", "--force-color-profile=srgb"];
    if (process.getuid() === 0) words.push("--no-sandbox");
    const child = spawn(program, [...words, "about:blank"], { stdio: ["ignore", "ignore", "ignore", "pipe", "pipe"] });
    const [waiting, listeners] = [new Map(), []];
    let [number, rest] = [0, ""];
    child.stdio[4].setEncoding("utf8").on("data", (text) => {
        const messages = (rest + text).split("\0");
        rest = messages.pop();
        for (const message of messages.map((one) => JSON.parse(one))) {
            const call = waiting.get(message.id);
            waiting.delete(message.id);
            if (call === undefined) listeners.forEach((listener) => listener(message));
            else if (message.error) call.reject(new Error(message.error.message));
            else call.resolve(message.result);
        }
    });
    child.on("exit", () => waiting.forEach((call) => call.reject(new Error("Chromium has ended"))));
    const send = (method, params = {}, sessionId = undefined) => new Promise((resolve, reject) => {
        number += 1;
        waiting.set(number, { resolve, reject });
        child.stdio[3].write(JSON.stringify({ id: number, method, params, sessionId }) + "\0");
    });
    return { send, listen: (listener) => listeners.push(listener), end: () => child.kill() };
}

/* A page, with what can be done to it. */
class Page {
    constructor(connection, sessionId) {
        this.send = (method, params) => connection.send(method, params, sessionId);
        this.requests = [];
        connection.listen(({ method, params, sessionId: of }) => {
            if (of === sessionId && method === "Network.requestWillBeSent") this.requests.push(params.request.url);
        });
    }

    async evaluate(expression) {
        const { result, exceptionDetails } = await this.send("Runtime.evaluate", { expression, awaitPromise: true, returnByValue: true });
        if (exceptionDetails) throw new Error(`${expression}: ${exceptionDetails.exception?.description ?? exceptionDetails.text}`);
        return result.value;
    }

    async until(expression, deadline = DEADLINE) {
        const end = Date.now() + deadline;
        while (!(await this.evaluate(expression))) {
            if (Date.now() > end) throw new Error(`never so: ${expression}; the page has: ${await this.evaluate("document.body.innerText")}`);
            await sleep(20);
        }
    }

    async press(key, code = 0, text = undefined) {
        const event = { key, code: key, windowsVirtualKeyCode: code, text };
        await this.send("Input.dispatchKeyEvent", { type: text === undefined ? "rawKeyDown" : "keyDown", ...event });
        await this.send("Input.dispatchKeyEvent", { type: "keyUp", ...event });
    }

    async type(text) {
        for (const sign of text) {
            await this.send("Input.dispatchKeyEvent", { type: "char", text: sign === "\n" ? "\r" : sign });
        }
    }

    /* A screen of so many pixels, so many of its own to each, in light or dark colours. */
    async look(width, height, scale, dark) {
        await this.send("Emulation.setDeviceMetricsOverride", { width, height, deviceScaleFactor: scale, mobile: width < 600 });
        await this.send("Emulation.setEmulatedMedia", { features: [{ name: "prefers-color-scheme", value: dark ? "dark" : "light" }] });
    }

    /* A picture of all of the page, or of the first element that a selector finds. */
    async picture(selector) {
        const clip = selector === undefined ? undefined : await this.evaluate(`(() => {
            const box = document.querySelector(${JSON.stringify(selector)}).getBoundingClientRect();
            return { x: box.x + scrollX, y: box.y + scrollY, width: box.width, height: box.height, scale: 1 };
        })()`);
        const { data } = await this.send("Page.captureScreenshot", { format: "png", captureBeyondViewport: true, clip });
        return Buffer.from(data, "base64");
    }
}

/* Opens a page at this address. */
async function openPage(connection, url) {
    const { targetId } = await connection.send("Target.createTarget", { url: "about:blank" });
    const { sessionId } = await connection.send("Target.attachToTarget", { targetId, flatten: true });
    const page = new Page(connection, sessionId);
    for (const subject of ["Page", "Runtime", "Network"]) await page.send(`${subject}.enable`, {});
    await page.send("Page.navigate", { url });
    return page;
}

module.exports = { connect, openPage };
