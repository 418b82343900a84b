// test.mjs DIST: drives the page in a headless Chromium, which it speaks to by the browser's pipe, and says what failed.
import { spawn } from "node:child_process";
import { createServer } from "node:http";
import { existsSync, mkdtempSync, readFileSync, rmSync } from "node:fs";
import { tmpdir } from "node:os";
import { extname, join } from "node:path";

const dist = process.argv[2];
const KINDS = { ".html": "text/html", ".css": "text/css", ".mjs": "text/javascript", ".wasm": "application/wasm", ".json": "application/json" };
const server = createServer((asked, answer) => {
    const path = new URL(asked.url, "http://x").pathname;
    const file = join(dist, path === "/" ? "index.html" : path);
    if (existsSync(file)) answer.writeHead(200, { "content-type": KINDS[extname(file)] ?? "text/plain" }).end(readFileSync(file));
    else answer.writeHead(404).end();
}).listen(0, "127.0.0.1");
await new Promise((then) => server.once("listening", then));
const address = `http://127.0.0.1:${server.address().port}/`;

// ---- the browser

const profile = mkdtempSync(join(tmpdir(), "page-"));
const flags = ["--headless=new", "--no-sandbox", "--disable-gpu", "--no-first-run", "--remote-debugging-pipe", `--user-data-dir=${profile}`, "about:blank"];
const browser = spawn("chromium", flags, { stdio: ["ignore", "ignore", "ignore", "pipe", "pipe"] });
const waiting = new Map(), thrown = [];
let read = "", count = 0, session;
browser.stdio[4].on("data", (chunk) => {
    read += chunk;
    for (let at; (at = read.indexOf("\0")) >= 0; read = read.slice(at + 1)) {
        const said = JSON.parse(read.slice(0, at));
        if (said.method === "Runtime.exceptionThrown") thrown.push(said.params.exceptionDetails.exception?.description);
        waiting.get(said.id)?.(said);
        waiting.delete(said.id);
    }
});
const send = (method, params = {}) => new Promise((then, fail) => {
    const id = ++count;
    waiting.set(id, (said) => (said.error ? fail(new Error(`${method}: ${said.error.message}`)) : then(said.result)));
    browser.stdio[3].write(`${JSON.stringify({ id, method, params, sessionId: session })}\0`);
});
const value = async (expression) => (await send("Runtime.evaluate", { expression, returnByValue: true, awaitPromise: true })).result.value;
const until = async (expression, what) => {
    for (let i = 0; i < 600; i++) {
        if (await value(expression)) return;
        await new Promise((then) => setTimeout(then, 25));
    }
    throw new Error(`no ${what}; ${await value("document.getElementById('verdict').textContent")}`);
};
const text = (id) => value(`document.getElementById("${id}").textContent`);
const checked = () => value("+(document.documentElement.dataset.checked ?? 0)");

// Puts a text in place of what a box has, and waits for the answer.
const put = async (id, typed) => {
    const was = await checked();
    await value(`(() => { const it = document.getElementById("${id}"); it.value = ${JSON.stringify(typed)}; it.dispatchEvent(new Event("input")); })()`);
    await until(`+(document.documentElement.dataset.checked ?? 0) > ${was} || document.getElementById("verdict").textContent.startsWith("No")`, "answer");
};

// ---- the tests

let failed = 0;
const check = async (what, is) => {
    const passes = await is;
    if (!passes) failed++;
    console.log(`${what}: ${passes ? "passed" : "FAILED"}`);
};
const load = async (url) => {
    const before = performance.now();
    await send("Page.navigate", { url: "about:blank" });
    await send("Page.navigate", { url });
    await until("document.documentElement.dataset.checked", "first answer");
    return performance.now() - before;
};

async function test() {
    const { targetId } = await send("Target.createTarget", { url: "about:blank" });
    ({ sessionId: session } = await send("Target.attachToTarget", { targetId, flatten: true }));
    await send("Page.enable");
    await send("Runtime.enable");
    const first = await load(address);
    console.log(`first answer after ${first.toFixed(0)} ms`);
    await check("the token is accepted", (await text("verdict")).startsWith("Accepted"));
    await check("its bounds", (await text("bounds")).includes("transfer23001319(response bool uint)"));
    await until("document.getElementById('report').textContent !== ''", "report");
    await check("its calls", (await text("report")).includes(".token transfer ok true\n"));
    await check("its state", (await text("report")).includes("\nft 'SP000000000000000000002Q6VF78.token coin 'SP000000000000000000002Q6VF78 u200\n"));
    const token = await value("document.getElementById('source').value");

    await value("(() => { const it = document.getElementById('source'); it.focus(); it.setSelectionRange(it.value.length, it.value.length); })()");
    const times = [];
    for (const key of "(define-read-only (twice (n uint)) (* n u2))") {
        const was = await checked();
        await send("Input.insertText", { text: key });
        await until(`+document.documentElement.dataset.checked > ${was}`, `answer to the key ${key}`);
        times.push(+(await value("document.documentElement.dataset.ms")));
    }
    times.sort((a, b) => a - b);
    console.log(`a check at each key: median ${times[times.length >> 1]} ms, most ${times.at(-1)} ms`);
    await check("what was typed", (await text("bounds")).includes("twice"));

    await put("source", token.replace("(ok u6)", '(ok (+ u6 "\u00e9"))'));
    await check("a byte that isn't allowed", (await text("verdict")).startsWith("line 9: T1 BadByte"));
    await put("source", token.replace("(is-eq tx-sender owner)", "(is-eq tx-sender u1)"));
    await check("the underline", (await value("document.querySelector('mark').textContent")) === "(is-eq tx-sender u1)");
    await check("what to do", (await text("verdict")).includes("What to do:"));
    await put("calls", "A nothing\nblock 5\nA mint u1");
    await put("source", token);
    await until("document.getElementById('report').textContent.includes('block 5')", "report");
    await check("calls that are refused", (await text("report")).includes("refused E2 NoFunction") && (await text("report")).includes("refused E4 ArgumentCount"));
    await put("source", "a".repeat(1 << 20));
    await check("a megabyte", (await text("verdict")).startsWith("Not checked: "));

    await put("source", "(define-read-only (f) (slice? u\"abc\" u0 u1))");
    await until("document.getElementById('verdict').textContent.includes('UnknownName')", "refusal in version 1");
    await check("a native of version 2", (await text("verdict")).includes("C1 UnknownName"));
    await value("(() => { const it = document.getElementById('version'); it.value = '2'; it.dispatchEvent(new Event('change')); })()");
    await until("document.getElementById('verdict').textContent.startsWith('Accepted')", "acceptance in version 2");
    await load(address);
    await check("what was typed is kept", (await value("document.getElementById('source').value")).includes("slice?"));
    await value("document.getElementById('share').click()");
    await until("location.hash.length > 1", "link");
    const link = await value("location.href");
    await value("localStorage.clear()");
    await load(link);
    await check("a link carries it", (await value("document.getElementById('source').value")).includes("slice?"));

    await send("Emulation.setDeviceMetricsOverride", { width: 400, height: 800, deviceScaleFactor: 1, mobile: true });
    await check("400 pixels", (await value("document.documentElement.scrollWidth")) <= 400);
    await check("nothing was thrown", thrown.length === 0);
    if (thrown.length) console.log(thrown.join("\n"));
}

try {
    await test();
} catch (e) {
    failed++;
    console.log(String(e));
} finally {
    browser.kill();
    server.close();
    await new Promise((then) => browser.once("exit", then));
    rmSync(profile, { recursive: true, force: true });
}
process.exitCode = failed ? 1 : 0;
