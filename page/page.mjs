// The page: what is typed goes to the engine, and its answers are shown.
const A = "SP000000000000000000002Q6VF78", B = "SP2J6ZY48GV1EZ5V2V5RB9MP66SW86PYKKNRV9EJ7";
const SECONDS = 5, MOST_SOURCE = 1 << 16, KEPT = "lumpitseha";
const by = (id) => document.getElementById(id);
const made = (tag, members) => Object.assign(document.createElement(tag), members);
const utf8 = new TextEncoder(), chars = new TextDecoder();

// ---- the engine, in a worker; of what is asked while it works only the last is kept

class Asked {
    #worker; #busy = null; #next = null; #count = 0; #clock;

    ask(words, files, then) {
        this.#next = { words, files, then };
        this.#go();
    }

    #go() {
        if (this.#busy || !this.#next) return;
        const { words, files } = (this.#busy = this.#next);
        this.#next = null;
        this.#worker ??= this.#made();
        this.#clock = setTimeout(() => this.#end({ failed: `no answer in ${SECONDS} seconds; the engine was ended` }, true), SECONDS * 1000);
        this.#worker.postMessage({ id: ++this.#count, words, files });
    }

    #made() {
        const worker = new Worker(new URL("worker.mjs", import.meta.url), { type: "module" });
        worker.onmessage = ({ data }) => data.id === this.#count && this.#end(data, Boolean(data.failed || data.full));
        worker.onerror = (e) => this.#end({ failed: e.message ?? "the engine didn't load" }, true);
        return worker;
    }

    #end(answer, ends) {
        if (!this.#busy) return;
        clearTimeout(this.#clock);
        if (ends) {
            this.#worker?.terminate();
            this.#worker = null;
        }
        const { then } = this.#busy;
        this.#busy = null;
        then(answer);
        this.#go();
    }
}

// ---- what is read of the answers

// "contract 'ADDRESS.NAME refused C7 Undetermined 22..41 .."
function refusal(answer) {
    const found = /^contract '\w+\.(\S+) refused (\w+) (\w+) (\d+)\.\.(\d+)(?: (.*))?$/m.exec(answer);
    return found && { contract: found[1], rule: found[2], name: found[3], start: +found[4], end: +found[5], more: found[6] ?? "" };
}

// The rows of a contract: "  bound NAME RUNTIME .. TYPE" and "  deploy-bound RUNTIME .." behind its line.
function bounds(answer, contract) {
    const rows = [];
    let here = false;
    for (const line of answer.split("\n")) {
        if (line.startsWith("contract ")) here = line === `contract '${A}.${contract}`;
        const found = here && /^ {2}(?:bound (\S+)|deploy-bound)((?: \d+){5})(?: (.*))?$/.exec(line);
        if (found) rows.push([found[1] ?? "the deployment", ...found[2].trim().split(" "), found[3] ?? ""]);
    }
    return rows;
}

// A report counts bytes, a text box UTF-16 units.
function pieces(source, { start, end }) {
    const bytes = utf8.encode(source);
    return [bytes.slice(0, start), bytes.slice(start, end), bytes.slice(end)].map((it) => chars.decode(it));
}

// ---- calls as lines

// The words of a line, each an item with its brackets.
function items(line) {
    const found = [];
    let depth = 0, from = -1, quoted = false;
    for (let i = 0; i <= line.length; i++) {
        const c = line[i] ?? " ";
        if (quoted) {
            if (c === "\\") i++;
            else if (c === '"') quoted = false;
            continue;
        }
        if (depth === 0 && /\s/.test(c)) {
            if (from >= 0) found.push(line.slice(from, i));
            from = -1;
            continue;
        }
        if (from < 0) from = i;
        if (c === '"') quoted = true;
        if ("({".includes(c)) depth++;
        if (")}".includes(c)) depth--;
    }
    return from >= 0 ? [...found, line.slice(from)] : found;
}

function entry(line, last) {
    const [who, what = "", ...args] = items(line);
    if (who === "block") return { block: { height: /^\d+$/.test(what) ? +what : what } };
    const dot = what.indexOf(".");
    return { call: {
        sender: who === "B" ? B : A,
        contract: `${A}.${dot < 0 ? last : what.slice(0, dot)}`,
        function: what.slice(dot + 1),
        args: args.map((it) => (it === "A" ? `'${A}` : it === "B" ? `'${B}` : it)),
    } };
}

// ---- what is kept: contracts, the one that is shown, the version, the calls and the cost file

const kept = { contracts: [], shown: 0, version: 1, calls: "", costs: "" };
const through = async (bytes, stream) => new Uint8Array(await new Response(new Blob([bytes]).stream().pipeThrough(stream)).arrayBuffer());

async function as_link() {
    const bytes = await through(utf8.encode(JSON.stringify(kept)), new CompressionStream("deflate-raw"));
    const digits = btoa(Array.from(bytes, (it) => String.fromCharCode(it)).join("")).replaceAll("+", "-").replaceAll("/", "_");
    return `${location.href.split("#")[0]}#${digits}`;
}

async function of_link() {
    if (location.hash.length < 2) return null;
    const digits = atob(location.hash.slice(1).replaceAll("-", "+").replaceAll("_", "/"));
    return JSON.parse(chars.decode(await through(Uint8Array.from(digits, (it) => it.charCodeAt(0)), new DecompressionStream("deflate-raw"))));
}

function take(found) {
    const contracts = (found?.contracts ?? []).filter((it) => typeof it.name === "string" && typeof it.source === "string");
    if (contracts.length === 0) return false;
    Object.assign(kept, { contracts, shown: 0, version: found.version === 2 ? 2 : 1, calls: String(found.calls ?? ""), costs: String(found.costs ?? "") });
    return true;
}

function keep() {
    try {
        localStorage.setItem(KEPT, JSON.stringify(kept));
    } catch {
        // A browser that keeps nothing still checks.
    }
}

// ---- the page

let unit = "", rules = {};
const checks = new Asked(), runs = new Asked();
const shown = () => kept.contracts[kept.shown];

function mark(refused) {
    const marks = by("marks");
    marks.textContent = "";
    if (!refused || refused.contract !== shown().name) return;
    const [before, within, after] = pieces(shown().source, refused);
    marks.append(before, made("mark", { textContent: within || "\u200b", className: within ? "" : "point" }), `${after}\n`);
    marks.scrollTop = by("source").scrollTop;
}

function say(strong, plain, fine = false) {
    by("verdict").className = fine ? "fine" : "";
    by("verdict").replaceChildren(made("b", { textContent: strong }), plain);
}

function rows(all) {
    by("bounds").replaceChildren(...all.map((row) => {
        const tr = document.createElement("tr");
        tr.append(...row.map((it) => made("td", { textContent: it })));
        return tr;
    }));
}

function broken(refused) {
    const contract = kept.contracts.find((it) => it.name === refused.contract);
    const line = pieces(contract?.source ?? "", refused)[0].split("\n").length;
    const [cause, mend] = rules[refused.rule] ?? ["", ""];
    const where = refused.contract === shown().name ? "" : `${refused.contract}, `;
    say(`${where}line ${line}: ${[refused.rule, refused.name, refused.more].filter(Boolean).join(" ")}. `, `Broken: ${cause}. What to do: ${mend}.`);
}

function checked({ status, bytes, ms, failed }) {
    const answer = failed ? "" : chars.decode(bytes), refused = refusal(answer), found = bounds(answer, shown().name);
    mark(refused);
    by("bounds").classList.toggle("stale", found.length === 0);
    if (found.length > 0) rows(found);
    if (failed) say("No answer: ", failed);
    else if (refused) broken(refused);
    else if (status === 0) say("", `Accepted: no call is charged more than its row. Checked in ${ms.toFixed(1)} ms.`, true);
    else say(`Status ${status}: `, answer);
    const told = document.documentElement.dataset;
    told.checked = `${+(told.checked ?? 0) + 1}`;
    told.ms = (ms ?? 0).toFixed(2);
}

function ran({ bytes, failed }) {
    by("report").textContent = failed ?? chars.decode(bytes);
}

// Asks for a check and a run of what is typed.
function changed() {
    keep();
    const long = kept.contracts.find((it) => it.source.length > MOST_SOURCE);
    if (long) {
        mark(null);
        say("Not checked: ", `${long.name} has more than ${MOST_SOURCE} characters, which is the most that this page takes.`);
        return;
    }
    const costs = ["costs", kept.costs.trim() || unit], second = kept.version === 2;
    const files = kept.contracts.map(({ name, source }) => [`${name}.clar`, source]);
    checks.ask(["check", "costs", A, ...files.map((it) => it[0]), ...(second ? ["--clarity2"] : [])], [costs, ...files], checked);
    const calls = kept.calls.split("\n").filter((it) => it.trim() !== "");
    const deploys = kept.contracts.map(({ name, source }) => ({ deploy: { sender: A, name, source, ...(second ? { clarity: 2 } : {}) } }));
    const entries = [...deploys, ...calls.map((it) => entry(it, kept.contracts.at(-1).name))];
    const file = { version: 1, genesis: [{ principal: B, stx: "u1000" }], entries };
    runs.ask(["run", "costs", "calls", "--state"], [costs, ["calls", JSON.stringify(file)]], ran);
}

function tabs() {
    const all = kept.contracts.map(({ name }, i) => {
        const tab = made("button", { type: "button", textContent: name || "(no name)", onclick: () => show(i) });
        tab.setAttribute("aria-pressed", String(i === kept.shown));
        return tab;
    });
    const more = made("button", { type: "button", textContent: "+", title: "Add a contract", onclick: () => add(`contract${kept.contracts.length + 1}`, "") });
    const less = made("button", { type: "button", textContent: "\u2212", title: "Remove this contract", disabled: kept.contracts.length < 2, onclick: remove });
    by("tabs").replaceChildren(...all, more, less);
}

// Shows the contract at a place, and all else that is kept.
function show(place) {
    kept.shown = place;
    for (const id of ["calls", "costs"]) by(id).value = kept[id];
    by("version").value = String(kept.version);
    by("name").value = shown().name;
    by("source").value = shown().source;
    tabs();
    changed();
}

function add(name, source) {
    kept.contracts.push({ name, source });
    show(kept.contracts.length - 1);
}

function remove() {
    kept.contracts.splice(kept.shown, 1);
    show(Math.max(0, kept.shown - 1));
}

function on(id, kind, act) {
    by(id).addEventListener(kind, (e) => {
        act(e.target.value);
        changed();
    });
}

on("source", "input", (value) => { shown().source = value; });
on("name", "input", (value) => { shown().name = value; tabs(); });
on("version", "change", (value) => { kept.version = +value; });
on("calls", "input", (value) => { kept.calls = value; });
on("costs", "input", (value) => { kept.costs = value; });
by("source").addEventListener("scroll", () => { by("marks").scrollTop = by("source").scrollTop; });
by("share").addEventListener("click", async () => {
    const link = await as_link();
    history.replaceState(null, "", link);
    await navigator.clipboard?.writeText(link).catch(() => {});
});

const get = async (name) => (await fetch(new URL(name, import.meta.url))).text();
const { examples, engine, rules: texts } = JSON.parse(await get("data.json"));
[unit, rules] = [await get("unit.json"), texts];
by("engine").textContent = engine;
by("example").append(...Object.keys(examples).map((name) => made("option", { textContent: name })));
by("example").addEventListener("change", ({ target }) => {
    if (!target.value) return;
    const { calls, ...contract } = examples[target.value];
    if (calls) kept.calls = calls;
    add(contract.name, contract.source);
    target.value = "";
});
const stored = () => {
    try {
        return JSON.parse(localStorage.getItem(KEPT));
    } catch {
        return null;
    }
};
if (!take(await of_link().catch(() => null)) && !take(stored())) {
    const { calls, ...contract } = examples.token;
    take({ contracts: [contract], calls });
}
show(0);
