// cases.mjs MODULE DATA THEME ..: runs the cases of crates/cases/data through the WebAssembly module. Left out are cases in which a
// read, a write or a listener fails, which nothing does here, and those of another program.
import { readFileSync } from "node:fs";
import { Engine } from "./worker.mjs";

const [module, data, ...themes] = process.argv.slice(2);
const engine = await Engine.from(readFileSync(module));
const LEFT_OUT = ["failing_reads", "failing_writes", "failing_hearings", "room", "program"];

function part(value) {
    if (typeof value === "string") return Buffer.from(value);
    if ("json" in value) return Buffer.from(JSON.stringify(value.json).replace(/"#([^"#]+)#"/g, "$1"));
    if ("hex" in value) return Buffer.from(value.hex, "hex");
    if ("file" in value) return readFileSync(`${data}/${value.file}`);
    return Buffer.from(value.repeat.repeat(value.times));
}

function bytes(value) {
    if (Array.isArray(value)) return Buffer.from(value.map((line) => `${line}\n`).join(""));
    return value.parts ? Buffer.concat(value.parts.map(part)) : part(value);
}

// Numbers are kept as they are written, as texts, but for those of few digits.
const NUMBER = /"(?:[^"\\]|\\.)*"|-?\d[\d.eE+-]*/g;
const kept = (it) => (it[0] === '"' || /^[1-9]?\d{0,14}$/.test(it) ? it : `"#${it}#"`);
const read = (theme) => JSON.parse(readFileSync(`${data}/${theme}.json`, "utf8").replace(NUMBER, kept));

let passed = 0, failed = 0, left = 0;
for (const theme of themes) {
    const shared = read(theme);
    for (const own of shared.cases) {
        const it = { ...shared, ...own };
        if (LEFT_OUT.some((name) => name in it)) {
            left++;
            continue;
        }
        const files = [...Object.entries(own.files ?? {}), ...Object.entries(shared.files ?? {})].map(([name, value]) => [name, bytes(value)]);
        let got;
        try {
            got = engine.answer(it.words.map(bytes), files);
        } catch (e) {
            got = { status: String(e), bytes: [] };
        }
        const out = Buffer.from(got.bytes), wanted = bytes(it.start ?? it.output);
        if (got.status === it.status && (it.start === undefined ? out : out.subarray(0, wanted.length)).equals(wanted)) {
            passed++;
        } else {
            failed++;
            console.log(`${theme}: ${it.name}: status ${got.status}, wanted ${it.status}; ${out.toString().slice(0, 200)}`);
        }
    }
}
console.log(`${passed} cases passed, ${failed} failed, ${left} left out`);
process.exitCode = failed ? 1 : 0;
