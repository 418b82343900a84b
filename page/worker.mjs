// The engine in WebAssembly: words and files in, status and bytes out. As a worker it answers one request after another.
const text = new TextEncoder();
const FIRST_ROOM = 1 << 18, MOST_MEMORY = 2 ** 31;
const WRITE = 4, MEMORY = 9;

export class Engine {
    static async from(bytes) {
        return new Engine((await WebAssembly.instantiate(bytes, {})).instance.exports);
    }

    constructor(exports) {
        this.module = exports;
    }

    // { status, bytes }. `files` are pairs of a name and its content; each word, name and content is a string or bytes.
    answer(words, files = []) {
        const pieces = [...words, ...files.flat()].map((it) => (typeof it === "string" ? text.encode(it) : it));
        const answer = this.#once(pieces, words.length, FIRST_ROOM);
        return answer.status === WRITE ? this.#once(pieces, words.length, answer.needed) : answer;
    }

    get memory() {
        return this.module.memory.buffer.byteLength;
    }

    #once(pieces, words, room) {
        const { heap_take, heap_give, clarity_answer, memory } = this.module;
        const total = pieces.reduce((sum, it) => sum + it.length, 0);
        const blocks = [total, pieces.length * 8, room, 8].map((size) => heap_take(BigInt(size)));
        if (blocks.includes(0n)) return { status: MEMORY, bytes: new Uint8Array() };
        const [bytes, ends, out, length] = blocks.map(Number);
        const places = new BigUint64Array(memory.buffer, ends, pieces.length);
        let end = 0;
        pieces.forEach((piece, i) => {
            new Uint8Array(memory.buffer, bytes + end, piece.length).set(piece);
            end += piece.length;
            places[i] = BigInt(end);
        });
        const numbers = [bytes, total, ends, pieces.length, words, out, room, length].map(BigInt);
        const status = clarity_answer(...numbers);
        // The memory may have grown, and then has another buffer.
        const needed = Number(new BigUint64Array(memory.buffer, length, 1)[0]);
        const answer = new Uint8Array(memory.buffer, out, Math.min(needed, room)).slice();
        blocks.forEach((block) => heap_give(block));
        return { status, needed, bytes: answer };
    }
}

if (typeof WorkerGlobalScope !== "undefined" && self instanceof WorkerGlobalScope) {
    const loading = fetch(new URL("clarity.wasm", import.meta.url)).then((it) => it.arrayBuffer()).then(Engine.from);
    self.onmessage = async ({ data: { id, words, files } }) => {
        const before = performance.now();
        try {
            const engine = await loading;
            const { status, bytes } = engine.answer(words, files);
            // A worker whose memory has grown too far is ended, and made anew.
            self.postMessage({ id, status, bytes, ms: performance.now() - before, full: engine.memory > MOST_MEMORY });
        } catch (e) {
            // After a trap, as for want of stack, the memory is half written.
            self.postMessage({ id, failed: String(e) });
        }
    };
}
