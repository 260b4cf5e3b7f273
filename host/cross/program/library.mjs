// node library.mjs GROMMETIDE.wasm: bench rows a to e on the library's own module, which is given nothing.
import { deepStrictEqual as same } from "node:assert";
import { readFileSync } from "node:fs";

const module = new WebAssembly.Module(readFileSync(process.argv[2]));
same(WebAssembly.Module.imports(module), []);
const calls = ["fault", "format", "made", "mount", "next", "read", "record_size", "request", "run", "step"];
const exported = WebAssembly.Module.exports(module).filter(({ kind }) => kind === "function").map(({ name }) => name);
same(exported.sort(), calls.map((call) => `grommetide_${call}`));

const { exports } = new WebAssembly.Instance(module, {});
const bytes = new Uint8Array(exports.memory.buffer);
const [image, record, message, reply, at, len] = [0, 1024, 2560, 3072, 3200, 3208].map((offset) => exports.__heap_base.value + offset);
if (bytes.length < len + 8) throw new Error("too little memory behind __heap_base");
const size = exports.grommetide_record_size();
same(size, 1084n);
const board = [image, 512n, 2, record, size];
const part = (from, count) => [...bytes.subarray(from, from + count)];

function finish(answer) {
    let steps = 0;
    for (; answer === 255; steps++) answer = exports.grommetide_step(...board);
    return [answer, steps];
}

function give(...given) {
    bytes.set(given, message);
    return [message, BigInt(given.length)];
}

const ask = (host, ...given) => finish(exports.grommetide_request(...board, host, ...give(...given), reply, 14n));

same(finish(exports.grommetide_format(...board)), [0, 12]);
same(part(image, 9), [0x10, 0, 1, 0x4a, 0xfe, 0xff, 0xff, 0xff, 0xfc]);
same(part(image + 9, 503), Array(503).fill(0xff));
same(ask(2, 8, 0, 1, 1, 5, 0, 0x41, 0x42), [0, 10]);
same(part(image + 16, 10), [0x0a, 0, 1, 0, 2, 5, 0, 0x41, 0x42, 0xfe]);
same(ask(2, 4, 0, 3, 1), [0, 6]);
same(part(image + 26, 6), [6, 0, 3, 0, 2, 0xfe]);
same(exports.grommetide_read(...board, 0, ...give(6, 0, 5, 1, 5, 0), at, len), 0);
same([...new BigUint64Array(exports.memory.buffer.slice(at, at + 16))], [23n, 2n]);
same(ask(1, 5, 0, 6, 1, 1), [0, 0]);
same(part(reply, 14), [0x0e, 0, 1, 2, 1, 0, 0, 0, 1, 0, 0x19, 0, 0, 1]);
console.log("rows a to e");
