// node run.mjs PROGRAM.wasm ROUNDS LIMIT ASKED: the stream goes to standard output, words to standard error.
import { readFileSync, writeSync } from "node:fs";

const [file, ...numbers] = process.argv.slice(2);

function writeAll(to, bytes) {
    for (let at = 0; at < bytes.length;) at += writeSync(to, bytes, at);
}

class Exit extends Error {}
let memory;
let code = 3;
const chunks = [];
const test = {
    write: (at, len) => chunks.push(Buffer.from(memory.buffer.slice(at, at + len))),
    say: (at) => {
        const bytes = new Uint8Array(memory.buffer, at);
        writeAll(2, Buffer.from(bytes.slice(0, bytes.indexOf(0))));
    },
    exit: (given) => {
        code = given;
        throw new Exit();
    },
};
const { instance } = await WebAssembly.instantiate(readFileSync(file), { test });
memory = instance.exports.memory;
try {
    instance.exports.program(...numbers.map(Number));
} catch (thrown) {
    if (!(thrown instanceof Exit)) {
        instance.exports.flush_calls();
        writeAll(2, Buffer.from(`trapped: ${thrown.message}\n`));
    }
}
writeAll(1, Buffer.concat(chunks));
process.exitCode = code;
