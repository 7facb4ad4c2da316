// node on-node.mjs PROGRAM.wasm: a C program as a WebAssembly module, with this process's standard input and output.
import fs from 'node:fs';

let memory;
const bytes = (at, count) => new Uint8Array(memory.buffer, at, count);
const outside = {
    read(file, at, count) {
        try {
            return fs.readSync(file, bytes(at, count));
        } catch (error) {
            if (error.code === 'EOF') return 0;
            throw error;
        }
    },
    write: (file, at, count) => fs.writeSync(file, bytes(at, count)),
    exit: (status) => process.exit(status),
};
const { instance } = await WebAssembly.instantiate(fs.readFileSync(process.argv[2]), { outside });
memory = instance.exports.memory;
instance.exports.begin();
