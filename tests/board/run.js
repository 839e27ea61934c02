// Runs main of a program for WebAssembly that was linked with library.c:
//
//     node run.js PROGRAM.WASM
"use strict";

const fs = require("fs");

let memory;

function say(text) {
    const octets = Buffer.from(memory.buffer);
    process.stdout.write(octets.toString("latin1", text, octets.indexOf(0, text)));
}

const compiled = new WebAssembly.Module(fs.readFileSync(process.argv[2]));
const program = new WebAssembly.Instance(compiled, { machine: { say } }).exports;
memory = program.memory;
process.exitCode = program.__original_main();
