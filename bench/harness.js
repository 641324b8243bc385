// Prints how often a second node validates the header alone and a module, in a loop: node harness.js MODULE.
const fs = require("fs");
const header = Uint8Array.of(0, 97, 115, 109, 1, 0, 0, 0);
const code = fs.readFileSync(process.argv[2]);

// Milliseconds of the processor's time, since others share it.
function now() {
    const used = process.cpuUsage();
    return (used.user + used.system) / 1000;
}

function measure(what, bytes) {
    let best = 0;
    for (let turn = 0; turn < 5; turn++) {
        const begin = now();
        let calls = 0;
        while (now() - begin < 300) {
            for (let i = 0; i < 64; i++) if (!WebAssembly.validate(bytes)) throw new Error(`${what}: a no`);
            calls += 64;
        }
        best = Math.max(best, calls / (now() - begin) * 1000);
    }
    console.log(`node's WebAssembly.validate, ${what}: ${Math.round(best)} a second`);
}

measure("the header alone", header);
measure("the module of code", code);
