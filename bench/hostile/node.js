// Validates modules for hostile.py, which writes four bytes with a length and the module, one after the other, on standard input. At a length of 0 a line follows with a
// digit for each module since the last line, 1 for a yes. A length whose highest bit is set asks for node's message on a module, in a line of its own.
const fs = require("fs");
const complaint = require("../complaint.js");

function read(length) {
    const bytes = Buffer.alloc(length);
    for (let at = 0; at < length; ) {
        const count = fs.readSync(0, bytes, at, length - at);
        if (count === 0) process.exit(0);
        at += count;
    }
    return bytes;
}

for (let verdicts = ""; ; ) {
    const length = read(4).readUInt32LE(0);
    if (length === 0) {
        fs.writeSync(1, verdicts + "\n");
        verdicts = "";
    } else if (length >= 2 ** 31) {
        fs.writeSync(1, complaint(read(length - 2 ** 31)).replace(/\n/g, " ") + "\n");
    } else {
        verdicts += WebAssembly.validate(read(length)) ? "1" : "0";
    }
}
