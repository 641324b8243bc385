// Returns node's message on a module that it refuses, and no text on one that it accepts.
module.exports = bytes => {
    try {
        new WebAssembly.Module(bytes);
        return "";
    } catch (error) {
        return error.message;
    }
};
