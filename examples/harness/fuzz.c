/* A libFuzzer target: validates any bytes, makes a module of them, and hands both to an engine. Put yours in place of `engine`. */
#include <stdlib.h>
#include <wasm_gen.h>

/* What is fuzzed: it takes bytes, and whether they are a valid module. It ends the process where the engine says otherwise. */
static void engine(const uint8_t *bytes, size_t length, int is_valid) {
    (void)bytes, (void)length, (void)is_valid;
}

/* Validates the bytes, and hands them to the engine. Each kind has a branch of its own, which the fuzzer sees. */
static void check(const uint8_t *bytes, size_t length, uint32_t features, int is_generated) {
    struct wasm_gen_verdict verdict;
    switch (wasm_gen_check(bytes, length, features, &verdict)) {
    case WASM_GEN_YES: engine(bytes, length, 1); return;
    case WASM_GEN_MALFORMED: engine(bytes, length, 0); break;
    case WASM_GEN_INVALID: engine(bytes, length, 0); break;
    case WASM_GEN_LIMIT: break; /* an engine may have other limits, */
    case WASM_GEN_OPERATOR: break; /* and more operators */
    case WASM_GEN_BODY: engine(bytes, length, 0); break;
    case WASM_GEN_MEMORY: return;
    default: abort();
    }
    if (is_generated) abort();
}

/* Makes a module of the bytes, and hands it on. Where it doesn't fit into the buffer, asks again with one of the length that was given. */
static void generate(const uint8_t *seed, size_t size) {
    static uint8_t *module;
    static size_t capacity;
    size_t length;
    uint32_t kind = wasm_gen_generate(NULL, 0, seed, size, module, capacity, &length);
    if (kind == WASM_GEN_BUFFER) {
        module = realloc(module, capacity = length);
        if (!module) abort();
        kind = wasm_gen_generate(NULL, 0, seed, size, module, capacity, &length);
    }
    if (kind == WASM_GEN_YES) check(module, length, wasm_gen_features_generated(), 1);
}

int LLVMFuzzerTestOneInput(const uint8_t *data, size_t size) {
    check(data, size, wasm_gen_features_default(), 0);
    generate(data, size);
    return 0;
}
