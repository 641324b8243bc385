/* Validates WebAssembly modules, reports what they have, and makes valid ones from seeds and configurations. `./wasm_gen_c` proves and builds the
 * library. It needs malloc, realloc, free, memcpy, memmove and memset from the program that it is linked into, and a processor of x86-64-v2.
 *
 * A call borrows its arguments until it returns, and keeps none of them. It reads the bytes, the configuration and the seed, and writes the
 * buffer, the verdict, the features and the length alone; these must not overlap with any other argument. All memory that it allocates is
 * freed. A call that can't go on without memory returns WASM_GEN_MEMORY; no call aborts.
 *
 * Lengths are in bytes. A pointer may be null if its length is 0; a verdict, features or a length may not. There is no state between calls, so
 * threads may call at the same time with values of their own. Do not call from a signal handler. */
#ifndef WASM_GEN_H
#define WASM_GEN_H

#include <stddef.h>
#include <stdint.h>

#ifdef __cplusplus
extern "C" {
#endif

/* The value that wasm_gen_version returns for this header. */
#define WASM_GEN_VERSION 2

/* Results of calls. If a module has several faults, any of them may be reported. */
enum wasm_gen_kind {
    WASM_GEN_YES = 0,          /* the module is valid, or was written; the text is a configuration */
    WASM_GEN_MALFORMED = 1,    /* the bytes don't read as a module */
    WASM_GEN_INVALID = 2,      /* they break a rule of validity */
    WASM_GEN_LIMIT = 3,        /* a count, a size, a depth or a sum passes a limit */
    WASM_GEN_OPERATOR = 4,     /* valid but for a body with an operator outside the table in docs/SPEC.md */
    WASM_GEN_BODY = 5,         /* valid but for the bytes of a body, or its typing */
    WASM_GEN_MEMORY = 9,       /* out of memory: no verdict */
    WASM_GEN_FEATURES = 10,    /* unknown feature bit */
    WASM_GEN_BUFFER = 11,      /* the buffer is too short for the module or the report */
    WASM_GEN_CONFIG_TEXT = 12, /* the text is no configuration */
    WASM_GEN_CONFIG = 13,      /* a value of the configuration isn't allowed */
    WASM_GEN_MINIMUM = 15,     /* fewer items than the configuration's minimum can be made */
    WASM_GEN_TYPE_SIZE = 17,   /* the types of imports and exports are too large together */

    /* No call of this version returns these. */
    WASM_GEN_TOTAL = 6,        /* the validator's list of types is full */
    WASM_GEN_ORDER = 7,        /* a part of a module comes too early or late */
    WASM_GEN_FAILED = 8,       /* the validator refused a module before */
    WASM_GEN_SHAPE = 14,       /* a shape of the configuration isn't allowed; text gives no shapes */
    WASM_GEN_EMPTY_CHOICE = 16 /* a shape asks for references that aren't null, of which there is no constant */
};

/* Features of WebAssembly, each as a bit. */
enum wasm_gen_feature {
    WASM_GEN_MUTABLE_GLOBAL = 1 << 0,
    WASM_GEN_SATURATING_FLOAT_TO_INT = 1 << 1,
    WASM_GEN_SIGN_EXTENSION = 1 << 2,
    WASM_GEN_REFERENCE_TYPES = 1 << 3,
    WASM_GEN_MULTI_VALUE = 1 << 4,
    WASM_GEN_BULK_MEMORY = 1 << 5,
    WASM_GEN_SIMD = 1 << 6,
    WASM_GEN_RELAXED_SIMD = 1 << 7,
    WASM_GEN_THREADS = 1 << 8,
    WASM_GEN_TAIL_CALL = 1 << 9,
    WASM_GEN_FLOATS = 1 << 10,
    WASM_GEN_MULTI_MEMORY = 1 << 11,
    WASM_GEN_EXCEPTIONS = 1 << 12,
    WASM_GEN_MEMORY64 = 1 << 13,
    WASM_GEN_EXTENDED_CONST = 1 << 14,
    WASM_GEN_FUNCTION_REFERENCES = 1 << 15,
    WASM_GEN_GC = 1 << 16,
    WASM_GEN_GC_TYPES = 1 << 17,
    WASM_GEN_CUSTOM_PAGE_SIZES = 1 << 18,
    WASM_GEN_COMPACT_IMPORTS = 1 << 19,
    WASM_GEN_WIDE_ARITHMETIC = 1 << 20,
    WASM_GEN_STACK_SWITCHING = 1 << 21
};

/* The verdict on a module. The eight counts are the sizes of its index spaces, imports included; 0 after a refusal. */
struct wasm_gen_verdict {
    uint32_t kind;   /* an enum wasm_gen_kind */
    uint64_t offset; /* an offset in the bytes of a module that is refused or for which memory ran out, or their length; else 0 */
    uint64_t types;
    uint64_t functions;
    uint64_t tables;
    uint64_t memories;
    uint64_t globals;
    uint64_t tags;
    uint64_t elements; /* element segments */
    uint64_t exports;
};

/* Returns the library's version: WASM_GEN_VERSION of its header. */
uint32_t wasm_gen_version(void);

/* Returns the default features: all but custom page sizes, compact imports, wide arithmetic and stack switching. */
uint32_t wasm_gen_features_default(void);

/* Returns the features that modules made by the default configuration may use. All of them are default features. */
uint32_t wasm_gen_features_generated(void);

/* Sets *features to the features that modules made by a configuration may use, and returns WASM_GEN_YES. wasm_gen_check under them returns
 * WASM_GEN_YES for each such module, or WASM_GEN_MEMORY, unless the configuration has `allow_invalid_funcs`. Else returns WASM_GEN_CONFIG_TEXT or
 * WASM_GEN_MEMORY, and sets *features to 0. Empty text has the features of wasm_gen_features_generated. A configuration may have features and
 * make no module: wasm_gen_generate alone checks its values. */
uint32_t wasm_gen_features_of_config(const uint8_t *config, size_t config_length, uint32_t *features);

/* Writes the name of a kind, in ASCII and without a zero at its end, to the front of the buffer if it fits; else the buffer stays as it is.
 * Returns the name's length, at most 12, in either case; 0 for a number that is no kind. */
size_t wasm_gen_kind_name(uint32_t kind, char *buffer, size_t length);

/* Validates a module under the features whose bits are set (enum wasm_gen_feature). Fills the verdict, and returns its kind: WASM_GEN_YES exactly
 * if the bytes are a valid module whose bodies have operators of the table, unless memory runs out; else a kind from WASM_GEN_MALFORMED to
 * WASM_GEN_BODY, WASM_GEN_MEMORY or WASM_GEN_FEATURES. A small body can need gigabytes of operands (calls of a function with a thousand
 * results); a system that overcommits may then end the process. */
uint32_t wasm_gen_check(const uint8_t *bytes, size_t length, uint32_t features, struct wasm_gen_verdict *verdict);

/* Validates a module as wasm_gen_check does, and reports on it: writes a text, in ASCII and without a zero at its end, to the front of the buffer
 * if it fits. Other bytes of the buffer stay as they are. Sets *report_length to the text's length, whether it fits or not.
 *
 * The text of a valid module has a line for each type of a group, each item of an index space, imported ones first, and each export, as
 * docs/SPEC.md lists under "Reports"; it is empty if there are none. That of a refused one is `no`, a space, the name of its kind and a newline. If the text
 * doesn't fit, returns WASM_GEN_BUFFER, be the module valid or not: call again with a buffer of *report_length bytes. Else returns WASM_GEN_YES, or
 * the kind of the refusal, from WASM_GEN_MALFORMED to WASM_GEN_BODY. If there is no text, returns WASM_GEN_MEMORY or WASM_GEN_FEATURES, and sets
 * *report_length to 0. */
uint32_t wasm_gen_report(const uint8_t *bytes, size_t length, uint32_t features, uint8_t *buffer, size_t buffer_length, size_t *report_length);

/* Makes a module by a configuration from a seed, which may be any bytes. Equal configurations and seeds make equal modules (tested, not proved). Sets
 * *module_length to the module's length, or to 0 if none is made. Returns WASM_GEN_YES after writing the module to the front of the buffer, or
 * WASM_GEN_BUFFER if it doesn't fit: call again with a buffer of *module_length bytes. Other bytes of the buffer stay as they are.
 *
 * A configuration is a text in TOML whose keys are those of `data/config.toml`. A key that is left out has its default, which stands there. Empty
 * text is the default configuration, whose modules have at most 100 types, imports, functions, globals, tags, exports, element segments of at
 * most 100 items, and data segments, and at most one table and one memory.
 *
 * If no module is made, returns WASM_GEN_CONFIG_TEXT if the text isn't TOML in UTF-8, or has another key or a value that its key doesn't take;
 * WASM_GEN_CONFIG if a minimum is above its maximum, or a maximum is too large; WASM_GEN_MINIMUM; WASM_GEN_TYPE_SIZE, with `export_everything`
 * alone; WASM_GEN_LIMIT if the module would pass a limit; or WASM_GEN_MEMORY. Empty text leads to no refusal but the last two. A minimum in the
 * billions takes gigabytes; a system that overcommits may then end the process. */
uint32_t wasm_gen_generate(const uint8_t *config, size_t config_length, const uint8_t *seed, size_t seed_length, uint8_t *buffer,
                           size_t buffer_length, size_t *module_length);

#ifdef __cplusplus
}
#endif

#endif
