/* Tests of the static library, one for each name: harness NAME FILE.., where each file is a module, and its bytes are a seed too. It is
 * linked with -Wl,--wrap=malloc,--wrap=realloc,--wrap=free, so that blocks are counted, and one can be refused. */
#include <pthread.h>
#include <stdio.h>
#include <stdlib.h>
#include <string.h>
#include <wasm_gen.h>

enum { FILES = 64, ROOM = 1 << 20, FILL = 0xa5 };

static struct input {
    uint8_t *bytes;
    size_t length;
} inputs[FILES];
static int count;

void *__real_malloc(size_t size);
void *__real_realloc(void *block, size_t size);
void __real_free(void *block);

/* Blocks that are held, allocations so far, and the one that is refused, of this thread; 0 refuses none. */
static __thread long held, taken, refused;

void *__wrap_malloc(size_t size) {
    if (++taken == refused) return NULL;
    held++;
    return __real_malloc(size);
}

void *__wrap_realloc(void *block, size_t size) {
    if (++taken == refused) return NULL;
    held += !block;
    return __real_realloc(block, size);
}

void __wrap_free(void *block) {
    held -= !!block;
    __real_free(block);
}

static void want(int is_so, const char *what, long number) {
    if (is_so) return;
    fprintf(stderr, "harness: %s, %ld\n", what, number);
    exit(1);
}

static int is_filled(const uint8_t *bytes, size_t length) {
    for (size_t i = 0; i < length; i++)
        if (bytes[i] != FILL) return 0;
    return 1;
}

/* A block of just this length, so that the address sanitizer sees what is touched beside it. */
static uint8_t *filled(size_t length) {
    uint8_t *bytes = __real_malloc(length ? length : 1);
    memset(bytes, FILL, length);
    return bytes;
}

static int is_refusal(const struct wasm_gen_verdict *it, uint32_t kind, uint64_t offset) {
    return it->kind == kind && it->offset == offset && !it->types && !it->functions && !it->tables && !it->memories && !it->globals
        && !it->tags && !it->elements && !it->exports;
}

static void codes(void) {
    static const char *const names[] = {"yes", "malformed", "invalid", "limit", "operator", "body", "total", "order", "failed", "memory",
        "features", "buffer", "config text", "config", "shape", "minimum", "empty choice", "type size", "", ""};
    for (uint32_t kind = 0; kind < 20; kind++) {
        size_t length = strlen(names[kind]);
        for (size_t room = 0; room < 16; room++) {
            uint8_t *buffer = filled(room);
            want(wasm_gen_kind_name(kind, (char *)buffer, room) == length, "a name's length", kind);
            int fits = length <= room;
            want(!fits || !memcmp(buffer, names[kind], length), "a name", kind);
            want(is_filled(buffer + fits * length, room - fits * length), "what stands beside a name", kind);
            __real_free(buffer);
        }
        want(wasm_gen_kind_name(kind, NULL, 0) == length, "a name's length", kind);
    }
    want(!wasm_gen_kind_name(UINT32_MAX, NULL, 0), "the largest number", 0);
    uint32_t others = WASM_GEN_CUSTOM_PAGE_SIZES | WASM_GEN_COMPACT_IMPORTS | WASM_GEN_WIDE_ARITHMETIC | WASM_GEN_STACK_SWITCHING;
    want((wasm_gen_features_default() | others) == (WASM_GEN_STACK_SWITCHING << 1) - 1, "all features", 0);
    want(!(wasm_gen_features_default() & others), "the features that aren't default ones", 0);
    want(wasm_gen_version() == WASM_GEN_VERSION, "the version", 0);
    want(wasm_gen_features_default() == 0x3ffff, "the default features", 0);
    want((wasm_gen_features_generated() | 0x3ffff) == 0x3ffff, "the features of what is generated", 0);
    uint32_t features = FILL;
    want(wasm_gen_features_of_config(NULL, 0, &features) == WASM_GEN_YES && features == wasm_gen_features_generated(), "the features of no text", 0);
}

static void checks(void) {
    struct wasm_gen_verdict it;
    want(wasm_gen_check(NULL, 0, wasm_gen_features_default(), &it) == WASM_GEN_MALFORMED, "no bytes", 0);
    want(is_refusal(&it, WASM_GEN_MALFORMED, it.offset) && it.offset == 0, "the verdict on no bytes", 0);
    for (int bit = 22; bit < 32; bit++) {
        memset(&it, FILL, sizeof it);
        want(wasm_gen_check(inputs[0].bytes, inputs[0].length, 1u << bit, &it) == WASM_GEN_FEATURES, "a bit that is no feature", bit);
        want(is_refusal(&it, WASM_GEN_FEATURES, 0), "the verdict on a bit that is no feature", bit);
    }
    for (int i = 0; i < count; i++)
        for (size_t length = 0; length <= inputs[i].length && length < 4096; length++) {
            uint8_t *bytes = filled(length);
            memcpy(bytes, inputs[i].bytes, length);
            memset(&it, FILL, sizeof it);
            uint32_t kind = wasm_gen_check(bytes, length, wasm_gen_features_default(), &it);
            want(kind == it.kind && kind <= WASM_GEN_BODY, "the kind", length);
            want(kind ? it.offset <= length && is_refusal(&it, kind, it.offset) : !it.offset, "the place", length);
            __real_free(bytes);
        }
}

static void buffers_of(const uint8_t *seed, size_t seed_length) {
    static uint8_t module[ROOM];
    size_t needed, length;
    struct wasm_gen_verdict it;
    want(wasm_gen_generate(NULL, 0, seed, seed_length, module, sizeof module, &needed) == WASM_GEN_YES, "a module", seed_length);
    want(wasm_gen_check(module, needed, wasm_gen_features_generated(), &it) == WASM_GEN_YES, "a module is valid", seed_length);
    want(wasm_gen_check(module, needed, wasm_gen_features_default(), &it) == WASM_GEN_YES, "a module is valid", seed_length);
    want(wasm_gen_generate(NULL, 0, seed, seed_length, NULL, 0, &length) == WASM_GEN_BUFFER && length == needed, "no buffer", seed_length);
    for (size_t room = 0; room < needed + 8; room++) {
        uint8_t *buffer = filled(room);
        int fits = room >= needed;
        uint32_t code = wasm_gen_generate(NULL, 0, seed, seed_length, buffer, room, &length);
        want(code == (fits ? WASM_GEN_YES : WASM_GEN_BUFFER) && length == needed, "a buffer's code and length", room);
        want(!fits || !memcmp(buffer, module, needed), "what is written", room);
        want(is_filled(buffer + fits * needed, room - fits * needed), "what stands beside it", room);
        __real_free(buffer);
    }
}

static void buffers(void) {
    buffers_of(NULL, 0);
    for (int i = 0; i < count; i++) buffers_of(inputs[i].bytes, inputs[i].length < 1024 ? inputs[i].length : 1024);
}

/* A configuration's text, in a block of just its length. */
static struct input text_of(const char *text) {
    struct input it = {filled(strlen(text)), strlen(text)};
    memcpy(it.bytes, text, it.length);
    return it;
}

/* The text's modules, one for each seed, are valid under the features that are told for it, which are all of these and none of those. */
static void configured(const char *text, uint32_t all, uint32_t none) {
    static uint8_t module[ROOM];
    struct input config = text_of(text);
    struct wasm_gen_verdict it;
    uint32_t features = FILL;
    size_t length;
    want(wasm_gen_features_of_config(config.bytes, config.length, &features) == WASM_GEN_YES, text, 0);
    want((features & all) == all && !(features & none) && features < 1u << 22, text, features);
    for (int i = 0; i < count; i++) {
        size_t seed_length = inputs[i].length < 1024 ? inputs[i].length : 1024;
        want(wasm_gen_generate(config.bytes, config.length, inputs[i].bytes, seed_length, module, ROOM, &length) == WASM_GEN_YES, text, i);
        want(wasm_gen_check(module, length, features, &it) == WASM_GEN_YES, text, i);
        want(strncmp(text, "max_funcs = 0", 13) || !it.functions, text, i);
        want(strncmp(text, "min_memories = 2", 16) || it.memories >= 2, text, i);
    }
    __real_free(config.bytes);
}

/* The text makes the modules that no text makes. */
static void by_default(const char *text) {
    static uint8_t module[ROOM], other[ROOM];
    struct input config = text_of(text);
    size_t length, other_length;
    for (int i = 0; i < count; i++) {
        size_t seed_length = inputs[i].length < 1024 ? inputs[i].length : 1024;
        want(wasm_gen_generate(NULL, 0, inputs[i].bytes, seed_length, module, ROOM, &length) == WASM_GEN_YES, "no text", i);
        want(wasm_gen_generate(config.bytes, config.length, inputs[i].bytes, seed_length, other, ROOM, &other_length) == WASM_GEN_YES, text, i);
        want(length == other_length && !memcmp(module, other, length), text, i);
    }
    __real_free(config.bytes);
}

/* The text makes no module, for this reason. It has features unless it is no configuration. */
static void misconfigured(const char *text, uint32_t kind) {
    struct input config = text_of(text);
    uint8_t *buffer = filled(64);
    size_t length = 1;
    uint32_t features = FILL;
    want(wasm_gen_generate(config.bytes, config.length, NULL, 0, buffer, 64, &length) == kind, text, kind);
    want(!length && is_filled(buffer, 64), "after a configuration that makes no module", kind);
    want(wasm_gen_features_of_config(config.bytes, config.length, &features) == (kind == WASM_GEN_CONFIG_TEXT ? kind : WASM_GEN_YES), text, kind);
    want(!features == (kind == WASM_GEN_CONFIG_TEXT), text, features);
    __real_free(buffer);
    __real_free(config.bytes);
}

static const char numbers[] = "max_funcs = 0\nallowed_instructions = \"Numeric\"\nmemory_offset_choices = '1,2,3'\n";

static void configs(void) {
    static const char *const bad[] = {"x", "max_funcs", "max_funcs = 7\nmax_types =", "shape = 1", "max_funcs = \"7\"", "max_funcs = -1", "max_types = 4294967296",
        "gc_enabled = 1", "memory_offset_choices = '1,2'", "\xff", "# \xff\n", "max_funcs = 7\nmax_funcs = 7"};
    for (size_t i = 0; i < sizeof bad / sizeof *bad; i++) misconfigured(bad[i], WASM_GEN_CONFIG_TEXT);
    misconfigured("max_types = 2147483649", WASM_GEN_CONFIG);
    misconfigured("min_funcs = 101", WASM_GEN_CONFIG);
    misconfigured("max_types = 0\nmin_funcs = 1", WASM_GEN_MINIMUM);
    misconfigured("export_everything = true\nmin_globals = 1\nmax_type_size = 0", WASM_GEN_TYPE_SIZE);
    misconfigured("min_types = 1000001\nmax_types = 1000001", WASM_GEN_LIMIT);
    by_default("");
    by_default("# nothing\n");
    by_default("max_types = 100\ngc_enabled = true\n");
    configured(numbers, WASM_GEN_GC | WASM_GEN_FLOATS, WASM_GEN_THREADS);
    configured("min_memories = 2\nmax_memories = 3", WASM_GEN_EXCEPTIONS | WASM_GEN_MULTI_MEMORY, WASM_GEN_THREADS);
    configured("simd_enabled = false\nreference_types_enabled = false", 0, WASM_GEN_SIMD | WASM_GEN_RELAXED_SIMD | WASM_GEN_GC | WASM_GEN_REFERENCE_TYPES);
    configured("threads_enabled = true\ncustom_page_sizes_enabled = true", WASM_GEN_THREADS | WASM_GEN_CUSTOM_PAGE_SIZES, WASM_GEN_MULTI_MEMORY);
}

/* Number of lines of a report that begin with this word. */
static uint64_t lines_of(const uint8_t *report, size_t length, const char *word) {
    uint64_t lines = 0;
    size_t letters = strlen(word);
    for (size_t i = 0; i + letters < length; i++)
        lines += (!i || report[i - 1] == '\n') && !memcmp(report + i, word, letters) && report[i + letters] == ' ';
    return lines;
}

/* Writes the report's text into a large buffer, and returns its length. It tells what the verdict does. */
static size_t reported(const uint8_t *bytes, size_t bytes_length, uint8_t *report) {
    struct wasm_gen_verdict it;
    uint32_t kind = wasm_gen_check(bytes, bytes_length, wasm_gen_features_default(), &it);
    size_t length;
    want(wasm_gen_report(bytes, bytes_length, wasm_gen_features_default(), report, ROOM, &length) == kind, "a report's code", bytes_length);
    if (kind) {
        char line[16] = "no ";
        size_t letters = wasm_gen_kind_name(kind, line + 3, 12);
        line[3 + letters] = '\n';
        want(length == letters + 4 && !memcmp(report, line, length), "the line of a refusal", bytes_length);
        return length;
    }
    static const char *const words[] = {"index", "function", "table", "memory", "global", "tag", "element", "export"};
    const uint64_t counts[] = {it.types, it.functions, it.tables, it.memories, it.globals, it.tags, it.elements, it.exports};
    for (int i = 0; i < 8; i++) want(lines_of(report, length, words[i]) == counts[i], words[i], bytes_length);
    want(!length || report[length - 1] == '\n', "the end of a report", bytes_length);
    return length;
}

/* The report on these bytes in buffers of all lengths up to one that is longer than it. */
static void reports_of(const uint8_t *bytes, size_t bytes_length) {
    static uint8_t report[ROOM];
    size_t needed = reported(bytes, bytes_length, report), length;
    uint32_t kind = wasm_gen_report(bytes, bytes_length, wasm_gen_features_default(), report, sizeof report, &length);
    for (size_t room = 0; room < needed + 8; room++) {
        uint8_t *buffer = filled(room);
        int fits = room >= needed;
        uint32_t code = wasm_gen_report(bytes, bytes_length, wasm_gen_features_default(), buffer, room, &length);
        want(code == (fits ? kind : WASM_GEN_BUFFER) && length == needed, "a report's code and length", room);
        want(!fits || !memcmp(buffer, report, needed), "a report that is written", room);
        want(is_filled(buffer + fits * needed, room - fits * needed), "what stands beside a report", room);
        __real_free(buffer);
    }
    want(wasm_gen_report(bytes, bytes_length, wasm_gen_features_default(), NULL, 0, &length) == (needed ? WASM_GEN_BUFFER : kind) && length == needed,
        "a report without a buffer", needed);
}

/* Bits that are no features have no report. */
static void unreported(void) {
    for (int bit = 22; bit < 32; bit++) {
        uint8_t *buffer = filled(64);
        size_t length = 1;
        want(wasm_gen_report(inputs[0].bytes, inputs[0].length, 1u << bit, buffer, 64, &length) == WASM_GEN_FEATURES, "a report under no feature", bit);
        want(!length && is_filled(buffer, 64), "after a report under no feature", bit);
        __real_free(buffer);
    }
}

static void reports(void) {
    static const uint8_t module[] = "\0asm\1\0\0\0\1\4\1\140\0\0\3\2\1\0\7\5\1\1\"\0\0\12\5\1\3\0\0\13";
    static const char text[] = "type 0.0 final - func [] []\nindex 0 0.0\nfunction 0 0.0\nexport \"\\22\" function 0.0\n";
    static uint8_t made[ROOM], report[ROOM];
    size_t length = reported(module, sizeof module - 1, report);
    want(length == sizeof text - 1 && !memcmp(report, text, length), "a report", length);
    want(reported(module, 8, report) == 0, "the report on a header", 0);
    want(wasm_gen_report(module, sizeof module - 2, 0, report, ROOM, &length) == WASM_GEN_MALFORMED, "the report on what is cut off", length);
    want(length == 13 && !memcmp(report, "no malformed\n", 13), "the line on what is cut off", length);
    want(wasm_gen_report((const uint8_t *)"\0asm\1\0\0\0\5\3\1\4\1", 13, WASM_GEN_MEMORY64, report, ROOM, &length) == WASM_GEN_YES, "a feature", length);
    want(wasm_gen_report((const uint8_t *)"\0asm\1\0\0\0\5\3\1\4\1", 13, 0, report, ROOM, &length) != WASM_GEN_YES, "no feature", length);
    reports_of(module, sizeof module - 1);
    reports_of(NULL, 0);
    unreported();
    for (int i = 0; i < count; i++) {
        for (size_t end = 0; end < inputs[i].length && end < 1024; end++) reported(inputs[i].bytes, end, report);
        reports_of(inputs[i].bytes, inputs[i].length);
        want(wasm_gen_generate(NULL, 0, inputs[i].bytes, inputs[i].length < 1024 ? inputs[i].length : 1024, made, ROOM, &length) == WASM_GEN_YES, "a module", i);
        reported(made, length, report);
    }
}

/* Writes the report on the first file to standard output, and ends as the program does. */
static void report(void) {
    static uint8_t text[ROOM];
    size_t length;
    uint32_t kind = wasm_gen_report(inputs[0].bytes, inputs[0].length, wasm_gen_features_default(), text, ROOM, &length);
    want(fwrite(text, 1, length, stdout) == length && !fflush(stdout), "standard output", length);
    exit(kind != WASM_GEN_YES);
}

/* A call of each kind, and what they answer, as one number. */
static uint64_t round_of(int i) {
    static __thread uint8_t module[ROOM];
    struct wasm_gen_verdict it;
    size_t length;
    uint32_t features;
    uint64_t sum = wasm_gen_check(inputs[i].bytes, inputs[i].length, wasm_gen_features_default(), &it);
    sum = sum * 31 + it.offset + it.types + it.functions + it.exports;
    sum = sum * 31 + wasm_gen_report(inputs[i].bytes, inputs[i].length, wasm_gen_features_default(), module, ROOM, &length);
    sum = sum * 31 + length + (length ? module[length - 1] : 0);
    sum = sum * 31 + wasm_gen_features_of_config((const uint8_t *)numbers, sizeof numbers - 1, &features);
    sum = sum * 31 + wasm_gen_generate(NULL, 0, inputs[i].bytes, inputs[i].length < 1024 ? inputs[i].length : 1024, module, ROOM, &length);
    return sum * 31 + features + length + (length ? module[length - 1] : 0);
}

static void million(void) {
    for (long turn = 0; turn < 500000; turn++) {
        round_of(turn % count);
        want(held == 0, "blocks that are held after a call", turn);
    }
}

/* The verdict where the given allocation is refused; 0 refuses none. */
static uint32_t refused_check(int i, long number, struct wasm_gen_verdict *it) {
    memset(it, FILL, sizeof *it);
    taken = 0, refused = number;
    uint32_t kind = wasm_gen_check(inputs[i].bytes, inputs[i].length, wasm_gen_features_default(), it);
    want(held == 0, "blocks that are held after a verdict", number);
    refused = 0;
    return kind;
}

/* No module is made where an allocation is refused, each in turn. */
static void refused_seed(const char *config, const uint8_t *seed, size_t seed_length) {
    static uint8_t module[ROOM];
    size_t length;
    long number = 1;
    for (;; number++) {
        memset(module, FILL, sizeof module);
        taken = 0, refused = number;
        uint32_t code = wasm_gen_generate((const uint8_t *)config, strlen(config), seed, seed_length, module, ROOM, &length);
        refused = 0;
        want(held == 0, "blocks that are held after a seed", number);
        if (taken < number) break;
        want(code == WASM_GEN_MEMORY && !length && is_filled(module, ROOM), "a seed without memory", number);
    }
    want(number > 1, "an allocation of a seed", number);
}

/* No features are told where an allocation is refused, each in turn, and no other code than the right one where none is. */
static void refused_config(const char *config, uint32_t kind) {
    uint32_t code, features;
    for (long number = 1;; number++) {
        features = FILL, taken = 0, refused = number;
        code = wasm_gen_features_of_config((const uint8_t *)config, strlen(config), &features);
        refused = 0;
        want(held == 0, "blocks that are held after a configuration", number);
        if (taken < number) break;
        want(code == WASM_GEN_MEMORY && !features, "a configuration without memory", number);
    }
    want(code == kind && !features == (kind != WASM_GEN_YES), config, code);
}

/* Nothing is reported where an allocation is refused, each in turn, unless it is one that is only to save time. */
static void refused_report(const uint8_t *bytes, size_t bytes_length) {
    static uint8_t right[ROOM], report[ROOM];
    size_t needed = reported(bytes, bytes_length, right), length;
    uint32_t kind = wasm_gen_report(bytes, bytes_length, wasm_gen_features_default(), right, ROOM, &length), code;
    for (long number = 1;; number++) {
        memset(report, FILL, needed + 8);
        taken = 0, refused = number;
        code = wasm_gen_report(bytes, bytes_length, wasm_gen_features_default(), report, ROOM, &length);
        refused = 0;
        want(held == 0, "blocks that are held after a report", number);
        int is_right = code == kind && length == needed && !memcmp(report, right, needed) && is_filled(report + needed, 8);
        want(is_right || (taken >= number && code == WASM_GEN_MEMORY && !length && is_filled(report, needed + 8)), "a report without memory", number);
        if (taken < number) break;
    }
}

static void refusals_of(int i) {
    struct wasm_gen_verdict it, right;
    size_t seed_length = inputs[i].length < 1024 ? inputs[i].length : 1024;
    long number = 1;
    refused_check(i, 0, &right);
    /* (an allocation that is only to save time may fail: then the verdict is the right one) */
    for (; refused_check(i, number, &it), taken >= number; number++)
        want((is_refusal(&it, WASM_GEN_MEMORY, it.offset) && it.offset <= inputs[i].length) || !memcmp(&it, &right, sizeof it), "a verdict without memory", number);
    want(!memcmp(&it, &right, sizeof it), "a verdict with memory", number);
    refused_report(inputs[i].bytes, inputs[i].length);
    refused_seed("", inputs[i].bytes, seed_length);
    refused_seed(numbers, inputs[i].bytes, seed_length);
}

static void refusals(void) {
    refused_config("", WASM_GEN_YES);
    refused_config(numbers, WASM_GEN_YES);
    refused_config("max_funcs = 0\nshape = 1", WASM_GEN_CONFIG_TEXT);
    refused_config("max_funcs = 0\n\"max_types\" = \xff", WASM_GEN_CONFIG_TEXT);
    for (int i = 0; i < count; i++) refusals_of(i);
}

static uint64_t wanted[FILES];

static void *turns(void *seed) {
    for (long turn = 0; turn < 20000; turn++) {
        int i = (int)((turn + (long)seed) % count);
        want(round_of(i) == wanted[i] && held == 0, "an answer beside other threads", turn);
    }
    return NULL;
}

static void threads(void) {
    pthread_t all[4];
    for (int i = 0; i < count; i++) wanted[i] = round_of(i);
    for (long i = 0; i < 4; i++) pthread_create(&all[i], NULL, turns, (void *)i);
    for (int i = 0; i < 4; i++) pthread_join(all[i], NULL);
}

static void read_input(const char *name) {
    FILE *file = fopen(name, "rb");
    uint8_t *bytes = __real_malloc(ROOM);
    size_t length = file && count < FILES ? fread(bytes, 1, ROOM, file) : 0;
    want(length > 0, name, 0);
    inputs[count++] = (struct input){bytes, length};
    fclose(file);
}

int main(int words, char **word) {
    static const struct {
        const char *name;
        void (*run)(void);
    } tests[] = {{"codes", codes}, {"checks", checks}, {"buffers", buffers}, {"configs", configs}, {"reports", reports}, {"report", report}, {"million", million}, {"refusals", refusals}, {"threads", threads}};
    for (int i = 2; i < words; i++) read_input(word[i]);
    held = taken = 0;
    for (int i = 0; i < 9 && words > 2; i++)
        if (!strcmp(word[1], tests[i].name)) return tests[i].run(), 0;
    return 2;
}
