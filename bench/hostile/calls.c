/* Calls the C library on one input after another for hostile.py, which loads this file and the library together as a shared object. Checks what the header
 * promises of each call, and measures it: the time of the thread, and the most memory that the library held. A promise that is broken is returned as a text. */
#define _GNU_SOURCE
#include <malloc.h>
#include <signal.h>
#include <stdlib.h>
#include <string.h>
#include <sys/mman.h>
#include <time.h>
#include <unistd.h>
#include <wasm_gen.h>

enum { MOST_BYTES = 64 << 20, PAGE = 4096 };
enum { CHECK, REPORT, GENERATE, CALLS };

struct cost {
    uint64_t nanoseconds, memory;
};

/* What hostile.py reads after a call. */
struct outcome {
    struct wasm_gen_verdict verdict;
    uint64_t report_length, report_hash, made_length;
    uint32_t made_kind, made_features, text_kind;
    struct cost costs[CALLS];
} outcome;

/* Memory: what the library holds now, the most of it, how much it may hold, and how many allocations are left before they fail. */
static size_t held, most_held;
static const size_t memory_limit = (size_t)1 << 30;
static long allocations_left = -1;
static int has_failed;

void *__real_malloc(size_t size);
void *__real_realloc(void *old, size_t size);
void __real_free(void *old);

static int may_allocate(size_t size) {
    if (allocations_left == 0 || held + size > memory_limit || size > memory_limit) return has_failed = 1, 0;
    if (allocations_left > 0) allocations_left--;
    return 1;
}

static void *hold(void *it, size_t before) {
    held += (it ? malloc_usable_size(it) : 0) - before;
    most_held = held > most_held ? held : most_held;
    return it;
}

void *__wrap_malloc(size_t size) { return may_allocate(size) ? hold(__real_malloc(size), 0) : NULL; }

void *__wrap_realloc(void *old, size_t size) {
    size_t before = old ? malloc_usable_size(old) : 0;
    if (!may_allocate(size)) return NULL;
    void *it = __real_realloc(old, size);
    return it ? hold(it, before) : NULL;
}

void __wrap_free(void *old) {
    held -= old ? malloc_usable_size(old) : 0;
    __real_free(old);
}

/* Places whose bytes end where no page is: the input, the configuration, and the buffer that is written to. */
static uint8_t *ends[3];
enum { INPUT, TEXT, BUFFER };
static const uint8_t *last_input, *last_text;
static size_t last_input_length, last_text_length;
static int crash_file = -1;

static void save_crash(int number) {
    static const char message[] = "calls.c: a call crashed, or took minutes; its input is in the file `crash`\n";
    (void)number;
    if (write(2, message, sizeof message - 1) < 0) _exit(4);
    if (write(crash_file, last_text, last_text_length) < 0 || write(crash_file, last_input, last_input_length) < 0) _exit(4);
    _exit(3);
}

/* Makes the places ready. Where the library crashes, the text and the input are written to this file. */
void prepare(int file) {
    crash_file = file;
    for (int i = 0; i < 3; i++) {
        uint8_t *place = mmap(NULL, MOST_BYTES + PAGE, PROT_READ | PROT_WRITE, MAP_PRIVATE | MAP_ANONYMOUS | MAP_NORESERVE, -1, 0);
        if (place == MAP_FAILED) abort();
        ends[i] = place + MOST_BYTES;
        mprotect(ends[i], PAGE, PROT_NONE);
    }
    int signals[] = {SIGSEGV, SIGBUS, SIGILL, SIGFPE, SIGABRT, SIGTRAP, SIGALRM};
    for (size_t i = 0; i < sizeof signals / sizeof *signals; i++) signal(signals[i], save_crash);
}

static uint8_t *placed(int place, const uint8_t *bytes, size_t length) { return memcpy(ends[place] - length, bytes, length); }

static void place_input(const uint8_t **bytes, size_t length) {
    last_input = *bytes = placed(INPUT, *bytes, length);
    last_input_length = length;
    last_text_length = 0;
}

static uint64_t nanoseconds(void) {
    struct timespec now;
    clock_gettime(CLOCK_THREAD_CPUTIME_ID, &now);
    return (uint64_t)now.tv_sec * 1000000000 + (uint64_t)now.tv_nsec;
}

static uint64_t begin(void) {
    most_held = held = 0;
    has_failed = 0;
    return nanoseconds();
}

static void end(int call, uint64_t from) { outcome.costs[call] = (struct cost){nanoseconds() - from, most_held}; }

static uint64_t hash(const uint8_t *bytes, size_t length) {
    uint64_t sum = 14695981039346656037u;
    for (size_t i = 0; i < length; i++) sum = (sum ^ bytes[i]) * 1099511628211u;
    return sum;
}

static int is_filled(const uint8_t *bytes, size_t length) {
    for (size_t i = 0; i < length; i++)
        if (bytes[i] != 0xa5) return 0;
    return 1;
}

/* A buffer of so many bytes, filled. */
static uint8_t *filled(size_t length) { return memset(ends[BUFFER] - length, 0xa5, length); }

static const char *wrong_verdict(uint32_t kind, const struct wasm_gen_verdict *it, size_t length) {
    if (kind != it->kind) return "check returns another kind than the verdict's";
    if (kind > WASM_GEN_BODY && kind != WASM_GEN_MEMORY && kind != WASM_GEN_FEATURES) return "check has a kind that is none of its own";
    if (it->offset > length) return "the offset is past the end";
    if (kind == WASM_GEN_YES) return it->offset ? "a valid module has an offset" : NULL;
    if (kind == WASM_GEN_MEMORY && !has_failed) return "check says memory where an allocation was never refused";
    return it->types | it->functions | it->tables | it->memories | it->globals | it->tags | it->elements | it->exports ? "a refusal has counts" : NULL;
}

/* Calls check once. */
static const char *check(const uint8_t *bytes, size_t length, uint32_t features, struct wasm_gen_verdict *verdict) {
    memset(verdict, 0xa5, sizeof *verdict);
    verdict->kind = 0; /* (padding behind it is compared too) */
    memset(verdict, 0, offsetof(struct wasm_gen_verdict, offset));
    uint64_t from = begin();
    uint32_t kind = wasm_gen_check(bytes, length, features, verdict);
    end(CHECK, from);
    if (held) return "check keeps memory";
    return wrong_verdict(kind, verdict, length);
}

static const char *report_of_refusal(uint32_t kind, size_t length) {
    char name[16] = "no ";
    size_t named = 3 + wasm_gen_kind_name(kind, name + 3, 12);
    name[named++] = '\n';
    return named == length && !memcmp(ends[BUFFER] - length, name, length) ? NULL : "the report of a refusal is another text";
}

/* Calls report with a buffer of one page, and checks that it changes no more than the front of it. */
static const char *report_first(const uint8_t *bytes, size_t length, uint32_t features, uint32_t kind) {
    size_t needed = 7;
    uint8_t *page = filled(PAGE);
    uint64_t from = begin();
    uint32_t first = wasm_gen_report(bytes, length, features, page, PAGE, &needed);
    end(REPORT, from);
    outcome.report_length = needed;
    if (held) return "report keeps memory";
    if (kind == WASM_GEN_MEMORY || kind == WASM_GEN_FEATURES) return first == kind && !needed ? NULL : "report has a text without a verdict";
    if (first == WASM_GEN_MEMORY) return has_failed && !needed ? NULL : "report says memory where an allocation was never refused";
    if (needed > MOST_BYTES) return "a report is too long for this script";
    size_t written = needed <= PAGE ? needed : 0;
    if (first != (needed <= PAGE ? kind : WASM_GEN_BUFFER)) return "report has another kind than check";
    outcome.report_hash = hash(page, written);
    return is_filled(page + written, PAGE - written) ? NULL : "report changes more than its text";
}

/* Calls report with a buffer of a page, with one that is just long enough, and with one that is a byte too short. */
static const char *report(const uint8_t *bytes, size_t length, uint32_t features, uint32_t kind) {
    const char *wrong = report_first(bytes, length, features, kind);
    size_t needed = outcome.report_length, again = 7;
    if (wrong || !needed) return wrong;
    if (wasm_gen_report(bytes, length, features, filled(needed), needed, &again) != kind || again != needed)
        return "report has another kind or length the second time";
    uint64_t sum = hash(ends[BUFFER] - needed, needed);
    if (needed <= PAGE && sum != outcome.report_hash) return "report has another text the second time";
    outcome.report_hash = sum;
    if (kind != WASM_GEN_YES && report_of_refusal(kind, needed)) return report_of_refusal(kind, needed);
    if (wasm_gen_report(bytes, length, features, filled(needed - 1), needed - 1, &again) != WASM_GEN_BUFFER || again != needed)
        return "report fits in a buffer that is too short";
    return is_filled(ends[BUFFER] - needed + 1, needed - 1) ? NULL : "report changes a buffer that is too short";
}

/* Checks that a check whose allocations begin to fail gives its verdict, or that memory ran out. */
static const char *check_failing(const uint8_t *bytes, size_t length, uint32_t features, long allocations) {
    struct wasm_gen_verdict it;
    allocations_left = allocations;
    const char *wrong = check(bytes, length, features, &it);
    allocations_left = -1;
    if (wrong) return wrong;
    return it.kind == WASM_GEN_MEMORY || !memcmp(&it, &outcome.verdict, sizeof it) ? NULL : "check has another verdict where memory runs out";
}

/* Examines one module under some features, and under those and others; unless it is negative, also with so many allocations before they fail. */
const char *examine(const uint8_t *bytes, size_t length, uint32_t features, uint32_t others, long allocations) {
    struct wasm_gen_verdict again;
    place_input(&bytes, length);
    memset(&outcome, 0, sizeof outcome);
    const char *wrong = check(bytes, length, features, &outcome.verdict);
    struct cost cost = outcome.costs[CHECK];
    if (!wrong) wrong = check(bytes, length, features, &again);
    if (!wrong && memcmp(&again, &outcome.verdict, sizeof again)) wrong = "check has another verdict the second time";
    if (!wrong && outcome.verdict.kind == WASM_GEN_YES) wrong = check(bytes, length, features | others, &again);
    if (!wrong && outcome.verdict.kind == WASM_GEN_YES && again.kind != WASM_GEN_YES && again.kind != WASM_GEN_MEMORY) wrong = "more features turn a yes into a no";
    if (!wrong) wrong = report(bytes, length, features, outcome.verdict.kind);
    if (!wrong && allocations >= 0) wrong = check_failing(bytes, length, features, allocations);
    outcome.costs[CHECK] = cost;
    return wrong;
}

/* Calls generate with a buffer of so many bytes, and tests its kind and length against those before. */
static const char *generate_again(const uint8_t *text, size_t text_length, const uint8_t *seed, size_t length, size_t capacity) {
    size_t written = 7;
    uint32_t kind = wasm_gen_generate(text, text_length, seed, length, filled(capacity), capacity, &written);
    int fits = capacity >= outcome.made_length;
    if (kind != (fits ? WASM_GEN_YES : WASM_GEN_BUFFER) || written != outcome.made_length) return "generate has another kind or length the second time";
    if (!fits && !is_filled(ends[BUFFER] - capacity, capacity)) return "generate changes a buffer that is too short";
    return fits && !is_filled(ends[BUFFER] - capacity + written, capacity - written) ? "generate writes more than the module" : NULL;
}

static int is_kind_of_generate(uint32_t kind) {
    return kind == WASM_GEN_LIMIT || kind == WASM_GEN_MEMORY || kind == WASM_GEN_BUFFER || kind == WASM_GEN_CONFIG_TEXT || kind == WASM_GEN_CONFIG ||
           kind == WASM_GEN_MINIMUM || kind == WASM_GEN_TYPE_SIZE;
}

/* Makes the module of a configuration and a seed, several times, and returns its place in *module. */
const char *generate(const uint8_t *text, size_t text_length, const uint8_t *seed, size_t length, const uint8_t **module) {
    place_input(&seed, length);
    last_text = text = placed(TEXT, text, text_length);
    last_text_length = text_length;
    memset(&outcome, 0, sizeof outcome);
    size_t written = 7;
    outcome.made_features = 7;
    outcome.text_kind = wasm_gen_features_of_config(text, text_length, &outcome.made_features);
    uint64_t from = begin();
    uint32_t kind = outcome.made_kind = wasm_gen_generate(text, text_length, seed, length, NULL, 0, &written);
    end(GENERATE, from);
    outcome.made_length = written;
    if (held) return "generate keeps memory";
    if (!is_kind_of_generate(kind)) return "generate has a kind that is none of its own";
    if ((kind == WASM_GEN_CONFIG_TEXT) != (outcome.text_kind == WASM_GEN_CONFIG_TEXT)) return "generate takes a text without features, or the other way round";
    if (outcome.text_kind != WASM_GEN_YES && (outcome.text_kind != WASM_GEN_CONFIG_TEXT || outcome.made_features)) return "a text that is refused has features";
    if (kind == WASM_GEN_MEMORY && !has_failed) return "generate says memory where an allocation was never refused";
    if (kind != WASM_GEN_BUFFER) return written ? "a refusal has a length" : NULL;
    if (written > MOST_BYTES / 2) return "a module is too long for this script";
    const char *wrong = generate_again(text, text_length, seed, length, written - 1);
    if (!wrong) wrong = generate_again(text, text_length, seed, length, written + 9);
    uint64_t sum = hash(ends[BUFFER] - written - 9, written);
    if (!wrong) wrong = generate_again(text, text_length, seed, length, written);
    *module = ends[BUFFER] - written;
    return wrong ? wrong : sum == hash(*module, written) ? NULL : "generate makes another module the second time";
}
