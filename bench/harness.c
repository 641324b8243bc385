/* Prints how often a second the static library's functions can be called: harness FOLDER. Writes the module of code to FOLDER/code.wasm. */
#include <stdio.h>
#include <stdlib.h>
#include <string.h>
#include <time.h>
#include <wasm_gen.h>

/* (a seed of so many odd bytes often gives a module of some 1,000) */
enum { ROWS = 64, SEED = 1000, MODULE_SEED = 400, ROOM = 1 << 20, TURNS = 5 };

static struct row {
    uint8_t bytes[ROOM];
    size_t length;
} random_seeds[ROWS], odd_seeds[ROWS], modules[ROWS], code;
static const uint8_t header[] = {0, 'a', 's', 'm', 1, 0, 0, 0};
static uint8_t made[ROOM];
static uint32_t features;

static uint8_t next_byte(void) {
    static uint64_t state = 7;
    state = state * 6364136223846793005u + 1442695040888963407u;
    return (uint8_t)(state >> 33);
}

static double seconds_of(clockid_t clock) {
    struct timespec now;
    clock_gettime(clock, &now);
    return (double)now.tv_sec + (double)now.tv_nsec * 1e-9;
}

/* Of the processor's time, since others share it. */
static double seconds(void) { return seconds_of(CLOCK_PROCESS_CPUTIME_ID); }

static void must(int is_so, const char *what) {
    if (is_so) return;
    fprintf(stderr, "harness: %s\n", what);
    exit(1);
}

static void check_header(int i) {
    (void)i;
    struct wasm_gen_verdict it;
    must(wasm_gen_check(header, sizeof header, features, &it) == WASM_GEN_YES, "a header");
}

static void check_code(int i) {
    (void)i;
    struct wasm_gen_verdict it;
    must(wasm_gen_check(code.bytes, code.length, features, &it) == WASM_GEN_YES, "code");
}

static void check_module(int i) {
    struct wasm_gen_verdict it;
    must(wasm_gen_check(modules[i].bytes, modules[i].length, features, &it) == WASM_GEN_YES, "a module");
}

static size_t generate(const struct row *seed) {
    size_t length;
    must(wasm_gen_generate(NULL, 0, seed->bytes, seed->length, made, ROOM, &length) == WASM_GEN_YES, "a seed");
    return length;
}

static void check_made(size_t length) {
    struct wasm_gen_verdict it;
    must(wasm_gen_check(made, length, features, &it) == WASM_GEN_YES, "a module that was made");
}

static void generate_random(int i) { generate(&random_seeds[i]); }
static void generate_odd(int i) { generate(&odd_seeds[i]); }
static void both_random(int i) { check_made(generate(&random_seeds[i])); }
static void both_odd(int i) { check_made(generate(&odd_seeds[i])); }

/* Prints the calls a second in the best of some turns, of at least 0.3 s each. Returns 1 where there are fewer than the least. */
static int measure(const char *what, void (*call)(int), double least) {
    double best = 0;
    for (int turn = 0; turn < TURNS; turn++) {
        double begin = seconds(), taken = 0;
        long calls = 0;
        for (; taken < 0.3; taken = seconds() - begin)
            for (int i = 0; i < 4 * ROWS; i++, calls++) call(i % ROWS);
        best = (double)calls / taken > best ? (double)calls / taken : best;
    }
    printf("%s: %.0f a second%s\n", what, best, best < least ? ", which is too few" : "");
    return best < least;
}

/* Appends bytes to the module of code. */
static void append(const uint8_t *bytes, size_t length) {
    memcpy(code.bytes + code.length, bytes, length);
    code.length += length;
}

/* A module of 1,013 bytes: eight functions that add two numbers 20 times each. */
static void make_code(void) {
    static const uint8_t sections[] = {1, 4, 1, 0x60, 0, 0, 3, 9, 8, 0, 0, 0, 0, 0, 0, 0, 0};
    static const uint8_t addition[] = {0x41, 7, 0x41, 5, 0x6a, 0x1a};
    append(header, sizeof header);
    append(sections, sizeof sections);
    append((const uint8_t[]){10, 0xd9, 7, 8}, 4);
    for (int function = 0; function < 8; function++) {
        append((const uint8_t[]){122, 0}, 2);
        for (int i = 0; i < 20; i++) append(addition, sizeof addition);
        append((const uint8_t[]){0x0b}, 1);
    }
}

/* The shortest time of one call by the clock on the wall, as `wasm_bench check` takes it of the Rust call that this one stands on. */
static void measure_shortest(void) {
    double shortest = 1;
    for (long turn = 0; turn < 200000; turn++) {
        double begin = seconds_of(CLOCK_MONOTONIC);
        check_code(0);
        double taken = seconds_of(CLOCK_MONOTONIC) - begin;
        shortest = taken < shortest ? taken : shortest;
    }
    printf("check of this module, the shortest time of a call: %.0f ns\n", shortest * 1e9);
}

static void save_code(const char *folder) {
    char name[4096];
    snprintf(name, sizeof name, "%s/code.wasm", folder);
    FILE *file = fopen(name, "wb");
    must(file && fwrite(code.bytes, 1, code.length, file) == code.length && !fclose(file), name);
}

static void fill(struct row *seed, size_t length, uint8_t bits) {
    for (seed->length = 0; seed->length < length; seed->length++) seed->bytes[seed->length] = next_byte() | bits;
}

static void prepare(void) {
    static struct row seed;
    for (int i = 0; i < ROWS; i++) {
        fill(&random_seeds[i], SEED, 0);
        fill(&odd_seeds[i], SEED, 1);
        do {
            fill(&seed, MODULE_SEED, 1);
            modules[i].length = generate(&seed);
        } while (modules[i].length < 900 || modules[i].length > 1100);
        memcpy(modules[i].bytes, made, modules[i].length);
    }
}

int main(int words, char **word) {
    must(words == 2, "usage: harness FOLDER");
    features = wasm_gen_features_default();
    make_code();
    save_code(word[1]);
    prepare();
    int is_slow = measure("check of the header alone", check_header, 1e6);
    measure("check of a module of 1,013 bytes, code", check_code, 0);
    measure_shortest();
    measure("check of modules of 900 to 1,100 bytes, types with references", check_module, 0);
    measure("generate, random seeds of 1,000 bytes", generate_random, 0);
    measure("generate, seeds of 1,000 odd bytes", generate_odd, 0);
    is_slow |= measure("generate and check in turn, random seeds", both_random, 5e4);
    measure("generate and check in turn, seeds of odd bytes", both_odd, 0);
    return is_slow;
}
