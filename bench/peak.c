/* Prints what a call of the static library comes to, the most bytes that it has of malloc at once, the most memory that it touches, and its seconds of processor:
 * peak check FILE, peak report FILE, peak generate CONFIG SEED. The files are in memory before. All features are on. */
#include <malloc.h>
#include <stdio.h>
#include <stdlib.h>
#include <string.h>
#include <time.h>
#include <wasm_gen.h>

void *__libc_malloc(size_t size);
void *__libc_realloc(void *old, size_t size);
void __libc_free(void *old);

static size_t had, most;

static void *gained(void *block) {
    had += block ? malloc_usable_size(block) : 0;
    most = had > most ? had : most;
    return block;
}

void *malloc(size_t size) { return gained(__libc_malloc(size)); }

void *realloc(void *old, size_t size) {
    size_t before = old ? malloc_usable_size(old) : 0;
    void *block = __libc_realloc(old, size);
    if (!block) return NULL;
    had -= before;
    return gained(block);
}

void free(void *old) {
    had -= old ? malloc_usable_size(old) : 0;
    __libc_free(old);
}

static void must(int is_so, const char *what) {
    if (is_so) return;
    fprintf(stderr, "peak: %s\n", what);
    exit(1);
}

static uint8_t *read_file(const char *name, size_t *length) {
    FILE *file = fopen(name, "rb");
    must(file && !fseek(file, 0, SEEK_END), name);
    *length = (size_t)ftell(file);
    uint8_t *bytes = malloc(*length + 1);
    must(bytes && !fseek(file, 0, SEEK_SET) && fread(bytes, 1, *length, file) == *length && !fclose(file), name);
    return bytes;
}

/* Returns the KiB of a line of the process's status. */
static size_t status_of(const char *name) {
    char line[256];
    size_t kib = 0;
    FILE *file = fopen("/proc/self/status", "r");
    must(file != NULL, "status");
    while (fgets(line, sizeof line, file))
        if (!strncmp(line, name, strlen(name))) kib = strtoul(line + strlen(name), NULL, 10);
    fclose(file);
    return kib;
}

/* Makes the greatest size so far that of now. */
static void forget_peak(void) {
    FILE *file = fopen("/proc/self/clear_refs", "w");
    must(file && fputs("5", file) >= 0 && !fclose(file), "clear_refs");
}

static uint32_t call(const char *what, const uint8_t *first, size_t first_length, const uint8_t *second, size_t second_length) {
    const uint32_t features = (1u << 22) - 1;
    struct wasm_gen_verdict verdict;
    size_t length;
    if (!strcmp(what, "check")) return wasm_gen_check(first, first_length, features, &verdict);
    if (!strcmp(what, "report")) return wasm_gen_report(first, first_length, features, NULL, 0, &length);
    return wasm_gen_generate(first, first_length, second, second_length, NULL, 0, &length);
}

int main(int words, char **word) {
    must(words == 3 || words == 4, "usage: peak check|report FILE, peak generate CONFIG SEED");
    size_t first_length, second_length = 0;
    uint8_t *first = read_file(word[2], &first_length), *second = words == 4 ? read_file(word[3], &second_length) : NULL;
    size_t touched = status_of("VmRSS:"), held = had;
    forget_peak();
    most = had;
    clock_t begin = clock();
    uint32_t kind = call(word[1], first, first_length, second, second_length);
    double seconds = (double)(clock() - begin) / CLOCKS_PER_SEC;
    size_t asked = most - held, peak = status_of("VmHWM:");
    char name[16];
    printf("%.*s %zu %zu %.3f\n", (int)wasm_gen_kind_name(kind, name, sizeof name), name, asked, (peak > touched ? peak - touched : 0) * 1024, seconds);
    return 0;
}
