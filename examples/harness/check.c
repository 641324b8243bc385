/* The program's `check`: a line for each file, `yes` and the counts, or `no` and the kind of the refusal. */
#include <stdio.h>
#include <stdlib.h>
#include <wasm_gen.h>

static uint8_t bytes[1 << 28];

static int check(const char *name) {
    FILE *file = fopen(name, "rb");
    size_t length = file ? fread(bytes, 1, sizeof bytes, file) : 0;
    if (!file || ferror(file) || fgetc(file) != EOF) {
        fprintf(stderr, "check: cannot read %s\n", name);
        return 2;
    }
    fclose(file);
    struct wasm_gen_verdict it;
    if (wasm_gen_check(bytes, length, wasm_gen_features_default(), &it) != WASM_GEN_YES) {
        char kind[16];
        printf("no %.*s\n", (int)wasm_gen_kind_name(it.kind, kind, sizeof kind), kind);
        return 1;
    }
    unsigned long long counts[] = {it.types, it.functions, it.tables, it.memories, it.globals, it.tags, it.elements, it.exports};
    static const char *const labels[] = {"types", "functions", "tables", "memories", "globals", "tags", "elements", "exports"};
    printf("yes");
    for (int i = 0; i < 8; i++) printf(" %s=%llu", labels[i], counts[i]);
    printf("\n");
    return 0;
}

int main(int count, char **names) {
    int status = 0;
    for (int i = 1; i < count; i++) {
        int it = check(names[i]);
        status = it > status ? it : status;
    }
    return status;
}
