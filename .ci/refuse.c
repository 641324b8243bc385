// Is loaded before a program (LD_PRELOAD), and refuses the allocation with the number in REFUSED, counted from one; then it says so on standard error.
// It names no header, so that the kit's compiler needs none.

char *getenv(const char *name);
long strtol(const char *digits, char **end, int base);
long write(int file, const void *bytes, __SIZE_TYPE__ count);
void *__libc_malloc(__SIZE_TYPE__ size);
void *__libc_realloc(void *old, __SIZE_TYPE__ size);

// How many allocations it is still to the one that is refused, or zero after it.
static long left;

__attribute__((constructor)) static void read_number(void) {
    const char *number = getenv("REFUSED");
    left = number ? strtol(number, 0, 10) : 0;
}

static int is_refused(void) {
    if (left == 0 || --left > 0)
        return 0;
    write(2, "refused\n", 8);
    return 1;
}

void *malloc(__SIZE_TYPE__ size) {
    return is_refused() ? 0 : __libc_malloc(size);
}

void *realloc(void *old, __SIZE_TYPE__ size) {
    return is_refused() ? 0 : __libc_realloc(old, size);
}
