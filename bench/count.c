// Counts the allocations of a program that it is loaded into (LD_PRELOAD), and prints their number on standard error at the end.

long write(int file, const void *bytes, __SIZE_TYPE__ count);
void *__libc_malloc(__SIZE_TYPE__ size);
void *__libc_calloc(__SIZE_TYPE__ count, __SIZE_TYPE__ size);
void *__libc_realloc(void *old, __SIZE_TYPE__ size);
void *__libc_memalign(__SIZE_TYPE__ alignment, __SIZE_TYPE__ size);

static unsigned long allocations;

void *malloc(__SIZE_TYPE__ size) {
    allocations++;
    return __libc_malloc(size);
}

void *calloc(__SIZE_TYPE__ count, __SIZE_TYPE__ size) {
    allocations++;
    return __libc_calloc(count, size);
}

void *realloc(void *old, __SIZE_TYPE__ size) {
    allocations++;
    return __libc_realloc(old, size);
}

void *aligned_alloc(__SIZE_TYPE__ alignment, __SIZE_TYPE__ size) {
    allocations++;
    return __libc_memalign(alignment, size);
}

int posix_memalign(void **place, __SIZE_TYPE__ alignment, __SIZE_TYPE__ size) {
    allocations++;
    *place = __libc_memalign(alignment, size);
    return *place ? 0 : 12;
}

__attribute__((destructor)) static void tell(void) {
    char digits[24];
    int at = sizeof digits;
    digits[--at] = '\n';
    do
        digits[--at] = '0' + allocations % 10;
    while (allocations /= 10);
    write(2, digits + at, sizeof digits - at);
}
