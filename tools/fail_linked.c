/* Does what fail.c does, in a program that is linked with it: the linker lets these functions come before the real
 * ones, by --wrap. So it is for programs that load no library, and for other systems. tools/machines --try links it. */
#include <errno.h>
#include <stdarg.h>
#include <stdint.h>
#include <stdio.h>
#include <stdlib.h>
#include <string.h>
#ifdef _WIN32
#define NAMED(name) __wrap_b_##name
#define REAL(name) __real_b_##name
#else
#define NAMED(name) __wrap_##name
#define REAL(name) __real_##name
#endif

void *__real_malloc(size_t size);
void *__real_realloc(void *old, size_t size);
int32_t REAL(open)(const char *name, int32_t how, ...);
intptr_t REAL(read)(int32_t file, void *bytes, size_t count);
intptr_t REAL(write)(int32_t file, const void *bytes, size_t count);

static const char *kind = "", *counts;
static long nth, calls;

static void end(void) {
    kind = "";
    FILE *file = counts ? fopen(counts, "wb") : NULL;
    if (!file) return;
    fprintf(file, "%ld\n", calls);
    fclose(file);
}

__attribute__((constructor)) static void begin(void) {
    const char *number = getenv("NTH"), *given = getenv("FAIL");
    nth = number ? atol(number) : 0;
    counts = getenv("COUNTS");
    kind = given ? given : "";
    atexit(end);
}

/* Counts a call of this kind, and says whether it is the one that fails. */
static int comes(const char *this) { return strcmp(kind, this) == 0 && ++calls == nth; }

static int fails(const char *this, int error) {
    if (!comes(this)) return 0;
    errno = error;
    return 1;
}

void *__wrap_malloc(size_t size) { return fails("memory", ENOMEM) ? NULL : __real_malloc(size); }

void *__wrap_realloc(void *old, size_t size) { return fails("memory", ENOMEM) ? NULL : __real_realloc(old, size); }

int32_t NAMED(open)(const char *name, int32_t how, ...) { return fails("io", EIO) ? -1 : REAL(open)(name, how); }

intptr_t NAMED(read)(int32_t file, void *bytes, size_t count) {
    if (fails("io", EIO)) return -1;
    return REAL(read)(file, bytes, count > 1 && comes("short") ? 1 : count);
}

intptr_t NAMED(write)(int32_t file, const void *bytes, size_t count) {
    if (fails("io", EIO)) return -1;
    return REAL(write)(file, bytes, count > 1 && comes("short") ? 1 : count);
}
