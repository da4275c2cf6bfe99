// Lets the Nth call of one kind fail, counted from 1, in the process that loads this library. FAIL says which kind:
// `memory` refuses a growth, `io` fails an open, a read or a write, and `short` lets a read or a write of several bytes
// move one. NTH is N, and none fails where it is 0. At its end the process writes into the file COUNTS how many there
// were. For x86-64 Linux, and without a header, so that the kit's compiler is enough, which comes with none.
typedef __SIZE_TYPE__ size_t;
typedef long ssize_t;

enum { EIO = 5, ENOMEM = 12 };
enum { O_WRONLY = 01, O_CREAT = 0100, O_TRUNC = 01000 };
enum { SYS_READ = 0, SYS_WRITE = 1, SYS_OPEN = 2 };

void *__libc_malloc(size_t size);
void *__libc_realloc(void *old, size_t size);
int *__errno_location(void);
char *getenv(const char *name);
long atol(const char *text);
int strcmp(const char *one, const char *other);
int snprintf(char *text, size_t size, const char *form, ...);
long syscall(long number, ...);

static const char *kind = "";
static long nth, calls;

__attribute__((constructor)) static void begin(void) {
    const char *number = getenv("NTH");
    nth = number ? atol(number) : 0;
    calls = 0;
    kind = getenv("FAIL") ? getenv("FAIL") : "";
}

__attribute__((destructor)) static void end(void) {
    const char *name = getenv("COUNTS");
    int file = name ? (int)syscall(SYS_OPEN, name, O_WRONLY | O_CREAT | O_TRUNC, 0600) : -1;
    char text[32];
    int length = snprintf(text, sizeof text, "%ld\n", calls);
    if (file >= 0) syscall(SYS_WRITE, file, text, (size_t)length);
}

// Counts a call of this kind, and says whether it is the one that fails.
static int comes(const char *this) {
    return strcmp(kind, this) == 0 && ++calls == nth;
}

static int fails(const char *this, int error) {
    if (!comes(this)) return 0;
    *__errno_location() = error;
    return 1;
}

void *malloc(size_t size) {
    return fails("memory", ENOMEM) ? (void *)0 : __libc_malloc(size);
}

void *realloc(void *old, size_t size) {
    return fails("memory", ENOMEM) ? (void *)0 : __libc_realloc(old, size);
}

int open(const char *name, int flags, ...) {
    __builtin_va_list rest;
    __builtin_va_start(rest, flags);
    int mode = __builtin_va_arg(rest, int);
    __builtin_va_end(rest);
    return fails("io", EIO) ? -1 : (int)syscall(SYS_OPEN, name, flags, mode);
}

ssize_t read(int file, void *bytes, size_t count) {
    if (fails("io", EIO)) return -1;
    return syscall(SYS_READ, file, bytes, count > 1 && comes("short") ? 1 : count);
}

ssize_t write(int file, const void *bytes, size_t count) {
    if (fails("io", EIO)) return -1;
    return syscall(SYS_WRITE, file, bytes, count > 1 && comes("short") ? 1 : count);
}

ssize_t __write(int file, const void *bytes, size_t count) {
    return write(file, bytes, count);
}
