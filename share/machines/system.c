/* What the program asks of the system, for machines without the kit's own archives: memory, the words of the command
 * line, files and streams. tools/machines links it to what the kit has compiled of the proved program.
 *
 * On Linux the program calls the C library itself, and this file has what that lacks. For other systems its calls are
 * renamed to b_read, b_open and so on, since numbers and names differ there. */
#define _GNU_SOURCE
#include <errno.h>
#include <fcntl.h>
#include <stdint.h>
#include <stdlib.h>
#include <string.h>
#ifdef _WIN32
#include <io.h>
#include <windows.h>
#include "words.h"
/* How the program, which is compiled for Linux first, is answered two words. */
#define OF_TWO_WORDS __attribute__((sysv_abi))
#else
#include <signal.h>
#include <unistd.h>
#define OF_TWO_WORDS
#endif

/* ---- Memory ---- */

struct tried {
    uint64_t is_given;
    void *block; /* never null */
};

static OF_TWO_WORDS struct tried answer(void *block) {
    static uint64_t nothing[2];
    struct tried tried = {block != NULL, block ? block : nothing};
    return tried;
}

/* Blocks are aligned to 16 bytes, as malloc does it on all these machines. */
OF_TWO_WORDS struct tried rattle_alloc(size_t size, size_t alignment) {
    return answer(malloc(size ? size : alignment));
}

OF_TWO_WORDS struct tried rattle_realloc(void *block, size_t kept, size_t size, size_t alignment) {
    (void)kept;
    return answer(realloc(block, size ? size : alignment));
}

void rattle_dealloc(void *block) { free(block); }

/* ---- Errors and words ---- */

int32_t rattle_errno(void) { return errno; }

void rattle_set_errno(int32_t error) { errno = error; }

static size_t word_count;
static char **words;

/* Moves a text to the room: its length, or -2 where it doesn't fit, and then the room is full of its beginning. */
static intptr_t put(const char *text, uint8_t *room, size_t size) {
    size_t length = strlen(text);
    memcpy(room, text, length < size ? length : size);
    return length <= size ? (intptr_t)length : -2;
}

size_t rattle_arg_count(void) { return word_count; }

intptr_t rattle_arg(size_t number, uint8_t *room, size_t size) {
    return number < word_count ? put(words[number], room, size) : -1;
}

intptr_t rattle_env(const char *name, uint8_t *room, size_t size) {
    const char *value = getenv(name);
    return value ? put(value, room, size) : -1;
}

#ifdef _WIN32

intptr_t rattle_env_at(size_t number, uint8_t *room, size_t size) {
    for (size_t n = 0; _environ && _environ[n]; n++)
        if (n == number) return put(_environ[n], room, size);
    return -1;
}

/* ---- Windows: names in UTF-8, streams of bytes ---- */

enum { STDIN, STDOUT, STDERR };

/* A text in another form, in memory that is never given back, or null. */
static wchar_t *wide(const char *text) {
    int count = MultiByteToWideChar(CP_UTF8, MB_ERR_INVALID_CHARS, text, -1, NULL, 0);
    wchar_t *made = count > 0 ? malloc((size_t)count * sizeof *made) : NULL;
    if (made) MultiByteToWideChar(CP_UTF8, 0, text, -1, made, count);
    return made;
}

static char *narrow(const wchar_t *text) {
    int count = WideCharToMultiByte(CP_UTF8, 0, text, -1, NULL, 0, NULL, NULL);
    char *made = count > 0 ? malloc((size_t)count) : NULL;
    if (made) WideCharToMultiByte(CP_UTF8, 0, text, -1, made, count, NULL, NULL);
    return made;
}

static unsigned at_most(size_t size) { return size < 1 << 30 ? (unsigned)size : 1U << 30; }

intptr_t b_read(int32_t file, void *bytes, size_t size) { return _read(file, bytes, at_most(size)); }

intptr_t b_write(int32_t file, const void *bytes, size_t size) { return _write(file, bytes, at_most(size)); }

int32_t b_open(const char *path, int32_t how, ...) {
    (void)how; /* the program only reads files */
    if (strcmp(path, "/dev/stdin") == 0) return _dup(STDIN);
    wchar_t *name = wide(path);
    int file = name ? _wopen(name, _O_RDONLY | _O_BINARY | _O_NOINHERIT) : -1;
    free(name);
    return file;
}

int32_t b_close(int32_t file) { return _close(file); }

int64_t b_lseek(int32_t file, int64_t place, int32_t from) { return _lseeki64(file, place, from); }

int32_t b___xpg_strerror_r(int32_t error, char *room, size_t size) { return strerror_s(room, size, error); }

static HANDLE handle_of(int file) { return (HANDLE)_get_osfhandle(file); }

int32_t b_isatty(int32_t file) {
    DWORD mode;
    return GetConsoleMode(handle_of(file), &mode) != 0;
}

int64_t b___sysv_signal(int32_t signal, int64_t handler) {
    (void)signal, (void)handler; /* a write to a closed pipe fails, and raises none */
    return 0;
}

static UINT code_page;

static void restore(void) { SetConsoleOutputCP(code_page); }

/* All streams are of bytes, but for lines that are typed. What is shown is UTF-8. */
static void begin_streams(void) {
    for (int file = STDIN; file <= STDERR; file++)
        if (file != STDIN || !b_isatty(file)) _setmode(file, _O_BINARY);
    code_page = GetConsoleOutputCP();
    if (code_page == 0 || code_page == CP_UTF8) return;
    SetConsoleOutputCP(CP_UTF8);
    atexit(restore);
}

int b_main(void);

int wmain(int count, wchar_t **given) {
    words = calloc((size_t)count + 1, sizeof *words);
    for (int n = 0; words && n < count; n++)
        if (!(words[n] = narrow(given[n]))) words = NULL;
    if (!words) return 134;
    word_count = (size_t)count;
    begin_streams();
    if (!put_paths(words, word_count)) return 134;
    return b_main();
}

#else

extern char **environ;

intptr_t rattle_env_at(size_t number, uint8_t *room, size_t size) {
    for (size_t n = 0; environ[n]; n++)
        if (n == number) return put(environ[n], room, size);
    return -1;
}

#ifdef __APPLE__

/* ---- macOS: other numbers ---- */

intptr_t b_read(int32_t file, void *bytes, size_t size) { return read(file, bytes, size < 1 << 30 ? size : 1 << 30); }

intptr_t b_write(int32_t file, const void *bytes, size_t size) {
    return write(file, bytes, size < 1 << 30 ? size : 1 << 30);
}

int32_t b_open(const char *path, int32_t how, ...) {
    (void)how; /* the program only reads files */
    return open(path, O_RDONLY | O_CLOEXEC | O_NOCTTY);
}

int32_t b_close(int32_t file) { return close(file); }

int64_t b_lseek(int32_t file, int64_t place, int32_t from) { return lseek(file, place, from); }

int32_t b___xpg_strerror_r(int32_t error, char *room, size_t size) { return strerror_r(error, room, size); }

int32_t b_isatty(int32_t file) { return isatty(file); }

int64_t b___sysv_signal(int32_t number, int64_t handler) {
    return (int64_t)(intptr_t)signal(number, (void (*)(int))(intptr_t)handler);
}

int b_main(void);
#define BEGIN main

#else

/* ---- Linux: `main` is the program's, and the linker puts this before it ---- */

int __real_main(void);
#define b_main __real_main
#define BEGIN __wrap_main

#endif

int BEGIN(int count, char **given) {
    word_count = (size_t)count;
    words = given;
    return b_main();
}

#endif
