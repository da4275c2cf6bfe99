// What the program asks of a system, over the ten calls of wasi_snapshot_preview1 that it takes. tools/web links it.
//
// The program has addresses of 64 bits, and the calls take them with 32: the memory of the module never has more.
#include "module.h"

typedef unsigned address;

#define WASI(name) __attribute__((import_module("wasi_snapshot_preview1"), import_name(#name)))
WASI(args_get) int args_get(address words, address texts);
WASI(args_sizes_get) int args_sizes_get(address count, address bytes);
WASI(fd_close) int fd_close(int file);
WASI(fd_fdstat_get) int fd_fdstat_get(int file, address stat);
WASI(fd_prestat_dir_name) int fd_prestat_dir_name(int folder, address name, address room);
WASI(fd_prestat_get) int fd_prestat_get(int folder, address stat);
WASI(fd_read) int fd_read(int file, address parts, address count, address moved);
WASI(fd_write) int fd_write(int file, address parts, address count, address moved);
WASI(path_open) int path_open(int folder, int lookup, address path, address length, int how, size rights,
                              size inherited, int flags, address file);
WASI(proc_exit) _Noreturn void proc_exit(int status);

int b_main(void);
struct tried {
    size is_given;
    void *block;
};
struct tried rattle_alloc(size bytes, size alignment);

// The numbers of WASI, and those of Linux that the program knows.
enum { WASI_INTERRUPTED = 27, WASI_TERMINAL = 2, WASI_FOLLOW_LINKS = 1, WASI_MAY_READ = 2, WASI_SEEKS = 36 };
enum { OUT_OF_MEMORY = 134 }; // a status of the program
enum { NO_ENTRY = 2, INTERRUPTED = 4, FAILED = 5, NOT_ALLOWED = 13, NO_SEEKING = 29 };
enum { INPUT = 0, FIRST_FOLDER = 3, ACCESS_MODE = 3, MOST_NAME = 4096, MOST_MOVED = 1 << 30 };

static int last_error;

int rattle_errno(void) { return last_error; }

void rattle_set_errno(int error) { last_error = error; }

static address at(const void *place) { return (address)(size)place; }

// The answer of a call that failed, which is told later.
static int fail(int error) {
    last_error = error;
    return -1;
}

static int fail_by_wasi(int error) { return fail(error == WASI_INTERRUPTED ? INTERRUPTED : FAILED); }

static size length(const char *text) {
    size count = 0;
    while (text[count]) count++;
    return count;
}

// Moves the text to the room: its length, or -2 where it doesn't fit, and then the room is full of its beginning.
static long put(const char *text, byte *room, size bytes) {
    size whole = length(text);
    __builtin_memcpy(room, text, whole < bytes ? whole : bytes);
    return whole <= bytes ? (long)whole : -2;
}

// The words of the command line, which are asked for once, before the program begins.
static address word_count, *words;

static _Bool has_words(void) {
    address bytes = 0;
    if (args_sizes_get(at(&word_count), at(&bytes))) return 0;
    struct tried list = rattle_alloc((word_count + 1) * sizeof *words, 16), texts = rattle_alloc(bytes + 1, 16);
    words = list.block;
    return list.is_given && texts.is_given && args_get(at(words), at(texts.block)) == 0;
}

size rattle_arg_count(void) { return word_count; }

long rattle_arg(size number, byte *room, size bytes) {
    return number < word_count ? put((const char *)(size)words[number], room, bytes) : -1;
}

// There is no environment.
long rattle_env(const char *name, byte *room, size bytes) { return -1; }

long rattle_env_at(size number, byte *room, size bytes) { return -1; }

// What one call moves: a place in memory and how many bytes.
struct part {
    address bytes, count;
};

static struct part part_of(const void *bytes, size count) {
    return (struct part){at(bytes), count < MOST_MOVED ? (address)count : MOST_MOVED};
}

long read(int file, void *bytes, size count) {
    struct part part = part_of(bytes, count);
    address moved = 0;
    int error = fd_read(file, at(&part), 1, at(&moved));
    return error ? fail_by_wasi(error) : (long)moved;
}

long write(int file, const void *bytes, size count) {
    struct part part = part_of(bytes, count);
    address moved = 0;
    int error = fd_write(file, at(&part), 1, at(&moved));
    return error ? fail_by_wasi(error) : (long)moved;
}

// How many bytes of a path name this folder, which may be `.`, and the slashes after it; -1 where the path is
// elsewhere. A folder without a name has each path as it is.
static long bytes_of_folder(const char *folder, size count, const char *path) {
    size begin = 0;
    if (count == 0) return 0;
    while (path[begin] == '.' && path[begin + 1] == '/') begin += 2;
    if (count == 1 && folder[0] == '.') return path[begin] == '/' ? -1 : (long)begin;
    for (size n = 0; n < count; n++)
        if (path[begin++] != folder[n]) return -1;
    if (folder[count - 1] != '/' && path[begin] != '/') return -1;
    while (path[begin] == '/') begin++;
    return (long)begin;
}

// The opened folder with the longest name that the path begins with, or -1, and the rest of the path.
static int folder_of(const char *path, const char **rest) {
    static char name[MOST_NAME];
    address stat[2] = {0, 0}; // a byte that says that it is a folder, and the length of its name
    long longest = -1;
    int found = -1;
    for (int folder = FIRST_FOLDER; fd_prestat_get(folder, at(stat)) == 0; folder++) {
        if (stat[1] > MOST_NAME || fd_prestat_dir_name(folder, at(name), stat[1])) continue;
        size count = stat[1] && name[stat[1] - 1] == 0 ? stat[1] - 1 : stat[1];
        long begins = bytes_of_folder(name, count, path);
        if (begins <= longest) continue;
        longest = begins;
        found = folder;
        *rest = path + begins;
    }
    return found;
}

static _Bool is_input(const char *path) {
    static const char input[] = "/dev/stdin";
    size n = 0;
    while (n < sizeof input && path[n] == input[n]) n++;
    return n == sizeof input;
}

// Opens a file for reading. /dev/stdin is standard input, in which each reads on where the last one has stopped.
int open(const char *path, int how, ...) {
    const char *rest;
    int file = -1;
    if ((how & ACCESS_MODE) != 0) return fail(NOT_ALLOWED);
    if (is_input(path)) return INPUT;
    int folder = folder_of(path, &rest);
    if (folder < 0) return fail(NO_ENTRY);
    address count = (address)length(rest);
    int error = path_open(folder, WASI_FOLLOW_LINKS, at(rest), count, 0, WASI_MAY_READ, 0, 0, at(&file));
    return error ? fail_by_wasi(error) : file;
}

int close(int file) {
    int error = file == INPUT ? 0 : fd_close(file);
    return error ? fail_by_wasi(error) : 0;
}

// Files are read from their beginning to their end, as pipes are.
long lseek(int file, long place, int from) { return fail(NO_SEEKING); }

// Errors have no texts here.
int __xpg_strerror_r(int error, byte *room, size bytes) {
    if (bytes > 0) room[0] = 0;
    return 0;
}

// A terminal is a device that has no places to seek.
int isatty(int file) {
    struct {
        byte kind;
        size rights, inherited;
    } stat = {0, 0, 0};
    return fd_fdstat_get(file, at(&stat)) == 0 && stat.kind == WASI_TERMINAL && (stat.rights & WASI_SEEKS) == 0;
}

// No call of WASI raises a signal.
long __sysv_signal(int signal, long handler) { return 0; }

void _start(void) { proc_exit(has_words() ? b_main() & 255 : OUT_OF_MEMORY); }
