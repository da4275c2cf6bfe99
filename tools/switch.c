/* Chooses a change in the program that tools/change-code builds, and notes to which functions the program comes.
   CHANGE is the number of the change, and PLACES the file for the numbers of the functions. CHANGES is a file of
   numbers in the place of one: where the program comes to the first function, a process for each of them does the rest
   of its work, with so many SECONDS of processor at most; the file SEEN gets the status with no change, as `wait`
   tells it, and the numbers with which the answer is another one. */
#define _GNU_SOURCE
#include <fcntl.h>
#include <stdint.h>
#include <stdio.h>
#include <stdlib.h>
#include <string.h>
#include <sys/mman.h>
#include <sys/resource.h>
#include <sys/stat.h>
#include <sys/wait.h>
#include <unistd.h>

enum { MOST_PLACES = 65536, MOST_CHANGES = 65536, MOST_FILES = 64 };

static uint32_t chosen;
static unsigned char comes_to[MOST_PLACES];
static uint32_t changes[MOST_CHANGES];
static int waits_for_changes;
static off_t offsets[MOST_FILES];

/* What a process answers: its status, and the files of its two streams. */
struct answer {
    int status, out, line;
};

static void tell_places(void) {
    FILE *places = fopen(getenv("PLACES"), "w");
    for (int place = 0; place < MOST_PLACES; place++)
        if (comes_to[place]) fprintf(places, "%d\n", place);
    fclose(places);
}

static void limit(int resource, rlim_t most) {
    struct rlimit both = {most, most};
    setrlimit(resource, &both);
}

static void empty(int file) {
    if (ftruncate(file, 0) != 0 || lseek(file, 0, SEEK_SET) != 0) abort();
}

static void begin_change(uint32_t number, const struct answer *answer) {
    chosen = number;
    for (int file = 0; file < MOST_FILES; file++)
        if (offsets[file] >= 0) lseek(file, offsets[file], SEEK_SET);
    dup2(answer->out, 1);
    dup2(answer->line, 2);
    limit(RLIMIT_CPU, (rlim_t)atoi(getenv("SECONDS")));
    limit(RLIMIT_CORE, 0);
}

/* Whether this is the process that does the work, with a change. The first one goes on once that has ended. */
static int does_work(uint32_t number, struct answer *answer) {
    empty(answer->out);
    empty(answer->line);
    pid_t other = fork();
    if (other < 0) abort();
    if (other == 0) {
        begin_change(number, answer);
        return 1;
    }
    waitpid(other, &answer->status, 0);
    return 0;
}

static int is_same_file(int one, int other) {
    struct stat of_one, of_other;
    fstat(one, &of_one);
    fstat(other, &of_other);
    size_t size = (size_t)of_one.st_size;
    if (of_one.st_size != of_other.st_size) return 0;
    if (size == 0) return 1;
    void *text = mmap(0, size, PROT_READ, MAP_SHARED, one, 0);
    void *other_text = mmap(0, size, PROT_READ, MAP_SHARED, other, 0);
    int is_same = memcmp(text, other_text, size) == 0;
    munmap(text, size);
    munmap(other_text, size);
    return is_same;
}

static int is_same(const struct answer *one, const struct answer *other) {
    return one->status == other->status && is_same_file(one->out, other->out) && is_same_file(one->line, other->line);
}

static size_t read_changes(const char *name) {
    size_t count = 0;
    FILE *file = fopen(name, "r");
    while (count < MOST_CHANGES && fscanf(file, "%u", &changes[count]) == 1) count++;
    fclose(file);
    return count;
}

/* Ends the first process once it has tried all changes. In each of the others it returns at once. */
static void try_changes(void) {
    struct answer right = {0, memfd_create("out", 0), memfd_create("line", 0)};
    struct answer other = {0, memfd_create("out", 0), memfd_create("line", 0)};
    size_t count = read_changes(getenv("CHANGES"));
    for (int file = 0; file < MOST_FILES; file++) offsets[file] = lseek(file, 0, SEEK_CUR);
    FILE *seen = fopen(getenv("SEEN"), "w");
    setvbuf(seen, 0, _IONBF, 0);
    if (does_work(0, &right)) return;
    fprintf(seen, "%d\n", right.status);
    for (size_t at = 0; at < count; at++) {
        if (does_work(changes[at], &other)) return;
        if (!is_same(&right, &other)) fprintf(seen, "%u\n", changes[at]);
    }
    _exit(0);
}

/* The number of the change, for a function that may be changed. */
uint32_t chosen_change(uint32_t place) {
    comes_to[place % MOST_PLACES] = 1;
    if (waits_for_changes) {
        waits_for_changes = 0;
        try_changes();
    }
    return chosen;
}

__attribute__((constructor)) static void begin(void) {
    const char *number = getenv("CHANGE");
    if (getenv("CHANGES"))
        waits_for_changes = 1;
    else if (number)
        chosen = (uint32_t)atoi(number);
    if (getenv("PLACES")) atexit(tell_places);
}
