/* The compiler of B and the machine that runs its code, for programs in C.
 *
 * Texts come in as a pointer and a length, and go out into rooms of the caller. The calls keep nothing from one to the
 * next, print nothing, and start no thread.
 *
 * The caller sees to this:
 * - Each pointer is valid for so many bytes and is not null, where the length is 0, too.
 * - The two rooms and the struct overlap neither one another nor a text, and no file of a row.
 * - malloc, realloc and free come from one allocator, which aligns blocks to 16 bytes, as that of the C library does.
 * - A thread that calls has 2 MB of stack; each call takes less than one.
 * - No call is made from a signal handler, or from the forked child of a process with threads.
 *
 * Of what is the caller's, a call writes the rooms and the struct alone. What a room holds after the bytes that were
 * written stays as it was.
 *
 * What is said of a call holds for what fits into its rooms. A room that is too small is a write that failed: the
 * status is B_FAILED, and the room is full of the beginning of what it should hold. A room that is just large enough is
 * never answered so. Where neither B_FAILED nor B_NO_MEMORY is answered, all was written.
 *
 * Several threads may call at once, each with rooms of its own: calls share nothing but malloc. That was tried, and is
 * no part of what is proved. */
#ifndef B_H
#define B_H

#include <stddef.h>
#include <stdint.h>

/* The version of this header, as b_version of its library begins, and as a number: 10000 for 1.0.0. What is in a struct
 * changes with the first part alone, and then the name of the library does, too. */
#define B_VERSION "1.0.0"
#define B_VERSION_NUMBER 10000

#ifdef __cplusplus
extern "C" {
#endif

/* How many bytes a call has written at the head of each room. The line is what `b` writes to standard error. */
struct b_written {
    size_t out;
    size_t line;
};

/* The statuses are those of the program `b`. One below 128 is the program's own. */
enum {
    B_DONE = 0,
    B_FAULT = 1,           /* the source has a fault, which the line tells; a program may answer 1, too */
    B_TRAP = 130,          /* the run ended with a trap, which the line tells */
    B_LIMIT = 131,         /* the run reached the limit of its steps */
    B_REFUSED = 132,       /* the text is no code text, or its code doesn't load; the line tells why */
    B_FAILED = 133,        /* a room is too small */
    B_NO_MEMORY = 134,     /* out of memory */
    B_WRONG_EDITION = 135, /* there is no edition of this number, or a name isn't UTF-8; nothing was written */
    B_HAS_OUTPUT = 136,    /* a session has more output than its limit; see b_session.h */
    B_TOO_LARGE = 137,     /* a session has more operands or memory than its limit */
    B_STOPPED = 138        /* a session stands before a step at which it was to stop */
};

/* Compiles a source of edition 1 or 2 to its code text, as `b compile` does. */
uint8_t b_compile(const uint8_t *source, size_t source_size, uint8_t edition, uint8_t *out, size_t out_size,
                  uint8_t *line, size_t line_size, struct b_written *written);

/* Runs a code text of either edition on an input, for so many steps at most, as `b run` does. */
uint8_t b_run(const uint8_t *code, size_t code_size, const uint8_t *input, size_t input_size, uint64_t steps,
              uint8_t *out, size_t out_size, uint8_t *line, size_t line_size, struct b_written *written);

/* The same. After the line comes where the code text went wrong: after a trap or at the limit the function, the place,
 * the line of the code text, and what it means; after `code n` what could come in line n; after `load n` the name. It
 * takes 300 bytes of room, and as many as that line of the code text has. */
uint8_t b_run_where(const uint8_t *code, size_t code_size, const uint8_t *input, size_t input_size, uint64_t steps,
                    uint8_t *out, size_t out_size, uint8_t *line, size_t line_size, struct b_written *written);

/* Compiles a source and runs its program, as `b go` does. */
uint8_t b_go(const uint8_t *source, size_t source_size, const uint8_t *input, size_t input_size, uint8_t edition,
             uint64_t steps, uint8_t *out, size_t out_size, uint8_t *line, size_t line_size,
             struct b_written *written);

/* Writes a code text of edition 1 as one of edition 2, as `b migrate` does. */
uint8_t b_migrate(const uint8_t *code, size_t code_size, uint8_t *out, size_t out_size, uint8_t *line, size_t line_size,
                  struct b_written *written);

/* Tells what is wrong in a source, as `b check --json -` does: an object on each line, and nothing where all is well.
 * The status is B_DONE also where there are warnings alone; B_FAULT for a fault of the source; B_REFUSED for code that
 * doesn't load. There is no line. */
uint8_t b_check(const uint8_t *source, size_t source_size, uint8_t edition, uint8_t *out, size_t out_size,
                struct b_written *written);

/* Lays a source out in one style, as `b format` does. */
uint8_t b_format(const uint8_t *source, size_t source_size, uint8_t edition, uint8_t *out, size_t out_size,
                 uint8_t *line, size_t line_size, struct b_written *written);

/* A file that follows a source, as LIB does of the program `b` after --with. Findings and lines tell it by its name,
 * which has to be UTF-8. */
struct b_file {
    const uint8_t *name;
    size_t name_size;
    const uint8_t *text;
    size_t text_size;
};

/* The calls from here on take a source with so many files that follow it: each comes after a newline, and the program
 * is that of all of them. Where a name isn't UTF-8, nothing is written, and the status is B_WRONG_EDITION. */

/* b_compile, b_go and b_check of a source with the files that follow it. */
uint8_t b_compile_with(const uint8_t *source, size_t source_size, const struct b_file *files, size_t file_count,
                       uint8_t edition, uint8_t *out, size_t out_size, uint8_t *line, size_t line_size,
                       struct b_written *written);
uint8_t b_go_with(const uint8_t *source, size_t source_size, const struct b_file *files, size_t file_count,
                  const uint8_t *input, size_t input_size, uint8_t edition, uint64_t steps, uint8_t *out,
                  size_t out_size, uint8_t *line, size_t line_size, struct b_written *written);
uint8_t b_check_with(const uint8_t *source, size_t source_size, const struct b_file *files, size_t file_count,
                     uint8_t edition, uint8_t *out, size_t out_size, struct b_written *written);

/* Lists the code of a source beside its lines, as `b list` does. */
uint8_t b_list(const uint8_t *source, size_t source_size, const struct b_file *files, size_t file_count,
               uint8_t edition, uint8_t *out, size_t out_size, uint8_t *line, size_t line_size,
               struct b_written *written);

/* Tells where each name of a source lies in memory, as `b map` does. */
uint8_t b_map(const uint8_t *source, size_t source_size, const struct b_file *files, size_t file_count,
              uint8_t edition, uint8_t *out, size_t out_size, uint8_t *line, size_t line_size,
              struct b_written *written);

/* Runs the program of a source for so many steps at most, and writes the steps, as `b trace` does: so many of the last
 * ones, or where `last` is 0 those from the number `from` on. The first step has the number 1. */
uint8_t b_trace(const uint8_t *source, size_t source_size, const struct b_file *files, size_t file_count,
                const uint8_t *input, size_t input_size, uint8_t edition, uint64_t steps, uint64_t from,
                uint64_t last, uint8_t *out, size_t out_size, uint8_t *line, size_t line_size,
                struct b_written *written);

/* Runs the program of a source for so many steps at most, and tells how often each line was made, as `b count` does;
 * where `is_json` isn't 0, as `b count --json` does: an object on each line. */
uint8_t b_count(const uint8_t *source, size_t source_size, const struct b_file *files, size_t file_count,
                const uint8_t *input, size_t input_size, uint8_t edition, uint64_t steps, uint8_t is_json,
                uint8_t *out, size_t out_size, uint8_t *line, size_t line_size, struct b_written *written);

/* Runs the program of a source for so many steps at most, and writes a page that shows the run and its input, as
 * `b show --input` does. `from` and `last` are as for b_trace. The status is B_DONE whatever came of the run. */
uint8_t b_show(const uint8_t *source, size_t source_size, const struct b_file *files, size_t file_count,
               const uint8_t *input, size_t input_size, uint8_t edition, uint64_t steps, uint64_t from,
               uint64_t last, uint8_t *out, size_t out_size, uint8_t *line, size_t line_size,
               struct b_written *written);

/* Writes the version of the library, as `b --version` tells it of the program. There is no line. */
uint8_t b_version(uint8_t *out, size_t out_size, struct b_written *written);

#ifdef __cplusplus
}
#endif

#endif
