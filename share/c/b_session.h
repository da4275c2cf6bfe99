/* Sessions of B, for programs in C: a program that stays in memory, and its run, in slices, between which its input is
 * fed, its output is taken, and its words can be seen.
 *
 *     struct b_session session = B_NO_SESSION;
 *     if (b_load(source, size, 1, &session) == B_DONE && b_start(&session, input, input_size) == B_DONE)
 *         while (b_continue(&session, 1000, &value) == B_LIMIT) { .. }
 *     b_free(&session);
 *
 * However a run is cut into slices, it is the same run. Beside what b.h says, the caller sees to this:
 * - A session is B_NO_SESSION at first. Of its two pointers only the calls write one; a copy of it isn't used.
 * - The four calls that load want one without a program, b_begin and b_unload one with a program and without a run, and
 *   b_name_of and the five calls for symbols one with a program. All else wants one with a run. What gets another one
 *   answers B_UNREADY, and does nothing. The two pointers tell: without a program or a run it is null.
 * - Threads may each have sessions of their own, and 2 MB of stack. A session is in one call at a time.
 * - b_free comes last, or the memory of the session stays. */
#ifndef B_SESSION_H
#define B_SESSION_H

#include "b.h"

#ifdef __cplusplus
extern "C" {
#ifdef __GNUC__
/* b_place and b_frame are structs and calls, as C allows it. */
#pragma GCC diagnostic push
#pragma GCC diagnostic ignored "-Wshadow"
#endif
#endif

struct b_session {
    void *run;
    void *program;
};

#define B_NO_SESSION {0, 0}

/* Where a run stands: its function, by the address of its first string word, the place of its next instruction, how
 * many calls are below, how many steps were made, and the line of that instruction, or 0 where there is none. It is a
 * line of the source, where files that follow it count on; of a code text its own line, or an author's. After the end
 * of a run it is the call that ran before the last step. */
struct b_place {
    uint32_t function;
    size_t place;
    size_t callers;
    uint64_t steps;
    uint64_t line;
};

/* A place of the code: an instruction of a function, by the address of the function's first string word. */
struct b_code_place {
    uint32_t function;
    size_t place;
};

/* A word that is watched, and what it was. */
struct b_watched {
    uint16_t address;
    uint16_t word;
};

/* Before which steps a slice stops: at one of `places`, as at breakpoints; at one of `near`, where no more than so many
 * calls are below the running one, as where a step over ends; where fewer calls than `returned` are below, as where a
 * function has returned; and where one of `words` holds another word, as at watchpoints. No pointer is null. */
struct b_stops {
    const struct b_code_place *places;
    size_t place_count;
    const struct b_code_place *near;
    size_t near_count;
    size_t callers;
    size_t returned;
    const struct b_watched *words;
    size_t word_count;
};

/* An active call: its function, the place of its next instruction, the address of its frame, where its parameters and
 * then its automatic words lie, and how many parameters it has; and the line and the column of that instruction, or of
 * the call that it has made, or 0, as for b_place and b_column. */
struct b_frame {
    uint32_t function;
    size_t place;
    uint32_t start;
    uint16_t parameters;
    uint64_t line;
    uint64_t column;
};

/* What a symbol is. */
enum {
    B_FUNCTION = 1,
    B_SIMPLE,
    B_VECTOR,
    B_PARAMETER,
    B_AUTOMATIC,
    B_AUTOMATIC_VECTOR,
    B_LABEL,
    B_INSTRUCTION
};

/* What a name of the program stands for: B_FUNCTION, B_SIMPLE or B_VECTOR is a definition, B_PARAMETER, B_AUTOMATIC or
 * B_AUTOMATIC_VECTOR a word of a function's frame, and then there are labels and instructions.
 *
 * `name` ends with a zero; an instruction has none. `address` is that of the first word of a definition, from 7 on; the
 * offset of a word in its frame; or the place of a label or an instruction in its function. `words` is how many words a
 * definition takes, its string words among them, or a word of a frame with its vector's; a vector's own word counts. A
 * function has so many parameters, words of its frame, these among them, labels and instructions; all else has 0 of
 * these. Its first string word, by which b_place and all calls below tell it, is at `address` + 1. `line` and `column`
 * are those of a label or an instruction, or of the first one of a definition, or 0, as for b_place and b_column. */
struct b_symbol {
    char name[9];
    uint8_t kind;
    uint16_t parameters;
    uint32_t address;
    uint32_t words;
    uint16_t frame;
    size_t labels;
    size_t instructions;
    uint64_t line;
    uint64_t column;
};

/* The traps by their numbers, from 1, as the lines of `b` name them. */
static const char b_traps[8][3] = {"", "dz", "fn", "gt", "st", "dp", "bs", "sk"};

/* The session has a program or a run where the call wants none, or lacks what it wants: nothing was done. What a call
 * tells beside its status is then 0. */
enum { B_UNREADY = 142 };

/* Names for what three statuses mean here alone: the next step asks for a byte that isn't there yet; there is no such
 * name, function, call or copy; the input was closed, or an author's file isn't one of its code text. */
enum {
    B_WANTS_INPUT = B_FAILED,
    B_MISSING = B_REFUSED,
    B_CLOSED = B_WRONG_EDITION,
    B_WRONG_FILE = B_WRONG_EDITION
};

/* What there is too much of, beside B_TOO_LARGE. */
enum { B_OPERANDS = 1, B_PAGES = 2 };

/* Compiles a source of edition 1 or 2, or reads a code text of either edition, and puts the program in memory. The
 * status is B_DONE; B_FAULT or B_REFUSED, where b_compile or b_run has the line; B_NO_MEMORY; or B_WRONG_EDITION.
 * Unless it is B_DONE there is no program. */
uint8_t b_load(const uint8_t *source, size_t source_size, uint8_t edition, struct b_session *session);
uint8_t b_load_code(const uint8_t *code, size_t code_size, struct b_session *session);

/* The same of a source with the files that follow it, and of a code text with an author's file of lines and one of
 * names, as CODE.md tells them; none where its size is 0. Unless the status is B_DONE there is no program, and the line
 * tells why, as `b` does; after a fault in a file that follows, its line there. With B_WRONG_EDITION there is no such
 * edition, or a file's name isn't UTF-8, and no line. With B_WRONG_FILE an author's file isn't one of this code text. */
uint8_t b_load_with(const uint8_t *source, size_t source_size, const struct b_file *files, size_t file_count,
                    uint8_t edition, uint8_t *line, size_t line_size, struct b_written *written,
                    struct b_session *session);
uint8_t b_load_code_with(const uint8_t *code, size_t code_size, const uint8_t *lines, size_t lines_size,
                         const uint8_t *names, size_t names_size, uint8_t *line, size_t line_size,
                         struct b_written *written, struct b_session *session);

/* Tells the name of the function whose first string word has this address. B_FAILED where the room is too small and has
 * its beginning; B_MISSING where no function lies there; or B_NO_MEMORY. */
uint8_t b_name_of(struct b_session *session, uint32_t function, uint8_t *room, size_t room_size, size_t *count);

/* Tells what the name of a definition stands for, of so many bytes; which definition the word at an address is one of;
 * or what a function has, which is told by the address of its first string word: a named word of its frame, a label or
 * an instruction, each by its number from 0 on. The words of a frame come in their order, parameters first.
 *
 * B_MISSING where there is none: no such name, an address below 7 or past the last definition, no function there, or
 * not so many; and the symbol is zeros. A code text has names of words and labels by its author's file alone. The run
 * goes on as if nothing had been asked.
 *
 *     for (at = 7; b_symbol_at(&session, at, &symbol) == B_DONE; at = symbol.address + symbol.words)
 *
 * goes over all definitions. */
uint8_t b_find(struct b_session *session, const uint8_t *name, size_t name_size, struct b_symbol *symbol);
uint8_t b_symbol_at(struct b_session *session, uint32_t address, struct b_symbol *symbol);
uint8_t b_local(struct b_session *session, uint32_t function, size_t number, struct b_symbol *symbol);
uint8_t b_label(struct b_session *session, uint32_t function, size_t number, struct b_symbol *symbol);
uint8_t b_instruction(struct b_session *session, uint32_t function, uint32_t place, struct b_symbol *symbol);

/* Begins a run, with no input yet. The status is B_DONE; B_TRAP where the memory has no room for the frame of `main`,
 * which is trap 4; or B_NO_MEMORY. Unless it is B_DONE there is no run. */
uint8_t b_begin(struct b_session *session);

/* Makes so many steps at most, and tells why it ends:
 *   B_DONE         the program has halted, and `value` is its status;
 *   B_TRAP         a trap has ended it, and `value` is its number;
 *   B_LIMIT        all steps were made;
 *   B_WANTS_INPUT  the next step asks for a byte that isn't there yet: feed it, or close the input;
 *   B_HAS_OUTPUT   more output is there than the limit;
 *   B_TOO_LARGE    more operands or pages are there than the limit, and `value` tells which;
 *   B_NO_MEMORY    memory was refused, and the run is lost.
 * A run that is over tells its end again. */
uint8_t b_continue(struct b_session *session, uint64_t steps, uint8_t *value);

/* Makes at least one step and so many at most, up to the first one after it before which it stops, and tells why it
 * ends: B_STOPPED there, and else as b_continue. It looks at what the run holds after each step. With B_NO_MEMORY
 * memory was refused for the stops, and nothing was done, or the run is lost, of which b_place then tells. Where no
 * step is asked for, it tells B_LIMIT, even of a run that is over. */
uint8_t b_continue_to(struct b_session *session, const struct b_stops *stops, uint64_t steps, uint8_t *value);

/* Sets how much a run may hold: so many operands, so many pages of 256 words of its memory that have another word than
 * 0, and so many bytes of output. A slice is made in parts of at most 65536 steps, and ends after one where more is
 * there. It makes no step where more is there already, and goes on once the output was taken or the limits are raised.
 * With 0 bytes of output a slice ends where any is there. A run begins without limits. */
uint8_t b_limit(struct b_session *session, size_t operands, uint16_t pages, size_t output);

/* Adds bytes to the input; none with B_NO_MEMORY, and with B_CLOSED where the input was closed. */
uint8_t b_feed(struct b_session *session, const uint8_t *bytes, size_t size);

/* Tells that no more input comes. */
uint8_t b_close_input(struct b_session *session);

/* Takes as much of the output as there is room for, and tells how much. None was taken with B_NO_MEMORY. */
uint8_t b_output(struct b_session *session, uint8_t *room, size_t room_size, size_t *count);

/* Tells where the run stands; B_NO_MEMORY where it is lost, or memory is refused. */
uint8_t b_place(struct b_session *session, struct b_place *place);

/* Tells the column of that place in its line, in bytes from 1 on, or 0 where none is told: only an author's file of
 * lines tells columns. B_NO_MEMORY as for b_place. */
uint8_t b_column(struct b_session *session, uint64_t *column);

/* Tells of an active call: the running one has number 0, the one that called it 1. After the end of a run the running
 * one is the call that ran before the last step. B_MISSING where there are not so many calls; B_NO_MEMORY as for
 * b_place. */
uint8_t b_frame(struct b_session *session, size_t number, struct b_frame *frame);

/* Tells the word at an address, or stores one; B_NO_MEMORY where the run is lost, or memory is refused. */
uint8_t b_word(struct b_session *session, uint16_t address, uint16_t *word);
uint8_t b_set_word(struct b_session *session, uint16_t address, uint16_t word);

/* Keeps a copy of the run as it stands, with its words, its input, its output and its limits: a checkpoint. From there
 * on each goes on as the run would have, whatever is done with the others. The copies of a session have numbers from 0
 * on, in the order in which they were made, and a new one the next. None was made with B_NO_MEMORY, and nothing has
 * changed. A copy of a run that is over or lost is over or lost.
 *
 *     if (b_swap(&session, number) == B_DONE && b_copy(&session) == B_DONE) b_forget(&session, number);
 *
 * goes back to a copy, gives up the run before, and keeps the copy, with the last number. */
uint8_t b_copy(struct b_session *session);

/* Goes on with the copy of a number: it becomes the run, and what was the run is kept in its place. B_MISSING where
 * there is no such copy. It takes no memory and no time. */
uint8_t b_swap(struct b_session *session, size_t number);

/* Lets go of the copy of a number, and those after it have a number less. B_MISSING where there is no such copy. */
uint8_t b_forget(struct b_session *session, size_t number);

/* Gives a run up, with its copies; lets go of a program without a run. */
uint8_t b_end(struct b_session *session);
uint8_t b_unload(struct b_session *session);

/* Nothing at which a slice stops, to which stops are added. */
static inline struct b_stops b_no_stops(void) {
    static const struct b_code_place no_place = {0, 0};
    static const struct b_watched no_word = {0, 0};
    struct b_stops stops = {&no_place, 0, &no_place, 0, 0, 0, &no_word, 0};
    return stops;
}

/* Begins a run anew, with this much of its input. */
static inline uint8_t b_start(struct b_session *session, const uint8_t *input, size_t size) {
    uint8_t status;
    if (session->run != 0)
        b_end(session);
    status = b_begin(session);
    return status != B_DONE || size == 0 ? status : b_feed(session, input, size);
}

/* How much a run may hold, as for b_limit. */
struct b_limits {
    size_t operands;
    uint16_t pages;
    size_t output;
};

/* The same within limits, from its first step on: b_start alone begins one without limits. */
static inline uint8_t b_start_within(struct b_session *session, const uint8_t *input, size_t size,
                                     const struct b_limits *limits) {
    uint8_t status = b_start(session, input, 0);
    if (status == B_DONE)
        status = b_limit(session, limits->operands, limits->pages, limits->output);
    return status != B_DONE || size == 0 ? status : b_feed(session, input, size);
}

/* The file that has a line of a source, or null for the source itself, and its line there in place of it. */
static inline const struct b_file *b_file_of(const uint8_t *source, size_t source_size, const struct b_file *files,
                                             size_t file_count, uint64_t *line) {
    const struct b_file *file = 0;
    size_t number;
    for (number = 0; number < file_count; number++) {
        const uint8_t *text = number == 0 ? source : files[number - 1].text;
        size_t size = number == 0 ? source_size : files[number - 1].text_size, at;
        uint64_t lines = 1;
        for (at = 0; at < size; at++)
            lines += text[at] == '\n';
        if (*line <= lines)
            break;
        *line -= lines;
        file = &files[number];
    }
    return file;
}

/* Gives all of a session back, whatever it has. */
static inline void b_free(struct b_session *session) {
    if (session->run != 0)
        b_end(session);
    if (session->program != 0)
        b_unload(session);
}

/* What a run asks its caller. `read` puts at most so many bytes into the room and tells how many; 0 is the end of the
 * input. `write` gets what the program has written. `goes_on` is asked between two slices; the run stops at 0. Each may
 * be null: then there is no input, the output is dropped, and the run goes on. */
struct b_talk {
    size_t (*read)(void *own, uint8_t *room, size_t size);
    void (*write)(void *own, const uint8_t *bytes, size_t size);
    int (*goes_on)(void *own);
    void *own;
};

/* Hands the output to `write`. */
static inline uint8_t b_write_out(struct b_session *session, const struct b_talk *talk) {
    uint8_t room[4096];
    size_t count;
    do {
        uint8_t status = b_output(session, room, sizeof room, &count);
        if (status != B_DONE)
            return status;
        if (count > 0 && talk->write != 0)
            talk->write(talk->own, room, count);
    } while (count == sizeof room);
    return B_DONE;
}

/* Reads what a run asks for, and feeds it. */
static inline uint8_t b_read_in(struct b_session *session, const struct b_talk *talk) {
    uint8_t room[4096];
    size_t count = talk->read != 0 ? talk->read(talk->own, room, sizeof room) : 0;
    return count > 0 ? b_feed(session, room, count) : b_close_input(session);
}

/* Runs on to the end, or for so many steps at most, in slices of so many steps, or in one if `slice` is 0. It answers
 * as b_continue does, and B_LIMIT also where `goes_on` told to stop. Output past the limit is handed on, and the run
 * goes on. */
static inline uint8_t b_talk_on(struct b_session *session, const struct b_talk *talk, uint64_t steps, uint64_t slice,
                                uint8_t *value) {
    struct b_place before, after;
    uint8_t status = B_LIMIT, told = b_place(session, &before);
    while (told == B_DONE && status == B_LIMIT && steps > 0) {
        if (talk->goes_on != 0 && !talk->goes_on(talk->own))
            return B_LIMIT;
        status = b_continue(session, slice > 0 && slice < steps ? slice : steps, value);
        told = b_write_out(session, talk);
        if (status == B_WANTS_INPUT && told == B_DONE)
            told = b_read_in(session, talk);
        if (status == B_WANTS_INPUT || status == B_HAS_OUTPUT)
            status = B_LIMIT;
        if (told == B_DONE)
            told = b_place(session, &after);
        if (told == B_DONE) {
            steps -= after.steps - before.steps;
            before = after;
        }
    }
    return told != B_DONE ? told : status;
}

#ifdef __cplusplus
#ifdef __GNUC__
#pragma GCC diagnostic pop
#endif
}
#endif

#endif
