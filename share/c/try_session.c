/* Tries the calls for sessions: worked rows, rooms of every small size, memory that is refused, many sessions, threads,
 * and the time of slices. An argument is the number of sessions that are made and freed. It is linked with
 * --wrap=malloc, --wrap=realloc and --wrap=free. */
#include "b_session.h"

#include <malloc.h>
#include <pthread.h>
#include <stdio.h>
#include <stdlib.h>
#include <string.h>
#include <time.h>

static int wrong;

static void expect(const char *what, long got, long wanted) {
    if (got == wanted)
        return;
    printf("%s: %ld where it should be %ld\n", what, got, wanted);
    wrong = 1;
}

/* Writes each character but one, until the input ends, and counts them in the first word. */
static const char *next =
    "n; main() { extrn n; auto c; while((c = getchar()) != '*e') { n++; putchar(c + 1); } exit(n); }";
static const char *loop = "main() { auto i; i = 0; while(1) i++; }";

static uint8_t load(const char *source, struct b_session *session) {
    return b_load((const uint8_t *)source, strlen(source), 1, session);
}

/* A run that is fed, looked at and taken from, with a room of this size. */
static void try_run(size_t size) {
    struct b_session session = B_NO_SESSION;
    struct b_place place;
    uint8_t value, room[8], all[8];
    uint16_t word;
    uint64_t column = 7;
    size_t count, taken = 0;
    expect("a program", load(next, &session), B_DONE);
    expect("a run", b_start(&session, (const uint8_t *)"", 0), B_DONE);
    expect("one step", b_continue(&session, 1, &value), B_LIMIT);
    expect("no input", b_continue(&session, 1000, &value), B_FAILED);
    expect("no input again", b_continue(&session, 1000, &value), B_FAILED);
    expect("bytes", b_feed(&session, (const uint8_t *)"HAL", 3), B_DONE);
    expect("no bytes", b_feed(&session, (const uint8_t *)"", 0), B_DONE);
    expect("all read", b_continue(&session, 1000, &value), B_FAILED);
    memset(room, 9, sizeof room);
    for (int calls = 0; calls < 9; calls++) {
        expect("output", b_output(&session, room, size, &count), B_DONE);
        for (size_t i = count; i < sizeof room; i++)
            if (i >= size)
                expect("the rest of the room", room[i], 9);
        memcpy(all + taken, room, count);
        taken += count;
        if (count == 0)
            break;
    }
    expect("all of the output", taken, size == 0 ? 0 : 3);
    if (size > 0)
        expect("its bytes", memcmp(all, "IBM", 3), 0);
    expect("a word", b_word(&session, 7, &word), B_DONE);
    expect("its value", word, 3);
    expect("a word stored", b_set_word(&session, 7, 9), B_DONE);
    expect("a place", b_place(&session, &place), B_DONE);
    expect("calls below", place.callers, 0);
    expect("its line", place.line, 1);
    expect("a column", b_column(&session, &column), B_DONE);
    expect("none in a source of B", column, 0);
    expect("the end of the input", b_close_input(&session), B_DONE);
    expect("bytes after it", b_feed(&session, (const uint8_t *)"x", 1), B_CLOSED);
    expect("the end", b_continue(&session, 1000, &value), B_DONE);
    expect("its status", value, 9);
    expect("the end again", b_continue(&session, 1, &value), B_DONE);
    expect("another run", b_start(&session, (const uint8_t *)"a", 1), B_DONE);
    b_free(&session);
    expect("all given back", session.run != 0 || session.program != 0, 0);
}

/* The name of a function, in rooms of each size. */
static void try_names(void) {
    struct b_session session = B_NO_SESSION;
    struct b_place place;
    uint8_t value, room[8];
    size_t count;
    expect("a program", load("f() {\n  return(1/0);\n}\nmain() {\n  f();\n}", &session), B_DONE);
    expect("a name without a run", b_name_of(&session, 0, room, sizeof room, &count), B_REFUSED);
    expect("its size", count, 0);
    expect("a run", b_start(&session, (const uint8_t *)"", 0), B_DONE);
    expect("the first place", b_place(&session, &place), B_DONE);
    expect("the line of the call", place.line, 5);
    for (size_t size = 0; size < sizeof room; size++) {
        memset(room, 9, sizeof room);
        expect("a name", b_name_of(&session, place.function, room, size, &count), size < 4 ? B_FAILED : B_DONE);
        expect("how much of it", count, size < 4 ? size : 4);
        expect("its bytes", memcmp(room, "main", count), 0);
        for (size_t i = count; i < sizeof room; i++)
            expect("the rest of the room", room[i], 9);
    }
    expect("a trap", b_continue(&session, 100, &value), B_TRAP);
    expect("the last place", b_place(&session, &place), B_DONE);
    expect("the line of the division", place.line, 2);
    expect("its name", b_name_of(&session, place.function, room, sizeof room, &count), B_DONE);
    expect("which it is", count == 1 && room[0] == 'f', 1);
    b_free(&session);
}

/* What names, addresses and places stand for, by the layout of memory. */
static void try_symbols(void) {
    static const char source[] =
        "n 4, 5; v[3]; f(x, y) {\n  auto w 3, i;\n  top: i = x;\n  goto top;\n}\nmain() f(1, 2);";
    static const struct {
        const char *name;
        uint32_t address, words;
        uint8_t kind;
    } definitions[] = {{"n", 7, 2, B_SIMPLE}, {"v", 9, 5, B_VECTOR}, {"f", 14, 1, B_FUNCTION},
                       {"main", 15, 1, B_FUNCTION}},
      words[] = {{"x", 0, 1, B_PARAMETER}, {"y", 1, 1, B_PARAMETER}, {"w", 2, 5, B_AUTOMATIC_VECTOR},
                 {"i", 7, 1, B_AUTOMATIC}};
    struct b_session session = B_NO_SESSION;
    struct b_symbol it, none;
    size_t number = 0;
    uint32_t at;
    memset(&none, 0, sizeof none);
    expect("a program", load(source, &session), B_DONE);
    for (at = 7; b_symbol_at(&session, at, &it) == B_DONE; at = it.address + it.words, number++) {
        expect("its name", strcmp(it.name, definitions[number].name), 0);
        expect("its kind", it.kind, definitions[number].kind);
        expect("its address", it.address, definitions[number].address);
        expect("its words", it.words, definitions[number].words);
        for (uint32_t within = it.address; within < it.address + it.words; within++) {
            struct b_symbol same;
            expect("an address within", b_symbol_at(&session, within, &same), B_DONE);
            expect("the same one", memcmp(&same, &it, sizeof it), 0);
        }
    }
    expect("all of them", number, 4);
    expect("the end of them", at, 16);
    expect("nothing is told of it", memcmp(it.name, none.name, sizeof none.name) || it.kind || it.address, 0);
    expect("an address before them", b_symbol_at(&session, 6, &it), B_REFUSED);
    expect("no name", b_find(&session, (const uint8_t *)"g", 1, &it), B_REFUSED);
    expect("what is no name", b_find(&session, (const uint8_t *)"1", 1, &it), B_REFUSED);
    expect("nine letters", b_find(&session, (const uint8_t *)"abcdefghi", 9, &it), B_REFUSED);
    expect("nothing", b_find(&session, (const uint8_t *)"", 0, &it), B_REFUSED);
    expect("f", b_find(&session, (const uint8_t *)"f", 1, &it), B_DONE);
    expect("its parameters", it.parameters, 2);
    expect("its frame", it.frame, 8);
    expect("its labels", it.labels, 1);
    expect("the line of its first instruction, which makes w", it.line, 2);
    for (number = 0; b_local(&session, 15, number, &it) == B_DONE; number++) {
        expect("the name of a word", strcmp(it.name, words[number].name), 0);
        expect("its kind", it.kind, words[number].kind);
        expect("its offset", it.address, words[number].address);
        expect("how many words", it.words, words[number].words);
    }
    expect("all words", number, 4);
    expect("words of no function", b_local(&session, 14, 0, &it), B_REFUSED);
    expect("a label", b_label(&session, 15, 0, &it), B_DONE);
    expect("its name", strcmp(it.name, "top"), 0);
    expect("its line", it.line, 3);
    expect("no other", b_label(&session, 15, 1, &it), B_REFUSED);
    expect("f again", b_find(&session, (const uint8_t *)"f", 1, &it), B_DONE);
    number = it.instructions;
    expect("the last instruction", b_instruction(&session, 15, (uint32_t)number - 1, &it), B_DONE);
    expect("its place", it.address, number - 1);
    expect("none after it", b_instruction(&session, 15, (uint32_t)number, &it), B_REFUSED);
    expect("no run yet", session.run != 0, 0);
    b_free(&session);
}

/* What a load tells, in rooms of each size. A text that is given by a size of 0 may be null. */
static void try_lines(void) {
    static const struct {
        const char *source, *lib, *line;
        uint8_t edition, status;
    } rows[] = {
        {"main() {", "", "", 1, B_FAULT},
        {"main() { f(); }", "f() {\n  $;\n}\n", "", 1, B_FAULT},
        {"n;", "m;", "load 4\n", 1, B_REFUSED},
        {"main() { f(); }", "f() { }", "", 1, B_DONE},
        {"main() { }", "", "", 3, B_WRONG_EDITION},
    };
    for (size_t i = 0; i < sizeof rows / sizeof *rows; i++) {
        struct b_session session = B_NO_SESSION;
        struct b_file file = {(const uint8_t *)"f.b", 3, (const uint8_t *)rows[i].lib, strlen(rows[i].lib)};
        struct b_written written, whole;
        uint8_t line[64], code[400], compiled[64];
        const uint8_t *source = (const uint8_t *)rows[i].source;
        size_t size = strlen(rows[i].source);
        expect("a load", b_load_with(source, size, &file, 1, rows[i].edition, line, sizeof line, &written, &session),
               rows[i].status);
        expect("no output", written.out, 0);
        if (rows[i].status == B_FAULT) {
            b_compile_with(source, size, &file, 1, rows[i].edition, code, sizeof code, compiled, sizeof compiled,
                           &whole);
            expect("the line of the compiler", memcmp(line, compiled, whole.line), 0);
        } else
            expect("a line", written.line == strlen(rows[i].line) && !memcmp(line, rows[i].line, written.line), 1);
        expect("a program", session.program != 0, rows[i].status == B_DONE);
        expect("no run", session.run != 0, 0);
        b_free(&session);
        for (size_t room = 0; room < written.line; room++) {
            struct b_written cut;
            memset(line, 9, sizeof line);
            expect("a small room", b_load_with(source, size, &file, 1, rows[i].edition, line, room, &cut, &session),
                   B_FAILED);
            expect("which is full", cut.line, room);
            expect("and no more", line[room], 9);
            expect("no program", session.program != 0, 0);
        }
    }
}

/* Code texts with what an author gives beside them. */
static void try_authors(void) {
    static const struct {
        const char *code, *lines, *names, *line;
        uint8_t status;
        uint64_t at, column;
    } rows[] = {
        {"F main 0 0 0 0 3\nc 1\nc 0\nb /\nE\n", "", "", "", B_DONE, 4, 0},
        {"F main 0 0 0 0 3\nc 1\nc 0\nb /\nE\n", "70\n80\n90\n", "F main\n", "", B_DONE, 90, 0},
        {"F main 0 0 0 0 3\nc 1\nc 0\nb /\nE\n", "70\n80\n90 5\n", "", "", B_DONE, 90, 5},
        {"F main 0 0 0 0 3\nc 1\nc 0\nb /\nE\n", "70 1\n80 2\n90\n", "", "", B_DONE, 90, 0},
        {"F main 0 0 0 0 3\nc 1\nc 0\nb /\nE\n", "1\n1\n1 18446744073709551615\n", "", "", B_DONE, 1, UINT64_MAX},
        {"F main 0 0 0 0 3\nc 1\nc 0\nb /\nE\n", "70\n80\n", "",
         "error: line 3 of the file of lines has to be a number from 0 to 18446744073709551615, alone or with a column "
         "of it, for place 2 of main\n",
         B_WRONG_EDITION, 0, 0},
        {"F main 0 0 0 0 3\nc 1\nc 0\nb /\nE\n", "1\n1\n18446744073709551615\n", "", "", B_DONE, UINT64_MAX, 0},
        {"F main 0 0 0 0 3\nc 1\nc 0\nb /\nE\n", "1\n1\n1\n1\n", "",
         "error: line 4 of the file of lines has to be its end\n", B_WRONG_EDITION, 0, 0},
        {"F main 0 0 0 0 3\nc 1\nc 0\nb /\nE\n", "", "F f\n",
         "error: line 1 of the file of names has to be 'F main'\n", B_WRONG_EDITION, 0, 0},
        {"F main 0 0 0 0 3\nc 1\nc 0\nE\n", "", "", "code 4\n", B_REFUSED, 0, 0},
        {"X n 0 0\nE\n", "", "", "load 4\n", B_REFUSED, 0, 0},
    };
    for (size_t i = 0; i < sizeof rows / sizeof *rows; i++) {
        struct b_session session = B_NO_SESSION;
        struct b_written written;
        struct b_place place;
        uint8_t line[256], value;
        uint64_t column = 7;
        size_t lines = strlen(rows[i].lines), names = strlen(rows[i].names);
        expect("a code text",
               b_load_code_with((const uint8_t *)rows[i].code, strlen(rows[i].code),
                                lines > 0 ? (const uint8_t *)rows[i].lines : 0, lines,
                                names > 0 ? (const uint8_t *)rows[i].names : 0, names, line, sizeof line, &written,
                                &session),
               rows[i].status);
        expect("its line", written.line == strlen(rows[i].line) && !memcmp(line, rows[i].line, written.line), 1);
        if (rows[i].status == B_DONE) {
            expect("its run", b_start(&session, (const uint8_t *)"", 0), B_DONE);
            expect("its trap", b_continue(&session, 9, &value), B_TRAP);
            expect("its place", b_place(&session, &place), B_DONE);
            expect("an author's line", place.line, rows[i].at);
            expect("a call for its column", b_column(&session, &column), B_DONE);
            expect("its column", column, rows[i].column);
        }
        b_free(&session);
    }
}

/* Limits: what a run may hold, and that it goes on. */
static void try_limits(void) {
    static const struct {
        const char *source;
        size_t operands, output;
        uint16_t pages;
        uint8_t status, value;
    } rows[] = {
        {"main() { while(1) putchar('a'); }", 1000, 1000, 256, B_HAS_OUTPUT, 0},
        {"main() { while(1) putchar('a'); }", 1000, 0, 256, B_HAS_OUTPUT, 0},
        {"main() { auto i; while(1) i++; }", 1000, 0, 256, B_LIMIT, 0},
        {"v[9999]; main() { extrn v; auto i; i = 0; while(1) { v[i] = 1; if(++i == 9999) i = 0; } }", 1000, 0, 9,
         B_TOO_LARGE, B_PAGES},
    };
    for (size_t i = 0; i < sizeof rows / sizeof *rows; i++) {
        struct b_session session = B_NO_SESSION;
        struct b_place place;
        uint8_t value, room[99];
        size_t count;
        expect("a program", load(rows[i].source, &session), B_DONE);
        expect("a run", b_start(&session, (const uint8_t *)"", 0), B_DONE);
        expect("limits", b_limit(&session, rows[i].operands, rows[i].pages, rows[i].output), B_DONE);
        expect("what stops it", b_continue(&session, 1000000, &value), rows[i].status);
        expect("which it is", value, rows[i].value);
        expect("where it stopped", b_place(&session, &place), B_DONE);
        if (rows[i].status != B_LIMIT)
            expect("early", place.steps <= 65536, 1);
        expect("what stops it again", b_continue(&session, 1000, &value), rows[i].status);
        expect("no limits", b_limit(&session, SIZE_MAX, 256, SIZE_MAX), B_DONE);
        expect("nothing stops it", b_continue(&session, 1000000, &value), B_LIMIT);
        do
            b_output(&session, room, sizeof room, &count);
        while (count > 0);
        b_free(&session);
    }
}

/* A run within limits from its start, and the file of each line of a source. */
static void try_starts(void) {
    static const struct b_limits within = {1000, 256, 3};
    static const char source[] = "main() while(1)\nputchar(getchar());";
    static const struct b_file files[] = {{(const uint8_t *)"n", 1, (const uint8_t *)"n;\n", 3},
                                          {(const uint8_t *)"m", 1, (const uint8_t *)"", 0}};
    static const struct {
        uint64_t line, own;
        int file; /* from 1 on, or 0 for the source */
    } rows[] = {{0, 0, 0}, {1, 1, 0}, {2, 2, 0}, {3, 1, 1}, {4, 2, 1}, {5, 1, 2}, {6, 2, 2}};
    struct b_session session = B_NO_SESSION;
    uint8_t value;
    size_t row;
    expect("no program", b_start_within(&session, (const uint8_t *)"", 0, &within), B_UNREADY);
    expect("a program", load(source, &session), B_DONE);
    expect("within limits", b_start_within(&session, (const uint8_t *)"abcdef", 6, &within), B_DONE);
    expect("stops there", b_continue(&session, 1000000, &value), B_HAS_OUTPUT);
    b_free(&session);
    for (row = 0; row < sizeof rows / sizeof *rows; row++) {
        uint64_t line = rows[row].line;
        const struct b_file *file = b_file_of((const uint8_t *)source, sizeof source - 1, files, 2, &line);
        expect("a file", file == 0 ? 0 : (long)(file - files) + 1, rows[row].file);
        expect("its line", (long)line, (long)rows[row].own);
    }
    expect("names of statuses", B_WANTS_INPUT == 133 && B_MISSING == 132 && B_CLOSED == 135 && B_WRONG_FILE == 135, 1);
}

/* What each call that wants a run answers of a session, and each one that wants a program. */
static int runs_unready(struct b_session *session) {
    static const struct b_code_place none = {0, 0};
    static const struct b_watched nothing = {0, 0};
    const struct b_stops stops = {&none, 0, &none, 0, 0, 0, &nothing, 0};
    struct b_place place;
    struct b_frame frame;
    uint8_t value, room[8];
    size_t count = 1;
    uint64_t column;
    uint16_t word;
    const uint8_t told[] = {
        b_continue(session, 1, &value), b_continue_to(session, &stops, 1, &value), b_frame(session, 0, &frame),
        b_limit(session, 0, 0, 0), b_feed(session, room, 0), b_close_input(session),
        b_output(session, room, sizeof room, &count), b_place(session, &place), b_column(session, &column),
        b_word(session, 7, &word), b_set_word(session, 7, 1), b_copy(session), b_swap(session, 0),
        b_forget(session, 0), b_end(session),
    };
    for (size_t call = 0; call < sizeof told; call++)
        if (told[call] != B_UNREADY)
            return 0;
    return value == 0 && frame.line == 0 && count == 0 && place.steps == 0 && column == 0 && word == 0;
}

static int programs_unready(struct b_session *session) {
    struct b_symbol it;
    uint8_t room[8];
    size_t count = 1;
    return b_name_of(session, 8, room, sizeof room, &count) == B_UNREADY && count == 0 &&
           b_find(session, (const uint8_t *)"main", 4, &it) == B_UNREADY && it.kind == 0 &&
           b_symbol_at(session, 7, &it) == B_UNREADY && b_local(session, 8, 0, &it) == B_UNREADY &&
           b_label(session, 8, 0, &it) == B_UNREADY && b_instruction(session, 8, 0, &it) == B_UNREADY &&
           b_begin(session) == B_UNREADY && b_unload(session) == B_UNREADY;
}

/* What each call that loads answers of a session that has a program, which stays. */
static int loads_unready(struct b_session *session) {
    const struct b_session before = *session;
    const uint8_t *text = (const uint8_t *)"main() ;";
    struct b_written written = {7, 7};
    uint8_t line[8];
    return b_load(text, 8, 1, session) == B_UNREADY && b_load(text, 8, 3, session) == B_UNREADY &&
           b_load_code(text, 8, session) == B_UNREADY &&
           b_load_with(text, 8, 0, 0, 1, line, sizeof line, &written, session) == B_UNREADY &&
           b_load_code_with(text, 8, text, 0, text, 0, line, sizeof line, &written, session) == B_UNREADY &&
           written.out == 0 && written.line == 0 && memcmp(&before, session, sizeof before) == 0;
}

static void try_unready(void) {
    struct b_session session = B_NO_SESSION;
    uint8_t value = 0;
    expect("without a program", runs_unready(&session) && programs_unready(&session), 1);
    expect("still none", session.run != 0 || session.program != 0, 0);
    expect("a program", load("main() exit(5);", &session), B_DONE);
    expect("without a run", runs_unready(&session) && loads_unready(&session), 1);
    expect("a run", b_start(&session, (const uint8_t *)"", 0), B_DONE);
    expect("with a run", loads_unready(&session), 1);
    expect("another one", b_begin(&session), B_UNREADY);
    expect("a program in use", b_unload(&session), B_UNREADY);
    expect("the run goes on", b_continue(&session, 1000, &value), B_DONE);
    expect("its status", value, 5);
    b_free(&session);
}

/* A breakpoint in a function that calls itself, its calls, its return, a watched word, and places near enough. */
static void try_stops(void) {
    struct b_session session = B_NO_SESSION;
    struct b_stops stops = b_no_stops();
    struct b_code_place at;
    struct b_watched watched = {7, 0};
    struct b_place place;
    struct b_frame frame;
    uint8_t value;
    uint16_t word;
    static const char *source = "n; f(k) {\n  extrn n;\n  if(k)\n    f(k - 1);\n  n++; }\nmain() f(3);";
    expect("a program", load(source, &session), B_DONE);
    expect("a run", b_start(&session, (const uint8_t *)"", 0), B_DONE);
    do {
        expect("a step", b_continue(&session, 1, &value), B_LIMIT);
        expect("a place", b_place(&session, &place), B_DONE);
    } while (place.callers == 0);
    at.function = place.function;
    at.place = place.place;
    stops.places = &at;
    stops.place_count = 1;
    for (size_t calls = 2; calls <= 4; calls++) {
        expect("a breakpoint", b_continue_to(&session, &stops, 1000, &value), B_STOPPED);
        expect("its place", b_place(&session, &place), B_DONE);
        expect("where it is", place.place == at.place && place.function == at.function, 1);
        expect("calls below", place.callers, calls);
        expect("its frame", b_frame(&session, 0, &frame), B_DONE);
        expect("parameters", frame.parameters, 1);
        expect("a word", b_word(&session, frame.start, &word), B_DONE);
        expect("its value", word, 4 - calls);
        expect("the caller", b_frame(&session, 1, &frame), B_DONE);
        expect("the line of the call", frame.line, 4);
        expect("the first call", b_frame(&session, calls, &frame), B_DONE);
        expect("its line", frame.line, 6);
        expect("no more calls", b_frame(&session, calls + 1, &frame), B_REFUSED);
        expect("nothing of it", frame.start, 0);
    }
    stops = b_no_stops();
    expect("no step", b_continue_to(&session, &stops, 0, &value), B_LIMIT);
    stops.returned = 4;
    expect("a return", b_continue_to(&session, &stops, 1000, &value), B_STOPPED);
    expect("its place", b_place(&session, &place), B_DONE);
    expect("calls below", place.callers, 3);
    stops = b_no_stops();
    stops.words = &watched;
    stops.word_count = 1;
    b_word(&session, 7, &watched.word);
    expect("a watchpoint", b_continue_to(&session, &stops, 1000, &value), B_STOPPED);
    expect("its word", b_word(&session, 7, &word), B_DONE);
    expect("another one", word, watched.word + 1);
    stops = b_no_stops();
    expect("a place near", b_frame(&session, 2, &frame), B_DONE);
    at.place = frame.place;
    stops.near = &at;
    stops.near_count = 1;
    stops.callers = 1;
    expect("near enough", b_continue_to(&session, &stops, 1000, &value), B_STOPPED);
    expect("its place", b_place(&session, &place), B_DONE);
    expect("calls below", place.callers, 1);
    expect("the end", b_continue_to(&session, &stops, 1000, &value), B_DONE);
    expect("its status", value, 0);
    b_free(&session);
}

/* Programs that can't be loaded, and a trap. */
static void try_others(void) {
    struct b_session session = B_NO_SESSION;
    const char *trap = "F main 0 0 0 0 3\nc 1\nc 0\nb /\nE\n";
    uint8_t value;
    expect("a fault", load("main() {", &session), B_FAULT);
    expect("no edition", b_load((const uint8_t *)"", 0, 3, &session), B_WRONG_EDITION);
    expect("no main", load("n;", &session), B_REFUSED);
    expect("no code text", b_load_code((const uint8_t *)"E", 1, &session), B_REFUSED);
    expect("nothing to start", b_start(&session, (const uint8_t *)"", 0), B_UNREADY);
    expect("words to the end", load("v[32766]; w[32758]; main() { auto a; ; }", &session), B_DONE);
    expect("no room for a frame", b_start(&session, (const uint8_t *)"", 0), B_TRAP);
    b_free(&session);
    expect("a code text", b_load_code((const uint8_t *)trap, strlen(trap), &session), B_DONE);
    expect("its run", b_start(&session, (const uint8_t *)"", 0), B_DONE);
    expect("a trap", b_continue(&session, 10, &value), B_TRAP);
    expect("its number", value, 1);
    b_free(&session);
    b_free(&session);
}

/* A run and its copies, each of which goes on as the run would have. */
static void try_copies(void) {
    struct b_session session = B_NO_SESSION;
    struct b_place place;
    uint8_t value, room[8];
    uint16_t word;
    size_t count;
    expect("a program", load(next, &session), B_DONE);
    expect("a run", b_start(&session, (const uint8_t *)"HA", 2), B_DONE);
    expect("some steps", b_continue(&session, 30, &value), B_LIMIT);
    expect("a copy", b_copy(&session), B_DONE);
    expect("no other copy", b_swap(&session, 1), B_REFUSED);
    expect("nor one to forget", b_forget(&session, 1), B_REFUSED);
    expect("a word stored", b_set_word(&session, 7, 60), B_DONE);
    expect("the end of the input", b_close_input(&session), B_DONE);
    expect("the end", b_continue(&session, 1000, &value), B_DONE);
    expect("by the word that was stored", value, 60);
    expect("the copy", b_swap(&session, 0), B_DONE);
    expect("its place", b_place(&session, &place), B_DONE);
    expect("its steps", place.steps, 30);
    expect("its word", b_word(&session, 7, &word), B_DONE);
    expect("which nothing has changed", word, 2);
    expect("a copy of it", b_copy(&session), B_DONE);
    expect("its input goes on", b_feed(&session, (const uint8_t *)"L", 1), B_DONE);
    expect("and ends", b_close_input(&session), B_DONE);
    expect("its own end", b_continue(&session, 1000, &value), B_DONE);
    expect("its own status", value, 3);
    expect("its own output", b_output(&session, room, sizeof room, &count), B_DONE);
    expect("all of it", count == 3 && memcmp(room, "IBM", 3) == 0, 1);
    expect("the first one forgotten", b_forget(&session, 0), B_DONE);
    expect("the second one has its number", b_swap(&session, 0), B_DONE);
    expect("bytes that it lacks", b_continue(&session, 1000, &value), B_FAILED);
    expect("its output", b_output(&session, room, sizeof room, &count), B_DONE);
    expect("two bytes", count == 2 && memcmp(room, "IB", 2) == 0, 1);
    expect("the other one forgotten", b_forget(&session, 0), B_DONE);
    expect("none is left", b_forget(&session, 0), B_REFUSED);
    expect("one more", b_copy(&session), B_DONE);
    expect("another run", b_start(&session, (const uint8_t *)"a", 1), B_DONE);
    expect("without copies", b_swap(&session, 0), B_REFUSED);
    expect("a copy of it", b_copy(&session), B_DONE);
    b_free(&session);
}

void *__real_malloc(size_t size);
void *__real_realloc(void *old, size_t size);
void __real_free(void *old);

/* Of the thread that sets it: the call for memory that is refused, from 0 on; and how many blocks are given out. */
static _Thread_local long until = -1, blocks;

static int is_refused(void) { return until >= 0 && until-- == 0; }

void *__wrap_malloc(size_t size) {
    void *block = is_refused() ? NULL : __real_malloc(size);
    blocks += block != NULL;
    return block;
}

void *__wrap_realloc(void *old, size_t size) {
    void *block = is_refused() ? NULL : __real_realloc(old, size);
    blocks += old == NULL && block != NULL;
    return block;
}

void __wrap_free(void *old) {
    blocks -= old != NULL;
    __real_free(old);
}

/* All calls, one after another, of which each may be refused memory. It tells whether all was done. */
static int try_all(void) {
    static const char *source = "v[999]; main() { f(); } f() { extrn v; v[getchar()] = 1; putchar('a'); g(); }";
    static const char next_file[] = "g() { extrn v; v[700] = 1; }";
    static const struct b_file file = {(const uint8_t *)"g", 1, (const uint8_t *)next_file, sizeof next_file - 1};
    struct b_session session = B_NO_SESSION;
    struct b_written written;
    struct b_place place;
    uint8_t value, room[8], line[64];
    size_t count;
    uint16_t word;
    uint64_t column;
    uint8_t status = b_load_with((const uint8_t *)source, strlen(source), &file, 1, 2, line, sizeof line, &written,
                                 &session);
    if (status == B_DONE)
        status = b_start(&session, (const uint8_t *)"abc", 3);
    if (status == B_DONE)
        status = b_limit(&session, 1000, 256, 1000);
    if (status == B_DONE)
        status = b_continue(&session, 1000, &value);
    if (status == B_DONE)
        status = b_place(&session, &place);
    if (status == B_DONE)
        status = b_column(&session, &column);
    if (status == B_DONE)
        status = b_name_of(&session, place.function, room, sizeof room, &count);
    if (status == B_DONE)
        status = b_output(&session, room, sizeof room, &count);
    if (status == B_DONE)
        status = b_set_word(&session, 60000, 7);
    if (status == B_DONE && (status = b_copy(&session)) != B_DONE)
        expect("where a copy is refused, none is there", b_swap(&session, 0), B_REFUSED);
    if (status == B_DONE)
        status = b_copy(&session);
    if (status == B_DONE)
        status = b_swap(&session, 0);
    if (status == B_DONE)
        status = b_forget(&session, 1);
    if (session.run != 0 && b_word(&session, 60000, &word) == B_DONE && status == B_DONE)
        expect("the word of a copy", word, 7);
    expect("a status", status == B_DONE || status == B_NO_MEMORY, 1);
    b_free(&session);
    return status == B_DONE;
}

static void try_refused(void) {
    long calls = 0, before = blocks;
    do {
        until = calls++;
        int done = try_all();
        long left = until;
        until = -1;
        expect("blocks after one that was refused", blocks, before);
        if (done || left >= 0) {
            expect("all done", done && left >= 0, 1);
            break;
        }
    } while (calls < 100000);
    expect("calls for memory", calls > 20, 1);
}

struct own {
    const char *input;
    char output[16];
    size_t written;
    int asked, most;
};

static size_t read_some(void *own, uint8_t *room, size_t size) {
    struct own *it = own;
    size_t len = strlen(it->input) < 2 ? strlen(it->input) : 2;
    (void)size;
    memcpy(room, it->input, len);
    it->input += len;
    return len;
}

static void write_some(void *own, const uint8_t *bytes, size_t size) {
    struct own *it = own;
    memcpy(it->output + it->written, bytes, size);
    it->written += size;
}

static int goes_for(void *own) {
    struct own *it = own;
    return it->asked++ < it->most;
}

/* Talks in slices of each kind: of all steps, of one, and of some; and with an end of the steps, and a stop. */
static void try_talks(void) {
    static const struct {
        uint64_t steps, slice;
        size_t limit;
        int most;
        uint8_t status;
    } rows[] = {
        {100000, 0, SIZE_MAX, 1000, B_DONE}, {100000, 1, SIZE_MAX, 1000, B_DONE}, {100000, 3, SIZE_MAX, 1000, B_DONE},
        {100000, 0, 0, 1000, B_DONE},        {100000, 1, 0, 1000, B_DONE},        {100000, 100001, 1, 1000, B_DONE},
        {0, 0, SIZE_MAX, 1000, B_LIMIT},     {5, 0, SIZE_MAX, 1000, B_LIMIT},     {100000, 0, SIZE_MAX, 0, B_LIMIT},
        {100000, 2, SIZE_MAX, 3, B_LIMIT},
    };
    for (size_t i = 0; i < sizeof rows / sizeof *rows; i++) {
        struct b_session session = B_NO_SESSION;
        struct own own = {"HAL9", "", 0, 0, rows[i].most};
        struct b_talk talk = {read_some, write_some, goes_for, &own};
        uint8_t value;
        expect("a program", load(next, &session), B_DONE);
        expect("a run", b_start(&session, (const uint8_t *)"", 0), B_DONE);
        expect("a limit", b_limit(&session, SIZE_MAX, 256, rows[i].limit), B_DONE);
        expect("a talk", b_talk_on(&session, &talk, rows[i].steps, rows[i].slice, &value), rows[i].status);
        if (rows[i].status == B_DONE) {
            expect("its status", value, 4);
            expect("what it wrote", own.written == 4 && memcmp(own.output, "IBM:", 4) == 0, 1);
        }
        b_free(&session);
    }
}

static void *in_thread(void *own) {
    for (int i = 0; i < 200; i++)
        try_run(i % 8);
    return own;
}

static double seconds(uint64_t slice, uint64_t steps) {
    struct b_session session = B_NO_SESSION;
    struct timespec from, to;
    uint8_t value;
    load(loop, &session);
    b_start(&session, (const uint8_t *)"", 0);
    clock_gettime(CLOCK_MONOTONIC, &from);
    for (uint64_t made = 0; made < steps; made += slice)
        b_continue(&session, slice, &value);
    clock_gettime(CLOCK_MONOTONIC, &to);
    b_free(&session);
    return (to.tv_sec - from.tv_sec) + (to.tv_nsec - from.tv_nsec) / 1e9;
}

int main(int argc, char **argv) {
    long sessions = argc > 1 ? atol(argv[1]) : 1000;
    pthread_t threads[4];
    for (size_t size = 0; size < 8; size++)
        try_run(size);
    try_names();
    try_symbols();
    try_lines();
    try_authors();
    try_limits();
    try_starts();
    try_unready();
    try_stops();
    try_others();
    try_copies();
    try_talks();
    try_refused();
    size_t before = mallinfo2().uordblks;
    for (long i = 0; i < sessions; i++) {
        struct b_session session = B_NO_SESSION;
        load(i % 2 == 0 ? "main() { }" : "main() {", &session);
        b_start(&session, (const uint8_t *)"", 0);
        b_free(&session);
    }
    expect("memory after many sessions", mallinfo2().uordblks, before);
    for (int i = 0; i < 4; i++)
        pthread_create(&threads[i], 0, in_thread, 0);
    for (int i = 0; i < 4; i++)
        pthread_join(threads[i], 0);
    if (argc > 2) {
        double whole = seconds(100000000, 100000000), cut = seconds(1000, 100000000);
        printf("100000000 steps: %.3f s in one slice, %.3f s in slices of 1000: %.2f\n", whole, cut, cut / whole);
    }
    puts(wrong ? "sessions: wrong" : "sessions: all as it should be");
    return wrong;
}
