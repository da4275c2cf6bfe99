/* Tries the calls of the library: worked rows, rooms that are too small, memory that is refused, and many calls.
 * VERSION is that of the program `b`. An argument is the number of calls after which memory has to be as it was. It is
 * linked with --wrap=malloc and --wrap=realloc. */
#include "b.h"

#include <malloc.h>
#include <pthread.h>
#include <stdio.h>
#include <stdlib.h>
#include <string.h>

static uint8_t out[1 << 18], line[256];
static struct b_written written;
static int wrong, calls = 100000;

static void expect(const char *what, int status, int wanted, const char *text, const char *told) {
    if (status == wanted && written.out == strlen(text) && memcmp(out, text, written.out) == 0 &&
        written.line == strlen(told) && memcmp(line, told, written.line) == 0)
        return;
    printf("%s: status %d, wrote `%.*s` and `%.*s`\n", what, status, (int)written.out, (char *)out, (int)written.line,
           (char *)line);
    wrong = 1;
}

static int go(const char *source, const char *input, int edition, uint64_t steps, size_t room, size_t line_room) {
    return b_go((const uint8_t *)source, strlen(source), (const uint8_t *)input, strlen(input), edition, steps, out,
                room, line, line_room, &written);
}

static int compile(const char *source, int edition, size_t room, size_t line_room) {
    return b_compile((const uint8_t *)source, strlen(source), edition, out, room, line, line_room, &written);
}

static int run(const char *code, const char *input, uint64_t steps, size_t room, size_t line_room) {
    return b_run((const uint8_t *)code, strlen(code), (const uint8_t *)input, strlen(input), steps, out, room, line,
                 line_room, &written);
}

static int check(const char *source, size_t room) {
    return b_check((const uint8_t *)source, strlen(source), 1, out, room, &written);
}

static int format(const char *source, size_t room, size_t line_room) {
    return b_format((const uint8_t *)source, strlen(source), 1, out, room, line, line_room, &written);
}

/* Where a code text went wrong. */
static void try_where(void) {
    const char *code = "F main 0 0 0 0 8\nx putchar\nv\nc 97\nk 1\np\nc 1\nc 0\nb /\nE\n";
    int status = b_run_where((const uint8_t *)code, strlen(code), (const uint8_t *)"", 0, 100, out, sizeof out, line,
                             sizeof line, &written);
    expect("where a trap came", status, 130, "a",
           "trap dz\nat     in main     place    7  line    9  step 8\n    b /\n"
           "  means: the right operand of / or % is 0\n");
}

/* What is asked of a source, and of the library. */
static void try_asking(void) {
    const char *faulty = "main() { return(x); }", *wide = "main(){return(1);}";
    const char *start = "{\"file\":\"-\",\"line\":1,\"column\":17,\"severity\":\"error\",\"code\":\"un\"";
    expect("nothing to find", check("main() { return(1); }", sizeof out), 0, "", "");
    expect("findings without a room", check(faulty, 0), 133, "", "");
    if (check(faulty, sizeof out) != 1 || written.out < strlen(start) || memcmp(out, start, strlen(start)) != 0) {
        puts("a finding: not the object that was expected");
        wrong = 1;
    }
    expect("a layout", format(wide, sizeof out, 0), 0, "main() {\n    return(1);\n}\n", "");
    expect("a layout that doesn't fit", format(wide, 4, 0), 133, "main", "");
    expect("no layout", format("main() { 'abc'; }", sizeof out, sizeof line), 1, "", "ct 1\n");
    expect("the version", b_version(out, sizeof out, &written), 0, VERSION, "");
    expect("a version that doesn't fit", b_version(out, 1, &written), 133, "1", "");
}

/* A source and the files that follow it: its second line is that of the first file. */
static const char *caller = "main() { printn(six() * seven(), 10); }";
static const struct b_file files[] = {
    {(const uint8_t *)"six.b", 5, (const uint8_t *)"six() { return(6); }", 20},
    {(const uint8_t *)"seven.b", 7, (const uint8_t *)"seven() { return(x); }", 22},
    {(const uint8_t *)"seven.b", 7, (const uint8_t *)"seven() { return(7); }", 22},
    {(const uint8_t *)"\xff", 1, (const uint8_t *)"", 0},
};

static int go_with(size_t first, size_t count, uint64_t steps) {
    return b_go_with((const uint8_t *)caller, strlen(caller), files + first, count, (const uint8_t *)"", 0, 1, steps,
                     out, sizeof out, line, sizeof line, &written);
}

static int check_with(const struct b_file *of, size_t count) {
    return b_check_with((const uint8_t *)caller, strlen(caller), of, count, 1, out, sizeof out, &written);
}

static void expect_start(const char *what, int status, int wanted, const char *start) {
    if (status == wanted && written.out >= strlen(start) && memcmp(out, start, strlen(start)) == 0)
        return;
    printf("%s: status %d, and not the beginning that was expected\n", what, status);
    wrong = 1;
}

/* A source with the files that follow it. */
static void try_files(void) {
    const struct b_file whole[] = {files[0], files[2]}, faulty[] = {files[0], files[1]};
    const uint8_t *source = (const uint8_t *)caller, *input = (const uint8_t *)"";
    size_t size = strlen(caller);
    int status = b_go_with(source, size, whole, 2, input, 0, 1, 1000, out, sizeof out, line, sizeof line, &written);
    expect("files", status, 0, "42", "");
    expect("a file that lacks", go_with(0, 1, 1000), 132, "", "load 3\n");
    expect("no files", go_with(0, 0, 1000), 132, "", "load 3\n");
    expect("a fault in a file", go_with(0, 2, 1000), 1, "", "un x 3\n");
    expect("a name that isn't UTF-8", go_with(2, 2, 1000), 135, "", "");
    written.line = 0;
    expect_start("a finding in a file", check_with(faulty, 2), 1,
                 "{\"file\":\"seven.b\",\"line\":1,\"column\":18,\"severity\":\"error\",\"code\":\"un\"");
    expect("nothing to find in files", check_with(whole, 2), 0, "", "");
    expect("a check of a name that isn't UTF-8", check_with(files + 3, 1), 135, "", "");
    status = b_compile_with(source, size, whole, 2, 2, out, sizeof out, line, sizeof line, &written);
    expect_start("the code of files", status, 0, "B 2\nF main ");
    status = b_list(source, size, whole, 2, 1, out, sizeof out, line, sizeof line, &written);
    expect_start("a listing", status, 0, " place  line  code          source");
    status = b_map(source, size, whole, 2, 1, out, sizeof out, line, sizeof line, &written);
    expect_start("a layout in memory", status, 0, "  word  name      kind      words  values\n");
    status = b_trace(source, size, whole, 2, input, 0, 1, 1000, 1, 0, out, sizeof out, line, sizeof line, &written);
    expect_start("a trace", status, 0, "    step  function place  line  code         operands, signed\n");
    status = b_count(source, size, faulty, 2, input, 0, 1, 1000, 0, out, sizeof out, line, sizeof line, &written);
    expect("counts of a fault", status, 1, "", "un x 3\nat     line 1 of seven.b\n");
    status = b_show(source, size, whole, 2, input, 0, 1, 1000, 1, 0, out, sizeof out, line, sizeof line, &written);
    expect_start("a page", status, 0, "<!doctype html>");
    status = b_show(source, size, whole, 2, input, 0, 4, 1000, 1, 0, out, sizeof out, line, sizeof line, &written);
    expect("a page of no edition", status, 135, "", "");
}

void *__real_malloc(size_t size);
void *__real_realloc(void *old, size_t size);

/* How many growths of memory come before the one that is refused; none is where this is below 0. */
static _Thread_local long until = -1;

static int is_refused(void) { return until >= 0 && until-- == 0; }

void *__wrap_malloc(size_t size) { return is_refused() ? NULL : __real_malloc(size); }

void *__wrap_realloc(void *old, size_t size) { return is_refused() ? NULL : __real_realloc(old, size); }

/* A call of each kind, all of which take memory. */
static const char *program =
    "n 1; main() { extrn n; auto v 2; v[n] = getchar(); putchar(v[n]); f(v); } f(v) { v[0] = 1/0; }";
static const char *text = "X n 0 0\nF main 0 0 0 0 8\nx putchar\nv\nc 97\nk 1\np\nc 1\nc 0\nb /\nE\n";

static size_t room = sizeof out, line_room = sizeof line;

/* The same for those with files. */
static int call_with(int kind) {
    const uint8_t *source = (const uint8_t *)program, *input = (const uint8_t *)"x";
    size_t size = strlen(program);
    const struct b_file *one = files + 2;
    switch (kind) {
    case 0: return b_compile_with(source, size, one, 1, 1, out, room, line, line_room, &written);
    case 1: return b_go_with(source, size, one, 1, input, 1, 1, 100, out, room, line, line_room, &written);
    case 2: return b_check_with(source, size, files + 1, 1, 1, out, room, &written);
    case 3: return b_list(source, size, one, 1, 1, out, room, line, line_room, &written);
    case 4: return b_map(source, size, one, 1, 1, out, room, line, line_room, &written);
    case 5: return b_trace(source, size, one, 1, input, 1, 1, 100, 1, 0, out, room, line, line_room, &written);
    case 6: return b_trace(source, size, one, 1, input, 1, 1, 100, 1, 5, out, room, line, line_room, &written);
    case 7: return b_count(source, size, one, 1, input, 1, 1, 100, 0, out, room, line, line_room, &written);
    case 8: return b_count(source, size, one, 1, input, 1, 1, 100, 1, out, room, line, line_room, &written);
    case 9: return b_show(source, size, one, 1, input, 1, 1, 100, 1, 0, out, room, line, line_room, &written);
    default: return -1;
    }
}

static int call(int kind) {
    const uint8_t *bytes = (const uint8_t *)text, *input = (const uint8_t *)"x";
    switch (kind) {
    case 0: return compile(program, 1, room, line_room);
    case 1: return compile("a; b; a;", 2, room, line_room);
    case 2: return go(program, "x", 2, 100, room, line_room);
    case 3: return run(text, "", 100, room, line_room);
    case 4: return b_run_where(bytes, strlen(text), input, 1, 100, out, room, line, line_room, &written);
    case 5: return b_migrate(bytes, strlen(text), out, room, line, line_room, &written);
    case 6: written.line = 0; return check("main() { return(x); }", room);
    case 7: return format(program, room, line_room);
    default: return call_with(kind - 8);
    }
}

/* Each call with smaller rooms than it needs: of each size up to 300, and of some above that. What fits is written, and
 * the status says that not all did. */
static void try_rooms(int kind) {
    static uint8_t all[sizeof out], all_line[sizeof line];
    room = sizeof out, line_room = sizeof line;
    call(kind);
    struct b_written needed = written;
    memcpy(all, out, sizeof out);
    memcpy(all_line, line, sizeof line);
    for (size_t size = 0; size < needed.out; size += size < 300 ? 1 : 1009) {
        room = size;
        int status = call(kind);
        if (status != B_FAILED || written.out != size || memcmp(out, all, size) != 0) {
            printf("call %d into %zu bytes: status %d, wrote %zu\n", kind, size, status, written.out);
            wrong = 1;
        }
    }
    room = needed.out;
    for (size_t size = 0; size < needed.line; size++) {
        line_room = size;
        int status = call(kind);
        if (status != B_FAILED || written.line != size || memcmp(line, all_line, size) != 0) {
            printf("call %d with %zu bytes for the line: status %d, wrote %zu\n", kind, size, status, written.line);
            wrong = 1;
        }
    }
    line_room = needed.line;
    call(kind);
    if (written.out != needed.out || written.line != needed.line) {
        printf("call %d: not the same in rooms that just fit\n", kind);
        wrong = 1;
    }
    room = sizeof out, line_room = sizeof line;
}

/* A pointer that is null, with length 0, is answered as an empty text. */
static void try_null(void) {
    expect("a source that is null", b_compile(NULL, 0, 1, out, sizeof out, line, sizeof line, &written), 0, "E\n", "");
    expect("all null", b_go(NULL, 0, NULL, 0, 1, 100, NULL, 0, NULL, 0, &written), 133, "", "");
    expect("a code text that is null", b_run(NULL, 0, NULL, 0, 100, NULL, 0, line, sizeof line, &written), 132, "",
           "code 1\n");
    const char *faulty = "main() { return(x); }";
    expect("a room that is null", b_check((const uint8_t *)faulty, strlen(faulty), 1, NULL, 0, &written), 133, "", "");
    expect("files that are null", b_list(NULL, 0, NULL, 0, 1, out, sizeof out, NULL, 0, &written), 133, "", "");
    const struct b_file empty = {NULL, 0, NULL, 0};
    expect("a file that is null", b_compile_with(NULL, 0, &empty, 1, 1, out, sizeof out, NULL, 0, &written), 0, "E\n",
           "");
}

/* Each growth of memory in a call is refused in turn, up to the first that it doesn't have: it answers as before, or
 * that memory is refused, with a beginning of what it wrote before. */
static void try_refusals(int kind) {
    static uint8_t all[sizeof out], all_line[sizeof line];
    int whole = call(kind), refused = 0;
    struct b_written before = written;
    memcpy(all, out, sizeof out);
    memcpy(all_line, line, sizeof line);
    for (long n = 0; n < 10000; n++) {
        until = n;
        int status = call(kind), is_met = until < 0;
        until = -1;
        int begins = written.out <= before.out && memcmp(out, all, written.out) == 0 && written.line <= before.line &&
                     memcmp(line, all_line, written.line) == 0;
        int is_same = status == whole && written.out == before.out && written.line == before.line;
        if (begins && is_same && !is_met) break;
        if (!begins || !(is_same || (is_met && status == B_NO_MEMORY))) {
            printf("growth %ld of call %d: status %d, wrote %d bytes and a line of %d\n", n + 1, kind, status,
                   (int)written.out, (int)written.line);
            wrong = 1;
        }
        refused += status == B_NO_MEMORY;
    }
    if (refused == 0) {
        printf("call %d: no growth was refused\n", kind);
        wrong = 1;
    }
}

/* What a room holds after what was written stays as it was. */
static void try_rests(void) {
    for (int kind = 0; call(kind) >= 0; kind++) {
        memset(out, 0xee, sizeof out);
        memset(line, 0xee, sizeof line);
        call(kind);
        for (size_t at = written.out; at < sizeof out; at++)
            wrong |= out[at] != 0xee;
        for (size_t at = written.line; at < sizeof line; at++)
            wrong |= line[at] != 0xee;
        if (wrong)
            printf("call %d: what a room held after what was written, or something before, isn't as it was\n", kind);
    }
}

/* Many calls in a thread, with rooms of its own: it gives its argument back where one was answered otherwise. */
static void *call_often(void *name) {
    const char *source = "main() { auto i; i = 0; while(i < 50) { printn(i, 10); i =+ 1; } }";
    uint8_t own[128], own_line[16];
    struct b_written so_much;
    for (int i = 0; i < calls / 50; i++)
        if (b_go((const uint8_t *)source, strlen(source), (const uint8_t *)"", 0, 1, 1000000, own, sizeof own, own_line,
                 sizeof own_line, &so_much) != 0 ||
            so_much.out != 90 || memcmp(own + 86, "4849", 4) != 0)
            return name;
    return NULL;
}

static void try_threads(void) {
    pthread_t threads[4];
    void *failed;
    for (int i = 0; i < 4; i++)
        if (pthread_create(&threads[i], NULL, call_often, out) != 0)
            wrong = 1;
    for (int i = 0; i < 4; i++)
        if (pthread_join(threads[i], &failed) != 0 || failed) {
            puts("four threads at once: a call was answered otherwise");
            wrong = 1;
        }
}

/* Each kind of answer, and rooms that are large enough, that just fit and that are too small. */
static void try_answers(const char *answer, const char *echo) {
    expect("a number", go(answer, "", 1, 1000000, sizeof out, sizeof line), 0, "42", "");
    expect("an input", go(echo, "some text", 1, 1000000, sizeof out, sizeof line), 3, "some text", "");
    expect("a fault", go("main() { return(x); }", "", 1, 1000000, sizeof out, sizeof line), 1, "", "un x 1\n");
    expect("a trap", go("main() { printn(1/0, 10); }", "", 1, 1000000, sizeof out, sizeof line), 130, "", "trap dz\n");
    expect("the limit", go("main() { while(1); }", "", 1, 1000, sizeof out, sizeof line), 131, "", "limit\n");
    expect("no edition", go(answer, "", 3, 1000, sizeof out, sizeof line), 135, "", "");
    expect("a room too small", go(answer, "", 1, 1000000, 1, sizeof line), 133, "4", "");
    expect("no room", go(answer, "", 1, 1000000, 0, 0), 133, "", "");
    expect("a room that fits", go(answer, "", 1, 1000000, 2, 0), 0, "42", "");
    expect("a room too small for the line", go("main() { return(x); }", "", 1, 1000000, 0, 4), 133, "", "un x");
    expect("no code text", run("F", "", 1000, sizeof out, sizeof line), 132, "", "code 1\n");
}

/* A source is compiled into a room of each size up to that of its code. */
static void try_code(const char *echo) {
    char code[sizeof out];
    int status = compile(echo, 1, sizeof out, sizeof line);
    memcpy(code, out, written.out);
    code[written.out] = 0;
    size_t size = written.out;
    expect("its code", run(code, "some text", 1000000, sizeof out, sizeof line), 3, "some text", "");
    if (status != 0 || compile(echo, 1, size, 0) != 0 || memcmp(out, code, size) != 0) {
        puts("compiling: not the same code in a room that fits");
        wrong = 1;
    }
    for (size_t room = 0; room < size; room++)
        if (compile(echo, 1, room, 0) != 133 || written.out != room || memcmp(out, code, room) != 0) {
            printf("compiling into %zu bytes: not the beginning of the code\n", room);
            wrong = 1;
            break;
        }
}

/* After many calls as much memory is taken as before. */
static void try_memory(const char *answer) {
    for (int i = 0; i < 1000; i++)
        go(answer, "", 1, 1000000, sizeof out, sizeof line);
    size_t before = mallinfo2().uordblks;
    for (int i = 0; i < calls; i++)
        go(answer, "", 1, 1000000, sizeof out, sizeof line);
    if (mallinfo2().uordblks != before) {
        printf("%d calls: memory isn't as it was\n", calls);
        wrong = 1;
    }
}

int main(int count, char **words) {
    if (count > 1)
        calls = atoi(words[1]);
    const char *answer = "main() { printn(6*7, 10); }";
    const char *echo = "main() { auto c; while((c = getchar()) != '*e') putchar(c); exit(3); }";
    try_answers(answer, echo);
    try_code(echo);
    try_memory(answer);
    for (int kind = 0; call(kind) >= 0; kind++)
        try_refusals(kind);
    for (int kind = 0; call(kind) >= 0; kind++)
        try_rooms(kind);
    try_rests();
    try_null();
    try_where();
    try_asking();
    try_files();
    try_threads();
    return wrong;
}
