/* Tries b_host.h: calls of the host and by it, texts, the input, and what isn't there. tools/library builds and runs it
 * with the path of lib/host.b. */
#include "b_host.h"
#include <stdio.h>
#include <stdlib.h>

static int failures, tried;

static void expect(const char *what, long found, long wanted) {
    tried++;
    if (found == wanted)
        return;
    failures++;
    printf("try_host: %s: %ld, and not %ld\n", what, found, wanted);
}

/* What is read of the input, what was written, and how often a function has failed. */
struct own {
    const char *input;
    char output[200];
    size_t written;
    int failed;
    uint8_t value;
};

static size_t read_some(void *own, uint8_t *room, size_t size) {
    struct own *o = own;
    size_t count = strlen(o->input);
    count = count < size ? count : size;
    memcpy(room, o->input, count);
    o->input += count;
    return count;
}

static void write_some(void *own, const uint8_t *bytes, size_t size) {
    struct own *o = own;
    memcpy(o->output + o->written, bytes, size);
    o->written += size;
}

static const struct b_server *serving;

static int add(void *own, struct b_session *session, const int16_t words[5], int16_t *answer) {
    (void)own;
    (void)session;
    *answer = (int16_t)(words[0] + words[1] + words[2] + words[3] + words[4]);
    return 0;
}

/* Puts the text at the first address into capitals, at the second one. */
static int capitals(void *own, struct b_session *session, const int16_t words[5], int16_t *answer) {
    char text[50], *at;
    (void)own;
    if (b_text(session, (uint16_t)words[0], text, sizeof text) != B_DONE)
        return 7;
    for (at = text; *at != 0; at++)
        if (*at >= 'a' && *at <= 'z')
            *at = (char)(*at - 32);
    *answer = (int16_t)strlen(text);
    return b_set_text(session, (uint16_t)words[1], text);
}

static int up(void *own, struct b_session *session, const int16_t words[5], int16_t *answer) {
    int16_t given[5] = {words[0]};
    uint8_t value;
    int told = b_call(session, serving, "down", given, answer, &value);
    (void)own;
    *answer = (int16_t)(2 * *answer);
    return told == B_SERVES ? 0 : told;
}

static int sometimes(void *own, struct b_session *session, const int16_t words[5], int16_t *answer) {
    struct own *o = own;
    (void)session;
    *answer = (int16_t)(words[0] + 1);
    return ++o->failed < 3 ? 200 : 0;
}

/* Makes more steps than those who called it may. */
static int takes_long(void *own, struct b_session *session, const int16_t words[5], int16_t *answer) {
    struct b_server other = *serving;
    int16_t given[5] = {1000};
    uint8_t value;
    (void)own;
    (void)words;
    other.steps = 1000000;
    return b_call(session, &other, "some", given, answer, &value);
}

static const struct b_service services[] = {
    {"add", add}, {"capitals", capitals}, {"up", up}, {"sometimes", sometimes}, {"long", takes_long}};

static int down(int n) {
    return n < 1 ? 0 : 2 * down(n - 1) + n;
}

static char *contents(const char *path) {
    FILE *file = fopen(path, "rb");
    char *text = calloc(1, 20000);
    if (file == 0 || text == 0 || fread(text, 1, 19999, file) == 0)
        exit(2);
    fclose(file);
    return text;
}

/* Ends by `raise`, in a file after the source, and by something else. */
static void raises(void) {
    static const char after[] = "at(i)\nraise(\"no index\", i);\nraise(text, status)\nexit(status);";
    static const struct {
        const char *source;
        uint8_t told, value;
        const char *text;
        long line;
    } rows[] = {
        {"main() {\n  at(3);\n}", B_DONE, 3, "no inde", 2},
        {"main() raise(\"\", 9);", B_DONE, 9, "", 1},
        {"main() exit(4);", B_REFUSED, 4, "?", -1},
        {"at2() ;", B_DONE, 5, "no inde", 0},
    };
    size_t row;
    for (row = 0; row < 4; row++) {
        const char *more = row == 3 ? "main()\nat(5);" : "none() ;";
        struct b_file files[2] = {{(const uint8_t *)"at.b", 4, (const uint8_t *)after, sizeof after - 1},
                                  {(const uint8_t *)"m.b", 3, (const uint8_t *)more, strlen(more)}};
        struct b_session session = B_NO_SESSION;
        struct b_written written;
        struct b_frame caller = {0, 0, 0, 0, 0, 0};
        char room[8] = "?";
        uint8_t line[100], value = 0;
        const char *source = rows[row].source;
        expect("load with files", b_load_with((const uint8_t *)source, strlen(source), files, 2, 1, line, sizeof line,
                                              &written, &session), B_DONE);
        expect("start it", b_start(&session, 0, 0), B_DONE);
        expect("halts", b_continue(&session, 10000, &value), B_DONE);
        expect("its status", value, rows[row].value);
        expect("raised", b_raised(&session, row == 0 ? 3 : 1, room, sizeof room, &caller), rows[row].told);
        expect("its text", strcmp(room, rows[row].text), 0);
        expect("its caller", rows[row].line < 0 ? -1 : (long)caller.line, rows[row].line);
        b_free(&session);
    }
}

int main(int count, char **words) {
    char *library = contents(count > 1 ? words[1] : "lib/host.b");
    char source[20000], line[200];
    struct b_session session = B_NO_SESSION;
    struct own own = {"HAL", {0}, 0, 0, 0};
    struct b_talk talk = {read_some, write_some, 0, &own};
    struct b_server server = {services, 5, &talk, &own, 10000000};
    struct b_written written;
    int16_t given[5] = {0}, answer = 0;
    int n;
    serving = &server;
    snprintf(source, sizeof source, "%s\n%s",
             "down(n) return(n < 1 ? 0 : host(\"up\", n - 1) + n);\n"
             "ends(n) exit(n);\n"
             "twice() { host(\"long\"); host(\"long\"); while(1) ; }\n"
             "some(n) while(n--) ;\n"
             "none() return(host(\"sometimes\", 6) + 1);\n"
             "sub() serve();\n"
             "main() { auto v 20, c;\n"
             "while((c = getchar()) != '*e') putchar(host(\"add\", c, 1, -2, 2));\n"
             "printn(host(\"capitals\", \"odd\", v), 10); putchar(char(v, 2));\n"
             "printn(host(\"capitals\", \"even\", v), 10); putchar(char(v, 3)); putchar(char(v, 4));\n"
             "printn(host(\"sometimes\", 41), 10); serve(); host(\"none\"); }",
             library);
    n = b_load_with((const uint8_t *)source, strlen(source), 0, 0, 1, (uint8_t *)line, sizeof line, &written, &session);
    expect("load", n, B_DONE);
    expect("start", b_start(&session, 0, 0), B_DONE);
    expect("no wait", b_call(&session, &server, "down", given, &answer, &own.value), B_NO_HOST);
    expect("fails", b_serve(&session, &server, &own.value), 200);
    expect("fails again", b_serve(&session, &server, &own.value), 200);
    expect("serves", b_serve(&session, &server, &own.value), B_SERVES);
    expect("output", own.written == 10 && memcmp(own.output, "IBM3D4N\00442", 10) == 0, 1);
    for (n = 0; n < 8; n++) {
        given[0] = (int16_t)n;
        expect("a call", b_call(&session, &server, "down", given, &answer, &own.value), B_SERVES);
        expect("its value", answer, down(n));
    }
    expect("no such function", b_call(&session, &server, "up", given, &answer, &own.value), B_UNKNOWN);
    own.failed = 2 - 1;
    expect("fails in a call", b_call(&session, &server, "none", given, &answer, &own.value), 200);
    given[0] = 3;
    expect("a call before it goes on", b_call(&session, &server, "down", given, &answer, &own.value), B_SERVES);
    expect("its value", answer, down(3));
    expect("goes on", b_serve(&session, &server, &own.value), B_SERVES);
    expect("asked once more", own.failed, 3);
    expect("waits within a call", b_call(&session, &server, "sub", given, &answer, &own.value), B_NO_HOST);
    server.steps = 2000;
    expect("a limit", b_call(&session, &server, "twice", given, &answer, &own.value), B_LIMIT);
    b_end(&session);
    expect("start anew", b_start(&session, 0, 0), B_DONE);
    server.steps = 10000000;
    own.failed = 5;
    own.written = 0;
    expect("serves anew", b_serve(&session, &server, &own.value), B_SERVES);
    given[0] = 9;
    expect("an end", b_call(&session, &server, "ends", given, &answer, &own.value), B_DONE);
    b_free(&session);
    expect("load without", b_load((const uint8_t *)"main() ;", 8, 1, &session), B_DONE);
    expect("start without", b_start(&session, 0, 0), B_DONE);
    expect("no host", b_serve(&session, &server, &own.value), B_NO_HOST);
    b_free(&session);
    expect("load another", b_load((const uint8_t *)"hostq[1]; main() ;", 18, 1, &session), B_DONE);
    expect("start another", b_start(&session, 0, 0), B_DONE);
    expect("another vector", b_serve(&session, &server, &own.value), B_NO_HOST);
    b_free(&session);
    raises();
    free(library);
    printf("try_host: %d rows were tried\n", tried);
    return failures > 0;
}
