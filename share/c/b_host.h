/* Calls between a program in B, with lib/host.b, and the program in C that runs it in a session (callbacks):
 *
 *     static int read_row(void *own, struct b_session *session, const int16_t words[5], int16_t *answer) { .. }
 *     static const struct b_service services[] = {{"next", read_row}};
 *     struct b_server server = {services, 1, &talk, &own, steps};
 *     status = b_serve(&session, &server, &value);
 *
 * The program calls `host("next", v)`, and gets the answer. Where it waits in `serve()`, the status is B_SERVES, and
 * b_call calls a function of it; so does a function of the host while the program waits for that. */
#ifndef B_HOST_H
#define B_HOST_H

#include "b_session.h"
#include <string.h>

#ifdef __cplusplus
extern "C" {
#endif

/* The program waits for a call; it has no lib/host.b, or doesn't wait; or there is no function of that name. */
enum { B_SERVES = 139, B_NO_HOST = 140, B_UNKNOWN = 141 };

/* A function of the host: it gets five words, and leaves its answer. Where it gives other than 0, or than the B_SERVES
 * of a b_call that it made, b_serve ends with that, and the next one calls it anew. */
struct b_service {
    const char *name;
    int (*answers)(void *own, struct b_session *session, const int16_t words[5], int16_t *answer);
};

/* Who answers: its functions, how many they are, where the input comes from and the output goes to, what the functions
 * get as `own`, and how many steps there are at most. */
struct b_server {
    const struct b_service *services;
    size_t count;
    const struct b_talk *talk;
    void *own;
    uint64_t steps;
};

/* What a program says in the first word by which both talk, and where the others are. */
enum { B_HOST_ASKS = 1, B_HOST_WAITS = 2, B_HOST_CALLS = 3, B_HOST_CALLED = 4, B_HOST_ANSWER = 7 };

/* Whether it says one of the first two; after a call it adds B_HOST_CALLED to it. */
static inline int b_host_says(uint16_t state, uint16_t which) {
    return state == which || state == which + B_HOST_CALLED;
}

/* The words by which both talk. */
static inline uint8_t b_host_words(struct b_session *session, uint16_t *queue) {
    struct b_symbol symbol;
    uint8_t status = b_find(session, (const uint8_t *)"hostq", 5, &symbol);
    if (status == B_MISSING || (status == B_DONE && (symbol.kind != B_VECTOR || symbol.words != B_HOST_ANSWER + 2)))
        return B_NO_HOST;
    *queue = (uint16_t)(symbol.address + 1);
    return status;
}

/* Whether the string at an address is this one. */
static inline uint8_t b_is_text(struct b_session *session, uint16_t address, const char *text, int *is) {
    size_t at;
    *is = 0;
    for (at = 0;; at++) {
        uint16_t word;
        uint8_t status = b_word(session, (uint16_t)(address + at / 2), &word);
        uint8_t byte = (uint8_t)(at % 2 == 0 ? word & 255 : word >> 8);
        if (status != B_DONE)
            return status;
        if (byte != (text[at] == 0 ? 4 : (uint8_t)text[at]))
            return B_DONE;
        if (text[at] == 0) {
            *is = 1;
            return B_DONE;
        }
    }
}

/* Copies the string at an address, as much of it as there is room for, with a zero at its end. */
static inline uint8_t b_text(struct b_session *session, uint16_t address, char *room, size_t size) {
    size_t at;
    for (at = 0; at + 1 < size; at++) {
        uint16_t word;
        uint8_t status = b_word(session, (uint16_t)(address + at / 2), &word);
        if (status != B_DONE)
            return status;
        room[at] = (char)(at % 2 == 0 ? word & 255 : word >> 8);
        if (room[at] == 4)
            break;
    }
    if (size > 0)
        room[at] = 0;
    return B_DONE;
}

/* After b_continue has told B_DONE: whether `raise` of lib/raise.b has halted the run. Copies the text that it was
 * given, as b_text does, and tells of the nearest caller with a line up to `lines`, so many as the source itself has; its
 * line is 0 where none has one. B_REFUSED where something else has halted it. */
static inline uint8_t b_raised(struct b_session *session, uint64_t lines, char *room, size_t size,
                               struct b_frame *caller) {
    uint8_t name[9];
    uint16_t text;
    size_t number = 0, count = 0;
    uint8_t status = b_frame(session, 0, caller);
    if (status == B_DONE)
        status = b_name_of(session, caller->function, name, sizeof name, &count);
    if (status == B_FAILED || (status == B_DONE && (count != 5 || memcmp(name, "raise", 5) != 0)))
        return B_REFUSED;
    if (status == B_DONE && caller->parameters == 0)
        return B_REFUSED;
    if (status == B_DONE)
        status = b_word(session, (uint16_t)caller->start, &text);
    if (status == B_DONE)
        status = b_text(session, text, room, size);
    while (status == B_DONE) {
        status = b_frame(session, ++number, caller);
        if (status == B_DONE && caller->line > 0 && caller->line <= lines)
            return B_DONE;
    }
    if (status == B_MISSING)
        status = B_DONE; /* past the last one, which leaves zeros */
    return status;
}

/* Stores a string and its end from an address on. */
static inline uint8_t b_set_text(struct b_session *session, uint16_t address, const char *text) {
    size_t at, size = strlen(text) + 1;
    uint8_t status = B_DONE;
    for (at = 0; status == B_DONE && at < size; at += 2) {
        uint16_t place = (uint16_t)(address + at / 2), word;
        uint8_t low = (uint8_t)(at + 1 == size ? 4 : text[at]);
        status = b_word(session, place, &word);
        if (at + 2 <= size)
            word = (uint16_t)((at + 2 == size ? 4 : (uint8_t)text[at + 1]) << 8);
        if (status == B_DONE)
            status = b_set_word(session, place, (uint16_t)((word & 0xff00) | low));
    }
    return status;
}

/* Stores words from an address on. */
static inline uint8_t b_set_words(struct b_session *session, uint16_t address, const uint16_t *words, size_t count) {
    size_t at;
    uint8_t status = B_DONE;
    for (at = 0; status == B_DONE && at < count; at++)
        status = b_set_word(session, (uint16_t)(address + at), words[at]);
    return status;
}

/* Has a function of the host answer. Otherwise than with B_DONE the program still asks. */
static inline int b_host_answer(struct b_session *session, const struct b_server *server, uint16_t queue) {
    uint16_t asked[B_HOST_ANSWER];
    int16_t words[5], answer = 0;
    size_t at;
    int told = B_UNKNOWN, is = 0;
    for (at = 0; at < B_HOST_ANSWER; at++) {
        uint8_t status = b_word(session, (uint16_t)(queue + at), &asked[at]);
        if (status != B_DONE)
            return status;
    }
    for (at = 0; at < 5; at++)
        words[at] = (int16_t)asked[at + 2];
    for (at = 0; told == B_UNKNOWN && at < server->count; at++) {
        uint8_t status = b_is_text(session, asked[1], server->services[at].name, &is);
        if (status != B_DONE)
            return status;
        if (is)
            told = server->services[at].answers(server->own, session, words, &answer);
    }
    if (told != B_DONE && told != B_SERVES)
        return told;
    told = b_set_word(session, (uint16_t)(queue + B_HOST_ANSWER), (uint16_t)answer);
    return told != B_DONE ? told : b_set_word(session, queue, 0);
}

/* Gives the program a byte of its input, or the character `*e`. */
static inline uint8_t b_host_read(struct b_session *session, const struct b_talk *talk) {
    uint8_t byte = 4;
    if (talk->read == 0 || talk->read(talk->own, &byte, 1) == 0)
        byte = 4;
    return b_feed(session, &byte, 1);
}

/* Runs on up to where the program waits, or where a call of it is over. */
static inline int b_host_on(struct b_session *session, const struct b_server *server, int is_call, uint8_t *value) {
    uint64_t last = 0;
    struct b_place place;
    uint16_t queue = 0, state;
    int told = b_host_words(session, &queue);
    if (told == B_DONE)
        told = b_place(session, &place);
    if (told == B_DONE)
        last = server->steps < UINT64_MAX - place.steps ? place.steps + server->steps : UINT64_MAX;
    while (told == B_DONE) {
        uint8_t status;
        if (server->talk->goes_on != 0 && !server->talk->goes_on(server->talk->own))
            return B_LIMIT;
        told = b_place(session, &place); /* a function of the host may have made steps, too */
        if (told != B_DONE)
            return told;
        status = b_continue(session, place.steps < last ? last - place.steps : 0, value);
        told = b_write_out(session, server->talk);
        if (told != B_DONE || (status != B_WANTS_INPUT && status != B_HAS_OUTPUT))
            return told != B_DONE ? told : status;
        if (status == B_HAS_OUTPUT)
            continue;
        told = b_word(session, queue, &state);
        if (told != B_DONE)
            return told;
        if (b_host_says(state, B_HOST_WAITS) || (is_call && state == B_HOST_ASKS + B_HOST_CALLED))
            return B_SERVES;
        if (!b_host_says(state, B_HOST_ASKS)) {
            told = b_host_read(session, server->talk);
            continue;
        }
        told = b_host_answer(session, server, queue);
        if (told == B_DONE)
            told = b_feed(session, (const uint8_t *)"\n", 1);
    }
    return told;
}

/* Runs on, as b_talk_on does, and answers each call of `host`. The status is B_SERVES where the program waits for a
 * call, B_NO_HOST without lib/host.b, B_UNKNOWN where it asks for a function that isn't there, or what a function gave
 * other than 0. The program gets its input by a byte at a time, and `*e` at its end. */
static inline int b_serve(struct b_session *session, const struct b_server *server, uint8_t *value) {
    return b_host_on(session, server, 0, value);
}

/* Calls a function of a program that waits, with five words, and leaves its value. The status is B_SERVES, since it
 * waits again; B_UNKNOWN where it has no such function; B_NO_HOST where it doesn't wait, or waits in `serve()` within
 * the call; or as b_serve tells how the run has ended in the call. After B_LIMIT, or after what a function gave, the
 * next b_serve goes on with the call, whose value is then lost. */
static inline int b_call(struct b_session *session, const struct b_server *server, const char *name,
                         const int16_t words[5], int16_t *answer, uint8_t *value) {
    struct b_symbol symbol;
    uint16_t queue = 0, state = 0, given[B_HOST_ANSWER], word = 0;
    size_t at;
    int told = b_host_words(session, &queue);
    if (told == B_DONE)
        told = b_word(session, queue, &state);
    if (told == B_DONE && !b_host_says(state, B_HOST_ASKS) && !b_host_says(state, B_HOST_WAITS))
        told = B_NO_HOST;
    if (told == B_DONE)
        told = b_find(session, (const uint8_t *)name, strlen(name), &symbol);
    if (told == B_MISSING || (told == B_DONE && symbol.kind != B_FUNCTION))
        told = B_UNKNOWN;
    if (told == B_DONE)
        told = b_word(session, (uint16_t)symbol.address, &given[1]);
    given[0] = B_HOST_CALLS;
    for (at = 0; at < 5; at++)
        given[at + 2] = (uint16_t)words[at];
    if (told == B_DONE)
        told = b_set_words(session, queue, given, B_HOST_ANSWER);
    if (told == B_DONE)
        told = b_feed(session, (const uint8_t *)"\n", 1);
    if (told == B_DONE)
        told = b_host_on(session, server, 1, value);
    if (told != B_SERVES)
        return told;
    told = b_word(session, queue, &state);
    if (told == B_DONE && state <= B_HOST_CALLED)
        return B_NO_HOST;
    if (told == B_DONE)
        told = b_word(session, (uint16_t)(queue + B_HOST_ANSWER), &word);
    *answer = (int16_t)word;
    return told != B_DONE ? told : B_SERVES;
}

#ifdef __cplusplus
}
#endif
#endif
