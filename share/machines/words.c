/* The words of a command line, where no script reads them first: for a name of the library after --with the path of
 * its file comes, in the folder `lib` beside the program, and for the FILE `-` of a command that runs no source comes
 * standard input. A path, as each word with a slash or a point is one, stays, and so do the values of --made and
 * --lines. */
#include <stdio.h>
#include <stdlib.h>
#include <string.h>
#include <windows.h>
#include "words.h"

static int is_in(const char *word, const char *const *list) {
    for (; *list; list++)
        if (strcmp(word, *list) == 0) return 1;
    return 0;
}

enum { MOST_NAME = 4 * MAX_PATH };

/* The folder of the library, in UTF-8, or null. */
static const char *library(void) {
    static char path[MOST_NAME + sizeof "lib"];
    wchar_t wide[MAX_PATH];
    DWORD length = GetModuleFileNameW(NULL, wide, MAX_PATH);
    if (length == 0 || length == MAX_PATH) return NULL;
    if (!WideCharToMultiByte(CP_UTF8, 0, wide, -1, path, MOST_NAME, NULL, NULL)) return NULL;
    char *end = strrchr(path, '\\');
    if (!end) return NULL;
    strcpy(end + 1, "lib");
    return path;
}

/* Begins a search for the files that a path fits, which may have a star. */
static HANDLE search_for(const char *path, WIN32_FIND_DATAW *found) {
    wchar_t wide[MOST_NAME];
    if (!MultiByteToWideChar(CP_UTF8, 0, path, -1, wide, MOST_NAME)) return INVALID_HANDLE_VALUE;
    return FindFirstFileW(wide, found);
}

/* Tells what the library has, where a name isn't one of it. */
static void tell_names(const char *folder) {
    char pattern[MOST_NAME + 16];
    WIN32_FIND_DATAW found;
    const char *between = "note: the library has ";
    snprintf(pattern, sizeof pattern, "%s\\*.b", folder);
    HANDLE search = search_for(pattern, &found);
    if (search == INVALID_HANDLE_VALUE) return;
    do {
        fprintf(stderr, "%s%.*ls", between, (int)wcslen(found.cFileName) - 2, found.cFileName);
        between = ", ";
    } while (FindNextFileW(search, &found));
    FindClose(search);
    fputs("\n", stderr);
}

/* A word with a path after `begin`, for a name of the library; the word as it is for all else. Null without memory. */
static char *with_path(char *word, size_t begin) {
    const char *folder = library(), *name = word + begin;
    WIN32_FIND_DATAW found;
    if (!folder || !*name || *name == '-' || strpbrk(name, "./\\")) return word;
    size_t size = begin + strlen(folder) + strlen(name) + 4;
    char *made = malloc(size);
    if (!made) return NULL;
    snprintf(made, size, "%.*s%s\\%s.b", (int)begin, word, folder, name);
    HANDLE search = search_for(made + begin, &found);
    if (search == INVALID_HANDLE_VALUE) tell_names(folder);
    else FindClose(search);
    return made;
}

int put_paths(char **words, size_t count) {
    static const char *const with_source[] = {"compile", "go",    "list", "map",    "check",
                                              "trace",   "count", "show", "format", "port", 0};
    static const char *const reads_input[] = {"list", "map", "check", "format", "port", 0};
    static const char *const takes_value[] = {"--with", "--made", "--lines", 0};
    static const char with[] = "--with=";
    const char *value = NULL;
    if (count < 2 || !is_in(words[1], with_source)) return 1;
    for (size_t n = 2; n < count && words[n]; n++) {
        char *word = words[n];
        if (value) {
            if (strcmp(value, "--with") == 0) words[n] = with_path(word, 0);
            value = NULL;
        } else if (strcmp(word, "--") == 0) return 1;
        else if (is_in(word, takes_value)) value = word;
        else if (strncmp(word, with, sizeof with - 1) == 0) words[n] = with_path(word, sizeof with - 1);
        else if (strcmp(word, "-") == 0 && is_in(words[1], reads_input)) words[n] = "/dev/stdin";
        if (!words[n]) return 0;
    }
    return 1;
}
