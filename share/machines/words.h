/* Puts paths in the place of names in a command line, and answers 0 where there is no memory for them. */
#include <stddef.h>
int put_paths(char **words, size_t count);
