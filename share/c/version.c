/* Writes the version of the library, as the least program that calls it. */
#include "b.h"

#include <stdio.h>

int main(void) {
    uint8_t out[256];
    struct b_written written;
    int status = b_version(out, sizeof out, &written);
    printf("%.*s\n", (int)written.out, (char *)out);
    return status;
}
