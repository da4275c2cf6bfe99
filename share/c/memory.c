/* How the library asks for memory, as the kit has it for the machine that it runs on itself. malloc aligns all blocks
 * to 16 bytes there. */
#include <stdint.h>
#include <stdlib.h>

struct tried {
    uint64_t is_given;
    void *block; /* never null */
};

static struct tried answer(void *block) {
    static uint64_t nothing[2];
    struct tried tried = {block != NULL, block ? block : nothing};
    return tried;
}

struct tried rattle_alloc(size_t size, size_t alignment) { return answer(malloc(size ? size : alignment)); }

struct tried rattle_realloc(void *block, size_t kept, size_t size, size_t alignment) {
    (void)kept;
    return answer(realloc(block, size ? size : alignment));
}

void rattle_dealloc(void *block) { free(block); }
