// What a program in JavaScript asks of the module for sessions beside its calls: places in its memory. tools/web links
// it.
#include "module.h"

struct tried {
    size is_given;
    void *block;
};
struct tried rattle_alloc(size bytes, size alignment);
void rattle_dealloc(void *block);

// A place for so many bytes, or 0 where memory is refused.
unsigned b_take(unsigned bytes) {
    struct tried tried = rattle_alloc(bytes, 1);
    return tried.is_given ? (unsigned)(size)tried.block : 0;
}

void b_give_back(unsigned place) { rattle_dealloc((void *)(size)place); }
