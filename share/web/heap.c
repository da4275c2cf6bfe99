// What the program asks for as rattle_alloc, rattle_realloc and rattle_dealloc, over the memory of a WebAssembly
// module. tools/web links it.
//
// A block is of a class, which says its size: 16, 32, 48 and 64 bytes, and from there four classes to a doubling. Each
// class has a list of its free blocks. A new block comes from the end of what was given out, and what the memory lacks
// is asked for. The class of a block stands in the 16 bytes before it, so that each block is aligned to 16.
#include "module.h"

enum { ALIGNMENT = 16, CLASSES = 256, PAGE = 65536, PAGES_AT_ONCE = 64 };

// The most bytes of one block: less than that the whole memory never has.
static const size MOST = 1UL << 32;

struct block {
    struct block *next; // the next free one; in one that is given out the program's own bytes stand here
};

struct tried {
    size is_given;
    void *block; // never null: one that isn't given is this word's own place
};

extern byte __heap_base;
static struct block *free_blocks[CLASSES];
static size end, limit; // the first byte that was never given out, and the first that the memory lacks

static size *class_of_block(void *block) { return (size *)((byte *)block - ALIGNMENT); }

// The class of so many bytes, and how many bytes its blocks have.
static size class_of(size bytes, size *whole) {
    if (bytes <= 64) {
        size class = bytes == 0 ? 0 : (bytes - 1) / ALIGNMENT;
        *whole = (class + 1) * ALIGNMENT;
        return class;
    }
    size power = 63 - (size)__builtin_clzl(bytes - 1); // 2^power < bytes <= 2^(power + 1)
    size step = 1UL << (power - 2);
    size quarter = (bytes - 1 - (1UL << power)) / step;
    *whole = (1UL << power) + (quarter + 1) * step;
    return 4 * (power - 5) + quarter;
}

// Asks for so many pages. A refusal is -1, of which the lowering to addresses of 32 bits may lose the upper half.
static _Bool has_grown(size pages) {
    if ((unsigned)__builtin_wasm_memory_grow(0, pages) == 0xffffffffU) return 0;
    limit += pages * PAGE;
    return 1;
}

// Sees to so many bytes after `end`: some pages more than that, or just as many as it takes.
static _Bool has_room(size bytes) {
    if (limit == 0) {
        end = ((size)&__heap_base + ALIGNMENT - 1) & ~(size)(ALIGNMENT - 1);
        limit = __builtin_wasm_memory_size(0) * PAGE;
    }
    if (bytes <= limit - end) return 1;
    size pages = (bytes - (limit - end) + PAGE - 1) / PAGE;
    return (pages < PAGES_AT_ONCE && has_grown(PAGES_AT_ONCE)) || has_grown(pages);
}

static void *take(size bytes) {
    size whole;
    if (bytes > MOST) return 0;
    size class = class_of(bytes, &whole);
    struct block *block = free_blocks[class];
    if (block) {
        free_blocks[class] = block->next;
        return block;
    }
    if (!has_room(whole + ALIGNMENT)) return 0;
    block = (struct block *)(end + ALIGNMENT);
    end += whole + ALIGNMENT;
    *class_of_block(block) = class;
    return block;
}

static struct tried answer(void *block) {
    static size nothing;
    return (struct tried){block != 0, block ? block : &nothing};
}

struct tried rattle_alloc(size bytes, size alignment) { return answer(take(bytes ? bytes : alignment)); }

void rattle_dealloc(void *given) {
    struct block *block = given;
    size class = *class_of_block(block);
    block->next = free_blocks[class];
    free_blocks[class] = block;
}

struct tried rattle_realloc(void *block, size kept, size bytes, size alignment) {
    size whole, wanted = bytes ? bytes : alignment;
    if (wanted <= MOST && class_of(wanted, &whole) == *class_of_block(block)) return answer(block);
    void *moved = take(wanted);
    if (moved) {
        __builtin_memcpy(moved, block, kept < wanted ? kept : wanted);
        rattle_dealloc(block);
    }
    return answer(moved);
}
