/* The heap of mesh.wasm, in the place of a C library's: blocks by classes of size, free ones on the list of their
 * class, and memory that grows. Each block begins at a multiple of 16, behind 16 bytes that hold its class. Where memory
 * can't grow, and where a greater alignment is asked for, the answer is that there is none. Nothing here is proved. */
typedef unsigned long size; /* 64 bits */

enum { HEAD = 16, PAGE = 65536, LEAST_GROWTH = 16, SMALL = 128 };
static const size MOST = 1ul << 40;

struct answer {
    size is_there;
    void *block;
};

extern unsigned char __heap_base;
static size top, end;
static void *spare[256];

/* Up to SMALL bytes a class for every 16, and above four for every doubling. */
static size class_of(size bytes) {
    if (bytes <= SMALL) return (bytes + 15) / 16;
    size k = 63 - __builtin_clzl(bytes - 1);
    return 9 + 4 * (k - 7) + ((bytes - 1 - (1ul << k)) >> (k - 2));
}

static size bytes_of(size class) {
    if (class <= SMALL / 16) return 16 * class;
    size k = 7 + (class - 9) / 4;
    return (1ul << k) + (((class - 9) % 4 + 1) << (k - 2));
}

static int grows(size pages) { return __builtin_wasm_memory_grow(0, pages) != (size)-1; }

/* The next so many bytes that no block has had, or 0. */
static size fresh(size bytes) {
    if (!top) top = ((size)&__heap_base + 15) & ~15ul, end = __builtin_wasm_memory_size(0) * PAGE;
    if (top + bytes > end) {
        size pages = (top + bytes - end + PAGE - 1) / PAGE;
        if (!(pages < LEAST_GROWTH && grows(LEAST_GROWTH)) && !grows(pages)) return 0;
        end = __builtin_wasm_memory_size(0) * PAGE;
    }
    top += bytes;
    return top - bytes;
}

static size *head_of(void *block) { return (size *)((char *)block - HEAD); }

static void *take(size bytes) {
    if (bytes > MOST) return 0;
    size class = class_of(bytes + HEAD);
    void *block = spare[class];
    if (block) {
        spare[class] = *(void **)block;
        return block;
    }
    size at = fresh(bytes_of(class));
    if (!at) return 0;
    block = (char *)at + HEAD;
    *head_of(block) = class;
    return block;
}

/* What the toolchain's code calls. A block of no bytes has an address too. */
void rattle_dealloc(void *block) {
    size class = *head_of(block);
    *(void **)block = spare[class];
    spare[class] = block;
}

struct answer rattle_alloc(size bytes, size align) {
    void *block = align > 16 ? 0 : take(bytes ? bytes : 16);
    return (struct answer){block != 0, block ? block : (void *)align};
}

struct answer rattle_realloc(void *block, size old, size bytes, size align) {
    if (bytes + HEAD <= bytes_of(*head_of(block))) return (struct answer){1, block};
    struct answer moved = rattle_alloc(bytes, align);
    if (moved.is_there) {
        __builtin_memcpy(moved.block, block, old < bytes ? old : bytes);
        rattle_dealloc(block);
    }
    return moved;
}

/* What the page calls: memory for a schedule and for its text, or 0. */
void *page_alloc(size bytes) { return take(bytes ? bytes : 16); }
void page_free(void *block) { rattle_dealloc(block); }

/* What the compiler calls. */
void *memcpy(void *to, const void *from, size count) { return __builtin_memcpy(to, from, count); }
void *memmove(void *to, const void *from, size count) { return __builtin_memmove(to, from, count); }
void *memset(void *to, int byte, size count) { return __builtin_memset(to, byte, count); }

int memcmp(const void *one, const void *other, size count) {
    const unsigned char *a = one, *b = other;
    for (; count; count--, a++, b++)
        if (*a != *b) return *a - *b;
    return 0;
}
