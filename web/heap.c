/* The memory below the module: the three functions that the proved code calls for memory, and what the page calls.

   Memory lies between `base` and `top`. A block has a head of 16 bytes, with its whole size, and begins at a multiple
   of 16. Small blocks have one of few sizes; each size has a list of free ones, and new ones are cut from a chunk. A
   large block is a multiple of 4,096 bytes. Free large blocks stand in one list by their addresses, neighbours joined;
   one that ends at `top` lowers it. */
#include "heap.h"

enum { HEAD = 16, SMALL = 32768, CHUNK = 65536, UNIT = 4096, LISTS = 64 };

struct block {
    size_t size;        /* of all of it, its head too */
    struct block *next; /* if it is free: the next one of its list */
};

static unsigned char *base, *top;
static size_t bound;               /* how far above base top may come */
static size_t countdown;           /* which allocation from now on is refused; 0: none */
static struct block *small[LISTS]; /* free blocks of each small size */
static struct block *large;        /* free large blocks */
static unsigned char *chunk, *chunk_end;

/* The number of a small size: multiples of 16 up to 128, and above that four to each doubling. */
static unsigned list_of(size_t size) {
    unsigned bits;
    if (size <= 128) return (unsigned)((size + 15) / 16);
    bits = 63 - (unsigned)__builtin_clzl(size - 1);
    return 9 + (bits - 7) * 4 + (unsigned)(((size - 1) >> (bits - 2)) & 3);
}

/* The size of this number, which is the largest that has it. */
static size_t size_of(unsigned list) {
    if (list <= 8) return (size_t)list * 16;
    return (size_t)((list - 9) % 4 + 5) << ((list - 9) / 4 + 5);
}

/* Raises top by a number of bytes, if the bound and the machine allow it. */
static struct block *extend(size_t size) {
    struct block *made = (struct block *)top;
    if (size > bound - (size_t)(top - base) || !heap_reach(top + size)) return 0;
    top += size;
    made->size = size;
    return made;
}

/* The first free large block of this size or more, cut to it. */
static struct block *fit(size_t size) {
    struct block **from, *found, *rest;
    for (from = &large; (found = *from) != 0; from = &found->next) {
        if (found->size < size) continue;
        if (found->size == size) {
            *from = found->next;
        } else {
            rest = (struct block *)((unsigned char *)found + size);
            rest->size = found->size - size;
            rest->next = found->next;
            *from = rest;
            found->size = size;
        }
        return found;
    }
    return 0;
}

static struct block *take_large(size_t size) {
    struct block *found;
    size = (size + UNIT - 1) / UNIT * UNIT;
    found = fit(size);
    return found ? found : extend(size);
}

static void free_large(struct block *freed) {
    struct block **from = &large, *before = 0, *after;
    while (*from && *from < freed) {
        before = *from;
        from = &before->next;
    }
    after = *from;
    freed->next = after;
    *from = freed;
    if (after && (unsigned char *)freed + freed->size == (unsigned char *)after) {
        freed->size += after->size;
        freed->next = after->next;
    }
    if (before && (unsigned char *)before + before->size == (unsigned char *)freed) {
        before->size += freed->size;
        before->next = freed->next;
        freed = before;
    }
    if ((unsigned char *)freed + freed->size != top) return;
    top = (unsigned char *)freed;
    for (from = &large; *from != freed; from = &(*from)->next) {}
    *from = 0;
}

static struct block *take_small(size_t size) {
    unsigned list = list_of(size);
    struct block *found = small[list];
    if (found) {
        small[list] = found->next;
        return found;
    }
    size = size_of(list);
    if ((size_t)(chunk_end - chunk) < size) {
        found = take_large(CHUNK);
        if (!found) return 0;
        chunk = (unsigned char *)found;
        chunk_end = chunk + found->size;
    }
    found = (struct block *)chunk;
    chunk += size;
    found->size = size;
    return found;
}

static void *take(size_t bytes) {
    struct block *found;
    if (bytes > bound) return 0;
    found = bytes + HEAD <= SMALL ? take_small(bytes + HEAD) : take_large(bytes + HEAD);
    return found ? (unsigned char *)found + HEAD : 0;
}

static void give(void *place) {
    struct block *freed = (struct block *)((unsigned char *)place - HEAD);
    unsigned list;
    if (freed->size > SMALL) {
        free_large(freed);
    } else {
        list = list_of(freed->size);
        freed->next = small[list];
        small[list] = freed;
    }
}

/* Whether a block has room for so many bytes, or gets it since it ends at top. */
static int grows(struct block *held, size_t bytes) {
    size_t more;
    if (bytes > bound) return 0;
    if (bytes + HEAD <= held->size) return 1;
    if (held->size <= SMALL || (unsigned char *)held + held->size != top) return 0;
    more = (bytes + HEAD - held->size + UNIT - 1) / UNIT * UNIT;
    if (!extend(more)) return 0;
    held->size += more;
    return 1;
}

static int is_refused(void) { return countdown && !--countdown; }

struct tried rattle_alloc(size_t bytes, size_t align) {
    struct tried answer = {0, 0};
    (void)align;
    if (!is_refused()) answer.place = take(bytes);
    answer.is_there = answer.place != 0;
    return answer;
}

struct tried rattle_realloc(void *place, size_t kept, size_t bytes, size_t align) {
    struct tried answer = {1, place};
    (void)align;
    if (is_refused()) {
        answer.is_there = 0;
    } else if (!grows((struct block *)((unsigned char *)place - HEAD), bytes)) {
        void *moved = take(bytes);
        answer.is_there = moved != 0;
        if (moved) {
            __builtin_memcpy(moved, place, kept < bytes ? kept : bytes);
            give(place);
            answer.place = moved;
        }
    }
    return answer;
}

void rattle_dealloc(void *place) { give(place); }

/* Forgets all blocks. From now on at most so many bytes are used, and the allocation of this number is refused. */
void web_begin(size_t bytes, size_t refused) {
    unsigned list;
    base = top = (unsigned char *)(((size_t)heap_floor() + 15) / 16 * 16);
    bound = bytes;
    countdown = refused;
    for (list = 0; list < LISTS; list++) small[list] = 0;
    large = 0;
    chunk = chunk_end = 0;
}

/* Memory for what the page hands over, or null. */
void *web_alloc(size_t bytes) { return take(bytes); }

/* How many bytes are used. */
size_t web_used(void) { return (size_t)(top - base); }
