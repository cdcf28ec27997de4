/* Random traces of allocations: each block keeps what was written into it, lies in memory of its own, and is refused
   only beyond the bound. Run natively, over memory of malloc, so that valgrind sees what is touched outside it.

   heap_traces SEED TRACES */
#include "../heap.h"

void *malloc(size_t);
void free(void *);
int printf(const char *, ...);
int atoi(const char *);
void exit(int);

enum { BOUND = 1 << 22, HELD = 300, STEPS = 4000 };

static unsigned char *arena;
static unsigned long state;

unsigned char *heap_floor(void) { return arena; }
int heap_reach(unsigned char *end) { return end <= arena + BOUND + 16; }

static unsigned long drawn(unsigned long below) {
    state = state * 6364136223846793005ul + 1442695040888963407ul;
    return (state >> 33) % below;
}

struct held {
    unsigned char *place, mark;
    size_t bytes;
};

static struct held held[HELD];

static void claim(int holds, const char *what) {
    if (!holds) {
        printf("heap_traces: %s\n", what);
        exit(1);
    }
}

static void fill(struct held *h) {
    size_t i;
    h->mark = (unsigned char)drawn(256);
    for (i = 0; i < h->bytes; i++) h->place[i] = (unsigned char)(h->mark + i * 7);
}

static void look(const struct held *h, size_t bytes) {
    size_t i;
    for (i = 0; i < bytes; i++) claim(h->place[i] == (unsigned char)(h->mark + i * 7), "a block was written over");
}

static void is_apart(const struct held *h) {
    int i;
    claim((size_t)h->place % 16 == 0, "a block begins at no multiple of 16");
    claim(h->place >= arena && h->place + h->bytes <= arena + BOUND + 16, "a block lies outside");
    for (i = 0; i < HELD; i++)
        if (held[i].place && &held[i] != h)
            claim(h->place + h->bytes <= held[i].place || held[i].place + held[i].bytes <= h->place, "blocks overlap");
}

static size_t some_bytes(void) {
    switch (drawn(8)) {
    case 0: return drawn(400000);
    case 1: return drawn(40000);
    case 2: return 0;
    default: return drawn(600);
    }
}

static void step(unsigned long refused_at, unsigned long *asked) {
    struct held *h = &held[drawn(HELD)];
    size_t bytes = some_bytes();
    struct tried answer;
    if (!h->place) {
        answer = rattle_alloc(bytes, 16);
        claim((++*asked == refused_at) <= !answer.is_there, "an allocation that was to be refused was not");
        if (!answer.is_there) return;
        h->place = answer.place;
        h->bytes = bytes;
    } else if (drawn(2)) {
        look(h, h->bytes);
        answer = rattle_realloc(h->place, h->bytes, bytes, 16);
        claim((++*asked == refused_at) <= !answer.is_there, "a growth that was to be refused was not");
        if (!answer.is_there) {
            claim(answer.place == h->place, "a refused growth moved its block");
            look(h, h->bytes);
            return;
        }
        h->place = answer.place;
        look(h, h->bytes < bytes ? h->bytes : bytes);
        h->bytes = bytes;
    } else {
        look(h, h->bytes);
        rattle_dealloc(h->place);
        h->place = 0;
        return;
    }
    is_apart(h);
    fill(h);
}

int main(int count, char **words) {
    int trace, i, traces = count > 2 ? atoi(words[2]) : 20;
    arena = malloc(BOUND + 32);
    state = count > 1 ? (unsigned long)atoi(words[1]) : 1;
    for (trace = 0; trace < traces; trace++) {
        unsigned long asked = 0, refused_at = drawn(2) ? drawn(STEPS) : 0;
        for (i = 0; i < HELD; i++) held[i].place = 0;
        web_begin(BOUND, refused_at);
        for (i = 0; i < STEPS; i++) step(refused_at, &asked);
        for (i = 0; i < HELD; i++) {
            if (!held[i].place) continue;
            look(&held[i], held[i].bytes);
            rattle_dealloc(held[i].place);
        }
        claim(web_used() <= BOUND, "more is used than the bound");
        /* What was given back serves again: nothing but chunks of small blocks is left. */
        for (i = 0; i < 8; i++) claim(web_alloc(1 << 17) != 0, "freed memory is not used again");
        claim(!rattle_alloc(BOUND + 1, 16).is_there, "more than the bound was given");
    }
    free(arena);
    printf("%d traces\n", traces);
    return 0;
}
