/* What heap.c gives and takes. */
typedef unsigned long size_t;

/* The answer of an allocation, as the proved code takes it. */
struct tried {
    unsigned long is_there;
    void *place;
};

struct tried rattle_alloc(size_t bytes, size_t align);
struct tried rattle_realloc(void *place, size_t kept, size_t bytes, size_t align);
void rattle_dealloc(void *place);

void web_begin(size_t bytes, size_t refused);
void *web_alloc(size_t bytes);
size_t web_used(void);

/* Where the machine's memory begins that blocks may lie in, and whether it reaches up to a place, or can be made to. */
unsigned char *heap_floor(void);
int heap_reach(unsigned char *end);
