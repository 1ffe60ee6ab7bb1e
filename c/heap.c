/* The heap that the archive calls, over malloc: what the kit has as c/heap.c of its library libc,
 * and hands out compiled for x86-64 alone. The kit's libc/src/heap.rt has the contracts. */
#include <stdbool.h>
#include <stddef.h>
#include <stdlib.h>

/* Whether there is memory, and the pointer to it; else one to a byte that nobody owns. */
typedef struct {
    bool ok;
    void *p;
} tried;

tried rattle_alloc(size_t size, size_t align);
tried rattle_realloc(void *p, size_t kept, size_t size, size_t align);
void rattle_dealloc(void *p);

static char nothing;

static tried got(void *p) {
    tried it = {p != NULL, p ? p : &nothing};
    return it;
}

/* (an alignment is at most 16, which malloc's memory has) */
tried rattle_alloc(size_t size, size_t align) {
    return got(malloc(size ? size : align));
}

tried rattle_realloc(void *p, size_t kept, size_t size, size_t align) {
    (void)kept;
    return got(realloc(p, size ? size : align));
}

void rattle_dealloc(void *p) {
    free(p);
}
