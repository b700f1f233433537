/* heap.c: what the library asks of the heap, over malloc, realloc and free. */
#include <stdbool.h>
#include <stddef.h>
#include <stdlib.h>

struct tried {
    bool ok;
    void *p;
};

struct tried rattle_alloc(size_t size, size_t align);
struct tried rattle_realloc(void *p, size_t kept, size_t size, size_t align);
void rattle_dealloc(void *p);

/* Where there is no memory the pointer is to a byte that nobody reads or writes. */
static struct tried answer(void *p) {
    static char nothing;
    return p != NULL ? (struct tried){true, p} : (struct tried){false, &nothing};
}

/* No alignment above 16 is asked for, which malloc keeps; a block of no bytes has its alignment as its size. */
struct tried rattle_alloc(size_t size, size_t align) {
    return answer(malloc(size != 0 ? size : align));
}

struct tried rattle_realloc(void *p, size_t kept, size_t size, size_t align) {
    (void)kept;
    return answer(realloc(p, size != 0 ? size : align));
}

void rattle_dealloc(void *p) {
    free(p);
}
