/* Is loaded before a program (LD_PRELOAD) and makes the allocation fail whose number is in the variable FAIL. At the
 * end writes the number of allocations, and of those not freed, to the file descriptor 9. */
#include <stdio.h>
#include <stdlib.h>

extern void *__libc_malloc(size_t), *__libc_realloc(void *, size_t);
extern void __libc_free(void *);
static long asked, failing, live;

__attribute__((constructor)) static void begin(void) {
    failing = atol(getenv("FAIL"));
}

void *malloc(size_t size) {
    void *made = ++asked == failing ? 0 : __libc_malloc(size);
    live += made != 0;
    return made;
}

void *realloc(void *old, size_t size) {
    void *made = ++asked == failing ? 0 : __libc_realloc(old, size);
    live += made != 0 && old == 0;
    return made;
}

void free(void *old) {
    live -= old != 0;
    __libc_free(old);
}

__attribute__((destructor)) static void end(void) {
    dprintf(9, "%ld %ld\n", asked, live);
}
