/* Stands before the C library's allocator and refuses the request whose number REFUSED names, counted from 1, and no
   other; with a `+` behind the number also all that follow. A block is made larger or smaller by a request as well.
   Each refusal writes a byte to the open file whose number TOLD names. For glibc, by LD_PRELOAD:

       cc -O2 -shared -fPIC -o refuse_memory.so refuse_memory.c
*/
#include <errno.h>
#include <stdatomic.h>
#include <stdint.h>
#include <stdlib.h>
#include <unistd.h>

extern void *__libc_malloc(size_t);
extern void *__libc_calloc(size_t, size_t);
extern void *__libc_realloc(void *, size_t);
extern void *__libc_memalign(size_t, size_t);

static atomic_ulong asked;
static unsigned long refused;
static int told = -1, from_there_on;

__attribute__((constructor)) static void read_words(void) {
    const char *word = getenv("REFUSED"), *file = getenv("TOLD");
    char *end = NULL;
    if (word == NULL || file == NULL)
        return;
    told = atoi(file);
    unsigned long number = strtoul(word, &end, 10);
    from_there_on = *end == '+';
    atomic_store(&asked, 0);
    refused = number;
}

static int is_refused(void) {
    if (refused == 0)
        return 0;
    unsigned long number = atomic_fetch_add(&asked, 1) + 1;
    if (number != refused && !(from_there_on && number > refused))
        return 0;
    int before = errno;
    if (write(told, "1", 1) != 1)
        abort();
    errno = before;
    return 1;
}

static void *none(void) {
    errno = ENOMEM;
    return NULL;
}

void *malloc(size_t size) { return is_refused() ? none() : __libc_malloc(size); }

void *calloc(size_t count, size_t size) { return is_refused() ? none() : __libc_calloc(count, size); }

void *realloc(void *block, size_t size) {
    return size != 0 && is_refused() ? none() : __libc_realloc(block, size);
}

void *memalign(size_t edge, size_t size) { return is_refused() ? none() : __libc_memalign(edge, size); }

void *aligned_alloc(size_t edge, size_t size) { return memalign(edge, size); }

int posix_memalign(void **block, size_t edge, size_t size) {
    void *found = memalign(edge, size);
    if (found == NULL)
        return ENOMEM;
    *block = found;
    return 0;
}
