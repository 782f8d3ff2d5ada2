/* Refuses allocations of a program that is started with this library in LD_PRELOAD, for memory.py: those with the numbers FIRST
 * to LAST of the environment, counted from 1 over all calls of malloc, calloc and realloc. The count stands in the file COUNTED, as
 * a number of 8 bytes, where the environment names one: also where the program ends by _exit, which runs nothing of a library.
 * glibc gives the calls behind these names. */
#include <errno.h>
#include <fcntl.h>
#include <stdatomic.h>
#include <stdlib.h>
#include <sys/mman.h>
#include <unistd.h>

extern void *__libc_malloc(size_t size);
extern void *__libc_calloc(size_t count, size_t size);
extern void *__libc_realloc(void *old, size_t size);

static atomic_ulong by_itself;
static atomic_ulong *counted = &by_itself;
static unsigned long first, last;

/* Returns the number in that file, which is made, or NULL. */
static atomic_ulong *number_in(const char *name) {
    int file = open(name, O_RDWR | O_CREAT | O_TRUNC, 0600);
    if (file < 0 || ftruncate(file, sizeof *counted))
        return NULL;
    void *at = mmap(NULL, sizeof *counted, PROT_READ | PROT_WRITE, MAP_SHARED, file, 0);
    close(file);
    return at == MAP_FAILED ? NULL : at;
}

__attribute__((constructor)) static void begin(void) {
    const char *from = getenv("FIRST"), *to = getenv("LAST"), *name = getenv("COUNTED");
    atomic_ulong *number = name ? number_in(name) : NULL;
    counted = number ? number : &by_itself;
    first = from ? strtoul(from, NULL, 10) : 0;
    last = to ? strtoul(to, NULL, 10) : first;
    *counted = 0;
}

static int is_refused(void) {
    unsigned long number = ++*counted;
    if (number < first || number > last)
        return 0;
    errno = ENOMEM;
    return 1;
}

void *malloc(size_t size) { return is_refused() ? NULL : __libc_malloc(size); }

void *calloc(size_t count, size_t size) { return is_refused() ? NULL : __libc_calloc(count, size); }

void *realloc(void *old, size_t size) { return is_refused() ? NULL : __libc_realloc(old, size); }
