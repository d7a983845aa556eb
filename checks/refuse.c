/* Refuses one growth of memory to a program, by LD_PRELOAD: the one of the number REFUSE, counted from 1 by calls of malloc and realloc.
   The count is kept in the first 8 octets of the file that COUNT names, however the program ends. */
#include <fcntl.h>
#include <stdatomic.h>
#include <stddef.h>
#include <stdlib.h>
#include <sys/mman.h>

extern void *__libc_malloc(size_t size);
extern void *__libc_realloc(void *place, size_t size);

static atomic_ulong *calls;
static unsigned long refused;

__attribute__((constructor)) static void start(void) {
    const char *number = getenv("REFUSE"), *name = getenv("COUNT");
    int file = name ? open(name, O_RDWR) : -1;
    void *page = file < 0 ? MAP_FAILED : mmap(NULL, 4096, PROT_READ | PROT_WRITE, MAP_SHARED, file, 0);
    refused = number ? strtoul(number, NULL, 10) : 0;
    calls = page == MAP_FAILED ? NULL : page;
}

static int is_refused(void) {
    return calls && atomic_fetch_add(calls, 1) + 1 == refused;
}

void *malloc(size_t size) {
    return is_refused() ? NULL : __libc_malloc(size);
}

void *realloc(void *place, size_t size) {
    return is_refused() ? NULL : __libc_realloc(place, size);
}
