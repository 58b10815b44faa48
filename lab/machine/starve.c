/* Stands before the C library's heap in a program that it is preloaded into (LD_PRELOAD), and refuses one allocation: that with the number
   STARVE_AT, counted from 1 on, or none where that is 0. How many there were stands in the eight octets of the file STARVE_COUNT. */
#define _GNU_SOURCE
#include <errno.h>
#include <fcntl.h>
#include <stdint.h>
#include <stdlib.h>
#include <sys/mman.h>
#include <unistd.h>

extern void *__libc_malloc(size_t size);
extern void *__libc_realloc(void *block, size_t size);

static volatile uint64_t *count;
static uint64_t refused;

__attribute__((constructor)) static void begin(void) {
    const char *at = getenv("STARVE_AT"), *name = getenv("STARVE_COUNT");
    int file = name ? open(name, O_RDWR) : -1;
    if (at == NULL || file < 0)
        return;
    void *place = mmap(NULL, sizeof *count, PROT_READ | PROT_WRITE, MAP_SHARED, file, 0);
    close(file);
    refused = strtoull(at, NULL, 10);
    if (place != MAP_FAILED)
        count = place;
}

static int is_refused(void) {
    if (count == NULL || __atomic_add_fetch(count, 1, __ATOMIC_SEQ_CST) != refused)
        return 0;
    errno = ENOMEM;
    return 1;
}

void *malloc(size_t size) {
    return is_refused() ? NULL : __libc_malloc(size);
}

void *realloc(void *block, size_t size) {
    return is_refused() ? NULL : __libc_realloc(block, size);
}
