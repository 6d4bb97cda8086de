// A library for LD_PRELOAD that refuses one growth of a program's memory: its call of malloc or realloc whose number, from 1, is
// REFUSED. The file COUNT has 8 bytes, in which the number of calls stands.
#include <fcntl.h>
#include <stdatomic.h>
#include <stdlib.h>
#include <sys/mman.h>

void *__libc_malloc(size_t size);
void *__libc_realloc(void *old, size_t size);

static atomic_ulong before_start;
static atomic_ulong *count = &before_start;
static unsigned long refused;

__attribute__((constructor)) static void start(void)
{
    const char *number = getenv("REFUSED");
    const char *path = getenv("COUNT");
    int file = path ? open(path, O_RDWR) : -1;
    void *shared = file < 0 ? MAP_FAILED : mmap(NULL, sizeof *count, PROT_READ | PROT_WRITE, MAP_SHARED, file, 0);
    if (shared == MAP_FAILED)
        abort();
    refused = number ? strtoul(number, NULL, 10) : 0;
    count = shared;
}

static int is_refused(void)
{
    return count != &before_start && atomic_fetch_add(count, 1) + 1 == refused;
}

void *malloc(size_t size)
{
    return is_refused() ? NULL : __libc_malloc(size);
}

void *realloc(void *old, size_t size)
{
    return is_refused() ? NULL : __libc_realloc(old, size);
}
