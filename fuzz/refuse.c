/* Refuses memory to a program that is run with this library in LD_PRELOAD.
 *
 * REFUSE=N has its Nth growth fail, counted from 1, and REFUSE=N+K that and the next K ones. In the file that ASKED names
 * it counts them, in the 8 bytes of a number: a program may end without a last word of this library.
 */
#define _GNU_SOURCE
#include <dlfcn.h>
#include <fcntl.h>
#include <stdatomic.h>
#include <stdlib.h>
#include <sys/mman.h>
#include <unistd.h>

static void *(*plain_malloc)(size_t);
static void *(*plain_realloc)(void *, size_t);
static unsigned long first, last;
static atomic_ulong before;
static atomic_ulong *asked = &before;

__attribute__((constructor)) static void begin(void)
{
    const char *words = getenv("REFUSE"), *name = getenv("ASKED");
    plain_malloc = dlsym(RTLD_NEXT, "malloc");
    plain_realloc = dlsym(RTLD_NEXT, "realloc");
    int file = name ? open(name, O_RDWR | O_CREAT | O_TRUNC | O_CLOEXEC, 0666) : -1;
    if (file >= 0 && ftruncate(file, sizeof *asked) == 0) {
        void *found = mmap(NULL, sizeof *asked, PROT_READ | PROT_WRITE, MAP_SHARED, file, 0);
        asked = found == MAP_FAILED ? asked : found;
    }
    char *rest = NULL;
    unsigned long number = words ? strtoul(words, &rest, 10) : 0;
    last = number + (rest && *rest == '+' ? strtoul(rest + 1, NULL, 10) : 0);
    first = number;
}

static int is_refused(void)
{
    unsigned long number = atomic_fetch_add(asked, 1) + 1;
    return first && first <= number && number <= last;
}

void *malloc(size_t size)
{
    if (!plain_malloc)
        plain_malloc = dlsym(RTLD_NEXT, "malloc");
    return is_refused() ? NULL : plain_malloc(size);
}

void *realloc(void *block, size_t size)
{
    if (!plain_realloc)
        plain_realloc = dlsym(RTLD_NEXT, "realloc");
    return is_refused() ? NULL : plain_realloc(block, size);
}
