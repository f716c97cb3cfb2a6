// A malloc that fails once: at the call whose number MALLOC_FAILS has. It then writes a byte to the file that
// MALLOC_TELLS names. Preloaded by tools/memory-faults. The programs that this one starts have a malloc that never
// fails.
#define _GNU_SOURCE
#include <dlfcn.h>
#include <errno.h>
#include <fcntl.h>
#include <stdlib.h>
#include <unistd.h>

static void *(*real_malloc)(size_t);
static void *(*real_realloc)(void *, size_t);
static unsigned long count, failing;

__attribute__((constructor)) static void begin(void) {
    const char *number = getenv("MALLOC_FAILS");
    real_malloc = dlsym(RTLD_NEXT, "malloc");
    real_realloc = dlsym(RTLD_NEXT, "realloc");
    failing = number ? strtoul(number, 0, 10) : 0;
    unsetenv("LD_PRELOAD");
}

static int fails(void) {
    if (!failing || ++count != failing) return 0;
    const char *path = getenv("MALLOC_TELLS");
    int file = path ? open(path, O_WRONLY | O_CREAT, 0600) : -1;
    if (file >= 0) {
        if (write(file, "x", 1) != 1) abort();
        close(file);
    }
    errno = ENOMEM;
    return 1;
}

void *malloc(size_t size) {
    if (!real_malloc) real_malloc = dlsym(RTLD_NEXT, "malloc");
    return fails() ? NULL : real_malloc(size);
}

void *realloc(void *old, size_t size) {
    if (!real_realloc) real_realloc = dlsym(RTLD_NEXT, "realloc");
    return fails() ? NULL : real_realloc(old, size);
}
