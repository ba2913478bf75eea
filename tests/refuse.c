// For LD_PRELOAD: refuses the call of malloc or realloc with the number REFUSE (from 1), and
// creates the empty file "refused". If LARGE is set, refuses each of these calls for more than
// LARGE bytes, and writes the size of the last such call into "refused".
#define _GNU_SOURCE
#include <dlfcn.h>
#include <fcntl.h>
#include <stddef.h>
#include <stdio.h>
#include <stdlib.h>
#include <unistd.h>

static int is_refused(size_t size)
{
    static long allocations;
    const char *number = getenv("REFUSE"), *most = getenv("LARGE");
    if (most != NULL && size > strtoull(most, NULL, 10)) {
        int refused = open("refused", O_CREAT | O_TRUNC | O_WRONLY, 0600);
        dprintf(refused, "%zu\n", size);
        close(refused);
        return 1;
    }
    if (number == NULL || ++allocations != atol(number))
        return 0;
    close(open("refused", O_CREAT | O_WRONLY, 0600));
    return 1;
}

void *malloc(size_t size)
{
    void *(*real)(size_t) = (void *(*)(size_t))dlsym(RTLD_NEXT, "malloc");
    return is_refused(size) ? NULL : real(size);
}

void *realloc(void *old, size_t size)
{
    void *(*real)(void *, size_t) = (void *(*)(void *, size_t))dlsym(RTLD_NEXT, "realloc");
    return is_refused(size) ? NULL : real(old, size);
}
