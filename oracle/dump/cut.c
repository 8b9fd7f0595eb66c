/* A `read` that cuts what it reads from a file: the first piece has CUT bytes, every other one STEP (both from the environment), of each
   descriptor anew. Linked before the C library's, by LD_PRELOAD. */
#define _GNU_SOURCE
#include <dlfcn.h>
#include <stdlib.h>
#include <unistd.h>

ssize_t read(int fd, void *to, size_t n)
{
    static ssize_t (*real)(int, void *, size_t);
    if (!real)
        real = (ssize_t(*)(int, void *, size_t))dlsym(RTLD_NEXT, "read");
    const char *first = getenv("CUT"), *step = getenv("STEP");
    if (!first || !step)
        return real(fd, to, n);
    size_t most = lseek(fd, 0, SEEK_CUR) == 0 ? atol(first) : atol(step);
    return real(fd, to, most && most < n ? most : n);
}
