/* For front_streams.py: the open of /dev/null that NO_FILE_AT counts, over all processes of a call, fails as where
   the system has no file left. NO_FILE_COUNT names a file in which they count. */
#define _GNU_SOURCE
#include <dlfcn.h>
#include <errno.h>
#include <fcntl.h>
#include <stdarg.h>
#include <stdlib.h>
#include <string.h>
#include <sys/mman.h>
#include <unistd.h>

typedef int (*opener)(const char *, int, ...);

/* Whether this open fails. */
static int fails(const char *path)
{
    static unsigned *count;
    const char *at = getenv("NO_FILE_AT"), *file = getenv("NO_FILE_COUNT");
    if (!at || !file || strcmp(path, "/dev/null"))
        return 0;
    if (!count) {
        int descriptor = ((opener)dlsym(RTLD_NEXT, "open"))(file, O_RDWR | O_CLOEXEC);
        if (descriptor < 0)
            return 0;
        count = mmap(NULL, sizeof *count, PROT_READ | PROT_WRITE, MAP_SHARED, descriptor, 0);
        close(descriptor);
        if (count == MAP_FAILED)
            abort();
    }
    if (__sync_add_and_fetch(count, 1) != strtoul(at, NULL, 10))
        return 0;
    errno = ENFILE;
    return 1;
}

#define OPEN(name)                                                  \
    int name(const char *path, int flags, ...)                      \
    {                                                               \
        va_list more;                                               \
        va_start(more, flags);                                      \
        mode_t mode = va_arg(more, mode_t);                         \
        va_end(more);                                               \
        return fails(path) ? -1 : ((opener)dlsym(RTLD_NEXT, #name))(path, flags, mode); \
    }

OPEN(open)
OPEN(open64)
