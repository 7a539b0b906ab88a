/* Stands before the allocator of the C library, and refuses one request for memory: the one with the number in REFUSED,
   counted from main, and with REFUSED_ALL all behind it. At its end the program writes the number of requests to the
   file COUNTED; at the refusal already, so that it tells of it where the program does not come to its end. */
#define _GNU_SOURCE
#include <dlfcn.h>
#include <errno.h>
#include <fcntl.h>
#include <stdio.h>
#include <stdlib.h>
#include <unistd.h>

extern void *__libc_malloc(size_t);
extern void *__libc_calloc(size_t, size_t);
extern void *__libc_realloc(void *, size_t);
extern void *__libc_memalign(size_t, size_t);

static int in_main;
static long count, refused;
static int all;
static const char *counted;
static int (*program)(int, char **, char **);

static void tell(void)
{
    int file = open(counted, O_WRONLY | O_CREAT | O_TRUNC, 0600);
    char text[24];
    int at = sizeof text;
    for (long left = count; at > 0; left /= 10) {
        text[--at] = '0' + left % 10;
        if (left < 10)
            break;
    }
    if (write(file, text + at, sizeof text - at) < 0)
        _exit(99);
    close(file);
}

static int refuse(void)
{
    if (!in_main || (++count != refused && !(all && count > refused)))
        return 0;
    if (count == refused)
        tell();
    errno = ENOMEM;
    return 1;
}

void *malloc(size_t size) { return refuse() ? NULL : __libc_malloc(size); }

void *calloc(size_t members, size_t size) { return refuse() ? NULL : __libc_calloc(members, size); }

void *realloc(void *old, size_t size) { return refuse() ? NULL : __libc_realloc(old, size); }

void *memalign(size_t place, size_t size) { return refuse() ? NULL : __libc_memalign(place, size); }

void *aligned_alloc(size_t place, size_t size) { return memalign(place, size); }

int posix_memalign(void **to, size_t place, size_t size)
{
    if (refuse())
        return ENOMEM;
    *to = __libc_memalign(place, size);
    return *to ? 0 : ENOMEM;
}

static int begin(int words, char **word, char **settings)
{
    in_main = 1;
    int code = program(words, word, settings);
    in_main = 0;
    tell();
    return code;
}

/* What the start of each program calls: its main is put behind begin. */
int __libc_start_main(int (*main)(int, char **, char **), int words, char **word, void (*init)(void),
                      void (*fini)(void), void (*rtld_fini)(void), void *stack_end)
{
    int (*start)(int (*)(int, char **, char **), int, char **, void (*)(void), void (*)(void), void (*)(void), void *) =
        dlsym(RTLD_NEXT, "__libc_start_main");
    counted = getenv("COUNTED");
    refused = getenv("REFUSED") ? atol(getenv("REFUSED")) : 0;
    all = getenv("REFUSED_ALL") != NULL;
    program = main;
    return start(begin, words, word, init, fini, rtld_fini, stack_end);
}
