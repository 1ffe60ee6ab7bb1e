/* Denies a program one request for memory, once it is preloaded: that of the number in DENY, counted
   from 1, in a program of the name in DENY_IN. Requests that the C library makes do not count. */
#define _GNU_SOURCE
#include <dlfcn.h>
#include <errno.h>
#include <link.h>
#include <stdlib.h>
#include <string.h>

static const char *begin, *end;
static long left;

/* The first object is the program. */
static int find_program(struct dl_phdr_info *info, size_t size, void *unused)
{
    (void)size;
    (void)unused;
    for (int i = 0; i < info->dlpi_phnum; i++)
        if (info->dlpi_phdr[i].p_type == PT_LOAD) {
            const char *at = (const char *)info->dlpi_addr + info->dlpi_phdr[i].p_vaddr;
            begin = begin ? begin : at;
            end = at + info->dlpi_phdr[i].p_memsz;
        }
    return 1;
}

__attribute__((constructor)) static void prepare(void)
{
    const char *number = getenv("DENY"), *name = getenv("DENY_IN");
    dl_iterate_phdr(find_program, NULL);
    if (number && name && !strcmp(name, program_invocation_short_name))
        left = atol(number);
}

static int is_denied(const void *caller)
{
    if (left <= 0 || (const char *)caller < begin || (const char *)caller >= end || --left)
        return 0;
    errno = ENOMEM;
    return 1;
}

void *malloc(size_t size)
{
    static void *(*next)(size_t);
    if (!next)
        next = (void *(*)(size_t))dlsym(RTLD_NEXT, "malloc");
    return is_denied(__builtin_return_address(0)) ? NULL : next(size);
}

void *realloc(void *old, size_t size)
{
    static void *(*next)(void *, size_t);
    if (!next)
        next = (void *(*)(void *, size_t))dlsym(RTLD_NEXT, "realloc");
    return is_denied(__builtin_return_address(0)) ? NULL : next(old, size);
}
