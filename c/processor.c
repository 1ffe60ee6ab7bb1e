/* Ends a program on a processor without x86-64-v2 before it makes a call, with one line in place of
 * an illegal instruction. From 2.33 on glibc looks at the note of the library, and does not get
 * here; an older one does not, nor does a loader look at a program that is linked with -static. */
#include <cpuid.h>
#include <unistd.h>

/* SSE3, SSSE3, CMPXCHG16B, SSE4.1, SSE4.2 and POPCNT; and LAHF, of the extended leaf. */
#define FEATURES 0x982201u
#define LAHF 1u

static int is_too_old(void) {
    unsigned a, b, c, d, extended;
    if (!__get_cpuid(1, &a, &b, &c, &d)) return 1;
    if (!__get_cpuid(0x80000001u, &a, &b, &extended, &d)) return 1;
    return (c & FEATURES) != FEATURES || !(extended & LAHF);
}

__attribute__((constructor)) static void stop_on_an_old_processor(void) {
    static const char line[] = "libfluent_uri_c: this processor lacks a feature of x86-64-v2\n";
    if (!is_too_old()) return;
    ssize_t written = write(2, line, sizeof line - 1);
    (void)written;
    _exit(127);
}
