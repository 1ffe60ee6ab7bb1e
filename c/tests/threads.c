/* Eight threads make calls at once, each with buffers of its own, and meanwhile children of forks
 * do so. */
#define _POSIX_C_SOURCE 200809L
#include "test.h"
#include <pthread.h>
#include <sys/wait.h>
#include <unistd.h>

enum { THREADS = 8, ROUNDS = 20000, FORKS = 50 };

/* Whether calls return what they should, of a text that has this number. */
static int is_right(size_t which, int rounds) {
    char text[64], wanted[64];
    int length = sprintf(text, "HTTP://H%zu/%%7e/../%zu", which, which);
    sprintf(wanted, "http://h%zu/%zu", which, which);
    for (int i = 0; i < rounds; i++) {
        uint8_t out[64];
        fluent_uri_outcome outcome;
        fluent_uri_parts parts;
        if (fluent_uri_normalize(0, 0, (uint8_t *)text, (size_t)length, out, sizeof out, NO_PARTS,
                                 &outcome) ||
            !is_text(out, outcome.length, wanted) ||
            fluent_uri_parse(0, (uint8_t *)text, (size_t)length, &parts) || parts.host.start != 7)
            return 0;
    }
    return 1;
}

static void *run(void *given) { return is_right((size_t)given, ROUNDS) ? NULL : given; }

int main(void) {
    pthread_t threads[THREADS];
    for (size_t i = 0; i < THREADS; i++)
        CHECK(pthread_create(&threads[i], NULL, run, (void *)(i + 1)) == 0);
    for (size_t i = 0; i < FORKS; i++) {
        pid_t child = fork();
        CHECK(child >= 0);
        if (child == 0) {
            alarm(20);
            _exit(!is_right(100 + i, 20));
        }
        int status = 1;
        CHECK(waitpid(child, &status, 0) == child && status == 0);
    }
    for (size_t i = 0; i < THREADS; i++) {
        void *differs;
        CHECK(pthread_join(threads[i], &differs) == 0 && differs == NULL);
    }
    return ended("threads");
}
