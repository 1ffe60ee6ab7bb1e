/* Calls on long texts. Nothing interrupts a call of the library, and one on 140 MB can take a second.
 * So a thread makes it, on copies, and the statement waits for the thread or is cancelled. The thread
 * knows nothing of PostgreSQL. It ends with its call, and who is done last frees the copies. */
#include "values.h"

#include <pthread.h>
#include <signal.h>

#include "miscadmin.h"
#include "port/atomics.h"
#include "storage/latch.h"
#include "utils/wait_event.h"

/* Such a text takes some milliseconds. */
enum { LONG = 1 << 20, WAIT_MS = 5 };

typedef struct {
    bool is_parse;
    uri_call call;
    uint32 number, options;
    uri_bytes a, b;
    uint8_t *out;
    size_t room;
    fluent_uri_outcome outcome;
    fluent_uri_parts parts;
    pg_atomic_uint32 holders; /* the thread, until it is done, and who waits for it */
} long_call;

static void make(long_call *it) {
    if (it->is_parse) fluent_uri_parse(it->number, it->a.at, it->a.len, &it->parts);
    else
        uri_write(it->call, it->number, it->options, it->a, it->b, it->out, it->room, &it->outcome);
}

static void let_go(long_call *it) {
    if (pg_atomic_sub_fetch_u32(&it->holders, 1) == 0) free(it);
}

static void *run(void *it) {
    make(it);
    let_go(it);
    return NULL;
}

/* Starts the thread of a call, to which no signal goes. Returns false if there can be no more. */
static bool start(long_call *it) {
    sigset_t all, before;
    pthread_attr_t detached;
    pthread_t thread;
    bool is_started;

    if (pthread_attr_init(&detached) != 0) return false;
    pthread_attr_setdetachstate(&detached, PTHREAD_CREATE_DETACHED);
    sigfillset(&all);
    pthread_sigmask(SIG_SETMASK, &all, &before);
    is_started = pthread_create(&thread, &detached, run, it) == 0;
    pthread_sigmask(SIG_SETMASK, &before, NULL);
    pthread_attr_destroy(&detached);
    return is_started;
}

static void wait_for(long_call *it) {
    while (pg_atomic_read_u32(&it->holders) > 1) {
        (void) WaitLatch(MyLatch, WL_LATCH_SET | WL_TIMEOUT | WL_EXIT_ON_PM_DEATH, WAIT_MS,
                         PG_WAIT_EXTENSION);
        ResetLatch(MyLatch);
        CHECK_FOR_INTERRUPTS();
    }
    pg_memory_barrier();
}

static uint8_t *copied(uint8_t *to, uri_bytes *bytes) {
    memcpy(to, bytes->at, bytes->len);
    bytes->at = to;
    return to + bytes->len;
}

/* Makes a call by a thread, or here if no thread can be started. */
static void make_long(const long_call *given, uint8_t *out, long_call *made) {
    long_call *it = malloc(sizeof *it + given->a.len + given->b.len + given->room);

    if (it == NULL) uri_check_call(FLUENT_URI_OUT_OF_MEMORY);
    *it = *given;
    it->out = copied(copied((uint8_t *) (it + 1), &it->a), &it->b);
    pg_atomic_init_u32(&it->holders, 2);
    PG_TRY();
    {
        if (start(it)) wait_for(it);
        else run(it);
        if (it->outcome.length <= it->room) memcpy(out, it->out, it->outcome.length);
        *made = *it;
    }
    PG_FINALLY();
    {
        let_go(it);
    }
    PG_END_TRY();
}

void uri_make(uri_call call, uint32 number, uint32 options, uri_bytes a, uri_bytes b, uint8 *out,
              size_t room, fluent_uri_outcome *outcome) {
    CHECK_FOR_INTERRUPTS();
    if (a.len + b.len < LONG) uri_write(call, number, options, a, b, out, room, outcome);
    else {
        long_call it = {.call = call, .number = number, .options = options, .a = a, .b = b,
                        .room = room};

        make_long(&it, out, &it);
        *outcome = it.outcome;
    }
}

uint32 uri_parse(uint32 kind, uri_bytes text, fluent_uri_parts *parts) {
    CHECK_FOR_INTERRUPTS();
    if (text.len < LONG) return fluent_uri_parse(kind, text.at, text.len, parts);
    else {
        long_call it = {.is_parse = true, .number = kind, .a = text, .b = {text.at, 0}};

        make_long(&it, (uint8 *) parts, &it);
        *parts = it.parts;
        return parts->error;
    }
}
