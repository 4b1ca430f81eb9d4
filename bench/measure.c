#include "measure.h"

#include <stdlib.h>
#include <time.h>
#include <valgrind/callgrind.h>
#include <x86intrin.h>

enum { BATCH = 128, ROUNDS_LEAST = 40, ROUNDS_MOST = 4000, PERCENTILE = 5 };

/* A set of rounds ends after so many ticks, if it had ROUNDS_LEAST. */
static const uint64_t TICKS = 150000000;

static uint64_t ticks(void)
{
    _mm_lfence();
    return __rdtsc();
}

static double ns_per_tick(void)
{
    static double known;
    struct timespec from, to;
    uint64_t begin, end;
    if (known != 0)
        return known;
    clock_gettime(CLOCK_MONOTONIC, &from);
    begin = ticks();
    do {
        clock_gettime(CLOCK_MONOTONIC, &to);
        end = ticks();
    } while (to.tv_sec - from.tv_sec < 1 && (to.tv_sec - from.tv_sec) * 1000000000 + to.tv_nsec - from.tv_nsec < 50000000);
    known = ((double)(to.tv_sec - from.tv_sec) * 1e9 + (double)(to.tv_nsec - from.tv_nsec)) / (double)(end - begin);
    return known;
}

/* The ticks of BATCH calls, offers, or packets in bursts, of one of the subjects of `work`. */
typedef uint64_t batch(void *work, unsigned int subject);

struct calls {
    const struct load *load;
    call *const *subjects;
    unsigned int first;
};

/* Each batch goes on where the last one stopped, so no subject finds packets that another has just read. */
static uint64_t batch_of_calls(void *work, unsigned int s)
{
    struct calls *c = work;
    const struct load *l = c->load;
    call *const subject = c->subjects[s];
    const unsigned int first = c->first;
    const uint64_t begin = ticks();
    for (unsigned int i = 0; i < BATCH; i++)
        subject(l->packets + l->stride * ((first + i) & (l->count - 1)), l->size, l->table, l->table_len, l->out, l->out_len);
    c->first += BATCH;
    return ticks() - begin;
}

struct bursting {
    const struct bursts *bursts;
    burst *const *subjects;
    unsigned int first;
};

static uint64_t batch_of_bursts(void *work, unsigned int s)
{
    struct bursting *w = work;
    const struct bursts *b = w->bursts;
    burst *const subject = w->subjects[s];
    const size_t octets = b->size * b->count;
    const unsigned int first = w->first, made = BATCH / b->count;
    const uint64_t begin = ticks();
    for (unsigned int i = 0; i < made; i++)
        subject(b->packets + octets * ((first + i) & (b->bursts - 1)), octets, b->lengths, b->count, b->table, b->table_len, b->out,
                b->out_len, b->answers, b->count);
    w->first += made;
    return ticks() - begin;
}

static void go_on(struct offers *o)
{
    o->number = (uint16_t)(o->number + o->step);
    if (o->cleared != NULL)
        *o->cleared = (struct kawsarpa_loss_row){0};
}

struct offered {
    struct offers *offers;
    offer *const *subjects;
};

static uint64_t batch_of_offers(void *work, unsigned int s)
{
    const struct offered *w = work;
    struct offers *o = w->offers;
    offer *const subject = w->subjects[s];
    const uint64_t begin = ticks();
    for (unsigned int i = 0; i < BATCH; i++) {
        subject(o->rows, o->count, o->teid, o->number);
        go_on(o);
    }
    return ticks() - begin;
}

static int ascending(const void *a, const void *b)
{
    const uint64_t x = *(const uint64_t *)a, y = *(const uint64_t *)b;
    return x < y ? -1 : x > y;
}

static void take_times(batch *of, void *work, unsigned int subject_count, double ns[])
{
    static uint64_t taken[SUBJECTS_MOST][ROUNDS_MOST];
    unsigned int rounds = 0;
    const uint64_t begin = ticks();
    while (rounds < ROUNDS_MOST && (rounds < ROUNDS_LEAST || ticks() - begin < TICKS)) {
        for (unsigned int s = 0; s < subject_count; s++)
            taken[s][rounds] = of(work, s);
        rounds++;
    }
    for (unsigned int s = 0; s < subject_count; s++) {
        qsort(taken[s], rounds, sizeof taken[s][0], ascending);
        ns[s] = (double)taken[s][rounds * PERCENTILE / 100] * ns_per_tick() / BATCH;
    }
}

void measure_times(const struct load *l, call *const subjects[], unsigned int subject_count, double ns[])
{
    struct calls work = {l, subjects, 0};
    take_times(batch_of_calls, &work, subject_count, ns);
}

void measure_burst_times(const struct bursts *b, burst *const subjects[], unsigned int subject_count, double ns[])
{
    struct bursting work = {b, subjects, 0};
    take_times(batch_of_bursts, &work, subject_count, ns);
}

void measure_offer_times(struct offers *o, offer *const subjects[], unsigned int subject_count, double ns[])
{
    struct offered work = {o, subjects};
    take_times(batch_of_offers, &work, subject_count, ns);
}

void measure_instructions(const struct load *l, call *subject, const char *label)
{
    /* through a pointer that the compiler cannot follow, so every subject is called in the same way; the first call is not counted */
    call *volatile made = subject;
    for (int i = 0; i < 2; i++) {
        CALLGRIND_ZERO_STATS;
        CALLGRIND_TOGGLE_COLLECT;
        made(l->packets, l->size, l->table, l->table_len, l->out, l->out_len);
        CALLGRIND_TOGGLE_COLLECT;
    }
    CALLGRIND_DUMP_STATS_AT(label);
}

void measure_burst_instructions(const struct bursts *b, burst *subject, const char *label)
{
    burst *volatile made = subject;
    for (int i = 0; i < 2; i++) {
        CALLGRIND_ZERO_STATS;
        CALLGRIND_TOGGLE_COLLECT;
        made(b->packets, b->size * b->count, b->lengths, b->count, b->table, b->table_len, b->out, b->out_len, b->answers, b->count);
        CALLGRIND_TOGGLE_COLLECT;
    }
    CALLGRIND_DUMP_STATS_AT(label);
}

void measure_offer_instructions(struct offers *o, offer *subject, const char *label)
{
    offer *volatile made = subject;
    for (int i = 0; i < 2; i++) {
        CALLGRIND_ZERO_STATS;
        CALLGRIND_TOGGLE_COLLECT;
        made(o->rows, o->count, o->teid, o->number);
        CALLGRIND_TOGGLE_COLLECT;
        go_on(o);
    }
    CALLGRIND_DUMP_STATS_AT(label);
}
