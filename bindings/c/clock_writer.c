/* A whole writer of a clock page: the root of a fabric of one machine, whose CLOCK_TAI a daemon keeps.
 *
 *     clock_writer FILE EPS_US [SECONDS]
 *
 * EPS_US says how far CLOCK_TAI may be from TAI. Reference time is TAI since 2026. It ends after SECONDS or at
 * SIGTERM, and withdraws its interval then. At SIGUSR1, which a sleep hook would send, it tells readers of the
 * disruption and starts its device anew. */
#include "sundial_clock.h"

#include <signal.h>
#include <stdlib.h>

static const uint64_t TICK = 1000000, DAY = UINT64_C(86400) * 1000000000; /* ns */
static const int64_t ORIGIN = INT64_C(1767225600) * 1000000000;
static const struct sundial_duty DUTY = {.period = 1000000000, .wait_first = 1, .wait_second = 1, .wait = 1,
                                         .rates = {1000, 200}, .epoch = 1, .role = SUNDIAL_ROOT};
static volatile sig_atomic_t ends, disrupted;

static void on_signal(int signal)
{
    if (signal == SIGUSR1)
        disrupted = 1;
    else
        ends = 1;
}

/* One moment by all clocks. */
struct moment {
    uint64_t raw, counter;
    struct sundial_wide clock, eps;
};

static struct moment now_by(const struct sundial_clock_mapping *mapping, uint64_t eps_us)
{
    struct timespec tai;
    struct moment now;
    now.raw = sundial_clock_raw();
    clock_gettime(CLOCK_TAI, &tai);
    uint64_t took = sundial_clock_raw() - now.raw; /* (CLOCK_TAI was read at some moment of it) */
    sundial_clock_ps clock = ((sundial_clock_ps)tai.tv_sec * 1000000000 + tai.tv_nsec - ORIGIN) * 1000;
    now.counter = sundial_clock_counter(mapping, now.raw);
    now.clock = (struct sundial_wide){(uint64_t)clock, (uint64_t)(clock >> 64)};
    now.eps = (struct sundial_wide){(eps_us * 1000 + took + 1) * 1000, 0};
    return now;
}

static void check(uint32_t answer, const char *call)
{
    if (answer == SUNDIAL_DONE)
        return;
    fprintf(stderr, "clock_writer: %s answered %s\n", call, sundial_clock_name(answer));
    exit(1);
}

int main(int count, char **words)
{
    static const struct sundial_clock_terms terms = {.stale_after = 100000000, .void_after = 60000000000, .origin = ORIGIN};
    static const struct timespec rest = {0, (long)TICK};
    struct sundial_clock_writer writer;
    struct sundial_device device = {0};
    struct sundial_effect effect = {0};
    if (count < 3 || sundial_clock_create(words[1], &terms, &writer) != 0) {
        perror("clock_writer FILE EPS_US [SECONDS]");
        return 2;
    }
    signal(SIGTERM, on_signal), signal(SIGUSR1, on_signal);
    uint64_t eps_us = strtoull(words[2], NULL, 10), lowered = 0, begun = sundial_clock_raw(), rebased = begun;
    uint64_t ends_at = count > 3 ? begun + strtoull(words[3], NULL, 10) * 1000000000 : UINT64_MAX;
    struct sundial_clock_mapping mapping = {begun, 0, 0};
    struct moment now = now_by(&mapping, eps_us);
    check(sundial_start_wide(&device, &DUTY, now.counter, &now.clock, &now.eps), "start");
    for (; !ends && now.raw < ends_at; nanosleep(&rest, NULL)) {
        if (disrupted) {
            disrupted = 0;
            sundial_clock_disrupt(&writer, &device);
            now = now_by(&mapping, eps_us);
            /* (alone it starts. In a fabric it joins, while a new plan is brought in) */
            check(sundial_start_wide(&device, &DUTY, now.counter, &now.clock, &now.eps), "start");
        }
        now = now_by(&mapping, eps_us);
        check(sundial_fix_wide(&device, now.counter, &now.clock, &now.eps), "fix");
        check(sundial_tick(&device, now.counter, &effect), "tick");
        uint32_t answer = sundial_clock_publish(&writer, &device, now.counter, now.raw);
        if (answer == SUNDIAL_CLOCK_APART) /* (the daemon stepped CLOCK_TAI) */
            sundial_clock_withdraw(&writer);
        else
            check(answer, "publish");
        if (now.raw - rebased > DAY) {
            check(sundial_clock_rebase(&mapping, &device, NULL, 0, now.raw, &lowered), "rebase");
            rebased = now.raw;
        }
    }
    sundial_clock_withdraw(&writer);
    sundial_clock_release(&writer);
    return 0;
}
