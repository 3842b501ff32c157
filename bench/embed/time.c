/* Times each call of the library of a device: minimum and median, in ns a call, over rounds of many
 * calls; together at least a million. */
#define _POSIX_C_SOURCE 199309L
#include <stdint.h>
#include <stdio.h>
#include <stdlib.h>
#include <string.h>
#include <time.h>

#include "../../include/sundial_device.h"

enum { ROUNDS = 1001, CALLS = 1000, PORTS = 3 };

static const struct sundial_duty DUTY = {
    .primary = {7, 3, 0, 0}, .backup = {7, 3, 2, 2}, .period = 100, .wait_first = 300,
    .wait_second = 200, .wait = 900, .rates = {1000, 200}, .epoch = 1,
    .role = SUNDIAL_ORDINARY, .has_primary = 1, .has_backup = 1,
};

static struct sundial_device device;
static struct sundial_duty root_duty;
static struct sundial_effect effect;
static struct sundial_message message;
static struct sundial_clock_report report;
static struct sundial_optional_parent parent;
static struct sundial_port ports[PORTS];
static uint8_t acts, bytes[SUNDIAL_KEPT_SIZE(PORTS)];
static uint32_t epoch;
static uint64_t counter, lowered, ticked;

static uint32_t call_made(void) { return sundial_made(&device); }
static uint32_t call_start(void) { return sundial_start(&device, &DUTY, counter, 0, 500); }
static uint32_t call_join(void) { return sundial_join(&device, &DUTY.rates, counter, 0, 500); }
static uint32_t call_give(void) { return sundial_give(&device, &DUTY); }
static uint32_t call_commit(void)
{
    device.given = root_duty;
    device.has_given = 1;
    return sundial_commit(&device, counter);
}
static uint32_t call_seal(void) { return sundial_seal(&device); }
static uint32_t call_fix(void) { return sundial_fix(&device, counter, counter, 500); }
static uint32_t call_tick(void) { return sundial_tick(&device, counter++, &effect); }
static uint32_t call_emit(void)
{
    counter += 100;
    return sundial_tick(&device, counter, &effect);
}
static uint32_t call_receive(void)
{
    message.stamp.round++;
    return sundial_receive(&device, 0, &message, counter++, &effect);
}
static uint32_t call_rebase(void)
{
    counter += 10000000;
    uint32_t answer = sundial_rebase(&device, counter, &lowered);
    counter -= lowered;
    return answer;
}
static uint32_t call_rebase_with_ports(void)
{
    counter += 10000000;
    uint32_t answer = sundial_rebase_with_ports(&device, ports, PORTS, counter, &lowered);
    counter -= lowered;
    return answer;
}
static uint32_t call_port_open(void) { return sundial_port_open(&ports[0], &DUTY.primary, &DUTY.rates, counter++); }
static uint32_t call_port_close(void)
{
    sundial_port_close(&ports[0]);
    return SUNDIAL_DONE;
}
static uint32_t call_port_takes(void) { return sundial_port_takes(&ports[0], counter) == 0; }
static uint32_t call_in_time(void) { return sundial_in_time(&DUTY.rates, 2000000, counter, counter + 1000000) == 0; }
static uint32_t call_keep(void) { return sundial_keep(&device, ports, PORTS, 0, counter, bytes, sizeof bytes); }
static uint32_t call_kept(void)
{
    return sundial_kept(bytes, sizeof bytes, &device, ports, PORTS, &lowered, &ticked);
}
static uint32_t call_restore(void)
{
    return sundial_restore(bytes, sizeof bytes, UINT64_MAX, 0, &device, ports, PORTS, &lowered, &ticked);
}
static uint32_t call_report(void) { return sundial_report(&device, counter, &report); }
static uint32_t call_parent(void) { return sundial_parent(&device, &parent); }
static uint32_t call_acts(void) { return sundial_acts(&device, &acts); }
static uint32_t call_epoch(void) { return sundial_epoch(&device, &epoch); }

static const struct {
    const char *name;
    uint32_t (*call)(void);
    int is_root;
} TIMED[] = {
    {"made", call_made, 0},     {"start", call_start, 0},    {"join", call_join, 0},
    {"give", call_give, 0},     {"commit", call_commit, 0},  {"seal", call_seal, 0},
    {"fix", call_fix, 0},       {"tick, quiet", call_tick, 0}, {"tick, sends", call_emit, 1},
    {"receive, accepted", call_receive, 0}, {"rebase", call_rebase, 0},
    {"rebase, 3 ports", call_rebase_with_ports, 0}, {"report", call_report, 0},
    {"parent", call_parent, 0}, {"acts", call_acts, 0},      {"epoch", call_epoch, 0},
    {"port_open", call_port_open, 0}, {"port_close", call_port_close, 0}, {"port_takes", call_port_takes, 0},
    {"in_time", call_in_time, 0}, {"keep, 3 ports", call_keep, 0}, {"kept, 3 ports", call_kept, 0},
    {"restore, 3 ports", call_restore, 0},
};

static double now_ns(void)
{
    struct timespec at;
    clock_gettime(CLOCK_MONOTONIC, &at);
    return (double)at.tv_sec * 1e9 + (double)at.tv_nsec;
}

static int by_size(const void *a, const void *b)
{
    double x = *(const double *)a, y = *(const double *)b;
    return (x > y) - (x < y);
}

int main(void)
{
    static double took[ROUNDS];
    root_duty = DUTY;
    root_duty.role = SUNDIAL_ROOT;
    root_duty.has_primary = root_duty.has_backup = 0;
    printf("device %zu bytes, message %zu, effect %zu, report %zu\n", sizeof device, sizeof message,
           sizeof effect, sizeof report);
    printf("%-18s %8s %8s  ns a call\n", "call", "minimum", "median");
    for (size_t i = 0; i < sizeof TIMED / sizeof TIMED[0]; i++) {
        for (int round = 0; round < ROUNDS; round++) {
            counter = 0;
            memset(&message, 0, sizeof message);
            message.epoch = 1;
            if (sundial_start(&device, TIMED[i].is_root ? &root_duty : &DUTY, 0, 0, 500) || call_keep())
                return 1;
            for (int port = 0; port < PORTS; port++)
                ports[port] = (struct sundial_port){{0, 0}, 1}; /* (open, and clear from 0 on) */
            double before = now_ns();
            for (int k = 0; k < CALLS; k++) {
                if (TIMED[i].call() != SUNDIAL_DONE) {
                    fprintf(stderr, "time: %s is refused\n", TIMED[i].name);
                    return 1;
                }
            }
            took[round] = (now_ns() - before) / CALLS;
        }
        qsort(took, ROUNDS, sizeof took[0], by_size);
        printf("%-18s %8.1f %8.1f\n", TIMED[i].name, took[0], took[ROUNDS / 2]);
    }
    return 0;
}
