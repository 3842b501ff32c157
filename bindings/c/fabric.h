/* The fabric of topology.toml with its three plans, as tables. The names, links and duties have to
 * be those of the texts; run.sh compares what the devices report with what `sundial replay`
 * reports for the texts. */
#ifndef FABRIC_H
#define FABRIC_H

#include "sundial_device.h"

enum { DEVICES = 5, LINKS = 6, PLANS = 3 };

enum { S0, S1, S2, L0, L1 };

enum { S2_L0 = 4 };

static const char *const NAMES[DEVICES] = {"s0", "s1", "s2", "l0", "l1"};

static const char *const LINK_NAMES[LINKS] = {"s0-l0", "s0-l1", "s1-l0", "s1-l1", "s2-l0", "s2-l1"};

static const uint32_t ENDS[LINKS][2] = {{S0, L0}, {S0, L1}, {S1, L0}, {S1, L1}, {S2, L0}, {S2, L1}};

/* Every link delays by 400 to 1000 ns: so the middle is 700 ns, and the half 300 ns. */
static const uint64_t LEAST_DELAY = 400000, GREATEST_DELAY = 1000000;

static const uint64_t TICK = 40000000;

#define RATES {1000, 200}
#define EDGE(parent, link) {700000, 300000, parent, link}
#define NO_EDGE {0, 0, 0, 0}
#define WAITS 100000000, 1240417084, 1240417084, 6203077952

/* The device's part of each plan. Plan 2 leaves s0 out, and plan 3 takes it in again. */
static const struct sundial_duty DUTIES[PLANS][DEVICES] = {
    {
        {NO_EDGE, NO_EDGE, WAITS, RATES, 1, SUNDIAL_ROOT, 0, 0},
        {EDGE(L0, 2), EDGE(L1, 3), WAITS, RATES, 1, SUNDIAL_BACKUP_ROOT, 1, 1},
        {EDGE(L0, 4), EDGE(L1, 5), WAITS, RATES, 1, SUNDIAL_ORDINARY, 1, 1},
        {EDGE(S0, 0), EDGE(S1, 2), WAITS, RATES, 1, SUNDIAL_ORDINARY, 1, 1},
        {EDGE(S0, 1), EDGE(S1, 3), WAITS, RATES, 1, SUNDIAL_ORDINARY, 1, 1},
    },
    {
        {NO_EDGE, NO_EDGE, WAITS, RATES, 0, SUNDIAL_ORDINARY, 0, 0},
        {NO_EDGE, NO_EDGE, WAITS, RATES, 2, SUNDIAL_ROOT, 0, 0},
        {EDGE(L0, 4), EDGE(L1, 5), WAITS, RATES, 2, SUNDIAL_BACKUP_ROOT, 1, 1},
        {EDGE(S1, 2), EDGE(S2, 4), WAITS, RATES, 2, SUNDIAL_ORDINARY, 1, 1},
        {EDGE(S1, 3), EDGE(S2, 5), WAITS, RATES, 2, SUNDIAL_ORDINARY, 1, 1},
    },
    {
        {EDGE(L0, 0), EDGE(L1, 1), WAITS, RATES, 3, SUNDIAL_BACKUP_ROOT, 1, 1},
        {NO_EDGE, NO_EDGE, WAITS, RATES, 3, SUNDIAL_ROOT, 0, 0},
        {EDGE(L0, 4), EDGE(L1, 5), WAITS, RATES, 3, SUNDIAL_ORDINARY, 1, 1},
        {EDGE(S1, 2), EDGE(S0, 0), WAITS, RATES, 3, SUNDIAL_ORDINARY, 1, 1},
        {EDGE(S1, 3), EDGE(S0, 1), WAITS, RATES, 3, SUNDIAL_ORDINARY, 1, 1},
    },
};

#endif
