/* What the header computes by itself, the ports and the pauses, beside numbers of 128 bits and at each edge.
 *
 *     header_test
 *
 * - The ends of an interval and the end of a commit wait, where halves of 64 bits carry and borrow.
 * - How the device takes part, and the age of its estimate: from its clock and not from its latest message.
 * - Which messages a port takes: from the least counter at which older ones are sure to be lost, across rebases, at the end
 *   of a counter, and by a counter that fell.
 * - A call that answers a fault writes nothing. */
#include <inttypes.h>
#include <stdio.h>
#include <stdlib.h>
#include <string.h>

#include "sundial_device.h"

__extension__ typedef unsigned __int128 wide_number;

static const uint64_t EDGES[] = {0, 1, 2, 1000, UINT64_C(1) << 35, UINT64_MAX - 1, UINT64_MAX};

enum { EDGE_COUNT = sizeof EDGES / sizeof EDGES[0] };

static uint64_t looked;

static void expect(int holds, const char *what)
{
    looked++;
    if (!holds) {
        fprintf(stderr, "header: %s\n", what);
        exit(1);
    }
}

static wide_number number(struct sundial_wide wide)
{
    return (wide_number)wide.high << 64 | wide.low;
}

static struct sundial_wide edge_wide(int low, int high)
{
    /* (below 2^100, as the library answers) */
    return (struct sundial_wide){EDGES[low], EDGES[high] >> 28};
}

static void intervals(void)
{
    for (int i = 0; i < EDGE_COUNT * EDGE_COUNT; i++)
        for (int j = 0; j < EDGE_COUNT * EDGE_COUNT; j++) {
            struct sundial_wide clock = edge_wide(i % EDGE_COUNT, i / EDGE_COUNT), eps = edge_wide(j % EDGE_COUNT, j / EDGE_COUNT);
            struct sundial_clock_report report = {clock, eps};
            wide_number c = number(clock), e = number(eps);
            expect(number(sundial_earliest(&report)) == (c < e ? 0 : c - e), "the earliest time");
            expect(number(sundial_latest(&report)) == c + e, "the latest time");
            struct sundial_interval now = {clock, clock};
            expect(sundial_has_passed(&now, eps) == (c > e), "the end of a commit wait");
        }
}

static struct sundial_duty duty_of(uint8_t role)
{
    struct sundial_duty duty;
    memset(&duty, 0, sizeof duty);
    duty.primary = (struct sundial_edge){7000, 3000, 0, 0};
    duty.backup = (struct sundial_edge){9000, 3000, 2, 2};
    duty.period = 100000000;
    duty.wait_first = duty.wait_second = 1000;
    duty.wait = 3000;
    duty.rates = (struct sundial_rates){1000, 200};
    duty.epoch = 1;
    duty.role = role;
    duty.has_primary = duty.has_backup = 1;
    return duty;
}

static void queries(void)
{
    struct sundial_duty duty = duty_of(SUNDIAL_BACKUP_ROOT);
    struct sundial_device device = {0};
    struct sundial_message message = {{5000000, 0}, {10, 0}, {1, 0}, 1};
    struct sundial_effect effect = {{{0, 0}, {0, 0}, {0, 0}, 0}, 0};
    struct sundial_interval now = {{7, 7}, {7, 7}};
    struct sundial_clock_report report = {{0, 0}, {0, 0}};
    uint64_t age = 7;
    uint8_t mode = 7;
    expect(sundial_mode(&device, &mode) == SUNDIAL_NO_DEVICE && mode == 7, "the mode of nothing");
    expect(sundial_start(&device, &duty, 1000, 5000000, 10) == SUNDIAL_DONE, "a start");
    expect(sundial_receive(&device, 0, &message, 1500, &effect) == SUNDIAL_DONE && effect.sends == 1, "a receipt");
    expect(sundial_now(&device, 1499, &now) == SUNDIAL_COUNTER_FELL && now.earliest.low == 7 && now.latest.high == 7,
           "now, by a counter that fell");
    expect(sundial_age(&device, 1499, &age) == SUNDIAL_COUNTER_FELL && age == 7, "an age, by a counter that fell");
    expect(sundial_age(&device, 1900, &age) == SUNDIAL_DONE && age == 400, "an age");
    expect(sundial_fix(&device, 2000, 5000000, 10) == SUNDIAL_DONE && sundial_age(&device, 2300, &age) == SUNDIAL_DONE
               && age == 300,
           "an age since a fix");
    expect(sundial_report(&device, 2300, &report) == SUNDIAL_DONE && sundial_now(&device, 2300, &now) == SUNDIAL_DONE
               && number(now.earliest) == number(sundial_earliest(&report))
               && number(now.latest) == number(sundial_latest(&report)),
           "now is the interval of the report");
    for (uint8_t wanted = SUNDIAL_PRIMARY; wanted <= SUNDIAL_ACTING; wanted++) {
        uint8_t acts = 7;
        expect(sundial_mode(&device, &mode) == SUNDIAL_DONE && mode == wanted, "a mode");
        expect(sundial_acts(&device, &acts) == SUNDIAL_DONE && acts == (wanted == SUNDIAL_ACTING), "whether it acts");
        expect(sundial_tick(&device, 3000 + wanted * UINT64_C(2000), &effect) == SUNDIAL_DONE, "a tick");
    }
}

/* A copy of a message that was not accepted counts, once the device has moved to the parent that sent it. One of a
 * message that was accepted does not. */
static void copies(void)
{
    struct sundial_duty duty = duty_of(SUNDIAL_ORDINARY);
    struct sundial_device device = {0};
    struct sundial_message message = {{5000000, 0}, {10, 0}, {1, 0}, 1};
    struct sundial_effect effect = {{{0, 0}, {0, 0}, {0, 0}, 0}, 0};
    expect(sundial_start(&device, &duty, 1000, 5000000, 10) == SUNDIAL_DONE, "a start");
    expect(sundial_receive(&device, 2, &message, 1500, &effect) == SUNDIAL_DONE && effect.sends == 0, "the first copy");
    expect(sundial_tick(&device, 4001, &effect) == SUNDIAL_DONE && device.mode == SUNDIAL_BACKUP, "the move");
    expect(sundial_receive(&device, 2, &message, 4500, &effect) == SUNDIAL_DONE && effect.sends == 1, "the second copy");
    expect(sundial_receive(&device, 2, &message, 4600, &effect) == SUNDIAL_DONE && effect.sends == 0, "the third copy");
}

/* Whether more than twice the greatest delay has surely passed while the counter advanced by this much. */
static int is_clear(const struct sundial_edge *edge, const struct sundial_rates *rates, uint64_t advance)
{
    wide_number drifted = ((wide_number)advance * rates->ppm + 999999) / 1000000 + rates->grain;
    return advance > drifted + 2 * (wide_number)(edge->mid + edge->half);
}

static void waits(void)
{
    const uint64_t sizes[] = {0, 1, 999, 1000000, UINT64_C(999999999999), UINT64_C(1000000000000)};
    const uint32_t parts[] = {0, 1, 200, 99999, 100000};
    for (size_t i = 0; i < 6 * 6 * 6 * 5; i++) {
        struct sundial_edge edge = {sizes[i % 6], sizes[i / 6 % 6], 0, 0};
        struct sundial_rates rates = {sizes[i / 36 % 6], parts[i / 216]};
        struct sundial_port port = {{0, 0}, 0};
        expect(sundial_port_open(&port, &edge, &rates, 0) == SUNDIAL_DONE && port.clear.high == 0 && port.is_open == 1
                   && is_clear(&edge, &rates, port.clear.low) && !is_clear(&edge, &rates, port.clear.low - 1),
               "the wait of a port");
    }
    struct sundial_port port = {{7, 7}, 7}, kept = port;
    struct sundial_edge mid = {UINT64_C(1000000000001), 0, 0, 0}, half = {0, UINT64_C(1000000000001), 0, 0}, good = {0, 0, 0, 0};
    struct sundial_rates grain = {UINT64_C(1000000000001), 0}, ppm = {0, 100001}, even = {0, 0};
    expect(sundial_port_open(&port, &mid, &even, 0) == SUNDIAL_NO_DUTY && sundial_port_open(&port, &half, &even, 0) == SUNDIAL_NO_DUTY
               && sundial_port_open(&port, &good, &grain, 0) == SUNDIAL_RATES_TOO_GREAT
               && sundial_port_open(&port, &good, &ppm, 0) == SUNDIAL_RATES_TOO_GREAT
               && number(port.clear) == number(kept.clear) && port.is_open == kept.is_open,
           "an opening past the limits");
}

/* The latest counter at which a pause is in time, also where the hardware's counter began again. */
static void pauses(void)
{
    const uint64_t tick = 40000000, at[] = {0, 7, UINT64_MAX - 1000, UINT64_MAX};
    const uint32_t parts[] = {0, 1, 200, 100000};
    for (size_t i = 0; i < 16; i++) {
        struct sundial_rates rates = {1000, parts[i / 4]}, past = {1000, 100001};
        uint64_t ticked = at[i % 4], pause = tick - 1000;
        while ((wide_number)pause + ((wide_number)pause * rates.ppm + 999999) / 1000000 + 1000 > tick)
            pause--;
        expect(sundial_in_time(&rates, tick, ticked, ticked) == 1 && sundial_in_time(&rates, tick, ticked, ticked + pause) == 1
                   && sundial_in_time(&rates, tick, ticked, ticked + pause + 1) == 0
                   && sundial_in_time(&rates, tick, ticked, ticked - 1) == 0 && sundial_in_time(&past, tick, ticked, ticked) == 0,
               "a pause");
    }
}

static void ports_at(uint64_t begin)
{
    struct sundial_duty duty = duty_of(SUNDIAL_ORDINARY);
    struct sundial_device device = {0}, nothing = {0};
    struct sundial_port ports[3], kept[3], zero = {{0, 0}, 0};
    expect(sundial_port_open(&zero, &duty.primary, &duty.rates, 0) == SUNDIAL_DONE, "a port");
    const uint64_t after = zero.clear.low;
    uint64_t by = 7, again = 7;
    expect(sundial_start(&device, &duty, begin, 0, 0) == SUNDIAL_DONE, "a start");
    memset(ports, 0, sizeof ports);
    expect(!sundial_port_takes(&ports[0], begin), "a port that was never opened");
    for (int i = 0; i < 3; i++)
        expect(sundial_port_open(&ports[i], &duty.primary, &duty.rates, begin) == SUNDIAL_DONE, "a port");
    sundial_port_close(&ports[1]);
    memcpy(kept, ports, sizeof ports);
    expect(sundial_rebase_with_ports(&nothing, ports, 3, begin, &by) == SUNDIAL_NO_DEVICE && by == 7
               && memcmp(kept, ports, sizeof ports) == 0,
           "a rebase of nothing");
    if (begin > 0)
        expect(sundial_rebase_with_ports(&device, ports, 3, begin - 1, &by) == SUNDIAL_COUNTER_FELL && by == 7
                   && memcmp(kept, ports, sizeof ports) == 0 && !sundial_port_takes(&ports[0], begin - 1),
               "a rebase by a counter that fell");
    /* lowered twice: while older messages may come, and long after */
    for (uint64_t since = 0; since <= 2 * after; since += after / 3) {
        struct sundial_device lowered = device;
        memcpy(ports, kept, sizeof ports);
        if (since > UINT64_MAX - begin)
            break;
        expect(sundial_rebase_with_ports(&lowered, ports, 3, begin + since, &by) == SUNDIAL_DONE && by <= begin + since,
               "a rebase");
        for (uint64_t later = since; later <= 3 * after; later += after % 7 + 1) {
            uint64_t counter = begin - by + later;
            expect(sundial_port_takes(&ports[0], counter) == (later >= after)
                       && sundial_port_takes(&ports[2], counter) == (later >= after),
                   "what a rebased port takes");
            if (later <= UINT64_MAX - begin)
                expect(sundial_port_takes(&kept[0], begin + later) == (later >= after), "what a port takes");
            expect(!sundial_port_takes(&ports[1], counter), "a closed port");
        }
        uint64_t counter = begin - by + 3 * after;
        expect(sundial_rebase_with_ports(&lowered, ports, 3, counter, &again) == SUNDIAL_DONE
                   && sundial_port_takes(&ports[0], counter - again) && !sundial_port_takes(&ports[1], counter - again),
               "a port that is rebased long after");
    }
    expect(sundial_port_open(&zero, &duty.primary, &duty.rates, begin) == SUNDIAL_DONE
               && number(zero.clear) == (wide_number)begin + after && number(kept[0].clear) == number(zero.clear),
           "a port that is opened again");
}

int main(void)
{
    intervals();
    queries();
    copies();
    waits();
    pauses();
    const uint64_t at[] = {0, 1, 5000, 30000, UINT64_C(1) << 60, UINT64_MAX - 60000, UINT64_MAX - 10000, UINT64_MAX - 1};
    for (size_t i = 0; i < sizeof at / sizeof at[0]; i++)
        ports_at(at[i]);
    printf("header: %" PRIu64 " answers as numbers of 128 bits say\n", looked);
    return 0;
}
