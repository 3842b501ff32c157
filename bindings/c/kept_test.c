/* What sundial_keep writes and sundial_kept reads.
 *
 *     kept_test
 *
 * - The bytes are those of the table in the header, with the CRC-32 that is worked out here bit by bit.
 * - What was kept comes back, for devices, ports and counters of chance.
 * - Every flipped bit, every shorter and longer buffer, another number of ports, the version of tomorrow and a device that
 *   is none are refused, and nothing is written.
 * - A device that is restored after each call sends and answers what the one that never stopped does.
 * - The pause of a restore runs from the latest tick, also where the hardware's counter began again. */
#include <inttypes.h>
#include <stdio.h>
#include <stdlib.h>
#include <string.h>

#include "sundial_device.h"

enum { PORTS = 3, MOST = SUNDIAL_KEPT_SIZE(PORTS) };

static uint64_t looked, word = 1;

static void expect(int holds, const char *what)
{
    looked++;
    if (!holds) {
        fprintf(stderr, "kept: %s\n", what);
        exit(1);
    }
}

static uint64_t chance(void)
{
    word ^= word >> 12;
    word ^= word << 25;
    word ^= word >> 27;
    return word * UINT64_C(2685821657736338717);
}

struct kept {
    struct sundial_device device;
    struct sundial_port ports[PORTS];
    uint64_t lowered, ticked;
};

static const struct kept EMPTY;

/* The table of the header. */

static size_t put(uint8_t *bytes, size_t at, uint64_t number, int size)
{
    for (int i = 0; i < size; i++)
        bytes[at++] = (uint8_t)(number >> 8 * i);
    return at;
}

static size_t put_wide(uint8_t *bytes, size_t at, struct sundial_wide wide)
{
    return put(bytes, put(bytes, at, wide.low, 8), wide.high, 8);
}

static size_t put_edge(uint8_t *bytes, size_t at, const struct sundial_edge *edge)
{
    at = put(bytes, put(bytes, at, edge->mid, 8), edge->half, 8);
    return put(bytes, put(bytes, at, edge->parent, 4), edge->link, 4);
}

static size_t put_duty(uint8_t *bytes, size_t at, const struct sundial_duty *duty)
{
    const uint64_t times[] = {duty->period, duty->wait_first, duty->wait_second, duty->wait, duty->rates.grain};
    at = put_edge(bytes, put_edge(bytes, at, &duty->primary), &duty->backup);
    for (int i = 0; i < 5; i++)
        at = put(bytes, at, times[i], 8);
    at = put(bytes, put(bytes, at, duty->rates.ppm, 4), duty->epoch, 4);
    return put(bytes, put(bytes, put(bytes, at, duty->role, 1), duty->has_primary, 1), duty->has_backup, 1);
}

static uint32_t crc(const uint8_t *bytes, size_t size)
{
    uint32_t sum = UINT32_MAX;
    for (size_t i = 0; i < 8 * size; i++)
        sum = (sum >> 1) ^ (((sum ^ bytes[i / 8] >> i % 8) & 1) != 0 ? UINT32_C(0xEDB88320) : 0);
    return ~sum;
}

static void seal(uint8_t *bytes, size_t size)
{
    put(bytes, size - 4, crc(bytes, size - 4), 4);
}

static size_t table(uint8_t *bytes, const struct kept *me, size_t count)
{
    const struct sundial_device *device = &me->device;
    memcpy(bytes, "sundial\1", 8);
    size_t at = put_duty(bytes, put(bytes, 8, count, 8), &device->duty);
    at = put_duty(bytes, at, &device->given);
    at = put_wide(bytes, put_wide(bytes, at, device->estimate.clock), device->estimate.base);
    at = put(bytes, at, device->estimate.at, 8);
    at = put(bytes, put(bytes, at, device->stamp.round, 8), device->stamp.term, 4);
    at = put(bytes, put(bytes, at, device->rates.grain, 8), device->rates.ppm, 4);
    at = put(bytes, put(bytes, at, device->last, 8), device->sent, 8);
    at = put(bytes, put(bytes, at, device->has_duty, 1), device->has_given, 1);
    at = put(bytes, put(bytes, at, device->mode, 1), device->sealed, 1);
    at = put(bytes, put(bytes, at, me->lowered, 8), me->ticked, 8);
    for (size_t i = 0; i < count; i++)
        at = put(bytes, put_wide(bytes, at, me->ports[i].clear), me->ports[i].is_open, 1);
    seal(bytes, at + 4);
    return at + 4;
}

/* (their bytes of padding may differ) */
static int same(const struct kept *one, const struct kept *other, size_t count)
{
    uint8_t first[MOST], second[MOST];
    size_t size = table(first, one, count);
    return table(second, other, count) == size && memcmp(first, second, size) == 0;
}

static uint32_t keep(const struct kept *me, size_t count, uint8_t *bytes, size_t size)
{
    return sundial_keep(&me->device, me->ports, count, me->lowered, me->ticked, bytes, size);
}

static uint32_t kept(const uint8_t *bytes, size_t size, struct kept *me, size_t count)
{
    return sundial_kept(bytes, size, &me->device, me->ports, count, &me->lowered, &me->ticked);
}

static uint32_t restore(const uint8_t *bytes, size_t size, uint64_t tick, uint64_t hardware, struct kept *me, size_t count)
{
    return sundial_restore(bytes, size, tick, hardware, &me->device, me->ports, count, &me->lowered, &me->ticked);
}

static struct sundial_duty duty_of(uint8_t role, uint32_t epoch)
{
    struct sundial_duty duty;
    memset(&duty, 0, sizeof duty);
    duty.primary = (struct sundial_edge){7000, 3000, 0, 0};
    duty.backup = (struct sundial_edge){9000, 3000, 2, 2};
    duty.period = 100000;
    duty.wait_first = duty.wait_second = 300000;
    duty.wait = 900000;
    duty.rates = (struct sundial_rates){1000, 200};
    duty.epoch = epoch;
    duty.role = role;
    duty.has_primary = duty.has_backup = role != SUNDIAL_ROOT;
    return duty;
}

/* Fields of chance, all of them within their limits. */
static struct kept any(void)
{
    struct kept me;
    memset(&me, 0, sizeof me);
    uint64_t flags = chance();
    me.device.duty = duty_of((uint8_t)(flags % 3), (uint32_t)chance() | 1);
    me.device.given = duty_of((uint8_t)(flags / 4 % 3), (uint32_t)chance() | 1);
    me.device.duty.period = chance();
    me.device.duty.backup.link = (uint32_t)chance();
    me.device.given.wait = chance();
    me.device.given.primary.parent = (uint32_t)chance();
    me.device.estimate.clock = (struct sundial_wide){chance(), chance()};
    me.device.estimate.base = (struct sundial_wide){chance(), chance()};
    me.device.estimate.at = chance();
    me.device.stamp.round = chance();
    me.device.stamp.term = (uint32_t)chance();
    me.device.rates = (struct sundial_rates){chance() % UINT64_C(1000000000001), (uint32_t)(chance() % 100001)};
    me.device.last = chance();
    me.device.sent = chance();
    me.device.has_duty = (uint8_t)(1 + flags % 255);
    me.device.has_given = (uint8_t)(flags >> 8);
    me.device.mode = (uint8_t)(flags >> 16 & 3);
    me.device.sealed = (uint8_t)(flags >> 24);
    for (int i = 0; i < PORTS; i++) {
        me.ports[i].clear = (struct sundial_wide){chance(), chance()};
        me.ports[i].is_open = (uint8_t)chance();
    }
    me.lowered = chance();
    me.ticked = chance();
    return me;
}

static void refused(const uint8_t *bytes, size_t size, size_t count, const char *what)
{
    struct kept back = EMPTY;
    expect(kept(bytes, size, &back, count) == SUNDIAL_NOT_KEPT && memcmp(&back, &EMPTY, sizeof back) == 0, what);
    expect(restore(bytes, size, UINT64_MAX, 0, &back, count) == SUNDIAL_NOT_KEPT && memcmp(&back, &EMPTY, sizeof back) == 0, what);
}

static void round_trips(void)
{
    for (int i = 0; i < 2000; i++) {
        struct kept me = any(), back;
        size_t count = (size_t)i % (PORTS + 1), size = SUNDIAL_KEPT_SIZE(count);
        uint8_t bytes[MOST], wanted[MOST];
        memset(&back, 0, sizeof back);
        memset(bytes, 7, sizeof bytes);
        expect(keep(&me, count, bytes, size) == SUNDIAL_DONE && table(wanted, &me, count) == size, "a device is kept");
        expect(memcmp(bytes, wanted, size) == 0, "the bytes are those of the table");
        expect(kept(bytes, size, &back, count) == SUNDIAL_DONE, "what was kept is read");
        expect(same(&back, &me, count), "what was kept comes back");
        expect(memcmp(back.ports + count, EMPTY.ports, (PORTS - count) * sizeof *me.ports) == 0, "no other port is written");
    }
}

static void refusals(void)
{
    struct kept me = any(), nothing = EMPTY;
    uint8_t bytes[MOST + 20], was[MOST + 20];
    size_t size = MOST;
    memset(bytes, 0, sizeof bytes);
    expect(keep(&me, PORTS, bytes, size) == SUNDIAL_DONE, "a device is kept");
    memcpy(was, bytes, sizeof bytes);
    for (size_t bit = 0; bit < 8 * size; bit++) {
        bytes[bit / 8] ^= (uint8_t)(1 << bit % 8);
        refused(bytes, size, PORTS, "a flipped bit");
        bytes[bit / 8] ^= (uint8_t)(1 << bit % 8);
    }
    for (size_t at = 0; at < size; at++) {
        bytes[at] ^= (uint8_t)(1 + chance() % 255);
        refused(bytes, size, PORTS, "another byte");
        bytes[at] = was[at];
    }
    for (size_t other = 0; other < sizeof bytes; other++)
        if (other != size) {
            refused(bytes, other, PORTS, "a buffer of another size");
            expect(keep(&me, PORTS, bytes, other) == SUNDIAL_WRONG_SIZE && memcmp(bytes, was, sizeof was) == 0,
                   "room of another size");
        }
    refused(bytes, size, PORTS - 1, "fewer ports");
    expect(keep(&nothing, PORTS, bytes, size) == SUNDIAL_NO_DEVICE && memcmp(bytes, was, sizeof was) == 0, "no device is kept");
    /* with the right checksum */
    bytes[7] = 2;
    seal(bytes, size);
    refused(bytes, size, PORTS, "the version of tomorrow");
    memcpy(bytes, was, sizeof was);
    bytes[8] = PORTS - 1;
    seal(bytes, size);
    refused(bytes, size, PORTS, "the number of ports is another");
    refused(bytes, size, PORTS - 1, "the number of ports is another");
    memcpy(bytes, was, sizeof was);
    bytes[296] = 4;
    seal(bytes, size);
    refused(bytes, size, PORTS, "a mode that is none");
    memcpy(bytes, was, sizeof was);
    put(bytes, 16 + 88, 100001, 4);
    seal(bytes, size);
    refused(bytes, size, PORTS, "rates past their limits");
    memcpy(bytes, was, sizeof was);
    bytes[314]++;
    seal(bytes, size);
    expect(kept(bytes, size, &me, PORTS) == SUNDIAL_DONE && (uint8_t)me.ports[0].clear.low == bytes[314], "another port");
}

/* The device, restored after each call, beside the one that never stopped. */
static void goes_on(uint8_t role)
{
    struct sundial_duty duty = duty_of(role, 1), next = duty_of(SUNDIAL_ROOT, 2);
    struct kept me = EMPTY, other = EMPTY;
    uint8_t bytes[MOST];
    uint64_t hardware = UINT64_MAX - 50000000, sent = 0;
    expect(sundial_start(&me.device, &duty, 0, 5000, 500) == SUNDIAL_DONE, "a start");
    for (int i = 0; i < PORTS; i++)
        expect(sundial_port_open(&me.ports[i], &duty.primary, &duty.rates, 0) == SUNDIAL_DONE, "a port");
    me.lowered = me.ticked = hardware;
    for (uint64_t step = 1; step < 3000; step++) {
        struct sundial_effect ours = {{{0, 0}, {0, 0}, {0, 0}, 0}, 0}, theirs = ours;
        struct sundial_message heard = {{hardware, 0}, {10, 0}, {step, 0}, 1};
        uint64_t by = 0, again = 0;
        uint32_t link = chance() % 4 == 0 ? 2 : 0;
        hardware += 1 + chance() % 40000;
        expect(keep(&me, PORTS, bytes, MOST) == SUNDIAL_DONE, "it is kept");
        other = EMPTY;
        expect(restore(bytes, MOST, 100000000, hardware, &other, PORTS) == SUNDIAL_DONE, "it is restored");
        switch (chance() % 5) {
        case 0:
            expect(sundial_tick(&me.device, hardware - me.lowered, &ours) == SUNDIAL_DONE
                       && sundial_tick(&other.device, hardware - other.lowered, &theirs) == SUNDIAL_DONE,
                   "a tick");
            me.ticked = other.ticked = hardware;
            break;
        case 1:
            expect(sundial_rebase_with_ports(&me.device, me.ports, PORTS, hardware - me.lowered, &by) == SUNDIAL_DONE
                       && sundial_rebase_with_ports(&other.device, other.ports, PORTS, hardware - other.lowered, &again) == SUNDIAL_DONE
                       && by == again,
                   "a rebase");
            me.lowered += by;
            other.lowered += again;
            break;
        case 2:
            if (step == 2000)
                expect(sundial_give(&me.device, &next) == SUNDIAL_DONE && sundial_give(&other.device, &next) == SUNDIAL_DONE, "a give");
            break;
        default:
            expect(sundial_port_takes(&me.ports[link], hardware - me.lowered)
                       == sundial_port_takes(&other.ports[link], hardware - other.lowered),
                   "what a port takes");
            expect(sundial_receive(&me.device, link, &heard, hardware - me.lowered, &ours) == SUNDIAL_DONE
                       && sundial_receive(&other.device, link, &heard, hardware - other.lowered, &theirs) == SUNDIAL_DONE,
                   "a receipt");
        }
        sent += ours.sends;
        expect(ours.sends == theirs.sends && ours.message.clock.low == theirs.message.clock.low
                   && ours.message.eps.low == theirs.message.eps.low && ours.message.stamp.round == theirs.message.stamp.round
                   && ours.message.stamp.term == theirs.message.stamp.term && ours.message.epoch == theirs.message.epoch,
               "what both send");
        uint8_t of_other[MOST];
        expect(keep(&me, PORTS, bytes, MOST) == SUNDIAL_DONE && keep(&other, PORTS, of_other, MOST) == SUNDIAL_DONE
                   && memcmp(bytes, of_other, MOST) == 0,
               "the device that was restored is the one that never stopped");
    }
    expect(sent > 100, "it sends");
}

static void pauses(void)
{
    const uint64_t tick = 40000000, at[] = {0, 7, UINT64_MAX - 1000, UINT64_MAX};
    for (size_t i = 0; i < 8; i++) {
        struct kept me = any(), back = EMPTY;
        uint8_t bytes[MOST];
        uint64_t pause = tick;
        me.device.rates = (struct sundial_rates){1000, i < 4 ? 200 : 100000};
        me.ticked = at[i % 4];
        expect(keep(&me, PORTS, bytes, MOST) == SUNDIAL_DONE, "a device is kept");
        while (pause + (pause * me.device.rates.ppm + 999999) / 1000000 + 1000 > tick)
            pause--;
        expect(restore(bytes, MOST, tick, me.ticked + pause + 1, &back, PORTS) == SUNDIAL_TOO_LATE
                   && restore(bytes, MOST, tick, me.ticked - 1, &back, PORTS) == SUNDIAL_TOO_LATE
                   && memcmp(&back, &EMPTY, sizeof back) == 0,
               "a pause that may be too long");
        expect(restore(bytes, MOST, tick, me.ticked + pause, &back, PORTS) == SUNDIAL_DONE && same(&back, &me, PORTS),
               "the longest pause");
        expect(kept(bytes, MOST, &back, PORTS) == SUNDIAL_DONE, "what was kept is read after any pause");
    }
}

int main(void)
{
    expect(crc((const uint8_t *)"123456789", 9) == UINT32_C(0xCBF43926), "the check value of the checksum");
    round_trips();
    refusals();
    for (uint8_t role = SUNDIAL_ROOT; role <= SUNDIAL_ORDINARY; role++)
        goes_on(role);
    pauses();
    printf("kept: %" PRIu64 " answers as the table says\n", looked);
    return 0;
}
