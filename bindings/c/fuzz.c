/* Calls every function of the library with bytes of chance as its structs and numbers.
 *
 *     fuzz SECONDS [SEED]
 *
 * No call may fault, whatever the bytes are. Each struct ends where a page ends that nobody may
 * touch, so that a byte read or written past it ends the program. Of each call it also tests what
 * the header says: the answer is one of those that are listed; an answer that is not
 * SUNDIAL_DONE changes no struct; what a call has made or changed is a device; what is const stays
 * as it is; a flag that it tells is 1 or 0; the same bytes get the same answer. At the end it tells how often each call gave each
 * answer. The status is 1 where something failed, or where a listed answer never came in three
 * seconds or more. */
#define _GNU_SOURCE
#include <inttypes.h>
#include <signal.h>
#include <stdio.h>
#include <stdlib.h>
#include <string.h>
#include <sys/mman.h>
#include <time.h>
#include <unistd.h>

#include "sundial_device.h"

enum { ANSWERS = 14, REBASE_WITH_PORTS = 17, PORT_OPEN, PORT_CLOSE, PORT_TAKES, IN_TIME, KEEP, KEPT, RESTORE, CALLS, PORTS = 3 };

static const uint64_t FEWEST = 200000; /* calls, on a machine that is busy too */

static const struct {
    const char *name;
    unsigned answers; /* bit n is set where the header lists the answer n */
} CALL[CALLS] = {
    {"made", 0x003},       {"start", 0x005},     {"join", 0x009},     {"give", 0x007},
    {"commit", 0x513},     {"seal", 0x003},      {"fix", 0x013},      {"tick", 0x193},
    {"receive", 0x213},    {"start_wide", 0x045}, {"join_wide", 0x049}, {"fix_wide", 0x053},
    {"rebase", 0x093},     {"report", 0x093},    {"parent", 0x003},   {"acts", 0x003},
    {"epoch", 0x003},      {"rebase_with_ports", 0x093}, {"port_open", 0x00d}, {"port_close", 0x001},
    {"port_takes", 0x003}, {"in_time", 0x003}, /* (these two answer 1 or 0) */
    {"keep", 0x0803},      {"kept", 0x1001},     {"restore", 0x3001},
};

static uint64_t word, calls, seed;
static uint64_t counted[CALLS][ANSWERS];
static int call;

static uint64_t chance(void)
{
    word ^= word >> 12;
    word ^= word << 25;
    word ^= word >> 27;
    return word * UINT64_C(2685821657736338717);
}

static int one_in(uint64_t many)
{
    return (chance() >> 32) % many == 0;
}

/* A number at or near one of the limits. */
static uint64_t number(void)
{
    static const uint64_t LIMIT[] = {0, 1, 3, 1000, 100000, UINT64_C(1000000000000), UINT64_C(1) << 31,
                                     UINT64_C(1) << 36, UINT64_C(1) << 60, UINT64_C(1) << 62,
                                     UINT64_MAX};
    uint64_t near = LIMIT[(chance() >> 32) % (sizeof LIMIT / sizeof LIMIT[0])];
    switch ((chance() >> 32) % 8) {
    case 0: return chance();
    case 1: return near + 1;
    case 2: return near - 1;
    case 3: return near;
    default: return chance() >> (4 + (chance() >> 32) % 60);
    }
}

static uint64_t below(uint64_t limit)
{
    return one_in(60) ? number() : number() % limit;
}

/* Room for a struct whose last byte is the last that may be touched. */
static void *room(size_t bytes)
{
    size_t page = (size_t)sysconf(_SC_PAGESIZE);
    unsigned char *pages = mmap(NULL, 3 * page, PROT_NONE, MAP_PRIVATE | MAP_ANONYMOUS, -1, 0);
    if (pages == MAP_FAILED || mprotect(pages + page, page, PROT_READ | PROT_WRITE) != 0) {
        perror("fuzz: mmap");
        exit(2);
    }
    return pages + 2 * page - bytes;
}

static void fill(void *to, size_t bytes)
{
    unsigned char *byte = to;
    for (size_t i = 0; i < bytes; i++)
        byte[i] = (unsigned char)(chance() >> 56);
}

static struct sundial_wide wide(void)
{
    struct sundial_wide made = {number(), 0};
    if (one_in(8))
        made.high = one_in(2) ? (chance() >> 28) : number();
    return made;
}

static struct sundial_rates rates(void)
{
    struct sundial_rates made = {below(UINT64_C(1000000000001)), (uint32_t)below(100001)};
    return made;
}

static struct sundial_edge edge(void)
{
    struct sundial_edge made = {below(UINT64_C(1000000000001)), below(UINT64_C(1000000000001)),
                                (uint32_t)below(3), (uint32_t)below(3)};
    return made;
}

static struct sundial_duty duty(void)
{
    struct sundial_duty made;
    fill(&made, sizeof made);
    if (one_in(50))
        return made;
    made.primary = edge();
    made.backup = edge();
    made.period = number();
    made.wait_first = number();
    made.wait_second = number();
    made.wait = number();
    made.rates = rates();
    made.epoch = (uint32_t)below(4);
    made.role = (uint8_t)below(3);
    made.has_primary = (uint8_t)below(2);
    made.has_backup = (uint8_t)below(2);
    return made;
}

static struct sundial_stamp stamp(void)
{
    struct sundial_stamp made = {below(UINT64_C(1) << 62), (uint32_t)below(UINT64_C(1) << 31)};
    return made;
}

static struct sundial_device device(void)
{
    struct sundial_device made;
    fill(&made, sizeof made);
    if (one_in(50))
        return made;
    made.duty = duty();
    made.given = duty();
    made.estimate.clock = wide();
    made.estimate.base = wide();
    made.estimate.at = number();
    made.stamp = stamp();
    made.rates = rates();
    made.last = number();
    made.sent = number();
    made.has_duty = (uint8_t)below(2);
    made.has_given = (uint8_t)below(2);
    made.mode = (uint8_t)below(4);
    made.sealed = (uint8_t)below(2);
    return made;
}

static struct sundial_message message(void)
{
    struct sundial_message made;
    fill(&made, sizeof made);
    if (one_in(50))
        return made;
    made.clock = wide();
    made.eps = wide();
    made.stamp = stamp();
    made.epoch = (uint32_t)below(4);
    return made;
}

static struct sundial_port port(void)
{
    struct sundial_port made = {wide(), (uint8_t)below(2)};
    return made;
}

static void say(const char *what)
{
    fprintf(stderr, "fuzz: seed %" PRIu64 ", call %" PRIu64 ", %s: %s\n", seed, calls, CALL[call].name,
            what);
    exit(1);
}

static void faulted(int signal)
{
    char text[200];
    int bytes = snprintf(text, sizeof text, "fuzz: seed %" PRIu64 ", call %" PRIu64 ", %s: signal %d\n",
                         seed, calls, CALL[call].name, signal);
    if (write(STDERR_FILENO, text, (size_t)bytes) < 0)
        _exit(3);
    _exit(1);
}

struct ports {
    struct sundial_port all[PORTS];
};

struct bytes {
    uint8_t all[SUNDIAL_KEPT_SIZE(PORTS)];
};

struct rooms {
    struct sundial_device *device;
    struct sundial_duty *duty;
    struct sundial_rates *rates;
    struct sundial_message *message;
    struct sundial_wide *clock;
    struct sundial_wide *eps;
    struct sundial_effect *effect;
    struct sundial_clock_report *report;
    struct sundial_optional_parent *parent;
    uint64_t *lowered;
    uint64_t *ticked;
    uint8_t *acts;
    uint32_t *epoch;
    struct ports *ports;
    struct bytes *bytes;
};

struct numbers {
    uint64_t counter, clock, eps;
    uint32_t link;
};

static uint32_t made_of(const struct rooms *at, const struct numbers *n)
{
    switch (call) {
    case 0: return sundial_made(at->device);
    case 1: return sundial_start(at->device, at->duty, n->counter, n->clock, n->eps);
    case 2: return sundial_join(at->device, at->rates, n->counter, n->clock, n->eps);
    case 3: return sundial_give(at->device, at->duty);
    case 4: return sundial_commit(at->device, n->counter);
    case 5: return sundial_seal(at->device);
    case 6: return sundial_fix(at->device, n->counter, n->clock, n->eps);
    case 7: return sundial_tick(at->device, n->counter, at->effect);
    case 8: return sundial_receive(at->device, n->link, at->message, n->counter, at->effect);
    case 9: return sundial_start_wide(at->device, at->duty, n->counter, at->clock, at->eps);
    case 10: return sundial_join_wide(at->device, at->rates, n->counter, at->clock, at->eps);
    case 11: return sundial_fix_wide(at->device, n->counter, at->clock, at->eps);
    case 12: return sundial_rebase(at->device, n->counter, at->lowered);
    case 13: return sundial_report(at->device, n->counter, at->report);
    case 14: return sundial_parent(at->device, at->parent);
    case 15: return sundial_acts(at->device, at->acts);
    case 16: return sundial_epoch(at->device, at->epoch);
    case REBASE_WITH_PORTS:
        return sundial_rebase_with_ports(at->device, at->ports->all, PORTS, n->counter, at->lowered);
    case PORT_OPEN: return sundial_port_open(at->ports->all, &at->duty->primary, at->rates, n->counter);
    case PORT_CLOSE: sundial_port_close(at->ports->all); return SUNDIAL_DONE;
    case PORT_TAKES: return sundial_port_takes(at->ports->all, n->counter);
    case KEEP:
        return sundial_keep(at->device, at->ports->all, PORTS, n->clock, n->eps, at->bytes->all, sizeof *at->bytes - (n->link == 2));
    case KEPT:
        return sundial_kept(at->bytes->all, sizeof *at->bytes, at->device, at->ports->all, PORTS, at->lowered, at->ticked);
    case RESTORE:
        return sundial_restore(at->bytes->all, sizeof *at->bytes, n->eps, n->counter, at->device, at->ports->all, PORTS,
                               at->lowered, at->ticked);
    default: return sundial_in_time(at->rates, n->eps, n->clock, n->counter);
    }
}

static int changes_device(void)
{
    return (call >= 1 && call <= 12) || call == REBASE_WITH_PORTS || call == KEPT || call == RESTORE;
}

/* The counter: most often where a device of these counters takes it. */
static uint64_t counter_for(const struct sundial_device *device)
{
    uint64_t most = device->last > device->sent ? device->last : device->sent;
    if (device->estimate.at > most)
        most = device->estimate.at;
    if (one_in(4))
        return number();
    return most + (one_in(3) ? 0 : chance() >> (10 + (chance() >> 32) % 54));
}

/* All bytes that a call is given. */
static void copy_all(unsigned char *to, const struct rooms *at)
{
#define COPY(field) memcpy(to, at->field, sizeof *at->field), to += sizeof *at->field
    COPY(device), COPY(duty), COPY(rates), COPY(message), COPY(clock), COPY(eps), COPY(effect);
    COPY(report), COPY(parent), COPY(lowered), COPY(ticked), COPY(acts), COPY(epoch), COPY(ports), COPY(bytes);
#undef COPY
}

static void put_back(const unsigned char *from, const struct rooms *at)
{
#define COPY(field) memcpy(at->field, from, sizeof *at->field), from += sizeof *at->field
    COPY(device), COPY(duty), COPY(rates), COPY(message), COPY(clock), COPY(eps), COPY(effect);
    COPY(report), COPY(parent), COPY(lowered), COPY(ticked), COPY(acts), COPY(epoch), COPY(ports), COPY(bytes);
#undef COPY
}

enum {
    ALL = sizeof(struct sundial_device) + sizeof(struct sundial_duty) + sizeof(struct sundial_rates)
          + sizeof(struct sundial_message) + sizeof(struct sundial_effect)
          + sizeof(struct sundial_clock_report) + sizeof(struct sundial_optional_parent)
          + 2 * sizeof(struct sundial_wide) + 2 * sizeof(uint64_t) + sizeof(uint8_t) + sizeof(uint32_t)
          + sizeof(struct ports) + sizeof(struct bytes)
};

/* Flags are 1 or 0 and nothing else, and a device acts, or has a parent, by its mode. */
static int is_told(const struct rooms *at)
{
    switch (call) {
    case 7: case 8: return at->effect->sends <= 1;
    case 14: return at->parent->has_parent <= 1 && (at->parent->has_parent == 0 || at->device->mode <= SUNDIAL_BACKUP);
    case 15: return *at->acts == (at->device->mode == SUNDIAL_ACTING ? 1 : 0);
    case PORT_OPEN: return at->ports->all[0].is_open == 1;
    case PORT_CLOSE: return at->ports->all[0].is_open == 0;
    default: return 1;
    }
}

/* For a call that reads what was kept: what is kept of another device, one time in three with another bit. */
static void keep_another(const struct rooms *at)
{
    struct sundial_device other = device();
    if (call < KEPT)
        return;
    if (sundial_keep(&other, at->ports->all, PORTS, number(), number(), at->bytes->all, sizeof *at->bytes) == SUNDIAL_DONE
        && one_in(3))
        at->bytes->all[(chance() >> 32) % sizeof *at->bytes] ^= (uint8_t)(1 << (chance() >> 61));
}

static void one_call(const struct rooms *at)
{
    unsigned char before[ALL], after[ALL];
    struct numbers n;
    call = (int)((chance() >> 32) % CALLS);
    if (one_in(3) || sundial_made(at->device) != SUNDIAL_DONE)
        *at->device = device(); /* else it goes on with the device of the call before */
    *at->duty = duty();
    *at->rates = rates();
    *at->message = message();
    *at->clock = wide();
    *at->eps = wide();
    for (int i = 0; i < PORTS; i++)
        at->ports->all[i] = port();
    n.counter = counter_for(at->device);
    n.clock = number();
    n.eps = number();
    n.link = (uint32_t)below(3);
    keep_another(at);
    copy_all(before, at);
    calls++;
    uint32_t answer = made_of(at, &n);
    copy_all(after, at);
    if (answer >= ANSWERS || (CALL[call].answers >> answer & 1) == 0)
        say("an answer that the header does not list for it");
    counted[call][answer]++;
    if (answer != SUNDIAL_DONE && memcmp(before, after, ALL) != 0)
        say("it answered a fault, and changed something");
    if (!changes_device() && memcmp(before, after, sizeof *at->device) != 0)
        say("it changed a device that is const");
    size_t given = sizeof *at->device, taken = sizeof *at->duty + sizeof *at->rates + sizeof *at->message
                                            + sizeof *at->clock + sizeof *at->eps;
    if (memcmp(before + given, after + given, taken) != 0)
        say("it changed what it was given to read");
    if (answer == SUNDIAL_DONE && (call <= REBASE_WITH_PORTS || call >= KEEP) && sundial_made(at->device) != SUNDIAL_DONE)
        say("what it left is no device");
    if (answer == SUNDIAL_DONE && !is_told(at))
        say("it tells another thing than the device");
    if (one_in(16)) {
        unsigned char kept[ALL];
        memcpy(kept, after, ALL);
        put_back(before, at);
        if (made_of(at, &n) != answer)
            say("the same bytes got two answers");
        put_back(kept, at);
    }
}

static double seconds(void)
{
    struct timespec at;
    clock_gettime(CLOCK_MONOTONIC, &at);
    return (double)at.tv_sec + (double)at.tv_nsec / 1e9;
}

/* How many listed answers never came. */
static int missing(void)
{
    int none = 0;
    for (int i = 0; i < CALLS; i++) {
        printf("%-17s", CALL[i].name);
        for (int answer = 0; answer < ANSWERS; answer++) {
            if ((CALL[i].answers >> answer & 1) == 0)
                continue;
            printf(" %d:%" PRIu64, answer, counted[i][answer]);
            none += counted[i][answer] == 0;
        }
        printf("\n");
    }
    return none;
}

int main(int count, char **words)
{
    if (count < 2) {
        fprintf(stderr, "fuzz SECONDS [SEED]\n");
        return 2;
    }
    double wanted = strtod(words[1], NULL), begun = seconds();
    seed = count > 2 ? strtoull(words[2], NULL, 10) : (uint64_t)time(NULL);
    word = seed * 2 + 1;
    int signals[] = {SIGSEGV, SIGBUS, SIGFPE, SIGILL, SIGABRT, SIGTRAP};
    for (size_t i = 0; i < sizeof signals / sizeof signals[0]; i++)
        signal(signals[i], faulted);
    struct rooms at = {
        room(sizeof *at.device), room(sizeof *at.duty),   room(sizeof *at.rates),
        room(sizeof *at.message), room(sizeof *at.clock), room(sizeof *at.eps),
        room(sizeof *at.effect), room(sizeof *at.report), room(sizeof *at.parent),
        room(sizeof *at.lowered), room(sizeof *at.ticked), room(sizeof *at.acts),  room(sizeof *at.epoch),
        room(sizeof *at.ports),   room(sizeof *at.bytes),
    };
    while (seconds() - begun < wanted || (wanted >= 3 && calls < FEWEST))
        for (int i = 0; i < 4096; i++)
            one_call(&at);
    int none = missing();
    printf("fuzz: seed %" PRIu64 ", %" PRIu64 " calls in %.0f s, no fault, %d answers never came\n", seed,
           calls, seconds() - begun, none);
    return none != 0 && wanted >= 3;
}
