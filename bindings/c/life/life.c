/* The code of docs/LIFE-OF-A-DEVICE.md in a fabric of five devices: each procedure of that page.
 *
 *     life PROCEDURE SEED FOLDER
 *
 * life_page.h has the blocks of the page, as bindings/blocks writes them, and duties.h what sundial-duty makes of
 * topology.toml and its plans. Nothing of the devices is called but what the page shows: the names of the
 * library's calls are those of functions below, which call it and record the call.
 *
 * A procedure writes a schedule for each life of the fabric, FOLDER/schedule-1 and so on, and what a replay of it has to
 * print, FOLDER/told-1. For each it prints a line
 *
 *     life NUMBER PREMISE PLAN..
 *
 * with the premise that the replay has to name first, or `none`, and the plans of the replay.
 *
 * The network brings a message up to twice its greatest delay late where it was sent over a link that was down, or to a
 * device that was. It brings all of them, also over a link that is down: the ports have to drop them. */
#include <inttypes.h>
#include <stdio.h>
#include <stdlib.h>
#include <string.h>

#include "recorder.h"
#include "sundial_device.h"

static uint32_t told_start_wide(struct sundial_device *device, const struct sundial_duty *duty, uint64_t counter,
                                const struct sundial_wide *clock, const struct sundial_wide *eps);
static uint32_t told_join_wide(struct sundial_device *device, const struct sundial_rates *rates, uint64_t counter,
                               const struct sundial_wide *clock, const struct sundial_wide *eps);
static uint32_t told_fix_wide(struct sundial_device *device, uint64_t counter, const struct sundial_wide *clock,
                              const struct sundial_wide *eps);
static uint32_t told_tick(struct sundial_device *device, uint64_t counter, struct sundial_effect *effect);
static uint32_t told_receive(struct sundial_device *device, uint32_t link, const struct sundial_message *message,
                             uint64_t counter, struct sundial_effect *effect);
static uint32_t told_give(struct sundial_device *device, const struct sundial_duty *duty);
static uint32_t told_commit(struct sundial_device *device, uint64_t counter);
static uint32_t told_seal(struct sundial_device *device);

#define sundial_start_wide told_start_wide
#define sundial_join_wide told_join_wide
#define sundial_fix_wide told_fix_wide
#define sundial_tick told_tick
#define sundial_receive told_receive
#define sundial_give told_give
#define sundial_commit told_commit
#define sundial_seal told_seal
#include "life_page.h"
#undef sundial_start_wide
#undef sundial_join_wide
#undef sundial_fix_wide
#undef sundial_tick
#undef sundial_receive
#undef sundial_give
#undef sundial_commit
#undef sundial_seal

enum { DEVICES = SUNDIAL_DEVICES, LINKS = SUNDIAL_LINKS, FLIGHTS = 4096, MOST_PLANS = 4, MOST_PATH = 1024 };
enum { S0, S1, S2, L0, L1 };
enum { S0_L1 = 1, S1_L1 = 3, S2_L1 = 5 };
enum { WHOLE, WITHOUT_S0, ANEW }; /* the plans that duties.h has */

static const uint64_t US = 1000000, PERIOD = 100000000, LEAST_DELAY = 400000, GREATEST_DELAY = 1000000;
static const uint64_t PAUSE = 97000000, DAY = 1000000000;     /* between two reports; between two rebases */
static const uint64_t ROOT_EPS = 500, EPS = 1000000, BOOT = 10000000; /* of clocks; when the fabric begins */

struct flight {
    uint64_t number, comes_at;
    uint32_t link, receiver;
    struct sundial_message message;
    int is_used;
};

struct node {
    struct kept me;                              /* in memory */
    uint8_t stable[SUNDIAL_KEPT_SIZE(SUNDIAL_LINKS)]; /* what outlives the process */
    uint64_t first;         /* what its hardware showed at `changed_at` */
    uint64_t millionths;    /* how far that advances in 1000000 ps of the reference time */
    uint64_t changed_at, next_tick, rebased;
    uint64_t begun;         /* what its hardware showed at its latest start or join */
    int is_up, is_member;   /* whether its process runs; whether it has begun and not failed since */
    int has_stable;
};

static struct node nodes[DEVICES];
static struct flight flights[FLIGHTS];
static const struct flight *coming;
static struct sundial_recorder recorder;
static FILE *told;
static const char *folder;
static uint32_t self; /* the device whose code runs */
static uint32_t first_epoch = 1;
static int sequence[MOST_PLANS]; /* the plans of this life, by epoch less first_epoch */
static int plans, life_number, is_down[LINKS], wraps, rebases;
static uint64_t now, next_ask, word, reports, dropped, restored, lowerings;
static const char *wanted;

static void stop(const char *why)
{
    fprintf(stderr, "life: at %" PRIu64 ": %s\n", now, why);
    exit(1);
}

static void expect(int holds, const char *what)
{
    if (!holds)
        stop(what);
}

static void done(uint32_t answer, const char *what)
{
    if (answer != SUNDIAL_DONE) {
        fprintf(stderr, "life: %s of %s answered %" PRIu32 "\n", what, SUNDIAL_DEVICE_NAMES[self], answer);
        stop("a call was refused");
    }
}

/* Below the bound (xorshift64*). */
static uint64_t chance(uint64_t bound)
{
    word ^= word >> 12;
    word ^= word << 25;
    word ^= word >> 27;
    return (word * UINT64_C(2685821657736338717) >> 32) % bound;
}

static int write_file(void *to, const char *text, size_t bytes)
{
    return fwrite(text, 1, bytes, to) == bytes ? 0 : -1;
}

/* The four functions that the page leaves to its reader, each of the device whose code runs. */

uint64_t read_hardware(void)
{
    const struct node *node = &nodes[self];
    uint64_t since = now - node->changed_at;
    return node->first + since / 1000000 * node->millionths + since % 1000000 * node->millionths / 1000000;
}

static struct flight *free_place(void)
{
    for (int i = 0; i < FLIGHTS; i++)
        if (!flights[i].is_used)
            return &flights[i];
    stop("too many messages are on their way");
    return NULL;
}

void send_below(const struct sundial_message *message)
{
    int plan = sequence[message->epoch - first_epoch];
    for (uint32_t i = SUNDIAL_FIRST_CHILD[plan][self]; i < SUNDIAL_FIRST_CHILD[plan][self + 1]; i++) {
        const struct sundial_child *child = &SUNDIAL_CHILDREN[i];
        int reaches = !is_down[child->link] && nodes[child->device].is_member;
        uint64_t most = reaches ? GREATEST_DELAY : 2 * GREATEST_DELAY;
        uint64_t comes_at = now + LEAST_DELAY + chance(most - LEAST_DELAY + 1);
        *free_place() = (struct flight){sundial_record_sent(&recorder), comes_at, child->link, child->device, *message, 1};
    }
}

void store(const uint8_t *bytes, size_t size)
{
    expect(size == sizeof nodes[self].stable, "what is kept has another size");
    memcpy(nodes[self].stable, bytes, size);
    nodes[self].has_stable = 1;
}

int read_stored(uint8_t *bytes, size_t size)
{
    if (nodes[self].has_stable)
        memcpy(bytes, nodes[self].stable, size);
    return nodes[self].has_stable;
}

/* The calls of the page, recorded. The recorder is told the hardware's counter less that of the begin. */

static uint64_t since_begin(uint64_t counter)
{
    return counter + nodes[self].me.lowered - nodes[self].begun;
}

static uint32_t recorded(uint32_t answer, uint64_t line)
{
    expect(answer != SUNDIAL_DONE || line != 0, "the schedule cannot be written");
    return answer;
}

static uint32_t told_start_wide(struct sundial_device *device, const struct sundial_duty *duty, uint64_t counter,
                                const struct sundial_wide *clock, const struct sundial_wide *eps)
{
    uint32_t answer = sundial_start_wide(device, duty, counter, clock, eps);
    nodes[self].begun = nodes[self].me.lowered;
    return recorded(answer, sundial_record_start(&recorder, now, self, since_begin(counter), clock->low, eps->low));
}

static uint32_t told_join_wide(struct sundial_device *device, const struct sundial_rates *rates, uint64_t counter,
                               const struct sundial_wide *clock, const struct sundial_wide *eps)
{
    uint32_t answer = sundial_join_wide(device, rates, counter, clock, eps);
    nodes[self].begun = nodes[self].me.lowered;
    return recorded(answer, sundial_record_join(&recorder, now, self, since_begin(counter), clock->low, eps->low));
}

static uint32_t told_fix_wide(struct sundial_device *device, uint64_t counter, const struct sundial_wide *clock,
                              const struct sundial_wide *eps)
{
    uint32_t answer = sundial_fix_wide(device, counter, clock, eps);
    return recorded(answer, sundial_record_fix(&recorder, now, self, since_begin(counter), clock->low, eps->low));
}

static uint32_t told_tick(struct sundial_device *device, uint64_t counter, struct sundial_effect *effect)
{
    uint32_t answer = sundial_tick(device, counter, effect);
    return recorded(answer, sundial_record_tick(&recorder, now, self, since_begin(counter)));
}

static uint32_t told_receive(struct sundial_device *device, uint32_t link, const struct sundial_message *message,
                             uint64_t counter, struct sundial_effect *effect)
{
    uint32_t answer = sundial_receive(device, link, message, counter, effect);
    dropped--; /* (it was counted before it was handed to the page's code) */
    return recorded(answer, sundial_record_receive(&recorder, now, self, since_begin(counter), link, message,
                                                   coming->number));
}

static uint32_t told_give(struct sundial_device *device, const struct sundial_duty *duty)
{
    uint32_t answer = sundial_give(device, duty);
    return recorded(answer, sundial_record_give(&recorder, now, self));
}

static uint32_t told_commit(struct sundial_device *device, uint64_t counter)
{
    uint32_t answer = sundial_commit(device, counter);
    return recorded(answer, sundial_record_commit(&recorder, now, self, since_begin(counter)));
}

static uint32_t told_seal(struct sundial_device *device)
{
    uint32_t answer = sundial_seal(device);
    return recorded(answer, sundial_record_seal(&recorder, now, self));
}

/* What happens to the devices. */

static struct kept *of(uint32_t device)
{
    self = device;
    return &nodes[device].me;
}

static struct sundial_wide wide(uint64_t number)
{
    return (struct sundial_wide){number, 0};
}

/* A clock that is off by at most this. */
static struct sundial_wide clock_within(uint64_t eps)
{
    uint64_t ahead = now + chance(2 * eps + 1);
    return wide(ahead < eps ? 0 : ahead - eps);
}

static uint64_t eps_of(uint32_t device)
{
    return device == S0 ? ROOT_EPS : EPS;
}

static struct sundial_duty duty_of(uint32_t device, uint32_t epoch)
{
    struct sundial_duty duty = SUNDIAL_DUTIES[sequence[epoch - first_epoch]][device];
    duty.epoch = epoch;
    return duty;
}

static void next_tick_within(uint64_t least, uint64_t most)
{
    nodes[self].next_tick = now + least + chance(most - least);
}

/* Power comes: the hardware counts from anywhere, or from less than 3 ms before its end. */
static void power_up(uint32_t device)
{
    struct node *node = &nodes[device];
    memset(node, 0, sizeof *node);
    node->first = wraps ? UINT64_MAX - 300 * US - chance(2500 * US) : chance(UINT64_MAX);
    node->millionths = 999960 + chance(81);
    node->changed_at = now;
    node->is_up = node->is_member = 1;
    self = device;
}

static void close_what_is_down(void)
{
    for (uint32_t link = 0; link < LINKS; link++)
        if (is_down[link])
            failed(of(self), link);
}

static void boot_one(uint32_t device)
{
    struct sundial_wide eps = wide(eps_of(device)), clock = clock_within(eps.low);
    struct sundial_duty duty = duty_of(device, first_epoch);
    power_up(device);
    done(boot(of(device), &duty, read_hardware(), &clock, &eps), "boot");
    close_what_is_down();
    next_tick_within(1, SUNDIAL_TICK);
}

static void join_one(uint32_t device, uint32_t epoch)
{
    struct sundial_wide eps = wide(EPS), clock = clock_within(EPS);
    struct sundial_duty duty = duty_of(device, epoch);
    expect(sundial_record_mend_device(&recorder, now, device) != 0, "a line");
    power_up(device);
    done(join(of(device), &duty, &clock, &eps), "join");
    close_what_is_down();
    next_tick_within(1, SUNDIAL_TICK);
}

static void tick_one(uint32_t device)
{
    if (rebases && now - nodes[device].rebased >= DAY) {
        uint64_t before = of(device)->lowered;
        nodes[device].rebased = now;
        done(rebase(of(device)), "rebase");
        lowerings += before != of(device)->lowered;
    }
    done(tick(of(device)), "tick");
    next_tick_within(SUNDIAL_TICK / 2, SUNDIAL_TICK);
}

static void arrive(struct flight *flight)
{
    flight->is_used = 0;
    if (!nodes[flight->receiver].is_up)
        return;
    coming = flight;
    dropped++;
    done(receive(of(flight->receiver), flight->link, &flight->message), "receive");
}

/* The reference time lies in what the device answers. */
static void ask(uint32_t device)
{
    struct sundial_clock_report report = {{0, 0}, {0, 0}};
    struct kept *me = of(device);
    uint64_t counter = read_hardware() - me->lowered;
    done(sundial_report(&me->device, counter, &report), "report");
    uint64_t line = sundial_record_report(&recorder, now, device, since_begin(counter));
    struct sundial_wide earliest = sundial_earliest(&report), latest = sundial_latest(&report);
    expect(line != 0 && earliest.high == 0 && latest.high == 0 && earliest.low <= now && now <= latest.low, "an interval");
    fprintf(told, "report %" PRIu64 " %s %" PRIu64 " %" PRIu64 "\n", line, SUNDIAL_DEVICE_NAMES[device], report.clock.low,
            report.eps.low);
    reports++;
}

static void ask_all(void)
{
    for (uint32_t device = 0; device < DEVICES; device++)
        if (nodes[device].is_up)
            ask(device);
}

/* What comes next: a tick, a message or the next reports. */
struct next {
    uint64_t at;
    struct flight *flight;
    uint32_t ticks; /* DEVICES where none does */
};

static struct next next_one(void)
{
    struct next next = {next_ask, NULL, DEVICES};
    for (uint32_t device = 0; device < DEVICES; device++)
        if (nodes[device].is_up && nodes[device].next_tick < next.at)
            next = (struct next){nodes[device].next_tick, NULL, device};
    for (int i = 0; i < FLIGHTS; i++)
        if (flights[i].is_used && flights[i].comes_at < next.at)
            next = (struct next){flights[i].comes_at, &flights[i], DEVICES};
    return next;
}

static void do_next(const struct next *next)
{
    now = next->at;
    if (next->flight != NULL)
        arrive(next->flight);
    else if (next->ticks < DEVICES)
        tick_one(next->ticks);
    else {
        next_ask = now + PAUSE;
        ask_all();
    }
}

static void run_until(uint64_t at)
{
    for (struct next next = next_one(); next.at < at; next = next_one())
        do_next(&next);
    now = at;
}

static void run_for(uint64_t ps)
{
    run_until(now + ps);
}

/* Whether what comes next makes this device send: tried on copies. */
static int sends_next(const struct next *next, uint32_t device)
{
    struct sundial_effect effect = {{{0, 0}, {0, 0}, {0, 0}, 0}, 0};
    struct kept copy = *of(device);
    uint64_t then = now;
    now = next->at;
    uint64_t counter = read_hardware() - copy.lowered;
    now = then;
    if (next->ticks == device)
        return sundial_tick(&copy.device, counter, &effect) == SUNDIAL_DONE && effect.sends;
    return next->flight != NULL && next->flight->receiver == device
           && sundial_receive(&copy.device, next->flight->link, &next->flight->message, counter, &effect) == SUNDIAL_DONE
           && effect.sends;
}

/* Until right before the device sends. */
static void run_until_sends(uint32_t device)
{
    struct next next = next_one();
    for (; !sends_next(&next, device); next = next_one())
        do_next(&next);
    now = next.at;
}

/* The fabric lives anew. What is on its way stays on its way. */
static void begin_life(const char *premise, uint32_t epoch, int first, int second, int third)
{
    char path[MOST_PATH];
    const int all[] = {first, second, third};
    first_epoch = epoch;
    for (plans = 0; plans < 3 && all[plans] >= 0; plans++)
        sequence[plans] = all[plans];
    wanted = premise;
    life_number++;
    reports = 0;
    next_ask = now + PAUSE;
    snprintf(path, sizeof path, "%s/schedule-%d", folder, life_number);
    recorder = (struct sundial_recorder){.write = write_file, .to = fopen(path, "w")};
    snprintf(path, sizeof path, "%s/told-%d", folder, life_number);
    told = fopen(path, "w");
    expect(recorder.to != NULL && told != NULL, "a file");
}

static void end_life(void)
{
    now++;
    uint64_t line = sundial_record_end(&recorder, now);
    fprintf(told, "done %" PRIu64 " %" PRIu64 "\n", line, reports);
    expect(line != 0 && fclose(recorder.to) == 0 && fclose(told) == 0, "a file");
    printf("life %d %s", life_number, wanted);
    for (int i = 0; i < plans; i++)
        printf(" plan-%d.json", sequence[i] + 1);
    printf("\n");
}

/* All members of the first plan, in an order of chance, within this time of the first. */
static void boot_all(uint64_t within)
{
    uint64_t at[DEVICES], first = now;
    for (uint32_t device = 0; device < DEVICES; device++)
        at[device] = first + (device == chance(DEVICES) ? 0 : chance(within));
    at[chance(DEVICES)] = first;
    for (;;) {
        uint32_t next = DEVICES;
        for (uint32_t device = 0; device < DEVICES; device++)
            if (at[device] != UINT64_MAX && (next == DEVICES || at[device] < at[next]))
                next = device;
        if (next == DEVICES)
            return;
        run_until(at[next]);
        at[next] = UINT64_MAX;
        if (SUNDIAL_DUTIES[sequence[0]][next].epoch != 0)
            boot_one(next);
    }
}

static void fail_device(uint32_t device)
{
    nodes[device].is_up = nodes[device].is_member = 0;
    expect(sundial_record_fail_device(&recorder, now, device) != 0, "a line");
}

/* The other end of a link of l1. */
static uint32_t spine_of(uint32_t link)
{
    return link == S0_L1 ? S0 : link == S1_L1 ? S1 : S2;
}

static void fail_link(uint32_t link)
{
    is_down[link] = 1;
    if (nodes[L1].is_up)
        failed(of(L1), link);
    if (nodes[spine_of(link)].is_up)
        failed(of(spine_of(link)), link);
    expect(sundial_record_fail_link(&recorder, now, link) != 0, "a line");
}

static void mend_end(uint32_t device, uint32_t link, uint32_t epoch)
{
    struct sundial_duty duty = duty_of(device, epoch);
    if (duty.has_primary && duty.primary.link == link)
        mended(of(device), &duty.primary, &duty.rates);
    if (duty.has_backup && duty.backup.link == link)
        mended(of(device), &duty.backup, &duty.rates);
}

static void mend_link(uint32_t link, uint32_t epoch)
{
    is_down[link] = 0;
    expect(sundial_record_mend_link(&recorder, now, link) != 0, "a line");
    mend_end(L1, link, epoch);
    mend_end(spine_of(link), link, epoch);
}

static void stage(void)
{
    expect(sundial_record_stage(&recorder, now) != 0, "a line");
}

/* Each device follows its primary parent of the plan, and its root acts. */
static void check_plan(uint32_t epoch)
{
    for (uint32_t device = 0; device < DEVICES; device++) {
        struct sundial_duty duty = duty_of(device, epoch);
        struct sundial_optional_parent parent = {0, 0};
        uint32_t its_epoch = 0;
        uint8_t acts = 0;
        if (!nodes[device].is_up)
            continue;
        struct kept *me = of(device);
        done(sundial_parent(&me->device, &parent), "parent");
        done(sundial_acts(&me->device, &acts), "acts");
        done(sundial_epoch(&me->device, &its_epoch), "epoch");
        expect(its_epoch == epoch && acts == (duty.role == SUNDIAL_ROOT) && parent.has_parent == duty.has_primary
                   && (!parent.has_parent || parent.parent == duty.primary.parent),
               "a device does not follow the plan");
    }
}

/* Steps 5 to 8 of the page. */
static void renew(uint32_t epoch)
{
    for (uint32_t device = 0; device < DEVICES; device++) {
        struct sundial_duty duty = duty_of(device, epoch);
        if (nodes[device].is_up)
            done(give(of(device), &duty), "give");
    }
    run_for(10 * US);
    for (uint32_t device = 0; device < DEVICES; device++) {
        uint8_t acts = 0;
        if (!nodes[device].is_up)
            continue;
        done(sundial_acts(&of(device)->device, &acts), "acts");
        if (acts)
            done(commit(of(device)), "commit");
        else
            expect(commit(of(device)) == SUNDIAL_NOT_ROOT, "a commit by a device that does not act");
    }
    run_for(4 * PERIOD);
    for (uint32_t device = 0; device < DEVICES; device++)
        if (nodes[device].is_up)
            done(seal(of(device)), "seal");
    run_for(4 * PERIOD);
    check_plan(epoch);
}

static void fix_root(uint32_t device)
{
    struct sundial_wide eps = wide(ROOT_EPS), clock = clock_within(ROOT_EPS);
    uint8_t acts = 0;
    done(sundial_acts(&of(device)->device, &acts), "acts");
    expect(acts, "the root does not act");
    done(set_clock(of(device), &clock, &eps), "set_clock");
    ask(device);
}

/* The procedures. */

static void begin_whole(const char *premise, int second, int third)
{
    begin_life(premise, 1, WHOLE, second, third);
    boot_all(SUNDIAL_TICK);
}

static void boots(void)
{
    begin_whole("none", -1, -1);
    run_for(30 * PERIOD);
    check_plan(1);
    end_life();
}

/* The root starts within the waits of the others, and not within a tick of them. */
static void starts_late(void)
{
    begin_life("tick", 1, WHOLE, -1, -1);
    for (uint32_t device = S1; device < DEVICES; device++)
        boot_one(device);
    run_for(SUNDIAL_TICK + US);
    boot_one(S0);
    run_for(10 * PERIOD);
    end_life();
}

/* The process of the device ends, and begins again after this pause. */
static int restart(uint32_t device, uint64_t pause)
{
    nodes[device].is_up = 0;
    memset(&nodes[device].me, 0, sizeof nodes[device].me);
    run_for(pause);
    uint32_t answer = restore(of(device));
    if (answer == SUNDIAL_TOO_LATE)
        return 0;
    done(answer, "restore");
    restored++;
    nodes[device].is_up = 1;
    tick_one(device);
    return 1;
}

static void restores(void)
{
    begin_whole("none", WHOLE, -1);
    run_for(5 * PERIOD);
    for (int i = 0; i < 40; i++) {
        uint32_t device = (uint32_t)chance(DEVICES);
        run_for(3 * PERIOD + chance(PERIOD));
        uint64_t since_tick = now + SUNDIAL_TICK - nodes[device].next_tick; /* (or less) */
        uint64_t most = SUNDIAL_TICK - (since_tick < SUNDIAL_TICK ? since_tick : SUNDIAL_TICK);
        expect(restart(device, chance(most + 1) / 2) == 1, "a short pause is no failure");
    }
    run_for(4 * PERIOD);
    check_plan(1);
    /* A process that ends right before a tick is due has no time left, though its pause is shorter than a tick. */
    run_until(nodes[L1].next_tick - 1000);
    fail_device(L1);
    expect(restart(L1, SUNDIAL_TICK - 2000) == 0, "a pause of more than a tick since the latest tick");
    run_for(3 * PERIOD);
    stage();
    join_one(L1, 2);
    renew(2);
    end_life();
}

static void resets(void)
{
    begin_whole("none", WHOLE, -1);
    run_for(5 * PERIOD + chance(PERIOD));
    fail_device(L1);
    run_for(20 * PERIOD + chance(PERIOD));
    stage();
    join_one(L1, 2);
    run_for(chance(PERIOD));
    renew(2);
    end_life();
}

/* The root fails. The backup root takes over, a plan leaves the old root out, and another one takes it in again. */
static void replaces(void)
{
    begin_whole("none", WITHOUT_S0, ANEW);
    run_for(5 * PERIOD + chance(PERIOD));
    fix_root(S0);
    run_for(chance(PERIOD));
    fail_device(S0);
    run_for(30 * PERIOD);
    fix_root(S1);
    run_for(2 * PERIOD + chance(PERIOD));
    stage();
    renew(2);
    run_for(chance(PERIOD));
    stage();
    join_one(S0, 3);
    run_for(chance(PERIOD));
    renew(3);
    end_life();
}

/* A leaf and its links fail, and come back one by one, this many periods apart. Each comes back right before a message
 * over it is sent. */
static void mends_apart(const char *premise, uint64_t periods)
{
    begin_whole(premise, WHOLE, -1);
    run_for(5 * PERIOD);
    fail_device(L1);
    fail_link(S0_L1);
    fail_link(S1_L1);
    fail_link(S2_L1);
    run_for(20 * PERIOD);
    stage();
    join_one(L1, 2);
    run_for(3 * PERIOD);
    run_until_sends(S0);
    mend_link(S0_L1, 2);
    run_for(periods * PERIOD - PERIOD / 2);
    run_until_sends(S1);
    mend_link(S1_L1, 2);
    run_for(3 * PERIOD);
    mend_link(S2_L1, 2);
    expect(dropped >= 2, "a message was not dropped");
    run_for(3 * PERIOD);
    renew(2);
    run_for(3 * DAY);
    check_plan(2);
    end_life();
}

static void mends(void)
{
    mends_apart("none", SUNDIAL_REPAIRS_APART / PERIOD);
}

static void mends_in_haste(void)
{
    mends_apart("loss", 1);
}

static void steps(void)
{
    begin_whole("none", -1, -1);
    for (int i = 0; i < 10; i++) {
        run_for(3 * PERIOD + chance(PERIOD));
        fix_root(S0);
    }
    run_for(3 * PERIOD);
    end_life();
}

/* l1 hears nothing over its primary link, and moves to its backup parent. */
static void falls_silent(void)
{
    struct sundial_optional_parent parent = {0, 0};
    begin_whole("none", -1, -1);
    run_for(5 * PERIOD + chance(PERIOD));
    fail_link(S0_L1);
    run_for(SUNDIAL_DUTIES[WHOLE][L1].wait + 5 * PERIOD);
    done(sundial_parent(&of(L1)->device, &parent), "parent");
    expect(parent.has_parent && parent.parent == S1, "l1 does not follow its backup parent");
    end_life();
}

/* Rebased once a day, which is a millisecond here, and across the end of the hardware's counter. Ports are opened long
 * before a rebase, and right before one. */
static void years(void)
{
    rebases = 1;
    mends();
    expect(lowerings > 20, "few rebases lowered anything");
}

static void wraps_around(void)
{
    wraps = 1;
    years();
}

/* No device makes a call any more. */
static void cut_all(void)
{
    for (uint32_t device = 0; device < DEVICES; device++)
        nodes[device].is_up = nodes[device].is_member = 0;
}

/* Both roots fail before a new plan is brought in: nobody acts. The fabric begins anew without the first. */
static void loses_both(void)
{
    begin_whole("domain", -1, -1);
    run_for(5 * PERIOD + chance(PERIOD));
    fail_device(S0);
    run_for(chance(PERIOD));
    fail_device(S1);
    run_for(100 * PERIOD);
    ask_all();
    end_life();
    cut_all();
    begin_life("none", 2, WITHOUT_S0, -1, -1);
    for (uint32_t device = S2; device < DEVICES; device++) {
        struct sundial_duty duty = duty_of(device, 2);
        nodes[device].is_up = nodes[device].is_member = 1;
        done(begin_again(of(device), &duty), "begin_again");
        next_tick_within(1, SUNDIAL_TICK);
        run_for(chance(SUNDIAL_TICK / 4));
    }
    boot_one(S1);
    run_for(20 * PERIOD);
    check_plan(2);
    end_life();
}

/* All power goes while messages are on their way, and comes back at once. */
static void loses_power(void)
{
    begin_whole("none", -1, -1);
    run_for(5 * PERIOD + chance(PERIOD));
    run_until_sends(L0);
    run_for(1);
    end_life();
    cut_all();
    uint64_t before = dropped;
    begin_life("none", 2, WHOLE, -1, -1);
    for (uint32_t device = 0; device < DEVICES; device++)
        boot_one(device);
    run_for(20 * PERIOD);
    expect(dropped > before, "no message of the old life came");
    check_plan(2);
    end_life();
}

static const struct {
    const char *name;
    void (*run)(void);
} PROCEDURES[] = {
    {"boot", boots},   {"late", starts_late},     {"restore", restores}, {"reset", resets},     {"replace", replaces},
    {"mends", mends},  {"hasty", mends_in_haste}, {"step", steps},       {"silence", falls_silent}, {"years", years},
    {"wrap", wraps_around}, {"both", loses_both}, {"power", loses_power},
};

int main(int count, char **words)
{
    if (count == 4) {
        word = strtoull(words[2], NULL, 10) * 2 + 1;
        folder = words[3];
        now = BOOT;
        for (size_t i = 0; i < sizeof PROCEDURES / sizeof PROCEDURES[0]; i++)
            if (strcmp(words[1], PROCEDURES[i].name) == 0) {
                PROCEDURES[i].run();
                return 0;
            }
    }
    fprintf(stderr, "life PROCEDURE SEED FOLDER\n");
    for (size_t i = 0; i < sizeof PROCEDURES / sizeof PROCEDURES[0]; i++)
        printf("%s\n", PROCEDURES[i].name);
    return 2;
}
