/* A small fabric whose devices run the library. Its root is fixed and fails. The backup root takes
 * over and is fixed. A renewal leaves the failed device out. A message is lost, a link fails, and a
 * second renewal takes device and link in again.
 *
 *     embed SEED SCHEDULE [log|compact|drift|tick]
 *
 * prints a line for each report, as `sundial replay` prints it, and writes the schedule of all that
 * happened, or with `log` a log of the same. With `compact` each device writes a compact log of its
 * own, as SCHEDULE.s0, and the operator SCHEDULE.operator. Merged by reference they are in the order
 * of the schedule: of one reference first the operator's, then those of the devices by number.
 * `drift` lets one oscillator run too fast from the
 * middle on, `tick` lets one device miss its ticks for a while. Without these two each report has
 * to contain the reference time. Where SEED is even each device is rebased before each of its ticks,
 * and nothing else differs. */
#include <inttypes.h>
#include <stdio.h>
#include <stdlib.h>
#include <string.h>

#include "fabric.h"
#include "recorder.h"

enum { FLIGHTS = 4096, MOST_PATH = 1024, OPERATOR = DEVICES };

/* When what happens, in ps of the reference time. */
static const uint64_t FIX_FIRST = 300000000, FAIL = 600000000, FIX_SECOND = 3600000000,
                      LOSE = 3800000000, RENEW = 4000000000, COMMIT = 4001000000,
                      SEAL = 4600000000, CUT = 4700000000, RESTART = 4800000000,
                      REPAIR = 5000000000, COMMIT_AGAIN = 5001000000, SEAL_AGAIN = 5600000000,
                      END = 6600000000;

static const uint64_t ROOT_EPS = 500, EPS = 1000000; /* of clocks that are set, in ps */

static const uint64_t PAUSE = 97000000; /* between two reports */

struct flight {
    uint64_t number;
    uint64_t comes_at;
    uint32_t link;
    uint32_t receiver;
    struct sundial_message message;
    int is_used;
};

struct node {
    struct sundial_device device;
    uint64_t first;      /* its counter at `changed_at` */
    uint64_t millionths; /* how far it advances since then in 1000000 ps of the reference time */
    uint64_t changed_at; /* a reference time: that of its begin at first */
    uint64_t next_tick;
    uint64_t lowered; /* by how much rebases lowered its counter, in all */
    struct sundial_port ports[LINKS];
    int is_up;
};

static struct node nodes[DEVICES];
static struct flight flights[FLIGHTS];
static struct flight held; /* the latest message to s2 over S2_L0 while that was down: it comes after the mend */
static uint64_t now, reports, word, dropped, lines;
static struct sundial_recorder recorders[DEVICES + 1]; /* of each device and the operator, or the first of all */
static int is_down[LINKS]; /* which links have failed */
static int is_fast, is_late, is_faulty, has_lost, rebases, are_apart;

static void stop(const char *why)
{
    fprintf(stderr, "embed: at %" PRIu64 ": %s\n", now, why);
    exit(1);
}

static void check(uint32_t answer, const char *what)
{
    if (answer != SUNDIAL_DONE) {
        fprintf(stderr, "embed: %s answered %" PRIu32 "\n", what, answer);
        stop("a call was refused");
    }
}

/* A recorder wrote its line of this number. The answer is the number of the line in a schedule. */
static uint64_t recorded(uint64_t line)
{
    if (line == 0)
        stop("the schedule cannot be written");
    lines++;
    if (!are_apart && line != lines)
        stop("the recorder counts its lines wrongly");
    return lines;
}

/* Who writes what happens to this device, or what the operator sees. */
static struct sundial_recorder *recorder_of(uint32_t number)
{
    return &recorders[are_apart ? number : 0];
}

static int write_file(void *to, const char *text, size_t bytes)
{
    return fwrite(text, 1, bytes, to) == bytes ? 0 : -1;
}

/* A word of chance below the bound (xorshift64*). */
static uint64_t chance(uint64_t bound)
{
    word ^= word >> 12;
    word ^= word << 25;
    word ^= word >> 27;
    return (word * UINT64_C(2685821657736338717) >> 32) % bound;
}

static uint64_t counter_of(const struct node *node)
{
    uint64_t since = now - node->changed_at;
    return node->first + since / 1000000 * node->millionths
           + since % 1000000 * node->millionths / 1000000;
}

/* The counter as its device knows it: lowered by what rebases lowered it. The recorder is told the
 * counter itself, which never falls. */
static uint64_t lowered(const struct node *node, uint64_t counter)
{
    return counter - node->lowered;
}

/* A clock that is off by at most this many ps. */
static uint64_t clock_within(uint64_t eps)
{
    uint64_t ahead = now + chance(2 * eps + 1);
    return ahead < eps ? 0 : ahead - eps;
}

static int follows(const struct sundial_duty *duty, uint32_t parent, uint32_t link)
{
    return (duty->has_primary && duty->primary.parent == parent && duty->primary.link == link)
           || (duty->has_backup && duty->backup.parent == parent && duty->backup.link == link);
}

static struct flight *free_place(void)
{
    for (int i = 0; i < FLIGHTS; i++)
        if (!flights[i].is_used)
            return &flights[i];
    stop("too many messages are on their way");
    return NULL;
}

/* One message over each link below the sender, by its plan, in the order of the links. */
static void send_on(uint32_t sender, const struct sundial_effect *effect)
{
    if (effect->sends == 0)
        return;
    uint32_t epoch;
    check(sundial_epoch(&nodes[sender].device, &epoch), "epoch");
    for (uint32_t link = 0; link < LINKS; link++) {
        if (ENDS[link][0] != sender && ENDS[link][1] != sender)
            continue;
        uint32_t receiver = ENDS[link][0] == sender ? ENDS[link][1] : ENDS[link][0];
        if (!follows(&DUTIES[epoch - 1][receiver], sender, link))
            continue;
        uint64_t comes_at = now + LEAST_DELAY + chance(GREATEST_DELAY - LEAST_DELAY + 1);
        struct flight flight = {sundial_record_sent(&recorders[0]), comes_at, link, receiver, effect->message, 1};
        if (!is_down[link])
            *free_place() = flight;
        else if (link == S2_L0 && receiver == S2)
            held = flight;
    }
}

static void power_up(struct node *node)
{
    memset(node, 0, sizeof *node);
    node->first = chance(1000000);
    node->millionths = 999960 + chance(81);
    node->changed_at = now;
    node->next_tick = now + 1 + chance(TICK);
    node->is_up = 1;
}

/* From now on the device drops what comes over the link, until no older message can. All links delay alike. */
static void open_port(struct node *node, uint32_t link)
{
    check(sundial_port_open(&node->ports[link], &DUTIES[0][L0].primary, &DUTIES[0][L0].rates, lowered(node, counter_of(node))),
          "port_open");
}

static void open_ports(struct node *node)
{
    for (uint32_t link = 0; link < LINKS; link++)
        open_port(node, link);
}

static void start(uint32_t number)
{
    struct node *node = &nodes[number];
    uint64_t eps = number == S0 ? ROOT_EPS : EPS;
    power_up(node);
    open_ports(node);
    uint64_t counter = counter_of(node), clock = clock_within(eps);
    check(sundial_start(&node->device, &DUTIES[0][number], counter, clock, eps), "start");
    recorded(sundial_record_start(recorder_of(number), now, number, counter, clock, eps));
}

static void join(uint32_t number)
{
    struct node *node = &nodes[number];
    power_up(node);
    open_ports(node);
    uint64_t counter = counter_of(node), clock = clock_within(EPS);
    check(sundial_join(&node->device, &DUTIES[0][number].rates, counter, clock, EPS), "join");
    recorded(sundial_record_join(recorder_of(number), now, number, counter, clock, EPS));
}

static void rebase(struct node *node, uint64_t counter)
{
    uint64_t by = 0;
    check(sundial_rebase_with_ports(&node->device, node->ports, LINKS, lowered(node, counter), &by), "rebase");
    node->lowered += by;
}

static void tick(uint32_t number)
{
    struct sundial_effect effect = {0};
    struct node *node = &nodes[number];
    uint64_t counter = counter_of(node);
    if (rebases)
        rebase(node, counter);
    check(sundial_tick(&node->device, lowered(node, counter), &effect), "tick");
    recorded(sundial_record_tick(recorder_of(number), now, number, counter));
    send_on(number, &effect);
    node->next_tick = now + TICK / 2 + chance(TICK / 2);
    if (is_late && number == L1 && now > END / 2) {
        is_late = 0;
        node->next_tick += TICK;
    }
}

static void receive(struct flight *flight)
{
    struct sundial_effect effect = {0};
    uint32_t number = flight->receiver;
    struct node *node = &nodes[number];
    uint64_t counter = counter_of(node);
    flight->is_used = 0;
    if (!node->is_up || is_down[flight->link])
        return;
    if (!sundial_port_takes(&node->ports[flight->link], lowered(node, counter))) {
        dropped++; /* (it may be older than the start, the join or the failure of the link) */
        return;
    }
    if (!has_lost && now > LOSE) {
        has_lost = 1;
        recorded(sundial_record_lose(recorder_of(OPERATOR), now, number, flight->link, &flight->message,
                                     flight->number));
        return;
    }
    check(sundial_receive(&node->device, flight->link, &flight->message, lowered(node, counter), &effect),
          "receive");
    recorded(sundial_record_receive(recorder_of(number), now, number, counter, flight->link, &flight->message,
                                    flight->number));
    send_on(number, &effect);
}

/* The reference time lies in what the device answers. */
static void check_now(uint32_t number)
{
    struct sundial_interval interval = {0};
    struct sundial_wide at = {now, 0};
    check(sundial_now(&nodes[number].device, lowered(&nodes[number], counter_of(&nodes[number])), &interval), "now");
    if (sundial_has_passed(&interval, at))
        stop("the earliest time is too late");
    if (interval.latest.high == 0 && interval.latest.low < now)
        stop("the latest time is too early");
}

static void ask(uint32_t number)
{
    struct sundial_clock_report report = {0};
    uint64_t counter = counter_of(&nodes[number]);
    check(sundial_report(&nodes[number].device, lowered(&nodes[number], counter), &report), "report");
    uint64_t line = recorded(sundial_record_report(recorder_of(number), now, number, counter));
    reports++;
    printf("report %" PRIu64 " %s %" PRIu64 " %" PRIu64 "\n", line, NAMES[number],
           report.clock.low, report.eps.low);
    if (report.clock.high != 0 || report.eps.high != 0)
        stop("a report is too great");
    if (!is_faulty)
        check_now(number);
}

static void ask_all(void)
{
    for (uint32_t number = 0; number < DEVICES; number++)
        if (nodes[number].is_up)
            ask(number);
}

/* The clock of the device is set from a source that is as good as the root's first clock. */
static void fix(uint32_t number)
{
    struct node *node = &nodes[number];
    uint64_t counter = counter_of(node), clock = clock_within(ROOT_EPS);
    check(sundial_fix(&node->device, lowered(node, counter), clock, ROOT_EPS), "fix");
    recorded(sundial_record_fix(recorder_of(number), now, number, counter, clock, ROOT_EPS));
    ask(number);
}

static void fix_first(void)
{
    fix(S0);
}

static void fail_root(void)
{
    nodes[S0].is_up = 0;
    recorded(sundial_record_fail_device(recorder_of(OPERATOR), now, S0));
}

static void fix_second(void)
{
    uint8_t acts = 0;
    check(sundial_acts(&nodes[S1].device, &acts), "acts");
    if (acts == 0)
        stop("s1 has not taken over");
    fix(S1);
}

/* Every device that is up is given its duty in this plan. */
static void give_all(uint32_t plan)
{
    for (uint32_t number = 0; number < DEVICES; number++) {
        if (!nodes[number].is_up)
            continue;
        check(sundial_give(&nodes[number].device, &DUTIES[plan - 1][number]), "give");
        recorded(sundial_record_give(recorder_of(number), now, number));
    }
}

/* s1, the root of the plan that was given, goes over to it. */
static void commit(void)
{
    uint64_t counter = counter_of(&nodes[S1]);
    check(sundial_commit(&nodes[S1].device, lowered(&nodes[S1], counter)), "commit");
    recorded(sundial_record_commit(recorder_of(S1), now, S1, counter));
}

/* Plan 2 leaves out s0, which is down. */
static void renew(void)
{
    recorded(sundial_record_stage(recorder_of(OPERATOR), now));
    give_all(2);
}

/* The link from s2 to l0 fails. */
static void cut(void)
{
    is_down[S2_L0] = 1;
    recorded(sundial_record_fail_link(recorder_of(OPERATOR), now, S2_L0));
}

/* s0 and the link are repaired, and plan 3 takes s0 in again. The network now brings what l0 sent while
 * the link was down: s2 would accept it. */
static void repair(void)
{
    recorded(sundial_record_stage(recorder_of(OPERATOR), now));
    recorded(sundial_record_mend_link(recorder_of(OPERATOR), now, S2_L0));
    is_down[S2_L0] = 0;
    open_port(&nodes[S2], S2_L0);
    open_port(&nodes[L0], S2_L0);
    held.comes_at = now + LEAST_DELAY;
    *free_place() = held;
    recorded(sundial_record_mend_device(recorder_of(OPERATOR), now, S0));
    join(S0);
    ask(S0);
    give_all(3);
}

static void seal(void)
{
    for (uint32_t number = 0; number < DEVICES; number++) {
        if (!nodes[number].is_up)
            continue;
        check(sundial_seal(&nodes[number].device), "seal");
        recorded(sundial_record_seal(recorder_of(number), now, number));
    }
}

/* The process of l1 ends and begins anew at once. What it kept goes on, and so does its counter. */
static void restart(void)
{
    static uint8_t kept[SUNDIAL_KEPT_SIZE(LINKS)];
    struct node *node = &nodes[L1];
    uint64_t hardware = counter_of(node), ticked = 0;
    check(sundial_keep(&node->device, node->ports, LINKS, node->lowered, hardware, kept, sizeof kept), "keep");
    memset(&node->device, 0, sizeof node->device);
    memset(node->ports, 0, sizeof node->ports);
    node->lowered = 0;
    if (sundial_made(&node->device) != SUNDIAL_NO_DEVICE)
        stop("nothing passes for a device");
    check(sundial_restore(kept, sizeof kept, DUTIES[0][L1].rates.grain, hardware, &node->device, node->ports, LINKS,
                          &node->lowered, &ticked),
          "restore");
    check(sundial_made(&node->device), "made");
}

/* Each device follows its primary parent of plan 3, and s1 acts. */
static void check_parents(void)
{
    for (uint32_t number = 0; number < DEVICES; number++) {
        const struct sundial_duty *duty = &DUTIES[PLANS - 1][number];
        struct sundial_optional_parent parent = {0};
        uint32_t epoch = 0;
        uint8_t acts = 0;
        check(sundial_parent(&nodes[number].device, &parent), "parent");
        check(sundial_acts(&nodes[number].device, &acts), "acts");
        check(sundial_epoch(&nodes[number].device, &epoch), "epoch");
        if (epoch != PLANS || acts != (number == S1) || parent.has_parent != duty->has_primary
            || (parent.has_parent && parent.parent != duty->primary.parent))
            stop("a device does not follow plan 3");
    }
}

static void finish(void)
{
    ask_all();
    check_parents();
    if (dropped == 0)
        stop("the message that was sent while the link was down was not dropped");
    now++; /* (so the end is the last line, in whatever order the logs are merged) */
    uint64_t line = recorded(sundial_record_end(recorder_of(OPERATOR), now));
    printf("done %" PRIu64 " %" PRIu64 "\n", line, reports);
}

/* From now on the oscillator is 400 ppm fast: twice what its rates allow. */
static void run_fast(struct node *node)
{
    node->first = counter_of(node);
    node->changed_at = now;
    node->millionths = 1000400;
}

static struct flight *first_to_come(void)
{
    struct flight *first = NULL;
    for (int i = 0; i < FLIGHTS; i++) {
        struct flight *flight = &flights[i];
        if (!flight->is_used)
            continue;
        if (first == NULL || flight->comes_at < first->comes_at
            || (flight->comes_at == first->comes_at && flight->number < first->number))
            first = flight;
    }
    return first;
}

static uint32_t first_to_tick(void)
{
    uint32_t first = DEVICES;
    for (uint32_t number = 0; number < DEVICES; number++)
        if (nodes[number].is_up
            && (first == DEVICES || nodes[number].next_tick < nodes[first].next_tick))
            first = number;
    return first;
}

static void open_recorder(struct sundial_recorder *recorder, const char *path)
{
    FILE *file = fopen(path, "w");
    if (file == NULL) {
        perror(path);
        exit(1);
    }
    *recorder = (struct sundial_recorder){.write = write_file, .to = file};
}

/* A compact log of each device, and of the operator. */
static void open_logs(const char *schedule)
{
    char path[MOST_PATH];
    for (uint32_t number = 0; number <= OPERATOR; number++) {
        if (snprintf(path, sizeof path, "%s.%s", schedule, number == OPERATOR ? "operator" : NAMES[number]) >= MOST_PATH)
            stop("the name of a log is too long");
        open_recorder(&recorders[number], path);
        recorders[number].is_compact = 1;
    }
}

static void close_recorders(void)
{
    for (uint32_t number = 0; number <= OPERATOR; number++)
        if (recorders[number].to != NULL && fclose(recorders[number].to) != 0)
            stop("the schedule cannot be written");
}

int main(int count, char **words)
{
    if (count < 3) {
        fprintf(stderr, "embed SEED SCHEDULE [log|compact|drift|tick]\n");
        return 2;
    }
    uint64_t seed = strtoull(words[1], NULL, 10);
    rebases = seed % 2 == 0;
    word = seed * 2 + 1;
    are_apart = count > 3 && strcmp(words[3], "compact") == 0;
    if (are_apart)
        open_logs(words[2]);
    else
        open_recorder(&recorders[0], words[2]);
    if (count > 3 && strcmp(words[3], "log") == 0) {
        recorders[0].devices = NAMES;
        recorders[0].links = LINK_NAMES;
    }
    is_fast = count > 3 && strcmp(words[3], "drift") == 0;
    is_late = count > 3 && strcmp(words[3], "tick") == 0;
    is_faulty = is_fast || is_late;

    struct { uint64_t at; void (*act)(void); } acts[] = {
        {FIX_FIRST, fix_first}, {FAIL, fail_root}, {FIX_SECOND, fix_second}, {RENEW, renew},
        {COMMIT, commit}, {SEAL, seal}, {CUT, cut}, {RESTART, restart}, {REPAIR, repair},
        {COMMIT_AGAIN, commit}, {SEAL_AGAIN, seal}, {END, finish},
    };
    size_t act = 0;
    uint64_t next_ask = PAUSE;
    for (uint32_t number = 0; number < DEVICES; number++)
        start(number);
    while (act < sizeof acts / sizeof acts[0]) {
        struct flight *flight = first_to_come();
        uint32_t ticking = first_to_tick();
        uint64_t at = nodes[ticking].next_tick;
        if (flight != NULL && flight->comes_at < at)
            at = flight->comes_at;
        if (next_ask < at)
            at = next_ask;
        if (acts[act].at <= at) {
            now = acts[act].at;
            acts[act++].act();
        } else if (flight != NULL && at == flight->comes_at) {
            now = at;
            receive(flight);
        } else if (at == next_ask) {
            now = at;
            next_ask += PAUSE;
            ask_all();
        } else {
            now = at;
            if (is_fast && ticking == L0 && now > END / 2) {
                is_fast = 0;
                run_fast(&nodes[L0]);
            }
            tick(ticking);
        }
    }
    close_recorders();
    return 0;
}
