/* The core of a device, from the library of the crate sd_device_c.
 *
 * A device follows a root's clock through a tree of links. It is a struct of plain numbers that
 * the caller holds: it may be copied, and kept over a restart of the process as long as its
 * counter goes on. Nothing is allocated, nothing blocks, and no call keeps a pointer.
 *
 * How to wire it
 *   1. Call sundial_start with the device's part of the plan, its counter, and a clock with an
 *      uncertainty.
 *   2. On a timer: read the counter and call sundial_tick.
 *   3. On each message of a link: read the counter and call sundial_receive.
 *   4. Where the effect's `sends` is not 0, send its message at once over each link below the
 *      device: those of the devices whose duty names it as primary or backup parent.
 *   5. To tell the time: read the counter and call sundial_now, or sundial_report for the clock and
 *      its uncertainty.
 *
 * What you owe. The calls test what they can of the first three, and name the fault. Nothing can
 * test the rest. docs/PREMISES.md has each premise exactly.
 *   - counter: one for each device, which never falls between its start and its end. Read it anew
 *              for each call. A fall below a counter that the device keeps is answered by
 *              COUNTER_FELL; a smaller one goes unseen.
 *   - limits:  a counter of 64 bits ends after 213 days. Call sundial_rebase before, and the device
 *              goes on. A clock of 64 bits counts 213 days since its origin; the calls that end in
 *              _wide take one that counts 4 * 10^10 years.
 *   - struct:  these calls alone change it. One that is no device, or has a number past its limit,
 *              is answered by NO_DEVICE; another change within the limits goes unseen.
 *   - message: it arrives as it was sent, over the link that it was sent over, at the device that it
 *              was sent to, and nobody forges one. A device gets none that was sent before it started
 *              or joined, or while its link was down or before that. Nothing in a message says when it
 *              was sent, so ask sundial_port_takes first, and drop the message where it answers 0.
 *   - start:   a clock that you set (start, join, fix) is within the eps that you give of the
 *              reference time.
 *   - drift:   while the counter advances by x ps, the reference time advances by x, plus or minus
 *              x * ppm / 1000000 + grain.
 *   - delay:   a message takes from mid - half to mid + half ps over its link, from the reading of
 *              the sender's counter in the call that sent it to the reading of the receiver's.
 *   - tick:    two ticks of a device are at most the topology's `tick` apart, over a restart of its
 *              process too. All devices of the first plan start within one `tick` of the first event.
 *   - loss:    no more rounds of the root in a row are lost than the topology's `loss`. A round is the
 *              fabric's: it is lost where one device misses it. A mend, a join or a restart may cost one.
 *   - domain:  at most one fault domain fails between two renewals.
 *   - renew:   a renewal keeps its order: the duties to all, the commit by the root that acts, and
 *              the seals once all have gone over.
 * The interval is right while the first seven hold at every device of the fabric. That no two
 * devices act as root together, and that reports stay narrow after a failure, needs all of them and
 * a plan that `sundial check` accepts.
 *
 * Units. Counters, clocks, uncertainties (eps), delays, waits and grains are in picoseconds, ppm
 * in parts per million. A number of 128 bits is two of 64. A flag is set where its byte is not 0.
 *
 * Rules. Each call says which event of docs/FLEET.md it is. docs/DEVICE.md says what the device
 * then does, and docs/RULES.md has the formulas of reports.
 *
 * Answers. Each call answers SUNDIAL_DONE exactly where it could be made. Every other answer
 * names what was wrong, and then the call has changed nothing. Where several things were wrong, it
 * names one of them. The calls that say 1 or 0 are always made: sundial_port_takes and sundial_in_time.
 *
 * Memory and threads. Pointers are not null, aligned, and to initialised memory. No object that a
 * call may write overlaps another object of that call. Calls on different devices may run at once.
 * So may calls on one device that take it as `const`. A call that changes a device runs alone on it.
 *
 * A message counts once. A device accepts only a message that is newer than all it accepted before. So
 * a copy of a message that it accepted is answered by SUNDIAL_DONE, changes nothing and sends nothing.
 * This is proved of any calls in between but one: a give of the message's own plan, after which the
 * message would make the device take up that duty, however old its stamp. So give the duties of a plan
 * before its commit, and do not restore an old device. A copy of a message that it did not accept may
 * count: the first came over the link to its backup parent, say, and the device moved there since. Then
 * the copy is a message that took longer, and has to keep the link's delay all the same.
 *
 * A fleet. The theorems of docs/PROVED.md speak of histories. A fleet of devices that make these calls,
 * over a network that keeps the above, is a history, however often they are rebased and restored: this is
 * proved (is_history of sd_beside), of what the contracts of these calls say (crates/sd_exports). That your
 * program calls as such a fleet does is yours to see to. The definition is
 * crates/sd_beside/specs/deployment/Deployment.antt, and docs/EMBED.md has it in words.
 *
 * A restored device is the latest. Keep it with sundial_keep after each call and before you send what the
 * call sent, and restore it with sundial_restore: sundial_made alone finds few wrong bits. A device whose
 * latest state or whose counter is lost, or whose latest tick is longer ago than `tick`, goes on only by
 * sundial_join.
 *
 * What ends. Nothing does within a lifetime: a root sends 2^62 rounds, 146000 years at a period of
 * 1 us. Terms end at 2^31: 68 years, if a device takes over or commits anew each second. Plans end at
 * 2^32 - 1.
 */
#ifndef SUNDIAL_DEVICE_H
#define SUNDIAL_DEVICE_H

#define SUNDIAL_VERSION "1.0.0"

#include <stddef.h>
#include <stdint.h>

#ifdef __cplusplus
extern "C" {
#define SUNDIAL_ASSERT(holds) static_assert(holds, #holds)
#else
#define SUNDIAL_ASSERT(holds) _Static_assert(holds, #holds)
#endif

/* The calls that have a body here. bindings/c/sundial.c makes symbols of them. */
#ifndef SUNDIAL_INLINE
#define SUNDIAL_INLINE static inline
#endif

/* The first number of the version, which is raised where a struct or a call changes. A program that is compiled with
 * this header links with no library that has another. Define SUNDIAL_NO_LIBRARY in one that makes no call of the library,
 * as a reader of a clock page. */
uint32_t sundial_version_1(void);
#ifndef SUNDIAL_NO_LIBRARY
static uint32_t (*const sundial_version_of_header)(void) __attribute__((used)) = sundial_version_1;
#endif

/* The version: in libsundial.so its own, and in a program that of its header. */
SUNDIAL_INLINE const char *sundial_version(void)
{
    return SUNDIAL_VERSION;
}

enum {
    SUNDIAL_DONE = 0,
    /* a mode that is none, a mode other than IDLE without a duty, a duty that is none (NO_DUTY), or
     * rates past their limits (RATES_TOO_GREAT) */
    SUNDIAL_NO_DEVICE = 1,
    /* epoch 0, a role that is none, mid or half of an edge whose flag is set over 10^12, ppm over
     * 100000, or grain over 10^12 */
    SUNDIAL_NO_DUTY = 2,
    /* ppm over 100000, or grain over 10^12 */
    SUNDIAL_RATES_TOO_GREAT = 3,
    /* the counter is below one that the device keeps: that of its start or join, of its latest
     * fix, of the latest message that it accepted, of its latest move to its backup parent, of its
     * latest sending as root, or of a commit that made it root */
    SUNDIAL_COUNTER_FELL = 4,
    /* the clock or its eps, set from outside, is 2^100 or more. (5 is no answer any more: every
     * counter is taken.) */
    SUNDIAL_CLOCK_TOO_GREAT = 6,
    /* the device's own clock or eps is 2^100 or more */
    SUNDIAL_ESTIMATE_TOO_GREAT = 7,
    /* the device's own term is 2^31 or more, or, at a tick, its round 2^62 or more */
    SUNDIAL_STAMP_TOO_GREAT = 8,
    /* the message's clock or eps is 2^100 or more, its term 2^31 or more, or its round 2^62 or more */
    SUNDIAL_MESSAGE_TOO_GREAT = 9,
    /* no duty of a root was given to the device */
    SUNDIAL_NOT_ROOT = 10,
    /* what is kept of so many ports takes SUNDIAL_KEPT_SIZE of them in bytes, and not so many */
    SUNDIAL_WRONG_SIZE = 11,
    /* the bytes are not what sundial_keep of this version writes of a device with so many ports */
    SUNDIAL_NOT_KEPT = 12,
    /* more than a tick may have passed since the device's latest tick */
    SUNDIAL_TOO_LATE = 13
};

/* The role of a duty. */
enum { SUNDIAL_ROOT = 0, SUNDIAL_BACKUP_ROOT = 1, SUNDIAL_ORDINARY = 2 };

/* The mode of a device: it follows its primary parent, its backup parent, acts as root, or has no
 * duty yet. */
enum { SUNDIAL_PRIMARY = 0, SUNDIAL_BACKUP = 1, SUNDIAL_ACTING = 2, SUNDIAL_IDLE = 3 };

/* The number high * 2^64 + low. */
struct sundial_wide {
    uint64_t low;
    uint64_t high;
};

/* How far the oscillator may drift: a constant in ps, from 0 to 10^12, and parts per million, from
 * 0 to 100000. They are the topology's `grain` and `ppm`, or the device's own. */
struct sundial_rates {
    uint64_t grain;
    uint32_t ppm;
};

/* A parent, the link to it, and the correction of what comes over it: for delays from min to max
 * towards the device, mid = (min + max) / 2 rounded down, and half = max - mid, each from 0 to
 * 10^12. Devices and links have the number of their place in the topology, from 0. */
struct sundial_edge {
    uint64_t mid;
    uint64_t half;
    uint32_t parent;
    uint32_t link;
};

/* The device's part of a plan. The waits are the plan's, and the period is the topology's. */
struct sundial_duty {
    struct sundial_edge primary; /* read where has_primary is set */
    struct sundial_edge backup;  /* read where has_backup is set */
    uint64_t period;             /* between two sendings of an acting root */
    uint64_t wait_first;         /* silence until the backup root moves to its backup parent */
    uint64_t wait_second;        /* silence there until it takes over */
    uint64_t wait;               /* silence until any other device moves to its backup parent */
    struct sundial_rates rates;
    uint32_t epoch; /* the number of the plan: 1 for the first, one more for each later plan */
    uint8_t role;
    uint8_t has_primary;
    uint8_t has_backup;
};

/* The age of a message: how often a device began to act as root, and how often that root has sent
 * since. In a message that is received the term is below 2^31 and the round below 2^62. */
struct sundial_stamp {
    uint64_t round;
    uint32_t term;
};

/* The clock and its uncertainty while the counter showed `at`. */
struct sundial_estimate {
    struct sundial_wide clock;
    struct sundial_wide base;
    uint64_t at;
};

/* The reference time lies from clock - eps to clock + eps. */
struct sundial_clock_report {
    struct sundial_wide clock;
    struct sundial_wide eps;
};

/* The reference time lies from the one to the other. */
struct sundial_interval {
    struct sundial_wide earliest;
    struct sundial_wide latest;
};

/* What a device sends downward. Send the fields, in a byte order of your own; a struct has bytes of
 * padding. In a message that is received clock and eps are below 2^100. */
struct sundial_message {
    struct sundial_wide clock;
    struct sundial_wide eps;
    struct sundial_stamp stamp;
    uint32_t epoch;
};

/* What a call sends: the message to each device below, where the flag is set. */
struct sundial_effect {
    struct sundial_message message;
    uint8_t sends;
};

/* The number of the parent, where the flag is set. */
struct sundial_optional_parent {
    uint32_t parent;
    uint8_t has_parent;
};

/* All that a device keeps. Read it by the calls below. */
struct sundial_device {
    struct sundial_duty duty;
    struct sundial_duty given;
    struct sundial_estimate estimate;
    struct sundial_stamp stamp;
    struct sundial_rates rates;
    uint64_t last;
    uint64_t sent;
    uint8_t has_duty;
    uint8_t has_given;
    uint8_t mode;
    uint8_t sealed;
};

/* A link over which messages come to a device: whether its host may hand on what comes. One that was never
 * opened takes nothing, so zeros are a good beginning. Its counter is that of the device. */
struct sundial_port {
    struct sundial_wide clear; /* the counter from which on it takes what comes, where the flag is set */
    uint8_t is_open;
};

SUNDIAL_ASSERT(sizeof(struct sundial_wide) == 16);
SUNDIAL_ASSERT(offsetof(struct sundial_wide, high) == 8);
SUNDIAL_ASSERT(sizeof(struct sundial_rates) == 16);
SUNDIAL_ASSERT(offsetof(struct sundial_rates, ppm) == 8);
SUNDIAL_ASSERT(sizeof(struct sundial_edge) == 24);
SUNDIAL_ASSERT(offsetof(struct sundial_edge, half) == 8);
SUNDIAL_ASSERT(offsetof(struct sundial_edge, parent) == 16);
SUNDIAL_ASSERT(offsetof(struct sundial_edge, link) == 20);
SUNDIAL_ASSERT(sizeof(struct sundial_duty) == 104);
SUNDIAL_ASSERT(offsetof(struct sundial_duty, backup) == 24);
SUNDIAL_ASSERT(offsetof(struct sundial_duty, period) == 48);
SUNDIAL_ASSERT(offsetof(struct sundial_duty, wait_first) == 56);
SUNDIAL_ASSERT(offsetof(struct sundial_duty, wait_second) == 64);
SUNDIAL_ASSERT(offsetof(struct sundial_duty, wait) == 72);
SUNDIAL_ASSERT(offsetof(struct sundial_duty, rates) == 80);
SUNDIAL_ASSERT(offsetof(struct sundial_duty, epoch) == 96);
SUNDIAL_ASSERT(offsetof(struct sundial_duty, role) == 100);
SUNDIAL_ASSERT(offsetof(struct sundial_duty, has_primary) == 101);
SUNDIAL_ASSERT(offsetof(struct sundial_duty, has_backup) == 102);
SUNDIAL_ASSERT(sizeof(struct sundial_stamp) == 16);
SUNDIAL_ASSERT(offsetof(struct sundial_stamp, term) == 8);
SUNDIAL_ASSERT(sizeof(struct sundial_estimate) == 40);
SUNDIAL_ASSERT(offsetof(struct sundial_estimate, base) == 16);
SUNDIAL_ASSERT(offsetof(struct sundial_estimate, at) == 32);
SUNDIAL_ASSERT(sizeof(struct sundial_clock_report) == 32);
SUNDIAL_ASSERT(offsetof(struct sundial_clock_report, eps) == 16);
SUNDIAL_ASSERT(sizeof(struct sundial_message) == 56);
SUNDIAL_ASSERT(offsetof(struct sundial_message, eps) == 16);
SUNDIAL_ASSERT(offsetof(struct sundial_message, stamp) == 32);
SUNDIAL_ASSERT(offsetof(struct sundial_message, epoch) == 48);
SUNDIAL_ASSERT(sizeof(struct sundial_effect) == 64);
SUNDIAL_ASSERT(offsetof(struct sundial_effect, sends) == 56);
SUNDIAL_ASSERT(sizeof(struct sundial_optional_parent) == 8);
SUNDIAL_ASSERT(offsetof(struct sundial_optional_parent, has_parent) == 4);
SUNDIAL_ASSERT(sizeof(struct sundial_device) == 304);
SUNDIAL_ASSERT(offsetof(struct sundial_device, given) == 104);
SUNDIAL_ASSERT(offsetof(struct sundial_device, estimate) == 208);
SUNDIAL_ASSERT(offsetof(struct sundial_device, stamp) == 248);
SUNDIAL_ASSERT(offsetof(struct sundial_device, rates) == 264);
SUNDIAL_ASSERT(offsetof(struct sundial_device, last) == 280);
SUNDIAL_ASSERT(offsetof(struct sundial_device, sent) == 288);
SUNDIAL_ASSERT(offsetof(struct sundial_device, has_duty) == 296);
SUNDIAL_ASSERT(offsetof(struct sundial_device, has_given) == 297);
SUNDIAL_ASSERT(offsetof(struct sundial_device, mode) == 298);
SUNDIAL_ASSERT(offsetof(struct sundial_device, sealed) == 299);
SUNDIAL_ASSERT(sizeof(struct sundial_port) == 24);
SUNDIAL_ASSERT(offsetof(struct sundial_port, is_open) == 16);

/* Whether the struct holds a device.
 * Faults: NO_DEVICE. */
uint32_t sundial_made(const struct sundial_device *device);

/* A device of the plan in force begins, for the first time (event `start`). The clock is within eps
 * of the reference time. The old struct has to be initialised, with anything. A device that was down
 * must not start again: a root would act beside the backup root. It joins.
 * Faults: NO_DUTY. */
uint32_t sundial_start(struct sundial_device *device, const struct sundial_duty *duty,
                       uint64_t counter, uint64_t clock, uint64_t eps);

/* The same, for a clock and an eps of 128 bits, each below 2^100.
 * Faults: NO_DUTY, CLOCK_TOO_GREAT. */
uint32_t sundial_start_wide(struct sundial_device *device, const struct sundial_duty *duty,
                            uint64_t counter, const struct sundial_wide *clock,
                            const struct sundial_wide *eps);

/* A device begins, or begins anew, while a new plan is brought in: it has no duty until it commits
 * or hears of that plan (event `join`). Call it between the stage of the plan and its seals, and
 * then give the device its duty in it. Until it takes that up it follows nobody, sends nothing and
 * reports its own clock. Numbers and old struct are as for a start.
 * Faults: RATES_TOO_GREAT. */
uint32_t sundial_join(struct sundial_device *device, const struct sundial_rates *rates,
                      uint64_t counter, uint64_t clock, uint64_t eps);

/* The same, for a clock and an eps of 128 bits, each below 2^100.
 * Faults: RATES_TOO_GREAT, CLOCK_TOO_GREAT. */
uint32_t sundial_join_wide(struct sundial_device *device, const struct sundial_rates *rates,
                           uint64_t counter, const struct sundial_wide *clock,
                           const struct sundial_wide *eps);

/* Tells it its duty in the next plan, which it keeps beside the present one (event `give`). A later
 * give replaces it.
 * Faults: NO_DEVICE, NO_DUTY. */
uint32_t sundial_give(struct sundial_device *device, const struct sundial_duty *duty);

/* Takes up the given duty at once, as the root of the next plan (event `commit`). The counter is in
 * ps, and not below those that the device keeps. Ask sundial_acts first: a device that does not act, and was given
 * the duty of a root, is not refused. From then on two may act.
 * Faults: NO_DEVICE, COUNTER_FELL, STAMP_TOO_GREAT, NOT_ROOT. */
uint32_t sundial_commit(struct sundial_device *device, uint64_t counter);

/* From now on it may move to its backup parent and take over (event `seal`). A device that goes
 * over to a new plan does neither until this call. Make it once all devices have gone over.
 * Faults: NO_DEVICE. */
uint32_t sundial_seal(struct sundial_device *device);

/* Sets the clock from outside (event `fix`). The counter is as for a commit. The clock and its eps
 * are as for a start.
 * Faults: NO_DEVICE, COUNTER_FELL. */
uint32_t sundial_fix(struct sundial_device *device, uint64_t counter, uint64_t clock, uint64_t eps);

/* The same, for a clock and an eps of 128 bits, each below 2^100.
 * Faults: NO_DEVICE, COUNTER_FELL, CLOCK_TOO_GREAT. */
uint32_t sundial_fix_wide(struct sundial_device *device, uint64_t counter,
                          const struct sundial_wide *clock, const struct sundial_wide *eps);

/* The device's own timer (event `tick`): it sends its report as root, takes over, moves to its
 * backup parent, or does nothing. The counter is as for a commit.
 * Faults: NO_DEVICE, COUNTER_FELL, ESTIMATE_TOO_GREAT, STAMP_TOO_GREAT. */
uint32_t sundial_tick(struct sundial_device *device, uint64_t counter,
                      struct sundial_effect *effect);

/* A message came over the link of this number (event `recv`). Where the device does not accept it,
 * the answer is still SUNDIAL_DONE, nothing changes and nothing is sent. The counter is as for a
 * commit.
 * Faults: NO_DEVICE, COUNTER_FELL, MESSAGE_TOO_GREAT. */
uint32_t sundial_receive(struct sundial_device *device, uint32_t link,
                         const struct sundial_message *message, uint64_t counter,
                         struct sundial_effect *effect);

/* Lowers the counters that the device keeps by as much as it can, and writes by how much. It is no
 * event: messages carry no counter, and nobody else notices. From then on give each call the
 * counter less the sum of all that was lowered. The counter is as for a commit.
 *
 * No later call then answers or sends anything else, and no report differs. There is one condition.
 * A duty that a commit takes up has the ppm that the device has now, or the clock was set (by a fix
 * or by an accepted message) between the rebase and that commit.
 *
 * What is left of the counter is less than the greatest of these: a microsecond; where the device
 * acts as root, the time since it sent; where it waits for a silence, the time since it heard or
 * moved. Call it a few times a year, or whenever the counter passes a limit of your own. Whatever else
 * you keep of this counter falls too: sundial_rebase_with_ports sees to the ports.
 * Faults: NO_DEVICE, COUNTER_FELL, ESTIMATE_TOO_GREAT. */
uint32_t sundial_rebase(struct sundial_device *device, uint64_t counter, uint64_t *lowered);

/* The same, of the device and of this many ports, from `ports` on, which is not null: each port then takes at
 * the lower counters exactly what it would have taken. On a fault the ports stay as they are, too.
 * Faults: NO_DEVICE, COUNTER_FELL, ESTIMATE_TOO_GREAT. */
uint32_t sundial_rebase_with_ports(struct sundial_device *device, struct sundial_port *ports, size_t count,
                                   uint64_t counter, uint64_t *lowered);

/* The device starts or joins while the link works, or the link works again, while the counter shows this. The
 * edge is the way over the link by the device's duty, or by the duty that it is about to be given; the rates
 * are those of its oscillator. From now on the port takes what comes once more than 2 * (mid + half) ps have
 * surely passed by those rates, at the least counter at which that is sure.
 * Faults: NO_DUTY (mid or half over 10^12), RATES_TOO_GREAT. */
uint32_t sundial_port_open(struct sundial_port *port, const struct sundial_edge *edge,
                           const struct sundial_rates *rates, uint64_t counter);

/* The link is down: the port takes nothing until it is opened. */
void sundial_port_close(struct sundial_port *port);

/* 1 where a message that came while the counter showed this may be given to sundial_receive, and 0 where it is
 * to be dropped: then it counts as lost. What a port takes was sent after its opening, over any rebase, as long
 * as no message is brought that was on its way for more than 2 * (mid + half) ps, and the oscillator keeps its
 * rates. */
uint32_t sundial_port_takes(const struct sundial_port *port, uint64_t counter);

/* Whether a device that was kept may go on after a pause: 1 where surely no more than `tick` ps have passed since its
 * latest tick, by an oscillator with these rates, and else 0. The hardware's counter showed `ticked` then, or at the
 * start or join where that is later, and shows `hardware` now. It may have begun again after 2^64 - 1, once. With rates
 * past their limits the answer is 0. */
uint32_t sundial_in_time(const struct sundial_rates *rates, uint64_t tick, uint64_t ticked, uint64_t hardware);

/* What is kept of a device: its ports too, what was lowered, and its latest tick. Numbers are unsigned, with the least
 * byte first.
 *
 *     bytes of it             from
 *     8                       0     the letters "sundial", and the version: 1
 *     8                       8     the number of the ports
 *     99                      16    the duty: both edges (mid, half, parent, link: 24 bytes each), period, wait_first,
 *                                   wait_second, wait, grain, ppm, epoch, role, has_primary, has_backup
 *     99                      115   the given duty
 *     40                      214   the estimate: clock, base, at
 *     12                      254   the stamp: round, term
 *     12                      266   the rates: grain, ppm
 *     20                      278   last, sent, has_duty, has_given, mode, sealed
 *     16                      298   lowered, ticked
 *     17 for each port        314   clear, is_open
 *     4                             the CRC-32 of all before it, as zlib, gzip and Ethernet have it */
#define SUNDIAL_KEPT_SIZE(ports) (318 + 17 * (size_t)(ports))

/* Writes what is to be kept of a device and of this many ports, from `ports` on, which is not null: SUNDIAL_KEPT_SIZE of
 * them in bytes. `lowered` is the sum, modulo 2^64, of all by which the counter of the calls is lower than the
 * hardware's. The hardware's counter showed `ticked` at the device's latest tick, or at the start or join where that is
 * later. Keep the bytes in one step after each call that changed any of it, and before you send what that call sent.
 * Faults: NO_DEVICE, WRONG_SIZE. */
uint32_t sundial_keep(const struct sundial_device *device, const struct sundial_port *ports, size_t count,
                      uint64_t lowered, uint64_t ticked, uint8_t *bytes, size_t size);

/* Reads what was kept, whatever the bytes are: a device with this many ports, what was lowered, and its latest tick. It
 * is made exactly where sundial_keep of this version writes these bytes of some device with this many ports, and then it
 * gives what was kept. So where a byte of what was kept has changed, the answer is NOT_KEPT: this is proved. Where more
 * have, the checksum finds it in all but one of some 4 * 10^9 cases. It cannot tell the latest bytes from older ones.
 * Faults: NOT_KEPT. */
uint32_t sundial_kept(const uint8_t *bytes, size_t size, struct sundial_device *device, struct sundial_port *ports,
                      size_t count, uint64_t *lowered, uint64_t *ticked);

/* The same, for a device that is to go on: where surely no more than `tick` ps have passed since its latest tick, by an
 * oscillator with the device's rates. The hardware's counter shows `hardware` now. It may have begun again after
 * 2^64 - 1, once. Then call sundial_tick at once, before that much has passed. Faults: NOT_KEPT, TOO_LATE. */
uint32_t sundial_restore(const uint8_t *bytes, size_t size, uint64_t tick, uint64_t hardware,
                         struct sundial_device *device, struct sundial_port *ports, size_t count, uint64_t *lowered,
                         uint64_t *ticked);

/* What the device takes the reference time for while its counter shows this, and by how much it may
 * be off, in ps (event `ask`). The counter is as for a commit.
 * Faults: NO_DEVICE, COUNTER_FELL, ESTIMATE_TOO_GREAT. */
uint32_t sundial_report(const struct sundial_device *device, uint64_t counter,
                        struct sundial_clock_report *report);

/* The number of the device that it follows, if it follows one.
 * Faults: NO_DEVICE. */
uint32_t sundial_parent(const struct sundial_device *device,
                        struct sundial_optional_parent *parent);

/* 1 where it acts as root, and else 0.
 * Faults: NO_DEVICE. */
uint32_t sundial_acts(const struct sundial_device *device, uint8_t *acts);

/* The number of the plan that it follows, from 1; 0 where it follows none yet.
 * Faults: NO_DEVICE. */
uint32_t sundial_epoch(const struct sundial_device *device, uint32_t *epoch);

/* The name of an answer, as "NO_DEVICE". */
SUNDIAL_INLINE const char *sundial_answer_name(uint32_t answer)
{
    static const char *const NAMES[] = {"DONE", "NO_DEVICE", "NO_DUTY", "RATES_TOO_GREAT", "COUNTER_FELL", "unknown",
                                        "CLOCK_TOO_GREAT", "ESTIMATE_TOO_GREAT", "STAMP_TOO_GREAT",
                                        "MESSAGE_TOO_GREAT", "NOT_ROOT", "WRONG_SIZE", "NOT_KEPT", "TOO_LATE"};
    return answer < sizeof NAMES / sizeof NAMES[0] ? NAMES[answer] : "unknown";
}

/* The earliest reference time that a report allows, in ps: clock - eps, and at least 0. */
SUNDIAL_INLINE struct sundial_wide sundial_earliest(const struct sundial_clock_report *report)
{
    struct sundial_wide earliest = {0, 0};
    struct sundial_wide clock = report->clock;
    struct sundial_wide eps = report->eps;
    if (clock.high < eps.high || (clock.high == eps.high && clock.low <= eps.low))
        return earliest;
    earliest.low = clock.low - eps.low;
    earliest.high = clock.high - eps.high - (clock.low < eps.low);
    return earliest;
}

/* The latest reference time that a report allows, in ps: clock + eps. */
SUNDIAL_INLINE struct sundial_wide sundial_latest(const struct sundial_clock_report *report)
{
    struct sundial_wide latest;
    latest.low = report->clock.low + report->eps.low;
    latest.high = report->clock.high + report->eps.high + (latest.low < report->clock.low);
    return latest;
}

/* now(), as a database asks it: the interval in which the reference time lies while the counter
 * shows this. It is that of the report, and has the faults of one. */
SUNDIAL_INLINE uint32_t sundial_now(const struct sundial_device *device, uint64_t counter,
                                   struct sundial_interval *now)
{
    struct sundial_clock_report report = {{0, 0}, {0, 0}};
    uint32_t answer = sundial_report(device, counter, &report);
    if (answer == SUNDIAL_DONE) {
        now->earliest = sundial_earliest(&report);
        now->latest = sundial_latest(&report);
    }
    return answer;
}

/* How the device takes part: SUNDIAL_PRIMARY, SUNDIAL_BACKUP, SUNDIAL_ACTING or SUNDIAL_IDLE.
 * Faults: NO_DEVICE. */
SUNDIAL_INLINE uint32_t sundial_mode(const struct sundial_device *device, uint8_t *mode)
{
    uint32_t answer = sundial_made(device);
    if (answer == SUNDIAL_DONE)
        *mode = device->mode;
    return answer;
}

/* The age of the estimate: by how much the counter, which shows this, has advanced since the clock was
 * set, by a start, a join, a fix or a message that was accepted, or since its latest rebase. Faults: those
 * of a report. */
SUNDIAL_INLINE uint32_t sundial_age(const struct sundial_device *device, uint64_t counter, uint64_t *age)
{
    struct sundial_clock_report report = {{0, 0}, {0, 0}};
    uint32_t answer = sundial_report(device, counter, &report);
    if (answer == SUNDIAL_DONE)
        *age = counter - device->estimate.at;
    return answer;
}

/* 1 where the reference time has surely passed the stamp, and else 0: the end of a commit wait. */
SUNDIAL_INLINE int sundial_has_passed(const struct sundial_interval *now, struct sundial_wide stamp)
{
    return now->earliest.high > stamp.high
           || (now->earliest.high == stamp.high && now->earliest.low > stamp.low);
}

#ifdef __cplusplus
}
#endif
#undef SUNDIAL_ASSERT
#endif
