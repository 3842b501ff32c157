/* A clock for databases: one process drives the device of a machine, and any number of processes
 * read the time from a page that they share. Linux of 64 bits; gcc or clang, C11 or C++17.
 *
 * The writer, which alone calls the library on its device:
 *
 *     static const struct sundial_clock_terms terms = {.stale_after = 100000000, .void_after = 60000000000};
 *     struct sundial_clock_writer writer;
 *     sundial_clock_create("/run/sundial/clock", &terms, &writer);     // 0, or -1 with errno
 *     ... after each start, join, commit, fix, tick and receive that was done:
 *     sundial_clock_publish(&writer, &device, counter, raw);
 *
 * A reader, in any process and any number of threads:
 *
 *     struct sundial_clock_reader reader;
 *     sundial_clock_open("/run/sundial/clock", &reader);
 *     struct sundial_clock_now now;
 *     if (sundial_clock_read(&reader, 100000, &now) == SUNDIAL_CLOCK_GOOD) ...
 *
 * A read makes no call of the system, asks no library and never waits: it copies one of two slots,
 * reads CLOCK_MONOTONIC_RAW as the vDSO does, and extends two straight lines. It copies again where the
 * writer came round to that slot meanwhile, and gives up after SUNDIAL_CLOCK_TRIES copies.
 *
 * Times are in ns and counted as the device's reference time is, where nothing else is said. They are
 * rounded outward: the reference time lies from `earliest` to `latest`, as sure as the device's own
 * interval is.
 *
 * Answers are SUNDIAL_CLOCK_GOOD, which is SUNDIAL_DONE, or what was wrong. A call that answers a fault
 * writes nothing: neither the page nor what it was given.
 *
 * What you owe, beside what sundial_device.h asks
 *   - counter and raw of a publication were read at one moment. The counter is the one that the
 *     library's calls get: after a rebase it is less what was lowered.
 *   - from that moment on the counter follows CLOCK_MONOTONIC_RAW as the terms say.
 *   - CLOCK_MONOTONIC_RAW stands still while a machine sleeps, and may jump where a virtual machine is
 *     stopped, restored or migrated. Call sundial_clock_disrupt before that, or as soon as you know.
 *     Until then readers cannot tell.
 *   - a process opens a page after its last unshare or setns of a time namespace, and so after the one
 *     that its parent made for it.
 *
 * The page, of 320 bytes. Numbers are little-endian and have 64 bits; those that may be below 0 are in
 * two's complement.
 *
 *     at   what
 *     0    the letters "sundial" and a byte 0
 *     8    the version of this layout, 2
 *     16   the length of the page, 320
 *     24   the number of the latest publication; 0 where there was none
 *     64   the slot of publications with an even number
 *     192  the slot of those with an odd one
 *
 *     within a slot
 *     0    the number of its publication; 0 while it is being written
 *     8    0 where there is an interval, 108 where the writer's clock was disrupted, else 107: it was withdrawn
 *     16   the 16 bytes of /proc/sys/kernel/random/boot_id, in the order of its text
 *     32   what the writer's time namespace adds to CLOCK_MONOTONIC_RAW (/proc/self/timens_offsets)
 *     40   raw: CLOCK_MONOTONIC_RAW at the publication. The next two are readings of it, too
 *     48   after this the interval is stale
 *     56   after this there is none
 *     64   the earliest reference time at raw; may be below 0
 *     72   the latest; may be below 0
 *     80   by how much the earliest advances while raw does by 10^9
 *     88   by how much the latest does
 *     96   the civil time at reference time 0, since 1970; may be below 0
 *     104  the age of the device's estimate at raw
 *     112  the number of the device's plan, of 32 bits; 0 where it follows none
 *     116  its mode, of 32 bits
 *     120  how many disruptions there were
 *
 * To read it: take the number at 24, copy that slot, and begin again where the slot does not have this
 * number then. bindings/c/clock_reader.py is a whole reader in Python. */
#ifndef SUNDIAL_CLOCK_H
#define SUNDIAL_CLOCK_H

/* Under -std=c11 the C library names no POSIX call unless it is asked to. That asking counts before the
 * first header of the system: include this one first, or pass -D_DEFAULT_SOURCE, or -std=gnu11. */
#if !defined(_DEFAULT_SOURCE) && !defined(_GNU_SOURCE)
#define _DEFAULT_SOURCE 1
#endif

#include <errno.h>
#include <fcntl.h>
#include <limits.h>
#include <stdint.h>
#include <stdio.h>
#include <string.h>
#include <sys/file.h>
#include <sys/mman.h>
#include <sys/stat.h>
#include <time.h>
#include <unistd.h>

#include "sundial_device.h"

#if __BYTE_ORDER__ != __ORDER_LITTLE_ENDIAN__
#error "the page is little-endian"
#endif

#ifdef __cplusplus
extern "C" {
#define SUNDIAL_CLOCK_ASSERT(holds) static_assert(holds, #holds)
#else
#define SUNDIAL_CLOCK_ASSERT(holds) _Static_assert(holds, #holds)
#endif

enum {
    SUNDIAL_CLOCK_GOOD = 0,
    /* 1 to 10: what sundial_report answers to a publication, or sundial_rebase to a rebase */
    /* Of a read. STALE, WIDE and GOOD come with an interval, and the others with none. */
    SUNDIAL_CLOCK_EMPTY = 100,     /* nothing was published yet, or the reader is closed */
    SUNDIAL_CLOCK_BUSY = 101,      /* the writer came round at each try */
    SUNDIAL_CLOCK_STALE = 102,     /* nothing was published for longer than `stale_after`. The interval
                                    * is as good as before, and grows */
    SUNDIAL_CLOCK_WIDE = 103,      /* eps is over the greatest that the caller takes. The interval is good */
    SUNDIAL_CLOCK_NOT_YET = 104,   /* a wait ran out of patience */
    SUNDIAL_CLOCK_FOREIGN = 105,   /* the writer's clock is another than the reader's: of another boot or
                                    * another time namespace, or the publication is after now */
    SUNDIAL_CLOCK_VOID = 106,      /* nothing was published for longer than `void_after` */
    SUNDIAL_CLOCK_WITHDRAWN = 107, /* the writer withdrew the interval */
    SUNDIAL_CLOCK_DISRUPTED = 108, /* the writer says that its clock stood still or jumped: what was read
                                    * shortly before may be wrong, too */
    /* Of a publication */
    SUNDIAL_CLOCK_APART = 109,     /* this interval and the one in the page have no time in common, so one of
                                    * them is wrong. A counter that was not lowered after a rebase does this.
                                    * Withdraw, find out which it is, and publish again */
    SUNDIAL_CLOCK_BAD_RAW = 110,   /* raw is before that of the latest publication, or after now */
    SUNDIAL_CLOCK_BAD_TERMS = 111  /* a number of the terms is past its limit */
};

enum { SUNDIAL_CLOCK_VERSION = 2, SUNDIAL_CLOCK_TRIES = 1000, SUNDIAL_CLOCK_WORDS = 16 };

static const uint64_t SUNDIAL_CLOCK_MAGIC = UINT64_C(0x006c6169646e7573), SUNDIAL_CLOCK_SECOND = 1000000000;

/* What holds of an interval after its publication. */
struct sundial_clock_terms {
    uint64_t stale_after; /* ns without a publication until readers call it stale */
    uint64_t void_after;  /* ns without a publication until readers get none */
    uint64_t slack;       /* ps by which the counter of a publication may be off, at most 10^12 */
    uint32_t slack_ppm;   /* by how many parts per million more of what has passed since, at most 100000 */
    int32_t skew;         /* parts per million by which the counter is faster than CLOCK_MONOTONIC_RAW, from
                           * -100000 to 100000 */
    int64_t origin;       /* the civil time at reference time 0, in ns since 1970, without leap seconds */
};

/* Which clock CLOCK_MONOTONIC_RAW is in a process. */
struct sundial_clock_identity {
    unsigned char boot[16];
    int64_t offset; /* what the time namespace adds, in ns. (The number of a namespace is used again.) */
};

struct sundial_clock_slot {
    uint64_t number;
    uint64_t status;
    struct sundial_clock_identity clock;
    uint64_t raw;
    uint64_t stale_after; /* as a reading of CLOCK_MONOTONIC_RAW, and so is the next */
    uint64_t void_after;
    int64_t earliest;
    int64_t latest;
    uint64_t slow;
    uint64_t fast;
    int64_t origin;
    uint64_t age;
    uint32_t epoch;
    uint32_t mode;
    uint64_t disruptions;
};

/* What is shared. Its words are read and written as atomics; those of a slot are its struct's. */
struct sundial_clock_page {
    uint64_t magic;
    uint64_t version;
    uint64_t length;
    uint64_t latest;
    uint64_t none[4];
    uint64_t slots[2][SUNDIAL_CLOCK_WORDS];
};

SUNDIAL_CLOCK_ASSERT(sizeof(struct sundial_clock_page) == 320);
SUNDIAL_CLOCK_ASSERT(offsetof(struct sundial_clock_page, slots) == 64);
SUNDIAL_CLOCK_ASSERT(sizeof(struct sundial_clock_slot) == 8 * SUNDIAL_CLOCK_WORDS);
SUNDIAL_CLOCK_ASSERT(offsetof(struct sundial_clock_slot, raw) == 40);
SUNDIAL_CLOCK_ASSERT(offsetof(struct sundial_clock_slot, age) == 104);
SUNDIAL_CLOCK_ASSERT(offsetof(struct sundial_clock_slot, mode) == 116);

/* Who reads a page. */
struct sundial_clock_reader {
    const struct sundial_clock_page *page;
    struct sundial_clock_identity clock;
};

/* Its one writer. */
struct sundial_clock_writer {
    struct sundial_clock_page *page;
    struct sundial_clock_identity clock;
    struct sundial_clock_terms terms; /* of the next publication: they may be changed */
    int lock;
};

/* What a read found. */
struct sundial_clock_now {
    uint64_t earliest;
    uint64_t latest;
    uint64_t eps;         /* half of what lies between, rounded up */
    uint64_t age;         /* by the counter, since the device's clock was set by a start, a join, a fix or a message,
                           * or since its latest rebase */
    uint64_t silent;      /* since the latest publication */
    uint64_t disruptions; /* how many there were. Where two reads differ in it, the earlier may have been wrong */
    int64_t origin;       /* that of the terms */
    uint32_t epoch;       /* the number of its plan; 0 where it follows none */
    uint32_t mode;        /* SUNDIAL_PRIMARY, SUNDIAL_BACKUP, SUNDIAL_ACTING or SUNDIAL_IDLE */
};

/* The clock that readers read. */
SUNDIAL_INLINE uint64_t sundial_clock_raw(void)
{
    struct timespec at;
    clock_gettime(CLOCK_MONOTONIC_RAW, &at);
    return (uint64_t)at.tv_sec * SUNDIAL_CLOCK_SECOND + (uint64_t)at.tv_nsec;
}

/* The name of an answer of this header or of sundial_device.h, as "STALE". */
SUNDIAL_INLINE const char *sundial_clock_name(uint32_t answer)
{
    static const char *const NAMES[] = {"EMPTY", "BUSY", "STALE", "WIDE", "NOT_YET", "FOREIGN", "VOID", "WITHDRAWN",
                                        "DISRUPTED", "APART", "BAD_RAW", "BAD_TERMS"};
    if (answer == SUNDIAL_CLOCK_GOOD)
        return "GOOD";
    return answer < SUNDIAL_CLOCK_EMPTY || answer > SUNDIAL_CLOCK_BAD_TERMS ? sundial_answer_name(answer)
                                                                            : NAMES[answer - SUNDIAL_CLOCK_EMPTY];
}

/* -- A counter that is CLOCK_MONOTONIC_RAW. A host that has a counter of its own needs none of this. */

/* While CLOCK_MONOTONIC_RAW shows `raw` + x ns, the counter shows `counter` + 1000 x + x * `skew` / 1000 ps.
 * Real hosts have no skew. */
struct sundial_clock_mapping {
    uint64_t raw;     /* ns */
    uint64_t counter; /* ps */
    int32_t skew;     /* from -100000 to 100000 */
};

SUNDIAL_INLINE uint64_t sundial_clock_counter(const struct sundial_clock_mapping *mapping, uint64_t raw)
{
    uint64_t passed = raw > mapping->raw ? raw - mapping->raw : 0;
    int64_t skewed = (int64_t)(passed / 1000) * mapping->skew + (int64_t)(passed % 1000) * mapping->skew / 1000;
    return mapping->counter + passed * 1000 + (uint64_t)skewed;
}

/* Rebases the device and its ports, and lowers the mapping by as much, which it also writes. Call it every 213
 * days at least. Faults: those of sundial_rebase. */
SUNDIAL_INLINE uint32_t sundial_clock_rebase(struct sundial_clock_mapping *mapping, struct sundial_device *device,
                                             struct sundial_port *ports, size_t count, uint64_t raw, uint64_t *lowered)
{
    uint64_t counter = sundial_clock_counter(mapping, raw);
    uint32_t answer = sundial_rebase_with_ports(device, ports, count, counter, lowered);
    if (answer != SUNDIAL_DONE)
        return answer;
    mapping->raw = raw > mapping->raw ? raw : mapping->raw;
    mapping->counter = counter - *lowered;
    return SUNDIAL_DONE;
}

/* -- What a slot says. */

__extension__ typedef __int128 sundial_clock_ps;

/* ps as ns, rounded down. */
SUNDIAL_INLINE sundial_clock_ps sundial_clock_down(sundial_clock_ps ps)
{
    return ps / 1000 - (ps % 1000 < 0);
}

/* The interval of this device, as the terms extend it from here on. Who publishes it, and what came
 * before, is not in it. Faults: BAD_TERMS and those of sundial_report; ESTIMATE_TOO_GREAT where the
 * interval is no numbers of 64 bits in ns. */
SUNDIAL_INLINE uint32_t sundial_clock_line(const struct sundial_clock_terms *terms, const struct sundial_device *device,
                                           uint64_t counter, uint64_t raw, struct sundial_clock_slot *slot)
{
    struct sundial_clock_report report = {{0, 0}, {0, 0}};
    const uint64_t million = 1000000, ppm = device->rates.ppm, slack = terms->slack;
    if (slack > million * million || terms->slack_ppm > 100000 || terms->skew > 100000 || terms->skew < -100000)
        return SUNDIAL_CLOCK_BAD_TERMS;
    uint32_t answer = sundial_report(device, counter, &report);
    if (answer != SUNDIAL_DONE)
        return answer;
    /* A counter that is off by the slack moves the clock by it, and lets eps grow by ppm of it. The roundings of
     * the counter, of that growth and of the report's own are 3 ps at most. */
    sundial_clock_ps clock = (sundial_clock_ps)report.clock.high << 64 | report.clock.low;
    sundial_clock_ps eps = (sundial_clock_ps)report.eps.high << 64 | report.eps.low;
    eps += slack + (slack * ppm + million - 1) / million + 3;
    sundial_clock_ps earliest = sundial_clock_down(clock - eps), latest = -sundial_clock_down(-(clock + eps));
    if (latest > INT64_MAX) /* (no earliest below 64 bits is without such a latest) */
        return SUNDIAL_ESTIMATE_TOO_GREAT;
    uint64_t faster = (uint64_t)((int64_t)million + terms->skew);
    uint64_t grows = (ppm * faster + terms->slack_ppm * (million + ppm) + 999) / 1000;
    memset(slot, 0, sizeof *slot);
    slot->raw = raw;
    slot->stale_after = terms->stale_after < UINT64_MAX - raw ? raw + terms->stale_after : UINT64_MAX;
    slot->void_after = terms->void_after < UINT64_MAX - raw ? raw + terms->void_after : UINT64_MAX;
    slot->earliest = (int64_t)earliest;
    slot->latest = (int64_t)latest;
    slot->slow = 1000 * faster - grows;
    slot->fast = 1000 * faster + grows;
    slot->origin = terms->origin;
    slot->age = (counter - device->estimate.at) / 1000;
    slot->epoch = device->has_duty != 0 ? device->duty.epoch : 0;
    slot->mode = device->mode;
    return SUNDIAL_CLOCK_GOOD;
}

/* The interval of the slot at a later reading of CLOCK_MONOTONIC_RAW. */
SUNDIAL_INLINE void sundial_clock_extend(const struct sundial_clock_slot *slot, uint64_t raw, int64_t *earliest,
                                         int64_t *latest)
{
    uint64_t whole = (raw - slot->raw) / SUNDIAL_CLOCK_SECOND, rest = (raw - slot->raw) % SUNDIAL_CLOCK_SECOND;
    *earliest = slot->earliest + (int64_t)(whole * slot->slow + rest * slot->slow / SUNDIAL_CLOCK_SECOND);
    *latest = slot->latest
              + (int64_t)(whole * slot->fast + (rest * slot->fast + SUNDIAL_CLOCK_SECOND - 1) / SUNDIAL_CLOCK_SECOND);
}

SUNDIAL_INLINE int sundial_clock_is_same(const struct sundial_clock_identity *a, const struct sundial_clock_identity *b)
{
    return memcmp(a, b, sizeof *a) == 0;
}

/* What a process of this clock reads in the slot while CLOCK_MONOTONIC_RAW shows this. */
SUNDIAL_INLINE uint32_t sundial_clock_at(const struct sundial_clock_slot *slot, const struct sundial_clock_identity *clock,
                                         uint64_t raw, uint64_t greatest, struct sundial_clock_now *now)
{
    int64_t earliest, latest;
    if (!sundial_clock_is_same(&slot->clock, clock) || raw < slot->raw)
        return SUNDIAL_CLOCK_FOREIGN;
    if (slot->status != SUNDIAL_CLOCK_GOOD)
        return slot->status == SUNDIAL_CLOCK_DISRUPTED ? SUNDIAL_CLOCK_DISRUPTED : SUNDIAL_CLOCK_WITHDRAWN;
    if (raw > slot->void_after)
        return SUNDIAL_CLOCK_VOID;
    sundial_clock_extend(slot, raw, &earliest, &latest);
    now->earliest = earliest > 0 ? (uint64_t)earliest : 0;
    now->latest = latest > 0 ? (uint64_t)latest : 0;
    now->eps = ((uint64_t)latest - (uint64_t)earliest + 1) / 2;
    now->age = slot->age + (raw - slot->raw);
    now->silent = raw - slot->raw;
    now->disruptions = slot->disruptions;
    now->origin = slot->origin;
    now->epoch = slot->epoch;
    now->mode = slot->mode;
    if (raw > slot->stale_after)
        return SUNDIAL_CLOCK_STALE;
    return now->eps > greatest ? SUNDIAL_CLOCK_WIDE : SUNDIAL_CLOCK_GOOD;
}

SUNDIAL_INLINE void sundial_clock_pause(void)
{
#if defined(__x86_64__)
    __builtin_ia32_pause();
#endif
}

/* The latest publication. The slot is written only where the answer is GOOD. */
SUNDIAL_INLINE uint32_t sundial_clock_copy(const struct sundial_clock_page *page, struct sundial_clock_slot *slot)
{
    uint64_t words[SUNDIAL_CLOCK_WORDS];
    for (int tries = 0; tries < SUNDIAL_CLOCK_TRIES; tries++) {
        uint64_t number = page != NULL ? __atomic_load_n(&page->latest, __ATOMIC_ACQUIRE) : 0;
        if (number == 0)
            return SUNDIAL_CLOCK_EMPTY;
        const uint64_t *from = page->slots[number % 2];
        for (int i = 0; i < SUNDIAL_CLOCK_WORDS; i++)
            words[i] = __atomic_load_n(&from[i], __ATOMIC_ACQUIRE);
        /* (a slot never has a number again, so it had this one all the time) */
        if (__atomic_load_n(&from[0], __ATOMIC_RELAXED) == number) {
            memcpy(slot, words, sizeof *slot);
            return SUNDIAL_CLOCK_GOOD;
        }
        sundial_clock_pause();
    }
    return SUNDIAL_CLOCK_BUSY;
}

/* -- Readers. */

/* The interval in which the reference time lies at some moment of this call, and what the device is
 * about. Where eps is over `greatest` ns it answers SUNDIAL_CLOCK_WIDE. */
SUNDIAL_INLINE uint32_t sundial_clock_read(const struct sundial_clock_reader *reader, uint64_t greatest,
                                           struct sundial_clock_now *now)
{
    struct sundial_clock_slot slot;
    uint32_t answer = sundial_clock_copy(reader->page, &slot);
    if (answer != SUNDIAL_CLOCK_GOOD)
        return answer;
    /* (after the copy: so a reading of the same clock is not before the publication) */
    return sundial_clock_at(&slot, &reader->clock, sundial_clock_raw(), greatest, now);
}

/* A stamp that is not before the reference time, and greater than every stamp that was taken of the
 * same `last`, also where a message moved `latest` back. Threads share a `last` in memory, processes one in a
 * page that they may write; it is 0 at first. Take it after the locks are held, and wait until it has passed. */
SUNDIAL_INLINE uint64_t sundial_clock_stamp(const struct sundial_clock_now *now, uint64_t *last)
{
    uint64_t before = __atomic_load_n(last, __ATOMIC_RELAXED), stamp;
    do {
        stamp = now->latest > before ? now->latest : before + 1;
    } while (!__atomic_compare_exchange_n(last, &before, stamp, 0, __ATOMIC_ACQ_REL, __ATOMIC_RELAXED));
    return stamp;
}

SUNDIAL_INLINE int sundial_clock_has_passed(const struct sundial_clock_now *now, uint64_t stamp)
{
    return now->earliest > stamp;
}

/* Waits until the reference time has surely passed the stamp: it sleeps while more than 60 us are
 * left, and then asks again and again. It goes on while the clock is stale or busy, and ends where there is
 * no interval. It gives up after `patience` ns, with NOT_YET, STALE or BUSY; `now` is the latest that it
 * saw. GOOD says that the stamp has passed. */
SUNDIAL_INLINE uint32_t sundial_clock_wait(const struct sundial_clock_reader *reader, uint64_t stamp, uint64_t patience,
                                           struct sundial_clock_now *now)
{
    const uint64_t nearly = 60000, begun = sundial_clock_raw();
    for (;;) {
        uint64_t left = 0, waited = 0;
        uint32_t answer = sundial_clock_read(reader, UINT64_MAX, now);
        if (answer == SUNDIAL_CLOCK_GOOD || answer == SUNDIAL_CLOCK_STALE) {
            if (sundial_clock_has_passed(now, stamp))
                return SUNDIAL_CLOCK_GOOD;
            left = stamp - now->earliest;
        } else if (answer != SUNDIAL_CLOCK_BUSY) {
            return answer;
        }
        waited = sundial_clock_raw() - begun;
        if (waited >= patience)
            return answer == SUNDIAL_CLOCK_GOOD ? (uint32_t)SUNDIAL_CLOCK_NOT_YET : answer;
        if (left > patience - waited)
            left = patience - waited;
        if (left > nearly) {
            uint64_t sleep = left - nearly;
            struct timespec for_this = {(time_t)(sleep / SUNDIAL_CLOCK_SECOND), (long)(sleep % SUNDIAL_CLOCK_SECOND)};
            nanosleep(&for_this, NULL);
        } else {
            sundial_clock_pause();
        }
    }
}

/* A lease that ends at reference time `end`, in ns. Its holder acts while this is 1, and another takes the
 * lease once the next is. At one moment of the reference time not both are, on any two machines. A holder that
 * is stopped between this call and what it then does acts late: what it writes to needs a fencing token. */
SUNDIAL_INLINE int sundial_clock_lease_holds(const struct sundial_clock_now *now, uint64_t end)
{
    return now->latest < end;
}

SUNDIAL_INLINE int sundial_clock_lease_is_over(const struct sundial_clock_now *now, uint64_t end)
{
    return now->earliest > end;
}

/* The civil time of a reference time, in ns since 1970 on the scale of the origin: TAI, say. To show it as UTC
 * take the leap seconds off. */
SUNDIAL_INLINE int64_t sundial_clock_civil(const struct sundial_clock_now *now, uint64_t reference)
{
    return now->origin + (int64_t)reference;
}

/* -- Files. Each of these calls answers 0, or -1 with errno. */

/* What a short file of /proc says, ended by a 0; its number of bytes, or -1. */
SUNDIAL_INLINE int sundial_clock_text(const char *path, char *text, size_t room)
{
    int file = open(path, O_RDONLY | O_CLOEXEC);
    if (file < 0)
        return -1;
    ssize_t bytes = read(file, text, room - 1);
    int why = errno;
    close(file);
    errno = why;
    text[bytes > 0 ? bytes : 0] = 0;
    return (int)bytes;
}

/* Which clock is that of this process. ENOTSUP in a process that made a time namespace for its children and
 * lives in another: the kernel does not show which its own is. */
SUNDIAL_INLINE int sundial_clock_identify(struct sundial_clock_identity *clock)
{
    char text[128];
    struct stat own, children;
    long long seconds = 0, rest = 0;
    memset(clock, 0, sizeof *clock);
    if (sundial_clock_text("/proc/sys/kernel/random/boot_id", text, sizeof text) < 0)
        return -1;
    const char *at = text;
    for (size_t i = 0; i < sizeof clock->boot; i++) {
        at += *at == '-';
        unsigned byte = 0;
        if (sscanf(at, "%2x", &byte) != 1) {
            errno = EINVAL;
            return -1;
        }
        clock->boot[i] = (unsigned char)byte;
        at += 2;
    }
    if (sundial_clock_text("/proc/self/timens_offsets", text, sizeof text) < 0)
        return errno == ENOENT ? 0 : -1; /* (a kernel without time namespaces) */
    if (stat("/proc/self/ns/time", &own) != 0 || stat("/proc/self/ns/time_for_children", &children) != 0)
        return -1;
    if (own.st_ino != children.st_ino || sscanf(text, "monotonic %lld %lld", &seconds, &rest) != 2) {
        errno = ENOTSUP;
        return -1;
    }
    clock->offset = (int64_t)(seconds * 1000000000 + rest);
    return 0;
}

/* The page of this open file, which it closes. EINVAL where it is none, ENOTSUP where it has another layout. */
SUNDIAL_INLINE struct sundial_clock_page *sundial_clock_map(int file, int rights)
{
    struct stat found;
    void *at = MAP_FAILED;
    errno = EINVAL;
    if (fstat(file, &found) == 0 && found.st_size >= (off_t)sizeof(struct sundial_clock_page))
        at = mmap(NULL, sizeof(struct sundial_clock_page), rights, MAP_SHARED, file, 0);
    int why = errno;
    close(file);
    errno = why;
    if (at == MAP_FAILED)
        return NULL;
    struct sundial_clock_page *page = (struct sundial_clock_page *)at;
    if ((rights & PROT_WRITE) != 0 && page->magic == 0 && page->version == 0) {
        page->length = sizeof *page;
        page->version = SUNDIAL_CLOCK_VERSION;
        __atomic_store_n(&page->magic, SUNDIAL_CLOCK_MAGIC, __ATOMIC_RELEASE);
    }
    if (__atomic_load_n(&page->magic, __ATOMIC_ACQUIRE) != SUNDIAL_CLOCK_MAGIC)
        why = EINVAL;
    else if (page->version != SUNDIAL_CLOCK_VERSION || page->length != sizeof *page)
        why = ENOTSUP;
    else
        return page;
    munmap(at, sizeof *page);
    errno = why;
    return NULL;
}

/* The page of this file, for reading. */
SUNDIAL_INLINE int sundial_clock_open(const char *path, struct sundial_clock_reader *reader)
{
    struct sundial_clock_reader found;
    if (sundial_clock_identify(&found.clock) != 0)
        return -1;
    int file = open(path, O_RDONLY | O_CLOEXEC);
    if (file < 0)
        return -1;
    found.page = sundial_clock_map(file, PROT_READ);
    if (found.page == NULL)
        return -1;
    *reader = found;
    return 0;
}

/* Gives the page back. A read of a closed reader answers EMPTY. */
SUNDIAL_INLINE void sundial_clock_close(struct sundial_clock_reader *reader)
{
    if (reader->page != NULL)
        munmap((void *)(uintptr_t)reader->page, sizeof *reader->page);
    reader->page = NULL;
}

/* A file that this user alone may write, made where it is not there. */
SUNDIAL_INLINE int sundial_clock_own(const char *path, mode_t mode)
{
    struct stat found;
    int file = open(path, O_RDWR | O_CREAT | O_CLOEXEC | O_NOFOLLOW, mode);
    if (file < 0)
        return -1;
    int why = EPERM;
    if (fstat(file, &found) != 0)
        why = errno;
    else if (S_ISREG(found.st_mode) && found.st_uid == geteuid() && found.st_nlink == 1
             && (found.st_mode & 0777 & ~mode) == 0)
        return file;
    close(file);
    errno = why;
    return -1;
}

/* The page of this file, for its one writer, who has the lock until the release or until its process ends.
 * A page that is there stays as it is: readers go on with what the writer before published. The lock is
 * that of the file PATH.lock, which no other user can open. EWOULDBLOCK where there is a writer, EPERM where
 * one of the files is another user's, has another name or may be written by others. */
SUNDIAL_INLINE int sundial_clock_create(const char *path, const struct sundial_clock_terms *terms,
                                        struct sundial_clock_writer *writer)
{
    struct sundial_clock_writer made;
    char lock[PATH_MAX];
    struct stat found;
    made.terms = *terms;
    if (sundial_clock_identify(&made.clock) != 0)
        return -1;
    if (snprintf(lock, sizeof lock, "%s.lock", path) >= (int)sizeof lock) {
        errno = ENAMETOOLONG;
        return -1;
    }
    made.lock = sundial_clock_own(lock, 0600);
    if (made.lock < 0)
        return -1;
    made.page = NULL;
    if (flock(made.lock, LOCK_EX | LOCK_NB) == 0) {
        int file = sundial_clock_own(path, 0644);
        if (file >= 0 && fstat(file, &found) == 0 && found.st_size == 0
            && ftruncate(file, (off_t)sizeof(struct sundial_clock_page)) != 0) {
            int why = errno;
            close(file);
            errno = why;
        } else if (file >= 0) {
            made.page = sundial_clock_map(file, PROT_READ | PROT_WRITE);
        }
    }
    if (made.page == NULL) {
        int why = errno;
        close(made.lock);
        errno = why;
        return -1;
    }
    *writer = made;
    return 0;
}

/* Gives page and lock back. The interval stays, and grows stale. Where no writer will come, withdraw first. */
SUNDIAL_INLINE void sundial_clock_release(struct sundial_clock_writer *writer)
{
    munmap(writer->page, sizeof *writer->page);
    close(writer->lock);
    writer->page = NULL;
    writer->lock = -1;
}

/* -- The writer. None of its calls waits for anybody. A writer that is killed within one leaves what was
 * published before. */

SUNDIAL_INLINE void sundial_clock_put(struct sundial_clock_writer *writer, struct sundial_clock_slot *slot)
{
    uint64_t words[SUNDIAL_CLOCK_WORDS];
    uint64_t number = __atomic_load_n(&writer->page->latest, __ATOMIC_RELAXED) + 1;
    uint64_t *to = writer->page->slots[number % 2];
    slot->clock = writer->clock;
    memcpy(words, slot, sizeof words);
    __atomic_store_n(&to[0], 0, __ATOMIC_RELAXED);
    for (int i = 1; i < SUNDIAL_CLOCK_WORDS; i++)
        /* (a reader that sees this word sees the 0 before it, too) */
        __atomic_store_n(&to[i], words[i], __ATOMIC_RELEASE);
    __atomic_store_n(&to[0], number, __ATOMIC_RELEASE);
    __atomic_store_n(&writer->page->latest, number, __ATOMIC_RELEASE);
}

/* What is published, or zeros. */
SUNDIAL_INLINE struct sundial_clock_slot sundial_clock_published(const struct sundial_clock_writer *writer)
{
    struct sundial_clock_slot slot;
    memset(&slot, 0, sizeof slot);
    sundial_clock_copy(writer->page, &slot);
    return slot;
}

/* Shows readers the device as it is now. The counter and CLOCK_MONOTONIC_RAW were read at one moment, which is
 * not before that of the device's latest call. Faults: BAD_RAW, APART, and those of sundial_clock_line. */
SUNDIAL_INLINE uint32_t sundial_clock_publish(struct sundial_clock_writer *writer, const struct sundial_device *device,
                                              uint64_t counter, uint64_t raw)
{
    struct sundial_clock_slot slot, before = sundial_clock_published(writer);
    uint32_t answer = sundial_clock_line(&writer->terms, device, counter, raw, &slot);
    if (answer != SUNDIAL_CLOCK_GOOD)
        return answer;
    int is_later = sundial_clock_is_same(&before.clock, &writer->clock);
    if (raw > sundial_clock_raw() || (is_later && raw < before.raw))
        return SUNDIAL_CLOCK_BAD_RAW;
    if (is_later && before.status == SUNDIAL_CLOCK_GOOD) {
        int64_t earliest, latest;
        sundial_clock_extend(&before, raw, &earliest, &latest);
        if (slot.latest < earliest || slot.earliest > latest)
            return SUNDIAL_CLOCK_APART;
    }
    slot.disruptions = before.disruptions;
    sundial_clock_put(writer, &slot);
    return SUNDIAL_CLOCK_GOOD;
}

SUNDIAL_INLINE void sundial_clock_end(struct sundial_clock_writer *writer, uint32_t status, uint64_t disruptions)
{
    struct sundial_clock_slot slot;
    memset(&slot, 0, sizeof slot);
    slot.status = status;
    slot.raw = sundial_clock_raw();
    slot.disruptions = sundial_clock_published(writer).disruptions + disruptions;
    sundial_clock_put(writer, &slot);
}

/* From now on readers answer WITHDRAWN, until the next publication. */
SUNDIAL_INLINE void sundial_clock_withdraw(struct sundial_clock_writer *writer)
{
    sundial_clock_end(writer, SUNDIAL_CLOCK_WITHDRAWN, 0);
}

/* The machine slept, or is a virtual one that was stopped, restored or migrated. From now on readers answer
 * DISRUPTED, until the next publication. The struct of the device holds none any more, since the premise drift is
 * broken: start or join it anew. */
SUNDIAL_INLINE void sundial_clock_disrupt(struct sundial_clock_writer *writer, struct sundial_device *device)
{
    sundial_clock_end(writer, SUNDIAL_CLOCK_DISRUPTED, 1);
    memset(device, 0, sizeof *device);
}

#ifdef __cplusplus
}
#endif
#undef SUNDIAL_CLOCK_ASSERT
#endif
