/* Tries sundial_clock.h: each answer, each number, and a writer that stops within a publication.
 *
 *     clock_test page   each answer, the numbers of a slot, and the files
 *     clock_test step   a writer that is stopped after each instruction of a publication. What it left is
 *                       read, and another writer goes on from it. A reader that is stopped at each fifth
 *                       instruction of a copy, and the slot is written anew meanwhile
 *
 * clock_run.c has many readers beside a writer. */
#define _GNU_SOURCE
#include "sundial_clock.h"

#include <inttypes.h>
#include <stdlib.h>
#include <sys/ptrace.h>
#include <sys/wait.h>

static const uint64_t SECOND = 1000000000;
static const struct sundial_duty DUTY = {{0, 0, 0, 0}, {0, 0, 0, 0}, 1000000000, 1, 1, 1, {1000, 200}, 3, SUNDIAL_ROOT, 0, 0};
static const struct sundial_clock_terms LASTING = {UINT64_MAX, UINT64_MAX, 0, 0, 0, 0};

static uint64_t word = 1;

static void expect(int holds, const char *what)
{
    if (!holds) {
        fprintf(stderr, "clock: %s\n", what);
        _exit(1);
    }
}

static uint64_t below(uint64_t end)
{
    word = word * UINT64_C(6364136223846793005) + 1442695040888963407;
    return (word >> 20) % end;
}

static struct sundial_device started(uint64_t counter, uint64_t clock, uint64_t eps)
{
    struct sundial_device device;
    memset(&device, 0, sizeof device);
    expect(sundial_start(&device, &DUTY, counter, clock, eps) == SUNDIAL_DONE, "start");
    return device;
}

static char path[256], lock[300]; /* of the page of this test */

static void remove_page(void)
{
    unlink(lock);
    unlink(path);
}

/* The file of a page that is not there yet. */
static const char *page_of(const char *test)
{
    snprintf(path, sizeof path, "/tmp/sundial-clock-%d-%s", (int)getpid(), test);
    snprintf(lock, sizeof lock, "%s.lock", path);
    remove_page();
    return path;
}

/* A call that answers this, and leaves the numbers of a read as they were. */
static void expect_no_interval(const struct sundial_clock_reader *reader, uint32_t answer, const char *what)
{
    struct sundial_clock_now now, before;
    memset(&now, 0x5a, sizeof now);
    before = now;
    expect(sundial_clock_read(reader, UINT64_MAX, &now) == answer, what);
    expect(memcmp(&now, &before, sizeof now) == 0, "a read that answers a fault wrote numbers");
    expect(sundial_clock_wait(reader, 0, UINT64_MAX, &now) == answer, "a wait without an interval goes on");
}

/* A publication that answers this, and leaves the page as it was. */
static void expect_refused(struct sundial_clock_writer *writer, const struct sundial_device *device, uint64_t counter,
                           uint64_t raw, uint32_t answer, const char *what)
{
    struct sundial_clock_page before = *writer->page;
    expect(sundial_clock_publish(writer, device, counter, raw) == answer, what);
    expect(memcmp(writer->page, &before, sizeof before) == 0, "a publication that answers a fault changed the page");
}

static void answers(void)
{
    struct sundial_clock_writer writer;
    struct sundial_clock_reader reader, other;
    struct sundial_clock_now now;
    struct sundial_device device = started(7000, 5000, 10), none;
    uint64_t raw = sundial_clock_raw();
    memset(&none, 0, sizeof none);
    expect(sundial_clock_create(page_of("answers"), &LASTING, &writer) == 0, "no page to write");
    expect(sundial_clock_open(path, &reader) == 0, "no page to read");
    expect_no_interval(&reader, SUNDIAL_CLOCK_EMPTY, "empty");
    expect_refused(&writer, &none, 7000, raw, SUNDIAL_NO_DEVICE, "a device that is none");
    expect_refused(&writer, &device, 6999, raw, SUNDIAL_COUNTER_FELL, "a counter that fell");
    expect_refused(&writer, &device, 7000, sundial_clock_raw() + SECOND, SUNDIAL_CLOCK_BAD_RAW, "a reading after now");
    writer.terms.skew = 100001;
    expect_refused(&writer, &device, 7000, raw, SUNDIAL_CLOCK_BAD_TERMS, "terms past their limits");
    writer.terms = LASTING;
    expect(sundial_clock_publish(&writer, &device, 7000, raw) == SUNDIAL_CLOCK_GOOD, "a publication");
    expect(sundial_clock_read(&reader, SECOND, &now) == SUNDIAL_CLOCK_GOOD && now.latest >= 5, "good");
    expect(now.mode == SUNDIAL_ACTING && now.epoch == 3 && now.disruptions == 0, "what the device is about");
    expect_refused(&writer, &device, 7000, raw - 1, SUNDIAL_CLOCK_BAD_RAW, "a reading before that of the publication before");
    /* another clock: of another boot, another time namespace, or not yet at the publication */
    other = reader;
    other.clock.boot[15] ^= 1;
    expect_no_interval(&other, SUNDIAL_CLOCK_FOREIGN, "another boot");
    other = reader;
    other.clock.offset += 1;
    expect_no_interval(&other, SUNDIAL_CLOCK_FOREIGN, "another time namespace");
    writer.page->slots[writer.page->latest % 2][5] += 100 * SECOND;
    expect_no_interval(&reader, SUNDIAL_CLOCK_FOREIGN, "a publication after now");
    /* withdrawn, and good again */
    sundial_clock_withdraw(&writer);
    expect_no_interval(&reader, SUNDIAL_CLOCK_WITHDRAWN, "withdrawn");
    raw = sundial_clock_raw();
    expect(sundial_clock_publish(&writer, &device, 7000, raw) == SUNDIAL_CLOCK_GOOD
               && sundial_clock_read(&reader, SECOND, &now) == SUNDIAL_CLOCK_GOOD && now.disruptions == 0,
           "good after a withdrawal");
    /* disrupted: the device has to begin anew */
    sundial_clock_disrupt(&writer, &device);
    expect_no_interval(&reader, SUNDIAL_CLOCK_DISRUPTED, "disrupted");
    expect_refused(&writer, &device, 7000, sundial_clock_raw(), SUNDIAL_NO_DEVICE, "the device of before a disruption");
    device = started(8000, 6000, 10);
    expect(sundial_clock_publish(&writer, &device, 8000, sundial_clock_raw()) == SUNDIAL_CLOCK_GOOD
               && sundial_clock_read(&reader, SECOND, &now) == SUNDIAL_CLOCK_GOOD && now.disruptions == 1,
           "good after a disruption");
    sundial_clock_disrupt(&writer, &device);
    sundial_clock_withdraw(&writer);
    device = started(9000, 6000, 10);
    expect(sundial_clock_publish(&writer, &device, 9000, sundial_clock_raw()) == SUNDIAL_CLOCK_GOOD
               && sundial_clock_read(&reader, SECOND, &now) == SUNDIAL_CLOCK_GOOD && now.disruptions == 2,
           "two disruptions");
    /* the slot of the latest number is being written: no reader waits for long */
    uint64_t number = writer.page->latest, begun = 0, least = UINT64_MAX;
    writer.page->slots[number % 2][0] = 0;
    for (int i = 0; i < 20; i++) {
        begun = sundial_clock_raw();
        expect(sundial_clock_read(&reader, SECOND, &now) == SUNDIAL_CLOCK_BUSY, "busy");
        uint64_t took = sundial_clock_raw() - begun;
        least = took < least ? took : least;
    }
    expect(least < SECOND / 1000, "a busy page keeps a reader for a millisecond");
    begun = sundial_clock_raw();
    expect(sundial_clock_wait(&reader, 0, SECOND / 100, &now) == SUNDIAL_CLOCK_BUSY
               && sundial_clock_raw() - begun >= SECOND / 100, "a wait beside a busy writer");
    writer.page->slots[number % 2][0] = number;
    expect(sundial_clock_read(&reader, SECOND, &now) == SUNDIAL_CLOCK_GOOD, "good again");
    sundial_clock_close(&reader);
    expect_no_interval(&reader, SUNDIAL_CLOCK_EMPTY, "a closed reader");
    sundial_clock_close(&reader);
    sundial_clock_release(&writer);
    remove_page();
}

/* What a slot says at the edges of its times and of eps. */
static void edges(void)
{
    static const struct sundial_clock_slot SLOT = {
        .number = 1, .clock = {{9}, -5}, .raw = 1000, .stale_after = 3000, .void_after = 5000, .earliest = -40, .latest = 61,
        .slow = 900000000, .fast = 1100000000, .origin = -7, .age = 30, .epoch = 2, .mode = 1, .disruptions = 4};
    static const struct { uint64_t raw, greatest; uint32_t answer; uint64_t earliest, latest, eps; } AT[] = {
        {1000, 51, SUNDIAL_CLOCK_GOOD, 0, 61, 51}, {1000, 50, SUNDIAL_CLOCK_WIDE, 0, 61, 51},
        {1001, 52, SUNDIAL_CLOCK_GOOD, 0, 63, 52}, {1100, 61, SUNDIAL_CLOCK_GOOD, 50, 171, 61},
        {3000, 251, SUNDIAL_CLOCK_GOOD, 1760, 2261, 251}, {3001, 252, SUNDIAL_CLOCK_STALE, 1760, 2263, 252},
        {5000, 0, SUNDIAL_CLOCK_STALE, 3560, 4461, 451}, {5001, 999, SUNDIAL_CLOCK_VOID, 0, 0, 0},
        {999, 999, SUNDIAL_CLOCK_FOREIGN, 0, 0, 0}};
    for (size_t i = 0; i < sizeof AT / sizeof AT[0]; i++) {
        struct sundial_clock_now now;
        memset(&now, 0, sizeof now);
        expect(sundial_clock_at(&SLOT, &SLOT.clock, AT[i].raw, AT[i].greatest, &now) == AT[i].answer, "an answer at its edge");
        expect(now.earliest == AT[i].earliest && now.latest == AT[i].latest && now.eps == AT[i].eps, "an interval at its edge");
        if (now.latest != 0)
            expect(now.silent == AT[i].raw - 1000 && now.age == now.silent + 30 && now.origin == -7 && now.epoch == 2
                       && now.mode == 1 && now.disruptions == 4, "what a read says beside its interval");
    }
}

/* The numbers of a slot. In the first row one ps less of eps moves both ends. */
static void lines(void)
{
    static const struct {
        uint64_t clock, eps, passed;
        struct sundial_clock_terms terms;
        int64_t earliest, latest;
        uint64_t slow, fast;
    } ROWS[] = {
        {5000000000000, 394, 3000000, {50, 60, 10001, 7, -3, 9}, 5000002987, 5000003013, 999789999, 1000204001},
        {2000, 10000, 0, {50, 60, 0, 0, 0, 9}, -10, 14, 999800000, 1000200000},
        {7777777, 1, 1, {50, 60, 0, 0, 1, 9}, 7776, 7779, 999800999, 1000201001},
        {UINT64_MAX, UINT64_MAX, 999999999, {50, 60, 1000000000000, 100000, 100000, 9}, -999200202, 36893489148619305,
         999760000, 1200240000},
    };
    for (size_t i = 0; i < sizeof ROWS / sizeof ROWS[0]; i++) {
        struct sundial_clock_slot slot;
        struct sundial_device device = started(7000, ROWS[i].clock, ROWS[i].eps);
        device.last = 0; /* (nothing of the slot is counted from it) */
        expect(sundial_clock_line(&ROWS[i].terms, &device, 7000 + ROWS[i].passed, 1000, &slot) == SUNDIAL_CLOCK_GOOD, "a slot");
        if (slot.earliest != ROWS[i].earliest || slot.latest != ROWS[i].latest || slot.slow != ROWS[i].slow || slot.fast != ROWS[i].fast)
            fprintf(stderr, "row %zu: %" PRId64 " %" PRId64 " %" PRIu64 " %" PRIu64 "\n", i, slot.earliest, slot.latest, slot.slow, slot.fast);
        expect(slot.earliest == ROWS[i].earliest && slot.latest == ROWS[i].latest, "the interval of a slot");
        expect(slot.slow == ROWS[i].slow && slot.fast == ROWS[i].fast, "the rates of a slot");
        expect(slot.raw == 1000 && slot.stale_after == 1050 && slot.void_after == 1060 && slot.age == ROWS[i].passed / 1000
                   && slot.origin == 9 && slot.epoch == 3 && slot.mode == SUNDIAL_ACTING, "a slot beside its interval");
    }
    expect(sundial_clock_down(1999) == 1 && sundial_clock_down(-1) == -1 && sundial_clock_down(-1000) == -1
               && sundial_clock_down(-1001) == -2, "ps as ns");
    static const struct sundial_clock_terms BAD[] = {
        {0, 0, 1000000000001, 0, 0, 0}, {0, 0, 0, 100001, 0, 0}, {0, 0, 0, 0, 100001, 0}, {0, 0, 0, 0, -100001, 0}};
    struct sundial_clock_slot slot;
    struct sundial_device device = started(7000, 0, 0);
    for (size_t i = 0; i < sizeof BAD / sizeof BAD[0]; i++)
        expect(sundial_clock_line(&BAD[i], &device, 7000, 0, &slot) == SUNDIAL_CLOCK_BAD_TERMS, "terms past their limits");
    static const struct sundial_wide ENDS[] = {{0, 500}, {UINT64_MAX, 499}, {0, 0}};
    for (size_t i = 0; i < 3; i++)
        for (size_t k = 0; k < 3; k++) {
            expect(sundial_start_wide(&device, &DUTY, 7000, &ENDS[i], &ENDS[k]) == SUNDIAL_DONE, "start");
            uint32_t answer = sundial_clock_line(&LASTING, &device, 7000, 0, &slot);
            expect(answer == (i == 2 && k == 2 ? SUNDIAL_CLOCK_GOOD : SUNDIAL_ESTIMATE_TOO_GREAT), "an interval past 64 bits");
        }
}

/* Whatever the counter is within the terms, the interval contains what the library reports, and has little more. */
static void contains(void)
{
    for (int i = 0; i < 100000; i++) {
        struct sundial_clock_mapping counter = {below(SECOND), 7000 + below(SECOND), (int32_t)below(200001) - 100000};
        struct sundial_clock_terms terms = {UINT64_MAX, UINT64_MAX, below(3) == 0 ? 0 : below(5000000),
                                            below(3) == 0 ? 0 : (uint32_t)below(100001), counter.skew, 0};
        struct sundial_duty duty = DUTY;
        struct sundial_device device;
        struct sundial_clock_slot slot;
        struct sundial_clock_now now;
        struct sundial_clock_report report = {{0, 0}, {0, 0}};
        memset(&device, 0, sizeof device);
        memset(&now, 0, sizeof now);
        duty.rates.ppm = (uint32_t)below(100001);
        expect(sundial_start(&device, &duty, 7000, 100 * SECOND * 1000 + below(SECOND), below(SECOND)) == SUNDIAL_DONE, "start");
        expect(sundial_clock_line(&terms, &device, counter.counter, counter.raw, &slot) == SUNDIAL_CLOCK_GOOD, "a slot");
        uint64_t passed = below(1 + (UINT64_C(1) << below(34))), raw = counter.raw + passed;
        expect(sundial_clock_at(&slot, &slot.clock, raw, UINT64_MAX, &now) == SUNDIAL_CLOCK_GOOD, "a read");
        uint64_t off = terms.slack + passed * terms.slack_ppm / 1000, at = sundial_clock_counter(&counter, raw);
        for (int side = -1; side <= 1; side += 2) {
            uint64_t slacked = side < 0 ? at - off : at + off;
            if (side < 0 && at < 7000 + off)
                continue;
            expect(sundial_report(&device, slacked, &report) == SUNDIAL_DONE, "a report");
            uint64_t reported = side < 0 ? sundial_earliest(&report).low : sundial_latest(&report).low;
            uint64_t read = 1000 * (side < 0 ? now.earliest : now.latest);
            uint64_t more = 2200 + off / 4 + passed / 1000000; /* (growth of the slack, roundings, and those of the rates) */
            expect(side < 0 ? read <= reported && read + more >= reported : read >= reported && read <= reported + more,
                   "an interval is not that of the library");
        }
    }
}

/* The counter of a mapping, and a rebase that lowers it. */
static void counters(void)
{
    for (int skew = -100000; skew <= 100000; skew += 4001) {
        struct sundial_clock_mapping mapping = {500, 70000, skew};
        uint64_t before = sundial_clock_counter(&mapping, 400), day = UINT64_C(86400) * SECOND;
        expect(before == 70000, "a counter before its beginning");
        for (uint64_t raw = 500; raw < 4000; raw++) {
            uint64_t at = sundial_clock_counter(&mapping, raw);
            expect(at >= before && at == 70000 + (raw - 500) * 1000 + (uint64_t)((int64_t)(raw - 500) * skew / 1000), "a counter");
            before = at;
        }
        expect((int64_t)(sundial_clock_counter(&mapping, 500 + day) - 70000 - day * 1000) == (int64_t)(day / 1000) * skew,
               "a day by a counter");
    }
    struct sundial_clock_writer writer;
    struct sundial_clock_reader reader;
    struct sundial_clock_now before, after;
    uint64_t raw = sundial_clock_raw(), lowered = 0;
    struct sundial_clock_mapping mapping = {raw - 1000 * SECOND, 0, 0}, kept = mapping;
    uint64_t begin = sundial_clock_counter(&mapping, raw);
    struct sundial_port port = {{begin + 9000 * SECOND, 0}, 1};
    struct sundial_device device = started(begin, 5 * SECOND * 1000, 1000);
    expect(sundial_clock_create(page_of("counters"), &LASTING, &writer) == 0 && sundial_clock_open(path, &reader) == 0, "no page");
    expect(sundial_clock_publish(&writer, &device, sundial_clock_counter(&mapping, raw), raw) == SUNDIAL_CLOCK_GOOD
               && sundial_clock_read(&reader, SECOND, &before) == SUNDIAL_CLOCK_GOOD, "before a rebase");
    struct sundial_device none;
    memset(&none, 0, sizeof none);
    expect(sundial_clock_rebase(&mapping, &none, NULL, 0, raw, &lowered) == SUNDIAL_NO_DEVICE && lowered == 0
               && memcmp(&mapping, &kept, sizeof mapping) == 0, "a rebase that answers a fault changed something");
    raw = sundial_clock_raw();
    expect(sundial_clock_rebase(&mapping, &device, &port, 1, raw, &lowered) == SUNDIAL_DONE && lowered >= 999 * SECOND * 1000, "a rebase");
    expect(sundial_clock_counter(&mapping, raw) + lowered == sundial_clock_counter(&kept, raw)
               && sundial_clock_counter(&mapping, raw + 777) + lowered == sundial_clock_counter(&kept, raw + 777), "a lowered mapping");
    expect(port.clear.low + lowered == begin + 9000 * SECOND && port.clear.high == 0, "a lowered port");
    expect_refused(&writer, &device, sundial_clock_counter(&kept, raw), raw, SUNDIAL_CLOCK_APART, "a counter that was not lowered");
    expect(sundial_clock_publish(&writer, &device, sundial_clock_counter(&mapping, raw), raw) == SUNDIAL_CLOCK_GOOD, "after a rebase");
    expect(sundial_clock_read(&reader, SECOND, &after) == SUNDIAL_CLOCK_GOOD && after.earliest >= before.earliest
               && after.latest < before.latest + SECOND && after.eps < SECOND, "an interval that a rebase shifted");
    /* too early by more than the two intervals are wide, too */
    device = started(7000, SECOND, 10);
    expect_refused(&writer, &device, 7000, sundial_clock_raw(), SUNDIAL_CLOCK_APART, "a clock that is seconds slow");
    sundial_clock_withdraw(&writer);
    expect(sundial_clock_publish(&writer, &device, 7000, sundial_clock_raw()) == SUNDIAL_CLOCK_GOOD, "another clock after a withdrawal");
    /* a page of another boot says nothing of this one */
    writer.page->slots[writer.page->latest % 2][2] ^= 1;
    device = started(7000, 900 * SECOND * 1000, 10);
    expect(sundial_clock_publish(&writer, &device, 7000, sundial_clock_raw()) == SUNDIAL_CLOCK_GOOD, "the first of a boot");
    sundial_clock_close(&reader);
    sundial_clock_release(&writer);
    remove_page();
}

static void commits(void)
{
    struct sundial_clock_now now;
    uint64_t last = 0;
    memset(&now, 0, sizeof now);
    now.latest = 10;
    expect(sundial_clock_stamp(&now, &last) == 10 && sundial_clock_stamp(&now, &last) == 11, "stamps");
    now.latest = 5;
    expect(sundial_clock_stamp(&now, &last) == 12 && last == 12, "a stamp of a latest that fell");
    now.latest = 12;
    expect(sundial_clock_stamp(&now, &last) == 13, "a stamp of a latest that was given");
    now.earliest = 7, now.latest = 9, now.origin = 1000;
    expect(sundial_clock_has_passed(&now, 6) && !sundial_clock_has_passed(&now, 7), "whether a stamp has passed");
    expect(sundial_clock_lease_holds(&now, 10) && !sundial_clock_lease_holds(&now, 9), "whether a lease holds");
    expect(sundial_clock_lease_is_over(&now, 6) && !sundial_clock_lease_is_over(&now, 7), "whether a lease is over");
    expect(sundial_clock_civil(&now, 5) == 1005, "civil time");
}

static void waits(void)
{
    struct sundial_clock_writer writer;
    struct sundial_clock_reader reader;
    struct sundial_clock_now now;
    uint64_t raw = sundial_clock_raw(), begun = raw, passed;
    struct sundial_device device = started(7000, 1000 * SECOND, 10);
    expect(sundial_clock_create(page_of("waits"), &LASTING, &writer) == 0 && sundial_clock_open(path, &reader) == 0, "no page");
    expect(sundial_clock_publish(&writer, &device, 7000, raw) == SUNDIAL_CLOCK_GOOD, "a publication");
    expect(sundial_clock_wait(&reader, SECOND + SECOND / 50, SECOND, &now) == SUNDIAL_CLOCK_GOOD && now.earliest > SECOND + SECOND / 50
               && sundial_clock_raw() - begun > SECOND / 50, "a wait for 20 ms");
    begun = sundial_clock_raw();
    expect(sundial_clock_wait(&reader, 1000 * SECOND, SECOND / 50, &now) == SUNDIAL_CLOCK_NOT_YET, "a wait whose patience ends");
    passed = sundial_clock_raw() - begun;
    expect(passed >= SECOND / 50 && passed < 20 * SECOND, "patience of 20 ms");
    expect(sundial_clock_wait(&reader, 1000 * SECOND, 0, &now) == SUNDIAL_CLOCK_NOT_YET, "no patience");
    writer.terms.stale_after = 0;
    expect(sundial_clock_publish(&writer, &device, 7000, raw) == SUNDIAL_CLOCK_GOOD, "a publication that is stale at once");
    expect(sundial_clock_wait(&reader, 1000 * SECOND, SECOND / 100, &now) == SUNDIAL_CLOCK_STALE, "a wait by a stale clock");
    expect(sundial_clock_wait(&reader, now.earliest + SECOND / 100, SECOND, &now) == SUNDIAL_CLOCK_GOOD, "a stale clock passes, too");
    sundial_clock_close(&reader);
    sundial_clock_release(&writer);
    remove_page();
}

/* What another user does with the files. It says so once it has all the locks that it can have. */
static int as_nobody(int ready)
{
    int page = -1;
    struct sundial_clock_writer writer;
    if (setgid(65534) != 0 || setuid(65534) != 0)
        return 1;
    if (open(lock, O_RDONLY) >= 0 || open(path, O_RDWR) >= 0 || sundial_clock_create(path, &LASTING, &writer) == 0)
        return 2;
    page = open(path, O_RDONLY);
    struct flock all = {.l_type = F_RDLCK, .l_whence = SEEK_SET};
    if (page < 0 || flock(page, LOCK_EX) != 0 || fcntl(page, F_SETLK, &all) != 0)
        return 3;
    if (write(ready, "", 1) != 1)
        return 4;
    pause();
    return 0;
}

static void files(void)
{
    struct sundial_clock_writer writer, second;
    struct sundial_clock_reader reader;
    struct sundial_clock_now now;
    struct sundial_device device = started(7000, 5000, 10);
    char other[300];
    expect(sundial_clock_open(page_of("files"), &reader) != 0 && errno == ENOENT, "a page that is not there");
    expect(sundial_clock_open("/dev/null", &reader) != 0 && errno == EINVAL, "a file that is no page");
    expect(sundial_clock_create(path, &LASTING, &writer) == 0, "a page");
    expect(sundial_clock_create(path, &LASTING, &second) != 0 && errno == EWOULDBLOCK, "two writers have one page");
    expect(sundial_clock_publish(&writer, &device, 7000, sundial_clock_raw()) == SUNDIAL_CLOCK_GOOD, "a publication");
    sundial_clock_release(&writer);
    expect(sundial_clock_open(path, &reader) == 0 && sundial_clock_read(&reader, SECOND, &now) == SUNDIAL_CLOCK_GOOD,
           "a released page is read");
    expect(sundial_clock_create(path, &LASTING, &writer) == 0 && sundial_clock_read(&reader, SECOND, &now) == SUNDIAL_CLOCK_GOOD,
           "a writer that comes leaves the page as it is");
    writer.page->version = 1;
    expect(sundial_clock_open(path, &reader) != 0 && errno == ENOTSUP, "a page of another version");
    sundial_clock_release(&writer);
    expect(sundial_clock_create(path, &LASTING, &writer) != 0 && errno == ENOTSUP, "a writer of another version");
    unlink(path);
    FILE *file = fopen(path, "w");
    expect(file != NULL && fputs("a file of somebody", file) > 0 && fclose(file) == 0, "no file");
    expect(sundial_clock_create(path, &LASTING, &writer) != 0 && errno == EINVAL, "a file of somebody was taken for a page");
    expect(truncate(path, 5000) == 0 && sundial_clock_create(path, &LASTING, &writer) != 0 && errno == EINVAL, "a longer one");
    unlink(path);
    snprintf(other, sizeof other, "%s.other", path);
    expect(sundial_clock_create(path, &LASTING, &writer) == 0, "a page");
    sundial_clock_release(&writer);
    expect(link(path, other) == 0 && sundial_clock_create(path, &LASTING, &writer) != 0 && errno == EPERM, "a page of two names");
    expect(unlink(other) == 0 && symlink(path, other) == 0 && sundial_clock_create(other, &LASTING, &writer) != 0 && errno == ELOOP,
           "a page behind a symbolic link");
    unlink(other);
    snprintf(other, sizeof other, "%s.other.lock", path);
    unlink(other);
    expect(chmod(path, 0666) == 0 && sundial_clock_create(path, &LASTING, &writer) != 0 && errno == EPERM, "a page that all may write");
    expect(chmod(path, 0644) == 0 && chmod(lock, 0644) == 0 && sundial_clock_create(path, &LASTING, &writer) != 0 && errno == EPERM,
           "a lock that all may take");
    expect(chmod(lock, 0600) == 0, "chmod");
    if (geteuid() != 0) {
        printf("clock page: left out, as this is not root: another user's try of the lock\n");
    } else {
        int ends[2];
        char byte;
        expect(pipe(ends) == 0, "no pipe");
        pid_t reading = fork();
        if (reading == 0)
            _exit(as_nobody(ends[1]));
        close(ends[1]);
        expect(read(ends[0], &byte, 1) == 1, "another user has too much or too little of the files");
        close(ends[0]);
        expect(sundial_clock_create(path, &LASTING, &writer) == 0, "a reader took the lock");
        sundial_clock_release(&writer);
        kill(reading, SIGKILL);
        waitpid(reading, NULL, 0);
    }
    remove_page();
}

static void names(void)
{
#define NAMED(name) expect(strcmp(sundial_clock_name(SUNDIAL_##name), #name) == 0, "the name of " #name)
#define CLOCK_NAMED(name) expect(strcmp(sundial_clock_name(SUNDIAL_CLOCK_##name), #name) == 0, "the name of " #name)
    CLOCK_NAMED(GOOD), CLOCK_NAMED(EMPTY), CLOCK_NAMED(BUSY), CLOCK_NAMED(STALE), CLOCK_NAMED(WIDE), CLOCK_NAMED(NOT_YET);
    CLOCK_NAMED(FOREIGN), CLOCK_NAMED(VOID), CLOCK_NAMED(WITHDRAWN), CLOCK_NAMED(DISRUPTED), CLOCK_NAMED(APART);
    CLOCK_NAMED(BAD_RAW), CLOCK_NAMED(BAD_TERMS);
    NAMED(NO_DEVICE), NAMED(NO_DUTY), NAMED(RATES_TOO_GREAT), NAMED(COUNTER_FELL), NAMED(CLOCK_TOO_GREAT);
    NAMED(ESTIMATE_TOO_GREAT), NAMED(STAMP_TOO_GREAT), NAMED(MESSAGE_TOO_GREAT), NAMED(NOT_ROOT);
    NAMED(WRONG_SIZE), NAMED(NOT_KEPT), NAMED(TOO_LATE);
    expect(strcmp(sundial_answer_name(0), "DONE") == 0, "the name of DONE");
    static const uint32_t NONE[] = {5, 14, 99, 112, UINT32_MAX};
    for (size_t i = 0; i < sizeof NONE / sizeof NONE[0]; i++)
        expect(strcmp(sundial_clock_name(NONE[i]), "unknown") == 0, "the name of no answer");
}

/* Publishes once, while its parent steps through it. */
static void publish_traced(struct sundial_clock_writer *writer, const struct sundial_device *device)
{
    if (ptrace(PTRACE_TRACEME, 0, NULL, NULL) != 0)
        _exit(77);
    raise(SIGSTOP);
    writer->terms.origin = 2;
    uint32_t answer = sundial_clock_publish(writer, device, 7000, sundial_clock_raw());
    _exit(answer == SUNDIAL_CLOCK_GOOD ? 0 : 1);
}

/* The origin that a reader of this page reads. */
static int64_t origin_of(const struct sundial_clock_page *page, const struct sundial_clock_writer *writer)
{
    struct sundial_clock_reader reader = {page, writer->clock};
    struct sundial_clock_now now;
    memset(&now, 0, sizeof now);
    expect(sundial_clock_read(&reader, UINT64_MAX, &now) == SUNDIAL_CLOCK_GOOD, "no interval after a writer was killed");
    return now.origin;
}

/* Whether there is ptrace. */
static int steps(void)
{
    static struct sundial_clock_page left;
    struct sundial_clock_writer writer, next;
    /* (with an eps of 1000 s, since its counter stands still) */
    struct sundial_device device = started(7000, 5000, 1000000 * SECOND);
    int status = 0, count = 0, torn = 0, newer = 0;
    expect(sundial_clock_create(page_of("step"), &LASTING, &writer) == 0, "no page");
    writer.terms.origin = 1;
    for (int i = 0; i < 2; i++) /* (both slots are full) */
        expect(sundial_clock_publish(&writer, &device, 7000, sundial_clock_raw()) == SUNDIAL_CLOCK_GOOD, "a publication");
    pid_t child = fork();
    if (child == 0)
        publish_traced(&writer, &device);
    expect(waitpid(child, &status, 0) == child, "no child");
    if (WIFEXITED(status) && WEXITSTATUS(status) == 77) {
        printf("clock step: left out, as there is no ptrace here: a writer that is stopped within a publication\n");
        return 0;
    }
    for (; WIFSTOPPED(status); count++) {
        int64_t origin = origin_of(writer.page, &writer);
        expect(origin == 1 + (newer != 0 || origin == 2), "an interval is of no publication, or comes back");
        newer += origin == 2;
        left = *writer.page;
        torn += left.slots[1][0] == 0 || left.slots[1][0] > left.latest;
        next = writer;
        next.page = &left;
        next.terms.origin = 3;
        expect(sundial_clock_publish(&next, &device, 7000, sundial_clock_raw()) == SUNDIAL_CLOCK_GOOD && origin_of(&left, &writer) == 3,
               "a writer that comes after one that was killed");
        expect(ptrace(PTRACE_SINGLESTEP, child, NULL, NULL) == 0 && waitpid(child, &status, 0) == child, "no step");
    }
    expect(WIFEXITED(status) && WEXITSTATUS(status) == 0 && newer > 0 && torn > 10, "the publication was not stepped through");
    printf("clock step: %d steps of a publication, %d of them with a slot half written\n", count, torn);
    sundial_clock_release(&writer);
    remove_page();
    return 1;
}

/* The next publication. Its terms are its number. */
static void publish_next(struct sundial_clock_writer *writer, const struct sundial_device *device)
{
    uint64_t number = writer->page->latest + 1;
    writer->terms.origin = (int64_t)number;
    writer->terms.stale_after = writer->terms.void_after = number * SECOND;
    expect(sundial_clock_publish(writer, device, 7000, sundial_clock_raw()) == SUNDIAL_CLOCK_GOOD, "a publication");
}

/* Copies the slot once, while its parent steps through it. */
static void copy_traced(const struct sundial_clock_page *page)
{
    struct sundial_clock_slot slot;
    memset(&slot, 0, sizeof slot);
    if (ptrace(PTRACE_TRACEME, 0, NULL, NULL) != 0)
        _exit(77);
    raise(SIGSTOP);
    uint32_t answer = sundial_clock_copy(page, &slot);
    uint64_t after = slot.number * SECOND;
    _exit(answer != SUNDIAL_CLOCK_GOOD || slot.origin != (int64_t)slot.number || slot.stale_after != slot.raw + after
          || slot.void_after != slot.raw + after);
}

/* Whether a copy that is stopped after so many instructions ends, when the slot is written anew there. */
static int copies_after(struct sundial_clock_writer *writer, const struct sundial_device *device, int instructions)
{
    int status = 0;
    pid_t child = fork();
    if (child == 0)
        copy_traced(writer->page);
    expect(waitpid(child, &status, 0) == child, "no child");
    for (int i = 0; i < instructions && WIFSTOPPED(status); i++)
        expect(ptrace(PTRACE_SINGLESTEP, child, NULL, NULL) == 0 && waitpid(child, &status, 0) == child, "no step");
    int is_within = WIFSTOPPED(status);
    publish_next(writer, device);
    publish_next(writer, device);
    if (is_within)
        expect(ptrace(PTRACE_CONT, child, NULL, NULL) == 0 && waitpid(child, &status, 0) == child, "no end");
    expect(WIFEXITED(status) && WEXITSTATUS(status) == 0, "a copy is of two publications");
    return is_within;
}

static void copies(void)
{
    struct sundial_clock_writer writer;
    struct sundial_device device = started(7000, 5000, 1000000 * SECOND);
    int count = 0, steps = 5;
    expect(sundial_clock_create(page_of("copy"), &LASTING, &writer) == 0, "no page");
    publish_next(&writer, &device);
    while (copies_after(&writer, &device, count * steps))
        count++;
    printf("clock step: a copy stopped at %d places, and its slot written anew there\n", count);
    sundial_clock_release(&writer);
    remove_page();
}

int main(int count, char **words)
{
    if (count == 2 && strcmp(words[1], "page") == 0) {
        answers(), edges(), lines(), contains(), counters(), commits(), waits(), files(), names();
        printf("clock page: each answer, the numbers of a slot, and the files\n");
    } else if (count == 2 && strcmp(words[1], "step") == 0) {
        if (steps())
            copies();
    } else {
        fprintf(stderr, "clock_test page|step\n");
        return 2;
    }
    return 0;
}
