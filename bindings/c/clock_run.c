/* Runs sundial_clock.h: many readers beside a writer with a root of its own, whose reference time is CLOCK_MONOTONIC_RAW,
 * and whose counter is 50 ppm fast.
 *
 *     clock_run threads SECONDS     one process: a writer and 8 threads that read
 *     clock_run processes SECONDS   4 processes of 2 threads each; the writer is killed and comes again
 *     clock_run kill TIMES          a writer that is killed this often, and comes again now in this time namespace and
 *                                   now in another, beside readers in both
 *     clock_run time                what a read takes
 *     clock_run write FILE SECONDS  a writer alone, whose reference time is that of its machine, for readers
 *                                   in another language
 *
 * Each interval has to contain the reference time, no stamp may come twice or fall, and a stamp that
 * was waited for has to have passed. Where the clock is another, nothing is read. */
#define _GNU_SOURCE
#include "sundial_clock.h"

#include <inttypes.h>
#include <pthread.h>
#include <sched.h>
#include <signal.h>
#include <stdlib.h>
#include <sys/wait.h>

enum { READERS = 8, PROCESSES = 4, MOST_STAMPS = 40000, BATCHES = 400, BATCH = 500, NAMESPACES = 2 };

static const uint64_t EPS = 100000, GREATEST = 50000, SECOND = 1000000000, AHEAD = 20;
static const struct sundial_clock_terms TERMS = {20000000, 3600 * UINT64_C(1000000000), 0, 0, 50, 1000};

/* What all processes share beside the page. */
struct shared {
    uint64_t begun; /* the reading of CLOCK_MONOTONIC_RAW at reference time 0, in the first time namespace */
    uint64_t stop;
    uint64_t last;  /* of the stamps */
    uint64_t good, stale, none, waits, fell, farthest;
    uint64_t read[NAMESPACES], foreign[NAMESPACES];
    uint64_t stamps[READERS][MOST_STAMPS];
    uint64_t taken[READERS];
};

static struct shared *shared;
static char path[256];
static uint64_t ahead; /* of this process's time namespace, in ns */
static unsigned always = 1, mostly = 16, never = 0; /* when a writer rests */

/* Ends this process, and tells the others to end. */
static void stop(const char *what)
{
    fprintf(stderr, "clock: %s\n", what);
    if (shared != NULL)
        __atomic_store_n(&shared->stop, 1, __ATOMIC_RELEASE);
    _exit(1);
}

static void expect(int holds, const char *what)
{
    if (!holds)
        stop(what);
}

static uint64_t reference_of(uint64_t raw)
{
    return raw - ahead - shared->begun;
}

static uint64_t reference(void)
{
    return reference_of(sundial_clock_raw());
}

static uint64_t load(const uint64_t *from)
{
    return __atomic_load_n(from, __ATOMIC_ACQUIRE);
}

static void add(uint64_t *to)
{
    __atomic_add_fetch(to, 1, __ATOMIC_RELAXED);
}

static void raise_to(uint64_t *to, uint64_t value)
{
    uint64_t before = load(to);
    while (value > before && !__atomic_compare_exchange_n(to, &before, value, 0, __ATOMIC_RELAXED, __ATOMIC_RELAXED))
        continue;
}

/* A clock within eps of the reference time. */
static uint64_t clock_near(uint64_t raw, uint64_t *word)
{
    *word = *word * UINT64_C(6364136223846793005) + 1442695040888963407;
    uint64_t exact = reference_of(raw) * 1000, off = (*word >> 33) % (2 * EPS);
    return exact + off < EPS ? 0 : exact + off - EPS;
}

/* It rests after this many publications, or never where that is 0. */
static void *write_until_stop(void *rests_after)
{
    const unsigned every = *(const unsigned *)rests_after;
    unsigned published = 0;
    static const struct sundial_duty duty = {{0, 0, 0, 0}, {0, 0, 0, 0}, 1000000000, 1, 1, 1, {1000, 200}, 1,
                                             SUNDIAL_ROOT, 0, 0};
    struct sundial_device device;
    struct sundial_effect effect;
    struct sundial_clock_writer writer;
    struct sundial_clock_mapping mapping = {sundial_clock_raw(), 5000, TERMS.skew};
    uint64_t word = mapping.raw;
    memset(&device, 0, sizeof device);
    memset(&effect, 0, sizeof effect);
    expect(sundial_clock_create(path, &TERMS, &writer) == 0, "the writer has no page");
    expect(sundial_start(&device, &duty, mapping.counter, clock_near(mapping.raw, &word), EPS) == SUNDIAL_DONE,
           "start");
    while (load(&shared->stop) == 0) {
        uint64_t raw = sundial_clock_raw(), counter = sundial_clock_counter(&mapping, raw);
        expect(sundial_fix(&device, counter, clock_near(raw, &word), EPS) == SUNDIAL_DONE, "fix");
        expect(sundial_tick(&device, counter, &effect) == SUNDIAL_DONE, "tick");
        expect(sundial_clock_publish(&writer, &device, counter, raw) == SUNDIAL_CLOCK_GOOD, "a publication");
        if (every != 0 && ++published % every == 0) {
            struct timespec while_this = {0, every == 1 ? 200000 : 20000};
            nanosleep(&while_this, NULL);
        }
    }
    sundial_clock_release(&writer);
    return NULL;
}

/* What one thread has seen. */
struct seen {
    uint64_t latest, stamp, count, *stamps;
};

static void read_once(const struct sundial_clock_reader *reader, struct seen *seen)
{
    struct sundial_clock_now now;
    memset(&now, 0, sizeof now);
    uint64_t before = reference();
    uint32_t answer = sundial_clock_read(reader, GREATEST, &now);
    uint64_t after = reference();
    if (answer == SUNDIAL_CLOCK_FOREIGN)
        add(&shared->foreign[ahead != 0]);
    if (answer == SUNDIAL_CLOCK_EMPTY || answer == SUNDIAL_CLOCK_BUSY || answer == SUNDIAL_CLOCK_FOREIGN) {
        add(&shared->none);
        return;
    }
    expect(answer == SUNDIAL_CLOCK_GOOD || answer == SUNDIAL_CLOCK_STALE || answer == SUNDIAL_CLOCK_WIDE,
           "a read answered a fault");
    add(answer == SUNDIAL_CLOCK_STALE ? &shared->stale : &shared->good);
    add(&shared->read[ahead != 0]);
    expect(now.earliest <= after && now.latest >= before, "an interval misses the reference time");
    expect(now.mode == SUNDIAL_ACTING && now.epoch == 1 && now.origin == 1000, "the status is another");
    if (now.latest < seen->latest) {
        add(&shared->fell);
        raise_to(&shared->farthest, seen->latest - now.latest);
    }
    seen->latest = now.latest;
    uint64_t stamp = sundial_clock_stamp(&now, &shared->last);
    expect(stamp > seen->stamp && stamp >= now.latest, "a stamp fell");
    seen->stamp = stamp;
    if (seen->count < MOST_STAMPS)
        seen->stamps[seen->count++] = stamp;
    if (stamp % 64 == 0 && answer == SUNDIAL_CLOCK_GOOD) {
        uint32_t waited = sundial_clock_wait(reader, stamp, SECOND / 100, &now);
        if (waited == SUNDIAL_CLOCK_GOOD) {
            expect(reference() > stamp && sundial_clock_has_passed(&now, stamp), "a wait ended too early");
            add(&shared->waits);
        }
    }
}

static void *read_until_stop(void *number)
{
    struct seen seen = {0, 0, 0, shared->stamps[*(int *)number]};
    struct sundial_clock_reader reader;
    while (sundial_clock_open(path, &reader) != 0)
        expect(load(&shared->stop) == 0, "no page to read");
    while (load(&shared->stop) == 0)
        read_once(&reader, &seen);
    shared->taken[*(int *)number] = seen.count;
    sundial_clock_close(&reader);
    return NULL;
}

static void run_readers(int first, int threads)
{
    pthread_t reader[READERS];
    int number[READERS];
    for (int i = 0; i < threads; i++) {
        number[i] = first + i;
        expect(pthread_create(&reader[i], NULL, read_until_stop, &number[i]) == 0, "no thread");
    }
    for (int i = 0; i < threads; i++)
        pthread_join(reader[i], NULL);
}

static int by_size(const void *one, const void *other)
{
    uint64_t a = *(const uint64_t *)one, b = *(const uint64_t *)other;
    return (a > b) - (a < b);
}

static void judge(const char *what)
{
    static uint64_t all[READERS * MOST_STAMPS];
    size_t count = 0;
    for (int i = 0; i < READERS; i++)
        for (uint64_t k = 0; k < shared->taken[i]; k++)
            all[count++] = shared->stamps[i][k];
    qsort(all, count, sizeof all[0], by_size);
    for (size_t i = 1; i < count; i++)
        expect(all[i] > all[i - 1], "two stamps are one");
    expect(shared->good > 0 && count > 0, "nothing was read");
    printf("clock %s: %" PRIu64 " reads, %" PRIu64 " stale, %" PRIu64 " without an interval, %zu stamps apart, %" PRIu64
           " waits; latest fell %" PRIu64 " times, by %" PRIu64 " ns at most\n", what, shared->good + shared->stale,
           shared->stale, shared->none, count, shared->waits, shared->fell, shared->farthest);
}

static void pass(double seconds)
{
    struct timespec time = {(time_t)seconds, (long)((seconds - (double)(time_t)seconds) * 1e9)};
    nanosleep(&time, NULL);
}

static void threads(double seconds)
{
    pthread_t writer, readers[READERS];
    int number[READERS];
    expect(pthread_create(&writer, NULL, write_until_stop, &mostly) == 0, "no thread");
    for (int i = 0; i < READERS; i++) {
        number[i] = i;
        expect(pthread_create(&readers[i], NULL, read_until_stop, &number[i]) == 0, "no thread");
    }
    pass(seconds);
    __atomic_store_n(&shared->stop, 1, __ATOMIC_RELEASE);
    for (int i = 0; i < READERS; i++)
        pthread_join(readers[i], NULL);
    pthread_join(writer, NULL);
    judge("threads");
}

/* Makes a time namespace that is AHEAD for this process's children; 0 where that cannot be. */
static int make_namespace(void)
{
    const int of_time = 0x80; /* CLONE_NEWTIME */
    char text[64];
    int count = snprintf(text, sizeof text, "monotonic %" PRIu64 " 0\n", AHEAD);
    if (unshare(of_time) != 0)
        return 0;
    int file = open("/proc/self/timens_offsets", O_WRONLY | O_CLOEXEC);
    int done = file >= 0 && write(file, text, (size_t)count) == count;
    close(file);
    return done;
}

/* A child that does this, in the other time namespace where it is said. There it is a child's child, whose end
 * ends its parent. */
static pid_t child_of(int in_other, void (*does)(int), int number)
{
    pid_t child = fork();
    expect(child >= 0, "no process");
    if (child != 0)
        return child;
    if (in_other) {
        int status = 0;
        expect(make_namespace(), "no time namespace");
        struct sundial_clock_reader none;
        expect(sundial_clock_open(path, &none) != 0 && errno == ENOTSUP, "a process between two time namespaces reads");
        pid_t inner = fork();
        expect(inner >= 0, "no process");
        if (inner != 0) {
            waitpid(inner, &status, 0);
            _exit(status != 0);
        }
        ahead = AHEAD * SECOND;
    }
    does(number);
    _exit(0);
}

static void write_alone(int rests)
{
    write_until_stop(rests ? &always : &never);
}

static void read_in_pairs(int number)
{
    run_readers(number * READERS / PROCESSES, READERS / PROCESSES);
}

/* Waits until this count has grown, or ten seconds, or until a process has failed. */
static void await_growth(const uint64_t *count, const char *what)
{
    uint64_t before = load(count);
    for (int i = 0; i < 10000 && load(count) == before && load(&shared->stop) == 0; i++)
        pass(0.001);
    expect(load(count) != before, what);
}

/* Ends the readers and the writer, each of which has to end well. */
static void end_all(const pid_t *readers, pid_t writer)
{
    int bad = 0, status = 0;
    __atomic_store_n(&shared->stop, 1, __ATOMIC_RELEASE);
    for (int i = 0; i < PROCESSES; i++)
        bad |= waitpid(readers[i], &status, 0) < 0 || status != 0;
    bad |= waitpid(writer, &status, 0) < 0 || status != 0;
    expect(!bad, "a process failed");
}

static void processes(double seconds)
{
    pid_t readers[PROCESSES], writer = child_of(0, write_alone, 1);
    for (int i = 0; i < PROCESSES; i++)
        readers[i] = child_of(0, read_in_pairs, i);
    for (int round = 0; round < 3; round++) {
        pass(seconds / 3);
        await_growth(&shared->good, "no reader reads");
        struct sundial_clock_writer second;
        expect(sundial_clock_create(path, &TERMS, &second) != 0 && errno == EWOULDBLOCK, "two writers have one page");
        kill(writer, SIGKILL);
        waitpid(writer, NULL, 0);
        await_growth(&shared->stale, "no reader sees that the writer is gone");
        writer = child_of(0, write_alone, 1);
    }
    await_growth(&shared->good, "no reader reads after the writer came again");
    end_all(readers, writer);
    judge("processes");
}

/* Whether a child can make a time namespace. */
static int has_namespaces(void)
{
    int status = 1;
    pid_t child = fork();
    if (child == 0)
        _exit(!make_namespace());
    return child > 0 && waitpid(child, &status, 0) == child && status == 0;
}

/* The process that writes: a writer in the other time namespace is the child of one that waits for it. */
static void kill_writer(pid_t writer, int in_other)
{
    char name[64], text[32] = "";
    long inner = writer;
    snprintf(name, sizeof name, "/proc/%d/task/%d/children", (int)writer, (int)writer);
    if (in_other && sundial_clock_text(name, text, sizeof text) > 0)
        inner = strtol(text, NULL, 10);
    kill((pid_t)inner, SIGKILL);
    waitpid(writer, NULL, 0);
}

static void kill_often(int times)
{
    int both = has_namespaces(), in_other = 0, torn = 0;
    uint64_t word = sundial_clock_raw();
    struct sundial_clock_reader reader;
    pid_t readers[PROCESSES], writer = child_of(0, write_alone, 0);
    while (sundial_clock_open(path, &reader) != 0)
        pass(0.001);
    for (int i = 0; i < PROCESSES; i++)
        readers[i] = child_of(both && i % 2 == 1, read_in_pairs, i);
    for (int i = 0; i < times; i++) {
        word = word * UINT64_C(6364136223846793005) + 1442695040888963407;
        await_growth(&shared->read[in_other], "no reader of the writer's time namespace reads");
        if (both)
            await_growth(&shared->foreign[!in_other], "a reader of the other time namespace reads");
        pass((double)(word >> 44) * 1e-9);
        kill_writer(writer, in_other);
        uint64_t number = load(&reader.page->latest);
        torn += load(&reader.page->slots[(number + 1) % 2][0]) == 0 && number > 1;
        in_other = both && i % 2 == 0;
        writer = child_of(in_other, write_alone, 0);
    }
    await_growth(&shared->read[in_other], "no reader reads after the writer came again");
    end_all(readers, writer);
    judge("kill");
    if (both)
        printf("clock kill: %d writers killed, %d of them within a publication; read in each time namespace %" PRIu64 " and %" PRIu64
               " times, refused %" PRIu64 " and %" PRIu64 " times\n", times, torn, shared->read[0], shared->read[1],
               shared->foreign[0], shared->foreign[1]);
    else
        printf("clock kill: %d writers killed, %d of them within a publication; left out, as there are no time namespaces here: readers"
               " in another\n", times, torn);
}

static void time_reads(void)
{
    static uint64_t took[3][BATCHES];
    static const char *const NAME[3] = {"read", "CLOCK_MONOTONIC_RAW alone", "stamp"};
    pthread_t writer;
    struct sundial_clock_reader reader;
    struct sundial_clock_now now;
    memset(&now, 0, sizeof now);
    expect(pthread_create(&writer, NULL, write_until_stop, &always) == 0, "no thread");
    while (sundial_clock_open(path, &reader) != 0 || sundial_clock_read(&reader, GREATEST, &now) == SUNDIAL_CLOCK_EMPTY)
        pass(0.001);
    volatile uint64_t kept = 0;
    for (int batch = 0; batch < BATCHES; batch++)
        for (int kind = 0; kind < 3; kind++) {
            uint64_t begun = sundial_clock_raw();
            for (int i = 0; i < BATCH; i++) {
                if (kind == 0)
                    kept = kept + sundial_clock_read(&reader, GREATEST, &now);
                else
                    kept = kept + (kind == 1 ? sundial_clock_raw() : sundial_clock_stamp(&now, &shared->last));
            }
            took[kind][batch] = (sundial_clock_raw() - begun) * 10 / BATCH;
        }
    __atomic_store_n(&shared->stop, 1, __ATOMIC_RELEASE);
    pthread_join(writer, NULL);
    for (int kind = 0; kind < 3; kind++) {
        qsort(took[kind], BATCHES, sizeof took[kind][0], by_size);
        printf("%-26s least %" PRIu64 ".%" PRIu64 " ns, median %" PRIu64 ".%" PRIu64 " ns\n", NAME[kind],
               took[kind][0] / 10, took[kind][0] % 10, took[kind][BATCHES / 2] / 10, took[kind][BATCHES / 2] % 10);
    }
}

static void write_for(double seconds)
{
    pthread_t writer;
    expect(pthread_create(&writer, NULL, write_until_stop, &mostly) == 0, "no thread");
    pass(seconds);
    __atomic_store_n(&shared->stop, 1, __ATOMIC_RELEASE);
    pthread_join(writer, NULL);
}

int main(int count, char **words)
{
    void *room = mmap(NULL, sizeof *shared, PROT_READ | PROT_WRITE, MAP_SHARED | MAP_ANONYMOUS, -1, 0);
    double number = count > 2 ? strtod(words[count - 1], NULL) : 1;
    char lock[300];
    if (count < 2 || room == MAP_FAILED) {
        fprintf(stderr, "clock_run threads|processes|kill|time [NUMBER]\nclock_run write FILE SECONDS\n");
        return 2;
    }
    shared = (struct shared *)room;
    if (count == 4 && strcmp(words[1], "write") == 0) {
        snprintf(path, sizeof path, "%s", words[2]);
        write_for(number);
        return 0;
    }
    shared->begun = sundial_clock_raw() - 10000000;
    snprintf(path, sizeof path, "/tmp/sundial-clock-%d", (int)getpid());
    snprintf(lock, sizeof lock, "%s.lock", path);
    if (strcmp(words[1], "threads") == 0)
        threads(number);
    else if (strcmp(words[1], "processes") == 0)
        processes(number);
    else if (strcmp(words[1], "kill") == 0)
        kill_often((int)number);
    else
        time_reads();
    unlink(path);
    unlink(lock);
    return 0;
}
