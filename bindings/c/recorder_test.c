/* Compares the compact log of the recorder with the schedule of the same calls.
 *
 *     recorder_test CALLS [SEED]
 *
 * The calls are of all kinds, with random numbers. Each line of the compact log has to be that of the
 * schedule, byte for byte. Only a receipt and a loss differ: in place of the number of the message
 * they have its link, its epoch and its stamp, and the loss its receiver. Then it tries the limits: in
 * each place the greatest number is written, and a greater one ends the compact log. A log with the longest
 * names and the greatest numbers has whole lines, and one with a longer name ends. */
#include <inttypes.h>
#include <stdio.h>
#include <stdlib.h>
#include <string.h>

#include "recorder.h"

enum { ROOM = 1024, NAME = 64, LONG_NAME = 512, KINDS = 16, RECEIVE = 14, LOSE = 15, TICK = 3, LAST_WITH_CLOCK = 2, LAST_WITH_COUNTER = 5 };

static const uint64_t GREATEST = UINT64_C(1) << 60;

/* What a call is told. */
struct told {
    uint64_t reference, counter, clock, eps, number;
    uint32_t device, link;
    struct sundial_message message;
};

static char schedule_line[ROOM], compact_line[ROOM]; /* the latest of each */
static struct sundial_recorder schedule, compact;
static uint64_t word, calls, seed;

static void expect(int holds, const char *what)
{
    if (holds)
        return;
    fprintf(stderr, "recorder: seed %" PRIu64 ", call %" PRIu64 ": %s\n%s%s", seed, calls, what, schedule_line,
            compact_line);
    exit(1);
}

static int keep(void *to, const char *text, size_t bytes)
{
    char *line = to;
    if (bytes >= ROOM)
        return -1;
    memcpy(line, text, bytes);
    line[bytes] = '\0';
    return 0;
}

static int refuse(void *to, const char *text, size_t bytes)
{
    (void)to, (void)text, (void)bytes;
    return -1;
}

static uint64_t chance(void)
{
    word ^= word >> 12;
    word ^= word << 25;
    word ^= word >> 27;
    return word * UINT64_C(2685821657736338717);
}

/* Up to the greatest number, of any count of digits. */
static uint64_t number(void)
{
    static const uint64_t AT_THE_EDGE[] = {0, 1, 9, 10, UINT32_MAX, UINT64_C(1) << 60, (UINT64_C(1) << 60) - 1};
    uint64_t choice = chance() >> 32;
    if (choice % 4 == 0)
        return AT_THE_EDGE[choice / 4 % (sizeof AT_THE_EDGE / sizeof AT_THE_EDGE[0])];
    return chance() >> (4 + choice % 60);
}

static uint32_t short_number(void)
{
    return (chance() >> 32) % 4 == 0 ? UINT32_MAX : (uint32_t)(chance() >> (32 + (chance() >> 32) % 32));
}

static struct told told_by_chance(void)
{
    struct told told = {number(), number(), number(), number(), number(), 0, 0, {{0, 0}, {0, 0}, {0, 0}, 0}};
    told.device = short_number();
    told.link = short_number();
    told.message.stamp.round = number();
    told.message.stamp.term = short_number();
    told.message.epoch = short_number();
    return told;
}

/* One call of the kind, from 0 to KINDS - 1. */
static uint64_t call(struct sundial_recorder *to, int kind, const struct told *t)
{
    switch (kind) {
    case 0: return sundial_record_start(to, t->reference, t->device, t->counter, t->clock, t->eps);
    case 1: return sundial_record_join(to, t->reference, t->device, t->counter, t->clock, t->eps);
    case 2: return sundial_record_fix(to, t->reference, t->device, t->counter, t->clock, t->eps);
    case 3: return sundial_record_tick(to, t->reference, t->device, t->counter);
    case 4: return sundial_record_report(to, t->reference, t->device, t->counter);
    case 5: return sundial_record_commit(to, t->reference, t->device, t->counter);
    case 6: return sundial_record_give(to, t->reference, t->device);
    case 7: return sundial_record_seal(to, t->reference, t->device);
    case 8: return sundial_record_stage(to, t->reference);
    case 9: return sundial_record_fail_device(to, t->reference, t->device);
    case 10: return sundial_record_fail_link(to, t->reference, t->link);
    case 11: return sundial_record_mend_device(to, t->reference, t->device);
    case 12: return sundial_record_mend_link(to, t->reference, t->link);
    case 13: return sundial_record_end(to, t->reference);
    case RECEIVE:
        return sundial_record_receive(to, t->reference, t->device, t->counter, t->link, &t->message, t->number);
    default: return sundial_record_lose(to, t->reference, t->device, t->link, &t->message, t->number);
    }
}

/* What the line of the schedule ends with, and what the line of the compact log has there. */
static void endings(int kind, const struct told *t, char *of_schedule, char *of_log)
{
    const struct sundial_message *m = &t->message;
    strcpy(of_schedule, "\n");
    strcpy(of_log, "\n");
    if (kind != RECEIVE && kind != LOSE)
        return;
    snprintf(of_schedule, ROOM, " %" PRIu64 "\n", t->number);
    if (kind == LOSE)
        of_log += snprintf(of_log, ROOM, " %" PRIu32, t->device);
    snprintf(of_log, ROOM / 2, " %" PRIu32 " %" PRIu32 " %" PRIu32 " %" PRIu64 "\n", t->link, m->epoch, m->stamp.term,
             m->stamp.round);
}

static void expect_same(int kind, const struct told *t)
{
    char of_schedule[ROOM], of_log[ROOM];
    endings(kind, t, of_schedule, of_log);
    size_t same = strlen(schedule_line) - strlen(of_schedule);
    expect(strcmp(schedule_line + same, of_schedule) == 0, "the line of the schedule ends otherwise");
    expect(strncmp(schedule_line, compact_line, same) == 0 && strcmp(compact_line + same, of_log) == 0,
           "the line of the compact log is another one");
}

static void one_call(int kind)
{
    struct told told = told_by_chance();
    calls++;
    expect(call(&schedule, kind, &told) == calls && call(&compact, kind, &told) == calls, "a line is not written");
    expect_same(kind, &told);
}

static void begin_anew(void)
{
    schedule = (struct sundial_recorder){.write = keep, .to = schedule_line};
    compact = (struct sundial_recorder){.write = keep, .to = compact_line, .is_compact = 1};
}

/* The compact log takes neither this call nor a later one. */
static void expect_ended(int kind, const struct told *told)
{
    struct told later = told_by_chance();
    uint64_t lines = compact.lines;
    strcpy(compact_line, "nothing\n");
    expect(call(&compact, kind, told) == 0 && compact.failed, "what cannot be written counts as a line");
    compact.write = keep;
    expect(call(&compact, TICK, &later) == 0 && compact.lines == lines, "a line comes behind one that was not written");
    expect(strcmp(compact_line, "nothing\n") == 0, "a line was written");
}

/* A number of 64 bits: that of this place. */
static uint64_t *at_place(struct told *told, int place)
{
    uint64_t *const numbers[] = {&told->reference, &told->counter, &told->clock, &told->eps, &told->message.stamp.round};
    return numbers[place];
}

/* Whether the line of the compact log has the number of this place. */
static int has(int kind, int place)
{
    switch (place) {
    case 0: return 1;
    case 1: return kind <= LAST_WITH_COUNTER || kind == RECEIVE;
    case 4: return kind == RECEIVE || kind == LOSE;
    default: return kind <= LAST_WITH_CLOCK;
    }
}

/* The greatest number is written. A greater one ends the compact log, and is written in a schedule. */
static void try_limit(int kind, int place)
{
    struct told told = told_by_chance();
    begin_anew();
    *at_place(&told, place) = GREATEST;
    expect(call(&compact, kind, &told) == 1, "the greatest number is not written");
    *at_place(&told, place) = (chance() >> 32) % 2 == 0 ? GREATEST + 1 : UINT64_MAX;
    expect(call(&schedule, kind, &told) == 1, "a schedule has another limit");
    if (!has(kind, place)) {
        expect(call(&compact, kind, &told) == 2, "a number that is not in the line counts");
        return;
    }
    expect_ended(kind, &told);
}

/* Names are not read. */
static void try_names(void)
{
    static const char *const NO_NAMES[] = {NULL};
    struct told told = told_by_chance();
    begin_anew();
    compact.devices = compact.links = NO_NAMES;
    told.device = told.link = UINT32_MAX;
    expect(call(&schedule, LOSE, &told) == 1 && call(&compact, LOSE, &told) == 1, "names count in a compact log");
    expect_same(LOSE, &told);
}

/* The keys of a line in a log with names, each with the value of the kind's line. */
static void line_of_log(char *line, int kind, const struct told *t, const char *name)
{
    static const char *const EVENT[] = {"start", "join", "fix", "tick", "ask", "commit", "give", "seal",
                                        "stage", "fail", "fail", "mend", "mend", "end", "recv", "lose"};
    const struct sundial_message *m = &t->message;
    line += sprintf(line, "{\"event\": \"%s\", \"reference_ps\": %" PRIu64, EVENT[kind], t->reference);
    if (kind <= 7 || kind == 9 || kind == 11 || kind == RECEIVE || kind == LOSE)
        line += sprintf(line, ", \"device\": \"%s\"", name);
    if (kind <= LAST_WITH_COUNTER || kind == RECEIVE)
        line += sprintf(line, ", \"counter_ps\": %" PRIu64, t->counter);
    if (kind <= LAST_WITH_CLOCK)
        line += sprintf(line, ", \"clock_ps\": %" PRIu64 ", \"eps_ps\": %" PRIu64, t->clock, t->eps);
    if (kind == 10 || kind == 12 || kind == RECEIVE || kind == LOSE)
        line += sprintf(line, ", \"link\": \"%s\"", name);
    if (kind == RECEIVE || kind == LOSE)
        line += sprintf(line, ", \"epoch\": %" PRIu32 ", \"term\": %" PRIu32 ", \"round\": %" PRIu64, m->epoch,
                        m->stamp.term, m->stamp.round);
    strcpy(line, "}\n");
}

/* The longest names and the greatest numbers fit. */
static void try_log(int kind)
{
    char name[NAME + 1], wanted[ROOM];
    memset(name, 'n', NAME);
    name[NAME] = '\0';
    const char *const names[] = {name};
    struct told told = {UINT64_MAX, UINT64_MAX, UINT64_MAX, UINT64_MAX, UINT64_MAX, 0, 0,
                        {{0, 0}, {0, 0}, {UINT64_MAX, UINT32_MAX}, UINT32_MAX}};
    begin_anew();
    schedule.devices = schedule.links = names;
    line_of_log(wanted, kind, &told, name);
    expect(call(&schedule, kind, &told) == 1 && strcmp(schedule_line, wanted) == 0, "the line of a log is another one");
}

/* A name that no line has room for ends the log. */
static void try_long_name(void)
{
    static char name[LONG_NAME + 1];
    const char *const names[] = {name};
    struct told told = told_by_chance();
    told.device = 0;
    memset(name, 'n', LONG_NAME);
    begin_anew();
    schedule.devices = schedule.links = names;
    schedule_line[0] = '\0';
    expect(call(&schedule, TICK, &told) == 0 && schedule.failed && schedule.lines == 0, "a name that is too long");
    expect(call(&schedule, 8, &told) == 0 && schedule_line[0] == '\0', "a line comes behind one that was not written");
}

static void try_refusal(void)
{
    struct told told = told_by_chance();
    begin_anew();
    compact.write = refuse;
    expect_ended(TICK, &told);
}

int main(int count, char **words)
{
    if (count < 2) {
        fprintf(stderr, "recorder_test CALLS [SEED]\n");
        return 2;
    }
    uint64_t wanted = strtoull(words[1], NULL, 10);
    seed = count > 2 ? strtoull(words[2], NULL, 10) : 1;
    word = seed * 2 + 1;
    begin_anew();
    while (calls < wanted)
        one_call((int)(calls < KINDS ? calls : (chance() >> 32) % KINDS));
    for (int kind = 0; kind < KINDS; kind++)
        for (int place = 0; place < 5; place++)
            try_limit(kind, place);
    try_names();
    for (int kind = 0; kind < KINDS; kind++)
        try_log(kind);
    try_long_name();
    try_refusal();
    printf("recorder: %" PRIu64 " calls of %d kinds: the compact log has the lines of the schedule\n", wanted, KINDS);
    return 0;
}
