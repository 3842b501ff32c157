/* A device for years: what a test of some seconds can show of it.
 *
 *     years [SEED]
 *
 * - A root sends, and a device below it takes what it sends, across round 2^31 and counter 2^60.
 * - A root that is rebased each day reports the right clock after 5 years.
 * - Two devices are given the same random calls. The second is rebased before each of them, so that
 *   its counters start again near 0. Both answer, send and report the same.
 * - A device takes a message of before its start, and sends it on: so its host has to drop it.
 * - A rebased root whose commit takes up another ppm reports another eps: the condition of a rebase
 *   is needed.
 *
 * The status is 1 where one of these fails. */
#include <inttypes.h>
#include <stdio.h>
#include <stdlib.h>
#include <string.h>

#include "sundial_device.h"

static const uint64_t PERIOD = UINT64_C(100000000), SECOND = UINT64_C(1000000000000);

enum { HISTORIES = 2000, CALLS = 400, DAYS = 1826 };

static uint64_t word, made, lowerings;

static uint64_t chance(uint64_t bound)
{
    word ^= word >> 12;
    word ^= word << 25;
    word ^= word >> 27;
    return (word * UINT64_C(2685821657736338717) >> 32) % bound;
}

static void expect(int holds, const char *what)
{
    if (!holds) {
        fprintf(stderr, "years: history %" PRIu64 ": %s\n", made, what);
        exit(1);
    }
}

/* The duty of a device between device 0, over link 0, and device 2, over link 2. */
static struct sundial_duty duty_of(uint8_t role, uint32_t epoch, uint32_t ppm)
{
    struct sundial_duty duty;
    memset(&duty, 0, sizeof duty);
    duty.primary = (struct sundial_edge){7000, 3000, 0, 0};
    duty.backup = (struct sundial_edge){7000, 3000, 2, 2};
    duty.period = PERIOD;
    duty.wait_first = 4 * PERIOD;
    duty.wait_second = 3 * PERIOD;
    duty.wait = 8 * PERIOD;
    duty.rates = (struct sundial_rates){1000, ppm};
    duty.epoch = epoch;
    duty.role = role;
    duty.has_primary = role != SUNDIAL_ROOT;
    duty.has_backup = role != SUNDIAL_ROOT;
    return duty;
}

static void across_rounds_and_counters(void)
{
    struct sundial_device root = {0}, below = {0};
    struct sundial_duty first = duty_of(SUNDIAL_ROOT, 1, 200), other = duty_of(SUNDIAL_ORDINARY, 1, 200);
    struct sundial_effect sent = {0}, relayed = {0};
    uint64_t counter = (UINT64_C(1) << 60) - 3 * PERIOD, rounds = (UINT64_C(1) << 31) - 3;
    expect(sundial_start(&root, &first, counter, counter, 0) == SUNDIAL_DONE, "the start of the root");
    expect(sundial_start(&below, &other, counter, counter, 0) == SUNDIAL_DONE, "the start below it");
    root.stamp.round = below.stamp.round = rounds;
    for (int i = 0; i < 6; i++) {
        counter += PERIOD;
        rounds++;
        expect(sundial_tick(&root, counter, &sent) == SUNDIAL_DONE && sent.sends != 0, "the root sends");
        expect(sent.message.stamp.round == rounds && sent.message.clock.low == counter, "what the root sends");
        expect(sundial_receive(&below, 0, &sent.message, counter + 7000, &relayed) == SUNDIAL_DONE
                   && relayed.sends != 0 && relayed.message.stamp.round == rounds,
               "the receipt below it");
        expect(sundial_receive(&below, 0, &sent.message, counter + 8000, &relayed) == SUNDIAL_DONE
                   && relayed.sends == 0,
               "a duplicate sends nothing");
    }
}

static void rebased_each_day(void)
{
    struct sundial_device root = {0};
    struct sundial_duty duty = duty_of(SUNDIAL_ROOT, 1, 200);
    struct sundial_effect effect = {0};
    struct sundial_interval now = {0};
    struct sundial_wide origin = {0, 1}, eps = {500, 0}, clock = origin;
    const uint64_t day = 86400 * SECOND;
    uint64_t counter = 0, lowered = 0;
    expect(sundial_start_wide(&root, &duty, counter, &origin, &eps) == SUNDIAL_DONE, "a wide start");
    for (int i = 0; i < DAYS; i++) {
        counter += day;
        clock.low += day;
        clock.high += clock.low < day;
        expect(sundial_tick(&root, counter, &effect) == SUNDIAL_DONE && effect.sends != 0, "a tick a day");
        expect(sundial_rebase(&root, counter, &lowered) == SUNDIAL_DONE && lowered >= day - 1000000, "a rebase a day");
        counter -= lowered;
    }
    expect(sundial_now(&root, counter, &now) == SUNDIAL_DONE, "now");
    expect(effect.message.clock.low == clock.low && effect.message.clock.high == clock.high, "the clock after years");
    expect(!sundial_has_passed(&now, clock) && effect.message.stamp.round == DAYS, "the interval after years");
}

static void older_than_the_start(void)
{
    struct sundial_device root = {0}, below = {0};
    struct sundial_duty first = duty_of(SUNDIAL_ROOT, 1, 200), other = duty_of(SUNDIAL_ORDINARY, 1, 200);
    struct sundial_effect sent = {0}, relayed = {0};
    expect(sundial_start(&root, &first, 0, 0, 0) == SUNDIAL_DONE, "the start of the root");
    expect(sundial_tick(&root, PERIOD, &sent) == SUNDIAL_DONE && sent.sends != 0, "the root sends");
    expect(sundial_start(&below, &other, PERIOD + 1000, PERIOD + 1000, 0) == SUNDIAL_DONE, "a later start below it");
    expect(sundial_receive(&below, 0, &sent.message, PERIOD + 7000, &relayed) == SUNDIAL_DONE && relayed.sends != 0,
           "no device knows when a message was sent");
}

/* Two devices with one life: the second is rebased. */
struct twins {
    struct sundial_device one, lowered;
    uint64_t counter, by;
    uint32_t epoch;
    uint64_t round;
};

static void same_effect(const struct sundial_effect *a, const struct sundial_effect *b)
{
    expect((a->sends != 0) == (b->sends != 0), "both send, or none");
    if (a->sends == 0)
        return;
    expect(a->message.clock.low == b->message.clock.low && a->message.clock.high == b->message.clock.high
               && a->message.eps.low == b->message.eps.low && a->message.eps.high == b->message.eps.high
               && a->message.stamp.round == b->message.stamp.round
               && a->message.stamp.term == b->message.stamp.term && a->message.epoch == b->message.epoch,
           "both send the same");
}

static void same_report(const struct twins *at, uint64_t later)
{
    struct sundial_clock_report a = {{0, 0}, {0, 0}}, b = {{0, 0}, {0, 0}};
    expect(sundial_report(&at->one, at->counter + later, &a) == SUNDIAL_DONE
               && sundial_report(&at->lowered, at->counter + later - at->by, &b) == SUNDIAL_DONE,
           "a report");
    expect(a.clock.low == b.clock.low && a.clock.high == b.clock.high && a.eps.low == b.eps.low
               && a.eps.high == b.eps.high,
           "both report the same");
}

static void same_answers(const struct twins *at)
{
    struct sundial_optional_parent a = {0, 0}, b = {0, 0};
    uint8_t acts = 0, lowered_acts = 1;
    uint32_t epoch = 0, lowered_epoch = 1;
    expect(sundial_parent(&at->one, &a) == SUNDIAL_DONE && sundial_parent(&at->lowered, &b) == SUNDIAL_DONE, "a parent");
    expect(a.has_parent == b.has_parent && (a.has_parent == 0 || a.parent == b.parent), "both follow the same");
    expect(sundial_acts(&at->one, &acts) == SUNDIAL_DONE && sundial_acts(&at->lowered, &lowered_acts) == SUNDIAL_DONE
               && acts == lowered_acts,
           "both act, or none");
    expect(sundial_epoch(&at->one, &epoch) == SUNDIAL_DONE && sundial_epoch(&at->lowered, &lowered_epoch) == SUNDIAL_DONE
               && epoch == lowered_epoch,
           "both are of one epoch");
    same_report(at, 0);
    same_report(at, chance(1000000));
    same_report(at, chance(UINT64_C(1) << 40));
}

static void rebase(struct twins *at)
{
    uint64_t lowered = 0;
    expect(sundial_rebase(&at->lowered, at->counter - at->by, &lowered) == SUNDIAL_DONE, "a rebase");
    at->by += lowered;
    lowerings += lowered != 0;
}

static struct sundial_message message_to(struct twins *at)
{
    struct sundial_message message;
    memset(&message, 0, sizeof message);
    message.clock.low = at->counter + chance(1000);
    message.eps.low = chance(1000000);
    at->round += chance(3);
    message.stamp.round = at->round;
    message.stamp.term = (uint32_t)chance(8) == 0 ? 1 : 0;
    message.epoch = at->epoch + (chance(6) == 0);
    return message;
}

static void one_call(struct twins *at)
{
    struct sundial_effect a = {0}, b = {0};
    uint64_t lower = at->counter - at->by;
    uint64_t kind = chance(20);
    uint32_t answer, lowered_answer;
    if (kind < 9) {
        answer = sundial_tick(&at->one, at->counter, &a);
        lowered_answer = sundial_tick(&at->lowered, lower, &b);
    } else if (kind < 15) {
        struct sundial_message message = message_to(at);
        uint32_t link = (uint32_t)chance(8) == 0 ? 2 : 0;
        answer = sundial_receive(&at->one, link, &message, at->counter, &a);
        lowered_answer = sundial_receive(&at->lowered, link, &message, lower, &b);
    } else if (kind == 15) {
        uint64_t eps = chance(1000000);
        answer = sundial_fix(&at->one, at->counter, at->counter, eps);
        lowered_answer = sundial_fix(&at->lowered, lower, at->counter, eps);
    } else if (kind == 16) {
        struct sundial_duty duty = duty_of((uint8_t)chance(3), at->epoch + 1, 200);
        answer = sundial_give(&at->one, &duty);
        lowered_answer = sundial_give(&at->lowered, &duty);
    } else if (kind == 17) {
        answer = sundial_commit(&at->one, at->counter);
        lowered_answer = sundial_commit(&at->lowered, lower);
    } else {
        answer = sundial_seal(&at->one);
        lowered_answer = sundial_seal(&at->lowered);
    }
    expect(answer == lowered_answer && (answer == SUNDIAL_DONE || kind == 17), "both answer the same");
    same_effect(&a, &b);
    expect(sundial_epoch(&at->one, &at->epoch) == SUNDIAL_DONE, "epoch");
}

static void history(void)
{
    struct twins at;
    memset(&at, 0, sizeof at);
    at.counter = chance(2) ? chance(SECOND) : (UINT64_C(1) << (58 + chance(5))) - chance(SECOND);
    at.epoch = 1;
    struct sundial_duty duty = duty_of((uint8_t)chance(3), 1, 200);
    if (chance(5) == 0)
        expect(sundial_join(&at.one, &duty.rates, at.counter, at.counter, 1000) == SUNDIAL_DONE, "a join");
    else
        expect(sundial_start(&at.one, &duty, at.counter, at.counter, 1000) == SUNDIAL_DONE, "a start");
    expect(sundial_epoch(&at.one, &at.epoch) == SUNDIAL_DONE, "epoch");
    at.lowered = at.one;
    for (int i = 0; i < CALLS; i++) {
        /* some calls come at the same counter, and now and then a long silence ends */
        at.counter += chance(4) == 0 ? 0 : chance(40) == 0 ? chance(SECOND * 3600) : chance(PERIOD);
        rebase(&at);
        same_answers(&at);
        one_call(&at);
        same_answers(&at);
    }
}

static void another_ppm(void)
{
    struct sundial_device one = {0}, lowered = {0};
    struct sundial_duty first = duty_of(SUNDIAL_ROOT, 1, 200), second = duty_of(SUNDIAL_ROOT, 2, 100);
    struct sundial_clock_report a = {{0, 0}, {0, 0}}, b = {{0, 0}, {0, 0}};
    uint64_t by = 0;
    expect(sundial_start(&one, &first, 0, 0, 0) == SUNDIAL_DONE, "a start");
    one.sent = SECOND; /* as if it had sent just now */
    lowered = one;
    expect(sundial_rebase(&lowered, SECOND, &by) == SUNDIAL_DONE && by == SECOND, "a rebase");
    expect(sundial_give(&one, &second) == SUNDIAL_DONE && sundial_commit(&one, SECOND) == SUNDIAL_DONE, "a commit");
    expect(sundial_give(&lowered, &second) == SUNDIAL_DONE && sundial_commit(&lowered, SECOND - by) == SUNDIAL_DONE,
           "a commit");
    expect(sundial_report(&one, SECOND, &a) == SUNDIAL_DONE && sundial_report(&lowered, SECOND - by, &b) == SUNDIAL_DONE,
           "a report");
    expect(a.clock.low == b.clock.low && a.eps.low == 100001000 && b.eps.low == 200001000,
           "another ppm: the eps of the first second by the old one, or by the new");
}

int main(int count, char **words)
{
    uint64_t seed = count > 1 ? strtoull(words[1], NULL, 10) : 1;
    word = seed * 2 + 1;
    across_rounds_and_counters();
    rebased_each_day();
    older_than_the_start();
    another_ppm();
    for (made = 1; made <= HISTORIES; made++)
        history();
    printf("years: %d histories of %d calls, %" PRIu64 " rebases that lowered a counter, the same answers and reports\n",
           HISTORIES, CALLS, lowerings);
    return 0;
}
