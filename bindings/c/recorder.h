/* Writes what happens to the devices of a fabric, for `sundial replay` to judge.
 *
 * Compile recorder.c into your program, with the folder of sundial_device.h among those of headers.
 * It needs no library and allocates nothing.
 *
 *     struct sundial_recorder recorder = {.write = write_file, .to = file};
 *     ...
 *     if (sundial_tick(&device, counter, &effect) == SUNDIAL_DONE)
 *         sundial_record_tick(&recorder, reference, number, counter);
 *     ...
 *     sundial_record_end(&recorder, reference);
 *
 * It writes one of three forms.
 *   - A schedule, where `devices` and `links` are null: docs/RULES.md. One recorder sees all
 *     devices, in one order, as in a test bench. `sundial replay` reads it.
 *   - A log, where they are the names of the topology: docs/RECORD.md. Each device of a fabric has
 *     a recorder of its own, and the operator has one for what no device sees. sundial-record makes
 *     one schedule of all logs.
 *   - A compact log, where `is_compact` is 1, whatever the names are: docs/RECORD.md.
 *     Recorders are as for a log. Its lines are those of a schedule, but for the two that name a
 *     message:
 *
 *         recv REF DEVICE COUNTER LINK EPOCH TERM ROUND
 *         lose REF DEVICE LINK EPOCH TERM ROUND
 *
 *     `sundialctl merge` makes one log of all, and `sundialctl record` makes the schedule of that.
 *     The merge takes lines of one reference in the order of the logs: the operator's is the first.
 *
 * What to tell it
 *   - Each call of the library that answered SUNDIAL_DONE, with the counter that the call had, and
 *     at once: before the next call of any device that it records. A call that answered otherwise
 *     changed nothing and has no line. made, parent, acts and epoch have none either.
 *   - What no device sees: failures, repairs, losses that are known, and the begin of a renewal.
 *   - The reference time of each, in ps from one origin, which never falls. It comes from outside
 *     the fabric: a measuring clock, or the simulated time of a test.
 *   - Numbers: a device and a link have the number of their place in the topology, from 0.
 *
 * Messages. The replay numbers messages by itself, so a schedule has to count them alike. Where a
 * call's effect says that it sends, call sundial_record_sent once for each link below the sender,
 * by ascending number of the link: those of the devices whose duty of the sender's epoch names the
 * sender and the link as primary or backup. A message over a failed link, or to a device that is
 * down, counts too. Keep the number beside the message, and tell it with the receipt. A log of
 * either form needs no numbers: any will do.
 *
 * Limits. Times and rounds of a schedule and of a compact log are at most 2^60. That is 13 days:
 * so references and clocks have an origin, and counters a start, less than that ago. A line of a
 * compact log with a greater number cannot be written. In a schedule it is written, and a replay
 * refuses it. A log takes every number, and sundial-record makes them small.
 *
 * docs/FLEET.md says what each line means and when a replay refuses it. Calls of one recorder must
 * not overlap.
 */
#ifndef SUNDIAL_RECORDER_H
#define SUNDIAL_RECORDER_H

#include <stddef.h>
#include <stdint.h>

#include "sundial_device.h"

#ifdef __cplusplus
extern "C" {
#endif

struct sundial_recorder {
    /* Writes this text, one whole line with its newline. 0 where all of it is written. */
    int (*write)(void *to, const char *text, size_t bytes);
    void *to;                   /* handed to `write` */
    const char *const *devices; /* names by number, of at most 64 bytes; null where it has none */
    const char *const *links;   /* the same of the links */
    uint64_t lines;             /* how many lines were written; 0 at first */
    uint64_t messages;          /* the number of the latest message; 0 at first */
    int failed; /* set once a line could not be written: none is from then on; 0 at first */
    int is_compact; /* 1 for a compact log; 0 for the other forms */
};

/* Each of these writes one line and answers its number, from 1, which is the number that a replay
 * of the schedule prints. The answer is 0 where a line could not be written, now or before: `write`
 * answered so, a name is too long, or a number is too great for a compact log. */

uint64_t sundial_record_start(struct sundial_recorder *recorder, uint64_t reference,
                              uint32_t device, uint64_t counter, uint64_t clock, uint64_t eps);

uint64_t sundial_record_join(struct sundial_recorder *recorder, uint64_t reference,
                             uint32_t device, uint64_t counter, uint64_t clock, uint64_t eps);

uint64_t sundial_record_fix(struct sundial_recorder *recorder, uint64_t reference,
                            uint32_t device, uint64_t counter, uint64_t clock, uint64_t eps);

uint64_t sundial_record_tick(struct sundial_recorder *recorder, uint64_t reference,
                             uint32_t device, uint64_t counter);

/* The device received the message of this number over the link, whether it accepted it or not. */
uint64_t sundial_record_receive(struct sundial_recorder *recorder, uint64_t reference,
                                uint32_t device, uint64_t counter, uint32_t link,
                                const struct sundial_message *message, uint64_t number);

/* The device reported. */
uint64_t sundial_record_report(struct sundial_recorder *recorder, uint64_t reference,
                               uint32_t device, uint64_t counter);

uint64_t sundial_record_give(struct sundial_recorder *recorder, uint64_t reference,
                             uint32_t device);

uint64_t sundial_record_commit(struct sundial_recorder *recorder, uint64_t reference,
                               uint32_t device, uint64_t counter);

uint64_t sundial_record_seal(struct sundial_recorder *recorder, uint64_t reference,
                             uint32_t device);

/* The next plan is prepared: before the first give or join for it. */
uint64_t sundial_record_stage(struct sundial_recorder *recorder, uint64_t reference);

/* A device or a link stops, or works again. A mended device has to join. */
uint64_t sundial_record_fail_device(struct sundial_recorder *recorder, uint64_t reference,
                                    uint32_t device);
uint64_t sundial_record_fail_link(struct sundial_recorder *recorder, uint64_t reference,
                                  uint32_t link);
uint64_t sundial_record_mend_device(struct sundial_recorder *recorder, uint64_t reference,
                                    uint32_t device);
uint64_t sundial_record_mend_link(struct sundial_recorder *recorder, uint64_t reference,
                                  uint32_t link);

/* The message of this number to the device over the link is known to be lost. A message that is not
 * received needs no such line. */
uint64_t sundial_record_lose(struct sundial_recorder *recorder, uint64_t reference,
                             uint32_t device, uint32_t link,
                             const struct sundial_message *message, uint64_t number);

/* The recording ends: the last line. A replay refuses a schedule without it. Of several logs only
 * the operator's has it, with a reference after those of all other lines. */
uint64_t sundial_record_end(struct sundial_recorder *recorder, uint64_t reference);

/* The number of the next message. It writes nothing. */
uint64_t sundial_record_sent(struct sundial_recorder *recorder);

#ifdef __cplusplus
}
#endif
#endif
