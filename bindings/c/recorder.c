/* The lines of a schedule or of a log: recorder.h. */
#include "recorder.h"

/* A line of a log has at most two names of 64 bytes, six numbers of 20 digits, and eight keys. */
enum { MOST_BYTES = 512, MOST_DIGITS = 20 };

/* The greatest number of a compact log. (Devices, links, epochs and terms have 32 bits anyway.) */
static const uint64_t GREATEST = UINT64_C(1) << 60;

enum line_form { SCHEDULE, LOG, COMPACT_LOG };

struct line {
    char text[MOST_BYTES];
    size_t bytes;
    enum line_form form;
    int is_unfit; /* a name is too long, or a number is too great for the form */
};

static void put_byte(struct line *line, char byte)
{
    if (line->bytes < MOST_BYTES)
        line->text[line->bytes++] = byte;
    else
        line->is_unfit = 1;
}

static void put(struct line *line, const char *text)
{
    while (*text != '\0')
        put_byte(line, *text++);
}

static void put_decimal(struct line *line, uint64_t number)
{
    char digits[MOST_DIGITS];
    int count = 0;
    do {
        digits[count++] = (char)('0' + number % 10);
        number /= 10;
    } while (number != 0);
    while (count > 0)
        put_byte(line, digits[--count]);
}

/* What stands before a value: its key in a log, a space in the other forms. */
static void put_key(struct line *line, const char *key)
{
    if (line->form != LOG) {
        put(line, " ");
        return;
    }
    put(line, ", \"");
    put(line, key);
    put(line, "\": ");
}

static void put_number(struct line *line, const char *key, uint64_t number)
{
    if (line->form == COMPACT_LOG && number > GREATEST)
        line->is_unfit = 1;
    put_key(line, key);
    put_decimal(line, number);
}

/* A device or a link: its name in a log, its number in the other forms. */
static void put_thing(struct line *line, const char *key, const char *const *names, uint32_t number)
{
    put_key(line, key);
    if (line->form != LOG) {
        put_decimal(line, number);
        return;
    }
    put(line, "\"");
    put(line, names[number]);
    put(line, "\"");
}

/* Which message: its number in a schedule; its link, its epoch and its stamp in both logs. */
static void put_message(struct line *line, const struct sundial_recorder *recorder, uint32_t link,
                        const struct sundial_message *message, uint64_t number)
{
    if (line->form == SCHEDULE) {
        put_number(line, "", number);
        return;
    }
    put_thing(line, "link", recorder->links, link);
    put_number(line, "epoch", message->epoch);
    put_number(line, "term", message->stamp.term);
    put_number(line, "round", message->stamp.round);
}

static enum line_form form_of(const struct sundial_recorder *recorder)
{
    if (recorder->is_compact)
        return COMPACT_LOG;
    return recorder->devices != NULL ? LOG : SCHEDULE;
}

static struct line line_of(const struct sundial_recorder *recorder, const char *event,
                           uint64_t reference)
{
    struct line line;
    line.bytes = 0;
    line.form = form_of(recorder);
    line.is_unfit = 0;
    put(&line, line.form == LOG ? "{\"event\": \"" : "");
    put(&line, event);
    put(&line, line.form == LOG ? "\"" : "");
    put_number(&line, "reference_ps", reference);
    return line;
}

static struct line line_of_device(const struct sundial_recorder *recorder, const char *event,
                                  uint64_t reference, uint32_t device)
{
    struct line line = line_of(recorder, event, reference);
    put_thing(&line, "device", recorder->devices, device);
    return line;
}

static uint64_t finish(struct sundial_recorder *recorder, struct line *line)
{
    put(line, line->form == LOG ? "}\n" : "\n");
    if (recorder->failed || line->is_unfit
        || recorder->write(recorder->to, line->text, line->bytes) != 0) {
        recorder->failed = 1;
        return 0;
    }
    return ++recorder->lines;
}

static uint64_t record_counter(struct sundial_recorder *recorder, const char *event,
                               uint64_t reference, uint32_t device, uint64_t counter)
{
    struct line line = line_of_device(recorder, event, reference, device);
    put_number(&line, "counter_ps", counter);
    return finish(recorder, &line);
}

static uint64_t record_clock(struct sundial_recorder *recorder, const char *event,
                             uint64_t reference, uint32_t device, uint64_t counter,
                             uint64_t clock, uint64_t eps)
{
    struct line line = line_of_device(recorder, event, reference, device);
    put_number(&line, "counter_ps", counter);
    put_number(&line, "clock_ps", clock);
    put_number(&line, "eps_ps", eps);
    return finish(recorder, &line);
}

/* A thing that stops or works again. Where it has a number its kind stands before that. */
static uint64_t record_thing(struct sundial_recorder *recorder, const char *event,
                             uint64_t reference, const char *kind, const char *const *names,
                             uint32_t number)
{
    struct line line = line_of(recorder, event, reference);
    if (line.form != LOG) {
        put(&line, " ");
        put(&line, kind);
    }
    put_thing(&line, kind, names, number);
    return finish(recorder, &line);
}

uint64_t sundial_record_start(struct sundial_recorder *recorder, uint64_t reference,
                              uint32_t device, uint64_t counter, uint64_t clock, uint64_t eps)
{
    return record_clock(recorder, "start", reference, device, counter, clock, eps);
}

uint64_t sundial_record_join(struct sundial_recorder *recorder, uint64_t reference,
                             uint32_t device, uint64_t counter, uint64_t clock, uint64_t eps)
{
    return record_clock(recorder, "join", reference, device, counter, clock, eps);
}

uint64_t sundial_record_fix(struct sundial_recorder *recorder, uint64_t reference,
                            uint32_t device, uint64_t counter, uint64_t clock, uint64_t eps)
{
    return record_clock(recorder, "fix", reference, device, counter, clock, eps);
}

uint64_t sundial_record_tick(struct sundial_recorder *recorder, uint64_t reference,
                             uint32_t device, uint64_t counter)
{
    return record_counter(recorder, "tick", reference, device, counter);
}

uint64_t sundial_record_receive(struct sundial_recorder *recorder, uint64_t reference,
                                uint32_t device, uint64_t counter, uint32_t link,
                                const struct sundial_message *message, uint64_t number)
{
    struct line line = line_of_device(recorder, "recv", reference, device);
    put_number(&line, "counter_ps", counter);
    put_message(&line, recorder, link, message, number);
    return finish(recorder, &line);
}

uint64_t sundial_record_report(struct sundial_recorder *recorder, uint64_t reference,
                               uint32_t device, uint64_t counter)
{
    return record_counter(recorder, "ask", reference, device, counter);
}

uint64_t sundial_record_give(struct sundial_recorder *recorder, uint64_t reference,
                             uint32_t device)
{
    struct line line = line_of_device(recorder, "give", reference, device);
    return finish(recorder, &line);
}

uint64_t sundial_record_commit(struct sundial_recorder *recorder, uint64_t reference,
                               uint32_t device, uint64_t counter)
{
    return record_counter(recorder, "commit", reference, device, counter);
}

uint64_t sundial_record_seal(struct sundial_recorder *recorder, uint64_t reference,
                             uint32_t device)
{
    struct line line = line_of_device(recorder, "seal", reference, device);
    return finish(recorder, &line);
}

uint64_t sundial_record_stage(struct sundial_recorder *recorder, uint64_t reference)
{
    struct line line = line_of(recorder, "stage", reference);
    return finish(recorder, &line);
}

uint64_t sundial_record_fail_device(struct sundial_recorder *recorder, uint64_t reference,
                                    uint32_t device)
{
    return record_thing(recorder, "fail", reference, "device", recorder->devices, device);
}

uint64_t sundial_record_fail_link(struct sundial_recorder *recorder, uint64_t reference,
                                  uint32_t link)
{
    return record_thing(recorder, "fail", reference, "link", recorder->links, link);
}

uint64_t sundial_record_mend_device(struct sundial_recorder *recorder, uint64_t reference,
                                    uint32_t device)
{
    return record_thing(recorder, "mend", reference, "device", recorder->devices, device);
}

uint64_t sundial_record_mend_link(struct sundial_recorder *recorder, uint64_t reference,
                                  uint32_t link)
{
    return record_thing(recorder, "mend", reference, "link", recorder->links, link);
}

uint64_t sundial_record_lose(struct sundial_recorder *recorder, uint64_t reference,
                             uint32_t device, uint32_t link,
                             const struct sundial_message *message, uint64_t number)
{
    struct line line = line_of(recorder, "lose", reference);
    if (line.form != SCHEDULE)
        put_thing(&line, "device", recorder->devices, device);
    put_message(&line, recorder, link, message, number);
    return finish(recorder, &line);
}

uint64_t sundial_record_end(struct sundial_recorder *recorder, uint64_t reference)
{
    struct line line = line_of(recorder, "end", reference);
    return finish(recorder, &line);
}

uint64_t sundial_record_sent(struct sundial_recorder *recorder)
{
    return ++recorder->messages;
}
