/* One device of a fabric as a process on Linux, over UDP. An example and a rig, and no product.
 *
 *     host [--compact] [--realtime PRIORITY] FILE
 *
 * FILE has what the device is told: its duties, the addresses of its links, its clock, and where its log and its
 * state go (README.md). rig/rig makes such files. It runs until SIGTERM. With --compact its log is a compact
 * one (recorder.h), and the names of FILE are not needed. With --realtime no process of a lower
 * priority keeps it waiting (SCHED_FIFO, from 1 to 99), and its memory is locked. Where the system refuses
 * that, it says so and ends with 1.
 *
 *   - Its hardware's counter is CLOCK_MONOTONIC_RAW less a base, off by a stated ppm. On one machine all have
 *     one oscillator, so the reference time is that clock, and each interval can be judged.
 *   - A receipt has the counter of the kernel's own timestamp of the packet. A sending has the counter of the call
 *     that sends. In one step a receipt is not before the device's latest call. In two steps the sender says by a
 *     second datagram how much later than its reading the packet went out, and the receipt is moved back by that.
 *   - Whether a message may be too old is asked of a port for each link.
 *   - It is rebased, and its state is kept before it sends. A process that begins anew goes on with that state.
 *   - One thread. Nothing is allocated after the start.
 */
#define _GNU_SOURCE
#include <arpa/inet.h>
#include <errno.h>
#include <inttypes.h>
#include <linux/errqueue.h>
#include <linux/net_tstamp.h>
#include <poll.h>
#include <sched.h>
#include <signal.h>
#include <stdio.h>
#include <stdlib.h>
#include <string.h>
#include <sys/mman.h>
#include <sys/socket.h>
#include <sys/timerfd.h>
#include <sys/un.h>
#include <time.h>
#include <unistd.h>

#include "sundial_clock.h"
#include "recorder.h"

enum { MOST_NAMES = 512, MOST_LINKS = 64, MOST_PLANS = 8, MOST_CHILDREN = 64, MOST_HELD = 256, NAME_BYTES = 65 };

/* The datagrams: README.md. */
enum {
    VERSION = 1, MESSAGE = 1, FOLLOW_UP = 2, HEAD_BYTES = 16, MAC_BYTES = 16, MESSAGE_BYTES = 88, FOLLOW_UP_BYTES = 40,
    ROOM = 256
};

struct link {
    uint32_t number;
    int socket;
    uint32_t sequence; /* of its latest message */
    uint64_t sent_raw; /* when it was sent */
};

/* A message that waits for its follow-up, or with that for its turn. */
struct held {
    enum { FREE, WAITS, WHOLE } state;
    uint32_t link; /* its place in `links` */
    uint32_t sequence;
    uint64_t stamp; /* of its receipt */
    uint64_t at;    /* the receipt moved back */
    uint64_t sent;  /* what the sender read */
    struct sundial_message message;
};

static struct sundial_device device;
static struct sundial_port ports[MOST_LINKS]; /* of the links, in their order here */
static struct sundial_recorder recorder;
static struct sundial_clock_mapping mapping; /* to the hardware's counter, from reference time 0 on */
static struct sundial_clock_terms terms = {.stale_after = 1000000000, .void_after = 60000000000};
static struct sundial_clock_writer writer; /* its page is null where the file names none */
static struct sundial_duty duties[MOST_PLANS]; /* by epoch - 1 */
static struct { uint32_t link, device; } children[MOST_PLANS][MOST_CHILDREN];
static uint32_t children_of[MOST_PLANS];
static struct link links[MOST_LINKS];
static struct held holds[MOST_HELD];
static struct pollfd waited[MOST_LINKS + 1];
static char names[2][MOST_NAMES][NAME_BYTES];
static const char *name_of[2][MOST_NAMES];
static uint32_t number, link_count;
static uint64_t latest, tick_every, ask_every, begin_eps;
static int64_t begin_off;
static int joins, control = -1, watch = -1;
static char log_path[128], log_room[1 << 16];
static char state_path[128], next_path[136]; /* of what is kept, and of the next such while it is written */
static uint64_t topology_tick, lowered, ticked; /* ps, as in docs/LIFE-OF-A-DEVICE.md */
static uint64_t rebased, rebase_every = UINT64_C(86400000000000);
static uint64_t settle, lag; /* ns: how long a message is held; by how much own calls are in the past. 0: in one step */
static uint64_t base_raw, base_real; /* of one moment, from which the rate of the two clocks is counted */
static double rate = 1;
static uint64_t hold;                  /* a planted fault: each sending waits for this, in ns */
static int was_set;                    /* a planted fault: as if the system's clock had been set */
static uint64_t late_after = UINT64_MAX, late; /* a message that waited here for longer, in ns, is dropped: how many were */
static uint64_t go, least_delay = UINT64_MAX, greatest_delay, greatest_gap, latest_tick; /* ns, of CLOCK_MONOTONIC_RAW */
static uint64_t sendings, stamped, latest_stamp, latest_follow_up, calls_refused, unstamped, early, disordered, foreign;
static volatile sig_atomic_t ends;

static void stop(const char *what)
{
    fprintf(stderr, "host %" PRIu32 ": %s%s%s\n", number, what, errno ? ": " : "", errno ? strerror(errno) : "");
    exit(1);
}

static void end_soon(int signal)
{
    (void)signal;
    ends = 1;
}

static int write_file(void *to, const char *text, size_t bytes)
{
    return fwrite(text, 1, bytes, (FILE *)to) == bytes ? 0 : -1;
}

/* A moment that is not before that of the call before. */
static uint64_t moment(uint64_t raw)
{
    if (raw > latest)
        latest = raw;
    return latest;
}

/* Where a call of its own comes in time: in two steps in the past, so that a receipt that is moved back does not come before
 * it. A device that acts as root takes nothing over its primary link, and is in the present. */
static uint64_t own_moment(void)
{
    uint8_t acts = 0;
    uint64_t raw = sundial_clock_raw();
    return moment(sundial_acts(&device, &acts) == SUNDIAL_DONE && acts ? raw : raw - lag);
}

static uint64_t hardware_at(uint64_t raw)
{
    return sundial_clock_counter(&mapping, raw);
}

static uint64_t counter_of(uint64_t raw)
{
    return hardware_at(raw) - lowered;
}

static uint64_t reference_of(uint64_t raw)
{
    return (raw - mapping.raw) * 1000;
}

static void publish(uint64_t raw)
{
    writer.terms.skew = mapping.skew;
    if (writer.page != NULL)
        sundial_clock_publish(&writer, &device, counter_of(raw), raw);
}

/* Whether the call was made. A call that is refused has no line. */
static int made(uint32_t answer, const char *call)
{
    if (answer == SUNDIAL_DONE)
        return 1;
    calls_refused++;
    fprintf(stderr, "host %" PRIu32 ": %s answered %" PRIu32 "\n", number, call, answer);
    return 0;
}

static struct link *link_of(uint32_t wanted)
{
    for (uint32_t i = 0; i < link_count; i++)
        if (links[i].number == wanted)
            return &links[i];
    return NULL;
}

static const struct sundial_edge *edge_over(const struct sundial_duty *duty, uint32_t link)
{
    if (duty->has_primary != 0 && duty->primary.link == link)
        return &duty->primary;
    return duty->has_backup != 0 && duty->backup.link == link ? &duty->backup : NULL;
}

/* From now on the link takes what cannot be older than this moment. A link has the same delays in each plan, and one that
 * leads to no parent in any plan brings nothing. */
static void open_port(uint32_t at, uint64_t raw)
{
    for (int plan = 0; plan < MOST_PLANS; plan++) {
        const struct sundial_edge *edge = edge_over(&duties[plan], links[at].number);
        if (edge != NULL)
            made(sundial_port_open(&ports[at], edge, &duties[plan].rates, counter_of(raw)), "port_open");
    }
}

/* Before a call's message is sent. A process that is killed while it writes leaves the file of the state before, which has
 * sent nothing since. */
static void keep(void)
{
    uint8_t bytes[SUNDIAL_KEPT_SIZE(MOST_LINKS)];
    size_t size = SUNDIAL_KEPT_SIZE(link_count);
    if (state_path[0] == '\0' || !made(sundial_keep(&device, ports, link_count, lowered, ticked, bytes, size), "keep"))
        return;
    int file = open(next_path, O_WRONLY | O_CREAT | O_TRUNC | O_CLOEXEC, 0600);
    if (file < 0 || write(file, bytes, size) != (ssize_t)size || close(file) != 0 || rename(next_path, state_path) != 0)
        stop("the state cannot be kept");
}

/* Whether the device goes on with what was kept. One whose state is too old, or not whole, has to join. */
static int restore(void)
{
    uint8_t bytes[SUNDIAL_KEPT_SIZE(MOST_LINKS) + 1];
    int file = open(state_path, O_RDONLY | O_CLOEXEC);
    if (file < 0 && errno == ENOENT) /* (also where the file names none) */
        return 0;
    ssize_t size = read(file, bytes, sizeof bytes);
    close(file);
    uint64_t raw = moment(sundial_clock_raw());
    uint32_t answer = sundial_restore(bytes, size > 0 ? (size_t)size : 0, topology_tick, hardware_at(raw), &device, ports,
                                      link_count, &lowered, &ticked);
    if (answer == SUNDIAL_DONE || joins)
        return answer == SUNDIAL_DONE;
    fprintf(stderr, "host %" PRIu32 ": its state is %s: it has to join\n", number, sundial_answer_name(answer));
    exit(1);
}

static void put(unsigned char *to, uint64_t value, int bytes)
{
    while (bytes-- > 0) {
        to[bytes] = (unsigned char)value;
        value >>= 8;
    }
}

static uint64_t get(const unsigned char *from, int bytes)
{
    uint64_t value = 0;
    for (int i = 0; i < bytes; i++)
        value = value << 8 | from[i];
    return value;
}

static void put_head(unsigned char *to, int kind, uint32_t bytes, const struct link *link, uint32_t sequence)
{
    memset(to, 0, bytes);
    put(to, 0x5344, 2);
    put(to + 2, VERSION, 1);
    put(to + 3, (uint64_t)kind, 1);
    put(to + 4, bytes, 2);
    put(to + 8, link->number, 4);
    put(to + 12, sequence, 4);
}

/* The kind of a datagram of the link, or 0 where it is none. There is no key here, so one with a MAC is none. */
static int kind_of(const unsigned char *from, size_t bytes, const struct link *link)
{
    static const unsigned char none[MAC_BYTES];
    size_t wanted = bytes >= HEAD_BYTES && from[3] == MESSAGE ? MESSAGE_BYTES : FOLLOW_UP_BYTES;
    if (bytes != wanted || get(from, 2) != 0x5344 || from[2] != VERSION || (from[3] != MESSAGE && from[3] != FOLLOW_UP)
        || get(from + 4, 2) != bytes || get(from + 6, 2) != 0 || get(from + 8, 4) != link->number
        || memcmp(from + bytes - MAC_BYTES, none, MAC_BYTES) != 0)
        return 0;
    return from[3];
}

/* (what cannot be sent is lost, and a lost message is what the protocol expects) */
static void send_datagram(const struct link *link, const unsigned char *from, size_t bytes)
{
    if (send(link->socket, from, bytes, MSG_DONTWAIT) < 0 && errno == EBADF)
        stop("send");
}

static void send_on(const struct sundial_effect *effect, uint64_t raw)
{
    uint32_t epoch = effect->message.epoch;
    if (effect->sends == 0 || epoch == 0 || epoch > MOST_PLANS)
        return;
    if (sundial_clock_raw() - raw > (lag != 0 ? 2 * lag : late_after)) {
        late++; /* (this process did not run for a while: as for a receipt) */
        return;
    }
    if (hold != 0) {
        struct timespec rest = {(time_t)(hold / 1000000000), (long)(hold % 1000000000)};
        nanosleep(&rest, NULL);
    }
    const struct sundial_message *m = &effect->message;
    for (uint32_t i = 0; i < children_of[epoch - 1]; i++) {
        unsigned char to[MESSAGE_BYTES];
        struct link *link = link_of(children[epoch - 1][i].link);
        if (link == NULL)
            continue;
        sendings++;
        link->sent_raw = sundial_clock_raw();
        put_head(to, MESSAGE, sizeof to, link, ++link->sequence);
        put(to + 16, m->clock.high, 8);
        put(to + 24, m->clock.low, 8);
        put(to + 32, m->eps.high, 8);
        put(to + 40, m->eps.low, 8);
        put(to + 48, m->stamp.round, 8);
        put(to + 56, m->stamp.term, 4);
        put(to + 60, m->epoch, 4);
        put(to + 64, raw, 8); /* (for the rig, and for the follow-up) */
        send_datagram(link, to, sizeof to);
    }
}

/* The counters that device and ports keep fall. */
static void rebase(uint64_t raw)
{
    uint64_t by = 0;
    if (raw - rebased < rebase_every
        || !made(sundial_rebase_with_ports(&device, ports, link_count, counter_of(raw), &by), "rebase"))
        return;
    rebased = raw;
    lowered += by;
}

static void tick(void)
{
    struct sundial_effect effect = {{{0, 0}, {0, 0}, {0, 0}, 0}, 0};
    uint64_t raw = own_moment(), now = sundial_clock_raw();
    rebase(raw);
    if (now - latest_tick > greatest_gap)
        greatest_gap = now - latest_tick;
    if (!made(sundial_tick(&device, counter_of(raw), &effect), "tick"))
        return;
    latest_tick = now;
    ticked = hardware_at(raw);
    keep();
    send_on(&effect, raw);
    sundial_record_tick(&recorder, reference_of(raw), number, ticked);
    publish(raw);
}

static void ask(void)
{
    struct sundial_clock_report report = {{0, 0}, {0, 0}};
    uint64_t raw = own_moment();
    if (made(sundial_report(&device, counter_of(raw), &report), "report"))
        sundial_record_report(&recorder, reference_of(raw), number, hardware_at(raw));
}

static uint64_t time_of(clockid_t clock)
{
    struct timespec at;
    clock_gettime(clock, &at);
    return (uint64_t)at.tv_sec * 1000000000 + (uint64_t)at.tv_nsec;
}

/* Both clocks at one moment: no other process ran in between. */
static void read_both(uint64_t *raw, uint64_t *real)
{
    uint64_t before, after;
    int tries = 0;
    do {
        before = sundial_clock_raw();
        *real = time_of(CLOCK_REALTIME);
        after = sundial_clock_raw();
    } while (after - before > 2000 && ++tries < 100);
    *raw = before + (after - before) / 2;
}

/* A timer that is cancelled when somebody sets the system's clock. */
static void watch_clock(void)
{
    read_both(&base_raw, &base_real);
    struct itimerspec never = {{0, 0}, {INT32_MAX, 0}};
    if (watch < 0)
        watch = timerfd_create(CLOCK_REALTIME, TFD_NONBLOCK | TFD_CLOEXEC);
    if (watch < 0 || timerfd_settime(watch, TFD_TIMER_ABSTIME | TFD_TIMER_CANCEL_ON_SET, &never, NULL) != 0)
        stop("no watch over the system's clock");
}

/* Whether the clock was set since this was asked before. */
static int clock_was_set(void)
{
    uint64_t expirations;
    int answer = was_set;
    was_set = 0;
    if (read(watch, &expirations, sizeof expirations) < 0 && errno == ECANCELED) {
        watch_clock();
        answer = 1;
    }
    return answer;
}

/* The kernel's timestamp of a packet by CLOCK_MONOTONIC_RAW, or 0 where it has none that counts. The kernel stamps by the
 * system's clock, which may have been set since. */
static uint64_t stamp_of(struct msghdr *header)
{
    for (struct cmsghdr *part = CMSG_FIRSTHDR(header); part != NULL; part = CMSG_NXTHDR(header, part)) {
        struct scm_timestamping stamps;
        if (part->cmsg_level != SOL_SOCKET || part->cmsg_type != SO_TIMESTAMPING)
            continue;
        memcpy(&stamps, CMSG_DATA(part), sizeof stamps);
        uint64_t then = (uint64_t)stamps.ts[0].tv_sec * 1000000000 + (uint64_t)stamps.ts[0].tv_nsec, raw, now;
        read_both(&raw, &now);
        if (now - base_real > 1000000000) /* (NTP steers the one, and not the other) */
            rate = (double)(raw - base_raw) / (double)(now - base_real);
        if (now - base_real > 16000000000) {
            base_raw = raw;
            base_real = now;
        }
        return then != 0 && then <= now && now - then < 10000000000 ? raw - (uint64_t)((double)(now - then) * rate) : 0;
    }
    return 0;
}

/* The kernel says when a message went out. In two steps that is sent behind it. */
static void take_sending_stamp(struct link *link, const unsigned char *from, uint64_t raw)
{
    uint64_t reading = get(from + 64, 8), passed = raw > reading ? raw - reading : 0;
    stamped++;
    if (raw > link->sent_raw && raw - link->sent_raw > latest_stamp)
        latest_stamp = raw - link->sent_raw;
    if (lag == 0)
        return;
    passed -= hold < passed ? hold : passed; /* (so that a planted wait counts as the network's) */
    unsigned char to[FOLLOW_UP_BYTES];
    const struct sundial_clock_mapping from_zero = {0, 0, mapping.skew};
    put_head(to, FOLLOW_UP, sizeof to, link, (uint32_t)get(from + 12, 4));
    put(to + 16, sundial_clock_counter(&from_zero, passed), 8);
    send_datagram(link, to, sizeof to);
}

static void take_sending_stamps(struct link *link)
{
    unsigned char text[ROOM];
    union { char bytes[512]; struct cmsghdr aligned; } parts;
    for (;;) {
        struct iovec room = {text, sizeof text};
        struct msghdr header = {.msg_iov = &room, .msg_iovlen = 1, .msg_control = parts.bytes,
                                .msg_controllen = sizeof parts.bytes};
        ssize_t bytes = recvmsg(link->socket, &header, MSG_ERRQUEUE | MSG_DONTWAIT);
        if (bytes < 0)
            return;
        uint64_t raw = stamp_of(&header);
        /* (the packet comes back with the heads of all layers before it) */
        const unsigned char *from = bytes >= MESSAGE_BYTES ? text + bytes - MESSAGE_BYTES : NULL;
        if (raw != 0 && !clock_was_set() && from != NULL && kind_of(from, MESSAGE_BYTES, link) == MESSAGE)
            take_sending_stamp(link, from, raw);
    }
}

/* The message of a link came at this moment, which is not before that of any call. */
static void receive(uint32_t at, const struct sundial_message *message, uint64_t raw, uint64_t sent)
{
    struct sundial_effect effect = {{{0, 0}, {0, 0}, {0, 0}, 0}, 0};
    uint64_t counter = counter_of(raw), delay = raw > sent ? raw - sent : 0;
    if (!sundial_port_takes(&ports[at], counter)) {
        early++; /* (it may be older than the start, the join or the failure of the link: so it counts as lost) */
        return;
    }
    if (delay < least_delay)
        least_delay = delay;
    if (delay > greatest_delay)
        greatest_delay = delay;
    if (!made(sundial_receive(&device, links[at].number, message, counter, &effect), "receive"))
        return;
    keep();
    send_on(&effect, raw);
    sundial_record_receive(&recorder, reference_of(raw), number, hardware_at(raw), links[at].number, message, 0);
    publish(raw);
}

/* In two steps: until it is known when the message went out. */
static void hold_message(const struct held *wanted)
{
    for (int i = 0; i < MOST_HELD; i++)
        if (holds[i].state == FREE) {
            holds[i] = *wanted;
            return;
        }
    late++;
}

static void take_message(uint32_t at, const unsigned char *from, uint64_t stamp)
{
    struct held it = {WAITS, at, (uint32_t)get(from + 12, 4), stamp, 0, get(from + 64, 8), {{0, 0}, {0, 0}, {0, 0}, 0}};
    it.message = (struct sundial_message){{get(from + 24, 8), get(from + 16, 8)}, {get(from + 40, 8), get(from + 32, 8)},
                                          {get(from + 48, 8), (uint32_t)get(from + 56, 4)}, (uint32_t)get(from + 60, 4)};
    if (stamp == 0) {
        unstamped++; /* (nobody knows when it came: so it counts as lost) */
    } else if (sundial_clock_raw() - stamp > (lag != 0 ? lag : late_after)) {
        late++; /* (this process was stopped. What it would send on now would be late too: so it counts as lost) */
    } else if (lag != 0) {
        hold_message(&it);
    } else {
        receive(at, &it.message, moment(stamp), it.sent);
    }
}

static void take_follow_up(uint32_t at, const unsigned char *from)
{
    uint64_t residence = get(from + 16, 8) / 1000, now = sundial_clock_raw();
    for (int i = 0; i < MOST_HELD; i++)
        if (holds[i].state == WAITS && holds[i].link == at && holds[i].sequence == get(from + 12, 4)) {
            if (now - holds[i].stamp > latest_follow_up)
                latest_follow_up = now - holds[i].stamp;
            holds[i].at = residence < holds[i].stamp ? holds[i].stamp - residence : 0;
            holds[i].state = residence <= 2 * lag ? WHOLE : FREE;
            late += residence > 2 * lag;
        }
}

/* One datagram, if there is one. */
static int take_datagram(uint32_t at)
{
    unsigned char text[ROOM];
    union { char bytes[512]; struct cmsghdr aligned; } parts;
    struct iovec room = {text, sizeof text};
    struct msghdr header = {.msg_iov = &room, .msg_iovlen = 1, .msg_control = parts.bytes,
                            .msg_controllen = sizeof parts.bytes};
    ssize_t bytes = recvmsg(links[at].socket, &header, MSG_DONTWAIT);
    if (bytes < 0)
        return errno == ECONNREFUSED || errno == EINTR;
    uint64_t stamp = stamp_of(&header);
    if (clock_was_set())
        stamp = 0;
    switch ((header.msg_flags & MSG_TRUNC) != 0 ? 0 : kind_of(text, (size_t)bytes, &links[at])) {
    case MESSAGE: take_message(at, text, stamp); break;
    case FOLLOW_UP: take_follow_up(at, text); break;
    default: foreign++;
    }
    return 1;
}

/* The held message that comes first in time, of those whose follow-up came. */
static struct held *first_whole(void)
{
    struct held *first = NULL;
    for (int i = 0; i < MOST_HELD; i++)
        if (holds[i].state == WHOLE && (first == NULL || holds[i].at < first->at))
            first = &holds[i];
    return first;
}

/* Messages have their turn once they were held for `settle`, in the order of their moved receipts. One that would come before
 * a later call is dropped, and so is one whose follow-up did not come. */
static void take_turns(uint64_t now)
{
    uint64_t until = 0;
    for (int i = 0; i < MOST_HELD; i++) {
        if (holds[i].state == FREE || now - holds[i].stamp < settle)
            continue;
        if (holds[i].state == WHOLE && holds[i].at > until)
            until = holds[i].at;
        late += holds[i].state == WAITS;
        holds[i].state = holds[i].state == WAITS ? FREE : holds[i].state;
    }
    for (struct held *it = first_whole(); it != NULL && it->at <= until; it = first_whole()) {
        it->state = FREE;
        if (it->at < latest)
            disordered++;
        else
            receive(it->link, &it->message, moment(it->at), it->sent);
    }
}

/* When the next held message has its turn. */
static uint64_t next_turn(void)
{
    uint64_t next = UINT64_MAX;
    for (int i = 0; i < MOST_HELD; i++)
        if (holds[i].state != FREE && holds[i].stamp + settle < next)
            next = holds[i].stamp + settle;
    return next;
}

static void obey(void)
{
    char text[64] = "";
    if (recv(control, text, sizeof text - 1, MSG_DONTWAIT) < 0)
        return;
    unsigned plan = 0, name = 0;
    uint8_t acts = 0;
    uint64_t raw = own_moment(), counter = counter_of(raw);
    if (sscanf(text, "give %u", &plan) == 1 && plan > 0 && plan <= MOST_PLANS) {
        if (made(sundial_give(&device, &duties[plan - 1]), "give"))
            sundial_record_give(&recorder, reference_of(raw), number);
    } else if (strcmp(text, "commit") == 0) {
        int is_root = sundial_acts(&device, &acts) == SUNDIAL_DONE && acts;
        if (made(is_root ? sundial_commit(&device, counter) : SUNDIAL_NOT_ROOT, "commit"))
            sundial_record_commit(&recorder, reference_of(raw), number, hardware_at(raw));
    } else if (strcmp(text, "seal") == 0) {
        if (made(sundial_seal(&device), "seal"))
            sundial_record_seal(&recorder, reference_of(raw), number);
    } else if (sscanf(text, "fail %u", &name) == 1) {
        if (link_of(name) != NULL)
            sundial_port_close(&ports[link_of(name) - links]);
    } else if (sscanf(text, "mend %u", &name) == 1) {
        if (link_of(name) != NULL)
            open_port((uint32_t)(link_of(name) - links), sundial_clock_raw());
    } else if (strcmp(text, "set") == 0) {
        was_set = 1;
        return;
    } else if (sscanf(text, "hold %" SCNu64, &hold) == 1) {
        return;
    } else if (strcmp(text, "fix") == 0) {
        uint64_t clock = (uint64_t)((int64_t)reference_of(raw) + begin_off);
        if (made(sundial_fix(&device, counter, clock, begin_eps), "fix"))
            sundial_record_fix(&recorder, reference_of(raw), number, hardware_at(raw), clock, begin_eps);
    }
    keep();
    publish(raw);
}

static void open_link(uint32_t link, const char *here, unsigned port, const char *there)
{
    int on = 1, flags = SOF_TIMESTAMPING_SOFTWARE | SOF_TIMESTAMPING_RX_SOFTWARE | SOF_TIMESTAMPING_TX_SOFTWARE;
    struct sockaddr_in from = {.sin_family = AF_INET, .sin_port = htons((uint16_t)port)}, to = from;
    int made_socket = socket(AF_INET, SOCK_DGRAM | SOCK_CLOEXEC, 0);
    if (link_count == MOST_LINKS || made_socket < 0 || inet_pton(AF_INET, here, &from.sin_addr) != 1
        || inet_pton(AF_INET, there, &to.sin_addr) != 1
        || setsockopt(made_socket, SOL_SOCKET, SO_REUSEADDR, &on, sizeof on) != 0
        || setsockopt(made_socket, SOL_SOCKET, SO_TIMESTAMPING, &flags, sizeof flags) != 0
        || bind(made_socket, (struct sockaddr *)&from, sizeof from) != 0
        || connect(made_socket, (struct sockaddr *)&to, sizeof to) != 0)
        stop("a link cannot be opened");
    waited[link_count] = (struct pollfd){made_socket, POLLIN, 0};
    links[link_count++] = (struct link){link, made_socket, 0, 0};
}

static void open_control(const char *path)
{
    struct sockaddr_un at = {.sun_family = AF_UNIX};
    control = socket(AF_UNIX, SOCK_DGRAM | SOCK_CLOEXEC, 0);
    snprintf(at.sun_path, sizeof at.sun_path, "%.99s", path);
    unlink(path);
    if (control < 0 || bind(control, (struct sockaddr *)&at, sizeof at) != 0)
        stop("no control socket");
}

static void read_duty(const char *line)
{
    struct sundial_duty d = {0};
    int fields = sscanf(line, "duty %" SCNu32 " %" SCNu8 " %" SCNu64 " %" SCNu64 " %" SCNu64 " %" SCNu64 " %" SCNu64
                              " %" SCNu32 " %" SCNu8 " %" SCNu32 " %" SCNu32 " %" SCNu64 " %" SCNu64 " %" SCNu8
                              " %" SCNu32 " %" SCNu32 " %" SCNu64 " %" SCNu64,
                        &d.epoch, &d.role, &d.period, &d.wait_first, &d.wait_second, &d.wait, &d.rates.grain,
                        &d.rates.ppm, &d.has_primary, &d.primary.parent, &d.primary.link, &d.primary.mid,
                        &d.primary.half, &d.has_backup, &d.backup.parent, &d.backup.link, &d.backup.mid,
                        &d.backup.half);
    if (fields != 18 || d.epoch == 0 || d.epoch > MOST_PLANS)
        stop("a duty cannot be read");
    duties[d.epoch - 1] = d;
}

static void read_line(char *line)
{
    char word[128], other[128];
    unsigned n = 0, plan = 0, below = 0;
    if (sscanf(line, "name device %u %64s", &n, word) == 2 && n < MOST_NAMES)
        name_of[0][n] = strcpy(names[0][n], word);
    else if (sscanf(line, "name link %u %64s", &n, word) == 2 && n < MOST_NAMES)
        name_of[1][n] = strcpy(names[1][n], word);
    else if (sscanf(line, "device %" SCNu32, &number) == 1)
        return;
    else if (sscanf(line, "clock %" SCNu64 " %" SCNd32, &mapping.raw, &mapping.skew) == 2)
        return;
    else if (sscanf(line, "go %" SCNu64, &go) == 1 || sscanf(line, "late %" SCNu64, &late_after) == 1)
        return;
    else if (sscanf(line, "every %" SCNu64 " %" SCNu64, &tick_every, &ask_every) == 2)
        return;
    else if (sscanf(line, "begin %127s %" SCNu64 " %" SCNd64, word, &begin_eps, &begin_off) == 3)
        joins = strcmp(word, "join") == 0;
    else if (strncmp(line, "duty ", 5) == 0)
        read_duty(line);
    else if (sscanf(line, "child %u %u %u", &plan, &n, &below) == 3 && plan > 0 && plan <= MOST_PLANS
             && children_of[plan - 1] < MOST_CHILDREN) {
        children[plan - 1][children_of[plan - 1]].link = n;
        children[plan - 1][children_of[plan - 1]++].device = below;
    } else if (sscanf(line, "link %u %127s %u %127s", &n, word, &plan, other) == 4)
        open_link(n, word, plan, other);
    else if (sscanf(line, "two-step %" SCNu64 " %" SCNu64, &settle, &lag) == 2)
        return;
    else if (sscanf(line, "rebase %" SCNu64, &rebase_every) == 1)
        return;
    else if (sscanf(line, "kept %127s %" SCNu64, state_path, &topology_tick) == 2)
        snprintf(next_path, sizeof next_path, "%s.next", state_path);
    else if (sscanf(line, "control %99s", word) == 1)
        open_control(word);
    else if (sscanf(line, "page %127s", word) == 1) {
        if (sundial_clock_create(word, &terms, &writer) != 0)
            stop("no page for a clock");
    } else if (sscanf(line, "log %127s", log_path) == 1)
        return;
    else
        stop("a line of the file is none");
}

/* Before the first message, so that no page is fetched and no other process runs when one comes. */
static void take_priority(const char *word)
{
    struct sched_param wanted = {.sched_priority = atoi(word)};
    if (sched_setscheduler(0, SCHED_FIFO, &wanted) != 0)
        stop("the system refuses this real-time priority");
    if (mlockall(MCL_CURRENT | MCL_FUTURE) != 0)
        stop("the system refuses to lock the memory");
}

static void open_log(const char *mode)
{
    FILE *log = fopen(log_path, mode);
    /* (line by line, so that a process that is killed has told all that it did) */
    if (log == NULL || setvbuf(log, log_room, _IOLBF, sizeof log_room) != 0)
        stop("no log");
    recorder.to = log;
}

static void begin_anew(void)
{
    for (uint64_t now = sundial_clock_raw(); now < go && !ends; now = sundial_clock_raw()) {
        /* (half of what is left: a timer of the kernel has another rate than this clock) */
        uint64_t left = (go - now) / 2 + 1000;
        struct timespec rest = {0, left < 100000000 ? (long)left : 100000000};
        nanosleep(&rest, NULL);
    }
    uint64_t raw = moment(sundial_clock_raw());
    uint64_t clock = (uint64_t)((int64_t)reference_of(raw) + begin_off);
    ticked = hardware_at(raw);
    uint32_t answer = joins ? sundial_join(&device, &duties[0].rates, ticked, clock, begin_eps)
                            : sundial_start(&device, &duties[0], ticked, clock, begin_eps);
    if (!made(answer, "begin"))
        exit(1);
    for (uint32_t i = 0; i < link_count; i++)
        open_port(i, raw);
    keep();
    if (joins)
        sundial_record_join(&recorder, reference_of(raw), number, ticked, clock, begin_eps);
    else
        sundial_record_start(&recorder, reference_of(raw), number, ticked, clock, begin_eps);
    publish(raw);
}

static void begin(void)
{
    watch_clock();
    int goes_on = restore();
    open_log(goes_on ? "a" : "w");
    if (!goes_on)
        begin_anew();
    rebased = latest_tick = latest;
    if (goes_on)
        tick();
}

static void serve(void)
{
    uint64_t next_tick = sundial_clock_raw() + tick_every, next_ask = next_tick + ask_every;
    uint32_t sockets = link_count;
    if (control >= 0)
        waited[sockets++] = (struct pollfd){control, POLLIN, 0};
    while (!ends) {
        uint64_t now = sundial_clock_raw(), next = next_tick < next_ask ? next_tick : next_ask, turn = next_turn();
        next = turn < next ? turn : next;
        struct timespec rest = {0, next > now ? (long)(next - now < 900000000 ? next - now : 900000000) : 0};
        if (ppoll(waited, sockets, &rest, NULL) < 0 && errno != EINTR)
            stop("poll");
        for (uint32_t i = 0; i < link_count; i++) {
            take_sending_stamps(&links[i]);
            while (take_datagram(i))
                continue;
        }
        take_turns(sundial_clock_raw());
        if (control >= 0)
            obey();
        now = sundial_clock_raw();
        if (now >= next_tick) {
            tick();
            next_tick = now + tick_every;
        }
        if (now >= next_ask) {
            ask();
            next_ask = now + ask_every;
        }
    }
}

int main(int count, char **words)
{
    static char line[512];
    const char *priority = NULL;
    int at = 1, is_compact = 0;
    for (; at < count; at++) {
        if (strcmp(words[at], "--compact") == 0)
            is_compact = 1;
        else if (strcmp(words[at], "--realtime") == 0 && at + 1 < count)
            priority = words[++at];
        else
            break;
    }
    FILE *file = at + 1 == count ? fopen(words[at], "r") : NULL;
    if (file == NULL) {
        fprintf(stderr, "host [--compact] [--realtime PRIORITY] FILE\n");
        return 2;
    }
    errno = 0;
    recorder = (struct sundial_recorder){
        .write = write_file, .devices = name_of[0], .links = name_of[1], .is_compact = is_compact};
    while (fgets(line, sizeof line, file) != NULL)
        read_line(line);
    fclose(file);
    if (tick_every == 0 || log_path[0] == '\0')
        stop("the file has no timer or no log");
    if (priority != NULL)
        take_priority(priority);
    signal(SIGTERM, end_soon);
    begin();
    serve();
    if (fclose((FILE *)recorder.to) != 0 || recorder.failed)
        stop("the log cannot be written");
    printf("{\"device\": %" PRIu32 ", \"sendings\": %" PRIu64 ", \"stamped\": %" PRIu64 ", \"latest_stamp_ns\": %" PRIu64
           ", \"latest_follow_up_ns\": %" PRIu64 ", \"unstamped\": %" PRIu64 ", \"refused\": %" PRIu64 ", \"foreign\": %" PRIu64 ", \"late\": %" PRIu64 ", \"early\": %" PRIu64
           ", \"disordered\": %" PRIu64 ", \"least_delay_ns\": %" PRIu64 ", \"greatest_delay_ns\": %" PRIu64
           ", \"greatest_gap_ns\": %" PRIu64 ", \"lowered_ps\": %" PRIu64 "}\n", number, sendings, stamped, latest_stamp, latest_follow_up, unstamped,
           calls_refused, foreign, late, early, disordered, greatest_delay == 0 ? 0 : least_delay, greatest_delay, greatest_gap, lowered);
    return 0;
}
