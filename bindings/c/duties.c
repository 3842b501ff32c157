/* Compares the duties that sundial-duty writes (duties.h) with those of fabric.h, which were written by
 * hand, and the children with the duties of both. */
#include <stdio.h>
#include <stdlib.h>

#include "duties.h"
#include "fabric.h"

static void expect(int holds, const char *what, int plan, int device)
{
    if (!holds) {
        fprintf(stderr, "duties: plan %d, device %d: %s\n", plan + 1, device, what);
        exit(1);
    }
}

static int same_edge(int flag, const struct sundial_edge *one, const struct sundial_edge *other)
{
    return !flag
           || (one->mid == other->mid && one->half == other->half && one->parent == other->parent
               && one->link == other->link);
}

static int same_duty(const struct sundial_duty *one, const struct sundial_duty *other)
{
    if (one->epoch == 0 || other->epoch == 0)
        return one->epoch == other->epoch;
    return one->has_primary == other->has_primary && one->has_backup == other->has_backup
           && same_edge(one->has_primary, &one->primary, &other->primary)
           && same_edge(one->has_backup, &one->backup, &other->backup) && one->period == other->period
           && one->wait_first == other->wait_first && one->wait_second == other->wait_second
           && one->wait == other->wait && one->rates.grain == other->rates.grain
           && one->rates.ppm == other->rates.ppm && one->epoch == other->epoch && one->role == other->role;
}

static int is_child(int plan, uint32_t sender, uint32_t link, uint32_t receiver)
{
    const struct sundial_duty *duty = &DUTIES[plan][receiver];
    return duty->epoch != 0
           && ((duty->has_primary && duty->primary.parent == sender && duty->primary.link == link)
               || (duty->has_backup && duty->backup.parent == sender && duty->backup.link == link));
}

static int listed(int plan, uint32_t sender, uint32_t link, uint32_t receiver)
{
    int times = 0;
    uint32_t end = SUNDIAL_FIRST_CHILD[plan][sender + 1];
    for (uint32_t at = SUNDIAL_FIRST_CHILD[plan][sender]; at < end; at++)
        times += SUNDIAL_CHILDREN[at].link == link && SUNDIAL_CHILDREN[at].device == receiver;
    return times;
}

int main(void)
{
    expect((int)SUNDIAL_DEVICES == (int)DEVICES && (int)SUNDIAL_LINKS == (int)LINKS
               && (int)SUNDIAL_PLANS == (int)PLANS,
           "counts", 0, 0);
    expect(SUNDIAL_TICK == TICK && SUNDIAL_REPAIRS_APART == 3 * DUTIES[0][S0].period && SUNDIAL_FIRST_EPOCH == 1, "tick", 0, 0);
    for (int plan = 0; plan < PLANS; plan++)
        for (uint32_t device = 0; device < DEVICES; device++) {
            expect(same_duty(&SUNDIAL_DUTIES[plan][device], &DUTIES[plan][device]), "the duties differ", plan,
                   (int)device);
            for (uint32_t link = 0; link < LINKS; link++)
                for (uint32_t below = 0; below < DEVICES; below++)
                    expect(listed(plan, device, link, below) == is_child(plan, device, link, below),
                           "the children differ", plan, (int)device);
        }
    for (uint32_t device = 0; device < DEVICES; device++)
        expect(SUNDIAL_DEVICE_NAMES[device][0] == NAMES[device][0]
                   && SUNDIAL_DEVICE_NAMES[device][1] == NAMES[device][1],
               "names", 0, (int)device);
    expect(SUNDIAL_LINK_NAMES[S2_L0][1] == LINK_NAMES[S2_L0][1], "names of links", 0, 0);
    puts("duties: as in fabric.h");
    return 0;
}
