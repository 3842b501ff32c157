/* A whole reader of a clock page: it commits one transaction.
 *
 *     clock_reader FILE [GREATEST_NS]
 *
 * It takes a stamp, waits until that has passed, and prints both. GREATEST_NS is the greatest eps that it takes,
 * a millisecond where none is given. */
#include "sundial_clock.h"

#include <inttypes.h>
#include <stdlib.h>

static uint64_t last; /* of the stamps: all threads of the process share it */

int main(int count, char **words)
{
    struct sundial_clock_reader reader;
    struct sundial_clock_now now;
    uint64_t greatest = count > 2 ? strtoull(words[2], NULL, 10) : 1000000;
    if (count < 2 || sundial_clock_open(words[1], &reader) != 0) {
        perror("clock_reader FILE [GREATEST_NS]");
        return 2;
    }
    /* (the transaction is ready, and holds its locks) */
    uint32_t answer = sundial_clock_read(&reader, greatest, &now);
    if (answer != SUNDIAL_CLOCK_GOOD && answer != SUNDIAL_CLOCK_STALE) {
        /* WIDE has an interval, but each wait would be long. All others have none. */
        fprintf(stderr, "clock_reader: no stamp now: %s\n", sundial_clock_name(answer));
        return 1;
    }
    uint64_t stamp = sundial_clock_stamp(&now, &last), begun = sundial_clock_raw();
    answer = sundial_clock_wait(&reader, stamp, 1000000000, &now);
    if (answer != SUNDIAL_CLOCK_GOOD) {
        /* (the stamp is taken and the locks are held: another machine can end the transaction) */
        fprintf(stderr, "clock_reader: the stamp %" PRIu64 " has not passed: %s\n", stamp, sundial_clock_name(answer));
        return 1;
    }
    printf("stamp %" PRIu64 " passed after %" PRIu64 " ns, civil %" PRId64 ", eps %" PRIu64 "\n", stamp,
           sundial_clock_raw() - begun, sundial_clock_civil(&now, stamp), now.eps);
    sundial_clock_close(&reader);
    return 0;
}
