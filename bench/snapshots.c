/* Times snapshots of an MME: cc -O2 -I ../tests/library -I FOLDER snapshots.c FOLDER/libsoizkadur.a -o snapshots
 *
 *     snapshots TRACE ROUNDS    plays TRACE by calls, and prints of the MME that is left, each the least of ROUNDS: the seconds
 *                               of a save of all parts, those of the part of one subscriber, the mean of all, and those of a
 *                               restore; and how many octets the snapshot has, and how many are allocated for the MME, and for that
 *                               which is restored
 *
 * Lines `vec` may stand among the events. bench/snapshots.py writes the trace.
 */
#define _POSIX_C_SOURCE 200809L
#include "calls.h"

#include <malloc.h>
#include <time.h>

#define MOST_SAVED ((size_t)1 << 28) /* octets of a snapshot */
#define OF_SUBSCRIBERS ((uint64_t)1 << 34)

static double seconds(void)
{
    struct timespec now;
    clock_gettime(CLOCK_MONOTONIC, &now);
    return (double)now.tv_sec + (double)now.tv_nsec / 1e9;
}

static double least(double before, double now)
{
    return before == 0 || now < before ? now : before;
}

/* How many octets are allocated. */
static size_t allocated(void)
{
    struct mallinfo2 all = mallinfo2();
    return all.uordblks + all.hblkhd;
}

static void play(soizkadur_mme *mme, const struct text *trace)
{
    struct span line;
    int runs = 0;
    for (size_t at = 0; next_line(trace, &at, &line);) {
        if (!runs && is_event(line))
            must(soizkadur_start(mme) == SOIZKADUR_OK, "the MME starts");
        runs = runs || is_event(line);
        uint32_t answer = is_event(line) ? called(mme, line) : runs && is_further(line) ? provisioned_live(mme, line)
                                                                                       : provisioned(mme, line);
        must(answer == SOIZKADUR_OK, "a line is taken");
    }
}

/* The snapshot in a buffer; how many octets, and how many parts are those of subscribers. */
static size_t save(soizkadur_mme *mme, uint8_t *octets, unsigned long *subscribers)
{
    size_t total = 0, length = 0;
    *subscribers = 0;
    for (uint64_t place = 0; place != SOIZKADUR_SAVED; total += length) {
        *subscribers += place >= OF_SUBSCRIBERS;
        must(soizkadur_save(mme, &place, octets + total, MOST_SAVED - total, &length) == SOIZKADUR_OK, "a part is saved");
    }
    return total;
}

/* The seconds of the parts of all subscribers, in one small buffer. */
static double save_each(soizkadur_mme *mme)
{
    static uint8_t part[1 << 16];
    size_t length;
    double begun = seconds();
    for (uint64_t place = OF_SUBSCRIBERS; place != SOIZKADUR_SAVED;)
        must(soizkadur_save(mme, &place, part, sizeof part, &length) == SOIZKADUR_OK, "a part is saved");
    return seconds() - begun;
}

int main(int count, char **given)
{
    must(count == 3, "snapshots TRACE ROUNDS");
    struct text trace = read_all(given[1]);
    uint8_t *octets = (uint8_t *)malloc(MOST_SAVED);
    must(octets != NULL, "the benchmark has memory");
    memset(octets, 1, MOST_SAVED); /* so that no page is new while time is taken */
    soizkadur_mme mme = SOIZKADUR_EMPTY;
    double saved = 0, part = 0, restored = 0;
    size_t length = 0, before = allocated(), kept = 0;
    unsigned long subscribers = 0;
    play(&mme, &trace);
    size_t held = allocated() - before;
    for (unsigned long left = strtoul(given[2], NULL, 10); left > 0; left--) {
        double begun = seconds();
        length = save(&mme, octets, &subscribers);
        saved = least(saved, seconds() - begun);
        part = least(part, save_each(&mme));
        soizkadur_mme other = SOIZKADUR_EMPTY;
        uint64_t place;
        before = allocated();
        begun = seconds();
        must(soizkadur_restore(&other, octets, length, UINT64_MAX, &place) == SOIZKADUR_OK, "the snapshot is restored");
        restored = least(restored, seconds() - begun);
        kept = allocated() - before;
        soizkadur_free(&other);
    }
    printf("%lu subscribers: saved in %.3f s, one in %.2f us, restored in %.3f s; %zu octets, %zu allocated, %zu once restored\n",
           subscribers, saved, part / (double)subscribers * 1e6, restored, length, held, kept);
    soizkadur_free(&mme);
    forget(&trace);
    free(octets);
    return 0;
}
