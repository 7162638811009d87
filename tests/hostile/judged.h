/* What becomes of octets that are given as a snapshot: an empty handle refuses them and stays empty; or it holds an MME that is
 * saved as octets which restore to one that is saved as the same octets, and that answers the same events alike. */
#ifndef JUDGED_H
#define JUDGED_H

#define _POSIX_C_SOURCE 200809L
#include "../library/snapshots.h"

#include <time.h>

#define WORK 100000 /* keys that a restore may derive */
#define MOST_SECONDS 1.0
#define UNTOLD ((uint64_t)1 << 50) /* no place, and no version */

/* The events and questions that follow, a line each. */
static struct text probes;

static const char LAST_PROBES[] =
    "tick 7\nup 5\ndata 001010000000001\nshow 001010000000001\nshow 001010000000002\ntick 70\nlost 0\nup 0\n"
    "in 0 0011001f000003003b00080000f11000000010004000070000004000f1100089400140\ndata 001010000000001\ncancel 001010000000002\n"
    "show 001010000000001\nshow 001010000000002\ntick 4000\nshow 001010000000001\n";

static double seconds(void)
{
    struct timespec now;
    clock_gettime(CLOCK_MONOTONIC, &now);
    return (double)now.tv_sec + (double)now.tv_nsec / 1e9;
}

/* What an MME answers to all that follows. */
static void put_probed(struct text *answers, soizkadur_mme *mme)
{
    struct span line;
    answers->length = 0;
    for (size_t at = 0; next_line(&probes, &at, &line);) {
        uint32_t refusal = played(mme, line);
        print(answers, "%u\n", (unsigned)refusal);
        put_answers(answers, mme, line, refusal);
    }
}

/* The refusal of the octets, or 0. */
static uint32_t judged(const uint8_t *octets, size_t length)
{
    static struct text saved, again, first, second;
    soizkadur_mme mme = SOIZKADUR_EMPTY, other = SOIZKADUR_EMPTY;
    uint64_t place = UNTOLD;
    double begun = seconds();
    uint32_t refusal = soizkadur_restore(&mme, octets, length, WORK, &place);
    must(seconds() - begun < MOST_SECONDS, "a restore takes less than a second");
    if (refusal != SOIZKADUR_OK) {
        must(soizkadur_start(&mme) == SOIZKADUR_NO_MME, "the handle is empty");
        must(refusal >= SOIZKADUR_OTHER_VERSION && refusal <= SOIZKADUR_TOO_MUCH_WORK, "the refusal is one of a snapshot");
        must((place != UNTOLD) == (refusal != SOIZKADUR_TOO_MUCH_WORK), "a place is written where there is one");
        return refusal;
    }
    must(place == UNTOLD, "no place is written");
    save_all(&mme, &saved);
    must(restored(&other, &saved, WORK, &place) == SOIZKADUR_OK, "what is saved is restored");
    save_all(&other, &again);
    must(is_same(&saved, &again), "and saved as the same octets");
    put_probed(&first, &mme);
    put_probed(&second, &other);
    must(is_same(&first, &second), "both answer alike");
    save_all(&mme, &saved);
    save_all(&other, &again);
    must(is_same(&saved, &again), "and both are saved as the same octets at the end");
    soizkadur_free(&mme);
    soizkadur_free(&other);
    return SOIZKADUR_OK;
}

#endif
