/* Octets that are nearly a snapshot, or were one.
 *
 *     snapshots turned TRACE N            each bit of each octet of the snapshot after the Nth event of TRACE turned, and each cut
 *     snapshots mutated TRACE N SEED M    M of these octets with random changes
 *     snapshots saved TRACE N             the snapshot on standard output
 *
 * Each is refused, or restored to an MME that is judged (judged.h) over the other events of TRACE and some more. Prints how many
 * were refused and restored; ends with status 70 where something isn't as it should be. A cut is never restored.
 */
#include "judged.h"

#define MOST_CHANGES 6
#define MOST_MOVED 64 /* octets that are moved, copied or left out at once */

static unsigned long counts[32];

static void judge(const uint8_t *octets, size_t length)
{
    /* (a block of its own, so that a read past the octets is one past a block) */
    uint8_t *copy = (uint8_t *)malloc(length == 0 ? 1 : length);
    must(copy != NULL, "the test has memory");
    memcpy(copy, octets, length);
    counts[judged(copy, length)]++;
    free(copy);
}

/* The snapshot after so many events of a trace, of which the others are probes. */
static struct text snapshot_of(const char *path, unsigned wanted)
{
    struct text trace = read_all(path), snapshot = {NULL, 0, 0};
    soizkadur_mme mme = SOIZKADUR_EMPTY;
    struct span line;
    unsigned events = 0;
    size_t at = 0;
    while (events < wanted && next_line(&trace, &at, &line)) {
        must(played(&mme, line) == SOIZKADUR_OK, "a line is taken");
        events += (unsigned)is_event(line);
    }
    must(events == wanted, "there are as many events");
    save_all(&mme, &snapshot);
    soizkadur_free(&mme);
    put(&probes, trace.at + at, trace.length - at);
    put(&probes, LAST_PROBES, sizeof LAST_PROBES - 1);
    forget(&trace);
    return snapshot;
}

static void turn_each(struct text *snapshot)
{
    uint8_t *octets = (uint8_t *)snapshot->at;
    for (size_t at = 0; at < snapshot->length; at++)
        for (unsigned bit = 0; bit < 8; bit++) {
            octets[at] ^= (uint8_t)(1u << bit);
            judge(octets, snapshot->length);
            octets[at] ^= (uint8_t)(1u << bit);
        }
    unsigned long before = counts[SOIZKADUR_OK];
    for (size_t length = 0; length < snapshot->length; length++)
        judge(octets, length);
    must(counts[SOIZKADUR_OK] == before, "a snapshot that is cut is refused");
    judge(octets, snapshot->length);
    must(counts[SOIZKADUR_OK] == before + 1, "the snapshot is restored");
}

/* xorshift64 (Marsaglia): each number from the one before. */
static uint64_t state;

static size_t below(size_t most)
{
    state ^= state << 13;
    state ^= state >> 7;
    state ^= state << 17;
    return most == 0 ? 0 : (size_t)(state % most);
}

/* One random change of octets, of which there is room for some more. */
static size_t changed(uint8_t *octets, size_t length)
{
    static const uint8_t likely[] = {0, 1, 2, 3, 4, 5, 6, 7, 8, 0x0f, 0x10, 0x7f, 0x80, 0xf0, 0xfe, 0xff};
    if (length == 0)
        return 0;
    size_t at = below(length), more = 1 + below(MOST_MOVED), from = below(length);
    switch (below(6)) {
    case 0:
        octets[at] ^= (uint8_t)(1u << below(8));
        return length;
    case 1:
        octets[at] = likely[below(sizeof likely)];
        return length;
    case 2:
        octets[at] = (uint8_t)below(256);
        return length;
    case 3: /* some are left out */
        more = more < length - at ? more : length - at;
        memmove(octets + at, octets + at + more, length - at - more);
        return length - more;
    case 4: /* some come twice */
        more = more < length - from ? more : length - from;
        memmove(octets + at + more, octets + at, length - at);
        memmove(octets + at, octets + from, more);
        return length + more;
    default: /* some stand elsewhere, too */
        more = more < length - from ? more : length - from;
        more = more < length - at ? more : length - at;
        memmove(octets + at, octets + from, more);
        return length;
    }
}

static void mutate(const struct text *snapshot, uint64_t seed, unsigned long many)
{
    uint8_t *octets = (uint8_t *)malloc(snapshot->length + MOST_CHANGES * MOST_MOVED);
    must(octets != NULL, "the test has memory");
    state = seed * 0x9e3779b97f4a7c15u + 1;
    for (unsigned long count = 0; count < many; count++) {
        size_t length = snapshot->length;
        memcpy(octets, snapshot->at, length);
        for (size_t left = 1 + below(MOST_CHANGES); left > 0; left--)
            length = changed(octets, length);
        judge(octets, length);
    }
    free(octets);
}

int main(int count, char **given)
{
    must(count >= 4, "snapshots turned|mutated|saved TRACE N [SEED M]");
    struct text snapshot = snapshot_of(given[2], (unsigned)strtoul(given[3], NULL, 10));
    if (strcmp(given[1], "saved") == 0) {
        must(fwrite(snapshot.at, 1, snapshot.length, stdout) == snapshot.length, "the snapshot is written");
        return 0;
    }
    if (strcmp(given[1], "turned") == 0) {
        turn_each(&snapshot);
    } else {
        must(strcmp(given[1], "mutated") == 0 && count == 6, "snapshots mutated TRACE N SEED M");
        mutate(&snapshot, strtoull(given[4], NULL, 10), strtoul(given[5], NULL, 10));
    }
    printf("%zu octets: %lu restored, %lu of another version, %lu no snapshot, %lu too much work\n", snapshot.length,
           counts[SOIZKADUR_OK], counts[SOIZKADUR_OTHER_VERSION], counts[SOIZKADUR_NO_SNAPSHOT], counts[SOIZKADUR_TOO_MUCH_WORK]);
    forget(&snapshot);
    forget(&probes);
    return 0;
}
