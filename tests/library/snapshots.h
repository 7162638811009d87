/* A snapshot of an MME, and the MME of a snapshot. */
#ifndef SNAPSHOTS_H
#define SNAPSHOTS_H

#include "answers.h"

#define PART_ROOM 8192      /* octets of a part, as a rule at most */
#define ANY_WORK UINT64_MAX /* keys that a restore may derive */

/* Room in a text for so many octets more. */
static inline void make_room(struct text *text, size_t more)
{
    if (text->room - text->length < more) {
        text->room = 2 * text->room + more;
        text->at = (char *)realloc(text->at, text->room);
        must(text->at != NULL, "the test has memory");
    }
}

/* Adds the part at a place to a snapshot; the place is then that of the next one. Answers as soizkadur_save, which has room. */
static inline uint32_t add_part(soizkadur_mme *mme, uint64_t *place, struct text *snapshot)
{
    size_t length = 0;
    make_room(snapshot, PART_ROOM);
    uint32_t answer = soizkadur_save(mme, place, (uint8_t *)snapshot->at + snapshot->length, snapshot->room - snapshot->length,
                                     &length);
    if (answer == SOIZKADUR_NO_ROOM) {
        make_room(snapshot, length);
        answer = soizkadur_save(mme, place, (uint8_t *)snapshot->at + snapshot->length, snapshot->room - snapshot->length, &length);
    }
    if (answer == SOIZKADUR_OK)
        snapshot->length += length;
    return answer;
}

/* The snapshot of an MME that runs, in place of what a text has. */
static inline void save_all(soizkadur_mme *mme, struct text *snapshot)
{
    snapshot->length = 0;
    for (uint64_t place = 0; place != SOIZKADUR_SAVED;)
        must(add_part(mme, &place, snapshot) == SOIZKADUR_OK, "a part is saved");
}

/* The MME of octets in an empty handle, and the place that is written; answers as soizkadur_restore. */
static inline uint32_t restored(soizkadur_mme *mme, const struct text *snapshot, uint64_t work, uint64_t *place)
{
    return soizkadur_restore(mme, (const uint8_t *)snapshot->at, snapshot->length, work, place);
}

/* The MME of a handle ends, and one that is restored from its snapshot takes its place; that is saved as the same octets. */
static inline void restart(soizkadur_mme *mme)
{
    static struct text before, after;
    uint64_t place = 77;
    save_all(mme, &before);
    soizkadur_free(mme);
    must(restored(mme, &before, ANY_WORK, &place) == SOIZKADUR_OK && place == 77, "a snapshot is restored");
    must(soizkadur_replies(mme) == 0, "there is no reply before the next event");
    save_all(mme, &after);
    must(is_same(&before, &after), "what is restored is saved as the same octets");
}

#endif
