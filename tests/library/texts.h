/* A trace that is played some lines at a time by soizkadur_play, in buffers that are often too small. */
#ifndef TEXTS_H
#define TEXTS_H

#include "calls.h"

#define MOST_TURN 40 /* lines at once */
#define MOST_ROOM (1 << 20)

static uint8_t buffer_of_answers[MOST_ROOM];

/* Ends the last line with a LF, where it has none. */
static inline void end_last_line(struct text *trace)
{
    if (trace->length > 0 && trace->at[trace->length - 1] != '\n')
        put(trace, "\n", 1);
}

static inline size_t some_room(void)
{
    static const size_t rooms[] = {0, 100, 300, 1000, MOST_ROOM, MOST_ROOM};
    return rooms[(unsigned)rand() % (sizeof rooms / sizeof rooms[0])];
}

/* The octets of the first lines of a text, so many or all. */
static inline size_t octets_of(struct span text, uint64_t lines)
{
    size_t at = 0;
    while (at < text.length && lines-- > 0)
        at += (size_t)((const char *)memchr(text.at + at, '\n', text.length - at) - (text.at + at)) + 1;
    return at;
}

/* The lines from a place on, so many or all. */
static inline struct span turn_at(const struct text *trace, size_t at, unsigned lines)
{
    struct span rest = {trace->at + at, trace->length - at};
    return (struct span){rest.at, octets_of(rest, lines)};
}

/* Plays lines, with a piece of one after them that isn't taken, and adds their answers. */
static inline uint32_t play_in_room(soizkadur_mme *mme, struct span lines, soizkadur_played *played, struct text *answers, size_t room)
{
    struct text text = {NULL, 0, 0};
    put(&text, lines.at, lines.length);
    put(&text, "tick", 4);
    memset(buffer_of_answers, 77, room);
    *played = (soizkadur_played){77, 77, 77, 77};
    uint32_t refusal = soizkadur_play(mme, (const uint8_t *)text.at, text.length, played, buffer_of_answers, room);
    must(played->length <= room, "the answers are within the room");
    for (size_t at = played->length; at < room; at++)
        must(buffer_of_answers[at] == 77, "the rest of the buffer stays");
    must(refusal != SOIZKADUR_OK || octets_of(lines, played->lines) == lines.length, "all lines are played");
    put(answers, (const char *)buffer_of_answers, played->length);
    wipe(buffer_of_answers, played->length); /* they may carry a key */
    wipe(text.at, text.length);
    forget(&text);
    return refusal;
}

/* How many events a line has. */
static inline uint32_t events_of(struct span line)
{
    return begins(line, "tick ") ? (uint32_t)number(words_of(line).word[1], 10) : 1;
}

/* Goes on at the line that a text stopped at for lack of room or memory: what isn't answered is had of the replies, and of a line of many
 * ticks those that are left are played one by one. Whether the line is done: else nothing of it was. */
static inline int play_rest(soizkadur_mme *mme, const struct text *trace, size_t *at, const soizkadur_played *played,
                            struct text *answers)
{
    struct span line;
    size_t next = *at;
    must(next_line(trace, &next, &line), "there is a line");
    if (played->unsaid)
        put_reply(answers, mme, 0);
    uint32_t done = played->taken + played->unsaid;
    if (done == 0)
        return 0;
    for (uint32_t left = events_of(line) - done; left > 0; left--) {
        must(soizkadur_tick(mme, 1) == SOIZKADUR_OK, "a tick is taken");
        put_replies(answers, mme);
    }
    *at = next;
    return 1;
}

#endif
