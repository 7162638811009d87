/* Times events through the library: cc -O2 -I ../tests/library -I FOLDER library.c FOLDER/libsoizkadur.a -o library_speed
 *
 *     library_speed TRACE [ROUNDS]
 *
 * In each round an MME is made of what stands before the first event of TRACE, and then hears its events, whose octets are read from
 * hex before, and every message that it sends is copied out. Times are those of the processor, of the events alone; the best round
 * counts. Prints `EVENTS events, MESSAGES messages, OCTETS octets in NANOSECONDS ns`. bench/library.py gives it phones' days.
 */
#define _POSIX_C_SOURCE 199309L
#include "answers.h"

#include <time.h>

enum word { UP, LOST, IN, TICK, DATA, CANCEL };

struct event {
    enum word word;
    uint32_t number; /* the station, or how many seconds */
    const uint8_t *octets;
    size_t length;
};

struct counts {
    unsigned long messages, octets;
};

static struct event *events;
static size_t event_count;

static double now(void)
{
    struct timespec time;
    clock_gettime(CLOCK_PROCESS_CPUTIME_ID, &time);
    return (double)time.tv_sec * 1e9 + (double)time.tv_nsec;
}

/* Reads hex in its place, which it overwrites; `-` is no octets. */
static size_t unhex(char *text, size_t length)
{
    for (size_t at = 0; at < length / 2; at++) {
        char digits[3] = {text[2 * at], text[2 * at + 1], 0};
        text[at] = (char)strtoul(digits, NULL, 16);
    }
    return length / 2;
}

static struct event event_of(struct span line)
{
    static const char *const words[] = {"up ", "lost ", "in ", "tick ", "data ", "cancel "};
    struct event event = {UP, 0, NULL, 0};
    size_t word = 0;
    while (!begins(line, words[word]))
        word++;
    event.word = (enum word)word;
    char *rest = (char *)line.at + strlen(words[word]);
    char *end = (char *)line.at + line.length;
    if (event.word == DATA || event.word == CANCEL) {
        event.octets = (const uint8_t *)rest;
        event.length = (size_t)(end - rest);
        return event;
    }
    event.number = (uint32_t)strtoul(rest, &rest, 10);
    if (event.word == IN) {
        event.octets = (const uint8_t *)rest + 1;
        event.length = unhex(rest + 1, (size_t)(end - rest - 1));
    }
    return event;
}

static uint32_t happen(soizkadur_mme *mme, const struct event *event)
{
    switch (event->word) {
    case UP:
        return soizkadur_up(mme, (uint8_t)event->number);
    case LOST:
        return soizkadur_lost(mme, (uint8_t)event->number);
    case IN:
        return soizkadur_in(mme, (uint8_t)event->number, event->octets, event->length);
    case TICK:
        return soizkadur_tick(mme, event->number);
    case DATA:
        return soizkadur_data(mme, event->octets, event->length);
    default:
        return soizkadur_cancel(mme, event->octets, event->length);
    }
}

static void take_messages(soizkadur_mme *mme, struct counts *counts)
{
    static uint8_t octets[MOST_OCTETS];
    soizkadur_output output;
    size_t count, replies = soizkadur_replies(mme);
    for (size_t reply = 0; reply < replies; reply++) {
        must(soizkadur_count(mme, reply, &count) == SOIZKADUR_OK, "a reply is there");
        for (size_t place = 0; place < count; place++) {
            must(soizkadur_out(mme, reply, place, &output, octets, sizeof octets) == SOIZKADUR_OK, "a message is there");
            counts->messages++;
            counts->octets += output.length;
        }
    }
}

static double round_of(const char *head, size_t length, struct counts *counts)
{
    soizkadur_mme mme = SOIZKADUR_EMPTY;
    soizkadur_fault fault;
    *counts = (struct counts){0, 0};
    must(soizkadur_new(&mme, (const uint8_t *)head, length, &fault) == SOIZKADUR_OK, "the MME is made");
    double begun = now();
    for (size_t at = 0; at < event_count; at++)
        if (happen(&mme, &events[at]) == SOIZKADUR_OK)
            take_messages(&mme, counts);
    double took = now() - begun;
    soizkadur_free(&mme);
    return took;
}

int main(int count, char **given)
{
    must(count == 2 || count == 3, "library_speed TRACE [ROUNDS]");
    struct text trace = read_all(given[1]);
    struct span line;
    size_t at = 0, head = 0, room = 0;
    double best = 0;
    struct counts counts = {0, 0};
    while (next_line(&trace, &at, &line)) {
        if (!is_event(line)) {
            head = event_count == 0 ? at : head;
            continue;
        }
        if (event_count == room) {
            room = 2 * room + 1000;
            events = (struct event *)realloc(events, room * sizeof events[0]);
            must(events != NULL, "there is memory");
        }
        events[event_count++] = event_of(line);
    }
    for (long rounds = count == 3 ? strtol(given[2], NULL, 10) : 10; rounds > 0; rounds--) {
        double took = round_of(trace.at, head, &counts);
        best = best == 0 || took < best ? took : best;
    }
    printf("%lu events, %lu messages, %lu octets in %.0f ns\n", (unsigned long)event_count, counts.messages, counts.octets, best);
    free(events);
    forget(&trace);
    return 0;
}
