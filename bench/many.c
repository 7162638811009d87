/* Measures the memory of many MMEs in one process: cc -O2 -I ../tests/library -I FOLDER many.c FOLDER/libsoizkadur.a -o many
 *
 *     many TRACE COUNT
 *
 * Makes COUNT MMEs, each of what stands before the first event of TRACE, plays its events on each of them by soizkadur_line, and
 * frees all. Prints `COUNT MMEs: N KiB made, N KiB after their events, N messages`: what the whole process has resident (VmRSS).
 */
#include "answers.h"

static unsigned long resident(void)
{
    char line[256];
    unsigned long found = 0;
    FILE *file = fopen("/proc/self/status", "r");
    must(file != NULL, "/proc is there");
    while (found == 0 && fgets(line, sizeof line, file) != NULL)
        if (sscanf(line, "VmRSS: %lu kB", &found) != 1)
            found = 0;
    fclose(file);
    must(found > 0, "what is resident is told");
    return found;
}

/* The place of the first event or question. */
static size_t head_of(const struct text *trace)
{
    struct span line;
    size_t at = 0, head = 0;
    while (next_line(trace, &at, &line) && !is_event(line) && !begins(line, "show "))
        head = at;
    return head;
}

/* Plays what stands from a place on; how many messages are sent. */
static unsigned long play_from(soizkadur_mme *mme, const struct text *trace, size_t at)
{
    struct span line;
    unsigned long messages = 0;
    while (next_line(trace, &at, &line)) {
        must(played(mme, line) == SOIZKADUR_OK, "each line is taken");
        for (size_t reply = 0, count = 0; is_event(line) && reply < soizkadur_replies(mme); reply++, messages += count)
            must(soizkadur_count(mme, reply, &count) == SOIZKADUR_OK, "a reply is there");
    }
    return messages;
}

int main(int given, char **words)
{
    must(given == 3, "many TRACE COUNT");
    struct text trace = read_all(words[1]);
    size_t head = head_of(&trace), count = strtoul(words[2], NULL, 10);
    soizkadur_mme *mmes = (soizkadur_mme *)calloc(count, sizeof mmes[0]); /* each is SOIZKADUR_EMPTY */
    soizkadur_fault fault;
    unsigned long messages = 0;
    must(mmes != NULL, "there is memory for the handles");
    for (size_t at = 0; at < count; at++)
        must(soizkadur_new(&mmes[at], (const uint8_t *)trace.at, head, &fault) == SOIZKADUR_OK, "an MME is made");
    unsigned long made = resident();
    for (size_t at = 0; at < count; at++)
        messages += play_from(&mmes[at], &trace, head);
    printf("%lu MMEs: %lu KiB made, %lu KiB after their events, %lu messages\n", (unsigned long)count, made, resident(), messages);
    for (size_t at = 0; at < count; at++)
        soizkadur_free(&mmes[at]);
    free(mmes);
    forget(&trace);
    return 0;
}
