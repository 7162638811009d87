/* Plays a trace by the library, and prints what `mme play` prints.
 *
 *     play [--lines] TRACE   each line by soizkadur_line, the first one at a handle that is empty
 *     play --text TRACE      1 to 40 lines at once by soizkadur_play, in a buffer that is often too small
 *     play --new TRACE       what stands before the first event by soizkadur_new, the events and questions by their own calls
 *     play --calls TRACE     provisioning by its own calls too
 *     play --late TRACE      the MME starts below the line `mme`, and all others are provisioned while it runs
 *     play --live TRACE      as --calls, and lines `sub` and `vec` may stand among the events: they are provisioned while it runs,
 *                            and for each a line `told N` has the number that its call answers
 *     play --restarted N TRACE   as --lines; after each Nth event the MME is saved and ends, and one that is restored goes on
 *
 * TRACE may be "-". Ends with status 1 and `mme: line N: fault M` where a line is wrong, as `mme play` does, and with status 4 for
 * lack of memory. All ways but --lines and --text are for traces whose lines are right.
 */
#include "snapshots.h"
#include "texts.h"

enum way { LINES, TEXT, NEW, CALLS, LATE, LIVE, WAYS };

/* What the program says and ends with at a line that is refused so. */
static int ended(unsigned line, uint32_t refusal)
{
    if (refusal >= SOIZKADUR_UNKNOWN_WORD && refusal <= SOIZKADUR_PROVISION) {
        fprintf(stderr, "mme: line %u: fault %u\n", line, (unsigned)refusal - 10);
        return 1;
    }
    if (refusal == SOIZKADUR_NO_MEMORY || refusal == SOIZKADUR_LOST) {
        fprintf(stderr, "mme: out of memory\n");
        return 4;
    }
    return 0;
}

/* With `every` the MME is restarted after as many events as that. */
static int by_lines(soizkadur_mme *mme, const struct text *trace, struct text *answers, unsigned every)
{
    struct span line;
    size_t at = 0;
    unsigned events = 0;
    for (unsigned count = 1; next_line(trace, &at, &line); count++) {
        uint32_t refusal = played(mme, line);
        put_answers(answers, mme, line, refusal);
        if (every != 0 && refusal <= SOIZKADUR_UNKNOWN_IMSI && is_event(line) && ++events % every == 0)
            restart(mme);
        int status = ended(count, refusal);
        if (status != 0)
            return status;
        must(refusal <= SOIZKADUR_UNKNOWN_IMSI, "a line's refusal is one of its own");
    }
    return 0;
}

static int by_texts(soizkadur_mme *mme, struct text *trace, struct text *answers)
{
    unsigned count = 1;
    end_last_line(trace);
    for (size_t at = 0; at < trace->length;) {
        size_t room = some_room();
        struct span turn = turn_at(trace, at, 1 + (unsigned)rand() % MOST_TURN);
        soizkadur_played played;
        uint32_t refusal = play_in_room(mme, turn, &played, answers, room);
        at += octets_of(turn, played.lines);
        count += (unsigned)played.lines;
        int status = ended(count, refusal);
        if (status != 0)
            return status;
        if (refusal == SOIZKADUR_NO_ROOM && play_rest(mme, trace, &at, &played, answers))
            count++;
        must(refusal == SOIZKADUR_NO_ROOM || refusal == SOIZKADUR_OK, "a text's refusal is one of its own");
    }
    return 0;
}

static void start(soizkadur_mme *mme)
{
    must(soizkadur_start(mme) == SOIZKADUR_OK && soizkadur_start(mme) == SOIZKADUR_OK, "an MME starts, and one that runs goes on");
}

/* What stands before the first event or question, and that the MME then runs; answers where that ends. */
static size_t provision_all(soizkadur_mme *mme, const struct text *trace, enum way way)
{
    struct span line;
    size_t at = 0, head = 0;
    int runs = 0;
    while (next_line(trace, &at, &line) && !is_event(line) && !begins(line, "show ")) {
        int is_late = way == LATE && is_further(line);
        if (is_late && !runs)
            start(mme);
        runs = is_late || runs;
        must(way == NEW || (is_late ? provisioned_live : provisioned)(mme, line) == SOIZKADUR_OK, "the line is taken by its call");
        head = at;
    }
    soizkadur_fault fault = {77, 77};
    must(way != NEW || soizkadur_new(mme, (const uint8_t *)trace->at, head, &fault) == SOIZKADUR_OK, "the head is taken");
    must(fault.line == 77 && fault.refusal == 77, "a call that is taken writes no fault");
    start(mme);
    must(soizkadur_replies(mme) == 0, "there is no reply before the first event");
    return head;
}

static void by_calls(soizkadur_mme *mme, const struct text *trace, struct text *answers, enum way way)
{
    struct span line;
    for (size_t at = provision_all(mme, trace, way); next_line(trace, &at, &line);) {
        if (way == LIVE && is_further(line))
            print(answers, "told %u\n", (unsigned)provisioned_live(mme, line));
        else
            put_answers(answers, mme, line, is_event(line) ? called(mme, line) : SOIZKADUR_OK);
    }
}

int main(int count, char **given)
{
    static const char *const words[] = {"--lines", "--text", "--new", "--calls", "--late", "--live"};
    must(count >= 2 && count <= 4, "play [--lines | --text | --new | --calls | --late | --live | --restarted N] TRACE");
    enum way way = LINES;
    unsigned every = 0;
    if (count == 4) {
        must(strcmp(given[1], "--restarted") == 0, "a way to play");
        every = (unsigned)strtoul(given[2], NULL, 10);
        must(every > 0, "after how many events");
    }
    while (count == 3 && way < WAYS && strcmp(given[1], words[way]) != 0)
        way++;
    must(way < WAYS, "a way to play");
    struct text trace = read_all(given[count - 1]), answers = {NULL, 0, 0};
    soizkadur_mme mme = SOIZKADUR_EMPTY;
    int status = 0;
    if (way == LINES)
        status = by_lines(&mme, &trace, &answers, every);
    else if (way == TEXT)
        status = by_texts(&mme, &trace, &answers);
    else
        by_calls(&mme, &trace, &answers, way);
    fwrite(answers.at, 1, answers.length, stdout);
    soizkadur_free(&mme);
    soizkadur_free(&mme);
    forget(&trace);
    forget(&answers);
    return status;
}
