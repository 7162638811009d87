/* Each allocation of each call is refused in turn: the call answers NO_MEMORY, and the handle holds what it held; or LOST, and
 * nothing is provisioned any more. Made again it answers as with ample memory.
 *
 *     failing TRACE ANSWERS ..    with malloc and realloc wrapped by the linker
 *
 * Each trace is played line by line (soizkadur_line), some lines at a time (soizkadur_play), by the calls that its lines stand for,
 * and by these with what its lines `sub` and `vec` provision coming while the MME runs; its head is taken by soizkadur_new, and each
 * message that is sent in it is read by soizkadur_s1ap; and in its midst the MME is saved and restored. ANSWERS are those that the
 * trace must have. Where all allocations are refused, a call that provisions while the MME runs and has another cause to be refused
 * is refused for that one. Prints for each trace how many allocations were refused.
 */
#include "texts.h"

#define MOST_IMSIS 4
#define MOST_SAVED (1 << 20) /* octets of a snapshot */

/* While a call is made, allocations are counted, and the one with this number is refused; none is, where it is 0. Or all are. */
static unsigned long asked, refused;
static int is_called, all_are_refused;

void *__real_malloc(size_t size);
void *__real_realloc(void *old, size_t size);
void *__wrap_malloc(size_t size);
void *__wrap_realloc(void *old, size_t size);

static int is_refused(void)
{
    return is_called && (++asked == refused || all_are_refused);
}

void *__wrap_malloc(size_t size)
{
    return is_refused() ? NULL : __real_malloc(size);
}

void *__wrap_realloc(void *old, size_t size)
{
    return is_refused() ? NULL : __real_realloc(old, size);
}

/* The answer of a call whose allocations count. */
#define CALLED(answer, call) (is_called = 1, (answer) = (call), is_called = 0)

struct counts {
    unsigned long no_memory, lost, ticks;
};

/* What a handle held before a call and after it. */
static struct text before, now;

/* The IMSIs that a trace has lines for. */
static struct span imsis[MOST_IMSIS];
static size_t imsi_count;

static void find_imsis(const struct text *trace)
{
    struct span line;
    imsi_count = 0;
    for (size_t at = 0; next_line(trace, &at, &line);)
        if (begins(line, "sub ") && imsi_count < MOST_IMSIS)
            imsis[imsi_count++] = imsi_of(line);
}

/* All that can be asked of a handle. */
static void look(struct text *seen, soizkadur_mme *mme)
{
    seen->length = 0;
    print(seen, "%u replies\n", (unsigned)soizkadur_replies(mme));
    put_replies(seen, mme);
    for (size_t at = 0; at < imsi_count; at++)
        put_states(seen, mme, imsis[at]);
}

static void must_be(const struct text *got, const struct text *wanted, const char *what)
{
    if (!is_same(got, wanted))
        fprintf(stderr, "with allocation %lu refused there is\n%s and there should be\n%s", refused, got->at, wanted->at);
    must(is_same(got, wanted), what);
}

static void must_be_as_before(soizkadur_mme *mme, const char *what)
{
    look(&now, mme);
    must_be(&now, &before, what);
}

/* The answers to an event; ticks that were refused are made again, and their answers come then. */
static void put_taken(struct text *answers, soizkadur_mme *mme, struct counts *counts)
{
    uint32_t missed = 0;
    size_t count;
    for (size_t reply = 0; reply < soizkadur_replies(mme); reply++) {
        if (soizkadur_count(mme, reply, &count) == SOIZKADUR_NO_MEMORY)
            missed++;
        else
            put_reply(answers, mme, reply);
    }
    counts->ticks += missed;
    if (missed > 0) {
        must(soizkadur_tick(mme, missed) == SOIZKADUR_OK, "ticks are made again");
        put_taken(answers, mme, counts);
    }
}

/* What is to be done after a call that may have been refused for lack of memory: it is made again, or all of it. */
enum next { GO_ON, AGAIN, ANEW };

static enum next after(uint32_t answer, soizkadur_mme *mme, struct counts *counts)
{
    if (answer == SOIZKADUR_NO_MEMORY) {
        counts->no_memory++;
        must_be_as_before(mme, "a call that was refused for lack of memory changed nothing");
        return AGAIN;
    }
    if (answer == SOIZKADUR_LOST) {
        counts->lost++;
        uint32_t start = soizkadur_start(mme);
        must(start == SOIZKADUR_NO_MME || start == SOIZKADUR_ORDER, "nothing is provisioned any more");
        must(soizkadur_replies(mme) == 0, "there are no replies");
        return ANEW;
    }
    return GO_ON;
}

/* Plays a trace line by line with one allocation refused; a line that is refused for it is given again. */
static void play(const struct text *trace, struct text *answers, struct counts *counts)
{
    soizkadur_mme mme = SOIZKADUR_EMPTY;
    struct span line;
    asked = 0;
    answers->length = 0;
    for (size_t at = 0; next_line(trace, &at, &line);) {
        uint32_t answer;
        look(&before, &mme);
        CALLED(answer, played(&mme, line));
        switch (after(answer, &mme, counts)) {
        case ANEW:
            at = answers->length = 0;
            continue;
        case AGAIN:
            answer = played(&mme, line);
            break;
        default:
            break;
        }
        must(answer != SOIZKADUR_NO_MEMORY && answer != SOIZKADUR_LOST, "no other allocation is refused");
        if (answer == SOIZKADUR_OK && is_event(line))
            put_taken(answers, &mme, counts);
        else
            put_answers(answers, &mme, line, answer);
    }
    soizkadur_free(&mme);
    refused = refused == 0 ? asked : refused;
}

/* Plays a trace some lines at a time with one allocation refused; what isn't done then is given again. */
static void play_texts(const struct text *trace, struct text *answers, struct counts *counts)
{
    soizkadur_mme mme = SOIZKADUR_EMPTY;
    asked = answers->length = 0;
    srand(1);
    for (size_t at = 0; at < trace->length;) {
        struct span turn = turn_at(trace, at, 1 + (unsigned)rand() % 3);
        soizkadur_played played = {0, 0, 0, 0};
        uint32_t answer;
        CALLED(answer, soizkadur_play(&mme, octets(turn), turn.length, &played, buffer_of_answers, sizeof buffer_of_answers));
        put(answers, (const char *)buffer_of_answers, played.length);
        wipe(buffer_of_answers, played.length);
        at += octets_of(turn, played.lines);
        if (answer == SOIZKADUR_LOST) {
            counts->lost++;
            must(soizkadur_start(&mme) == SOIZKADUR_ORDER, "nothing is provisioned any more");
            at = answers->length = 0;
        } else if (answer != SOIZKADUR_OK) {
            must(answer == SOIZKADUR_NO_MEMORY, "no line is wrong, and there is room");
            counts->no_memory++;
            play_rest(&mme, trace, &at, &played, answers);
        }
    }
    soizkadur_free(&mme);
    refused = refused == 0 ? asked : refused;
}

/* The place of the first event or question of a trace, and how many lines stand before it. */
static size_t head_of(const struct text *trace, size_t *lines)
{
    struct span line;
    size_t at = 0, head = 0;
    for (*lines = 0; next_line(trace, &at, &line) && !is_event(line) && !begins(line, "show "); ++*lines)
        head = at;
    return head;
}

/* The call that a line stands for: of provisioning, or of an event. */
static uint32_t done(soizkadur_mme *mme, struct span line)
{
    return is_event(line) ? called(mme, line) : provisioned(mme, line);
}

/* The same, of a line below `mme` while the MME runs. */
static uint32_t done_live(soizkadur_mme *mme, struct span line)
{
    return is_further(line) ? provisioned_live(mme, line) : done(mme, line);
}

/* A call with one allocation refused, made again where it is refused for it. */
static enum next once_more(uint32_t (*make_call)(soizkadur_mme *, struct span), soizkadur_mme *mme, struct span line,
                           struct counts *counts)
{
    uint32_t answer;
    look(&before, mme);
    CALLED(answer, make_call(mme, line));
    enum next next = after(answer, mme, counts);
    if (next == AGAIN)
        answer = make_call(mme, line);
    must(next == ANEW || answer == SOIZKADUR_OK, "a call is taken, at the second try where it has to be");
    return next;
}

static uint32_t start(soizkadur_mme *mme, struct span line)
{
    (void)line;
    return soizkadur_start(mme);
}

/* Plays a trace whose lines are right by calls, with the MME started below the line that ends at a place. */
static void play_calls(const struct text *trace, struct text *answers, struct counts *counts,
                       uint32_t (*make_call)(soizkadur_mme *, struct span), size_t head)
{
    soizkadur_mme mme = SOIZKADUR_EMPTY;
    struct span line;
    asked = answers->length = 0;
    for (size_t at = 0; next_line(trace, &at, &line);) {
        once_more(make_call, &mme, line, counts);
        if (is_event(line))
            put_taken(answers, &mme, counts);
        else
            put_answers(answers, &mme, line, SOIZKADUR_OK);
        if (at == head && once_more(start, &mme, line, counts) == ANEW)
            at = 0;
    }
    soizkadur_free(&mme);
    refused = refused == 0 ? asked : refused;
}

/* Plays a trace by the calls that its lines stand for. */
static void call(const struct text *trace, struct text *answers, struct counts *counts)
{
    size_t lines;
    play_calls(trace, answers, counts, done, head_of(trace, &lines));
}

/* The same, with all below `mme` provisioned while the MME runs. */
static void call_live(const struct text *trace, struct text *answers, struct counts *counts)
{
    struct span line;
    size_t at = 0, head = 0;
    while (next_line(trace, &at, &line) && !is_further(line))
        head = at;
    play_calls(trace, answers, counts, done_live, head);
}

/* How many allocations there are in a run without a refusal, and then one run for each. */
static unsigned long each(void (*run)(const struct text *, struct text *, struct counts *), const struct text *trace,
                          const struct text *wanted, struct counts *counts)
{
    struct text answers = {NULL, 0, 0};
    refused = 0;
    run(trace, &answers, counts);
    must_be(&answers, wanted, "the answers with ample memory");
    must(counts->no_memory == 0 && counts->lost == 0, "nothing is refused with ample memory");
    unsigned long count = refused;
    for (unsigned long at = 1; at <= count; at++) {
        refused = at;
        unsigned long told = counts->no_memory + counts->lost + counts->ticks;
        run(trace, &answers, counts);
        must_be(&answers, wanted, "the answers with a call that was made again");
        must(counts->no_memory + counts->lost + counts->ticks <= told + 1, "an allocation that is refused is told once at most");
    }
    forget(&answers);
    return count;
}

/* The head of a trace by soizkadur_new, whose handle stays empty where it is refused. */
static void make(const struct text *trace, struct text *answers, struct counts *counts)
{
    soizkadur_mme mme = SOIZKADUR_EMPTY;
    soizkadur_fault fault = {77, 77};
    size_t lines, head = head_of(trace, &lines);
    uint32_t answer;
    asked = 0;
    CALLED(answer, soizkadur_new(&mme, (const uint8_t *)trace->at, head, &fault));
    if (answer != SOIZKADUR_OK) {
        counts->no_memory += answer == SOIZKADUR_NO_MEMORY;
        counts->lost += answer == SOIZKADUR_LOST;
        /* (as it was, where there was no memory for what the handle keeps) */
        if (fault.line != 77 || fault.refusal != 77)
            must(fault.refusal == answer && fault.line >= 1 && fault.line <= lines + 1, "the fault has a line of the head");
        must(soizkadur_start(&mme) == SOIZKADUR_NO_MME, "the handle is empty");
        fault = (soizkadur_fault){77, 77};
        must(soizkadur_new(&mme, (const uint8_t *)trace->at, head, &fault) == SOIZKADUR_OK, "it is made again");
    }
    must(fault.line == 77 && fault.refusal == 77, "a call that is taken writes no fault");
    look(answers, &mme);
    soizkadur_free(&mme);
    refused = refused == 0 ? asked : refused;
}

/* Each message that a trace has is read. */
static void read_messages(const struct text *trace, struct text *answers, struct counts *counts)
{
    struct span line;
    answers->length = asked = 0;
    for (size_t at = 0; next_line(trace, &at, &line);) {
        if (!begins(line, "in "))
            continue;
        size_t length;
        const uint8_t *sent = unhex(words_of(line).word[2], 0, &length);
        soizkadur_s1ap_message message = {77, 77, 77, 77, 77};
        uint32_t answer;
        CALLED(answer, soizkadur_s1ap(sent, length, &message));
        if (answer == SOIZKADUR_NO_MEMORY) {
            counts->no_memory++;
            must(message.kind == 77 && message.enb_ue_id == 77, "a call that was refused writes nothing");
            answer = soizkadur_s1ap(sent, length, &message);
        }
        print(answers, "%u %u ", (unsigned)answer, (unsigned)message.kind);
        print(answers, "%u %u\n", (unsigned)message.mme_ue_id, (unsigned)message.enb_ue_id);
    }
    refused = refused == 0 ? asked : refused;
}

/* Saves a part of an MME, again where that is refused for lack of memory; how many octets it has. */
static size_t saved(soizkadur_mme *mme, uint64_t *place, uint8_t *room, size_t most, struct counts *counts)
{
    uint64_t there = *place;
    size_t length = 77;
    uint32_t answer;
    look(&before, mme);
    CALLED(answer, soizkadur_save(mme, place, room, most, &length));
    must(answer == SOIZKADUR_OK || (*place == there && length == 77), "a call that was refused writes nothing");
    if (after(answer, mme, counts) == AGAIN)
        answer = soizkadur_save(mme, place, room, most, &length);
    must(answer == SOIZKADUR_OK, "a part is saved");
    return length;
}

/* An MME that is restored from the snapshot of another takes its place. */
static void restart(soizkadur_mme *mme, struct counts *counts)
{
    static uint8_t octets[MOST_SAVED];
    soizkadur_mme second = SOIZKADUR_EMPTY;
    size_t length = 0;
    uint32_t answer;
    for (uint64_t place = 0; place != SOIZKADUR_SAVED;)
        length += saved(mme, &place, octets + length, sizeof octets - length, counts);
    uint64_t place = 77;
    CALLED(answer, soizkadur_restore(&second, octets, length, UINT64_MAX, &place));
    if (answer == SOIZKADUR_NO_MEMORY) {
        counts->no_memory++;
        must(soizkadur_start(&second) == SOIZKADUR_NO_MME && place == 77, "the handle is empty, and no place is written");
        answer = soizkadur_restore(&second, octets, length, UINT64_MAX, &place);
    }
    must(answer == SOIZKADUR_OK && place == 77, "a snapshot is restored");
    soizkadur_free(mme);
    memcpy(mme, &second, sizeof second);
}

/* Plays a trace whose lines are right line by line, with a restart once half of its events are played. */
static void save_and_restore(const struct text *trace, struct text *answers, struct counts *counts)
{
    soizkadur_mme mme = SOIZKADUR_EMPTY;
    struct span line;
    unsigned events = 0, half = 0;
    asked = answers->length = 0;
    for (size_t at = 0; next_line(trace, &at, &line);)
        half += (unsigned)is_event(line);
    half = (half + 1) / 2;
    for (size_t at = 0; next_line(trace, &at, &line);) {
        put_answers(answers, &mme, line, played(&mme, line));
        if (is_event(line) && ++events == half)
            restart(&mme, counts);
    }
    soizkadur_free(&mme);
    refused = refused == 0 ? asked : refused;
}

/* What a run says with ample memory, which isn't known otherwise. */
static struct text said(void (*run)(const struct text *, struct text *, struct counts *), const struct text *trace)
{
    struct text answers = {NULL, 0, 0};
    struct counts none = {0, 0, 0};
    refused = 0;
    run(trace, &answers, &none);
    return answers;
}

/* A call that is refused so, whatever memory there is, and changes nothing. */
#define REFUSED(wanted, call) \
    (look(&before, mme), CALLED(answer, call), must(answer == SOIZKADUR_##wanted, #call), must_be_as_before(mme, #call))

static uint32_t gives(soizkadur_mme *mme, struct span imsi, size_t rand)
{
    static const uint8_t zeros[32];
    return soizkadur_give_live(mme, octets(imsi), imsi.length, zeros, rand, zeros, 16, zeros, 8, zeros, 32);
}

/* What is provisioned while the MME of a trace runs is refused for other causes before it is for lack of memory. */
static void other_causes_first(const struct text *trace)
{
    static const struct span nobody = {"001010000000777", 15}, no_imsi = {"0010100000007", 13};
    soizkadur_mme empty = SOIZKADUR_EMPTY, *mme = &empty;
    struct span line;
    for (size_t at = 0; next_line(trace, &at, &line) && !is_event(line);) {
        must(done_live(mme, line) == SOIZKADUR_OK, "the line is taken");
        must(!begins(line, "mme ") || soizkadur_start(mme) == SOIZKADUR_OK, "the MME starts");
    }
    uint32_t answer = SOIZKADUR_OK;
    while (answer == SOIZKADUR_OK)
        answer = gives(mme, imsis[0], 16);
    must(answer == SOIZKADUR_PROVISION, "a subscriber has no more vectors than it may have");
    all_are_refused = 1;
    REFUSED(BAD_NUMBER, soizkadur_add_live(mme, octets(no_imsi), no_imsi.length, 1, 2, 3));
    REFUSED(PROVISION, soizkadur_add_live(mme, octets(imsis[0]), imsis[0].length, 1, 2, 3));
    REFUSED(PROVISION, soizkadur_add_live(mme, octets(nobody), nobody.length, 0x0a000001, 2, 3));
    REFUSED(BAD_NUMBER, gives(mme, no_imsi, 15));
    REFUSED(BAD_OCTETS, gives(mme, nobody, 15));
    REFUSED(UNKNOWN_IMSI, gives(mme, nobody, 16));
    REFUSED(PROVISION, gives(mme, imsis[0], 16));
    all_are_refused = 0;
    soizkadur_free(mme);
}

/* Adds what was refused, of which there has to be something. */
static void count_in(struct counts *all, const struct counts *of_run, const char *what)
{
    must(of_run->no_memory > 0 || of_run->lost > 0, what);
    all->no_memory += of_run->no_memory;
    all->lost += of_run->lost;
    all->ticks += of_run->ticks;
}

/* The ways to play a trace, each of which gives its answers; how many allocations were refused. */
static unsigned long played_each_way(const struct text *trace, const struct text *wanted, struct counts *counts)
{
    void (*const ways[])(const struct text *, struct text *, struct counts *) = {play, play_texts, call, call_live};
    unsigned long total = 0;
    for (size_t place = 0; place < sizeof ways / sizeof ways[0]; place++) {
        struct counts of_way = {0, 0, 0};
        total += each(ways[place], trace, wanted, &of_way);
        must(of_way.no_memory > 0 && of_way.lost > 0, "a call was refused, and a start");
        count_in(counts, &of_way, "something was refused");
    }
    return total;
}

/* The runs whose answers are those with ample memory; how many allocations were refused. */
static unsigned long run_each(const struct text *trace, struct counts *counts)
{
    void (*const runs[])(const struct text *, struct text *, struct counts *) = {make, read_messages};
    unsigned long total = 0;
    for (size_t place = 0; place < sizeof runs / sizeof runs[0]; place++) {
        struct counts of_run = {0, 0, 0};
        struct text ample = said(runs[place], trace);
        total += each(runs[place], trace, &ample, &of_run);
        count_in(counts, &of_run, "something was refused");
        forget(&ample);
    }
    return total;
}

/* The run with a restart, which gives the trace's answers; how many allocations were refused. */
static unsigned long restarted(const struct text *trace, const struct text *wanted, struct counts *counts)
{
    struct counts of_run = {0, 0, 0};
    unsigned long total = each(save_and_restore, trace, wanted, &of_run);
    count_in(counts, &of_run, "something was refused");
    return total;
}

int main(int count, char **given)
{
    must(count > 2 && count % 2 == 1, "failing TRACE ANSWERS ..");
    for (int at = 1; at < count; at += 2) {
        struct text trace = read_all(given[at]), wanted = read_all(given[at + 1]);
        struct counts counts = {0, 0, 0};
        find_imsis(&trace);
        unsigned long total = played_each_way(&trace, &wanted, &counts);
        total += run_each(&trace, &counts);
        total += restarted(&trace, &wanted, &counts);
        other_causes_first(&trace);
        printf("%lu allocations refused: NO_MEMORY %lu, LOST %lu, ticks %lu\n", total, counts.no_memory, counts.lost, counts.ticks);
        forget(&trace);
        forget(&wanted);
    }
    forget(&before);
    forget(&now);
    return 0;
}
