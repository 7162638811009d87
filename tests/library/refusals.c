/* Each call is refused in each way that doesn't take failing memory (tests/library/failing.c), 2^62 ticks or as many vectors: the
 * number is that of soizkadur.h, and what the handle holds and all that the call would write is as it was. Of several causes the
 * first counts.
 *
 *     refusals TRACE ANSWERS SWITCHED    of a phone that attaches as the only one, which it does too while these calls are refused;
 *                                        and of one that has switched paths, and is connected at the end
 */
#include "calls.h"
#include "snapshots.h"

#define MOST_LINE 40000 /* octets of a line */

static const char IMSI[] = "001010000000001", OTHER[] = "001010000000002", NOBODY[] = "001010000000009";
static const char HEAD[] = "mme 001 01 8001 01 internet 1000000000 1000000000\n"
                           "sub 001010000000001 0a000001 0a000064 00000001\n"
                           "vec 001010000000001 000102030405060708090a0b0c0d0e0f 101112131415161718191a1b1c1d1e1f 20212223"
                           " 303132333435363738393a3b3c3d3e3f404142434445464748494a4b4c4d4e4f";
static const char SETUP[] = "in 0 0011001f000003003b00080000f11000000010004000070000004000f1100089400140";
static const uint8_t PLMN[3] = {0x00, 0xf1, 0x10}, OCTETS[70] = {0};
static char longest[MOST_LINE + 2];
static unsigned tried;

#define TEXT(text) (const uint8_t *)(text), strlen(text)
#define NOTHING NULL, 0

/* All that can be asked of a handle: the replies with their messages, the states of three IMSIs, and their slots. */
static void look(struct text *seen, soizkadur_mme *mme)
{
    const char *const imsis[] = {IMSI, OTHER, NOBODY};
    seen->length = 0;
    print(seen, "%u replies\n", (unsigned)soizkadur_replies(mme));
    put_replies(seen, mme);
    for (size_t at = 0; at < 3; at++) {
        struct span imsi = {imsis[at], strlen(imsis[at])};
        uint32_t slot = 77;
        put_states(seen, mme, imsi);
        print(seen, "%u ", (unsigned)soizkadur_slot_of_imsi(mme, (const uint8_t *)imsi.at, imsi.length, &slot));
        print(seen, "%u\n", (unsigned)slot);
    }
}

static struct text before, after;

static void refused_so(soizkadur_mme *mme, uint32_t got, uint32_t wanted, const char *call, int place)
{
    tried++;
    if (mme != NULL)
        look(&after, mme);
    if (got == wanted && (mme == NULL || is_same(&before, &after)))
        return;
    fprintf(stderr, "refusals.c:%d: %s\n", place, call);
    if (got != wanted)
        fprintf(stderr, "  is refused by %u, and not %u\n", (unsigned)got, (unsigned)wanted);
    else
        fprintf(stderr, "  changed what the handle holds, from\n%s  to\n%s", before.at, after.at);
    exit(1);
}

/* A call with a handle `mme` in reach: its refusal, and that the handle is as it was. */
#define REFUSED(wanted, call) (look(&before, mme), refused_so(mme, call, SOIZKADUR_##wanted, #call, __LINE__))
/* A call without a handle. */
#define ANSWERED(wanted, call) refused_so(NULL, call, SOIZKADUR_##wanted, #call, __LINE__)
#define TAKEN(call) must((call) == SOIZKADUR_OK, #call)
#define AS_IT_WAS(value) must(value, #value)

static uint32_t line(soizkadur_mme *mme, const char *text)
{
    return soizkadur_line(mme, TEXT(text));
}

/* A head with a line after it, which is the fourth. */
static uint32_t made_of(soizkadur_mme *mme, const char *more, soizkadur_fault *fault)
{
    static char lines[sizeof HEAD + sizeof longest + 2];
    strcpy(lines, HEAD);
    strcat(lines, "\n");
    strcat(lines, more);
    *fault = (soizkadur_fault){77, 77};
    return soizkadur_new(mme, TEXT(lines), fault);
}

static void of_an_empty_handle(void)
{
    soizkadur_mme empty = SOIZKADUR_EMPTY, *mme = &empty;
    soizkadur_subscriber_states states = {7, 7, 7};
    soizkadur_output output = {7, 7, 7, 7};
    uint8_t buffer[4] = {7, 7, 7, 7};
    size_t count = 7;
    uint64_t place = 7;
    uint32_t slot = 7;
    AS_IT_WAS(soizkadur_replies(mme) == 0);
    REFUSED(NO_MME, soizkadur_add(mme, NOTHING, 1, 2, 3));
    REFUSED(NO_MME, soizkadur_give(mme, NOTHING, NOTHING, NOTHING, NOTHING, NOTHING));
    REFUSED(NO_MME, soizkadur_start(mme));
    REFUSED(NO_MME, soizkadur_add_live(mme, NOTHING, 1, 2, 3));
    REFUSED(NO_MME, soizkadur_give_live(mme, NOTHING, NOTHING, NOTHING, NOTHING, NOTHING));
    REFUSED(NO_MME, soizkadur_up(mme, 128));
    REFUSED(NO_MME, soizkadur_lost(mme, 128));
    REFUSED(NO_MME, soizkadur_in(mme, 128, NOTHING));
    REFUSED(NO_MME, soizkadur_tick(mme, 0));
    REFUSED(NO_MME, soizkadur_data(mme, NOTHING));
    REFUSED(NO_MME, soizkadur_cancel(mme, NOTHING));
    REFUSED(NO_MME, soizkadur_count(mme, 0, &count));
    REFUSED(NO_MME, soizkadur_out(mme, 0, 0, &output, buffer, sizeof buffer));
    REFUSED(NO_MME, soizkadur_states(mme, NOTHING, &states));
    REFUSED(NO_MME, soizkadur_slot_of_imsi(mme, NOTHING, &slot));
    REFUSED(NO_MME, soizkadur_save(mme, &place, buffer, sizeof buffer, &count));
    AS_IT_WAS(count == 7 && place == 7 && slot == 7 && buffer[0] == 7 && output.length == 7 && states.emm == 7);
    soizkadur_free(mme);
    REFUSED(NO_MME, soizkadur_up(mme, 0));
}

static void of_lines(void)
{
    soizkadur_mme empty = SOIZKADUR_EMPTY, *mme = &empty;
    REFUSED(UNKNOWN_WORD, line(mme, "station 0"));
    REFUSED(ORDER, line(mme, "sub 001010000000001 0a000001 0a000064 00000001"));
    REFUSED(ORDER, line(mme, "up 0"));
    REFUSED(FIELD_COUNT, line(mme, "mme 001"));
    REFUSED(BAD_NUMBER, line(mme, "mme 001 01 8001 01 internet 0 1000000000"));
    REFUSED(TOO_LONG, line(mme, longest));
    REFUSED(NO_MME, soizkadur_start(mme));
    TAKEN(line(mme, "mme 001 01 8001 01 internet 1000000000 1000000000"));
    REFUSED(ORDER, line(mme, "mme 001 01 8001 01 internet 1000000000 1000000000"));
    TAKEN(line(mme, "sub 001010000000001 0a000001 0a000064 00000001"));
    REFUSED(PROVISION, line(mme, "sub 001010000000001 0a000002 0a000064 00000001"));
    REFUSED(PROVISION, line(mme, "vec 001010000000009 000102030405060708090a0b0c0d0e0f 101112131415161718191a1b1c1d1e1f 20212223"
                                 " 303132333435363738393a3b3c3d3e3f404142434445464748494a4b4c4d4e4f"));
    REFUSED(BAD_OCTETS, line(mme, "vec 001010000000001 0001 101112131415161718191a1b1c1d1e1f 20212223 30"));
    TAKEN(line(mme, "# a comment"));
    TAKEN(soizkadur_line(mme, NOTHING));
    TAKEN(line(mme, "up 0"));
    TAKEN(line(mme, SETUP));
    REFUSED(ALREADY_UP, line(mme, "up 0"));
    REFUSED(NOT_UP, line(mme, "lost 1"));
    REFUSED(NOT_UP, line(mme, "in 1 -"));
    REFUSED(UNKNOWN_IMSI, line(mme, "data 001010000000009"));
    REFUSED(UNKNOWN_IMSI, line(mme, "cancel 001010000000009"));
    REFUSED(PROVISION, line(mme, "show 001010000000009"));
    REFUSED(BAD_NUMBER, line(mme, "up 128"));
    REFUSED(BAD_NUMBER, line(mme, "tick 0"));
    REFUSED(BAD_OCTETS, line(mme, "in 0 0"));
    REFUSED(FIELD_COUNT, line(mme, "in 0"));
    REFUSED(UNKNOWN_WORD, line(mme, " up 1"));
    REFUSED(TOO_LONG, line(mme, longest));
    REFUSED(ORDER, line(mme, "sub 001010000000002 0a000002 0a000064 00000001"));
    soizkadur_free(mme);
}

static void of_a_whole_trace(void)
{
    soizkadur_mme empty = SOIZKADUR_EMPTY, *mme = &empty;
    soizkadur_fault fault = {77, 77};
    const struct {
        const char *line;
        uint32_t refusal;
    } faults[] = {
        {"station 0", SOIZKADUR_UNKNOWN_WORD},
        {"sub 001010000000002", SOIZKADUR_FIELD_COUNT},
        {"sub 0010100000002 0a000002 0a000064 00000001", SOIZKADUR_BAD_NUMBER},
        {"sub 001010000000002 0a00 0a000064 00000001", SOIZKADUR_BAD_OCTETS},
        {longest, SOIZKADUR_TOO_LONG},
        {"up 0", SOIZKADUR_ORDER},
        {"show 001010000000001", SOIZKADUR_ORDER},
        {"sub 001010000000002 0a000001 0a000064 00000001", SOIZKADUR_PROVISION},
    };
    for (size_t at = 0; at < sizeof faults / sizeof faults[0]; at++) {
        look(&before, mme);
        refused_so(mme, made_of(mme, faults[at].line, &fault), faults[at].refusal, faults[at].line, __LINE__);
        AS_IT_WAS(fault.line == 4 && fault.refusal == faults[at].refusal);
    }
    REFUSED(ORDER, soizkadur_new(mme, TEXT("# nothing\n\n"), &fault));
    AS_IT_WAS(fault.line == 3 && fault.refusal == SOIZKADUR_ORDER);
    REFUSED(ORDER, soizkadur_new(mme, NOTHING, &fault));
    AS_IT_WAS(fault.line == 1 && fault.refusal == SOIZKADUR_ORDER);
    TAKEN(made_of(mme, "", &fault));
    AS_IT_WAS(fault.line == 77 && fault.refusal == 77);
    TAKEN(line(mme, "up 0"));
    TAKEN(line(mme, SETUP));
    REFUSED(IN_USE, made_of(mme, "", &fault));
    AS_IT_WAS(fault.line == 77 && fault.refusal == 77);
    soizkadur_free(mme);
}

/* Lines that stop, or don't: how far, and what is answered. */
static void stops(soizkadur_mme *mme, const char *text, size_t room, uint32_t wanted, soizkadur_played owed, const char *answers,
                  int place)
{
    static uint8_t buffer[MOST_LINE];
    soizkadur_played played = {77, 77, 77, 77};
    memset(buffer, 77, sizeof buffer);
    uint32_t got = soizkadur_play(mme, TEXT(text), &played, buffer, room);
    tried++;
    int is_so = got == wanted && played.lines == owed.lines && played.taken == owed.taken && played.unsaid == owed.unsaid
                && played.length == owed.length && memcmp(buffer, answers, owed.length) == 0;
    for (size_t at = owed.length; at < sizeof buffer; at++)
        is_so = is_so && buffer[at] == 77;
    if (is_so)
        return;
    fprintf(stderr, "refusals.c:%d: %.60s\n  is answered by %u after %u lines, and not by %u after %u, and by\n%.*s\n", place, text,
            (unsigned)got, (unsigned)played.lines, (unsigned)wanted, (unsigned)owed.lines, (int)(played.length % 1000), (char *)buffer);
    exit(1);
}

#define STOPS(wanted, text, room, lines, unsaid, answers) \
    stops(mme, text, room, SOIZKADUR_##wanted, (soizkadur_played){lines, 0, unsaid, strlen(answers)}, answers, __LINE__)

static void of_texts(void)
{
    static char lines[MOST_LINE + 40];
    soizkadur_mme empty = SOIZKADUR_EMPTY, *mme = &empty;
    soizkadur_played played = {77, 77, 77, 77};
    size_t count = 0;
    STOPS(UNKNOWN_WORD, "station 0\n", 100, 0, 0, "");
    REFUSED(ORDER, soizkadur_start(mme));
    STOPS(ORDER, "# a comment\n\nup 0\n", 100, 2, 0, "");
    STOPS(OK, "tick 1", 100, 0, 0, "");
    STOPS(FIELD_COUNT, "mme 001 01 8001 01 internet 1000000000 1000000000\nsub 1\ntick 1\n", 0, 1, 0, "");
    STOPS(PROVISION, "sub 001010000000001 0a000001 0a000064 00000001\nshow 001010000000009\n", 100, 1, 0, "");
    STOPS(BAD_NUMBER, "up 128\n", 100, 0, 0, "");
    STOPS(BAD_OCTETS, "\n\nin 0 0\n", 100, 2, 0, "");
    STOPS(OK, "lost 1\nup 0\nup 0\ndata 001010000000009\nshow 001010000000001\ntick 3\nlost", 200, 6, 0,
          "refused 1\nrefused 2\nrefused 5\nstate 001010000000001 DEREGISTERED IDLE INACTIVE\n");
    STOPS(NO_ROOM, "tick 1\nlost 1\n", 9, 1, 0, "");
    STOPS(OK, "lost 1\n", 10, 1, 0, "refused 1\n");
    STOPS(NO_ROOM, "lost 1\nlost 1\n", 19, 1, 0, "refused 1\n");
    strcpy(lines, SETUP);
    strcat(lines, "\nlost 1\n");
    STOPS(NO_ROOM, lines, 40, 0, 1, "");
    must(soizkadur_count(mme, 0, &count) == SOIZKADUR_OK && count == 1, "what isn't answered is the reply");
    strcpy(lines, "lost 1\n");
    strcat(lines, longest);
    strcat(lines, "\n");
    STOPS(TOO_LONG, lines, 100, 1, 0, "refused 1\n");
    TAKEN(soizkadur_play(mme, NOTHING, &played, NOTHING));
    AS_IT_WAS(played.lines == 0 && played.taken == 0 && played.unsaid == 0 && played.length == 0);
    REFUSED(ORDER, line(mme, "sub 001010000000002 0a000002 0a000064 00000001"));
    soizkadur_free(mme);
}

#define OCTETS_OF(count) OCTETS, count

static uint32_t new_of(soizkadur_mme *mme, size_t plmn, const char *apn, uint64_t down, uint64_t up)
{
    return soizkadur_provision_new(mme, PLMN, plmn, 0x8001, 1, TEXT(apn), down, up);
}

static uint32_t gives(soizkadur_mme *mme, const char *imsi, size_t rand, size_t autn, size_t xres, size_t kasme)
{
    return soizkadur_give(mme, TEXT(imsi), OCTETS, rand, OCTETS, autn, OCTETS, xres, OCTETS, kasme);
}

static void of_provisioning(void)
{
    soizkadur_mme empty = SOIZKADUR_EMPTY, *mme = &empty;
    char label[65];
    memset(label, 'a', 64);
    label[64] = 0;
    REFUSED(BAD_OCTETS, new_of(mme, 2, "", 0, 0));
    REFUSED(BAD_NUMBER, new_of(mme, 3, "", 1, 1));
    REFUSED(BAD_NUMBER, new_of(mme, 3, label, 1, 1));
    REFUSED(BAD_NUMBER, new_of(mme, 3, "two.labels", 1, 1));
    REFUSED(BAD_NUMBER, new_of(mme, 3, "internet", 0, 1));
    REFUSED(BAD_NUMBER, new_of(mme, 3, "internet", 1, 0));
    REFUSED(BAD_NUMBER, new_of(mme, 3, "internet", 10000000001u, 1));
    REFUSED(BAD_NUMBER, new_of(mme, 3, "internet", 1, 10000000001u));
    REFUSED(NO_MME, soizkadur_start(mme));
    TAKEN(line(mme, "# a handle that holds something, of which nothing is provisioned"));
    REFUSED(ORDER, soizkadur_add(mme, TEXT(IMSI), 1, 2, 3));
    REFUSED(ORDER, gives(mme, IMSI, 16, 16, 8, 32));
    REFUSED(ORDER, soizkadur_start(mme));
    REFUSED(NO_MME, soizkadur_up(mme, 0));
    REFUSED(BAD_NUMBER, soizkadur_up(mme, 128));
    TAKEN(new_of(mme, 3, label + 1, 1, 10000000000u));
    REFUSED(ORDER, new_of(mme, 3, "internet", 1, 1));
    REFUSED(NO_MME, soizkadur_up(mme, 0)); /* it isn't started */
    REFUSED(BAD_NUMBER, soizkadur_add(mme, TEXT("0010100000001"), 1, 2, 3));
    REFUSED(BAD_NUMBER, soizkadur_add(mme, TEXT("0010100000000001"), 1, 2, 3));
    REFUSED(BAD_NUMBER, soizkadur_add(mme, TEXT("00101000000000a"), 1, 2, 3));
    REFUSED(BAD_NUMBER, soizkadur_add(mme, NOTHING, 1, 2, 3));
    REFUSED(PROVISION, gives(mme, IMSI, 16, 16, 8, 32));
    TAKEN(soizkadur_add(mme, TEXT(IMSI), 0x0a000001, 0x0a000064, 1));
    REFUSED(PROVISION, soizkadur_add(mme, TEXT(IMSI), 0x0a000002, 0x0a000064, 2));
    REFUSED(PROVISION, soizkadur_add(mme, TEXT(OTHER), 0x0a000001, 0x0a000064, 2));
    REFUSED(BAD_NUMBER, gives(mme, "1", 15, 15, 3, 31));
    REFUSED(BAD_OCTETS, gives(mme, IMSI, 15, 16, 8, 32));
    REFUSED(BAD_OCTETS, gives(mme, IMSI, 16, 17, 8, 32));
    REFUSED(BAD_OCTETS, gives(mme, IMSI, 16, 16, 3, 32));
    REFUSED(BAD_OCTETS, gives(mme, IMSI, 16, 16, 17, 32));
    REFUSED(BAD_OCTETS, gives(mme, IMSI, 16, 16, 8, 31));
    REFUSED(PROVISION, gives(mme, NOBODY, 16, 16, 8, 32));
    for (int count = 0; count < 64; count++)
        TAKEN(gives(mme, IMSI, 16, 16, 4 + (size_t)count % 13, 32));
    REFUSED(PROVISION, gives(mme, IMSI, 16, 16, 8, 32));
    TAKEN(soizkadur_start(mme));
    REFUSED(ORDER, new_of(mme, 3, "internet", 1, 1));
    REFUSED(ORDER, soizkadur_add(mme, TEXT(OTHER), 0x0a000002, 0x0a000064, 2));
    REFUSED(ORDER, gives(mme, IMSI, 16, 16, 8, 32));
    soizkadur_free(mme);
}

/* ---- provisioning while the MME runs */

#define SUBSCRIBERS 32768
#define VECTORS 64

static uint32_t adds_live(soizkadur_mme *mme, const char *imsi, uint32_t address)
{
    return soizkadur_add_live(mme, TEXT(imsi), address, 0x0a000064, 2);
}

static uint32_t gives_live(soizkadur_mme *mme, const char *imsi, size_t rand, size_t autn, size_t xres, size_t kasme)
{
    return soizkadur_give_live(mme, TEXT(imsi), OCTETS, rand, OCTETS, autn, OCTETS, xres, OCTETS, kasme);
}

/* The causes that are in the arguments alone: these come first, also where there is no MME. */
static void arguments_refused(soizkadur_mme *mme)
{
    REFUSED(BAD_NUMBER, adds_live(mme, "0010100000001", 1)); /* 13 digits */
    REFUSED(BAD_NUMBER, adds_live(mme, "0010100000000001", 1)); /* and 16 */
    REFUSED(BAD_NUMBER, adds_live(mme, "00101000000000a", 1));
    REFUSED(BAD_NUMBER, adds_live(mme, " 001010000000001", 1));
    REFUSED(BAD_NUMBER, soizkadur_add_live(mme, NOTHING, 1, 2, 3));
    REFUSED(BAD_NUMBER, gives_live(mme, "0010100000001", 15, 15, 3, 31));
    REFUSED(BAD_NUMBER, gives_live(mme, "00101000000000a", 16, 16, 8, 32));
    REFUSED(BAD_OCTETS, gives_live(mme, NOBODY, 15, 16, 8, 32));
    REFUSED(BAD_OCTETS, gives_live(mme, IMSI, 17, 16, 8, 32));
    REFUSED(BAD_OCTETS, gives_live(mme, IMSI, 16, 15, 8, 32));
    REFUSED(BAD_OCTETS, gives_live(mme, IMSI, 16, 17, 8, 32));
    REFUSED(BAD_OCTETS, gives_live(mme, IMSI, 16, 16, 3, 32));
    REFUSED(BAD_OCTETS, gives_live(mme, IMSI, 16, 16, 17, 32));
    REFUSED(BAD_OCTETS, gives_live(mme, IMSI, 16, 16, 8, 31));
    REFUSED(BAD_OCTETS, gives_live(mme, IMSI, 16, 16, 8, 33));
}

static void of_an_mme_that_does_not_run(void)
{
    soizkadur_mme empty = SOIZKADUR_EMPTY, *mme = &empty;
    TAKEN(line(mme, "# a handle that holds something, of which nothing is provisioned"));
    arguments_refused(mme);
    REFUSED(NO_MME, adds_live(mme, IMSI, 1));
    REFUSED(NO_MME, gives_live(mme, IMSI, 16, 16, 8, 32));
    TAKEN(new_of(mme, 3, "internet", 1, 1));
    TAKEN(soizkadur_add(mme, TEXT(IMSI), 1, 2, 3));
    arguments_refused(mme);
    REFUSED(NO_MME, adds_live(mme, OTHER, 2)); /* it isn't started */
    REFUSED(NO_MME, adds_live(mme, IMSI, 1));
    REFUSED(NO_MME, gives_live(mme, IMSI, 16, 16, 8, 32));
    REFUSED(NO_MME, gives_live(mme, NOBODY, 16, 16, 8, 32));
    TAKEN(soizkadur_start(mme));
    arguments_refused(mme);
    REFUSED(PROVISION, adds_live(mme, OTHER, 1)); /* IMSI has the address */
    REFUSED(PROVISION, adds_live(mme, IMSI, 2));
    REFUSED(UNKNOWN_IMSI, gives_live(mme, OTHER, 16, 16, 8, 32));
    TAKEN(adds_live(mme, OTHER, 2));
    TAKEN(gives_live(mme, OTHER, 16, 16, 4, 32));
    REFUSED(ORDER, soizkadur_add(mme, TEXT(NOBODY), 3, 2, 3)); /* still */
    REFUSED(ORDER, gives(mme, OTHER, 16, 16, 8, 32));
    soizkadur_free(mme);
}

/* What is done before each event and question of a trace, of which so many stood before it. */
typedef void (*before_each)(soizkadur_mme *mme, unsigned events);

/* Plays a trace by calls, provisioned while the MME runs as its head says and then by `more`: it has its answers. */
static void attaches_so(const struct text *trace, const struct text *wanted, void (*more)(soizkadur_mme *), before_each act)
{
    soizkadur_mme mme = SOIZKADUR_EMPTY;
    struct text answers = {NULL, 0, 0};
    struct span line;
    unsigned events = 0;
    for (size_t at = 0; next_line(trace, &at, &line);) {
        if (begins(line, "mme ")) {
            TAKEN(provisioned(&mme, line));
            TAKEN(soizkadur_start(&mme));
        } else if (is_further(line)) {
            TAKEN(provisioned_live(&mme, line));
        } else if (!begins(line, "#")) {
            if (events == 0)
                more(&mme);
            act(&mme, events);
            put_answers(&answers, &mme, line, is_event(line) ? called(&mme, line) : SOIZKADUR_OK);
            events += (unsigned)is_event(line);
        }
    }
    act(&mme, events);
    must(is_same(&answers, wanted), "the phone attaches beside what is refused");
    soizkadur_free(&mme);
    forget(&answers);
}

static void no_more(soizkadur_mme *mme)
{
    (void)mme;
}

/* What is refused of an MME that has IMSI at 10.0.0.1, and neither of the others. */
static void each_refused(soizkadur_mme *mme, unsigned events)
{
    (void)events;
    arguments_refused(mme);
    REFUSED(PROVISION, adds_live(mme, IMSI, 0x0a000002));
    REFUSED(PROVISION, adds_live(mme, OTHER, 0x0a000001));
    REFUSED(PROVISION, adds_live(mme, IMSI, 0x0a000001));
    REFUSED(UNKNOWN_IMSI, gives_live(mme, NOBODY, 16, 16, 8, 32));
}

static void fill_vectors(soizkadur_mme *mme)
{
    for (int count = 1; count < VECTORS; count++)
        TAKEN(gives_live(mme, IMSI, 16, 16, 4 + (size_t)count % 13, 32));
}

/* The 65th that isn't spent is refused, until the fourth event, AUTHENTICATION RESPONSE, has spent one. */
static void vector_65_refused(soizkadur_mme *mme, unsigned events)
{
    static int is_there;
    if (events == 4 && !is_there) {
        TAKEN(gives_live(mme, IMSI, 16, 16, 16, 32));
        is_there = 1;
    }
    REFUSED(PROVISION, gives_live(mme, IMSI, 16, 16, 8, 32));
    REFUSED(BAD_OCTETS, gives_live(mme, IMSI, 16, 16, 8, 31));
    REFUSED(UNKNOWN_IMSI, gives_live(mme, OTHER, 16, 16, 8, 32));
}

static void fill_slots(soizkadur_mme *mme)
{
    char imsi[16];
    uint32_t slot = 77;
    for (unsigned number = 101; number < 100 + SUBSCRIBERS; number++) {
        snprintf(imsi, sizeof imsi, "00101%010u", number);
        TAKEN(adds_live(mme, imsi, 0x0a010000 + number));
    }
    TAKEN(soizkadur_slot_of_imsi(mme, TEXT(imsi), &slot));
    AS_IT_WAS(slot == SUBSCRIBERS - 1);
    TAKEN(gives_live(mme, imsi, 16, 16, 8, 32));
}

static void subscriber_32769_refused(soizkadur_mme *mme, unsigned events)
{
    (void)events;
    REFUSED(PROVISION, adds_live(mme, OTHER, 0x0a000002));
    REFUSED(PROVISION, adds_live(mme, IMSI, 0x0a000001));
    REFUSED(UNKNOWN_IMSI, gives_live(mme, OTHER, 16, 16, 8, 32));
}

static void of_an_mme_that_runs(const char *path_of_trace, const char *path_of_answers)
{
    struct text trace = read_all(path_of_trace), wanted = read_all(path_of_answers);
    attaches_so(&trace, &wanted, no_more, each_refused);
    attaches_so(&trace, &wanted, fill_vectors, vector_65_refused);
    attaches_so(&trace, &wanted, fill_slots, subscriber_32769_refused);
    forget(&trace);
    forget(&wanted);
}

/* ---- saving and restoring */

/* ATTACH REQUEST with a GUTI of another network at station 0 under the eNB UE S1AP ID 9: the phone is asked for its identity. */
static const char FOREIGN[] = "in 0 000c4041000005000800020009001a0019180741710bf602f8390001021234567802e06000040201d0110043"
                              "00060000f1100001006440080000f110000010100086400130";
#define STRANGER 0x80000009u /* its number */

#define OF_STRANGERS ((uint64_t)1 << 33)
#define OF_SUBSCRIBERS ((uint64_t)1 << 34)
#define MOST_PARTS 8

/* A snapshot in its parts, which are numbered: what stands first, strangers, how many subscribers there are, and each of them. */
struct parts {
    struct text each[MOST_PARTS];
    size_t count;
};

static struct parts parts_of(soizkadur_mme *mme)
{
    struct parts parts = {{{NULL, 0, 0}}, 0};
    for (uint64_t place = 0; place != SOIZKADUR_SAVED; parts.count++) {
        must(parts.count < MOST_PARTS, "there are few parts");
        TAKEN(add_part(mme, &place, &parts.each[parts.count]));
    }
    return parts;
}

/* The snapshot of these parts: the digits are their numbers. */
static struct text joined(const struct parts *parts, const char *order)
{
    struct text snapshot = {NULL, 0, 0};
    for (; *order; order++)
        put(&snapshot, parts->each[*order - '0'].at, parts->each[*order - '0'].length);
    return snapshot;
}

static void forget_parts(struct parts *parts)
{
    for (size_t at = 0; at < parts->count; at++)
        forget(&parts->each[at]);
}

/* An empty handle refuses octets, of which the fault is at a place; 77 where none is written. */
static void refuses(const struct text *snapshot, uint64_t work, uint32_t refusal, uint64_t wanted, const char *what, int line_at)
{
    soizkadur_mme empty = SOIZKADUR_EMPTY, *mme = &empty;
    uint64_t place = 77;
    look(&before, mme);
    refused_so(mme, restored(mme, snapshot, work, &place), refusal, what, line_at);
    if (place != wanted)
        fprintf(stderr, "refusals.c:%d: %s: at %#llx\n", line_at, what, (unsigned long long)place);
    AS_IT_WAS(place == wanted && empty.at == NULL);
}

#define REFUSES(snapshot, work, refusal, place) \
    refuses(snapshot, work, SOIZKADUR_##refusal, place, #snapshot " " #refusal, __LINE__)

/* The parts in this order are refused. */
#define REFUSES_PARTS(parts, order, place) \
    do { \
        struct text snapshot_ = joined(parts, order); \
        refuses(&snapshot_, ANY_WORK, SOIZKADUR_NO_SNAPSHOT, place, order, __LINE__); \
        forget(&snapshot_); \
    } while (0)

/* So are all parts, with the first octet of some in one of them changed. */
#define REFUSES_SPOILED(parts, number, octets, spoiled, place) \
    do { \
        char *at_ = found((parts)->each[number], octets, sizeof octets - 1), kept_ = *at_; \
        *at_ = spoiled; \
        REFUSES_PARTS(parts, "01234", place); \
        *at_ = kept_; \
    } while (0)

static char *found(struct text text, const char *octets, size_t length)
{
    for (size_t at = 0; at + length <= text.length; at++)
        if (memcmp(text.at + at, octets, length) == 0)
            return text.at + at;
    must(0, "the part has these octets");
    return NULL;
}

/* What is refused of a save by an MME that runs, of two subscribers. */
static void places_refused(soizkadur_mme *mme)
{
    const uint64_t places[] = {1, OF_STRANGERS - 1, OF_STRANGERS + 4294967297, OF_SUBSCRIBERS - 1, OF_SUBSCRIBERS + 2,
                               OF_SUBSCRIBERS + 32767, OF_SUBSCRIBERS + 32768, 2 * OF_SUBSCRIBERS, SOIZKADUR_SAVED};
    uint8_t buffer[4] = {7, 7, 7, 7};
    size_t length = 7;
    for (size_t at = 0; at < sizeof places / sizeof places[0]; at++) {
        uint64_t place = places[at];
        REFUSED(BAD_NUMBER, soizkadur_save(mme, &place, buffer, sizeof buffer, &length));
        AS_IT_WAS(place == places[at] && length == 7 && buffer[0] == 7);
    }
    REFUSED(IN_USE, soizkadur_restore(mme, NOTHING, 0, (uint64_t[]){77}));
}

/* Each part is refused where there is an octet too little room, and then only its length is written. */
static void rooms_refused(soizkadur_mme *mme)
{
    struct text snapshot = {NULL, 0, 0};
    for (uint64_t place = 0; place != SOIZKADUR_SAVED;) {
        uint64_t there = place;
        snapshot.length = 0;
        TAKEN(add_part(mme, &there, &snapshot));
        uint8_t *room = (uint8_t *)malloc(snapshot.length); /* so that valgrind sees each octet past it */
        must(room != NULL, "the test has memory");
        memset(room, 7, snapshot.length);
        size_t length = 7;
        REFUSED(NO_ROOM, soizkadur_save(mme, &place, room, snapshot.length - 1, &length));
        AS_IT_WAS(length == snapshot.length && place != there);
        REFUSED(NO_ROOM, soizkadur_save(mme, &place, NOTHING, &length));
        for (size_t at = 0; at < snapshot.length; at++)
            AS_IT_WAS(room[at] == 7);
        TAKEN(soizkadur_save(mme, &place, room, snapshot.length, &length));
        AS_IT_WAS(length == snapshot.length && place == there && memcmp(room, snapshot.at, length) == 0);
        free(room);
    }
    forget(&snapshot);
}

/* The snapshot of an MME of two subscribers, of whom the first is registered and connected, and of a phone that is asked for its
 * identity, spoiled. */
static void snapshots_refused(soizkadur_mme *mme)
{
    struct parts parts = parts_of(mme);
    AS_IT_WAS(parts.count == 5);
    struct text whole = joined(&parts, "01234"), more = joined(&parts, "01234"), other = joined(&parts, "01234");
    put(&more, "", 1);
    other.at[0]++;
    REFUSES(&other, ANY_WORK, OTHER_VERSION, (uint64_t)(uint8_t)other.at[0]);
    REFUSES(&more, ANY_WORK, NO_SNAPSHOT, SOIZKADUR_SAVED);
    more.length -= 2;
    REFUSES(&more, ANY_WORK, NO_SNAPSHOT, SOIZKADUR_SAVED);
    more.length = 0;
    REFUSES(&more, ANY_WORK, NO_SNAPSHOT, SOIZKADUR_SAVED);
    REFUSES(&whole, 0, TOO_MUCH_WORK, 77);
    REFUSES(&whole, 1, TOO_MUCH_WORK, 77);
    REFUSES_SPOILED(&parts, 0, "internet", '.', 0); /* no label */
    REFUSES_SPOILED(&parts, 3, "\x10\x10\0\0\0\0\x10", '\xaa', OF_SUBSCRIBERS); /* an IMSI whose digits aren't */
    parts.each[0].at[parts.each[0].length - 1] = 2; /* strangers */
    REFUSES_PARTS(&parts, "01134", OF_STRANGERS + STRANGER); /* the stranger comes twice */
    parts.each[0].at[parts.each[0].length - 1] = 1;
    REFUSES_PARTS(&parts, "01233", OF_SUBSCRIBERS + 1); /* the IMSI is taken */
    REFUSES_PARTS(&parts, "01243", OF_SUBSCRIBERS + 1); /* the connection's id is of slot 0 */
    REFUSES_PARTS(&parts, "0123", SOIZKADUR_SAVED);
    soizkadur_mme second = SOIZKADUR_EMPTY;
    uint64_t place = 77;
    TAKEN(restored(&second, &whole, 2, &place)); /* as many path switches as there were */
    AS_IT_WAS(place == 77);
    soizkadur_free(&second);
    forget(&whole);
    forget(&more);
    forget(&other);
    forget_parts(&parts);
}

static void of_snapshots(const char *path)
{
    soizkadur_mme empty = SOIZKADUR_EMPTY, *mme = &empty;
    uint8_t buffer[PART_ROOM];
    uint64_t place = 0, wrong = 7;
    size_t length = 7;
    TAKEN(line(mme, "# a handle that holds something, of which nothing is provisioned"));
    REFUSED(BAD_NUMBER, soizkadur_save(mme, &wrong, buffer, sizeof buffer, &length));
    REFUSED(NO_MME, soizkadur_save(mme, &place, buffer, sizeof buffer, &length));
    REFUSED(IN_USE, soizkadur_restore(mme, NOTHING, 0, &wrong));
    TAKEN(new_of(mme, 3, "internet", 1, 1));
    REFUSED(NO_MME, soizkadur_save(mme, &place, buffer, sizeof buffer, &length)); /* it isn't started */
    AS_IT_WAS(place == 0 && wrong == 7 && length == 7);
    soizkadur_free(mme);
    struct text trace = read_all(path);
    struct span one;
    for (size_t at = 0; next_line(&trace, &at, &one);)
        TAKEN(played(mme, one));
    TAKEN(line(mme, FOREIGN));
    places_refused(mme);
    rooms_refused(mme);
    snapshots_refused(mme);
    for (int count = 0; count < VECTORS; count++)
        TAKEN(gives_live(mme, IMSI, 16, 16, 16, 32));
    REFUSED(PROVISION, gives_live(mme, IMSI, 16, 16, 16, 32));
    for (place = OF_SUBSCRIBERS; place != SOIZKADUR_SAVED;)
        TAKEN(soizkadur_save(mme, &place, buffer, sizeof buffer, &length));
    soizkadur_free(mme);
    forget(&trace);
}

/* ---- events, replies and questions */

static void of_events(void)
{
    soizkadur_mme empty = SOIZKADUR_EMPTY, *mme = &empty;
    soizkadur_fault fault;
    TAKEN(made_of(mme, "", &fault));
    TAKEN(line(mme, "up 0"));
    TAKEN(line(mme, SETUP));
    REFUSED(BAD_NUMBER, soizkadur_up(mme, 128));
    REFUSED(ALREADY_UP, soizkadur_up(mme, 0));
    REFUSED(BAD_NUMBER, soizkadur_lost(mme, 255));
    REFUSED(NOT_UP, soizkadur_lost(mme, 127));
    REFUSED(BAD_NUMBER, soizkadur_in(mme, 128, NOTHING));
    REFUSED(NOT_UP, soizkadur_in(mme, 1, NOTHING));
    REFUSED(BAD_NUMBER, soizkadur_tick(mme, 0));
    REFUSED(BAD_NUMBER, soizkadur_tick(mme, 1000001));
    REFUSED(BAD_NUMBER, soizkadur_data(mme, TEXT("0010100000001")));
    REFUSED(UNKNOWN_IMSI, soizkadur_data(mme, TEXT(NOBODY)));
    REFUSED(BAD_NUMBER, soizkadur_cancel(mme, TEXT("001010000000001 ")));
    REFUSED(UNKNOWN_IMSI, soizkadur_cancel(mme, TEXT(NOBODY)));
    soizkadur_free(mme);
}

static void of_replies_and_questions(void)
{
    soizkadur_mme empty = SOIZKADUR_EMPTY, *mme = &empty;
    soizkadur_subscriber_states states = {7, 7, 7};
    soizkadur_output output = {7, 7, 7, 7};
    uint8_t buffer[40];
    size_t count = 7;
    uint32_t slot = 7;
    soizkadur_fault fault;
    memset(buffer, 7, sizeof buffer);
    TAKEN(made_of(mme, "", &fault));
    REFUSED(NO_OUTPUT, soizkadur_count(mme, 0, &count));
    TAKEN(line(mme, "up 0"));
    TAKEN(line(mme, SETUP)); /* is answered by S1 SETUP RESPONSE, of 27 octets */
    REFUSED(NO_OUTPUT, soizkadur_count(mme, 1, &count));
    REFUSED(NO_OUTPUT, soizkadur_count(mme, SIZE_MAX, &count));
    REFUSED(NO_OUTPUT, soizkadur_out(mme, 1, 0, &output, buffer, sizeof buffer));
    REFUSED(NO_OUTPUT, soizkadur_out(mme, 0, 1, &output, buffer, sizeof buffer));
    REFUSED(NO_OUTPUT, soizkadur_out(mme, 0, SIZE_MAX, &output, buffer, sizeof buffer));
    AS_IT_WAS(count == 7 && output.length == 7 && output.owner == 7 && output.number == 7 && output.station == 7);
    REFUSED(NO_ROOM, soizkadur_out(mme, 0, 0, &output, buffer, 26));
    AS_IT_WAS(output.length == 27 && output.owner == SOIZKADUR_STATION && output.number == 0 && output.station == 0);
    REFUSED(NO_ROOM, soizkadur_out(mme, 0, 0, &output, NOTHING));
    for (size_t at = 0; at < sizeof buffer; at++)
        AS_IT_WAS(buffer[at] == 7);
    TAKEN(soizkadur_out(mme, 0, 0, &output, buffer, 28));
    AS_IT_WAS(buffer[0] == 0x20 && buffer[26] == 0xff && buffer[27] == 7);
    REFUSED(BAD_NUMBER, soizkadur_states(mme, NOTHING, &states));
    REFUSED(UNKNOWN_IMSI, soizkadur_states(mme, TEXT(NOBODY), &states));
    REFUSED(BAD_NUMBER, soizkadur_slot_of_imsi(mme, TEXT("1"), &slot));
    REFUSED(UNKNOWN_IMSI, soizkadur_slot_of_imsi(mme, TEXT(NOBODY), &slot));
    AS_IT_WAS(states.emm == 7 && states.ecm == 7 && states.esm == 7 && slot == 7);
    TAKEN(soizkadur_slot_of_imsi(mme, TEXT(IMSI), &slot));
    AS_IT_WAS(slot == 0);
    soizkadur_free(mme);
}

#define SPELLED(text) (const uint8_t *)(text), sizeof(text) - 1

/* Octets that spell no message; which fault they have is from tests/parts. */
static void of_codecs(void)
{
    soizkadur_s1ap_message message = {7, 7, 7, 7, 7};
    soizkadur_nas_parts parts = {7, 7, 7};
    uint32_t kind = 7;
    ANSWERED(S1AP_SYNTAX, soizkadur_s1ap(NOTHING, &message));
    ANSWERED(S1AP_SYNTAX, soizkadur_s1ap(SPELLED("\x00\x11"), &message));
    ANSWERED(S1AP_UNKNOWN_PROCEDURE, soizkadur_s1ap(SPELLED("\x00\x05\x40\x01\x00"), &message));
    ANSWERED(S1AP_MISSING_ELEMENT,
             soizkadur_s1ap(SPELLED("\x00\x11\x00\x0f\x00\x00\x01\x00\x3b\x00\x08\x00\x00\xf1\x10\x00\x00\x00\x10"), &message));
    ANSWERED(S1AP_REPEATED_ELEMENT,
             soizkadur_s1ap(SPELLED("\x00\x11\x00\x13\x00\x00\x02\x00\x3b\x00\x08\x00\x00\xf1\x10\x00\x00\x00\x10"
                                    "\x00\x3b\x00\x7f"), &message));
    ANSWERED(S1AP_REFUSED_ELEMENT,
             soizkadur_s1ap(SPELLED("\x00\x11\x00\x13\x00\x00\x02\x00\x3b\x00\x08\x00\x00\xf1\x10\x00\x00\x00\x10"
                                    "\x12\x34\x00\x7f"), &message));
    ANSWERED(BAD_NUMBER, soizkadur_nas(NOTHING, 2, &kind));
    ANSWERED(NAS_TOO_SHORT, soizkadur_nas(NOTHING, SOIZKADUR_UPLINK, &kind));
    ANSWERED(NAS_TOO_SHORT, soizkadur_nas(SPELLED("\x07"), SOIZKADUR_UPLINK, &kind));
    ANSWERED(NAS_MANDATORY, soizkadur_nas(SPELLED("\x07\x41"), SOIZKADUR_UPLINK, &kind));
    ANSWERED(NAS_UNKNOWN_TYPE, soizkadur_nas(SPELLED("\x17\x41"), SOIZKADUR_UPLINK, &kind));
    ANSWERED(NAS_OPTIONAL_PART, soizkadur_nas(SPELLED("\x07\x5e\x23"), SOIZKADUR_UPLINK, &kind));
    ANSWERED(NAS_NOT_PROTECTED, soizkadur_nas_protected(NOTHING, &parts));
    ANSWERED(NAS_NOT_PROTECTED, soizkadur_nas_protected(SPELLED("\x07\x01\x02\x03\x04\x05\x06"), &parts));
    AS_IT_WAS(message.kind == 7 && message.enb_ue_id == 7 && parts.mac == 7 && parts.sequence == 7 && kind == 7);
}

static void of_keys(void)
{
    uint32_t mac = 7;
    uint8_t key[33];
    memset(key, 7, sizeof key);
    ANSWERED(BAD_OCTETS, soizkadur_eia2(OCTETS_OF(15), 0, 2, NOTHING, &mac));
    ANSWERED(BAD_NUMBER, soizkadur_eia2(OCTETS_OF(16), 0, 2, NOTHING, &mac));
    ANSWERED(BAD_OCTETS, soizkadur_kenb(OCTETS_OF(31), 0, key, 32));
    ANSWERED(BAD_OCTETS, soizkadur_kenb(OCTETS_OF(32), 0, key, 33));
    ANSWERED(BAD_OCTETS, soizkadur_next_hop(OCTETS_OF(32), OCTETS_OF(31), key, 32));
    ANSWERED(BAD_OCTETS, soizkadur_next_hop(OCTETS_OF(33), OCTETS_OF(32), key, 32));
    ANSWERED(BAD_OCTETS, soizkadur_next_hop(OCTETS_OF(32), OCTETS_OF(32), key, 31));
    ANSWERED(BAD_OCTETS, soizkadur_nas_integrity_key(OCTETS_OF(0), key, 16));
    ANSWERED(BAD_OCTETS, soizkadur_nas_integrity_key(OCTETS_OF(32), key, 32));
    for (size_t at = 0; at < sizeof key; at++)
        AS_IT_WAS(key[at] == 7);
    AS_IT_WAS(mac == 7);
}

int main(int count, char **given)
{
    soizkadur_release release = {777777, 777777, 777777};
    must(count == 4, "refusals TRACE ANSWERS SWITCHED");
    soizkadur_version(&release);
    AS_IT_WAS(release.major != 777777 && release.minor != 777777 && release.patch != 777777);
    printf("version %u.%u.%u\n", (unsigned)release.major, (unsigned)release.minor, (unsigned)release.patch);
    memset(longest, '#', MOST_LINE + 1);
    of_an_empty_handle();
    of_lines();
    of_a_whole_trace();
    of_texts();
    of_provisioning();
    of_an_mme_that_does_not_run();
    of_an_mme_that_runs(given[1], given[2]);
    of_snapshots(given[3]);
    of_events();
    of_replies_and_questions();
    of_codecs();
    of_keys();
    forget(&before);
    forget(&after);
    printf("%u calls refused\n", tried);
    return 0;
}
