/* Plays traces by the library with the secrets of each vector hidden: XRES and KASME, where soizkadur_give or soizkadur_give_live
 * is handed them.
 *
 *     steps TRACE ANSWERS ..           with soizkadur_give, soizkadur_give_live and soizkadur_out wrapped by the linker
 *     steps --live TRACE ANSWERS ..    the same, with each vector given while the MME runs
 *
 * Each trace is played by the calls that its lines stand for, and must have its answers; its lines are right ones. What the MME
 * sends is told where soizkadur_out copies it, since it goes to the wire; before that, only MACs of 4 octets and radio keys of 32
 * may be hidden in it, each whole. Prints for each trace a line `TRACE WRONG MOST MACS KEYS`: what is wrong with its answers and
 * with what is hidden in them, the most errors that memcheck found at one event, and how many MACs and radio keys were hidden.
 */
#include "../library/calls.h"
#include "hiding.h"

#define MAC 4
#define KEY 32

/* What was hidden in the messages of a trace. */
static struct {
    unsigned long macs, keys, others;
} sent;

/* The most errors at one event of a trace. */
static unsigned long most;

/* Whether vectors are given once the MME runs. */
static int vectors_wait;

uint32_t __real_soizkadur_give(soizkadur_mme *mme, const uint8_t *imsi, size_t imsi_length, const uint8_t *rand,
                               size_t rand_length, const uint8_t *autn, size_t autn_length, const uint8_t *xres,
                               size_t xres_length, const uint8_t *kasme, size_t kasme_length);
uint32_t __wrap_soizkadur_give(soizkadur_mme *mme, const uint8_t *imsi, size_t imsi_length, const uint8_t *rand,
                               size_t rand_length, const uint8_t *autn, size_t autn_length, const uint8_t *xres,
                               size_t xres_length, const uint8_t *kasme, size_t kasme_length);
uint32_t __real_soizkadur_give_live(soizkadur_mme *mme, const uint8_t *imsi, size_t imsi_length, const uint8_t *rand,
                                    size_t rand_length, const uint8_t *autn, size_t autn_length, const uint8_t *xres,
                                    size_t xres_length, const uint8_t *kasme, size_t kasme_length);
uint32_t __wrap_soizkadur_give_live(soizkadur_mme *mme, const uint8_t *imsi, size_t imsi_length, const uint8_t *rand,
                                    size_t rand_length, const uint8_t *autn, size_t autn_length, const uint8_t *xres,
                                    size_t xres_length, const uint8_t *kasme, size_t kasme_length);
uint32_t __real_soizkadur_out(soizkadur_mme *mme, size_t reply, size_t index, soizkadur_output *output, uint8_t *buffer,
                              size_t room);
uint32_t __wrap_soizkadur_out(soizkadur_mme *mme, size_t reply, size_t index, soizkadur_output *output, uint8_t *buffer,
                              size_t room);

uint32_t __wrap_soizkadur_give(soizkadur_mme *mme, const uint8_t *imsi, size_t imsi_length, const uint8_t *rand,
                               size_t rand_length, const uint8_t *autn, size_t autn_length, const uint8_t *xres,
                               size_t xres_length, const uint8_t *kasme, size_t kasme_length)
{
    hide(xres, xres_length);
    hide(kasme, kasme_length);
    return __real_soizkadur_give(mme, imsi, imsi_length, rand, rand_length, autn, autn_length, xres, xres_length, kasme,
                                 kasme_length);
}

uint32_t __wrap_soizkadur_give_live(soizkadur_mme *mme, const uint8_t *imsi, size_t imsi_length, const uint8_t *rand,
                                    size_t rand_length, const uint8_t *autn, size_t autn_length, const uint8_t *xres,
                                    size_t xres_length, const uint8_t *kasme, size_t kasme_length)
{
    hide(xres, xres_length);
    hide(kasme, kasme_length);
    return __real_soizkadur_give_live(mme, imsi, imsi_length, rand, rand_length, autn, autn_length, xres, xres_length, kasme,
                                      kasme_length);
}

/* A MAC stands after the first octet of a protected NAS message (TS 24.301 clause 9.1). */
static int is_mac(const uint8_t *octets, size_t at, size_t length)
{
    return length == MAC && at >= 1 && (octets[at - 1] & 0x0f) == 7 && octets[at - 1] >> 4 >= 1 && octets[at - 1] >> 4 <= 4;
}

/* A radio key is the element Security Key, 73, or stands in the element Security Context, 40, after the next hop chaining count
 * (TS 36.413 clauses 9.2.1.41, 9.2.1.26). */
static int is_key(const uint8_t *octets, size_t at, size_t length)
{
    static const uint8_t key[] = {0, 73, 0, KEY}, context[] = {0, 40, 0, KEY + 1};
    return length == KEY && at >= sizeof context + 1
           && (memcmp(octets + at - sizeof key, key, sizeof key) == 0
               || memcmp(octets + at - sizeof context - 1, context, sizeof context) == 0);
}

/* Counts what is hidden in a message: octets in a row, each hidden as a whole. */
static void look_at(const uint8_t *octets, size_t length)
{
    const uint8_t *bits = hidden_bits(octets, length);
    for (size_t at = 0, end; at < length; at = end + 1) {
        for (end = at; end < length && bits[end] == 0xff;)
            end++;
        int mac = is_mac(octets, at, end - at), key = is_key(octets, at, end - at);
        sent.macs += (unsigned long)mac;
        sent.keys += (unsigned long)key;
        sent.others += (end > at && !mac && !key) || (end < length && bits[end] != 0);
    }
}

uint32_t __wrap_soizkadur_out(soizkadur_mme *mme, size_t reply, size_t index, soizkadur_output *output, uint8_t *buffer,
                              size_t room)
{
    uint32_t refusal = __real_soizkadur_out(mme, reply, index, output, buffer, room);
    if (refusal == SOIZKADUR_OK) {
        look_at(buffer, output->length);
        tell(buffer, output->length);
    }
    return refusal;
}

/* Starts the MME, and gives it each vector of a trace that waits for that. */
static void start(soizkadur_mme *mme, const struct text *trace)
{
    struct span line;
    must(soizkadur_start(mme) == SOIZKADUR_OK, "the MME is started");
    for (size_t at = 0; vectors_wait && next_line(trace, &at, &line);)
        must(!begins(line, "vec ") || provisioned_live(mme, line) == SOIZKADUR_OK, "the vector is taken");
}

/* The call that a line stands for: of provisioning, or of an event, whose errors count. */
static uint32_t done(soizkadur_mme *mme, struct span line)
{
    if (!is_event(line))
        return vectors_wait && begins(line, "vec ") ? SOIZKADUR_OK : provisioned(mme, line);
    unsigned long before = found();
    uint32_t refusal = called(mme, line);
    unsigned long more = found() - before;
    most = more > most ? more : most;
    return refusal;
}

/* The first event or question starts the MME. */
static void play(const struct text *trace, struct text *answers)
{
    soizkadur_mme mme = SOIZKADUR_EMPTY;
    struct span line;
    int runs = 0;
    for (size_t at = 0; next_line(trace, &at, &line);) {
        int starts = !runs && (is_event(line) || begins(line, "show "));
        if (starts)
            start(&mme, trace);
        runs = runs || starts;
        put_answers(answers, &mme, line, done(&mme, line));
    }
    soizkadur_free(&mme);
}

static void tried(const char *path, const char *path_of_answers)
{
    struct text trace = read_all(path), wanted = read_all(path_of_answers), answers = {NULL, 0, 0};
    sent.macs = sent.keys = sent.others = most = 0;
    play(&trace, &answers);
    printf("%s %lu %lu %lu %lu\n", path, sent.others + !is_same(&answers, &wanted), most, sent.macs, sent.keys);
    forget(&trace);
    forget(&wanted);
    forget(&answers);
}

int main(int count, char **given)
{
    must_be_watched();
    vectors_wait = count > 1 && strcmp(given[1], "--live") == 0;
    must((count - vectors_wait) % 2 == 1, "each trace with its answers");
    for (int at = 1 + vectors_wait; at < count; at += 2)
        tried(given[at], given[at + 1]);
    return 0;
}
