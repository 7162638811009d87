/* Provisions MMEs that run: cc -O2 -I ../tests/library -I FOLDER provisioning.c FOLDER/libsoizkadur.a -o provisioning
 *
 *     provisioning add N COUNT          adds the last COUNT of N subscribers while the MME runs
 *     provisioning give N COUNT         gives COUNT vectors to the subscriber in the middle of N while the MME runs
 *     provisioning play TRACE ANSWERS   plays TRACE by calls; lines `sub` and `vec` among its events are provisioned while the MME
 *                                       runs. Ends with status 1 where what is printed isn't ANSWERS. At each line `# heap` it
 *                                       prints `heap N`: how many octets are allocated for the MME
 *
 * bench/provisioning.py has valgrind count the instructions of the calls.
 */
#include "calls.h"

#include <malloc.h>

static uint32_t add_one(soizkadur_mme *mme, unsigned number,
                        uint32_t (*call)(soizkadur_mme *, const uint8_t *, size_t, uint32_t, uint32_t, uint32_t))
{
    char imsi[16];
    int length = snprintf(imsi, sizeof imsi, "00101%010u", number);
    return call(mme, (const uint8_t *)imsi, (size_t)length, 0x0a000000 + number, 0x0a800064, number);
}

/* An MME that runs, of so many subscribers. */
static void make(soizkadur_mme *mme, unsigned subscribers)
{
    static const uint8_t plmn[3] = {0x00, 0xf1, 0x10}, apn[] = "internet";
    must(soizkadur_provision_new(mme, plmn, sizeof plmn, 0x8001, 1, apn, sizeof apn - 1, 1, 1) == SOIZKADUR_OK, "it is begun");
    for (unsigned number = 1; number <= subscribers; number++)
        must(add_one(mme, number, soizkadur_add) == SOIZKADUR_OK, "a subscriber is taken");
    must(soizkadur_start(mme) == SOIZKADUR_OK, "the MME starts");
}

static void add_all(unsigned subscribers, unsigned count)
{
    soizkadur_mme mme = SOIZKADUR_EMPTY;
    make(&mme, subscribers - count);
    for (unsigned number = subscribers - count + 1; number <= subscribers; number++)
        must(add_one(&mme, number, soizkadur_add_live) == SOIZKADUR_OK, "a further subscriber is taken");
    soizkadur_free(&mme);
}

static void give_all(unsigned subscribers, unsigned count)
{
    static uint8_t octets[32];
    soizkadur_mme mme = SOIZKADUR_EMPTY;
    char imsi[16];
    int length = snprintf(imsi, sizeof imsi, "00101%010u", (subscribers + 1) / 2);
    make(&mme, subscribers);
    for (unsigned number = 1; number <= count; number++) {
        octets[0] = (uint8_t)number;
        must(soizkadur_give_live(&mme, (const uint8_t *)imsi, (size_t)length, octets, 16, octets, 16, octets, 8, octets, 32)
                 == SOIZKADUR_OK, "a vector is taken");
    }
    soizkadur_free(&mme);
}

/* Whether the next answers are these, whose memory is used again. */
static int are_next(const struct text *wanted, size_t *place, struct text *answers)
{
    int are_so = wanted->length - *place >= answers->length && memcmp(wanted->at + *place, answers->at, answers->length) == 0;
    *place += answers->length;
    answers->length = 0;
    return are_so;
}

/* How many octets are allocated. */
static size_t allocated(void)
{
    struct mallinfo2 all = mallinfo2();
    return all.uordblks + all.hblkhd;
}

static int play_all(const struct text *trace, const struct text *wanted)
{
    static char room[1 << 20];
    soizkadur_mme mme = SOIZKADUR_EMPTY;
    struct text answers = {room, 0, sizeof room};
    struct span line;
    size_t place = 0, before = allocated();
    int runs = 0, is_right = 1;
    for (size_t at = 0; is_right && next_line(trace, &at, &line);) {
        if (!runs && is_event(line))
            must(soizkadur_start(&mme) == SOIZKADUR_OK, "the MME starts");
        runs = runs || is_event(line);
        if (begins(line, "# heap"))
            printf("heap %zu\n", allocated() - before);
        else if (runs && is_further(line))
            must(provisioned_live(&mme, line) == SOIZKADUR_OK, "a further line is taken");
        else
            put_answers(&answers, &mme, line, is_event(line) ? called(&mme, line) : provisioned(&mme, line));
        is_right = are_next(wanted, &place, &answers);
    }
    soizkadur_free(&mme);
    return is_right && place == wanted->length;
}

int main(int count, char **given)
{
    static char told[BUFSIZ];
    must(count == 4, "provisioning add|give N COUNT, or provisioning play TRACE ANSWERS");
    setvbuf(stdout, told, _IOFBF, sizeof told); /* which is then no part of what is allocated */
    int is_right = 1;
    if (strcmp(given[1], "add") == 0) {
        add_all((unsigned)strtoul(given[2], NULL, 10), (unsigned)strtoul(given[3], NULL, 10));
    } else if (strcmp(given[1], "give") == 0) {
        give_all((unsigned)strtoul(given[2], NULL, 10), (unsigned)strtoul(given[3], NULL, 10));
    } else {
        struct text trace = read_all(given[2]), wanted = read_all(given[3]);
        is_right = play_all(&trace, &wanted);
        forget(&trace);
        forget(&wanted);
    }
    return is_right ? 0 : 1;
}
