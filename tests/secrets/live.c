/* Plays lines as they come on standard input, as `mme play` does, by the calls of the library that they stand for; those that
 * provision by soizkadur_add_live and soizkadur_give_live, once the MME runs. It keeps no secret itself: what it has read, made of
 * that and printed is overwritten at once.
 *
 *     live    with malloc and realloc wrapped by the linker
 *
 * The first event or question starts the MME. For each line that provisions after that, `told N` has the number that its call
 * answers. A line `refuse N` has the Nth allocation of the next such call refused. A line `save` has the MME saved part by part,
 * and is answered by `saved`; `hand` the same, by `handed` and the snapshot in hex. `restore HEX` has the MME end, if one runs, and
 * the program go on from a snapshot, and is answered by `restored`; with octets that are refused there is no MME then, and it is
 * answered by `restored N`.
 */
#define _POSIX_C_SOURCE 200809L
#include "../library/calls.h"

#include <unistd.h>

#define MOST_SAVED (1 << 19)    /* octets of a snapshot */
#define MOST_READ (1 << 21)     /* octets: more than a pipe holds, and a line */
#define MOST_ANSWERED (1 << 22) /* octets of the answers to what is read at once */

/* While a call is made, its allocations are counted, and the one with this number is refused; none is, where it is 0. */
static unsigned long asked, refused;
static int is_called;

void *__real_malloc(size_t size);
void *__real_realloc(void *old, size_t size);
void *__wrap_malloc(size_t size);
void *__wrap_realloc(void *old, size_t size);

static int is_refused(void)
{
    return is_called && ++asked == refused;
}

void *__wrap_malloc(size_t size)
{
    return is_refused() ? NULL : __real_malloc(size);
}

void *__wrap_realloc(void *old, size_t size)
{
    return is_refused() ? NULL : __real_realloc(old, size);
}

/* What a line that provisions the MME which runs is answered. */
static uint32_t further(soizkadur_mme *mme, struct span line)
{
    asked = 0;
    is_called = 1;
    uint32_t answer = provisioned_live(mme, line);
    is_called = 0;
    refused = 0;
    return answer;
}

static uint8_t snapshot[MOST_SAVED];

/* Saves the MME, and tells its octets where they are asked for. */
static void save(soizkadur_mme *mme, struct text *answers, int are_told)
{
    size_t total = 0, length = 0;
    for (uint64_t place = 0; place != SOIZKADUR_SAVED; total += length)
        must(soizkadur_save(mme, &place, snapshot + total, sizeof snapshot - total, &length) == SOIZKADUR_OK, "a part is saved");
    print(answers, are_told ? "handed " : "saved");
    for (size_t at = 0; are_told && at < total; at++) {
        static const char digits[] = "0123456789abcdef";
        put(answers, digits + (snapshot[at] >> 4), 1);
        put(answers, digits + (snapshot[at] & 15), 1);
    }
    put(answers, "\n", 1);
    wipe(snapshot, total);
}

static unsigned value_of(char digit)
{
    return (unsigned)(digit <= '9' ? digit - '0' : digit - 'a' + 10);
}

/* Restores the MME of octets in hex, in place of one that runs. */
static void restore(soizkadur_mme *mme, struct span hex, struct text *answers)
{
    size_t length = hex.length / 2;
    uint64_t place = 0;
    must(length <= sizeof snapshot, "there is room for the snapshot");
    for (size_t at = 0; at < length; at++)
        snapshot[at] = (uint8_t)(value_of(hex.at[2 * at]) << 4 | value_of(hex.at[2 * at + 1]));
    soizkadur_free(mme);
    uint32_t answer = soizkadur_restore(mme, snapshot, length, UINT64_MAX, &place);
    wipe(snapshot, length);
    if (answer == SOIZKADUR_OK)
        print(answers, "restored\n");
    else
        print(answers, "restored %u\n", (unsigned)answer);
}

static void play(soizkadur_mme *mme, struct span line, struct text *answers)
{
    static int runs;
    if (begins(line, "save") || begins(line, "hand")) {
        save(mme, answers, begins(line, "hand"));
        return;
    }
    if (begins(line, "restore ")) {
        restore(mme, (struct span){line.at + strlen("restore "), line.length - strlen("restore ")}, answers);
        runs = 1;
        return;
    }
    if (begins(line, "refuse ")) {
        refused = (unsigned long)number(words_of(line).word[1], 10);
        return;
    }
    if (!runs && (is_event(line) || begins(line, "show "))) {
        must(soizkadur_start(mme) == SOIZKADUR_OK, "the MME starts");
        runs = 1;
    }
    if (runs && is_further(line))
        print(answers, "told %u\n", (unsigned)further(mme, line));
    else
        put_answers(answers, mme, line, is_event(line) ? called(mme, line) : provisioned(mme, line));
    wipe(unhexed, sizeof unhexed);
}

static void write_all(const char *octets, size_t length)
{
    while (length > 0) {
        ssize_t count = write(STDOUT_FILENO, octets, length);
        must(count > 0, "answers are written");
        octets += count;
        length -= (size_t)count;
    }
}

int main(void)
{
    static char given[MOST_READ], room[MOST_ANSWERED];
    struct text answers = {room, 0, sizeof room};
    soizkadur_mme mme = SOIZKADUR_EMPTY;
    size_t length = 0;
    for (ssize_t count; (count = read(STDIN_FILENO, given + length, sizeof given - length)) > 0;) {
        size_t at = 0;
        length += (size_t)count;
        for (char *end; (end = (char *)memchr(given + at, '\n', length - at)) != NULL; at = (size_t)(end - given) + 1)
            play(&mme, (struct span){given + at, (size_t)(end - given) - at}, &answers);
        write_all(answers.at, answers.length);
        must(answers.at == room, "there is room for the answers");
        wipe(answers.at, answers.length);
        answers.length = 0;
        length -= at;
        memmove(given, given + at, length);
        wipe(given + length, at);
    }
    soizkadur_free(&mme);
    return 0;
}
