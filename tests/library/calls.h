/* The call of soizkadur.h that a line of a trace stands for. */
#ifndef CALLS_H
#define CALLS_H

#include "answers.h"

#define MOST_WORDS 9

struct words {
    struct span word[MOST_WORDS];
    size_t count;
};

static inline struct words words_of(struct span line)
{
    struct words words = {{{NULL, 0}}, 0};
    const char *at = line.at, *end = line.at + line.length;
    while (at <= end && words.count < MOST_WORDS) {
        const char *space = (const char *)memchr(at, ' ', (size_t)(end - at));
        const char *last = space == NULL ? end : space;
        words.word[words.count++] = (struct span){at, (size_t)(last - at)};
        at = last + 1;
    }
    return words;
}

static inline uint64_t number(struct span word, int base)
{
    return strtoull(word.at, NULL, base);
}

static inline const uint8_t *octets(struct span word)
{
    return (const uint8_t *)word.at;
}

/* What was read of hex last, by places. */
static uint8_t unhexed[4][20000];

/* Octets in hex, or "-" for none, in a place that the next call of this place overwrites. */
static inline const uint8_t *unhex(struct span word, size_t place, size_t *length)
{
    *length = word.length / 2;
    for (size_t at = 0; at < *length; at++) {
        char digits[3] = {word.at[2 * at], word.at[2 * at + 1], 0};
        unhexed[place][at] = (uint8_t)strtoul(digits, NULL, 16);
    }
    return unhexed[place];
}

static inline int digit(struct span word, size_t at)
{
    return word.at[at] - '0';
}

/* The line `mme`: the network's three octets are packed as TS 36.413 clause 9.2.3.8 has it. */
static inline uint32_t provision(soizkadur_mme *mme, const struct words *given)
{
    struct span country = given->word[1], network = given->word[2], apn = given->word[5];
    int two = network.length == 2;
    int first = two ? 15 : digit(network, 0), second = digit(network, two ? 0 : 1), third = digit(network, two ? 1 : 2);
    uint8_t plmn[3];
    plmn[0] = (uint8_t)(digit(country, 1) << 4 | digit(country, 0));
    plmn[1] = (uint8_t)(first << 4 | digit(country, 2));
    plmn[2] = (uint8_t)(third << 4 | second);
    uint16_t group = (uint16_t)number(given->word[3], 16);
    uint8_t code = (uint8_t)number(given->word[4], 16);
    return soizkadur_provision_new(mme, plmn, sizeof plmn, group, code, octets(apn), apn.length, number(given->word[6], 10),
                                   number(given->word[7], 10));
}

/* The line `sub`, as the call that is named. */
static inline uint32_t add(soizkadur_mme *mme, const struct words *given,
                           uint32_t (*call)(soizkadur_mme *, const uint8_t *, size_t, uint32_t, uint32_t, uint32_t))
{
    struct span imsi = given->word[1];
    return call(mme, octets(imsi), imsi.length, (uint32_t)number(given->word[2], 16), (uint32_t)number(given->word[3], 16),
                (uint32_t)number(given->word[4], 16));
}

/* The octets of a vector, of a line `vec`. */
struct vector {
    const uint8_t *rand, *autn, *xres, *kasme;
    size_t rand_length, autn_length, xres_length, kasme_length;
};

static inline struct vector vector_of(const struct words *given)
{
    struct vector vector;
    vector.rand = unhex(given->word[2], 0, &vector.rand_length);
    vector.autn = unhex(given->word[3], 1, &vector.autn_length);
    vector.xres = unhex(given->word[4], 2, &vector.xres_length);
    vector.kasme = unhex(given->word[5], 3, &vector.kasme_length);
    return vector;
}

/* The line `vec`. */
static inline uint32_t give(soizkadur_mme *mme, const struct words *given)
{
    struct vector vector = vector_of(given);
    return soizkadur_give(mme, octets(given->word[1]), given->word[1].length, vector.rand, vector.rand_length, vector.autn,
                          vector.autn_length, vector.xres, vector.xres_length, vector.kasme, vector.kasme_length);
}

static inline uint32_t give_live(soizkadur_mme *mme, const struct words *given)
{
    struct vector vector = vector_of(given);
    return soizkadur_give_live(mme, octets(given->word[1]), given->word[1].length, vector.rand, vector.rand_length, vector.autn,
                               vector.autn_length, vector.xres, vector.xres_length, vector.kasme, vector.kasme_length);
}

/* Whether a line provisions, and comes below `mme`. */
static inline int is_further(struct span line)
{
    return begins(line, "sub ") || begins(line, "vec ");
}

/* The call that a line of provisioning stands for before the MME runs. */
static inline uint32_t provisioned(soizkadur_mme *mme, struct span line)
{
    struct words given = words_of(line);
    if (begins(line, "mme "))
        return provision(mme, &given);
    if (begins(line, "sub "))
        return add(mme, &given, soizkadur_add);
    if (begins(line, "vec "))
        return give(mme, &given);
    return SOIZKADUR_OK;
}

/* The call that such a line stands for while the MME runs. */
static inline uint32_t provisioned_live(soizkadur_mme *mme, struct span line)
{
    struct words given = words_of(line);
    return begins(line, "sub ") ? add(mme, &given, soizkadur_add_live) : give_live(mme, &given);
}

/* The call that a line of an event stands for. */
static inline uint32_t called(soizkadur_mme *mme, struct span line)
{
    struct words given = words_of(line);
    struct span word = given.word[1];
    if (begins(line, "up "))
        return soizkadur_up(mme, (uint8_t)number(word, 10));
    if (begins(line, "lost "))
        return soizkadur_lost(mme, (uint8_t)number(word, 10));
    if (begins(line, "tick "))
        return soizkadur_tick(mme, (uint32_t)number(word, 10));
    if (begins(line, "data "))
        return soizkadur_data(mme, octets(word), word.length);
    if (begins(line, "cancel "))
        return soizkadur_cancel(mme, octets(word), word.length);
    size_t length;
    const uint8_t *sent = unhex(given.word[2], 0, &length);
    return soizkadur_in(mme, (uint8_t)number(word, 10), length == 0 ? NULL : sent, length);
}

#endif
