/* What the C programs of this folder share: a trace that is read, its lines, and the MME's answers as `mme play` prints them. A
 * program that includes this needn't use all of it. */
#ifndef ANSWERS_H
#define ANSWERS_H

#include <soizkadur.h>

#include <stdarg.h>
#include <stdio.h>
#include <stdlib.h>
#include <string.h>

#define MOST_OCTETS 16388 /* of a message that the MME sends */
#define MOST_PRINTED 64   /* octets of one piece of a text that isn't hex */

/* Octets that grow. */
struct text {
    char *at;
    size_t length, room;
};

/* A part of a text. */
struct span {
    const char *at;
    size_t length;
};

static inline void must(int holds, const char *what)
{
    if (!holds) {
        fprintf(stderr, "it should be so, and isn't: %s\n", what);
        exit(70);
    }
}

static inline void put(struct text *text, const char *octets, size_t length)
{
    if (text->room - text->length <= length) {
        text->room = 2 * text->room + length + 1;
        text->at = (char *)realloc(text->at, text->room);
        must(text->at != NULL, "the test has memory");
    }
    memcpy(text->at + text->length, octets, length);
    text->length += length;
    text->at[text->length] = 0;
}

static inline void print(struct text *text, const char *format, ...)
{
    char piece[MOST_PRINTED];
    va_list given;
    va_start(given, format);
    int length = vsnprintf(piece, sizeof piece, format, given);
    va_end(given);
    must(length >= 0 && (size_t)length < sizeof piece, "a piece of a text is short");
    put(text, piece, (size_t)length);
}

/* Zeros in place of octets, whether or not anybody reads them again. */
static inline void wipe(void *octets, size_t length)
{
    volatile uint8_t *at = (volatile uint8_t *)octets;
    for (size_t left = length; left > 0; left--)
        *at++ = 0;
}

static inline int is_same(const struct text *left, const struct text *right)
{
    return left->length == right->length && (left->length == 0 || memcmp(left->at, right->at, left->length) == 0);
}

static inline void forget(struct text *text)
{
    free(text->at);
    *text = (struct text){NULL, 0, 0};
}

/* All that a file has, or standard input where the path is "-". */
static inline struct text read_all(const char *path)
{
    struct text text = {NULL, 0, 0};
    char piece[4096];
    FILE *file = strcmp(path, "-") == 0 ? stdin : fopen(path, "rb");
    must(file != NULL, path);
    for (size_t length; (length = fread(piece, 1, sizeof piece, file)) > 0;)
        put(&text, piece, length);
    put(&text, "", 0);
    must(!ferror(file), path);
    if (file != stdin)
        fclose(file);
    return text;
}

/* The line at a place, without its LF; the place is then that of the next one. 0 where there is none. */
static inline int next_line(const struct text *trace, size_t *at, struct span *line)
{
    if (*at >= trace->length)
        return 0;
    const char *begin = trace->at + *at;
    const char *end = (const char *)memchr(begin, '\n', trace->length - *at);
    line->at = begin;
    line->length = end == NULL ? trace->length - *at : (size_t)(end - begin);
    *at += line->length + 1;
    return 1;
}

static inline int begins(struct span line, const char *word)
{
    size_t length = strlen(word);
    return line.length >= length && memcmp(line.at, word, length) == 0;
}

static inline int is_event(struct span line)
{
    return begins(line, "up ") || begins(line, "lost ") || begins(line, "in ") || begins(line, "tick ") || begins(line, "data ")
           || begins(line, "cancel ");
}

/* The IMSI of a line `WORD IMSI ..`. */
static inline struct span imsi_of(struct span line)
{
    const char *begin = (const char *)memchr(line.at, ' ', line.length) + 1;
    struct span imsi = {begin, (size_t)(line.at + line.length - begin)};
    const char *end = (const char *)memchr(begin, ' ', imsi.length);
    if (end != NULL)
        imsi.length = (size_t)(end - begin);
    return imsi;
}

static inline void put_hex(struct text *text, const uint8_t *octets, size_t length)
{
    for (size_t at = 0; at < length; at++)
        print(text, "%02x", (unsigned)octets[at]);
}

static inline void put_message(struct text *answers, soizkadur_mme *mme, size_t reply, size_t place)
{
    uint8_t octets[MOST_OCTETS];
    soizkadur_output output;
    must(soizkadur_out(mme, reply, place, &output, octets, sizeof octets) == SOIZKADUR_OK, "the message is there");
    if (output.owner == SOIZKADUR_STATION)
        print(answers, "out e%u ", (unsigned)output.number);
    else if (output.owner == SOIZKADUR_SUBSCRIBER)
        print(answers, "out s%u ", (unsigned)output.number);
    else
        print(answers, "out x%u.%u ", (unsigned)(output.number >> 24 & 0x7f), (unsigned)(output.number & 0xffffff));
    must(output.owner != SOIZKADUR_STRANGER || output.number >> 31 == 1, "a stranger's number");
    print(answers, "%u ", (unsigned)output.station);
    put_hex(answers, octets, output.length);
    put(answers, "\n", 1);
    wipe(octets, output.length); /* it may carry a key */
}

/* The reply at a place; answers as soizkadur_count does. */
static inline uint32_t put_reply(struct text *answers, soizkadur_mme *mme, size_t reply)
{
    size_t count = 0;
    uint32_t refusal = soizkadur_count(mme, reply, &count);
    if (refusal != SOIZKADUR_OK)
        print(answers, "refused %u\n", (unsigned)refusal);
    for (size_t place = 0; place < count; place++)
        put_message(answers, mme, reply, place);
    return refusal;
}

static inline void put_replies(struct text *answers, soizkadur_mme *mme)
{
    for (size_t reply = 0; reply < soizkadur_replies(mme); reply++)
        put_reply(answers, mme, reply);
}

/* A subscriber's states, or how that is refused. */
static inline void put_states(struct text *answers, soizkadur_mme *mme, struct span imsi)
{
    static const char *const emm[] = {"DEREGISTERED", "COMMON-PROCEDURE-INITIATED", "REGISTERED", "DEREGISTERED-INITIATED"};
    static const char *const ecm[] = {"IDLE", "CONNECTED"};
    static const char *const esm[] = {"INACTIVE", "ACTIVE-PENDING", "ACTIVE"};
    soizkadur_subscriber_states states = {9, 9, 9};
    uint32_t refusal = soizkadur_states(mme, (const uint8_t *)imsi.at, imsi.length, &states);
    put(answers, "state ", 6);
    put(answers, imsi.at, imsi.length);
    if (refusal == SOIZKADUR_OK) {
        must(states.emm < 4 && states.ecm < 2 && states.esm < 3, "states are of their enums");
        print(answers, " %s %s %s\n", emm[states.emm], ecm[states.ecm], esm[states.esm]);
    } else {
        print(answers, " refused %u\n", (unsigned)refusal);
    }
}

static inline uint32_t played(soizkadur_mme *mme, struct span line)
{
    return soizkadur_line(mme, (const uint8_t *)line.at, line.length);
}

/* What `mme play` prints for a line that was answered so. */
static inline void put_answers(struct text *answers, soizkadur_mme *mme, struct span line, uint32_t refusal)
{
    if (refusal >= SOIZKADUR_NOT_UP && refusal <= SOIZKADUR_UNKNOWN_IMSI)
        print(answers, "refused %u\n", (unsigned)refusal);
    else if (refusal == SOIZKADUR_OK && is_event(line))
        put_replies(answers, mme);
    else if (refusal == SOIZKADUR_OK && begins(line, "show "))
        put_states(answers, mme, imsi_of(line));
}

#endif
