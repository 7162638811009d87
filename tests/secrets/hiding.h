/* Secrets as memcheck sees them, which reports each branch and each address that depends on undefined octets. */
#ifndef HIDING_H
#define HIDING_H

#include <stdint.h>
#include <stdio.h>
#include <stdlib.h>
#include <valgrind/memcheck.h>

#define MOST_LOOKED_AT 16388 /* octets: the longest message that the MME sends */

/* The octets are secret from here on, and so is whatever is computed of them. */
static inline void hide(const void *octets, size_t length)
{
    (void)VALGRIND_MAKE_MEM_UNDEFINED(octets, length);
}

/* The octets are no secret any more. */
static inline void tell(const void *octets, size_t length)
{
    (void)VALGRIND_MAKE_MEM_DEFINED(octets, length);
}

/* Says of each octet whether it depends on a secret: 0 for none of its bits, 0xff for all eight. */
static inline const uint8_t *hidden_bits(const void *octets, size_t length)
{
    static uint8_t bits[MOST_LOOKED_AT];
    if (length > sizeof bits || VALGRIND_GET_VBITS(octets, bits, length) != 1) {
        fprintf(stderr, "valgrind can't say what is hidden\n");
        exit(70);
    }
    return bits;
}

/* How many errors memcheck has found so far, without those that are suppressed. */
static inline unsigned long found(void)
{
    return VALGRIND_COUNT_ERRORS;
}

/* Ends a program that doesn't run under valgrind, where nothing would be found. */
static inline void must_be_watched(void)
{
    if (!RUNNING_ON_VALGRIND) {
        fprintf(stderr, "to be run under valgrind\n");
        exit(70);
    }
}

#endif
