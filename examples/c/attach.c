/* A phone attaches, by the library. Prints each message to the MME and each that it answers, in hex, and ends with status 0 where
 * every answer is the one that is expected. C11, and C++17 too. docs/LIBRARY.md says how to build it; with the installed library:
 *
 *     cc -std=c11 attach.c $(pkg-config --cflags --libs soizkadur) -o attach
 */
#include <soizkadur.h>

#include <stdio.h>
#include <string.h>

#define MOST_OCTETS 16388 /* of a message that the MME sends */

/* The network, a subscriber and an authentication vector for it, as lines of a trace (README.md, "A trace"). */
static const char provisioning[] =
    "mme 001 01 8001 01 internet 1000000000 1000000000\n"
    "sub 001010000000001 0a000001 0a000064 00000001\n"
    "vec 001010000000001 000102030405060708090a0b0c0d0e0f 101112131415161718191a1b1c1d1e1f 2021222324252627"
    " 303132333435363738393a3b3c3d3e3f404142434445464748494a4b4c4d4e4f\n";
static const char imsi[] = "001010000000001";

/* What station 0 sends, and what the MME answers, if anything: the octets of tests/rows/attach_whole, made from the standards. */
static const struct step {
    const char *name, *sent, *answer;
} steps[] = {
    /* The station says who it is and which areas it serves; the MME says which MME it is (TS 36.413 clause 8.7.3). */
    {"S1 SETUP REQUEST", "0011001f000003003b00080000f11000000010004000070000004000f1100089400140",
     "201100170000020069000b000000f11000008001000100574001ff"},
    /* The phone asks to attach, by its IMSI; it is challenged with the first vector (TS 24.301 clauses 5.5.1.2, 5.4.2). */
    {"INITIAL UE MESSAGE with ATTACH REQUEST",
     "000c403e000005000800020001001a00161507417108091010000000001002e06000040201d011004300060000f1100001006440080000f110"
     "000010100086400130",
     "000b4038000003000000020001000800020001001a002524075200000102030405060708090a0b0c0d0e0f10101112131415161718191a1b1c"
     "1d1e1f"},
    /* RES is XRES: so the phone has the key, and is told the algorithms, under the new keys (clause 5.4.3). */
    {"UPLINK NAS TRANSPORT with AUTHENTICATION RESPONSE",
     "000d4035000005000000020001000800020001001a000c0b0753082021222324252627006440080000f11000001010004340060000f1100001",
     "000b4021000003000000020001000800020001001a000e0d376aac569000075d020002e060"},
    /* The phone's first message under them is right: the station gets a key of its own, the phone an address and a GUTI. */
    {"UPLINK NAS TRANSPORT with SECURITY MODE COMPLETE",
     "000d4032000005000000020001000800020001001a0009084719641fc200075e006440080000f11000001010004340060000f1100001",
     "00090080970000060000000200010008000200010042000a183b9aca00603b9aca000018004900003400444500093c0f800a00006400000001"
     "35279009ec670107420149060000f110000100155201c101090908696e7465726e657405010a000001500bf600f11080010100000001006b00"
     "0518000c0000004900200b32766850f0463fb5cbf377484df6ef28934aee6ee5cc93d19e03bb9742a76d"},
    /* The station has set up the phone's bearer (TS 36.413 clause 8.3.1). */
    {"INITIAL CONTEXT SETUP RESPONSE", "200900220000030000400200010008400200010033400f000032400a0a1fc0a8000000000001", NULL},
    /* The phone has taken its address and its GUTI: it is registered. */
    {"UPLINK NAS TRANSPORT with ATTACH COMPLETE",
     "000d4037000005000000020001000800020001001a000e0d2740af7a0901074300035200c2006440080000f11000001010004340060000f1100001",
     NULL},
};

/* Reads octets in hex; answers how many there are. */
static size_t octets_of(const char *text, uint8_t *octets)
{
    size_t count = 0;
    for (unsigned octet; sscanf(text + 2 * count, "%2x", &octet) == 1; count++)
        octets[count] = (uint8_t)octet;
    return count;
}

/* One step: whether the MME takes the message, and answers just what it should. */
static int is_right(soizkadur_mme *mme, const struct step *step)
{
    static uint8_t octets[MOST_OCTETS], wanted[MOST_OCTETS];
    soizkadur_output output;
    size_t count;
    int right = 1;

    printf("%s\n  -> %s\n", step->name, step->sent);
    if (soizkadur_in(mme, 0, octets, octets_of(step->sent, octets)) != SOIZKADUR_OK
        || soizkadur_count(mme, 0, &count) != SOIZKADUR_OK || count != (step->answer == NULL ? 0 : 1))
        return 0;
    for (size_t place = 0; place < count; place++) {
        if (soizkadur_out(mme, 0, place, &output, octets, sizeof octets) != SOIZKADUR_OK)
            return 0;
        printf("  <- ");
        for (size_t at = 0; at < output.length; at++)
            printf("%02x", (unsigned)octets[at]);
        printf("\n");
        right = right && output.station == 0 && output.length == octets_of(step->answer, wanted)
                && memcmp(octets, wanted, output.length) == 0;
    }
    return right;
}

int main(void)
{
    soizkadur_mme mme = SOIZKADUR_EMPTY;
    soizkadur_fault fault = {0, 0};
    soizkadur_subscriber_states states;
    int right = soizkadur_new(&mme, (const uint8_t *)provisioning, sizeof provisioning - 1, &fault) == SOIZKADUR_OK
                && soizkadur_up(&mme, 0) == SOIZKADUR_OK;

    if (!right)
        fprintf(stderr, "line %u of the provisioning is refused: %u\n", (unsigned)fault.line, (unsigned)fault.refusal);
    for (size_t at = 0; right && at < sizeof steps / sizeof steps[0]; at++) {
        right = is_right(&mme, &steps[at]);
        if (!right)
            fprintf(stderr, "another answer than expected: %s\n", steps[at].name);
    }
    right = right && soizkadur_states(&mme, (const uint8_t *)imsi, sizeof imsi - 1, &states) == SOIZKADUR_OK
            && states.emm == SOIZKADUR_REGISTERED && states.ecm == SOIZKADUR_CONNECTED && states.esm == SOIZKADUR_ACTIVE;
    puts(right ? "registered, connected, and its bearer is active" : "not attached");
    soizkadur_free(&mme);
    return right ? 0 : 1;
}
