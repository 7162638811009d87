/* The calls of soizkadur.h that take a key, with the key and the message hidden: a line `NAME ERRORS WRONG` for each.
 *
 *     exports            the calls of the library, with each length up to 100, for which no error is to be found
 *     exports --planted  a look-up by a secret and a branch on one, made the same way: an error has to be found for each
 *
 * ERRORS is how many errors memcheck found. WRONG counts the calls that answer otherwise than with the same octets in the open, or
 * whose result isn't hidden as a whole.
 */
#include "hiding.h"

#include <soizkadur.h>

#include <string.h>

#define MOST 100 /* octets of a key or a message */
#define KASME 32
#define INTEGRITY_KEY 16
#define COUNT 0x00012345 /* of NAS */

static uint8_t secret[2][MOST];

/* The secrets, which differ from octet to octet; hidden or in the open. */
static void fill(int is_hidden)
{
    for (size_t which = 0; which < 2; which++) {
        for (size_t at = 0; at < MOST; at++)
            secret[which][at] = (uint8_t)(at * 167 + which * 71 + 13);
        if (is_hidden)
            hide(secret[which], MOST);
    }
}

/* The call under test with secrets of a length; answers its refusal, and writes its result, of as many octets as are said. */
typedef uint32_t (*call)(size_t length, uint8_t *result, size_t *written);

static uint32_t eia2_of(uint32_t direction, size_t length, uint8_t *result, size_t *written)
{
    uint32_t mac = 0;
    uint32_t refusal = soizkadur_eia2(secret[0], INTEGRITY_KEY, COUNT, direction, secret[1], length, &mac);
    *written = sizeof mac;
    memcpy(result, &mac, sizeof mac);
    return refusal;
}

static uint32_t eia2_uplink(size_t length, uint8_t *result, size_t *written)
{
    return eia2_of(SOIZKADUR_UPLINK, length, result, written);
}

static uint32_t eia2_downlink(size_t length, uint8_t *result, size_t *written)
{
    return eia2_of(SOIZKADUR_DOWNLINK, length, result, written);
}

static uint32_t eia2_key(size_t length, uint8_t *result, size_t *written)
{
    uint32_t mac = 0;
    uint32_t refusal = soizkadur_eia2(secret[0], length, COUNT, SOIZKADUR_UPLINK, secret[1], MOST, &mac);
    *written = length == INTEGRITY_KEY ? sizeof mac : 0;
    memcpy(result, &mac, sizeof mac);
    return refusal;
}

static uint32_t kenb(size_t length, uint8_t *result, size_t *written)
{
    *written = length == KASME ? KASME : 0;
    return soizkadur_kenb(secret[0], length, COUNT, result, KASME);
}

static uint32_t next_hop(size_t length, uint8_t *result, size_t *written)
{
    *written = length == KASME ? KASME : 0;
    return soizkadur_next_hop(secret[0], KASME, secret[1], length, result, KASME);
}

static uint32_t nas_integrity_key(size_t length, uint8_t *result, size_t *written)
{
    *written = length == KASME ? INTEGRITY_KEY : 0;
    return soizkadur_nas_integrity_key(secret[0], length, result, INTEGRITY_KEY);
}

/* What the test has to find. The table is volatile, so the compiler can do without neither the look-up nor the branch. */
static volatile uint8_t table[256];

static uint32_t look_up(size_t length, uint8_t *result, size_t *written)
{
    *written = 0;
    *result = table[secret[0][length % MOST]];
    return SOIZKADUR_OK;
}

static uint32_t branch(size_t length, uint8_t *result, size_t *written)
{
    *written = 0;
    if (secret[0][length % MOST] == 7)
        *result = table[0];
    return SOIZKADUR_OK;
}

static int is_hidden_whole(const uint8_t *octets, size_t length)
{
    const uint8_t *bits = hidden_bits(octets, length);
    for (size_t at = 0; at < length; at++)
        if (bits[at] != 0xff)
            return 0;
    return 1;
}

/* Whether a call with hidden secrets answers what it answers in the open, hidden where it is computed of them. */
static int is_right(call make, size_t length)
{
    uint8_t open[KASME] = {0}, hidden[KASME] = {0};
    size_t written;
    fill(0);
    uint32_t wanted = make(length, open, &written);
    fill(1);
    uint32_t refusal = make(length, hidden, &written);
    int right = refusal == wanted && is_hidden_whole(hidden, written);
    tell(hidden, sizeof hidden);
    return right && memcmp(hidden, open, sizeof open) == 0;
}

static void tried(const char *name, call make)
{
    unsigned long before = found(), wrong = 0;
    for (size_t length = 0; length <= MOST; length++)
        wrong += !is_right(make, length);
    printf("%s %lu %lu\n", name, found() - before, wrong);
}

int main(int count, char **given)
{
    must_be_watched();
    if (count == 2 && strcmp(given[1], "--planted") == 0) {
        tried("look_up", look_up);
        tried("branch", branch);
        return 0;
    }
    tried("eia2_uplink", eia2_uplink);
    tried("eia2_downlink", eia2_downlink);
    tried("eia2_key", eia2_key);
    tried("kenb", kenb);
    tried("next_hop", next_hop);
    tried("nas_integrity_key", nas_integrity_key);
    return 0;
}
