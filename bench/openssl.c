/* Times OpenSSL's EVP_MAC on what speed.rt.txt times, one thread: the same calls, the same
 * lines, the same last octet. A key set anew is set in the usual way, by a context of its own, and
 * then once more in a context that is kept, which has the cipher or digest already. */
#include <openssl/core_names.h>
#include <openssl/evp.h>
#include <openssl/params.h>
#include <math.h>
#include <stdint.h>
#include <stdio.h>
#include <stdlib.h>
#include <string.h>
#include <time.h>

static const unsigned char KEY[16] = {0x2b, 0x7e, 0x15, 0x16, 0x28, 0xae, 0xd2, 0xa6,
                                      0xab, 0xf7, 0x15, 0x88, 0x09, 0xcf, 0x4f, 0x3c};

/* Each call is timed in N short rounds, of which the best counts. */
#ifndef ROUNDS
#define ROUNDS 200
#endif

static double now(void) {
    struct timespec t;
    clock_gettime(CLOCK_MONOTONIC, &t);
    return t.tv_sec * 1e9 + t.tv_nsec;
}

static double least(double best, double took) { return took < best ? took : best; }

static void need(int ok) {
    if (!ok) {
        fprintf(stderr, "an OpenSSL call failed\n");
        exit(1);
    }
}

/* An algorithm, fetched once, and the parameter that it needs. */
struct algorithm {
    EVP_MAC *mac;
    OSSL_PARAM parameters[2];
};

static struct algorithm algorithm(const char *name, const char *parameter, const char *value) {
    struct algorithm found = {
        EVP_MAC_fetch(NULL, name, NULL),
        {OSSL_PARAM_construct_utf8_string(parameter, (char *)value, 0),
         OSSL_PARAM_construct_end()}};
    need(found.mac != NULL);
    return found;
}

static EVP_MAC_CTX *context(struct algorithm *algorithm, const unsigned char *key, size_t length) {
    EVP_MAC_CTX *context = EVP_MAC_CTX_new(algorithm->mac);
    need(context != NULL && EVP_MAC_init(context, key, length, algorithm->parameters));
    return context;
}

static void finish(EVP_MAC_CTX *context, const unsigned char *first, size_t first_length,
                   const unsigned char *message, size_t length, unsigned char *mac) {
    size_t written;
    if (first_length > 0) need(EVP_MAC_update(context, first, first_length));
    need(EVP_MAC_update(context, message, length));
    need(EVP_MAC_final(context, mac, &written, 64));
}

/* The MAC by a context that is kept; with no key under the one that it has. */
static void mac_of(EVP_MAC_CTX *context, const unsigned char *key, size_t key_length,
                   const unsigned char *first, size_t first_length, const unsigned char *message,
                   size_t length, unsigned char *mac) {
    need(EVP_MAC_init(context, key, key_length, NULL));
    finish(context, first, first_length, message, length, mac);
}

/* The MAC by a context of its own. */
static void mac_once(struct algorithm *algorithm, const unsigned char *key, size_t key_length,
                     const unsigned char *first, size_t first_length, const unsigned char *message,
                     size_t length, unsigned char *mac) {
    EVP_MAC_CTX *own = context(algorithm, key, key_length);
    finish(own, first, first_length, message, length, mac);
    EVP_MAC_CTX_free(own);
}

static void prefix_of(uint32_t count, unsigned char *prefix) {
    prefix[0] = count >> 24;
    prefix[1] = count >> 16;
    prefix[2] = count >> 8;
    prefix[3] = count;
    prefix[4] = 4;
    prefix[5] = prefix[6] = prefix[7] = 0;
}

static void report(const char *name, unsigned calls, double took, unsigned char octet) {
    printf("%s: %u in %.0f ns [%u]\n", name, calls, took, octet);
}

static void eia2_kept(const char *name, EVP_MAC_CTX *cmac, size_t length, unsigned calls) {
    unsigned char message[100], prefix[8], mac[64];
    memset(message, 7, sizeof message);
    need(EVP_MAC_init(cmac, KEY, 16, NULL));
    double best = INFINITY;
    for (int round = 0; round < ROUNDS; round++) {
        double start = now();
        for (unsigned count = 0; count < calls; count++) {
            prefix_of(count, prefix);
            mac_of(cmac, NULL, 0, prefix, 8, message, length, mac);
            message[0] = mac[0];
        }
        best = least(best, now() - start);
    }
    report(name, calls, best, message[0]);
}

static void eia2_anew(const char *name, struct algorithm *cmac, EVP_MAC_CTX *kept,
                      unsigned calls) {
    unsigned char key[16], message[24], prefix[8], mac[64];
    memcpy(key, KEY, 16);
    memset(message, 7, sizeof message);
    double best = INFINITY;
    for (int round = 0; round < ROUNDS; round++) {
        double start = now();
        for (unsigned count = 0; count < calls; count++) {
            prefix_of(count, prefix);
            if (kept)
                mac_of(kept, key, 16, prefix, 8, message, 24, mac);
            else
                mac_once(cmac, key, 16, prefix, 8, message, 24, mac);
            key[0] = mac[0];
        }
        best = least(best, now() - start);
    }
    report(name, calls, best, key[0]);
}

static void cmac_long(EVP_MAC_CTX *cmac, unsigned calls) {
    unsigned char message[1000], mac[64];
    memset(message, 7, sizeof message);
    need(EVP_MAC_init(cmac, KEY, 16, NULL));
    double best = INFINITY;
    for (int round = 0; round < ROUNDS; round++) {
        double start = now();
        for (unsigned i = 0; i < calls; i++) {
            mac_of(cmac, NULL, 0, NULL, 0, message, 1000, mac);
            message[0] = mac[0];
        }
        best = least(best, now() - start);
    }
    report("cmac of 1000 octets, key kept", calls, best, message[0]);
}

static void kenb(const char *name, struct algorithm *hmac, EVP_MAC_CTX *kept, unsigned calls) {
    unsigned char kasme[64];
    memset(kasme, 7, sizeof kasme);
    double best = INFINITY;
    for (int round = 0; round < ROUNDS; round++) {
        double start = now();
        for (unsigned count = 0; count < calls; count++) {
            unsigned char input[7] = {0x11, count >> 24, count >> 16, count >> 8, count, 0, 4};
            if (kept)
                mac_of(kept, kasme, 32, NULL, 0, input, 7, kasme);
            else
                mac_once(hmac, kasme, 32, NULL, 0, input, 7, kasme);
        }
        best = least(best, now() - start);
    }
    report(name, calls, best, kasme[0]);
}

static void next_hop(const char *name, struct algorithm *hmac, EVP_MAC_CTX *kept,
                     unsigned calls) {
    unsigned char kasme[32], input[35], previous[64];
    memset(kasme, 7, sizeof kasme);
    memset(previous, 1, sizeof previous);
    double best = INFINITY;
    for (int round = 0; round < ROUNDS; round++) {
        double start = now();
        for (unsigned i = 0; i < calls; i++) {
            input[0] = 0x12;
            memcpy(input + 1, previous, 32);
            input[33] = 0;
            input[34] = 32;
            if (kept)
                mac_of(kept, kasme, 32, NULL, 0, input, 35, previous);
            else
                mac_once(hmac, kasme, 32, NULL, 0, input, 35, previous);
        }
        best = least(best, now() - start);
    }
    report(name, calls, best, previous[0]);
}

int main(void) {
    unsigned char zeros[32] = {0};
    struct algorithm cmac = algorithm("CMAC", OSSL_MAC_PARAM_CIPHER, "AES-128-CBC");
    struct algorithm hmac = algorithm("HMAC", OSSL_MAC_PARAM_DIGEST, "SHA256");
    EVP_MAC_CTX *kept_cmac = context(&cmac, KEY, 16);
    EVP_MAC_CTX *kept_hmac = context(&hmac, zeros, 32);
    eia2_kept("eia2 of 24 octets, key kept", kept_cmac, 24, 20000);
    eia2_kept("eia2 of 100 octets, key kept", kept_cmac, 100, 5000);
    eia2_anew("eia2 of 24 octets, key set anew", &cmac, NULL, 5000);
    cmac_long(kept_cmac, 500);
    kenb("kenb", &hmac, NULL, 2500);
    next_hop("next_hop", &hmac, NULL, 2500);
    eia2_anew("eia2 of 24 octets, key set anew, context kept", &cmac, kept_cmac, 5000);
    kenb("kenb, context kept", &hmac, kept_hmac, 2500);
    next_hop("next_hop, context kept", &hmac, kept_hmac, 2500);
    EVP_MAC_CTX_free(kept_cmac);
    EVP_MAC_CTX_free(kept_hmac);
    EVP_MAC_free(cmac.mac);
    EVP_MAC_free(hmac.mac);
    return 0;
}
