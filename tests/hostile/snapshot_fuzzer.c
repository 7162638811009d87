/* Octets that a fuzzer gives as a snapshot (judged.h): for libFuzzer, or AFL++ with its driver of the same function.
 *
 *     clang -fsanitize=fuzzer,address -I ../../library snapshot_fuzzer.c FOLDER/libsoizkadur.a -o fuzzer
 *     afl-clang-fast -fsanitize=fuzzer -I ../../library snapshot_fuzzer.c FOLDER/libsoizkadur.a -o fuzzer
 */
#include "judged.h"

int LLVMFuzzerTestOneInput(const uint8_t *octets, size_t length);

int LLVMFuzzerTestOneInput(const uint8_t *octets, size_t length)
{
    if (probes.length == 0)
        put(&probes, LAST_PROBES, sizeof LAST_PROBES - 1);
    judged(octets, length);
    return 0;
}
