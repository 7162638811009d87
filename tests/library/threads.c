/* Ten MMEs on ten threads, one each, at once: each answers as one alone does.
 *
 *     threads TRACE ANSWERS
 */
#include "answers.h"

#include <pthread.h>

#define THREADS 10

static struct text trace, wanted;

static void *plays(void *given)
{
    int *is_right = (int *)given;
    soizkadur_mme mme = SOIZKADUR_EMPTY;
    struct text answers = {NULL, 0, 0};
    struct span line;
    uint8_t key[16];
    static const uint8_t kasme[32] = {1};
    for (size_t at = 0; next_line(&trace, &at, &line);)
        put_answers(&answers, &mme, line, played(&mme, line));
    *is_right = is_same(&answers, &wanted) && soizkadur_nas_integrity_key(kasme, 32, key, 16) == SOIZKADUR_OK;
    soizkadur_free(&mme);
    forget(&answers);
    return NULL;
}

int main(int count, char **given)
{
    pthread_t threads[THREADS];
    int is_right[THREADS] = {0}, right = 0;
    must(count == 3, "threads TRACE ANSWERS");
    trace = read_all(given[1]);
    wanted = read_all(given[2]);
    for (int at = 0; at < THREADS; at++)
        must(pthread_create(&threads[at], NULL, plays, &is_right[at]) == 0, "a thread begins");
    for (int at = 0; at < THREADS; at++) {
        must(pthread_join(threads[at], NULL) == 0, "a thread ends");
        right += is_right[at];
    }
    printf("%d of %d threads have the answers\n", right, THREADS);
    forget(&trace);
    forget(&wanted);
    return right == THREADS ? 0 : 1;
}
