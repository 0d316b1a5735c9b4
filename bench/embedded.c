/* Commits of one put over 1,000 keys: `embedded COUNT` by one thread through pcalc.h, `embedded COUNT THREADS` by threads through
 * pcalc_threads.h, without a folder. It prints how many nanoseconds a transaction took. */
#include "pcalc_threads.h"

#include <time.h>

enum { KEYS = 1000 };

struct worker {
    pcalc_shared *shared;
    uint32_t session;
    long count;
};

static double now(void)
{
    struct timespec at;
    clock_gettime(CLOCK_MONOTONIC, &at);
    return (double)at.tv_sec * 1e9 + (double)at.tv_nsec;
}

static void commits(pcalc *store, long count)
{
    pcalc_answer answer;
    for (long turn = 0; turn < count; turn++) {
        uint32_t key = (uint32_t)(turn % KEYS);
        pcalc_begin(store, 1, &answer);
        pcalc_put(store, 1, 0, &key, sizeof key, &turn, sizeof turn, &answer);
        if (pcalc_commit(store, 1, &answer) != PCALC_COMMITTED) {
            exit(1);
        }
    }
}

/* Each worker has keys of its own. */
static void *work(void *of)
{
    struct worker *worker = of;
    pcalc_answer answer;
    for (long turn = 0; turn < worker->count; turn++) {
        uint32_t key = (uint32_t)(turn % KEYS) * 64 + worker->session;
        pcalc_ask ask = { PCALC_BEGIN, worker->session, 0, 0, 0, 0 };
        pcalc_ask_shared(worker->shared, &ask, NULL, 0, NULL, 0, NULL, 0, &answer);
        ask.kind = PCALC_PUT;
        pcalc_ask_shared(worker->shared, &ask, &key, sizeof key, &turn, sizeof turn, NULL, 0, &answer);
        ask.kind = PCALC_COMMIT;
        if (pcalc_ask_shared(worker->shared, &ask, NULL, 0, NULL, 0, NULL, 0, &answer) != PCALC_COMMITTED) {
            exit(1);
        }
    }
    return NULL;
}

int main(int words, char **word)
{
    long count = words > 1 ? atol(word[1]) : 1000000, threads = words > 2 ? atol(word[2]) : 0;
    pcalc store = PCALC_NONE;
    pcalc_answer answer;
    pcalc_options options = { 1, 1, 2, 64, 262144 };
    if (count < 1 || threads < 0 || threads > 64 || pcalc_open(&store, &options, &answer) != PCALC_OPENED) {
        return 2;
    }
    double began = now();
    if (threads == 0) {
        commits(&store, count);
        began = now() - began;
        pcalc_close(&store);
    } else {
        pcalc_shared shared;
        pthread_t ids[64];
        struct worker workers[64];
        if (pcalc_share(&shared, &store, NULL, 0, false)) {
            return 2;
        }
        for (long i = 0; i < threads; i++) {
            workers[i] = (struct worker){ &shared, (uint32_t)i + 1, count / threads };
            pthread_create(&ids[i], NULL, work, &workers[i]);
        }
        for (long i = 0; i < threads; i++) {
            pthread_join(ids[i], NULL);
        }
        began = now() - began;
        pcalc_unshare(&shared);
    }
    printf("%.0f\n", began / (double)count);
    return 0;
}
