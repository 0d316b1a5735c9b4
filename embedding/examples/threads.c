/* Four threads add to shared keys while a fifth one takes points. `threads DIR` also writes the folder DIR, which `pcalc recover DIR` reads;
 * with `threads DIR OLD` the store starts with the state recovered from the folder OLD. */
#include "pcalc_threads.h"

enum { THREADS = 4, ADDS = 250, POINTS = 3, KEYS = 10 };

struct worker {
    pcalc_shared *shared;
    uint32_t session;
    int commits;
};

/* One transaction; returns the kind of its last answer. If that died, or was refused, it is undone. */
static uint32_t adds_once(pcalc_shared *shared, uint32_t session, int turn)
{
    pcalc_answer answer, undone;
    char key[2] = { 'k', (char)('0' + turn % KEYS) };
    uint32_t told = pcalc_begin_shared(shared, session, &answer);
    if (told == PCALC_BEGUN) {
        told = pcalc_add_shared(shared, session, 0, key, 2, 1, &answer);
    }
    if (told == PCALC_SUM) {
        told = pcalc_add_shared(shared, session, 0, "all", 3, 1, &answer);
    }
    if (told == PCALC_SUM) {
        told = pcalc_commit_shared(shared, session, &answer);
    }
    if (told == PCALC_DIED || told == PCALC_REFUSED) {
        pcalc_abort_shared(shared, session, &undone);
    }
    return told;
}

/* Begins again what died, and ends once the log has failed: PCALC_UNKNOWN may be there after a start, so it isn't made again. */
static void *work(void *of)
{
    struct worker *worker = of;
    uint32_t told = PCALC_COMMITTED;
    while (worker->commits < ADDS && (told == PCALC_COMMITTED || told == PCALC_DIED)) {
        told = adds_once(worker->shared, worker->session, worker->commits);
        worker->commits += told == PCALC_COMMITTED;
    }
    return NULL;
}

static int failed(const char *what, int number)
{
    fprintf(stderr, "%s: %s\n", what, strerror(number));
    return 1;
}

/* The number that a key has as its value. */
static long long number_of(pcalc_shared *shared, const char *key, size_t length)
{
    pcalc_answer answer;
    uint8_t bytes[8] = { 0 };
    pcalc_begin_shared(shared, 1, &answer);
    pcalc_get_shared(shared, 1, 0, key, length, bytes, sizeof bytes, &answer);
    pcalc_abort_shared(shared, 1, &answer);
    uint64_t number = 0;
    for (int i = 0; i < 8; i++) {
        number = number << 8 | bytes[i];
    }
    return (long long)number;
}

int main(int count, char **words)
{
    const char *dir = count > 1 ? words[1] : NULL, *old = count > 2 ? words[2] : NULL;
    pcalc_shared shared;
    pcalc store = PCALC_NONE;
    pcalc_answer answer;
    pcalc_options options = { 1, 0x0123456789abcdef, 0xfedcba9876543210, THREADS, 1000 };
    pthread_t threads[THREADS];
    struct worker workers[THREADS];
    int fault = old ? pcalc_give_folder(&store, old) : 0;
    if (fault) {
        return failed("the folder OLD", fault);
    }
    if (pcalc_open(&store, &options, &answer) != PCALC_OPENED) {
        return failed("the store", answer.refusal == PCALC_OUT_OF_MEMORY ? ENOMEM : EINVAL);
    }
    fault = pcalc_share(&shared, &store, dir, 0, false);
    if (fault) {
        pcalc_close(&store);
        return failed("the folder DIR", fault);
    }
    for (uint32_t i = 0; i < THREADS; i++) {
        workers[i] = (struct worker){ &shared, i + 1, 0 };
        pthread_create(&threads[i], NULL, work, &workers[i]);
    }
    for (int i = 0; i < POINTS && !fault; i++) {
        fault = pcalc_take_point(&shared, &answer);
    }
    int commits = 0;
    for (int i = 0; i < THREADS; i++) {
        pthread_join(threads[i], NULL);
        commits += workers[i].commits;
    }
    if (commits == THREADS * ADDS) {
        printf("all %lld\n", number_of(&shared, "all", 3));
        for (char key[2] = { 'k', '0' }; key[1] < '0' + KEYS; key[1]++) {
            printf("%.2s %lld\n", key, number_of(&shared, key, 2));
        }
    }
    int ended = pcalc_unshare(&shared);
    return ended ? failed("the log", ended) : fault ? failed("a point", fault) : commits != THREADS * ADDS;
}
