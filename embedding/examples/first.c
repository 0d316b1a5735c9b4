/* One transaction of a store that nothing else uses: session 1, space 0. */
#include "pcalc.h"

#include <stdio.h>
#include <sys/random.h>

int main(void)
{
    uint64_t chance[2];                                     /* for the hashes of keys */
    if (getentropy(chance, sizeof chance)) return 1;
    pcalc store = PCALC_NONE;
    pcalc_answer answer;
    pcalc_options options = { 1, chance[0], chance[1], 8, 65536 };      /* run 1, 8 sessions, 65,536 keys */
    if (pcalc_open(&store, &options, &answer) != PCALC_OPENED) return 1;
    pcalc_begin(&store, 1, &answer);
    pcalc_put(&store, 1, 0, "fig", 3, "6", 1, &answer);
    if (pcalc_add(&store, 1, 0, "sold", 4, 5, &answer) == PCALC_SUM) printf("sold %lld\n", (long long)answer.sum);
    if (pcalc_commit(&store, 1, &answer) == PCALC_COMMITTED) printf("entry %llu of the log\n", (unsigned long long)answer.number);
    pcalc_close(&store);
    return 0;
}
