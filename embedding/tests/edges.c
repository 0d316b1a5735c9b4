/* Null pointers with a length, names of refusals, a recovery of nothing and of an open store, a base without bytes, and a long log that is
 * shown in pieces. */
#include "pcalc_threads.h"

enum { COMMITS = 3000 };

static pcalc store = PCALC_NONE;
static pcalc_answer answer;
static const pcalc_options options = { 1, 1, 2, 2, 1000 };

static void must(bool is_so, int line)
{
    if (!is_so) {
        printf("line %d: kind %u, refusal %u %s\n", line, (unsigned)answer.kind, (unsigned)answer.refusal, pcalc_refusal_name(answer.refusal));
        exit(1);
    }
}

#define MUST(is_so) must(is_so, __LINE__)
#define REFUSED(call, why) must((call) == PCALC_REFUSED && answer.kind == PCALC_REFUSED && answer.refusal == (why), __LINE__)

/* A null pointer with a length is refused, and changes nothing; one of length 0 is no bytes. */
static void nulls(void)
{
    char room[4];
    MUST(pcalc_begin(&store, 1, &answer) == PCALC_BEGUN);
    REFUSED(pcalc_put(&store, 1, 0, NULL, 3, "v", 1, &answer), PCALC_KEY_LENGTH);
    REFUSED(pcalc_put(&store, 1, 0, "k", 1, NULL, 3, &answer), PCALC_VALUE_LENGTH);
    REFUSED(pcalc_get(&store, 1, 0, NULL, 3, room, sizeof room, &answer), PCALC_KEY_LENGTH);
    REFUSED(pcalc_del(&store, 1, 0, NULL, 3, &answer), PCALC_KEY_LENGTH);
    REFUSED(pcalc_add(&store, 1, 0, NULL, 3, 1, &answer), PCALC_KEY_LENGTH);
    REFUSED(pcalc_put(&store, 1, 0, NULL, 0, "v", 1, &answer), PCALC_KEY_LENGTH);
    MUST(pcalc_put(&store, 1, 0, "k", 1, NULL, 0, &answer) == PCALC_MADE);
    REFUSED(pcalc_get(&store, 1, 0, "k", 1, NULL, 3, &answer), PCALC_VALUE_LENGTH);
    MUST(pcalc_get(&store, 1, 0, "k", 1, NULL, 0, &answer) == PCALC_FOUND && answer.value_bytes == 0);
    MUST(pcalc_commit(&store, 1, &answer) == PCALC_COMMITTED && answer.number == 1);
    const uint32_t steps[] = { PCALC_POINT, PCALC_SEAL, PCALC_CAPTURE };
    for (int i = 0; i < 3; i++) {
        MUST(pcalc_phase(&store, steps[i], &answer) == PCALC_PHASE);
    }
    REFUSED(pcalc_take(&store, NULL, 3, room, sizeof room, &answer), PCALC_KEY_LENGTH);
    REFUSED(pcalc_take(&store, room, sizeof room, NULL, 3, &answer), PCALC_VALUE_LENGTH);
    MUST(pcalc_take(&store, room, sizeof room, NULL, 0, &answer) == PCALC_TOOK && room[0] == 'k');
    MUST(pcalc_take(&store, NULL, 0, NULL, 0, &answer) == PCALC_NONE_LEFT);
}

static void names(void)
{
    char all[512] = "";
    for (uint32_t i = 0; i < 34; i++) {
        strcat(strcat(all, pcalc_refusal_name(i)), " ");
    }
    MUST(strcmp(all, "? OutOfMemory Full KeyLength ValueLength NoTransaction AlreadyBegun MustAbort WrongPhase TooManyWrites LogFull PointsFull "
                     "NoSession NoFile OtherRun Conflict Gap ShelfFull StillWaiting NotNumber Short BadMagic BadRanges KeyOrder BadKind BadLength "
                     "Trailing NotCovered TokenOrder ? Device OutOfRange ? ? ") == 0);
}

/* Each piece has some of the entries, and all of them are those of the log. */
static void pieces(void)
{
    FILE *file = tmpfile();
    uint32_t written = 0, before = 0, shown = 0;
    for (int i = 0; i < COMMITS; i++) {
        MUST(pcalc_begin(&store, 2, &answer) == PCALC_BEGUN && pcalc_add(&store, 2, 0, "n", 1, 1, &answer) == PCALC_SUM);
        MUST(pcalc_commit(&store, 2, &answer) == PCALC_COMMITTED);
    }
    uint32_t all = (uint32_t)answer.number;
    MUST(file != NULL && pcalc_write_entries(&store, fileno(file), &written) == 0 && written == all);
    MUST(pcalc_write_entries(&store, fileno(file), &written) == 0 && written == all);
    size_t length = (size_t)lseek(fileno(file), 0, SEEK_END), at = 0;
    int count = 0;
    do {
        MUST(pcalc_show(&store, PCALC_ENTRIES, shown, &answer) == PCALC_TEXT && answer.entries <= 65536);
        before = shown;
        shown += (uint32_t)answer.entries;
        at += answer.value_bytes;
        count += answer.entries > 0;
    } while (shown > before);
    MUST(shown == all && at == length && count > 1);
    MUST(pcalc_show(&store, PCALC_ENTRIES, UINT32_MAX, &answer) == PCALC_TEXT && answer.entries == 0 && answer.value_bytes == 0);
    fclose(file);
}

/* What is recovered from nothing, and from a base without bytes. */
static void starts(void)
{
    pcalc_recovered recovered;
    const uint8_t none = 0;
    MUST(pcalc_recover(&store, &recovered) == PCALC_SHORT);
    MUST(pcalc_give(&store, PCALC_BASE, &none, 0, &answer) == PCALC_GIVEN);
    MUST(pcalc_recover(&store, &recovered) == PCALC_SHORT);
    REFUSED(pcalc_open(&store, &options, &answer), PCALC_SHORT);
    pcalc_close(&store);
    MUST(pcalc_give(&store, PCALC_LOG, &none, 0, &answer) == PCALC_GIVEN);
    REFUSED(pcalc_open(&store, &options, &answer), PCALC_SHORT);
    pcalc_close(&store);
    MUST(pcalc_open(&store, &options, &answer) == PCALC_OPENED);
    MUST(pcalc_recover(&store, &recovered) == PCALC_WRONG_PHASE);
}

/* The short forms of threads, without a folder. */
static void threads(void)
{
    pcalc_shared shared;
    char room[2];
    MUST(pcalc_share(&shared, &store, NULL, 0, false) == 0 && store.at == NULL);
    MUST(pcalc_begin_shared(&shared, 2, &answer) == PCALC_BEGUN);
    REFUSED(pcalc_put_shared(&shared, 2, 0, NULL, 3, "v", 1, &answer), PCALC_KEY_LENGTH);
    REFUSED(pcalc_put_shared(&shared, 2, 0, "k", 1, NULL, 3, &answer), PCALC_VALUE_LENGTH);
    REFUSED(pcalc_get_shared(&shared, 2, 0, "k", 1, NULL, 3, &answer), PCALC_VALUE_LENGTH);
    MUST(pcalc_put_shared(&shared, 2, 0, "k", 1, "v", 1, &answer) == PCALC_MADE);
    MUST(pcalc_get_shared(&shared, 2, 0, "k", 1, room, sizeof room, &answer) == PCALC_FOUND && room[0] == 'v');
    MUST(pcalc_add_shared(&shared, 2, 0, "m", 1, 5, &answer) == PCALC_SUM && answer.sum == 5);
    MUST(pcalc_del_shared(&shared, 2, 0, "k", 1, &answer) == PCALC_MADE);
    MUST(pcalc_commit_shared(&shared, 2, &answer) == PCALC_COMMITTED);
    MUST(pcalc_begin_shared(&shared, 2, &answer) == PCALC_BEGUN && pcalc_abort_shared(&shared, 2, &answer) == PCALC_ABORTED);
    MUST(pcalc_unshare(&shared) == 0 && pcalc_unshare(&shared) == 0);
}

int main(void)
{
    starts();
    names();
    nulls();
    pieces();
    threads();
    printf("ok\n");
    return 0;
}
