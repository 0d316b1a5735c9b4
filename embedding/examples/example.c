/* Two transactions, a point, the texts to keep, and a store that is recovered from them. */
#include "pcalc.h"

#include <stdio.h>
#include <stdlib.h>
#include <string.h>

static void must(uint32_t told, uint32_t wanted, int line)
{
    if (told != wanted) {
        printf("line %d: answered %u, wanted %u\n", line, (unsigned)told, (unsigned)wanted);
        exit(1);
    }
}

#define MUST(call, wanted) must(call, wanted, __LINE__)

/* A copy of a text that the store shows. */
static uint8_t *shown(pcalc *store, uint32_t what, uint32_t number, pcalc_answer *answer)
{
    uint8_t none = 0;
    MUST(pcalc_show(store, what, number, answer), PCALC_TEXT);
    uint8_t *text = malloc(answer->value_bytes + 1);
    if (!text) {
        exit(1);
    }
    pcalc_copy(store, 0, &none, 0, text, answer->value_bytes);
    return text;
}

static void commits_and_dies(pcalc *store)
{
    pcalc_answer answer;
    char room[2];
    MUST(pcalc_begin(store, 1, &answer), PCALC_BEGUN);
    MUST(pcalc_put(store, 1, 0, "fig", 3, "seven", 5, &answer), PCALC_MADE);
    MUST(pcalc_add(store, 1, 0, "sold", 4, 5, &answer), PCALC_SUM);
    printf("sum %lld\n", (long long)answer.sum);
    MUST(pcalc_begin(store, 2, &answer), PCALC_BEGUN);
    MUST(pcalc_get(store, 2, 0, "fig", 3, room, sizeof room, &answer), PCALC_DIED); /* the younger of two dies */
    MUST(pcalc_abort(store, 2, &answer), PCALC_ABORTED);
    MUST(pcalc_commit(store, 1, &answer), PCALC_COMMITTED);
    printf("committed %llu\n", (unsigned long long)answer.number);
    MUST(pcalc_begin(store, 2, &answer), PCALC_BEGUN);
    MUST(pcalc_get(store, 2, 0, "fig", 3, room, sizeof room, &answer), PCALC_FOUND); /* a buffer that is too short */
    printf("found %.2s of %llu bytes\n", room, (unsigned long long)answer.value_bytes);
    MUST(pcalc_get(store, 2, 0, "pear", 4, NULL, 0, &answer), PCALC_ABSENT);
    MUST(pcalc_get(store, 2, 65536, "fig", 3, NULL, 0, &answer), PCALC_REFUSED);
    printf("refused %u\n", (unsigned)answer.refusal);
    MUST(pcalc_commit(store, 2, &answer), PCALC_COMMITTED);
}

/* Writes the log's text at the end of a file: its header, and its entries, of which each call shows some. */
static void writes_the_log(pcalc *store, FILE *file)
{
    pcalc_answer answer;
    uint8_t *header = shown(store, PCALC_LOG, 0, &answer);
    fwrite(header, 1, answer.value_bytes, file);
    free(header);
    uint32_t written = 0;
    do {
        uint8_t *text = shown(store, PCALC_ENTRIES, written, &answer);
        fwrite(text, 1, answer.value_bytes, file);
        written += (uint32_t)answer.entries;
        free(text);
    } while (answer.entries > 0);
    printf("log of %u entries%s\n", (unsigned)written, ferror(file) ? ", not all of it written" : "");
}

static void takes_a_point(pcalc *store)
{
    pcalc_answer answer;
    char key[256], value[256];
    MUST(pcalc_phase(store, PCALC_POINT, &answer), PCALC_PHASE);
    MUST(pcalc_phase(store, PCALC_SEAL, &answer), PCALC_PHASE);
    MUST(pcalc_phase(store, PCALC_CAPTURE, &answer), PCALC_PHASE);
    while (pcalc_take(store, key, sizeof key, value, sizeof value, &answer) == PCALC_TOOK) {
        printf("took %.*s with %llu bytes\n", (int)answer.key_bytes, key, (unsigned long long)answer.value_bytes);
    }
    MUST(pcalc_phase(store, PCALC_DONE, &answer), PCALC_PART_DONE);
    printf("point %llu file %u entries %llu\n", (unsigned long long)answer.number, (unsigned)answer.file, (unsigned long long)answer.entries);
    MUST(pcalc_phase(store, PCALC_REST, &answer), PCALC_PHASE);
}

/* Opens a store over the base and the part of another one. */
static void goes_on(pcalc *from, const pcalc_options *options)
{
    pcalc store = PCALC_NONE;
    pcalc_answer answer;
    pcalc_recovered recovered;
    char room[8];
    const uint32_t texts[][2] = { { PCALC_BASE, 0 }, { PCALC_PART, 1 } };
    for (int i = 0; i < 2; i++) {
        uint8_t *text = shown(from, texts[i][0], texts[i][1], &answer);
        MUST(pcalc_give(&store, texts[i][0], text, answer.value_bytes, &answer), PCALC_GIVEN);
        free(text);
    }
    MUST(pcalc_recover(&store, &recovered), 0);
    printf("recovered: point %u pairs %llu of run %llu\n", (unsigned)recovered.point, (unsigned long long)recovered.pairs,
           (unsigned long long)recovered.run);
    MUST(pcalc_open(&store, options, &answer), PCALC_OPENED);
    MUST(pcalc_open(&store, options, &answer), PCALC_OPEN);
    MUST(pcalc_begin(&store, 1, &answer), PCALC_BEGUN);
    MUST(pcalc_get(&store, 1, 0, "fig", 3, room, sizeof room, &answer), PCALC_FOUND);
    printf("recovered fig %.*s\n", (int)answer.value_bytes, room);
    pcalc_close(&store);
}

int main(void)
{
    pcalc store = PCALC_NONE;
    pcalc_answer answer;
    pcalc_options options = { 1, 0x0123456789abcdef, 0xfedcba9876543210, 2, 1000 };
    MUST(pcalc_begin(&store, 1, &answer), PCALC_CLOSED);
    MUST(pcalc_open(&store, &options, &answer), PCALC_OPENED);
    commits_and_dies(&store);
    FILE *file = tmpfile();
    if (file) {
        writes_the_log(&store, file);
        fclose(file);
    }
    takes_a_point(&store);
    goes_on(&store, &options);
    pcalc_close(&store);
    options.capacity = 0;
    MUST(pcalc_open(&store, &options, &answer), PCALC_REFUSED);
    printf("capacity 0: refused %u\n", (unsigned)answer.refusal);
    pcalc_close(&store);
    return 0;
}
