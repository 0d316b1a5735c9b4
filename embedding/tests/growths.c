/* Makes the same calls again and again, with the Nth growth of memory refused, N = 1, 2, .. until none is. A call that is refused for it is
 * made again immediately; its answer and all later ones are then those of a run with ample memory. Linked with --wrap=malloc,realloc. */
#include "pcalc.h"

#include <stdio.h>
#include <stdlib.h>
#include <string.h>

static long until_refused; /* growths up to the one that is refused; 0 for none */
static long refusals;

void *__real_malloc(size_t size);
void *__real_realloc(void *block, size_t size);
void *__wrap_malloc(size_t size);
void *__wrap_realloc(void *block, size_t size);

static int is_refused(void)
{
    if (until_refused == 0 || --until_refused > 0) {
        return 0;
    }
    refusals++;
    return 1;
}

void *__wrap_malloc(size_t size)
{
    return is_refused() ? NULL : __real_malloc(size);
}

void *__wrap_realloc(void *block, size_t size)
{
    return is_refused() ? NULL : __real_realloc(block, size);
}

struct told {
    char text[65536];
    size_t length;
};

static pcalc_answer answer;

/* Makes the call, again if memory ran out, and records its answer. */
#define ASK(told, call) \
    do { \
        uint32_t kind = (call); \
        if (kind == PCALC_REFUSED && answer.refusal == PCALC_OUT_OF_MEMORY) { \
            kind = (call); \
        } \
        (told)->length += (size_t)snprintf((told)->text + (told)->length, sizeof (told)->text - (told)->length, "%u %u %llu %llu %u %llu\n", kind, \
            (unsigned)answer.refusal, (unsigned long long)answer.number, (unsigned long long)answer.entries, (unsigned)answer.file, \
            (unsigned long long)answer.value_bytes); \
    } while (0)

static uint8_t base[4096], part[4096], log_text[4096];

static size_t copied(pcalc *store, uint8_t *room)
{
    uint8_t none = 0;
    pcalc_copy(store, 0, &none, 0, room, 4096);
    return (size_t)answer.value_bytes;
}

static void asks_all(struct told *told)
{
    pcalc store = PCALC_NONE;
    pcalc_options options = { 1, 3, 4, 2, 100 };
    char key[40], value[300];
    memset(value, 'v', sizeof value);
    told->length = 0;
    ASK(told, pcalc_open(&store, &options, &answer));
    for (int i = 0; i < 12; i++) {
        int length = snprintf(key, sizeof key, "a key that is long enough %d", i);
        ASK(told, pcalc_begin(&store, 1, &answer));
        ASK(told, pcalc_put(&store, 1, 7, key, (size_t)length, value, (size_t)(i * 20), &answer));
        ASK(told, pcalc_add(&store, 1, 0, "all", 3, i, &answer));
        ASK(told, pcalc_get(&store, 1, 7, key, (size_t)length, NULL, 0, &answer));
        ASK(told, i % 4 == 3 ? pcalc_abort(&store, 1, &answer) : pcalc_commit(&store, 1, &answer));
    }
    ASK(told, pcalc_phase(&store, PCALC_POINT, &answer));
    ASK(told, pcalc_phase(&store, PCALC_SEAL, &answer));
    ASK(told, pcalc_phase(&store, PCALC_CAPTURE, &answer));
    do {
        ASK(told, pcalc_take(&store, NULL, 0, NULL, 0, &answer));
    } while (answer.kind != PCALC_NONE_LEFT);
    ASK(told, pcalc_phase(&store, PCALC_DONE, &answer));
    ASK(told, pcalc_phase(&store, PCALC_REST, &answer));
    ASK(told, pcalc_join(&store, 1, 1, &answer));
    ASK(told, pcalc_show(&store, PCALC_BASE, 0, &answer));
    size_t base_length = copied(&store, base);
    ASK(told, pcalc_show(&store, PCALC_PART, 1, &answer));
    size_t part_length = copied(&store, part);
    ASK(told, pcalc_show(&store, PCALC_LOG, 0, &answer));
    size_t log_length = copied(&store, log_text);
    ASK(told, pcalc_show(&store, PCALC_ENTRIES, 0, &answer));
    pcalc_close(&store);
    ASK(told, pcalc_give(&store, PCALC_BASE, base, base_length, &answer));
    ASK(told, pcalc_give(&store, PCALC_PART, part, part_length, &answer));
    ASK(told, pcalc_give(&store, PCALC_LOG, log_text, log_length, &answer));
    ASK(told, pcalc_open(&store, &options, &answer));
    ASK(told, pcalc_begin(&store, 1, &answer));
    ASK(told, pcalc_get(&store, 1, 0, "all", 3, NULL, 0, &answer));
    pcalc_close(&store);
}

int main(void)
{
    static struct told wanted, told;
    asks_all(&wanted);
    for (long number = 1;; number++) {
        long before = refusals;
        until_refused = number;
        asks_all(&told);
        until_refused = 0;
        if (refusals == before) {
            break;
        }
        if (told.length != wanted.length || memcmp(told.text, wanted.text, told.length) != 0) {
            printf("growth %ld: other answers\n%s", number, told.text);
            return 1;
        }
    }
    printf("ok\n");
    fprintf(stderr, "%ld growths\n", refusals);
    return refusals < 20;
}
