/* Two threads make the calls on one handle in turn, and pass it to each other by value. Each call is answered as if one thread made them
 * all. */
#include "pcalc.h"

#include <pthread.h>
#include <stdbool.h>
#include <stdio.h>
#include <stdlib.h>
#include <string.h>

enum { CALLS = 4000, KEYS = 5 };

struct told {
    char text[CALLS * 64];
    size_t length;
};

struct table {
    pthread_mutex_t mutex;
    pthread_cond_t moved;
    pcalc store;
    int next; /* the number of the next call */
    struct told told;
};

static uint32_t mixed(uint32_t number)
{
    number = (number ^ 61) * 2654435761u;
    number = (number ^ number >> 15) * 2246822519u;
    return number ^ number >> 13;
}

/* The call of this number, drawn at random but the same in each run: of sessions 1 and 2, of a checkpoint, or of a text. */
static uint32_t asked(pcalc *store, int number, char *room, size_t room_length, pcalc_answer *answer)
{
    const uint32_t phases[] = { PCALC_POINT, PCALC_SEAL, PCALC_CAPTURE, PCALC_TAKE, PCALC_DONE, PCALC_REST };
    uint32_t drawn = mixed((uint32_t)number), session = drawn / 16 % 2 + 1;
    char key[2] = { 'k', (char)('0' + drawn / 32 % KEYS) };
    switch (drawn % 16) {
    case 0:
    case 1:
    case 2:
        return pcalc_begin(store, session, answer);
    case 3:
    case 4:
        return pcalc_put(store, session, 0, key, sizeof key, &number, sizeof number, answer);
    case 5:
        return pcalc_add(store, session, 9, "all", 3, number, answer);
    case 6:
    case 7:
        return pcalc_get(store, session, 0, key, sizeof key, room, room_length, answer);
    case 8:
        return pcalc_abort(store, session, answer);
    case 9:
        return pcalc_show(store, PCALC_ENTRIES, 0, answer);
    case 10:
    case 11:
        return pcalc_phase(store, phases[drawn / 64 % 6], answer);
    default:
        return pcalc_commit(store, session, answer);
    }
}

static void tell(struct told *told, pcalc *store, int number)
{
    pcalc_answer answer;
    char room[8] = { 0 };
    uint32_t kind = asked(store, number, room, sizeof room, &answer);
    told->length += (size_t)snprintf(told->text + told->length, sizeof told->text - told->length, "%u %u %llu %llu %lld %llu %d\n", kind, (unsigned)answer.refusal,
        (unsigned long long)answer.number, (unsigned long long)answer.entries, (long long)answer.sum, (unsigned long long)answer.value_bytes, room[0]);
    if (told->length >= sizeof told->text) {
        exit(3);
    }
}

/* Makes every second call, from `first` on. */
static void *take_turns(struct table *table, int first)
{
    for (int number = first; number < CALLS; number += 2) {
        pthread_mutex_lock(&table->mutex);
        while (table->next != number) {
            pthread_cond_wait(&table->moved, &table->mutex);
        }
        pcalc own = table->store;
        table->store = (pcalc)PCALC_NONE;
        tell(&table->told, &own, number);
        table->store = own;
        table->next++;
        pthread_cond_signal(&table->moved);
        pthread_mutex_unlock(&table->mutex);
    }
    return NULL;
}

static void *even(void *table)
{
    return take_turns(table, 0);
}

static void *odd(void *table)
{
    return take_turns(table, 1);
}

static bool opens(pcalc *store)
{
    pcalc_answer answer;
    pcalc_options options = { 1, 11, 12, 2, 1000 };
    return pcalc_open(store, &options, &answer) == PCALC_OPENED;
}

static bool has(const struct told *told, uint32_t kind)
{
    char line[16];
    snprintf(line, sizeof line, "\n%u ", kind);
    return strstr(told->text, line) != NULL;
}

int main(void)
{
    static struct table table = { .mutex = PTHREAD_MUTEX_INITIALIZER, .moved = PTHREAD_COND_INITIALIZER, .store = PCALC_NONE };
    static struct told wanted;
    const uint32_t kinds[] = { PCALC_FOUND, PCALC_SUM, PCALC_COMMITTED, PCALC_ABORTED, PCALC_TOOK, PCALC_PART_DONE, PCALC_TEXT, PCALC_REFUSED };
    pcalc alone = PCALC_NONE;
    pthread_t threads[2];
    if (!opens(&alone) || !opens(&table.store)) {
        return 2;
    }
    for (int number = 0; number < CALLS; number++) {
        tell(&wanted, &alone, number);
    }
    pcalc_close(&alone);
    if (pthread_create(&threads[0], NULL, even, &table) || pthread_create(&threads[1], NULL, odd, &table)) {
        return 2;
    }
    pthread_join(threads[0], NULL);
    pthread_join(threads[1], NULL);
    pcalc_close(&table.store);
    for (size_t i = 0; i < sizeof kinds / sizeof *kinds; i++) {
        if (!has(&wanted, kinds[i])) {
            printf("no call is answered by %u\n", (unsigned)kinds[i]);
            return 1;
        }
    }
    bool is_same = wanted.length == table.told.length && memcmp(wanted.text, table.told.text, wanted.length) == 0;
    printf("%s\n", is_same ? "ok" : "two threads are answered differently from one");
    return !is_same;
}
