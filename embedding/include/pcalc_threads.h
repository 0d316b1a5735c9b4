/* pcalc on threads: the caller's threads share a store, each with its session, and a logger thread writes its folder. For C11 and C++17 on
 * POSIX; link with -pthread, and include this before the system's headers.
 *
 * This header is tested, and nothing of it is proved. The store's answers are legal whatever is asked, and a folder's state is what
 * `pcalc recover` prints; but only tests show that threads wait for the right event, and that a commit is in the file when it is answered.
 *
 * PCALC_COMMITTED is answered once at most `lag` of the log's entries up to the commit's own are unwritten. A written entry has left the
 * program, and with `sync` it is on the disk; so with a lag of 0 no commit that was answered so is lost if the process is killed.
 *
 * After a write that failed or wrote only a part, or a failed flush, the log is never written or flushed again, also if there is room
 * again: what comes after a torn entry would be lost. Commits that wait then and whose entries aren't known to be written are answered by
 * PCALC_UNKNOWN. Each later call, and each other one that waits, is refused with PCALC_DEVICE before it changes anything, gets too, since
 * they might read what is lost; only an abort is still answered. pcalc_unshare returns the error.
 *
 * Each session, 1 to options.sessions, may be used by one thread at a time.
 */
#ifndef PCALC_THREADS_H
#define PCALC_THREADS_H

#include "pcalc_folder.h"

#include <pthread.h>
#include <stdbool.h>

/* A store that threads share. Its fields are private. */
typedef struct pcalc_shared {
    pthread_mutex_t latch;
    pthread_cond_t changed; /* a transaction has ended, the phase has changed, or the log was written */
    pthread_t logger;
    pcalc store;
    char *dir; /* null if no folder is written */
    int log;
    uint32_t written; /* how many entries of the log were written */
    uint32_t lag;
    bool sync;
    bool grown; /* the log may have unwritten entries */
    bool ending;
    bool ended; /* by pcalc_unshare, or it was never shared */
    int failed; /* 0, or the error number of the logger, which has ended then */
} pcalc_shared;

/* ---- the logger */

/* Writes at the end of the log. Returns 0 or an error number; a write that took only a part counts as ENOSPC. */
static inline int pcalc_append(int log, const uint8_t *text, size_t length, bool sync)
{
    ssize_t count;
    do {
        count = write(log, text, length);
    } while (count < 0 && errno == EINTR);
    if (count < 0 || (size_t)count < length) {
        return count < 0 ? errno : ENOSPC;
    }
    return sync && fsync(log) ? errno : 0;
}

static inline void *pcalc_log_behind(void *of)
{
    pcalc_shared *shared = (pcalc_shared *)of;
    pcalc_answer answer;
    pthread_mutex_lock(&shared->latch);
    for (;;) {
        while (!shared->grown && !shared->ending) {
            pthread_cond_wait(&shared->changed, &shared->latch);
        }
        shared->grown = false;
        uint8_t *text = NULL;
        bool is_shown = pcalc_show(&shared->store, PCALC_ENTRIES, shared->written, &answer) == PCALC_TEXT;
        if (is_shown && answer.entries == 0) {
            if (shared->ending) {
                break;
            }
            continue;
        }
        int failed = is_shown && (text = pcalc_shown(&shared->store, &answer)) != NULL ? 0 : ENOMEM;
        pthread_mutex_unlock(&shared->latch);
        failed = failed ? failed : pcalc_append(shared->log, text, answer.value_bytes, shared->sync);
        free(text);
        pthread_mutex_lock(&shared->latch);
        shared->written += failed ? 0 : (uint32_t)answer.entries;
        shared->grown = true;
        shared->failed = failed;
        pthread_cond_broadcast(&shared->changed);
        if (failed) {
            break;
        }
    }
    pthread_mutex_unlock(&shared->latch);
    return NULL;
}

/* ---- the store */

/* Makes log.pcl with its header, which is on the disk with `sync`, and then base.pcb, in a folder that has no files of a store. Returns 0
 * or an error number; pcalc_leave_folder removes what was made. */
static inline int pcalc_begin_folder(pcalc_shared *shared)
{
    pcalc_answer answer;
    char *path = pcalc_path(shared->dir, "log.pcl");
    uint32_t told = pcalc_show(&shared->store, PCALC_LOG, 0, &answer);
    uint8_t *header = told == PCALC_TEXT ? pcalc_shown(&shared->store, &answer) : NULL;
    size_t length = answer.value_bytes;
    uint8_t *base = pcalc_show(&shared->store, PCALC_BASE, 0, &answer) == PCALC_TEXT ? pcalc_shown(&shared->store, &answer) : NULL;
    int folder = open(shared->dir, O_RDONLY), failed = folder < 0 ? errno : pcalc_is_occupied(shared->dir);
    failed = failed ? failed : told == PCALC_CLOSED ? EINVAL : path && header && base ? 0 : ENOMEM;
    if (!failed && (shared->log = open(path, O_WRONLY | O_CREAT | O_EXCL | O_APPEND, 0666)) < 0) {
        failed = errno == EEXIST ? ENOTEMPTY : errno;
    }
    failed = failed ? failed : pcalc_append(shared->log, header, length, shared->sync);
    failed = !failed && shared->sync && fsync(folder) ? errno : failed;
    failed = failed ? failed : pcalc_make_file(shared->dir, "base.pcb", base, answer.value_bytes);
    if (folder >= 0) {
        close(folder);
    }
    free(path);
    free(header);
    free(base);
    return failed;
}

/* Removes what pcalc_begin_folder has made: whoever has made log.pcl owns the folder. */
static inline void pcalc_leave_folder(pcalc_shared *shared)
{
    const char *const names[] = { "base.pcb", "log.pcl" };
    for (int i = 0; i < 2; i++) {
        char *path = pcalc_path(shared->dir, names[i]);
        if (path) {
            unlink(path);
        }
        free(path);
    }
    close(shared->log);
}

/* Shares an open store of which no event was asked yet: it moves to `shared`, and `store` is PCALC_NONE. `dir` is null, or a folder that
 * exists; the base and the log are made there, and the log is written from then on. Returns 0, or an error number, and then the caller
 * keeps the store, and the folder is as it was: ENOTEMPTY if it has base.pcb, log.pcl or a part of a run, or lock or gen-NNNNNNN of a
 * served store; EINVAL if the store isn't open. */
static inline int pcalc_share(pcalc_shared *shared, pcalc *store, const char *dir, uint32_t lag, bool sync)
{
    memset(shared, 0, sizeof *shared);
    shared->log = -1;
    shared->lag = lag;
    shared->sync = sync;
    shared->store = *store;
    int failed = dir && !(shared->dir = strdup(dir)) ? ENOMEM : 0;
    pthread_mutex_init(&shared->latch, NULL);
    pthread_cond_init(&shared->changed, NULL);
    failed = failed || !dir ? failed : pcalc_begin_folder(shared);
    failed = failed || !dir ? failed : pthread_create(&shared->logger, NULL, pcalc_log_behind, shared);
    if (failed) {
        if (shared->log >= 0) {
            pcalc_leave_folder(shared);
        }
        pthread_cond_destroy(&shared->changed);
        pthread_mutex_destroy(&shared->latch);
        free(shared->dir);
        *store = shared->store;
        shared->store.at = NULL;
        shared->ended = true;
        shared->failed = failed;
        return failed;
    }
    store->at = NULL;
    return 0;
}

/* Asks the store, unless the log has failed; then only an abort is asked. */
static inline uint32_t pcalc_ask_unless_failed(pcalc_shared *shared, const pcalc_ask *ask, const void *key, size_t key_length,
                                               const void *value, size_t value_length, pcalc_answer *answer)
{
    return shared->failed && ask->kind != PCALC_ABORT ? pcalc_refuse(PCALC_DEVICE, answer)
                                                      : pcalc_ask_with(&shared->store, ask, key, key_length, value, value_length, answer);
}

/* Asks an event on the caller's thread, waits for its lock, and after a commit until the log is written up to the lag. A found value is
 * copied as far as it fits into `room`. A commit is answered by PCALC_UNKNOWN if the log fails meanwhile. */
static inline uint32_t pcalc_ask_shared(pcalc_shared *shared, const pcalc_ask *ask, const void *key, size_t key_length, const void *value,
                                        size_t value_length, void *room, size_t room_length, pcalc_answer *answer)
{
    uint8_t none = 0;
    if (pcalc_null(NULL, 0, room, room_length)) {
        return pcalc_refuse(PCALC_VALUE_LENGTH, answer);
    }
    pthread_mutex_lock(&shared->latch);
    uint32_t kind = pcalc_ask_unless_failed(shared, ask, key, key_length, value, value_length, answer);
    bool has_waited = kind == PCALC_WAIT;
    while (kind == PCALC_WAIT || (has_waited && kind == PCALC_REFUSED && answer->refusal == PCALC_STILL_WAITING)) {
        pthread_cond_wait(&shared->changed, &shared->latch);
        kind = pcalc_ask_unless_failed(shared, ask, key, key_length, value, value_length, answer);
    }
    if (kind == PCALC_FOUND && room_length > 0) {
        pcalc_copy(&shared->store, 0, &none, 0, (uint8_t *)room, room_length);
    }
    if (kind == PCALC_COMMITTED || kind == PCALC_ABORTED || kind == PCALC_PHASE || kind == PCALC_PART_DONE) {
        shared->grown = true;
        pthread_cond_broadcast(&shared->changed);
    }
    while (kind == PCALC_COMMITTED && shared->dir && !shared->failed && answer->number > (uint64_t)shared->written + shared->lag) {
        pthread_cond_wait(&shared->changed, &shared->latch);
    }
    if (kind == PCALC_COMMITTED && shared->failed && answer->number > shared->written) {
        kind = answer->kind = PCALC_UNKNOWN;
    }
    pthread_mutex_unlock(&shared->latch);
    return kind;
}

static inline uint32_t pcalc_plainly_shared(pcalc_shared *shared, uint32_t kind, uint32_t session, pcalc_answer *answer)
{
    const pcalc_ask ask = { kind, session, 0, 0, 0, 0 };
    return pcalc_ask_shared(shared, &ask, NULL, 0, NULL, 0, NULL, 0, answer);
}

/* ---- short forms, as those of pcalc.h; each waits */

static inline uint32_t pcalc_begin_shared(pcalc_shared *shared, uint32_t session, pcalc_answer *answer)
{
    return pcalc_plainly_shared(shared, PCALC_BEGIN, session, answer);
}

static inline uint32_t pcalc_commit_shared(pcalc_shared *shared, uint32_t session, pcalc_answer *answer)
{
    return pcalc_plainly_shared(shared, PCALC_COMMIT, session, answer);
}

static inline uint32_t pcalc_abort_shared(pcalc_shared *shared, uint32_t session, pcalc_answer *answer)
{
    return pcalc_plainly_shared(shared, PCALC_ABORT, session, answer);
}

static inline uint32_t pcalc_get_shared(pcalc_shared *shared, uint32_t session, uint32_t space, const void *key, size_t key_length, void *room,
                                        size_t room_length, pcalc_answer *answer)
{
    const pcalc_ask ask = { PCALC_GET, session, space, 0, 0, 0 };
    return pcalc_ask_shared(shared, &ask, key, key_length, NULL, 0, room, room_length, answer);
}

static inline uint32_t pcalc_put_shared(pcalc_shared *shared, uint32_t session, uint32_t space, const void *key, size_t key_length,
                                        const void *value, size_t value_length, pcalc_answer *answer)
{
    const pcalc_ask ask = { PCALC_PUT, session, space, 0, 0, 0 };
    return pcalc_ask_shared(shared, &ask, key, key_length, value, value_length, NULL, 0, answer);
}

static inline uint32_t pcalc_del_shared(pcalc_shared *shared, uint32_t session, uint32_t space, const void *key, size_t key_length,
                                        pcalc_answer *answer)
{
    const pcalc_ask ask = { PCALC_DEL, session, space, 0, 0, 0 };
    return pcalc_ask_shared(shared, &ask, key, key_length, NULL, 0, NULL, 0, answer);
}

static inline uint32_t pcalc_add_shared(pcalc_shared *shared, uint32_t session, uint32_t space, const void *key, size_t key_length, int64_t delta,
                                        pcalc_answer *answer)
{
    const pcalc_ask ask = { PCALC_ADD, session, space, 0, 0, delta };
    return pcalc_ask_shared(shared, &ask, key, key_length, NULL, 0, NULL, 0, answer);
}

/* ---- points */

/* Asks a step of a point's cycle, once the transactions that it waits for have ended. */
static inline uint32_t pcalc_phase_shared(pcalc_shared *shared, uint32_t kind, pcalc_answer *answer)
{
    const pcalc_ask ask = { kind, 0, 0, 0, 0, 0 };
    pthread_mutex_lock(&shared->latch);
    uint32_t told = pcalc_ask_unless_failed(shared, &ask, NULL, 0, NULL, 0, answer);
    while (told == PCALC_NOT_YET) {
        pthread_cond_wait(&shared->changed, &shared->latch);
        told = pcalc_ask_unless_failed(shared, &ask, NULL, 0, NULL, 0, answer);
    }
    if (told == PCALC_PHASE || told == PCALC_PART_DONE) {
        shared->grown = true;
        pthread_cond_broadcast(&shared->changed);
    }
    pthread_mutex_unlock(&shared->latch);
    return told;
}

/* Takes a point, on one thread at a time, and makes the file of its part; other threads continue meanwhile. It waits for the transactions
 * that were open when it began. Returns 0, an error number, or ECANCELED if the store refused, with the refusal in `answer`. */
static inline int pcalc_take_point(pcalc_shared *shared, pcalc_answer *answer)
{
    const uint32_t steps[] = { PCALC_POINT, PCALC_SEAL, PCALC_CAPTURE };
    for (int i = 0; i < 3; i++) {
        if (pcalc_phase_shared(shared, steps[i], answer) != PCALC_PHASE) {
            return ECANCELED;
        }
    }
    uint32_t told;
    do {
        told = pcalc_phase_shared(shared, PCALC_TAKE, answer);
    } while (told == PCALC_TOOK || told == PCALC_TOOK_ABSENT);
    if (told != PCALC_NONE_LEFT || pcalc_phase_shared(shared, PCALC_DONE, answer) != PCALC_PART_DONE) {
        return ECANCELED;
    }
    char name[32];
    snprintf(name, sizeof name, "part-%05u.pcp", (unsigned)answer->number);
    pthread_mutex_lock(&shared->latch);
    uint8_t *text = pcalc_show(&shared->store, PCALC_PART, answer->file, answer) == PCALC_TEXT ? pcalc_shown(&shared->store, answer) : NULL;
    pthread_mutex_unlock(&shared->latch);
    int failed = !text ? ENOMEM : shared->dir ? pcalc_make_file(shared->dir, name, text, answer->value_bytes) : 0;
    free(text);
    return pcalc_phase_shared(shared, PCALC_REST, answer) == PCALC_PHASE ? failed : ECANCELED;
}

/* Writes the rest of the log and closes the store, which no thread may use any more. Returns 0, or the error number if the log, now or
 * earlier, couldn't be written; the memory is freed in any case. Called again, it does nothing and returns the same. */
static inline int pcalc_unshare(pcalc_shared *shared)
{
    if (shared->ended) {
        return shared->failed;
    }
    if (shared->dir) {
        pthread_mutex_lock(&shared->latch);
        shared->ending = true;
        pthread_cond_broadcast(&shared->changed);
        pthread_mutex_unlock(&shared->latch);
        pthread_join(shared->logger, NULL);
        if (close(shared->log) && !shared->failed) {
            shared->failed = errno;
        }
        free(shared->dir);
        shared->dir = NULL;
    }
    pthread_cond_destroy(&shared->changed);
    pthread_mutex_destroy(&shared->latch);
    pcalc_close(&shared->store);
    shared->ended = true;
    return shared->failed;
}

#endif
