/* A log whose file fails while threads commit, and folders that are shared or refused. Linked with --wrap=write,fsync,rename.
 *
 *     failing WAY DIR [FILLER]     WAY is write, short or flush: that call on the log fails once all threads wait for it; limit: files have a
 *                                  limit of size; full: DIR is on a disk that gets full, and has room again once FILLER is removed
 *     failing share DIR            shares a store over DIR, and prints the error
 *     failing rename DIR           the same, and base.pcb can't get its name
 *     failing unopened DIR         the same, of a store that isn't open
 *
 * Prints, of each session, how many commits were answered by PCALC_COMMITTED and by PCALC_UNKNOWN; session S puts S-0, S-1, .. */
#include "pcalc_threads.h"

#include <sys/resource.h>

#include <signal.h>
#include <time.h>

enum { THREADS = 4, MOST = 4000, SOON = 50, LIMIT = 64 << 10 };

static pcalc_shared shared;
static const char *way;
static char calls[16]; /* up to the first 15 calls: w writes the log, s flushes it, d a folder; b writes, o flushes another file; r renames */
static int called, commits, late;
static bool has_failed;

ssize_t __real_write(int file, const void *bytes, size_t length);
int __real_fsync(int file);
int __real_rename(const char *from, const char *to);
ssize_t __wrap_write(int file, const void *bytes, size_t length);
int __wrap_fsync(int file);
int __wrap_rename(const char *from, const char *to);

static void note(char call)
{
    if (called < 15) {
        calls[called++] = call;
    }
}

static bool is(const char *name)
{
    return strcmp(way, name) == 0;
}

static bool is_folder(int file)
{
    struct stat about;
    return fstat(file, &about) == 0 && S_ISDIR(about.st_mode);
}

/* Whether the log's call of this name fails now. It does after some commits, once each thread waits for its own. */
static bool fails_now(const char *name)
{
    if (!is(name) || __atomic_load_n(&commits, __ATOMIC_SEQ_CST) < SOON) {
        return false;
    }
    uint64_t waiting;
    do {
        pcalc_answer answer;
        const struct timespec pause = { 0, 1000000 };
        nanosleep(&pause, NULL);
        waiting = 0;
        pthread_mutex_lock(&shared.latch);
        do {
            pcalc_show(&shared.store, PCALC_ENTRIES, (uint32_t)(shared.written + waiting), &answer);
            waiting += answer.entries;
        } while (answer.entries > 0);
        pthread_mutex_unlock(&shared.latch);
    } while (waiting < THREADS);
    has_failed = true;
    return true;
}

ssize_t __wrap_write(int file, const void *bytes, size_t length)
{
    bool is_log = file == shared.log;
    note(is_log ? 'w' : 'b');
    late += is_log && has_failed;
    if (is_log && fails_now("write")) {
        errno = ENOSPC;
        return -1;
    }
    ssize_t count = __real_write(file, bytes, is_log && fails_now("short") ? length / 2 : length);
    has_failed = has_failed || (is_log && (count < 0 || (size_t)count < length));
    return count;
}

int __wrap_fsync(int file)
{
    bool is_log = file == shared.log;
    note(is_log ? 's' : is_folder(file) ? 'd' : 'o');
    late += is_log && has_failed;
    if (is_log && fails_now("flush")) {
        errno = EIO;
        return -1;
    }
    return __real_fsync(file);
}

int __wrap_rename(const char *from, const char *to)
{
    note('r');
    if (is("rename")) {
        errno = EIO;
        return -1;
    }
    return __real_rename(from, to);
}

static void must(bool is_so, const char *what)
{
    if (!is_so) {
        printf("wrong: %s\n", what);
        exit(3);
    }
}

struct worker {
    uint32_t session;
    int committed, unknown;
};

static void *work(void *of)
{
    struct worker *worker = of;
    pcalc_answer answer;
    char key[32], value[64] = { 'v' };
    uint32_t told = PCALC_COMMITTED;
    while (told == PCALC_COMMITTED && worker->committed < MOST) {
        int length = snprintf(key, sizeof key, "%u-%d", (unsigned)worker->session, worker->committed);
        told = pcalc_begin_shared(&shared, worker->session, &answer);
        told = told == PCALC_BEGUN ? pcalc_put_shared(&shared, worker->session, 0, key, (size_t)length, value, sizeof value, &answer) : told;
        told = told == PCALC_MADE ? pcalc_commit_shared(&shared, worker->session, &answer) : told;
        worker->committed += told == PCALC_COMMITTED;
        worker->unknown += told == PCALC_UNKNOWN;
        __atomic_add_fetch(&commits, told == PCALC_COMMITTED, __ATOMIC_SEQ_CST);
    }
    must(told == PCALC_UNKNOWN || (told == PCALC_REFUSED && answer.refusal == PCALC_DEVICE), "a thread ends otherwise");
    return NULL;
}

/* Waits for a lock that session 5 has. */
static void *waits(void *of)
{
    pcalc_answer answer;
    (void)of;
    must(pcalc_put_shared(&shared, 6, 0, "held", 4, "2", 1, &answer) == PCALC_REFUSED && answer.refusal == PCALC_DEVICE, "one that waits for a lock");
    must(pcalc_abort_shared(&shared, 6, &answer) == PCALC_ABORTED, "an abort of one that waited");
    return NULL;
}

static bool is_device(uint32_t told, const pcalc_answer *answer)
{
    return told == PCALC_REFUSED && answer->refusal == PCALC_DEVICE;
}

/* All calls but an abort are refused. */
static void all_are_refused(void)
{
    pcalc_answer answer;
    char room[8];
    must(is_device(pcalc_begin_shared(&shared, 1, &answer), &answer), "begin");
    must(is_device(pcalc_get_shared(&shared, 5, 0, "held", 4, room, sizeof room, &answer), &answer), "get");
    must(is_device(pcalc_put_shared(&shared, 5, 0, "k", 1, "v", 1, &answer), &answer), "put");
    must(is_device(pcalc_del_shared(&shared, 5, 0, "k", 1, &answer), &answer), "del");
    must(is_device(pcalc_add_shared(&shared, 5, 0, "n", 1, 1, &answer), &answer), "add");
    must(is_device(pcalc_commit_shared(&shared, 5, &answer), &answer), "commit");
    must(pcalc_abort_shared(&shared, 5, &answer) == PCALC_ABORTED, "abort");
    must(pcalc_take_point(&shared, &answer) == ECANCELED && answer.refusal == PCALC_DEVICE, "point");
}

static long long size_of(const char *dir)
{
    struct stat about;
    char *path = pcalc_path(dir, "log.pcl");
    long long size = path && stat(path, &about) == 0 ? (long long)about.st_size : -1;
    free(path);
    return size;
}

static bool is_failing(void)
{
    return is("write") || is("short") || is("flush") || is("limit") || is("full");
}

int main(int count, char **words)
{
    pcalc store = PCALC_NONE;
    pcalc_answer answer;
    pcalc_options options = { 1, 1, 2, THREADS + 2, 20000 };
    struct rlimit limit = { LIMIT, RLIM_INFINITY };
    pthread_t threads[THREADS + 1];
    struct worker workers[THREADS];
    if (count < 3) {
        return 2;
    }
    way = words[1];
    must(is("unopened") || pcalc_open(&store, &options, &answer) == PCALC_OPENED, "open");
    if (is("limit")) {
        signal(SIGXFSZ, SIG_IGN);
        must(setrlimit(RLIMIT_FSIZE, &limit) == 0, "setrlimit");
    }
    int failed = pcalc_share(&shared, &store, words[2], 0, is_failing());
    if (!is_failing()) {
        printf("%s%s\n", failed == 0 ? "ok" : failed == ENOTEMPTY ? "ENOTEMPTY" : failed == EINVAL ? "EINVAL" : strerror(failed), failed ? "" : calls);
        must(pcalc_unshare(&shared) == failed && pcalc_unshare(&shared) == failed, "unshare");
        pcalc_close(&store);
        return 0;
    }
    must(failed == 0, "share");
    must(strcmp(calls, "wsdbord") == 0, calls);
    must(pcalc_begin_shared(&shared, 6, &answer) == PCALC_BEGUN && pcalc_begin_shared(&shared, 5, &answer) == PCALC_BEGUN, "begin");
    must(pcalc_put_shared(&shared, 5, 0, "held", 4, "1", 1, &answer) == PCALC_MADE, "put");
    pthread_create(&threads[THREADS], NULL, waits, NULL);
    for (uint32_t i = 0; i < THREADS; i++) {
        workers[i] = (struct worker){ i + 1, 0, 0 };
        pthread_create(&threads[i], NULL, work, &workers[i]);
    }
    for (int i = 0; i <= THREADS; i++) {
        pthread_join(threads[i], NULL);
    }
    limit.rlim_cur = RLIM_INFINITY;
    must(setrlimit(RLIMIT_FSIZE, &limit) == 0 && (count < 4 || unlink(words[3]) == 0), "room again");
    long long size = size_of(words[2]);
    all_are_refused();
    for (int i = 0; i < THREADS; i++) {
        printf("%d %d %d\n", i + 1, workers[i].committed, workers[i].unknown);
    }
    failed = pcalc_unshare(&shared);
    printf("unshare: %s\n", strerror(failed));
    must(failed != 0 && pcalc_unshare(&shared) == failed, "unshare again");
    must(late == 0 && size == size_of(words[2]), "the log is written after it has failed");
    return 0;
}
