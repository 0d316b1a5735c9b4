/* Commits of one put over 1,000 keys by another store in the program, in memory or without syncs: `beside FOLDER COUNT THREADS`, each thread with
 * keys of its own. It prints how many nanoseconds a transaction took. A macro selects the store: BESIDE_SQLITE, only one thread, over
 * ":memory:"; BESIDE_LMDB, MDB_NOSYNC in the folder; BESIDE_BDB, pages and the log in memory. */
#include <pthread.h>
#include <stdbool.h>
#include <stdint.h>
#include <stdio.h>
#include <stdlib.h>
#include <string.h>
#include <time.h>

enum { KEYS = 1000, MOST_THREADS = 64 };

static void must(bool holds, const char *what)
{
    if (!holds) {
        fprintf(stderr, "beside: %s failed\n", what);
        exit(1);
    }
}

#if defined BESIDE_SQLITE
#include <sqlite3.h>

static sqlite3 *store;
static sqlite3_stmt *begin, *put, *commit;

static sqlite3_stmt *prepared(const char *text)
{
    sqlite3_stmt *made;
    must(sqlite3_prepare_v2(store, text, -1, &made, NULL) == SQLITE_OK, text);
    return made;
}

static void opens(const char *folder, long threads)
{
    (void)folder;
    must(threads == 1, "more than one thread");
    must(sqlite3_open(":memory:", &store) == SQLITE_OK, "sqlite3_open");
    must(sqlite3_exec(store, "create table pairs (key blob primary key, value blob) without rowid", NULL, NULL, NULL) == SQLITE_OK, "create table");
    begin = prepared("begin"), put = prepared("insert or replace into pairs values (?, ?)"), commit = prepared("commit");
}

static void done(sqlite3_stmt *statement)
{
    must(sqlite3_step(statement) == SQLITE_DONE, "sqlite3_step");
    sqlite3_reset(statement);
}

static void commits(uint32_t key, long value)
{
    done(begin);
    must(sqlite3_bind_blob(put, 1, &key, sizeof key, SQLITE_STATIC) == SQLITE_OK, "sqlite3_bind_blob");
    must(sqlite3_bind_blob(put, 2, &value, sizeof value, SQLITE_STATIC) == SQLITE_OK, "sqlite3_bind_blob");
    done(put);
    done(commit);
}

#elif defined BESIDE_LMDB
#include <lmdb.h>

static MDB_env *store;
static MDB_dbi pairs;

static void opens(const char *folder, long threads)
{
    MDB_txn *transaction;
    (void)threads;
    must(mdb_env_create(&store) == 0, "mdb_env_create");
    must(mdb_env_set_mapsize(store, (size_t)1 << 30) == 0, "mdb_env_set_mapsize");
    must(mdb_env_open(store, folder, MDB_NOSYNC, 0600) == 0, "mdb_env_open");
    must(mdb_txn_begin(store, NULL, 0, &transaction) == 0, "mdb_txn_begin");
    must(mdb_dbi_open(transaction, NULL, 0, &pairs) == 0, "mdb_dbi_open");
    must(mdb_txn_commit(transaction) == 0, "mdb_txn_commit");
}

static void commits(uint32_t key, long value)
{
    MDB_txn *transaction;
    MDB_val of = { sizeof key, &key }, to = { sizeof value, &value };
    must(mdb_txn_begin(store, NULL, 0, &transaction) == 0, "mdb_txn_begin");
    must(mdb_put(transaction, pairs, &of, &to, 0) == 0, "mdb_put");
    must(mdb_txn_commit(transaction) == 0, "mdb_txn_commit");
}

#elif defined BESIDE_BDB
#include <db.h>

static DB_ENV *store;
static DB *pairs;

static void opens(const char *folder, long threads)
{
    (void)threads;
    must(db_env_create(&store, 0) == 0, "db_env_create");
    must(store->log_set_config(store, DB_LOG_IN_MEMORY, 1) == 0, "log_set_config");
    must(store->set_lg_bsize(store, 256 << 20) == 0 && store->set_cachesize(store, 0, 64 << 20, 1) == 0, "sizes");
    must(store->set_lk_detect(store, DB_LOCK_DEFAULT) == 0, "set_lk_detect");
    must(store->open(store, folder, DB_CREATE | DB_PRIVATE | DB_THREAD | DB_INIT_MPOOL | DB_INIT_LOCK | DB_INIT_LOG | DB_INIT_TXN, 0600) == 0, "DB_ENV->open");
    must(db_create(&pairs, store, 0) == 0, "db_create");
    must(pairs->open(pairs, NULL, NULL, NULL, DB_HASH, DB_CREATE | DB_THREAD | DB_AUTO_COMMIT, 0600) == 0, "DB->open");
}

/* A transaction that is refused for a deadlock is begun again. */
static void commits(uint32_t key, long value)
{
    for (;;) {
        DB_TXN *transaction;
        DBT of = { .data = &key, .size = sizeof key }, to = { .data = &value, .size = sizeof value };
        must(store->txn_begin(store, NULL, &transaction, DB_TXN_NOSYNC) == 0, "txn_begin");
        int result = pairs->put(pairs, transaction, &of, &to, 0);
        if (result == 0) {
            must(transaction->commit(transaction, DB_TXN_NOSYNC) == 0, "commit");
            return;
        }
        must(result == DB_LOCK_DEADLOCK && transaction->abort(transaction) == 0, "put");
    }
}

#else
#error "define BESIDE_SQLITE, BESIDE_LMDB or BESIDE_BDB"
#endif

struct worker {
    uint32_t number;
    long count;
};

static void *work(void *of)
{
    struct worker *worker = of;
    for (long turn = 0; turn < worker->count; turn++) {
        commits((uint32_t)(turn % KEYS) * MOST_THREADS + worker->number, turn);
    }
    return NULL;
}

static double now(void)
{
    struct timespec at;
    clock_gettime(CLOCK_MONOTONIC, &at);
    return (double)at.tv_sec * 1e9 + (double)at.tv_nsec;
}

int main(int words, char **word)
{
    must(words == 4, "the command");
    long count = atol(word[2]), threads = atol(word[3]);
    must(count > 0 && threads > 0 && threads <= MOST_THREADS, "the command");
    pthread_t ids[MOST_THREADS];
    struct worker workers[MOST_THREADS];
    opens(word[1], threads);
    double began = now();
    for (long i = 0; i < threads; i++) {
        workers[i] = (struct worker){ (uint32_t)i, count / threads };
        must(pthread_create(&ids[i], NULL, work, &workers[i]) == 0, "pthread_create");
    }
    for (long i = 0; i < threads; i++) {
        pthread_join(ids[i], NULL);
    }
    printf("%.0f\n", (now() - began) / (double)(count / threads * threads));
    return 0;
}
