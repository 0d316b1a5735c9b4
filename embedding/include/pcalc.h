/* pcalc: a transactional key-value store inside your program, for C11 and C++17.
 *
 *     pcalc store = PCALC_NONE;
 *     pcalc_answer answer;
 *     pcalc_options options = { 1, first_random_word, second_random_word, 8, 65536 };
 *     pcalc_open(&store, &options, &answer);                     PCALC_OPENED
 *     pcalc_begin(&store, 1, &answer);                           PCALC_BEGUN
 *     pcalc_put(&store, 1, 0, "fig", 3, "6", 1, &answer);        PCALC_MADE, PCALC_WAIT or PCALC_DIED
 *     pcalc_commit(&store, 1, &answer);                          PCALC_COMMITTED
 *     pcalc_close(&store);
 *
 * Link libpcalc.a. The answers are proved for every caller that obeys these rules, which nothing checks:
 *
 *   - A `pcalc` starts as PCALC_NONE, and only these functions change it. It may be moved; its old copy must not be used any more. One that
 *     is not closed leaks its memory.
 *   - Calls on one `pcalc` don't overlap in time. They may come from several threads, if a lock, or the start or end of a thread, orders
 *     them (pcalc_threads.h does that).
 *   - No pointer is null, except to bytes or buffers in the short forms, which refuse a null one with a length above 0. Bytes and buffers
 *     have the lengths that are passed, and no two of the objects that are passed to a call overlap.
 *   - The program's malloc, realloc and free belong together, and align a block to each power of two up to 16 that divides its size.
 *   - No call is made in a signal handler, or in a forked child of a multithreaded program.
 *
 * A refused call changes nothing, so it may be made again; that isn't said of PCALC_UNKNOWN. Each function with an `answer` returns the
 * answer's kind.
 */
#ifndef PCALC_H
#define PCALC_H

#include <stddef.h>
#include <stdint.h>

#ifdef __cplusplus
extern "C" {
#endif

/* A handle: of a store, or of nothing. */
typedef struct pcalc {
    void *at;
} pcalc;

#define PCALC_NONE { 0 }

/* The options of a store. */
typedef struct pcalc_options {
    uint64_t run;         /* number of the run if nothing was given; otherwise that of the base plus 1 */
    uint64_t first_word;  /* two random words, so that nobody can choose keys with equal hashes */
    uint64_t second_word;
    uint32_t sessions;    /* number of sessions, each with one open transaction at most: 1 to 64 */
    uint32_t capacity;    /* room for this number of keys: 1 to 1,048,576 */
} pcalc_options;

/* The events that a call may ask. */
enum pcalc_event {
    PCALC_BEGIN = 1,
    PCALC_GET,
    PCALC_PUT,
    PCALC_DEL,
    PCALC_ADD,
    PCALC_COMMIT,
    PCALC_ABORT,
    PCALC_POINT,
    PCALC_SEAL,
    PCALC_CAPTURE,
    PCALC_TAKE,
    PCALC_DONE,
    PCALC_REST,
    PCALC_JOIN
};

/* The kinds of answers. */
enum pcalc_kind {
    PCALC_CLOSED,      /* the store isn't open */
    PCALC_BEGUN,       /* number: the transaction's; the smaller, the older */
    PCALC_FOUND,       /* value_bytes: the value's length; pcalc_copy copies the value */
    PCALC_ABSENT,      /* the key has no value */
    PCALC_MADE,        /* the write was made */
    PCALC_SUM,         /* sum: the key's number now */
    PCALC_WAIT,        /* another transaction has the lock: make the same call again once one has ended, or abort */
    PCALC_DIED,        /* an older transaction has the lock: only an abort is accepted now */
    PCALC_COMMITTED,   /* number: the commit's entry in the log */
    PCALC_ABORTED,
    PCALC_PHASE,       /* phase; number: the point */
    PCALC_NOT_YET,     /* number: of open transactions to wait for, or of keys left to take */
    PCALC_TOOK,        /* space, key_bytes, value_bytes: of the taken key; pcalc_copy copies its bytes and its value */
    PCALC_TOOK_ABSENT, /* space, key_bytes: of the taken key, which had no value at the point */
    PCALC_NONE_LEFT,   /* all keys of the point are taken */
    PCALC_PART_DONE,   /* number: the point; file: its part's number; entries: how many the part has */
    PCALC_JOINED,      /* file: the join's number; number: how many points it has; entries: how many entries */
    PCALC_REFUSED,     /* refusal; number: the point of a gap */
    PCALC_TEXT,        /* value_bytes: the text's length; entries: how many of the log it has; pcalc_copy copies the text */
    PCALC_GIVEN,       /* the text is kept for pcalc_open */
    PCALC_OPENED,      /* the store is open now */
    PCALC_OPEN         /* the store was open already */
};

/* A kind of pcalc_threads.h alone, which no function of the archive returns: the log's file failed while the commit waited for it. The
 * commit may be there after a start over the folder, or not. It has ended, and it is not refused: never just make it again, but look after
 * the start whether it is there. number: its entry. */
enum pcalc_kind_of_threads { PCALC_UNKNOWN = 64 };

/* Why a call was refused. */
enum pcalc_refusal {
    PCALC_OUT_OF_MEMORY = 1,
    PCALC_FULL = 2,            /* no room for another key, more pairs than room, or no next run number */
    PCALC_KEY_LENGTH = 3,      /* a key has 1 to 255 bytes */
    PCALC_VALUE_LENGTH = 4,    /* a value has at most 65,535 bytes */
    PCALC_NO_TRANSACTION = 5,
    PCALC_ALREADY_BEGUN = 6,
    PCALC_MUST_ABORT = 7,      /* the transaction has died */
    PCALC_WRONG_PHASE = 8,
    PCALC_TOO_MANY_WRITES = 9, /* a transaction writes at most 256 keys */
    PCALC_LOG_FULL = 10,       /* the log has 16,777,216 entries */
    PCALC_POINTS_FULL = 11,    /* 65,535 points were taken */
    PCALC_NO_SESSION = 12,     /* session 0, or one past the number of sessions */
    PCALC_NO_FILE = 13,
    PCALC_OTHER_RUN = 14,
    PCALC_CONFLICT = 15,
    PCALC_GAP = 16,
    PCALC_SHELF_FULL = 17,     /* 65,536 files are on the shelf */
    PCALC_STILL_WAITING = 18,  /* the transaction's request still waits */
    PCALC_NOT_NUMBER = 19,     /* the value isn't 8 bytes long */
    PCALC_SHORT = 20,          /* 20 to 28: faults of a given text */
    PCALC_BAD_MAGIC = 21,
    PCALC_BAD_RANGES = 22,
    PCALC_KEY_ORDER = 23,
    PCALC_BAD_KIND = 24,       /* also: no such event, or no such text */
    PCALC_BAD_LENGTH = 25,     /* also: a space past 65,535, or a capacity out of range */
    PCALC_TRAILING = 26,
    PCALC_NOT_COVERED = 27,
    PCALC_TOKEN_ORDER = 28,
    PCALC_DEVICE = 30,         /* the log's file has failed (pcalc_threads.h) */
    PCALC_OUT_OF_RANGE = 31    /* the sum leaves 64 signed bits */
};

/* Texts: the bytes of a folder's files. */
enum pcalc_text {
    PCALC_BASE = 1,    /* base.pcb: the base from which the store starts */
    PCALC_PART = 2,    /* part-NNNNN.pcp: given, a further part; shown, file `number` of the shelf */
    PCALC_LOG = 3,     /* log.pcl: given, the log; shown, its header */
    PCALC_ENTRIES = 4  /* shown, some of the log's entries after the first `number`: the answer's `entries` is how many, at most 65,536, and
                          0 only if there are none. Show those after them, until it is 0: pcalc_write_entries of pcalc_folder.h does */
};

/* A call as numbers. Fields that its event doesn't use are ignored. */
typedef struct pcalc_ask {
    uint32_t kind;
    uint32_t session;
    uint32_t space;
    uint32_t first;
    uint32_t second;
    int64_t delta;
} pcalc_ask;

/* An answer as numbers; fields that its kind doesn't use are 0. */
typedef struct pcalc_answer {
    uint32_t kind;
    uint32_t refusal;
    uint64_t number;
    uint64_t entries;
    uint32_t file;
    uint32_t phase;       /* 0 rest, 1 prepare, 2 resolve, 3 capture, 4 complete */
    int64_t sum;
    uint32_t space;
    uint32_t key_bytes;
    uint64_t value_bytes; /* the whole length, even if the buffer is shorter */
} pcalc_answer;

/* The state recovered from the given texts, in numbers. */
typedef struct pcalc_recovered {
    uint64_t run;
    uint64_t pairs;
    uint64_t entries; /* whole entries of the log */
    uint64_t skipped; /* parts that are not used */
    uint32_t point;   /* the point up to which parts are used */
    uint32_t fault;   /* of the rest of the log, after its whole entries: a refusal, or 0 */
} pcalc_recovered;

#define pcalc_worth pcalc_recovered /* its earlier name */

/* ---- functions of the archive */

/* Adds a copy of a text to what the store will be recovered from: a base or log replaces the one before, a part comes after those before.
 * Returns PCALC_GIVEN; PCALC_OPEN if the store is open; or PCALC_REFUSED with PCALC_BAD_KIND or PCALC_OUT_OF_MEMORY. */
uint32_t pcalc_give(pcalc *store, uint32_t what, const uint8_t *bytes, size_t length, pcalc_answer *answer);

/* Reports the state recovered from the texts, and opens nothing. Returns 0, or a refusal, and `recovered` is then unchanged:
 * PCALC_WRONG_PHASE if the store is open, PCALC_SHORT if nothing was given or the base has no bytes, another fault, or
 * PCALC_OUT_OF_MEMORY. */
uint32_t pcalc_recover(pcalc *store, pcalc_recovered *recovered);

/* Opens the store: without pairs if nothing was given, otherwise with the recovered state; a text of no bytes was given, too. Returns
 * PCALC_OPENED; PCALC_OPEN if it was open already; or PCALC_REFUSED, and what was given is kept: with PCALC_NO_SESSION or PCALC_BAD_LENGTH
 * if an option is out of range, PCALC_FULL for more pairs than room, and otherwise a fault of a text or PCALC_OUT_OF_MEMORY. */
uint32_t pcalc_open(pcalc *store, const pcalc_options *options, pcalc_answer *answer);

/* Asks an event, with the bytes of its key and value, if it has them. */
uint32_t pcalc_call(pcalc *store, const pcalc_ask *ask, const uint8_t *key, size_t key_length, const uint8_t *value, size_t value_length,
                    pcalc_answer *answer);

/* Shows a text, for pcalc_copy. Returns PCALC_TEXT, or PCALC_REFUSED with PCALC_BAD_KIND, PCALC_NO_FILE or PCALC_OUT_OF_MEMORY. */
uint32_t pcalc_show(pcalc *store, uint32_t what, uint32_t number, pcalc_answer *answer);

/* Copies the key of the latest answered call, and its value or text from byte `from` on (counted from 0), as far as they fit. The rest of
 * a buffer is unchanged. It may be called again, with larger buffers or for further bytes. */
void pcalc_copy(pcalc *store, size_t from, uint8_t *key_room, size_t key_room_length, uint8_t *value_room, size_t value_room_length);

/* Closes the store and frees its memory; what was not saved elsewhere is lost. The handle is PCALC_NONE again. */
void pcalc_close(pcalc *store);

/* ---- short forms */

/* The address of the bytes; `none` in place of null. */
static inline const uint8_t *pcalc_at(const void *bytes, const uint8_t *none)
{
    return bytes ? (const uint8_t *)bytes : none;
}

/* Answers with a refusal. */
static inline uint32_t pcalc_refuse(uint32_t refusal, pcalc_answer *answer)
{
    const pcalc_answer refused = { PCALC_REFUSED, refusal, 0, 0, 0, 0, 0, 0, 0, 0 };
    *answer = refused;
    return PCALC_REFUSED;
}

/* Why no key and value, or no rooms for them, are there: one is null and has a length. 0 if both may be used. */
static inline uint32_t pcalc_null(const void *key, size_t key_length, const void *value, size_t value_length)
{
    return !key && key_length > 0 ? PCALC_KEY_LENGTH : !value && value_length > 0 ? PCALC_VALUE_LENGTH : 0;
}

/* The word of a refusal, as the program prints it; "?" for a number that is none. */
static inline const char *pcalc_refusal_name(uint32_t refusal)
{
    static const char *const names[] = {
        "?", "OutOfMemory", "Full", "KeyLength", "ValueLength", "NoTransaction", "AlreadyBegun", "MustAbort", "WrongPhase", "TooManyWrites",
        "LogFull", "PointsFull", "NoSession", "NoFile", "OtherRun", "Conflict", "Gap", "ShelfFull", "StillWaiting", "NotNumber", "Short",
        "BadMagic", "BadRanges", "KeyOrder", "BadKind", "BadLength", "Trailing", "NotCovered", "TokenOrder", "?", "Device", "OutOfRange"
    };
    return names[refusal < sizeof names / sizeof *names ? refusal : 0];
}

/* Asks an event, with bytes that may be null if their length is 0. */
static inline uint32_t pcalc_ask_with(pcalc *store, const pcalc_ask *ask, const void *key, size_t key_length, const void *value,
                                      size_t value_length, pcalc_answer *answer)
{
    const uint8_t none = 0;
    uint32_t fault = pcalc_null(key, key_length, value, value_length);
    return fault ? pcalc_refuse(fault, answer)
                 : pcalc_call(store, ask, pcalc_at(key, &none), key_length, pcalc_at(value, &none), value_length, answer);
}

static inline uint32_t pcalc_plainly(pcalc *store, uint32_t kind, uint32_t session, pcalc_answer *answer)
{
    const pcalc_ask ask = { kind, session, 0, 0, 0, 0 };
    return pcalc_ask_with(store, &ask, NULL, 0, NULL, 0, answer);
}

/* Begins a transaction of the session. */
static inline uint32_t pcalc_begin(pcalc *store, uint32_t session, pcalc_answer *answer)
{
    return pcalc_plainly(store, PCALC_BEGIN, session, answer);
}

/* Commits it. It is then in the log in memory, whose text the caller has to write. */
static inline uint32_t pcalc_commit(pcalc *store, uint32_t session, pcalc_answer *answer)
{
    return pcalc_plainly(store, PCALC_COMMIT, session, answer);
}

/* Undoes it. */
static inline uint32_t pcalc_abort(pcalc *store, uint32_t session, pcalc_answer *answer)
{
    return pcalc_plainly(store, PCALC_ABORT, session, answer);
}

/* Reads a key of a space, 0 to 65,535, and copies as much of its value as fits into `room`. */
static inline uint32_t pcalc_get(pcalc *store, uint32_t session, uint32_t space, const void *key, size_t key_length, void *room,
                                 size_t room_length, pcalc_answer *answer)
{
    const pcalc_ask ask = { PCALC_GET, session, space, 0, 0, 0 };
    uint8_t none = 0;
    uint32_t fault = pcalc_null(key, key_length, room, room_length);
    uint32_t kind = fault ? pcalc_refuse(fault, answer) : pcalc_ask_with(store, &ask, key, key_length, NULL, 0, answer);
    if (kind == PCALC_FOUND && room_length > 0) {
        pcalc_copy(store, 0, &none, 0, (uint8_t *)room, room_length);
    }
    return kind;
}

/* Sets a key to a value. */
static inline uint32_t pcalc_put(pcalc *store, uint32_t session, uint32_t space, const void *key, size_t key_length, const void *value,
                                 size_t value_length, pcalc_answer *answer)
{
    const pcalc_ask ask = { PCALC_PUT, session, space, 0, 0, 0 };
    return pcalc_ask_with(store, &ask, key, key_length, value, value_length, answer);
}

/* Removes a key; returns PCALC_MADE even if it has no value. */
static inline uint32_t pcalc_del(pcalc *store, uint32_t session, uint32_t space, const void *key, size_t key_length, pcalc_answer *answer)
{
    const pcalc_ask ask = { PCALC_DEL, session, space, 0, 0, 0 };
    return pcalc_ask_with(store, &ask, key, key_length, NULL, 0, answer);
}

/* Adds to the number that is a key's value, 8 bytes in big-endian order, or to 0 if it has no value. */
static inline uint32_t pcalc_add(pcalc *store, uint32_t session, uint32_t space, const void *key, size_t key_length, int64_t delta,
                                 pcalc_answer *answer)
{
    const pcalc_ask ask = { PCALC_ADD, session, space, 0, 0, delta };
    return pcalc_ask_with(store, &ask, key, key_length, NULL, 0, answer);
}

/* A step of a point's cycle: PCALC_POINT, PCALC_SEAL, PCALC_CAPTURE, PCALC_DONE or PCALC_REST. */
static inline uint32_t pcalc_phase(pcalc *store, uint32_t kind, pcalc_answer *answer)
{
    return pcalc_plainly(store, kind, 0, answer);
}

/* Takes a key of the point, and copies its bytes and its value as far as they fit. */
static inline uint32_t pcalc_take(pcalc *store, void *key_room, size_t key_room_length, void *value_room, size_t value_room_length,
                                  pcalc_answer *answer)
{
    uint32_t fault = pcalc_null(key_room, key_room_length, value_room, value_room_length);
    uint32_t kind = fault ? pcalc_refuse(fault, answer) : pcalc_plainly(store, PCALC_TAKE, 0, answer);
    if (kind == PCALC_TOOK || kind == PCALC_TOOK_ABSENT) {
        uint8_t no_key, no_value;
        pcalc_copy(store, 0, key_room ? (uint8_t *)key_room : &no_key, key_room_length, value_room ? (uint8_t *)value_room : &no_value,
                   value_room_length);
    }
    return kind;
}

/* Joins two files of the shelf. */
static inline uint32_t pcalc_join(pcalc *store, uint32_t first, uint32_t second, pcalc_answer *answer)
{
    const pcalc_ask ask = { PCALC_JOIN, 0, 0, first, second, 0 };
    return pcalc_ask_with(store, &ask, NULL, 0, NULL, 0, answer);
}

#ifdef __cplusplus
}
#endif

#endif
