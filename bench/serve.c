/* A client for bench/serve.py: transactions of one put each, to a server on open file descriptors.
 *
 *     serve PROTOCOL LINES DEPTH COUNT KEYS
 *
 * It reads answers from descriptor 0 and writes to descriptor 1. PROTOCOL is `pcalc`, `redis` (MULTI, SET, EXEC) or `set` (only SET). If LINES is 1,
 * each line is answered before the next one is written; otherwise a transaction's lines are sent together, with at most DEPTH transactions
 * under way. KEYS keys are used in turn, in COUNT transactions. On standard error it prints how many microseconds that took.
 */
#include <stdio.h>
#include <stdlib.h>
#include <string.h>
#include <time.h>
#include <unistd.h>

enum { MOST_LINES = 3, MOST_ANSWERS = 4, ROOM = 1 << 16, MOST_OF_ONE = 256 };

struct transaction {
    int lines;
    char text[MOST_LINES][MOST_OF_ONE];
};

struct protocol {
    const char *name;
    /* what the answers to a transaction begin with, and how many of them answer each of its lines */
    const char *answers[MOST_ANSWERS];
    int answered[MOST_LINES];
};

static const struct protocol PROTOCOLS[] = {
    { "pcalc", { "begun ", "ok", "committed " }, { 1, 1, 1 } },
    { "redis", { "+OK", "+QUEUED", "*1", "+OK" }, { 1, 1, 2 } },
    { "set", { "+OK" }, { 1 } },
};

static void fail(const char *what)
{
    fprintf(stderr, "%s\n", what);
    exit(1);
}

static void write_all(const char *text, size_t left)
{
    while (left > 0) {
        ssize_t done = write(1, text, left);
        if (done <= 0) fail("the server reads no more");
        text += done;
        left -= (size_t)done;
    }
}

/* Reads the next line, which must begin with these bytes. */
static void expect(const char *wanted)
{
    static char room[ROOM];
    static size_t begin, end;
    char *stop;
    while ((stop = memchr(room + begin, '\n', end - begin)) == NULL) {
        memmove(room, room + begin, end - begin);
        end -= begin;
        begin = 0;
        ssize_t more = read(0, room + end, ROOM - end);
        if (more <= 0) fail("the server answers no more");
        end += (size_t)more;
    }
    if (strncmp(room + begin, wanted, strlen(wanted)) != 0) {
        *stop = 0;
        fprintf(stderr, "the answer is `%s`, not `%s`\n", room + begin, wanted);
        exit(1);
    }
    begin = (size_t)(stop - room) + 1;
}

static void spell(struct transaction *it, const struct protocol *protocol, long number, long keys)
{
    long key = number * 7919 % keys, value = number % 1000000;
    int lines = 0;
    if (strcmp(protocol->name, "pcalc") == 0) {
        strcpy(it->text[lines++], "begin 1\n");
        sprintf(it->text[lines++], "put 1 k%07ld v%07ld\n", key, value);
        strcpy(it->text[lines++], "commit 1\n");
    } else {
        int is_alone = strcmp(protocol->name, "set") == 0;
        if (!is_alone) strcpy(it->text[lines++], "*1\r\n$5\r\nMULTI\r\n");
        sprintf(it->text[lines++], "*3\r\n$3\r\nSET\r\n$8\r\nk%07ld\r\n$8\r\nv%07ld\r\n", key, value);
        if (!is_alone) strcpy(it->text[lines++], "*1\r\n$4\r\nEXEC\r\n");
    }
    it->lines = lines;
}

static void by_lines(const struct protocol *protocol, long count, long keys)
{
    for (long number = 0; number < count; number++) {
        struct transaction it;
        spell(&it, protocol, number, keys);
        for (int line = 0, answer = 0; line < it.lines; line++) {
            write_all(it.text[line], strlen(it.text[line]));
            for (int of_line = 0; of_line < protocol->answered[line]; of_line++) expect(protocol->answers[answer++]);
        }
    }
}

/* Writes whole transactions, and once `depth` of them are under way reads answers until half are. */
static void by_transactions(const struct protocol *protocol, long depth, long count, long keys)
{
    static char room[ROOM];
    long sent = 0, done = 0;
    while (done < count) {
        size_t length = 0;
        while (sent < count && sent - done < depth && length < ROOM - MOST_LINES * MOST_OF_ONE) {
            struct transaction it;
            spell(&it, protocol, sent++, keys);
            for (int line = 0; line < it.lines; line++) {
                strcpy(room + length, it.text[line]);
                length += strlen(it.text[line]);
            }
        }
        write_all(room, length);
        for (long until = sent == count ? count : sent - depth / 2; done < until; done++)
            for (int answer = 0; answer < MOST_ANSWERS && protocol->answers[answer] != NULL; answer++) expect(protocol->answers[answer]);
    }
}

int main(int words, char **word)
{
    const struct protocol *protocol = NULL;
    if (words != 6) fail("serve PROTOCOL LINES DEPTH COUNT KEYS");
    for (size_t at = 0; at < sizeof PROTOCOLS / sizeof *PROTOCOLS; at++)
        if (strcmp(PROTOCOLS[at].name, word[1]) == 0) protocol = &PROTOCOLS[at];
    if (protocol == NULL) fail("PROTOCOL is pcalc, redis or set");
    long depth = atol(word[3]), count = atol(word[4]), keys = atol(word[5]);
    struct timespec began, ended;
    clock_gettime(CLOCK_MONOTONIC, &began);
    if (atoi(word[2])) by_lines(protocol, count, keys);
    else by_transactions(protocol, depth, count, keys);
    clock_gettime(CLOCK_MONOTONIC, &ended);
    fprintf(stderr, "%lld\n", (long long)(ended.tv_sec - began.tv_sec) * 1000000 + (ended.tv_nsec - began.tv_nsec) / 1000);
    return 0;
}
