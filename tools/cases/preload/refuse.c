// Refuses one growth: the call of malloc or realloc whose number, from 1, is the value of REFUSED_GROWTH. It says so on
// standard error. Threads share one count. What it uses of the C library is declared here, so it needs no header.
typedef __SIZE_TYPE__ size_t;
typedef __PTRDIFF_TYPE__ ssize_t;
#define NULL ((void *)0)

char *getenv(const char *name);
long atol(const char *number);
ssize_t write(int file, const void *bytes, size_t length);

void *__libc_malloc(size_t size);
void *__libc_realloc(void *block, size_t size);

static long calls = 0;

static int is_refused(void) {
    const char *number = getenv("REFUSED_GROWTH");
    long call = __atomic_add_fetch(&calls, 1, __ATOMIC_SEQ_CST);
    if (number == NULL || call != atol(number)) {
        return 0;
    }
    static const char message[] = "a growth was refused\n";
    return write(2, message, sizeof message - 1) > 0;
}

void *malloc(size_t size) {
    return is_refused() ? NULL : __libc_malloc(size);
}

void *realloc(void *block, size_t size) {
    return is_refused() ? NULL : __libc_realloc(block, size);
}
