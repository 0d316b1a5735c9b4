// Kills the process at one of the calls that change files: the one whose number, from 1, is the value of KILLED_CALL, before it is made. Threads
// share one count. What it uses of the C library is declared here, so it needs no header.
typedef __SIZE_TYPE__ size_t;
typedef __PTRDIFF_TYPE__ ssize_t;
#define NULL ((void *)0)
#define NEXT ((void *)-1l)

char *getenv(const char *name);
long atol(const char *number);
void *dlsym(void *handle, const char *name);
int raise(int signal);

static long calls = 0;

static void count(void) {
    const char *number = getenv("KILLED_CALL");
    long call = __atomic_add_fetch(&calls, 1, __ATOMIC_SEQ_CST);
    if (number != NULL && call == atol(number)) {
        raise(9);
    }
}

ssize_t write(int file, const void *bytes, size_t length) {
    count();
    ssize_t (*next)(int, const void *, size_t) = (ssize_t (*)(int, const void *, size_t))dlsym(NEXT, "write");
    return next(file, bytes, length);
}

int open(const char *path, int flags, unsigned mode) {
    count();
    int (*next)(const char *, int, unsigned) = (int (*)(const char *, int, unsigned))dlsym(NEXT, "open");
    return next(path, flags, mode);
}

int rename(const char *from, const char *to) {
    count();
    int (*next)(const char *, const char *) = (int (*)(const char *, const char *))dlsym(NEXT, "rename");
    return next(from, to);
}

int unlink(const char *path) {
    count();
    int (*next)(const char *) = (int (*)(const char *))dlsym(NEXT, "unlink");
    return next(path);
}

int fdatasync(int file) {
    count();
    int (*next)(int) = (int (*)(int))dlsym(NEXT, "fdatasync");
    return next(file);
}

int fsync(int file) {
    count();
    int (*next)(int) = (int (*)(int))dlsym(NEXT, "fsync");
    return next(file);
}
