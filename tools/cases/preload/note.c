// Notes the calls that flush a file, by an s, and those that rename one, by an r, in the file whose path is the value of NOTED_SYNCS. What
// it uses of the C library is declared here, so it needs no header.
typedef __SIZE_TYPE__ size_t;
typedef __PTRDIFF_TYPE__ ssize_t;
#define NULL ((void *)0)
#define NEXT ((void *)-1l)
#define WRITE_APPEND 02001

char *getenv(const char *name);
void *dlsym(void *handle, const char *name);
int open(const char *path, int flags, ...);
ssize_t write(int file, const void *bytes, size_t length);
int close(int file);

static void note(const char *call) {
    const char *path = getenv("NOTED_SYNCS");
    int file = path == NULL ? -1 : open(path, WRITE_APPEND);
    if (file >= 0) {
        write(file, call, 1);
        close(file);
    }
}

int fdatasync(int file) {
    note("s");
    int (*next)(int) = (int (*)(int))dlsym(NEXT, "fdatasync");
    return next(file);
}

int fsync(int file) {
    note("s");
    int (*next)(int) = (int (*)(int))dlsym(NEXT, "fsync");
    return next(file);
}

int rename(const char *from, const char *to) {
    note("r");
    int (*next)(const char *, const char *) = (int (*)(const char *, const char *))dlsym(NEXT, "rename");
    return next(from, to);
}
