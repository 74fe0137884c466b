/* Loaded before the C library, into a program whose journal is the file that JOURNAL names. In LOG, if that is set,
   stand then, a line each and in order,

       append N           so many bytes were appended to the journal
       sync N             the first N bytes of it are durable
       call NAME TEXT     this is about to be written to a file whose name ends in `.calls`

   A sync takes SYNC_MS milliseconds, where that is set, and does nothing else. The append with the number in
   REFUSE_APPEND, from 1, and the sync with that in REFUSE_SYNC are refused, and so is each behind it; the append with
   the number in CUT_APPEND gets half of its bytes, and what is left of it is refused. */
#define _GNU_SOURCE
#include <dlfcn.h>
#include <errno.h>
#include <fcntl.h>
#include <pthread.h>
#include <stdatomic.h>
#include <stdio.h>
#include <stdlib.h>
#include <string.h>
#include <sys/stat.h>
#include <time.h>
#include <unistd.h>

static atomic_long appends, syncs;
static int log_file = -1;
static pthread_once_t opened = PTHREAD_ONCE_INIT;

static void open_log(void) {
    const char *name = getenv("LOG");
    if (name != NULL) log_file = open(name, O_WRONLY | O_APPEND | O_CREAT | O_CLOEXEC, 0666);
}

static ssize_t write_on(int file, const void *bytes, size_t size) {
    static ssize_t (*next)(int, const void *, size_t);
    if (next == NULL) next = (ssize_t (*)(int, const void *, size_t))dlsym(RTLD_NEXT, "write");
    return next(file, bytes, size);
}

/* One line of the log, by one write. */
static void note(const char *line, size_t size) {
    int error = errno;
    if (log_file >= 0) (void)!write_on(log_file, line, size);
    errno = error;
}

static void note_number(const char *word, long number) {
    char line[64];
    note(line, (size_t)snprintf(line, sizeof line, "%s %ld\n", word, number));
}

static long size_of(int file) {
    struct stat there;
    return fstat(file, &there) == 0 ? (long)there.st_size : -1;
}

static int is_journal(int file) {
    const char *name = getenv("JOURNAL");
    struct stat named, there;
    return name != NULL && stat(name, &named) == 0 && fstat(file, &there) == 0 && named.st_ino == there.st_ino &&
           named.st_dev == there.st_dev;
}

/* Whether a number in the surroundings is this one; or has been passed, where so asked. */
static int is_numbered(const char *name, long number, int or_behind) {
    const char *text = getenv(name);
    return text != NULL && (number == atol(text) || (or_behind && number > atol(text)));
}

static void note_call(int file, const char *bytes, size_t size) {
    char link[64], name[4096], line[8192];
    snprintf(link, sizeof link, "/proc/self/fd/%d", file);
    ssize_t length = readlink(link, name, sizeof name - 1);
    if (length < 6 || memcmp(name + length - 6, ".calls", 6) != 0) return;
    name[length - 6] = 0;
    const char *base = strrchr(name, '/');
    int head = snprintf(line, sizeof line, "call %s ", base == NULL ? name : base + 1);
    size_t room = sizeof line - (size_t)head - 1, shown = size < room ? size : room;
    memcpy(line + head, bytes, shown);
    shown += (size_t)head;
    if (line[shown - 1] != '\n') line[shown++] = '\n';
    note(line, shown);
}

ssize_t write(int file, const void *bytes, size_t size) {
    static atomic_int is_cut;
    pthread_once(&opened, open_log);
    if (log_file < 0) return write_on(file, bytes, size);
    if (!is_journal(file)) {
        note_call(file, bytes, size);
        return write_on(file, bytes, size);
    }
    long number = atomic_fetch_add(&appends, 1) + 1;
    if (is_numbered("REFUSE_APPEND", number, 1) || atomic_load(&is_cut)) {
        errno = ENOSPC;
        return -1;
    }
    if (is_numbered("CUT_APPEND", number, 0)) {
        atomic_store(&is_cut, 1);
        size = size / 2;
        if (size == 0) {
            errno = ENOSPC;
            return -1;
        }
    }
    ssize_t written = write_on(file, bytes, size);
    if (written > 0) note_number("append", (long)written);
    return written;
}

int fdatasync(int file) {
    static int (*next)(int);
    pthread_once(&opened, open_log);
    const char *pause = getenv("SYNC_MS");
    int of_journal = log_file >= 0 && is_journal(file);
    long size = of_journal ? size_of(file) : 0;
    if (of_journal && is_numbered("REFUSE_SYNC", atomic_fetch_add(&syncs, 1) + 1, 1)) {
        errno = EIO;
        return -1;
    }
    if (pause != NULL) {
        long left = atol(pause);
        struct timespec time = {left / 1000, left % 1000 * 1000000};
        nanosleep(&time, NULL);
    } else {
        if (next == NULL) next = (int (*)(int))dlsym(RTLD_NEXT, "fdatasync");
        if (next(file) != 0) return -1;
    }
    if (of_journal) note_number("sync", size);
    return 0;
}
