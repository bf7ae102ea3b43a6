// A library to preload: it records the calls that a program makes of the system, or lets some fail.
//
//     cc -O2 -Wall -Werror -shared -fPIC -pthread -o watch.so tests/helpers/watch.c -ldl
//     SILT_WATCH_LOG=FILE LD_PRELOAD=./watch.so PROGRAM WORDS..
//
// It reads these environment variables. CALL is one of `call_names` below. N counts the calls of
// that name from 1. Counting begins when the program starts: after the loader and the constructors
// of the C library. `CALL:N+` means the N-th call and all later ones. `CALL@T:N` counts the calls
// of the T-th thread that the program starts alone. Commas divide several words.
//
//     SILT_WATCH_LOG=FILE          records the calls in this file, which watch.py reads
//     SILT_WATCH_FAIL=CALL:N:ERRNO that call is not made and fails so: EIO, ENOSPC, EINTR, ..
//     SILT_WATCH_SHORT=CALL:N      that call moves one byte alone
//     SILT_WATCH_SLOW=CALL:N:M     that call begins M milliseconds later
//     SILT_WATCH_HOLD=CALL:N:FILE  that call begins when there is such a file; of `thread` the thread that it starts does
//     SILT_WATCH_DROP=CALL[:N]     those calls are not made and report success; no record has them
//     SILT_WATCH_COUNTS=FILE       at the end, one line `CALL NUMBER` for each name, and `freed BYTES`
//     SILT_WATCH_LISTS=1           watches the system's lists of file systems too
//
// Files in which the system lists file systems, as /proc/self/mountinfo, are left alone without that: their calls are not
// counted and not recorded.
//
// `open` is open and openat. `accept` is accept and accept4. `rename` is rename, renameat and renameat2.
// `unlink` is unlink and unlinkat. `stat` is statx. `thread` is pthread_create. `memory`
// is malloc, calloc, realloc, aligned_alloc, memalign and posix_memalign, also if the C library
// calls them. A program with its own allocator, as one with a memory checker, makes none of these. The bytes of `freed` are
// those of the largest block of memory that was freed.
//
// The record's order. Calls that change a file are made one at a time and recorded as they end.
// Writes to the standard output and to sockets are recorded as they begin. So a sync that is
// before a reply ended before the reply began. Reads are recorded as they end. A call that was made
// to fail is recorded with its error. Requests for memory are counted and not recorded.
#define _GNU_SOURCE
#include <dlfcn.h>
#include <errno.h>
#include <fcntl.h>
#include <limits.h>
#include <malloc.h>
#include <pthread.h>
#include <stdarg.h>
#include <stdatomic.h>
#include <stdint.h>
#include <stdio.h>
#include <stdlib.h>
#include <string.h>
#include <sys/file.h>
#include <sys/socket.h>
#include <sys/stat.h>
#include <sys/syscall.h>
#include <sys/uio.h>
#include <time.h>
#include <unistd.h>

enum call {
    READ, WRITE, PREAD, PWRITE, FSYNC, FDATASYNC, FTRUNCATE, OPEN, CLOSE, FLOCK, ACCEPT, RECV, SEND, RENAME, UNLINK, MKDIR, RMDIR, SYMLINK,
    READLINK, STAT, THREAD, MEMORY,
    CALLS, RESULT = CALLS
};

// The record begins with these names. A `result` corrects the latest write or send of its thread.
static const char *const call_names[] = {"read", "write", "pread", "pwrite", "fsync", "fdatasync", "ftruncate", "open",
    "close", "flock", "accept", "recv", "send", "rename", "unlink", "mkdir", "rmdir", "symlink", "readlink",
    "stat", "thread", "memory", "result"};

static const struct { const char *name; int number; } error_names[] = {
    {"EIO", EIO}, {"ENOSPC", ENOSPC}, {"EINTR", EINTR}, {"EAGAIN", EAGAIN}, {"ENOMEM", ENOMEM}, {"EMFILE", EMFILE},
    {"ENFILE", ENFILE}, {"ECONNABORTED", ECONNABORTED}, {"ECONNRESET", ECONNRESET}, {"EPIPE", EPIPE},
    {"EPERM", EPERM}, {"EPROTO", EPROTO}, {"ENETDOWN", ENETDOWN}, {"EACCES", EACCES}, {"EBADF", EBADF}, {"EROFS", EROFS}, {"EDQUOT", EDQUOT}, {"EFBIG", EFBIG}, {"EINVAL", EINVAL}};

enum what { FAIL, SHORT, DROP, SLOW, HOLD };

enum { ANY_THREAD = -1 };

// What is planned for some calls of one name, of one thread or of any. The number is an error's, or of milliseconds. The
// file is one that is waited for.
struct plan {
    enum what what;
    enum call call;
    long thread, first, last;
    int number;
    const char *file;
};

struct record {
    uint8_t call, unused[3];
    int32_t fd, error;
    uint32_t thread;
    int64_t at, asked, result;
    uint32_t len, unused_too;
};

static struct plan plans[64];
static int plan_count, log_fd = -1, is_started, watches_lists;
// Which descriptors are those of lists of file systems that are left alone.
static atomic_char is_list[1024];
static atomic_long counts[CALLS], threads, freed;
// The number of this thread, from 1 in the order of their starts, and how many calls it made. They need no memory.
static __thread long own_number __attribute__((tls_model("initial-exec"))), own_counts[CALLS] __attribute__((tls_model("initial-exec")));
static pthread_mutex_t lock = PTHREAD_MUTEX_INITIALIZER;

extern void *__libc_malloc(size_t), *__libc_calloc(size_t, size_t), *__libc_realloc(void *, size_t);
extern void *__libc_memalign(size_t, size_t), __libc_free(void *);
static __typeof__(&read) real_read;
static __typeof__(&write) real_write;
static __typeof__(&pread) real_pread;
static __typeof__(&pwrite) real_pwrite;
static __typeof__(&fsync) real_fsync;
static __typeof__(&fdatasync) real_fdatasync;
static __typeof__(&ftruncate) real_ftruncate;
static int (*real_openat)(int, const char *, int, ...);
static __typeof__(&close) real_close;
static __typeof__(&flock) real_flock;
static __typeof__(&accept4) real_accept4;
static __typeof__(&recv) real_recv;
static __typeof__(&send) real_send;
static __typeof__(&renameat2) real_renameat2;
static __typeof__(&unlinkat) real_unlinkat;
static __typeof__(&mkdir) real_mkdir;
static __typeof__(&rmdir) real_rmdir;
static __typeof__(&symlink) real_symlink;
static __typeof__(&readlink) real_readlink;
static __typeof__(&statx) real_statx;
static __typeof__(&pthread_create) real_pthread_create;
static __typeof__(&_exit) real_exit;

static void refuse_words(const char *word) {
    dprintf(2, "watch.c: not understood: %s\n", word);
    syscall(SYS_exit_group, 99);
}

static int number_of(const char *name, size_t len) {
    for (int i = 0; i < CALLS; i++)
        if (strlen(call_names[i]) == len && !memcmp(call_names[i], name, len)) return i;
    refuse_words(name);
    return 0;
}

static int error_of(const char *name) {
    for (size_t i = 0; i < sizeof error_names / sizeof *error_names; i++)
        if (!strcmp(error_names[i].name, name)) return error_names[i].number;
    refuse_words(name);
    return 0;
}

// One word of a variable: CALL, CALL:N, CALL:N:ERRNO, CALL:N:MILLISECONDS or CALL:N:FILE. A thread may be behind CALL. N may
// end in a plus.
static void read_plan(enum what what, const char *word) {
    if (plan_count == sizeof plans / sizeof *plans) refuse_words(word);
    struct plan *plan = &plans[plan_count++];
    size_t name = strcspn(word, "@:");
    char *rest = (char *)word + name;
    *plan = (struct plan){what, number_of(word, name), ANY_THREAD, 1, INT64_MAX, EIO, NULL};
    if (*rest == '@') plan->thread = strtol(rest + 1, &rest, 10);
    if (!*rest && what == DROP) return;
    if (*rest != ':') refuse_words(word);
    plan->first = plan->last = strtol(rest + 1, &rest, 10);
    if (*rest == '+') plan->last = INT64_MAX, rest++;
    if (what == FAIL && *rest == ':') plan->number = error_of(rest + 1);
    else if (what == SLOW && *rest == ':') plan->number = atoi(rest + 1);
    else if (what == HOLD && *rest == ':') plan->file = strdup(rest + 1);
    else if (*rest || what == FAIL || what == SLOW || what == HOLD) refuse_words(word);
}

static void read_plans(enum what what, const char *name) {
    char words[4096], *word, *rest = words;
    const char *set = getenv(name);
    if (!set) return;
    if (strlen(set) >= sizeof words) refuse_words(set);
    strcpy(words, set);
    while ((word = strsep(&rest, ",")) != NULL)
        if (*word) read_plan(what, word);
}

// The record's file gets a high number, and the program's own files have the numbers that they
// have without it.
static void open_log(void) {
    const char *path = getenv("SILT_WATCH_LOG");
    if (!path) return;
    int low = real_openat(AT_FDCWD, path, O_WRONLY | O_CREAT | O_TRUNC | O_APPEND | O_CLOEXEC, 0666);
    if (low < 0) refuse_words(path);
    log_fd = fcntl(low, F_DUPFD_CLOEXEC, 500);
    if (log_fd < 0) log_fd = low;
    else real_close(low);
    for (int i = 0; i <= RESULT; i++) dprintf(log_fd, "%s%c", call_names[i], i == RESULT ? '\n' : ' ');
}

#define FIND(pointer, name) pointer = (__typeof__(pointer))dlsym(RTLD_NEXT, name)

static void find_calls(void) {
    FIND(real_read, "read");
    FIND(real_write, "write");
    FIND(real_pread, "pread");
    FIND(real_pwrite, "pwrite");
    FIND(real_fsync, "fsync");
    FIND(real_fdatasync, "fdatasync");
    FIND(real_ftruncate, "ftruncate");
    FIND(real_openat, "openat");
    FIND(real_close, "close");
    FIND(real_flock, "flock");
    FIND(real_accept4, "accept4");
    FIND(real_recv, "recv");
    FIND(real_send, "send");
    FIND(real_renameat2, "renameat2");
    FIND(real_unlinkat, "unlinkat");
    FIND(real_mkdir, "mkdir");
    FIND(real_rmdir, "rmdir");
    FIND(real_symlink, "symlink");
    FIND(real_readlink, "readlink");
    FIND(real_statx, "statx");
    FIND(real_pthread_create, "pthread_create");
    FIND(real_exit, "_exit");
}

__attribute__((constructor)) static void start(void) {
    find_calls();
    read_plans(FAIL, "SILT_WATCH_FAIL");
    read_plans(SHORT, "SILT_WATCH_SHORT");
    read_plans(DROP, "SILT_WATCH_DROP");
    read_plans(SLOW, "SILT_WATCH_SLOW");
    read_plans(HOLD, "SILT_WATCH_HOLD");
    watches_lists = getenv("SILT_WATCH_LISTS") != NULL;
    open_log();
    is_started = 1;
}

// Some library's constructor may make a call before ours has run.
static void need_calls(void) {
    if (!real_exit) find_calls();
}

static int is_planned(const struct plan *plan, enum call call, long number) {
    if (plan->call != call || (plan->thread != ANY_THREAD && plan->thread != own_number)) return 0;
    long its = plan->thread == ANY_THREAD ? number : own_counts[call];
    return plan->first <= its && its <= plan->last;
}

static void wait_milliseconds(int number) {
    struct timespec time = {number / 1000, number % 1000 * 1000000L};
    nanosleep(&time, NULL);
}

static void wait_for(const char *file) {
    while (access(file, F_OK)) wait_milliseconds(1);
}

// Counts a call, waits if it is to begin later, and finds what else is planned for it.
static const struct plan *count(enum call call) {
    if (!is_started) return NULL;
    const struct plan *found = NULL;
    long number = atomic_fetch_add(&counts[call], 1) + 1;
    own_counts[call]++;
    for (int i = plan_count - 1; i >= 0; i--) {
        if (!is_planned(&plans[i], call, number)) continue;
        if (plans[i].what == SLOW) wait_milliseconds(plans[i].number);
        else if (plans[i].what == HOLD && call != THREAD) wait_for(plans[i].file);
        else found = &plans[i];
    }
    return found;
}

// Adds a record. The caller holds the lock. It leaves errno as it is.
static void note(enum call call, int fd, int64_t at, int64_t asked, int64_t result, const void *bytes, size_t len) {
    int kept = errno;
    if (log_fd < 0 || !is_started) return;
    struct record record = {.call = call, .fd = fd, .error = result < 0 ? kept : 0, .thread = syscall(SYS_gettid),
        .at = at, .asked = asked, .result = result, .len = len};
    struct iovec parts[] = {{&record, sizeof record}, {(void *)bytes, len}};
    if (syscall(SYS_writev, log_fd, parts, 2) != (long)(sizeof record + len)) refuse_words("SILT_WATCH_LOG");
    errno = kept;
}

static void note_alone(enum call call, int fd, int64_t at, int64_t asked, int64_t result, const void *bytes, size_t len) {
    pthread_mutex_lock(&lock);
    note(call, fd, at, asked, result, bytes, len);
    pthread_mutex_unlock(&lock);
}

static int is(const struct plan *plan, enum what what) { return plan && plan->what == what; }

// What a failing call answers.
static int failure(const struct plan *plan) {
    errno = plan->number;
    return -1;
}

static size_t moved(const struct plan *plan, size_t len) { return is(plan, SHORT) && len > 1 ? 1 : len; }

static int names_list(const char *path) {
    return !watches_lists && (!strcmp(path, "/proc/self/mountinfo") || !strncmp(path, "/sys/fs/ext4/", 13));
}

static int is_left_alone(int fd) { return fd >= 0 && fd < (int)sizeof is_list && is_list[fd]; }

ssize_t read(int fd, void *buf, size_t len) {
    need_calls();
    if (is_left_alone(fd)) return real_read(fd, buf, len);
    const struct plan *plan = count(READ);
    if (is(plan, DROP)) return 0;
    ssize_t got = is(plan, FAIL) ? failure(plan) : real_read(fd, buf, moved(plan, len));
    note_alone(READ, fd, -1, len, got, buf, got > 0 ? got : 0);
    return got;
}

ssize_t recv(int fd, void *buf, size_t len, int flags) {
    need_calls();
    const struct plan *plan = count(RECV);
    if (is(plan, DROP)) return 0;
    ssize_t got = is(plan, FAIL) ? failure(plan) : real_recv(fd, buf, moved(plan, len), flags);
    note_alone(RECV, fd, -1, len, got, buf, got > 0 ? got : 0);
    return got;
}

ssize_t pread(int fd, void *buf, size_t len, off_t at) {
    need_calls();
    const struct plan *plan = count(PREAD);
    if (is(plan, DROP)) return len;
    ssize_t got = is(plan, FAIL) ? failure(plan) : real_pread(fd, buf, moved(plan, len), at);
    note_alone(PREAD, fd, at, len, got, NULL, 0);
    return got;
}

// A write to a stream or a socket: recorded as it begins, and again if it does not take all.
static ssize_t write_out(enum call call, int fd, const void *buf, size_t len, int flags) {
    need_calls();
    const struct plan *plan = count(call);
    if (is(plan, DROP)) return len;
    note_alone(call, fd, -1, len, len, buf, len);
    size_t some = moved(plan, len);
    ssize_t put = is(plan, FAIL) ? failure(plan)
        : call == SEND           ? real_send(fd, buf, some, flags)
                                 : real_write(fd, buf, some);
    if (put != (ssize_t)len) note_alone(RESULT, fd, -1, len, put, NULL, 0);
    return put;
}

ssize_t write(int fd, const void *buf, size_t len) { return write_out(WRITE, fd, buf, len, 0); }
ssize_t __write(int fd, const void *buf, size_t len) { return write_out(WRITE, fd, buf, len, 0); }
ssize_t send(int fd, const void *buf, size_t len, int flags) { return write_out(SEND, fd, buf, len, flags); }

ssize_t pwrite(int fd, const void *buf, size_t len, off_t at) {
    need_calls();
    const struct plan *plan = count(PWRITE);
    if (is(plan, DROP)) return len;
    pthread_mutex_lock(&lock);
    ssize_t put = is(plan, FAIL) ? failure(plan) : real_pwrite(fd, buf, moved(plan, len), at);
    note(PWRITE, fd, at, len, put, buf, len);
    pthread_mutex_unlock(&lock);
    return put;
}

ssize_t pread64(int fd, void *buf, size_t len, off64_t at) { return pread(fd, buf, len, at); }
ssize_t pwrite64(int fd, const void *buf, size_t len, off64_t at) { return pwrite(fd, buf, len, at); }

static int sync_file(enum call call, int fd, int (*real)(int)) {
    const struct plan *plan = count(call);
    if (is(plan, DROP)) return 0;
    pthread_mutex_lock(&lock);
    int got = is(plan, FAIL) ? failure(plan) : real(fd);
    note(call, fd, -1, 0, got, NULL, 0);
    pthread_mutex_unlock(&lock);
    return got;
}

int fsync(int fd) {
    need_calls();
    return sync_file(FSYNC, fd, real_fsync);
}

int fdatasync(int fd) {
    need_calls();
    return sync_file(FDATASYNC, fd, real_fdatasync);
}

int ftruncate(int fd, off_t len) {
    need_calls();
    const struct plan *plan = count(FTRUNCATE);
    if (is(plan, DROP)) return 0;
    pthread_mutex_lock(&lock);
    int got = is(plan, FAIL) ? failure(plan) : real_ftruncate(fd, len);
    note(FTRUNCATE, fd, len, 0, got, NULL, 0);
    pthread_mutex_unlock(&lock);
    return got;
}

int ftruncate64(int fd, off64_t len) { return ftruncate(fd, len); }

static int open_file(int folder, const char *path, int flags, mode_t mode) {
    need_calls();
    if (names_list(path)) {
        int list = real_openat(folder, path, flags, mode);
        if (list >= 0 && list < (int)sizeof is_list) is_list[list] = 1;
        return list;
    }
    const struct plan *plan = count(OPEN);
    pthread_mutex_lock(&lock);
    int fd = is(plan, FAIL) ? failure(plan) : real_openat(folder, path, flags, mode);
    note(OPEN, fd, -1, flags, fd, path, strlen(path));
    pthread_mutex_unlock(&lock);
    return fd;
}

// The permissions: the argument after the flags, if the call may make a file.
#define MODE(flags, mode)                             \
    mode_t mode = 0;                                  \
    if ((flags) & (O_CREAT | __O_TMPFILE)) {          \
        va_list rest;                                 \
        va_start(rest, flags);                        \
        mode = va_arg(rest, mode_t);                  \
        va_end(rest);                                 \
    }

int open(const char *path, int flags, ...) {
    MODE(flags, mode)
    return open_file(AT_FDCWD, path, flags, mode);
}

int open64(const char *path, int flags, ...) {
    MODE(flags, mode)
    return open_file(AT_FDCWD, path, flags, mode);
}

int openat(int folder, const char *path, int flags, ...) {
    MODE(flags, mode)
    return open_file(folder, path, flags, mode);
}

int openat64(int folder, const char *path, int flags, ...) {
    MODE(flags, mode)
    return open_file(folder, path, flags, mode);
}

int close(int fd) {
    need_calls();
    if (is_left_alone(fd)) {
        is_list[fd] = 0;
        return real_close(fd);
    }
    count(CLOSE);
    pthread_mutex_lock(&lock);
    int got = real_close(fd);
    note(CLOSE, fd, -1, 0, got, NULL, 0);
    pthread_mutex_unlock(&lock);
    return got;
}

int flock(int fd, int how) {
    need_calls();
    const struct plan *plan = count(FLOCK);
    int got = is(plan, FAIL) ? failure(plan) : real_flock(fd, how);
    note_alone(FLOCK, fd, -1, how, got, NULL, 0);
    return got;
}

int accept4(int fd, struct sockaddr *address, socklen_t *len, int flags) {
    need_calls();
    const struct plan *plan = count(ACCEPT);
    int got = is(plan, FAIL) ? failure(plan) : real_accept4(fd, address, len, flags);
    note_alone(ACCEPT, fd, -1, 0, got, NULL, 0);
    return got;
}

int accept(int fd, struct sockaddr *address, socklen_t *len) { return accept4(fd, address, len, 0); }

// The record has both names, with a zero between them.
int renameat2(int from_folder, const char *from, int to_folder, const char *to, unsigned flags) {
    need_calls();
    const struct plan *plan = count(RENAME);
    if (is(plan, DROP)) return 0;
    char names[2 * PATH_MAX + 2];
    int len = snprintf(names, sizeof names, "%s%c%s", from, 0, to);
    if (len >= (int)sizeof names) refuse_words(to);
    pthread_mutex_lock(&lock);
    int got = is(plan, FAIL) ? failure(plan) : real_renameat2(from_folder, from, to_folder, to, flags);
    note(RENAME, -1, -1, flags, got, names, len);
    pthread_mutex_unlock(&lock);
    return got;
}

int renameat(int from_folder, const char *from, int to_folder, const char *to) {
    return renameat2(from_folder, from, to_folder, to, 0);
}

int rename(const char *from, const char *to) { return renameat2(AT_FDCWD, from, AT_FDCWD, to, 0); }

int unlinkat(int folder, const char *path, int flags) {
    need_calls();
    const struct plan *plan = count(UNLINK);
    if (is(plan, DROP)) return 0;
    pthread_mutex_lock(&lock);
    int got = is(plan, FAIL) ? failure(plan) : real_unlinkat(folder, path, flags);
    note(UNLINK, -1, -1, flags, got, path, strlen(path));
    pthread_mutex_unlock(&lock);
    return got;
}

int unlink(const char *path) { return unlinkat(AT_FDCWD, path, 0); }

int mkdir(const char *path, mode_t mode) {
    need_calls();
    const struct plan *plan = count(MKDIR);
    if (is(plan, DROP)) return 0;
    pthread_mutex_lock(&lock);
    int got = is(plan, FAIL) ? failure(plan) : real_mkdir(path, mode);
    note(MKDIR, -1, -1, mode, got, path, strlen(path));
    pthread_mutex_unlock(&lock);
    return got;
}

int rmdir(const char *path) {
    need_calls();
    const struct plan *plan = count(RMDIR);
    if (is(plan, DROP)) return 0;
    pthread_mutex_lock(&lock);
    int got = is(plan, FAIL) ? failure(plan) : real_rmdir(path);
    note(RMDIR, -1, -1, 0, got, path, strlen(path));
    pthread_mutex_unlock(&lock);
    return got;
}

// The record has the text and the name, with a zero between them.
int symlink(const char *text, const char *path) {
    need_calls();
    const struct plan *plan = count(SYMLINK);
    if (is(plan, DROP)) return 0;
    char names[2 * PATH_MAX + 2];
    int len = snprintf(names, sizeof names, "%s%c%s", text, 0, path);
    if (len >= (int)sizeof names) refuse_words(path);
    pthread_mutex_lock(&lock);
    int got = is(plan, FAIL) ? failure(plan) : real_symlink(text, path);
    note(SYMLINK, -1, -1, 0, got, names, len);
    pthread_mutex_unlock(&lock);
    return got;
}

ssize_t readlink(const char *restrict path, char *restrict buf, size_t len) {
    need_calls();
    const struct plan *plan = count(READLINK);
    ssize_t got = is(plan, FAIL) ? failure(plan) : real_readlink(path, buf, len);
    note_alone(READLINK, -1, -1, len, got, path, strlen(path));
    return got;
}

int statx(int folder, const char *restrict path, int flags, unsigned mask, struct statx *restrict found) {
    need_calls();
    const struct plan *plan = count(STAT);
    return is(plan, FAIL) ? failure(plan) : real_statx(folder, path, flags, mask, found);
}

struct started {
    void *(*run)(void *);
    void *with;
    long number;
    const char *file;
};

// A thread begins here, and gets its number. It may have to wait for a file.
static void *begin(void *with) {
    struct started started = *(struct started *)with;
    __libc_free(with);
    own_number = started.number;
    if (started.file) wait_for(started.file);
    return started.run(started.with);
}

int pthread_create(pthread_t *thread, const pthread_attr_t *how, void *(*run)(void *), void *with) {
    need_calls();
    const struct plan *plan = count(THREAD);
    struct started *started = __libc_malloc(sizeof *started);
    if (!started) return EAGAIN;
    *started = (struct started){run, with, atomic_fetch_add(&threads, 1) + 1, is(plan, HOLD) ? plan->file : NULL};
    int error = is(plan, FAIL) ? plan->number : real_pthread_create(thread, how, begin, started);
    if (error) __libc_free(started);
    note_alone(THREAD, -1, -1, 0, error, NULL, 0);
    return error;
}

// Whether this request for memory is refused.
static int is_refused(void) {
    const struct plan *plan = count(MEMORY);
    if (!is(plan, FAIL)) return 0;
    errno = plan->number;
    return 1;
}

void *malloc(size_t len) { return is_refused() ? NULL : __libc_malloc(len); }
void *calloc(size_t number, size_t len) { return is_refused() ? NULL : __libc_calloc(number, len); }
void *realloc(void *old, size_t len) { return is_refused() ? NULL : __libc_realloc(old, len); }
void *aligned_alloc(size_t align, size_t len) { return is_refused() ? NULL : __libc_memalign(align, len); }
void *memalign(size_t align, size_t len) { return is_refused() ? NULL : __libc_memalign(align, len); }

int posix_memalign(void **made, size_t align, size_t len) {
    void *got = is_refused() ? NULL : __libc_memalign(align, len);
    if (!got) return ENOMEM;
    *made = got;
    return 0;
}

void free(void *block) {
    long size = block ? malloc_usable_size(block) : 0, most = freed;
    while (most < size && !atomic_compare_exchange_weak(&freed, &most, size)) {}
    __libc_free(block);
}

// Writes the counts, once: when the program returns from main, or when it ends at once.
__attribute__((destructor)) static void write_counts(void) {
    static atomic_int is_written;
    const char *path = getenv("SILT_WATCH_COUNTS");
    if (!path || atomic_exchange(&is_written, 1)) return;
    int fd = real_openat(AT_FDCWD, path, O_WRONLY | O_CREAT | O_TRUNC | O_CLOEXEC, 0666);
    for (int i = 0; i < CALLS; i++) dprintf(fd, "%s %ld\n", call_names[i], (long)counts[i]);
    dprintf(fd, "freed %ld\n", (long)freed);
    real_close(fd);
}

void _exit(int status) {
    need_calls();
    write_counts();
    real_exit(status);
    __builtin_unreachable();
}
