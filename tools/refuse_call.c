/* Refuses one call of the system, holds it up, or ends the process there. The calls open, read, write, fsync, close, rename and
 * unlink of the program (and their like), and those that look at a file or change whose it is (stat, resolve, chmod, chown), are
 * counted together, from 1. With REFUSE_AT=N in the environment the Nth call, and with REFUSE_FROM=N each such call on the same
 * from it on, meets what REFUSE_HOW says: the number of an error, with which the call is refused; `killed` or
 * `done_and_killed`, where the process is killed before or after the call; `nothing`, where a read or a write answers that it
 * moved no byte; `one`, where it moves one at most; `held`, where the process makes the file REFUSE_HELD and waits before the
 * call until the file REFUSE_UNTIL is there. With REFUSE_REPORT=FILE a line is added there for each call: its name, what it
 * gave, and what it is on, a path or a number of standard input, output or error. For use with LD_PRELOAD. */
#define _GNU_SOURCE
#include <dlfcn.h>
#include <errno.h>
#include <fcntl.h>
#include <signal.h>
#include <stdarg.h>
#include <stdio.h>
#include <stdlib.h>
#include <string.h>
#include <sys/stat.h>
#include <sys/syscall.h>
#include <sys/uio.h>
#include <time.h>
#include <unistd.h>

enum { MOST = 1024 };
static char names[MOST][512];
static long calls, at, from;
static const char *how, *kind_from;
static char on_from[512];
static int report = -2;

static void begin(void) {
    const char *word;
    if (report != -2) return;
    report = -1;
    at = (word = getenv("REFUSE_AT")) ? atol(word) : 0;
    from = (word = getenv("REFUSE_FROM")) ? atol(word) : 0;
    how = (word = getenv("REFUSE_HOW")) ? word : "5";
    if ((word = getenv("REFUSE_REPORT")))
        report = syscall(SYS_openat, AT_FDCWD, word, O_WRONLY | O_CREAT | O_APPEND, 0600);
}

static const char *named(int fd) {
    static char number[16];
    if (fd >= 0 && fd < MOST && names[fd][0]) return names[fd];
    snprintf(number, sizeof number, "%d", fd);
    return number;
}

static void end(void) {
    syscall(SYS_kill, syscall(SYS_getpid), SIGKILL);
}

/* Counts a call, and whether it is the one. */
static int meets(const char *kind, const char *on) {
    begin();
    calls++;
    if (from > 0 && calls >= from) {
        if (calls == from) {
            kind_from = kind;
            snprintf(on_from, sizeof on_from, "%s", on);
        }
        return kind_from && strcmp(kind_from, kind) == 0 && strcmp(on_from, on) == 0;
    }
    return at > 0 && calls == at;
}

/* Waits until the awaited file is there, a minute at most. */
static void hold(void) {
    const char *held = getenv("REFUSE_HELD"), *until = getenv("REFUSE_UNTIL");
    struct timespec moment = {0, 500000};
    if (held) syscall(SYS_close, syscall(SYS_openat, AT_FDCWD, held, O_WRONLY | O_CREAT, 0600));
    for (int n = 0; until && n < 120000 && syscall(SYS_faccessat, AT_FDCWD, until, F_OK) != 0; n++)
        syscall(SYS_nanosleep, &moment, NULL);
}

/* Whether the call is refused instead of done. */
static int refuses(int met) {
    if (!met) return 0;
    if (strcmp(how, "killed") == 0) end();
    if (strcmp(how, "held") == 0) hold();
    if (how[0] < '0' || how[0] > '9') return 0;
    errno = atoi(how);
    return 1;
}

/* What a call gives, which is reported. */
static long ended(int met, const char *kind, const char *on, long result) {
    if (met && strcmp(how, "done_and_killed") == 0) end();
    if (report >= 0) {
        char line[700];
        int kept = errno, n = snprintf(line, sizeof line, "%s %ld %s\n", kind, result, on);
        syscall(SYS_write, report, line, n);
        errno = kept;
    }
    return result;
}

static int opened(int dir, const char *path, int flags, int mode) {
    int met = meets("open", path);
    if (refuses(met)) return -1;
    int fd = ended(met, "open", path, syscall(SYS_openat, dir, path, flags, mode));
    if (fd >= 0 && fd < MOST) snprintf(names[fd], sizeof names[fd], "%s", path);
    return fd;
}

#define MODE(flags) int mode = 0; if ((flags) & (O_CREAT | O_TMPFILE)) { va_list rest; va_start(rest, flags); mode = va_arg(rest, int); va_end(rest); }
int open(const char *path, int flags, ...) { MODE(flags) return opened(AT_FDCWD, path, flags, mode); }
int open64(const char *path, int flags, ...) { MODE(flags) return opened(AT_FDCWD, path, flags, mode); }
int openat(int dir, const char *path, int flags, ...) { MODE(flags) return opened(dir, path, flags, mode); }
int openat64(int dir, const char *path, int flags, ...) { MODE(flags) return opened(dir, path, flags, mode); }

/* How many bytes a met read or write may move. */
static size_t share(int met, size_t n) {
    if (met && strcmp(how, "nothing") == 0) return 0;
    if (met && strcmp(how, "one") == 0 && n > 1) return 1;
    return n;
}

ssize_t read(int fd, void *bytes, size_t n) {
    int met = meets("read", named(fd));
    if (refuses(met)) return -1;
    n = share(met, n);
    return ended(met, "read", named(fd), n == 0 ? 0 : syscall(SYS_read, fd, bytes, n));
}

ssize_t write(int fd, const void *bytes, size_t n) {
    int met = meets("write", named(fd));
    if (refuses(met)) return -1;
    n = share(met, n);
    return ended(met, "write", named(fd), n == 0 ? 0 : syscall(SYS_write, fd, bytes, n));
}

ssize_t writev(int fd, const struct iovec *parts, int count) {
    int i = 0;
    while (i < count - 1 && parts[i].iov_len == 0) i++;
    return count > 0 ? write(fd, parts[i].iov_base, parts[i].iov_len) : 0;
}

ssize_t readv(int fd, const struct iovec *parts, int count) {
    int i = 0;
    while (i < count - 1 && parts[i].iov_len == 0) i++;
    return count > 0 ? read(fd, parts[i].iov_base, parts[i].iov_len) : 0;
}

static int on_file(const char *kind, long call, int fd) {
    int met = meets(kind, named(fd));
    if (refuses(met)) return -1;
    return ended(met, kind, named(fd), syscall(call, fd));
}

int fsync(int fd) { return on_file("fsync", SYS_fsync, fd); }
int fdatasync(int fd) { return on_file("fsync", SYS_fdatasync, fd); }

int close(int fd) {
    int met = meets("close", named(fd));
    /* (a close that tells an error has closed the file) */
    int refused = refuses(met), kept = errno;
    long result = ended(met, "close", named(fd), syscall(SYS_close, fd));
    if (fd >= 0 && fd < MOST) names[fd][0] = 0;
    if (refused) errno = kept;
    return refused ? -1 : result;
}

int rename(const char *old, const char *new) {
    int met = meets("rename", old);
    if (refuses(met)) return -1;
    return ended(met, "rename", old, syscall(SYS_renameat2, AT_FDCWD, old, AT_FDCWD, new, 0));
}

int unlink(const char *path) {
    int met = meets("unlink", path);
    if (refuses(met)) return -1;
    return ended(met, "unlink", path, syscall(SYS_unlinkat, AT_FDCWD, path, 0));
}

int statx(int dir, const char *restrict path, int flags, unsigned mask, struct statx *restrict out) {
    const char *on = path[0] ? path : named(dir);
    int met = meets("stat", on);
    if (refuses(met)) return -1;
    return ended(met, "stat", on, syscall(SYS_statx, dir, path, flags, mask, out));
}

char *realpath(const char *restrict path, char *restrict out) {
    static char *(*resolve)(const char *, char *);
    int met = meets("resolve", path);
    if (refuses(met)) return NULL;
    if (!resolve) *(void **)&resolve = dlsym(RTLD_NEXT, "realpath");
    char *made = resolve(path, out);
    ended(met, "resolve", path, made ? 0 : -1);
    return made;
}

ssize_t readlink(const char *restrict path, char *restrict out, size_t n) {
    int met = meets("resolve", path);
    if (refuses(met)) return -1;
    return ended(met, "resolve", path, syscall(SYS_readlinkat, AT_FDCWD, path, out, n));
}

static int on_path(const char *kind, const char *path, long call, long first, long second) {
    int met = meets(kind, path);
    if (refuses(met)) return -1;
    return ended(met, kind, path, syscall(call, path, first, second));
}

int chmod(const char *path, mode_t mode) { return on_path("chmod", path, SYS_chmod, mode, 0); }
int chown(const char *path, uid_t user, gid_t group) { return on_path("chown", path, SYS_chown, user, group); }
int lchown(const char *path, uid_t user, gid_t group) { return on_path("chown", path, SYS_lchown, user, group); }

int fchmod(int fd, mode_t mode) {
    int met = meets("chmod", named(fd));
    if (refuses(met)) return -1;
    return ended(met, "chmod", named(fd), syscall(SYS_fchmod, fd, mode));
}

int fchown(int fd, uid_t user, gid_t group) {
    int met = meets("chown", named(fd));
    if (refuses(met)) return -1;
    return ended(met, "chown", named(fd), syscall(SYS_fchown, fd, user, group));
}
