/* Refuses growths of memory in the program that loads it, for bench/refused_memory.py.

   REFUSED=7 refuses the seventh growth, and REFUSED=7- that and each later one.

   With EACH="1 10 -" a run refuses many: at growth 1, 11, 21 and so on the program forks. The child is refused the growth, here with each
   later one, and goes on in a folder of its own, in which it has copies of the files and of what was printed. The parent waits for it, tells
   the growth and how the child ended, and goes on itself. The folders are made in FOLDERS, and TOLD is the descriptor that it is told to.
   To a child its copies are the files themselves: the program looks at the end whether the path still names the file that it opened.

   Where NOTES names a file, it has at the end how many growths were asked for, and a line for each write to standard output: how many had
   been asked for by then, and how many bytes were written. Random bytes are all alike, so that equal runs leave equal files: the head of an
   empty log has some. */
#define _GNU_SOURCE
#include <errno.h>
#include <fcntl.h>
#include <limits.h>
#include <stdarg.h>
#include <stdio.h>
#include <stdlib.h>
#include <string.h>
#include <sys/sendfile.h>
#include <sys/stat.h>
#include <sys/syscall.h>
#include <sys/uio.h>
#include <sys/wait.h>
#include <unistd.h>

extern void *__libc_malloc(size_t);
extern void *__libc_realloc(void *, size_t);
extern void __libc_free(void *);

enum { MOST_WRITES = 4096, MOST_FILES = 32, MOST_SECONDS = 60, MOST_NAMES = 2 };

static long asked, refused_from, first, stride;
static int is_each_later, is_child, told, writes;
static struct { long asked, bytes; } written[MOST_WRITES];
/* The folder in which the program began, and that of a child. */
static char begun[PATH_MAX / 2], folder[PATH_MAX / 2];
static const char *folders;
/* Which files these are, and which the child's copies of them. */
static const char *const names[MOST_NAMES] = {"office.db", "office.db-wal"};
static struct statx originals[MOST_NAMES], copies[MOST_NAMES];

__attribute__((constructor)) static void begin(void) {
    const char *one = getenv("REFUSED"), *each = getenv("EACH");
    const char *words = one ? one : each ? each : "";
    is_each_later = strchr(words, '-') != NULL;
    refused_from = one ? atol(one) : 0;
    if (!each || sscanf(each, "%ld %ld", &first, &stride) != 2 || !getcwd(begun, sizeof begun)) return;
    folders = getenv("FOLDERS");
    told = atoi(getenv("TOLD"));
}

static void fail(const char *what) {
    perror(what);
    _exit(111);
}

static void copy(const char *from, const char *to) {
    int source = syscall(SYS_openat, AT_FDCWD, from, O_RDONLY), target;
    if (source < 0) return;
    target = syscall(SYS_openat, AT_FDCWD, to, O_WRONLY | O_CREAT | O_TRUNC, 0600);
    while (sendfile(target, source, NULL, 1 << 20) > 0) {}
    close(source);
    close(target);
}

static void note(const char *path, struct statx *found) {
    if (syscall(SYS_statx, AT_FDCWD, path, 0, STATX_BASIC_STATS | STATX_BTIME, found) < 0) *found = (struct statx){0};
}

/* The path within the child's folder, where it is one within the folder in which the program began. */
static const char *moved(const char *path, char *room) {
    size_t length = strlen(begun);
    if (!is_child || strncmp(path, begun, length) != 0 || (path[length] != '/' && path[length] != '\0')) return path;
    snprintf(room, PATH_MAX, "%s%s", folder, path + length);
    return room;
}

/* A descriptor of a file gets one of its own at the same place, in the child's copy where there is one. */
static void reopen(int file) {
    char link[32], path[PATH_MAX] = "", room[PATH_MAX];
    int flags = fcntl(file, F_GETFL), again;
    off_t place = lseek(file, 0, SEEK_CUR);
    snprintf(link, sizeof link, "/proc/self/fd/%d", file);
    if (flags < 0 || readlink(link, path, sizeof path - 1) < 0 || path[0] != '/') return;
    if (file == STDOUT_FILENO) {
        snprintf(room, sizeof room, "%s/printed", folder);
        copy(path, room);
    }
    again = syscall(SYS_openat, AT_FDCWD, file == STDOUT_FILENO ? room : moved(path, room), flags & (O_ACCMODE | O_DIRECTORY | O_APPEND));
    if (again < 0 || (place >= 0 && lseek(again, place, SEEK_SET) < 0) || dup2(again, file) < 0) fail(path);
    close(again);
}

static void move(void) {
    char path[PATH_MAX];
    is_child = 1;
    alarm(MOST_SECONDS);
    snprintf(folder, sizeof folder, "%s/%ld", folders, asked);
    if (mkdir(folder, 0700) < 0) fail(folder);
    for (int at = 0; at < MOST_NAMES; at++) {
        snprintf(path, sizeof path, "%s/%s", folder, names[at]);
        note(names[at], &originals[at]);
        copy(names[at], path);
        note(path, &copies[at]);
    }
    for (int file = 0; file < MOST_FILES; file++)
        if (file != STDERR_FILENO && file != told) reopen(file);
    if (chdir(folder) < 0) fail(folder);
}

static void part(void) {
    char line[64];
    int status, length;
    pid_t child = fork();
    if (child == 0) {
        move();
        refused_from = asked;
        return;
    }
    if (child < 0 || waitpid(child, &status, 0) != child) fail("fork");
    length = sprintf(line, "%ld %d\n", asked, status);
    if (syscall(SYS_write, told, line, length) != length) fail("told");
}

static int is_refused(void) {
    asked++;
    if (stride && !is_child && asked >= first && (asked - first) % stride == 0) part();
    if (!refused_from || asked < refused_from || (asked > refused_from && !is_each_later)) return 0;
    errno = ENOMEM;
    return 1;
}

void *malloc(size_t size) { return is_refused() ? NULL : __libc_malloc(size); }

void *realloc(void *old, size_t size) { return is_refused() ? NULL : __libc_realloc(old, size); }

/* A child keeps what it has: giving it back would write to each page that it shares with its parent. */
void free(void *old) {
    if (!is_child) __libc_free(old);
}

static ssize_t noted(int file, ssize_t bytes) {
    if (file == STDOUT_FILENO && bytes > 0 && writes < MOST_WRITES) {
        written[writes].asked = asked;
        written[writes++].bytes = bytes;
    }
    return bytes;
}

ssize_t write(int file, const void *bytes, size_t count) { return noted(file, syscall(SYS_write, file, bytes, count)); }

ssize_t writev(int file, const struct iovec *parts, int count) { return noted(file, syscall(SYS_writev, file, parts, count)); }

int open(const char *path, int flags, ...) {
    char room[PATH_MAX];
    va_list more;
    va_start(more, flags);
    mode_t mode = flags & O_CREAT ? va_arg(more, mode_t) : 0;
    va_end(more);
    return syscall(SYS_openat, AT_FDCWD, moved(path, room), flags, mode);
}

int unlink(const char *path) {
    char room[PATH_MAX];
    return syscall(SYS_unlinkat, AT_FDCWD, moved(path, room), 0);
}

int statx(int at, const char *path, int flags, unsigned mask, struct statx *found) {
    char room[PATH_MAX];
    int status = syscall(SYS_statx, at, moved(path, room), flags, mask, found);
    for (int copied = 0; status == 0 && copied < MOST_NAMES; copied++) {
        const struct statx *copy = &copies[copied], *original = &originals[copied];
        if (copy->stx_ino == 0 || found->stx_ino != copy->stx_ino || found->stx_dev_minor != copy->stx_dev_minor) continue;
        found->stx_ino = original->stx_ino;
        found->stx_btime = original->stx_btime;
    }
    return status;
}

int getentropy(void *bytes, size_t count) { return memset(bytes, 0x5a, count) == NULL; }

__attribute__((destructor)) static void tell(void) {
    char line[64];
    const char *path = getenv("NOTES");
    long growths = asked;
    int file = path && !is_child ? syscall(SYS_openat, AT_FDCWD, path, O_WRONLY | O_CREAT | O_TRUNC, 0600) : -1;
    if (file < 0) return;
    int length = sprintf(line, "%ld\n", growths);
    if (syscall(SYS_write, file, line, length) != length) fail(path);
    for (int at = 0; at < writes; at++) {
        int length = sprintf(line, "%ld %ld\n", written[at].asked, written[at].bytes);
        if (syscall(SYS_write, file, line, length) != length) fail(path);
    }
    close(file);
}
