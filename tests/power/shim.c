/* Records each change that a program makes to the files of a store, and makes some of its syncs fail (LD_PRELOAD). tests/power.py loads it, and
   works out from the record what a disk may hold after a loss of power. Its settings come from the environment:

   POWER_STORE   the path that the paths of the files begin with; the syncs of their folder are recorded and counted too
   POWER_TRACE   the file that the records are appended to
   POWER_COUNT   a file of 8 bytes: the number of syncs so far, of all processes that share the file
   POWER_FAILS   the syncs that fail with EIO, counted from 1 and separated by commas
   POWER_HOW     what happens at a failed sync:
                 keep   the program goes on, and reads show what it wrote
                 drop   the program goes on, and reads show the file as it was at its last sync
                 kill   the program is killed
                 lie    from the first of POWER_FAILS on, syncs return 0 and nothing is synced
                 anew   as keep; and when the program asks for the pages of a file to be dropped, as it does when it opens a store, the file is
                        recorded as written anew as a whole

   Bytes for standard output or a socket are recorded as an answer before they are passed on. A sync that succeeds does nothing: the record says
   what is on the disk. */
#define _GNU_SOURCE
#include <errno.h>
#include <fcntl.h>
#include <limits.h>
#include <signal.h>
#include <stdarg.h>
#include <stdint.h>
#include <stdio.h>
#include <stdlib.h>
#include <string.h>
#include <sys/mman.h>
#include <sys/socket.h>
#include <sys/stat.h>
#include <sys/syscall.h>
#include <sys/uio.h>
#include <unistd.h>

enum { FILES = 65536, DEEP = 900 };

/* The head of a record; `name` bytes of a path and `data` bytes of content follow it. */
struct record {
    char kind, told, made, unused;
    int32_t process, file, name;
    int64_t at, data;
} __attribute__((packed));

/* What a write replaced: the bytes that were there before, and the length of the file. */
struct undo {
    struct undo *before;
    int64_t at, count, length;
    char bytes[];
};

static char is_kept[FILES];
static struct undo *undone[FILES];
static const char *store, *how = "keep";
static size_t stem, folder;
static int trace = -1;
static const char *fails = "";
static volatile int64_t *count;

__attribute__((constructor)) static void begin(void)
{
    const char *slash, *path = getenv("POWER_COUNT");
    int file = path ? syscall(SYS_open, path, O_RDWR | O_CLOEXEC, 0) : -1;
    void *place = file < 0 ? MAP_FAILED : mmap(NULL, 8, PROT_READ | PROT_WRITE, MAP_SHARED, file, 0);
    store = getenv("POWER_STORE");
    slash = store ? strrchr(store, '/') : NULL;
    path = getenv("POWER_TRACE");
    trace = path ? syscall(SYS_open, path, O_WRONLY | O_APPEND | O_CREAT | O_CLOEXEC, 0600) : -1;
    if (!slash || place == MAP_FAILED || trace < 0) {
        fprintf(stderr, "power: the shim has no store, count or trace\n");
        _exit(99);
    }
    count = place;
    syscall(SYS_close, file);
    file = syscall(SYS_fcntl, trace, F_DUPFD_CLOEXEC, DEEP); /* so that the program gets the descriptors that it gets without the shim */
    syscall(SYS_close, trace);
    trace = file;
    stem = strlen(store);
    folder = slash - store;
    fails = getenv("POWER_FAILS") ? getenv("POWER_FAILS") : fails;
    how = getenv("POWER_HOW") ? getenv("POWER_HOW") : how;
}

static int is_how(const char *name)
{
    return !strcmp(how, name);
}

/* Writes the absolute path into `to`. Returns whether it is a file of the store or the folder. */
static int is_ours(const char *path, char *to)
{
    char here[PATH_MAX];
    if (path[0] == '/')
        snprintf(to, PATH_MAX, "%s", path);
    else if (syscall(SYS_getcwd, here, sizeof here) < 0 || snprintf(to, PATH_MAX, "%s/%s", here, path) >= PATH_MAX)
        return 0;
    return !strncmp(to, store, stem) || (strlen(to) == folder && !strncmp(to, store, folder));
}

static void tell(char kind, char told, char made, int file, int64_t at, const char *name, const void *data, int64_t length)
{
    struct record head = {kind, told, made, 0, getpid(), file, (int32_t)strlen(name), at, length};
    struct iovec parts[] = {{&head, sizeof head}, {(void *)name, head.name}, {(void *)data, length}};
    int saved = errno;
    if (writev(trace, parts, 3) != (ssize_t)(sizeof head + head.name + length)) {
        fprintf(stderr, "power: the trace can't be written\n");
        _exit(99);
    }
    errno = saved;
}

static int opened(int at, const char *path, int flags, mode_t mode)
{
    char whole[PATH_MAX];
    struct stat found;
    int ours = (at == AT_FDCWD || path[0] == '/') && is_ours(path, whole);
    int there = ours && !stat(path, &found);
    int file = syscall(SYS_openat, at, path, flags, mode);
    if (file >= 0 && file < FILES) {
        is_kept[file] = ours;
        if (ours && strlen(whole) > folder)
            tell('o', flags & O_TRUNC ? 1 : 0, !there, file, 0, whole, NULL, 0);
    }
    return file;
}

#define OPENS(name, parameters, at) \
    int name parameters \
    { \
        mode_t mode = 0; \
        va_list rest; \
        va_start(rest, flags); \
        if (flags & (O_CREAT | __O_TMPFILE)) \
            mode = va_arg(rest, mode_t); \
        va_end(rest); \
        return opened(at, path, flags, mode); \
    }
OPENS(open, (const char *path, int flags, ...), AT_FDCWD)
OPENS(open64, (const char *path, int flags, ...), AT_FDCWD)
OPENS(openat, (int at, const char *path, int flags, ...), at)
OPENS(openat64, (int at, const char *path, int flags, ...), at)

static void forget(int file)
{
    while (undone[file]) {
        struct undo *top = undone[file];
        undone[file] = top->before;
        free(top);
    }
}

int close(int file)
{
    if (file == trace && file >= 0)
        return 0;
    if (file >= 0 && file < FILES && is_kept[file]) {
        tell('c', 0, 0, file, 0, "", NULL, 0);
        forget(file);
        is_kept[file] = 0;
    }
    return syscall(SYS_close, file);
}

static int ours(int file)
{
    return file >= 0 && file < FILES && is_kept[file];
}

/* Saves the bytes that a write is going to replace, for `drop`. */
static void keep(int file, int64_t at, int64_t length)
{
    struct stat found;
    struct undo *top;
    if (!is_how("drop") || fstat(file, &found) || !(top = malloc(sizeof *top + length)))
        return;
    top->before = undone[file];
    top->at = at;
    top->length = found.st_size;
    top->count = syscall(SYS_pread64, file, top->bytes, length, at);
    undone[file] = top;
}

/* Undoes the writes since the last sync of the file. */
static void drop(int file)
{
    for (struct undo *top = undone[file]; top; top = top->before) {
        if (top->count > 0 && syscall(SYS_pwrite64, file, top->bytes, top->count, top->at) != top->count)
            _exit(99);
        if (syscall(SYS_ftruncate, file, top->length))
            _exit(99);
    }
    forget(file);
}

static ssize_t put(int file, const void *bytes, size_t length, int64_t at)
{
    ssize_t done;
    if (!ours(file))
        return syscall(SYS_pwrite64, file, bytes, length, at);
    keep(file, at, length);
    done = syscall(SYS_pwrite64, file, bytes, length, at);
    if (done > 0)
        tell('w', 0, 0, file, at, "", bytes, done);
    return done;
}

ssize_t pwrite(int file, const void *bytes, size_t length, off_t at)
{
    return put(file, bytes, length, at);
}

ssize_t pwrite64(int file, const void *bytes, size_t length, off64_t at)
{
    return put(file, bytes, length, at);
}

ssize_t write(int file, const void *bytes, size_t length)
{
    ssize_t done;
    if (file == STDOUT_FILENO)
        tell('a', 0, 0, file, 0, "", NULL, 0);
    if (!ours(file))
        return syscall(SYS_write, file, bytes, length);
    done = put(file, bytes, length, lseek(file, 0, fcntl(file, F_GETFL) & O_APPEND ? SEEK_END : SEEK_CUR));
    if (done > 0)
        lseek(file, done, SEEK_CUR);
    return done;
}

ssize_t __write(int file, const void *bytes, size_t length)
{
    return write(file, bytes, length);
}

ssize_t sendto(int file, const void *bytes, size_t length, int flags, const struct sockaddr *to, socklen_t size)
{
    tell('a', 0, 0, file, 0, "", NULL, 0);
    return syscall(SYS_sendto, file, bytes, length, flags, to, size);
}

ssize_t send(int file, const void *bytes, size_t length, int flags)
{
    return sendto(file, bytes, length, flags, NULL, 0);
}

ssize_t writev(int file, const struct iovec *parts, int many)
{
    ssize_t all = 0;
    if (!ours(file))
        return syscall(SYS_writev, file, parts, many);
    for (int at = 0; at < many; at++) {
        ssize_t done = write(file, parts[at].iov_base, parts[at].iov_len);
        if (done < 0)
            return all ? all : -1;
        all += done;
    }
    return all;
}

/* Notes a new length. It counts as on the disk at once, so that undoing earlier writes doesn't change it. */
static void cut(int file, int64_t length)
{
    for (struct undo *top = undone[file]; top; top = top->before) {
        top->length = length;
        if (top->at + top->count > length)
            top->count = top->at < length ? length - top->at : 0;
    }
}

int ftruncate(int file, off_t length)
{
    int told = syscall(SYS_ftruncate, file, length);
    if (!told && ours(file)) {
        cut(file, length);
        tell('t', 0, 0, file, length, "", NULL, 0);
    }
    return told;
}

int ftruncate64(int file, off64_t length)
{
    return ftruncate(file, length);
}

/* Whether that sync fails. */
static int is_failing(int64_t turn)
{
    const char *text = fails;
    while (*text) {
        char *end;
        int64_t other = strtoll(text, &end, 10);
        if (other == turn || (is_how("lie") && other <= turn))
            return 1;
        text = *end ? end + 1 : end;
    }
    return 0;
}

static int synced(int file)
{
    int64_t turn;
    if (!ours(file))
        return syscall(SYS_fdatasync, file);
    turn = __atomic_add_fetch(count, 1, __ATOMIC_SEQ_CST);
    if (!is_failing(turn)) {
        tell('s', '0', 0, file, turn, "", NULL, 0);
        forget(file);
        return 0;
    }
    if (is_how("lie")) {
        tell('s', 'l', 0, file, turn, "", NULL, 0);
        return 0;
    }
    tell('s', is_how("drop") ? 'd' : 'f', 0, file, turn, "", NULL, 0);
    if (is_how("drop"))
        drop(file);
    if (is_how("kill"))
        kill(getpid(), SIGKILL);
    errno = EIO;
    return -1;
}

int fsync(int file)
{
    return synced(file);
}

int fdatasync(int file)
{
    return synced(file);
}

int posix_fadvise(int file, off_t at, off_t length, int advice)
{
    struct stat found;
    char *bytes;
    if (ours(file) && is_how("anew") && advice == POSIX_FADV_DONTNEED && !fstat(file, &found) && (bytes = malloc(found.st_size + 1))) {
        tell('w', 0, 0, file, 0, "", bytes, syscall(SYS_pread64, file, bytes, found.st_size, 0));
        free(bytes);
    }
    return syscall(SYS_fadvise64, file, at, length, advice) ? errno : 0;
}

static int renamed(int from, const char *old, int to, const char *new)
{
    char whole[PATH_MAX], other[PATH_MAX];
    int told = syscall(SYS_renameat, from, old, to, new);
    if (!told && is_ours(old, whole) | is_ours(new, other))
        tell('r', 0, 0, 0, 0, whole, other, strlen(other));
    return told;
}

int rename(const char *old, const char *new)
{
    return renamed(AT_FDCWD, old, AT_FDCWD, new);
}

int renameat(int from, const char *old, int to, const char *new)
{
    return renamed(from, old, to, new);
}

static int removed(int at, const char *path, int flags)
{
    char whole[PATH_MAX];
    int told = syscall(SYS_unlinkat, at, path, flags);
    if (!told && is_ours(path, whole))
        tell('u', 0, 0, 0, 0, whole, NULL, 0);
    return told;
}

int unlink(const char *path)
{
    return removed(AT_FDCWD, path, 0);
}

int unlinkat(int at, const char *path, int flags)
{
    return removed(at, path, flags);
}
