/* Preloaded into a program: counts its stores and syncs, and kills it at one of them with a real SIGKILL.
 *
 * KILL_AT=K:HOW:J names event K, from 1, and how: "before" or "after" the call, or "inside" it. Inside a write its first J bytes arrive.
 * Inside a sync the power fails: of what was written last the first J bytes are the old ones again, and a file that was made or
 * removed since the last sync of its folder is gone or back.
 * With "stop" it is stopped before the call and goes on when it is told to.
 * With "fail" it is not killed: the call fails, and J is its errno.
 * KILL_LOG=FILE gets a line for each event: its kind, the offset and the length of a write, and the file's name. */
#define _GNU_SOURCE
#include <dlfcn.h>
#include <errno.h>
#include <fcntl.h>
#include <signal.h>
#include <stdarg.h>
#include <stdio.h>
#include <stdlib.h>
#include <string.h>
#include <sys/stat.h>
#include <unistd.h>

enum { MOST = 1 << 16 };
enum how { NEVER, INSIDE, AFTER, FAIL };

/* What was written last. */
static int last_fd = -1;
static off_t last_at;
static size_t last_length;
static unsigned char last_old[MOST];

/* The file that was made or removed last. */
static char name[4096];
static int was_made, was_removed;
static unsigned char removed[MOST];
static size_t removed_length;

static long count;

static void *real(const char *symbol) {
    void *found = dlsym(RTLD_NEXT, symbol);
    if (found == NULL) {
        abort();
    }
    return found;
}

static ssize_t real_pwrite(int fd, const void *bytes, size_t length, off_t at) {
    return ((ssize_t(*)(int, const void *, size_t, off_t))real("pwrite64"))(fd, bytes, length, at);
}

static ssize_t real_write(int fd, const void *bytes, size_t length) {
    return ((ssize_t(*)(int, const void *, size_t))real("write"))(fd, bytes, length);
}

static int real_open(const char *path, int flags, int mode) {
    return ((int (*)(const char *, int, ...))real("open64"))(path, flags, mode);
}

static int real_unlink(const char *path) {
    return ((int (*)(const char *))real("unlink"))(path);
}

static void die(void) {
    kill(getpid(), SIGKILL);
    for (;;) {
        pause();
    }
}

static void note(const char *kind, const char *file, long at, long length) {
    const char *path = getenv("KILL_LOG");
    const char *last = strrchr(file, '/');
    char line[5000];
    int fd, size;
    if (path == NULL) {
        return;
    }
    fd = real_open(path, O_WRONLY | O_CREAT | O_APPEND, 0666);
    size = snprintf(line, sizeof line, "%s %ld %ld %s\n", kind, at, length, last == NULL ? file : last + 1);
    if (fd < 0 || real_write(fd, line, (size_t)size) != size) {
        abort();
    }
    close(fd);
}

/* The name of an open file. */
static const char *name_of(int fd) {
    static char found[4096];
    char link[64];
    ssize_t length;
    snprintf(link, sizeof link, "/proc/self/fd/%d", fd);
    length = readlink(link, found, sizeof found - 1);
    found[length < 0 ? 0 : length] = 0;
    return found;
}

/* Counts an event, and says how the program dies at it. */
static enum how event(const char *kind, const char *file, long at, long length, long *part) {
    const char *order = getenv("KILL_AT");
    char word[16] = "";
    long number = 0;
    note(kind, file, at, length);
    count++;
    if (order == NULL || sscanf(order, "%ld:%15[a-z]:%ld", &number, word, part) != 3 || number != count) {
        return NEVER;
    }
    if (strcmp(word, "before") == 0) {
        die();
    }
    if (strcmp(word, "stop") == 0) {
        raise(SIGSTOP);
        return NEVER;
    }
    if (strcmp(word, "fail") == 0) {
        errno = (int)*part;
        return FAIL;
    }
    return strcmp(word, "inside") == 0 ? INSIDE : AFTER;
}

static ssize_t put(int fd, const void *bytes, size_t length, off_t at) {
    long part = 0;
    enum how how = event("write", name_of(fd), (long)at, (long)length, &part);
    ssize_t done;
    if (how == FAIL) {
        return -1;
    }
    if (length > MOST) {
        abort();
    }
    memset(last_old, 0, length);
    if (pread(fd, last_old, length, at) < 0 && errno != EBADF) {
        abort();
    }
    last_fd = fd;
    last_at = at;
    last_length = length;
    done = real_pwrite(fd, bytes, how == INSIDE ? (size_t)part : length, at);
    if (how != NEVER) {
        die();
    }
    return done;
}

ssize_t pwrite64(int fd, const void *bytes, size_t length, off_t at) {
    return put(fd, bytes, length, at);
}

ssize_t pwrite(int fd, const void *bytes, size_t length, off_t at) {
    return put(fd, bytes, length, at);
}

/* Only files that can be sought in are cards or intents: what is printed is no store. */
ssize_t write(int fd, const void *bytes, size_t length) {
    off_t at = fd > 2 ? lseek(fd, 0, SEEK_CUR) : -1;
    ssize_t done;
    if (at < 0) {
        return real_write(fd, bytes, length);
    }
    done = put(fd, bytes, length, at);
    if (done > 0) {
        lseek(fd, at + done, SEEK_SET);
    }
    return done;
}

/* The power fails before the folder is on the disk. */
static void undo_name(void) {
    if (was_made) {
        real_unlink(name);
    }
    if (was_removed) {
        int fd = real_open(name, O_WRONLY | O_CREAT | O_EXCL, 0666);
        if (fd < 0 || real_write(fd, removed, removed_length) != (ssize_t)removed_length) {
            abort();
        }
    }
}

static int sync_by(const char *symbol, int fd) {
    struct stat found;
    long part = 0;
    int is_folder = fstat(fd, &found) == 0 && S_ISDIR(found.st_mode);
    int is_last = fd == last_fd && !is_folder;
    int status;
    enum how how = event(is_folder ? "sync-folder" : "sync", name_of(fd), 0, is_last ? (long)last_length : 0, &part);
    if (how == FAIL) {
        return -1;
    }
    if (how == INSIDE) {
        if (is_folder) {
            undo_name();
        } else if (is_last && part <= (long)last_length) {
            real_pwrite(fd, last_old, (size_t)part, last_at);
        }
        die();
    }
    status = ((int (*)(int))real(symbol))(fd);
    if (is_folder) {
        was_made = was_removed = 0;
    }
    if (how == AFTER) {
        die();
    }
    return status;
}

int fsync(int fd) {
    return sync_by("fsync", fd);
}

int fdatasync(int fd) {
    return sync_by("fdatasync", fd);
}

static int make(const char *path, int flags, int mode) {
    long part = 0;
    enum how how;
    int fd;
    if ((flags & O_CREAT) == 0) {
        return real_open(path, flags, mode);
    }
    how = event("make", path, 0, 0, &part);
    if (how == FAIL) {
        return -1;
    }
    if (how == INSIDE) {
        die();
    }
    fd = real_open(path, flags, mode);
    snprintf(name, sizeof name, "%s", path);
    was_made = 1;
    was_removed = 0;
    if (how == AFTER) {
        die();
    }
    return fd;
}

static int mode_of(int flags, va_list rest) {
    return (flags & O_CREAT) ? va_arg(rest, int) : 0;
}

int open(const char *path, int flags, ...) {
    va_list rest;
    int mode;
    va_start(rest, flags);
    mode = mode_of(flags, rest);
    va_end(rest);
    return make(path, flags, mode);
}

int open64(const char *path, int flags, ...) __attribute__((alias("open")));

int unlink(const char *path) {
    long part = 0;
    int fd, status;
    enum how how = event("remove", path, 0, 0, &part);
    if (how == FAIL) {
        return -1;
    }
    if (how == INSIDE) {
        die();
    }
    fd = real_open(path, O_RDONLY, 0);
    removed_length = 0;
    if (fd >= 0) {
        ssize_t got = read(fd, removed, sizeof removed);
        removed_length = got < 0 ? 0 : (size_t)got;
        close(fd);
    }
    status = real_unlink(path);
    snprintf(name, sizeof name, "%s", path);
    was_removed = status == 0;
    was_made = 0;
    if (how == AFTER) {
        die();
    }
    return status;
}

static int resize(const char *symbol, int fd, off_t length) {
    long part = 0;
    enum how how = event("resize", name_of(fd), 0, (long)length, &part);
    int status;
    if (how == FAIL) {
        return -1;
    }
    if (how == INSIDE) {
        die();
    }
    status = ((int (*)(int, off_t))real(symbol))(fd, length);
    if (how == AFTER) {
        die();
    }
    return status;
}

int ftruncate(int fd, off_t length) {
    return resize("ftruncate64", fd, length);
}

int ftruncate64(int fd, off_t length) {
    return resize("ftruncate64", fd, length);
}
