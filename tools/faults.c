/* Goes with tools/refuse_memory.py and tools/refuse_io.py, which compile it and preload it into the program.
 *
 * At each call of one kind the process forks. In the child this one call goes wrong, and the child goes on to its end with sinks of
 * its own; the parent waits, notes how the child ended, and goes on as if nothing had been. So one run tries each of its calls.
 * FAULT is the kind: alloc (malloc and realloc answer no memory), read-fails, write-fails (EIO), read-short, write-short (one
 * byte alone), read-interrupted, write-interrupted (EINTR, once). At the end the file FAULT_REPORT gets a line for each way
 * in which children ended: how many, the number of the first call, the status, and both sinks in hexadecimal digits.
 */
#define _GNU_SOURCE
#include <dlfcn.h>
#include <errno.h>
#include <fcntl.h>
#include <stdio.h>
#include <stdlib.h>
#include <string.h>
#include <sys/mman.h>
#include <sys/wait.h>
#include <unistd.h>

enum { WAYS = 256, KEPT = 8192 };
static struct way { long many, first; int status; ssize_t lengths[2]; char bytes[2][KEPT]; } ways[WAYS];
static int known, is_child;
static long calls;
static const char *kind;
static void *(*real_malloc)(size_t), *(*real_realloc)(void *, size_t);
static ssize_t (*real_read)(int, void *, size_t), (*real_write)(int, const void *, size_t);

static void setup(void) {
    static int is_set;
    if (is_set) return;
    is_set = 1;
    real_malloc = dlsym(RTLD_NEXT, "malloc");
    real_realloc = dlsym(RTLD_NEXT, "realloc");
    real_read = dlsym(RTLD_NEXT, "read");
    real_write = dlsym(RTLD_NEXT, "write");
    kind = getenv("FAULT");
}

/* What a file holds, up to the first KEPT bytes; its whole length is answered. */
static ssize_t contents(int fd, char *bytes) {
    ssize_t length = lseek(fd, 0, SEEK_END), got = pread(fd, bytes, KEPT, 0);
    return got < 0 ? -1 : length;
}

static void note(int status, const int sinks[2]) {
    static struct way now;
    now.status = status;
    memset(now.bytes, 0, sizeof now.bytes);
    for (int i = 0; i < 2; i++) now.lengths[i] = contents(sinks[i], now.bytes[i]);
    int i = 0;
    while (i < known && (ways[i].status != status || memcmp(ways[i].lengths, now.lengths, sizeof now.lengths)
                         || memcmp(ways[i].bytes, now.bytes, sizeof now.bytes))) i++;
    if (i == WAYS) abort();
    if (i == known) { known++; ways[i] = now; ways[i].first = calls; ways[i].many = 0; }
    ways[i].many++;
}

/* A copy of a sink as it is now, which the child writes on. */
static int copy_of(int fd) {
    static char bytes[1 << 16];
    int copy = memfd_create("sink", 0);
    for (off_t at = 0;;) {
        ssize_t got = pread(fd, bytes, sizeof bytes, at);
        if (got <= 0) return copy;
        if (real_write(copy, bytes, got) != got) abort();
        at += got;
    }
}

/* Whether this call of this kind is to go wrong here: so in the child that is forked for it. */
static int goes_wrong(const char *of) {
    setup();
    if (!kind || is_child || strcmp(kind, of)) return 0;
    calls++;
    int sinks[2] = {copy_of(1), copy_of(2)};
    pid_t child = fork();
    if (child < 0) abort();
    if (child == 0) {
        is_child = 1;
        off_t at = lseek(0, 0, SEEK_CUR);
        int source = open("/proc/self/fd/0", O_RDONLY);
        if (source < 0 || lseek(source, at, SEEK_SET) != at) abort();
        dup2(source, 0); dup2(sinks[0], 1); dup2(sinks[1], 2);
        alarm(60);
        return 1;
    }
    int status;
    waitpid(child, &status, 0);
    note(WIFEXITED(status) ? WEXITSTATUS(status) : 1000 + WTERMSIG(status), sinks);
    close(sinks[0]); close(sinks[1]);
    return 0;
}

__attribute__((destructor)) static void tell(void) {
    const char *name = getenv("FAULT_REPORT");
    if (is_child || !kind || !name) return;
    is_child = 1; /* what this function itself calls isn't the program's */
    int report = open(name, O_WRONLY | O_CREAT | O_TRUNC, 0644);
    for (int i = 0; i < known; i++) {
        struct way *way = &ways[i];
        dprintf(report, "%ld %ld %d", way->many, way->first, way->status);
        for (int sink = 0; sink < 2; sink++) {
            dprintf(report, " %zd:", way->lengths[sink]);
            for (ssize_t at = 0; at < way->lengths[sink] && at < KEPT; at++)
                dprintf(report, "%02x", (unsigned char)way->bytes[sink][at]);
        }
        dprintf(report, "\n");
    }
    close(report);
}

void *malloc(size_t size) {
    if (goes_wrong("alloc")) { errno = ENOMEM; return NULL; }
    return real_malloc(size);
}

void *realloc(void *old, size_t size) {
    if (goes_wrong("alloc")) { errno = ENOMEM; return NULL; }
    return real_realloc(old, size);
}

ssize_t read(int fd, void *bytes, size_t size) {
    if (goes_wrong("read-fails")) { errno = EIO; return -1; }
    if (goes_wrong("read-interrupted")) { errno = EINTR; return -1; }
    return real_read(fd, bytes, goes_wrong("read-short") && size > 1 ? 1 : size);
}

ssize_t write(int fd, const void *bytes, size_t size) {
    if (goes_wrong("write-fails")) { errno = EIO; return -1; }
    if (goes_wrong("write-interrupted")) { errno = EINTR; return -1; }
    return real_write(fd, bytes, goes_wrong("write-short") && size > 1 ? 1 : size);
}
