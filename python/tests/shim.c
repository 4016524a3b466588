/* LD_PRELOAD: a file system that keeps what was synced, and nothing else.
 *
 * At each fsync or fdatasync of a file below SHIM_FROM its bytes are copied to the same name below SHIM_TO, written beside and
 * renamed there; at each sync of the folder SHIM_FROM files that were removed from it go there too. SHIM_SYNC: from the sync of
 * this number on each fails by EIO. SHIM_WRITE: from the write of this number on, up to that of SHIM_WRITE_TO, each fails by
 * ENOSPC. */
#define _GNU_SOURCE
#include <dirent.h>
#include <dlfcn.h>
#include <errno.h>
#include <fcntl.h>
#include <stdio.h>
#include <stdlib.h>
#include <string.h>
#include <sys/stat.h>
#include <unistd.h>

static long syncs, writes;

/* The place of a file below SHIM_FROM, in `path`, and what is behind it there; 0 of another file. */
static const char *below(int fd, char *path) {
    char link[64];
    const char *from = getenv("SHIM_FROM");
    snprintf(link, sizeof link, "/proc/self/fd/%d", fd);
    ssize_t length = readlink(link, path, 4000);
    if (length <= 0 || !from) return 0;
    path[length] = 0;
    return strncmp(path, from, strlen(from)) ? 0 : path + strlen(from);
}

static void forget_removed(const char *from, const char *to) {
    char here[8300], there[8300];
    DIR *folder = opendir(to);
    struct dirent *entry;
    while (folder && (entry = readdir(folder))) {
        snprintf(here, sizeof here, "%s/%s", from, entry->d_name);
        snprintf(there, sizeof there, "%s/%s", to, entry->d_name);
        if (entry->d_name[0] != '.' && !strstr(entry->d_name, ".part") && access(here, F_OK)) unlink(there);
    }
    if (folder) closedir(folder);
}

static void keep(int fd, const char *to) {
    static char data[1 << 16];
    char part[8400];
    snprintf(part, sizeof part, "%s.part%d", to, getpid());
    int out = open(part, O_WRONLY | O_CREAT | O_TRUNC, 0600);
    off_t at = 0;
    ssize_t length;
    while (out >= 0 && (length = pread(fd, data, sizeof data, at)) > 0) {
        if (write(out, data, length) != length) abort();
        at += length;
    }
    if (out < 0 || close(out) || rename(part, to)) abort();
}

static int synced(int fd, const char *name) {
    char path[4096], to[8300];
    struct stat is;
    const char *rest = below(fd, path), *folder = getenv("SHIM_TO"), *fails = getenv("SHIM_SYNC");
    if (!rest || fstat(fd, &is)) return ((int (*)(int))dlsym(RTLD_NEXT, name))(fd);
    if (S_ISDIR(is.st_mode)) {
        if (folder) forget_removed(path, folder);
        return 0;
    }
    if (fails && __sync_add_and_fetch(&syncs, 1) >= atol(fails)) {
        errno = EIO;
        return -1;
    }
    if (folder) {
        snprintf(to, sizeof to, "%s%s", folder, rest);
        keep(fd, to);
    }
    return 0;
}

int fsync(int fd) { return synced(fd, "fsync"); }
int fdatasync(int fd) { return synced(fd, "fdatasync"); }

static int is_full(int fd) {
    char path[4096];
    const char *from = getenv("SHIM_WRITE"), *to = getenv("SHIM_WRITE_TO");
    if (!from || !below(fd, path) || strstr(path, "-lock")) return 0;
    long number = __sync_add_and_fetch(&writes, 1);
    return number >= atol(from) && (!to || number < atol(to));
}

ssize_t pwrite64(int fd, const void *data, size_t length, off64_t at) {
    if (is_full(fd)) {
        errno = ENOSPC;
        return -1;
    }
    return ((ssize_t (*)(int, const void *, size_t, off64_t))dlsym(RTLD_NEXT, "pwrite64"))(fd, data, length, at);
}

ssize_t pwrite(int fd, const void *data, size_t length, off_t at) {
    if (is_full(fd)) {
        errno = ENOSPC;
        return -1;
    }
    return ((ssize_t (*)(int, const void *, size_t, off_t))dlsym(RTLD_NEXT, "pwrite"))(fd, data, length, at);
}
