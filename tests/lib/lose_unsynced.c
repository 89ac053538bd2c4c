// Loaded into a program before the C library: a disk that loses what isn't synced. Each file below the folder DISK_FOLDER is copied at its
// sync, to the same name below DISK_KEPT. While the FIFO DISK_GATE is there, a sync adds the name of its file to DISK_ASKED, a line each,
// and waits for a byte of the FIFO. The file BOOT_ID is read in place of the kernel's boot id.
#define _GNU_SOURCE
#include <dlfcn.h>
#include <fcntl.h>
#include <limits.h>
#include <stdarg.h>
#include <stdio.h>
#include <stdlib.h>
#include <string.h>
#include <sys/sendfile.h>
#include <sys/stat.h>
#include <sys/syscall.h>
#include <unistd.h>

#define REAL(name) static __typeof__(name) *real; if (real == NULL) real = (__typeof__(name) *)dlsym(RTLD_NEXT, #name)

// Opens a file as the system does.
static int open_file(const char *path, int flags, int mode) {
    return syscall(SYS_openat, AT_FDCWD, path, flags | O_CLOEXEC, mode);
}

// The name of a file below the folder, from its slash on; NULL for any other file, and for a folder.
static const char *find_name(int file, char *path) {
    const char *folder = getenv("DISK_FOLDER");
    char link[64];
    struct stat found;
    snprintf(link, sizeof link, "/proc/self/fd/%d", file);
    ssize_t length = readlink(link, path, PATH_MAX - 1);
    if (folder == NULL || length <= 0 || fstat(file, &found) != 0 || !S_ISREG(found.st_mode))
        return NULL;
    path[length] = 0;
    return strncmp(path, folder, strlen(folder)) == 0 && path[strlen(folder)] == '/' ? path + strlen(folder) : NULL;
}

// Waits while syncs are held.
static void wait_at_gate(const char *name) {
    const char *gate = getenv("DISK_GATE"), *asked = getenv("DISK_ASKED");
    char line[PATH_MAX + 2], byte;
    int held = gate == NULL ? -1 : open_file(gate, O_RDWR, 0);
    if (held < 0)
        return;
    int list = asked == NULL ? -1 : open_file(asked, O_WRONLY | O_CREAT | O_APPEND, 0600);
    int length = snprintf(line, sizeof line, "%s\n", name + 1);
    if (write(list, line, length) != length || read(held, &byte, 1) != 1)
        abort();
    close(list);
    close(held);
}

// Makes the folders of a path.
static void make_folders(char *path) {
    for (char *slash = strchr(path + 1, '/'); slash != NULL; slash = strchr(slash + 1, '/')) {
        *slash = 0;
        mkdir(path, 0700);
        *slash = '/';
    }
}

// Copies a file to where it is kept, at once.
static void keep(const char *path, const char *name) {
    const char *kept = getenv("DISK_KEPT");
    char copy[2 * PATH_MAX], made[2 * PATH_MAX + 8];
    if (kept == NULL)
        return;
    snprintf(copy, sizeof copy, "%s%s", kept, name);
    snprintf(made, sizeof made, "%s.part", copy);
    make_folders(made);
    int from = open_file(path, O_RDONLY, 0), to = open_file(made, O_WRONLY | O_CREAT | O_TRUNC, 0600);
    ssize_t sent = 1;
    while (from >= 0 && sent > 0)
        sent = sendfile(to, from, NULL, 1 << 20);
    // a file that was removed has no copy
    if (from >= 0 && (sent < 0 || rename(made, copy) != 0))
        abort();
    close(from);
    close(to);
}

static void note_sync(int file) {
    char path[PATH_MAX];
    const char *name = find_name(file, path);
    if (name == NULL)
        return;
    wait_at_gate(name);
    keep(path, name);
}

int fsync(int file) {
    REAL(fsync);
    note_sync(file);
    return real(file);
}

int fdatasync(int file) {
    REAL(fdatasync);
    note_sync(file);
    return real(file);
}

static const char *replaced(const char *path) {
    const char *boot_id = getenv("BOOT_ID");
    return boot_id != NULL && strcmp(path, "/proc/sys/kernel/random/boot_id") == 0 ? boot_id : path;
}

#define MODE(flags) int mode = 0; if (flags & (O_CREAT | O_TMPFILE)) { va_list rest; va_start(rest, flags); mode = va_arg(rest, int); va_end(rest); }

int open(const char *path, int flags, ...) {
    REAL(open);
    MODE(flags)
    return real(replaced(path), flags, mode);
}

int open64(const char *path, int flags, ...) {
    REAL(open64);
    MODE(flags)
    return real(replaced(path), flags, mode);
}

int openat(int folder, const char *path, int flags, ...) {
    REAL(openat);
    MODE(flags)
    return real(folder, replaced(path), flags, mode);
}

int openat64(int folder, const char *path, int flags, ...) {
    REAL(openat64);
    MODE(flags)
    return real(folder, replaced(path), flags, mode);
}
