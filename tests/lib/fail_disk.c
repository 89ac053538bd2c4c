// Loaded into a program before the C library: calls on files below the folder that FAIL_FOLDER names fail as the file that FAIL_HOW names
// says while it is there: "write ERRNO" and "sync ERRNO" fail with this number, "slow MILLISECONDS" waits before each of them.
#define _GNU_SOURCE
#include <dlfcn.h>
#include <errno.h>
#include <stdio.h>
#include <stdlib.h>
#include <string.h>
#include <unistd.h>

// Waits or fails, if a call of this kind on this file is to.
static int fails(const char *kind, int file) {
    const char *how = getenv("FAIL_HOW"), *folder = getenv("FAIL_FOLDER");
    char link[64], path[4096], said[16];
    int number = 0;
    FILE *held;
    ssize_t length;
    if (how == NULL || folder == NULL || access(how, R_OK) != 0)
        return 0;
    snprintf(link, sizeof link, "/proc/self/fd/%d", file);
    length = readlink(link, path, sizeof path - 1);
    if (length <= 0)
        return 0;
    path[length] = 0;
    if (strncmp(path, folder, strlen(folder)) != 0 || (held = fopen(how, "re")) == NULL)
        return 0;
    if (fscanf(held, "%15s %d", said, &number) != 2)
        number = 0;
    fclose(held);
    if (number != 0 && strcmp(said, "slow") == 0)
        usleep(1000 * number);
    else if (number != 0 && strcmp(said, kind) == 0) {
        errno = number;
        return 1;
    }
    return 0;
}

#define REAL(name) static __typeof__(name) *real; if (real == NULL) real = (__typeof__(name) *)dlsym(RTLD_NEXT, #name)

ssize_t pwrite(int file, const void *bytes, size_t count, off_t at) {
    REAL(pwrite);
    return fails("write", file) ? -1 : real(file, bytes, count, at);
}

ssize_t pwrite64(int file, const void *bytes, size_t count, off64_t at) {
    REAL(pwrite64);
    return fails("write", file) ? -1 : real(file, bytes, count, at);
}

int fsync(int file) {
    REAL(fsync);
    return fails("sync", file) ? -1 : real(file);
}

int fdatasync(int file) {
    REAL(fdatasync);
    return fails("sync", file) ? -1 : real(file);
}
