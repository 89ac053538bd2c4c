// Loaded into a test before the C library: at each request for memory that the program makes while it has one thread, a copy
// of the process goes on in which that one request is refused and every later one is served, while the program itself goes on
// as if nothing were.
// When the program has ended, each way in which copies ended is one line on standard output, its words parted by tabs:
// how many copies, the first one's request counted from 1, the exit status, the signal, and what they said (newlines as |).
#define _GNU_SOURCE
#include <errno.h>
#include <link.h>
#include <stdio.h>
#include <stdlib.h>
#include <string.h>
#include <sys/mman.h>
#include <sys/stat.h>
#include <sys/syscall.h>
#include <sys/wait.h>
#include <unistd.h>

extern void *__libc_malloc(size_t), *__libc_realloc(void *, size_t), *__libc_calloc(size_t, size_t);

// Of a longer test each of the first requests is refused, and then one of so many.
enum { EACH = 50000, THEN = 10000 };
enum { SECONDS = 60, WAYS = 256, TEXT = 300 };

static struct { unsigned long copies, first; int status; char text[TEXT]; } ways[WAYS];
static unsigned long low, high, requests;
static int used, is_copy, is_told, said;

// The program's own addresses: what the C library asks for itself isn't refused.
static int of_program(struct dl_phdr_info *info, size_t size, void *data) {
    for (int k = 0; k < info->dlpi_phnum; k++) {
        if (info->dlpi_phdr[k].p_type != PT_LOAD) continue;
        unsigned long from = info->dlpi_addr + info->dlpi_phdr[k].p_vaddr;
        if (low == 0) low = from;
        high = from + info->dlpi_phdr[k].p_memsz;
    }
    return 1;
}

__attribute__((constructor)) static void begin(void) {
    dl_iterate_phdr(of_program, NULL);
    said = memfd_create("said", 0);
}

static void ended(int status, const char *text) {
    int k = 0;
    while (k < used && (ways[k].status != status || strcmp(ways[k].text, text) != 0)) k++;
    if (k == WAYS) { fprintf(stderr, "more than %d ways to end\n", WAYS); _exit(1); }
    if (k == used) { used++; ways[k].first = requests; ways[k].status = status; strcpy(ways[k].text, text); }
    ways[k].copies++;
}

// A copy has no other thread than the one that makes it, so it can't go on for a program that has several.
static int has_one_thread(void) {
    struct stat tasks;
    return stat("/proc/self/task", &tasks) == 0 && tasks.st_nlink == 3;
}

// Whether this request is refused: in its copy, and never in the program itself.
static int refused(void *caller) {
    unsigned long at = (unsigned long)caller;
    if (is_copy || at < low || at >= high || !has_one_thread()) return 0;
    requests++;
    if (requests > EACH && requests % THEN != 0) return 0;
    if (ftruncate(said, 0) != 0 || lseek(said, 0, SEEK_SET) != 0) _exit(1);
    pid_t copy = fork();
    if (copy < 0) { perror("fork"); _exit(1); }
    if (copy == 0) {
        is_copy = 1;
        dup2(said, 1);
        dup2(said, 2);
        alarm(SECONDS);
        errno = ENOMEM;
        return 1;
    }
    int status = 0;
    char text[TEXT];
    waitpid(copy, &status, 0);
    ssize_t len = pread(said, text, TEXT - 1, 0);
    text[len < 0 ? 0 : len] = 0;
    for (char *c = text; *c; c++) if (*c == '\n' || *c == '\t') *c = '|';
    ended(status, text);
    return 0;
}

__attribute__((destructor)) static void end(void) {
    if (is_copy || is_told) return;
    is_told = 1;
    for (int k = 0; k < used; k++)
        printf("%lu\t%lu\t%d\t%d\t%s\n", ways[k].copies, ways[k].first, WIFEXITED(ways[k].status) ? WEXITSTATUS(ways[k].status) : 0,
            WIFSIGNALED(ways[k].status) ? WTERMSIG(ways[k].status) : 0, ways[k].text);
}

// A program that may start threads ends by this call, which runs no destructor.
void _exit(int status) {
    end();
    fflush(stdout);
    for (;;) syscall(SYS_exit_group, status);
}

void *malloc(size_t size) { return refused(__builtin_return_address(0)) ? NULL : __libc_malloc(size); }
void *calloc(size_t count, size_t size) { return refused(__builtin_return_address(0)) ? NULL : __libc_calloc(count, size); }
void *realloc(void *old, size_t size) { return refused(__builtin_return_address(0)) ? NULL : __libc_realloc(old, size); }
