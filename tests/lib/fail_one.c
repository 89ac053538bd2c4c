// Loaded into a program before the C library. Of the program's requests for memory it refuses the one of the number that
// REFUSE_MEMORY gives, from 1; of its threads the one of the number that REFUSE_THREAD gives, or with a - behind the number
// that one and each later one. Where something was refused, the file is made that REFUSED names.
#define _GNU_SOURCE
#include <dlfcn.h>
#include <errno.h>
#include <fcntl.h>
#include <link.h>
#include <pthread.h>
#include <stdlib.h>
#include <string.h>
#include <unistd.h>

extern void *__libc_malloc(size_t), *__libc_realloc(void *, size_t), *__libc_calloc(size_t, size_t);

static unsigned long low, high, memory_at, thread_at;
static unsigned long requests, threads;
static int from_thread_on;

// The program's own addresses: what the C library asks for itself isn't refused.
static int of_program(struct dl_phdr_info *info, size_t size, void *data) {
    for (int k = 0; k < info->dlpi_phnum; k++) {
        if (info->dlpi_phdr[k].p_type != PT_LOAD) continue;
        unsigned long from = info->dlpi_addr + info->dlpi_phdr[k].p_vaddr;
        if (low == 0) low = from;
        high = from + info->dlpi_phdr[k].p_memsz;
    }
    return 1;
}

static unsigned long number(const char *name) {
    const char *text = getenv(name);
    return text ? strtoul(text, NULL, 10) : 0;
}

__attribute__((constructor)) static void begin(void) {
    dl_iterate_phdr(of_program, NULL);
    memory_at = number("REFUSE_MEMORY");
    thread_at = number("REFUSE_THREAD");
    const char *text = getenv("REFUSE_THREAD");
    from_thread_on = text && strchr(text, '-');
}

static void tell(void) {
    const char *file = getenv("REFUSED");
    if (file) close(open(file, O_CREAT | O_WRONLY, 0600));
}

static int refused(void *caller) {
    unsigned long at = (unsigned long)caller;
    if (memory_at == 0 || at < low || at >= high) return 0;
    if (__atomic_add_fetch(&requests, 1, __ATOMIC_SEQ_CST) != memory_at) return 0;
    tell();
    errno = ENOMEM;
    return 1;
}

void *malloc(size_t size) { return refused(__builtin_return_address(0)) ? NULL : __libc_malloc(size); }
void *calloc(size_t count, size_t size) { return refused(__builtin_return_address(0)) ? NULL : __libc_calloc(count, size); }
void *realloc(void *old, size_t size) { return refused(__builtin_return_address(0)) ? NULL : __libc_realloc(old, size); }

int pthread_create(pthread_t *thread, const pthread_attr_t *attr, void *(*start)(void *), void *with) {
    int (*create)(pthread_t *, const pthread_attr_t *, void *(*)(void *), void *) = dlsym(RTLD_NEXT, "pthread_create");
    unsigned long at = __atomic_add_fetch(&threads, 1, __ATOMIC_SEQ_CST);
    if (thread_at != 0 && (at == thread_at || (from_thread_on && at > thread_at))) {
        tell();
        return EAGAIN;
    }
    return create(thread, attr, start, with);
}
