/* Refuses one growth of a program's memory, and tells that it did. Built as a shared library and preloaded by
   tools/growths.py; it needs glibc.

   REFUSE_GROWTH         which growth is refused, counted from 1
   REFUSE_GROWTH_REPORT  the descriptor on which the refusal is told, in one line: "malloc 64"; and where the program ends by
                         exit, the count of all growths, in another: "growths 121"
   REFUSE_GROWTH_MARK    counting begins behind a write whose bytes begin with this text; without it, where main begins
   REFUSE_GROWTH_END     counting stops at a write whose bytes begin with this text, and goes on behind the next mark

   A growth is a malloc, a calloc, a realloc to more than the block holds, or one of their aligned kin. The program finds
   none of these variables, and no process that it starts is counted. Writes by stdio go past `write`, so a program that
   sets the mark calls `write` itself. */
#define _GNU_SOURCE
#include <dlfcn.h>
#include <errno.h>
#include <malloc.h>
#include <stdatomic.h>
#include <stdio.h>
#include <stdlib.h>
#include <string.h>
#include <sys/syscall.h>
#include <unistd.h>

extern void *__libc_malloc(size_t);
extern void *__libc_calloc(size_t, size_t);
extern void *__libc_realloc(void *, size_t);
extern void *__libc_memalign(size_t, size_t);

typedef int main_function(int, char **, char **);
typedef int start_function(main_function *, int, char **, void (*)(void), void (*)(void), void (*)(void), void *);

static main_function *program;
static long refused_growth;
static int report = -1;
static char mark[256], end[256];
static atomic_int is_counting;
static atomic_long growths;

static void tell(const char *word, size_t number) {
    char line[64];
    int length = snprintf(line, sizeof line, "%s %zu\n", word, number);
    syscall(SYS_write, report, line, (size_t)length);
}

static int is_refused(const char *call, size_t size) {
    if (!atomic_load(&is_counting) || atomic_fetch_add(&growths, 1) + 1 != refused_growth)
        return 0;
    tell(call, size);
    errno = ENOMEM;
    return 1;
}

void *malloc(size_t size) { return is_refused("malloc", size) ? NULL : __libc_malloc(size); }

void *calloc(size_t count, size_t size) {
    return is_refused("calloc", count * size) ? NULL : __libc_calloc(count, size);
}

void *realloc(void *block, size_t size) {
    int is_growth = block == NULL || size > malloc_usable_size(block);
    return is_growth && is_refused("realloc", size) ? NULL : __libc_realloc(block, size);
}

void *memalign(size_t alignment, size_t size) {
    return is_refused("memalign", size) ? NULL : __libc_memalign(alignment, size);
}

void *aligned_alloc(size_t alignment, size_t size) { return memalign(alignment, size); }

int posix_memalign(void **block, size_t alignment, size_t size) {
    void *found = memalign(alignment, size);
    if (found == NULL)
        return ENOMEM;
    *block = found;
    return 0;
}

static int begins_with(const void *bytes, size_t count, const char *text) {
    size_t length = strlen(text);
    return length > 0 && count >= length && memcmp(bytes, text, length) == 0;
}

ssize_t write(int descriptor, const void *bytes, size_t count) {
    if (begins_with(bytes, count, end))
        atomic_store(&is_counting, 0);
    ssize_t written = syscall(SYS_write, descriptor, bytes, count);
    if (begins_with(bytes, count, mark))
        atomic_store(&is_counting, 1);
    return written;
}

/* The variable is gone afterwards. */
static const char *take_variable(const char *name) {
    const char *value = getenv(name);
    unsetenv(name);
    return value;
}

static int counted_main(int count, char **words, char **variables) {
    const char *number = take_variable("REFUSE_GROWTH");
    const char *descriptor = take_variable("REFUSE_GROWTH_REPORT");
    const char *text = take_variable("REFUSE_GROWTH_MARK");
    const char *last = take_variable("REFUSE_GROWTH_END");
    unsetenv("LD_PRELOAD");
    refused_growth = number == NULL ? 0 : atol(number);
    report = descriptor == NULL ? -1 : atoi(descriptor);
    if (text != NULL)
        snprintf(mark, sizeof mark, "%s", text);
    if (last != NULL)
        snprintf(end, sizeof end, "%s", last);
    atomic_store(&is_counting, text == NULL);
    return program(count, words, variables);
}

__attribute__((destructor)) static void tell_count(void) {
    if (program != NULL)
        tell("growths", (size_t)atomic_load(&growths));
}

int __libc_start_main(main_function *function, int count, char **words, void (*init)(void), void (*fini)(void),
                      void (*loader_fini)(void), void *stack_end) {
    start_function *start = (start_function *)dlsym(RTLD_NEXT, "__libc_start_main");
    program = function;
    return start(counted_main, count, words, init, fini, loader_fini, stack_end);
}
